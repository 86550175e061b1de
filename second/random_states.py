"""Random states, each with a buffer and an operation, made from its seed alone."""

from random import Random

from fixed_states import LENGTH, OPEN, VERSIONS, changed, words


def whole_state(rng):
    """A state that is not damaged with a buffer of 200 bytes; whether an operation ever
    comes to it is another matter."""
    last = rng.randrange(1, 12)
    opens = sorted(rng.sample(range(1, last + 1), rng.randrange(last + 1)))
    places = [(item, stamp) for item in (0, 1, 63) for stamp in range(1, last + 1)]
    held = sorted(rng.sample(places, rng.randrange(min(len(places), 9) + 1)))
    versions = [(*place, rng.randrange(5), rng.randrange(last + 1)) for place in held]
    marks = {item: rng.randrange(last + 1) for item in (0, 1, 63)}
    return words(last, opens, versions, marks, rng.choice([4, 50, 100, 185, 190, 195, 200]))


def large_state(rng):
    """A state that is not damaged with a buffer of 400 bytes: many are open, many versions are held, often all 32 or 1,024."""
    last = rng.choice([40, 100, 4294967295])
    stamps = rng.sample(range(1, last + 1), 40)
    opens = sorted(rng.sample(stamps, rng.choice([0, 1, 8, 31, 32, 32])))
    places = [(item, stamp) for item in range(64) for stamp in stamps]
    held = sorted(rng.sample(places, rng.choice([64, 500, 1023, 1024, 1024])))
    near = [0, 0, *stamps]
    versions = [(*place, rng.randrange(4294967296), rng.choice(near)) for place in held]
    marks = {item: rng.choice(near) for item in range(64)}
    return words(last, opens, versions, marks, rng.choice([4, 100, 384, 388, 392, 393, 400]))


def large_operation(rng, numbers):
    """An operation of a stamp that is open in the state with these numbers, or of one above all."""
    open_stamps = [stamp for stamp in numbers[OPEN:OPEN + 32] if stamp]
    kind = rng.choice([1, 2, 2, 3, 3, 3, 4, 5])
    if kind == 1 or not open_stamps:
        return 1, min(numbers[0] + rng.randrange(3), 4294967295), 0, 0
    item = rng.randrange(64) if kind in (2, 3) else 0
    return kind, rng.choice(open_stamps), item, rng.randrange(9) if kind == 3 else 0


def random_large_state(seed):
    """A state's numbers, a tenth of them damaged in one place, a buffer and an operation."""
    rng = Random(f"large state {seed}")
    numbers = large_state(rng)
    operation = large_operation(rng, numbers)
    if rng.random() < 0.1:
        numbers = changed(numbers, rng.randrange(LENGTH), rng.choice([0, 1, 64, 4294967295]))
    return numbers, bytes([170]) * 400, operation


def random_operation(rng, numbers):
    """An operation, mostly of a stamp that is open in the state with these numbers."""
    kind = rng.choice([1, 2, 2, 2, 3, 3, 3, 3, 4, 5])
    open_stamps = [stamp for stamp in numbers[OPEN:OPEN + 32] if stamp]
    stamp = rng.randrange(13)
    if kind != 1 and open_stamps and rng.random() < 0.9:
        stamp = rng.choice(open_stamps)
    item = rng.choice([0, 1, 63]) if kind in (2, 3) else 0
    value = rng.randrange(5) if kind == 3 else 0
    if rng.random() < 0.05:
        kind, item, value = rng.randrange(8), rng.randrange(70), rng.randrange(2)
    return kind, stamp, item, value


def random_state(seed):
    """A state's numbers, sometimes one of them changed, a buffer and an operation."""
    rng = Random(f"state {seed}")
    numbers = whole_state(rng)
    if rng.random() < 0.3:
        at = rng.choice([rng.randrange(LENGTH), rng.randrange(VERSIONS + 40)])
        numbers = changed(numbers, at, rng.choice([0, 1, numbers[at] + 1, 4294967295]))
    return numbers, bytes([170]) * 200, random_operation(rng, numbers)
