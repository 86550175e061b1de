"""States of any numbers at all, with a log buffer and an operation: each damage, what is
none, and what no run of operations comes to. A state is one list of numbers: the last begun
stamp; the open count and 32 stamps; the version count and 1,024 times item, stamp, value,
mark; 64 initial marks; the log bytes used."""

BEGIN, READ, WRITE, COMMIT, ABORT = 1, 2, 3, 4, 5
LAST = 4294967295

OPEN_COUNT, OPEN = 1, 2
VERSION_COUNT, VERSIONS = 34, 35
MARKS = 35 + 4 * 1024
USED = MARKS + 64
LENGTH = USED + 1


def words(last, opens, versions, marks, used):
    """A state's numbers, zeros past each count."""
    numbers = [0] * LENGTH
    numbers[0] = last
    numbers[OPEN_COUNT] = len(opens)
    numbers[OPEN:OPEN + len(opens)] = opens
    numbers[VERSION_COUNT] = len(versions)
    for at, version in enumerate(versions):
        numbers[VERSIONS + 4 * at:VERSIONS + 4 * at + 4] = version
    for item, mark in marks.items():
        numbers[MARKS + item] = mark
    numbers[USED] = used
    return numbers


def changed(numbers, at, number):
    return numbers[:at] + [number] + numbers[at + 1:]


GOOD = words(
    9, [3, 5, 8], [(0, 2, 20, 5), (0, 5, 50, 0), (1, 3, 30, 0), (63, 2, 21, 9), (63, 8, 80, 8)],
    {0: 4, 1: 9, 2: 7}, 100)
BUFFER = bytes([170]) * 160

EACH_KIND = ((BEGIN, 10, 0, 0), (READ, 8, 2, 0), (WRITE, 8, 2, 7), (COMMIT, 5, 0, 0),
             (ABORT, 8, 0, 0))


def version_at(index, part):
    """Where a version's item (part 0), stamp (1), value (2) or mark (3) stands."""
    return VERSIONS + 4 * index + part


DAMAGES = {
    "33 open": [(OPEN_COUNT, 33)],
    "no end of open": [(OPEN_COUNT, LAST)],
    "1,025 versions": [(VERSION_COUNT, 1025)],
    "no end of versions": [(VERSION_COUNT, LAST)],
    "one open too few": [(OPEN_COUNT, 2)],
    "one open too many": [(OPEN_COUNT, 4)],
    "all 32 open": [(OPEN_COUNT, 32)],
    "one version too few": [(VERSION_COUNT, 4)],
    "one version too many": [(VERSION_COUNT, 6)],
    "all 1,024 versions": [(VERSION_COUNT, 1024)],
    "none open": [(OPEN_COUNT, 0)],
    "no versions": [(VERSION_COUNT, 0)],
    "open stamps equal": [(OPEN + 1, 3)],
    "open stamps fall": [(OPEN, 6)],
    "the last open stamp falls": [(OPEN + 2, 4)],
    "an open stamp 0": [(OPEN, 0)],
    "an open stamp above the last begun": [(OPEN + 2, 10)],
    "an open stamp far above": [(OPEN + 2, LAST)],
    "versions equal": [(version_at(1, 1), 2)],
    "versions fall by stamp": [(version_at(0, 1), 6)],
    "versions fall by item": [(version_at(2, 0), 63), (version_at(3, 0), 1)],
    "a version's stamp 0": [(version_at(0, 1), 0)],
    "a version's stamp above the last begun": [(version_at(4, 1), 10)],
    "a version's mark above the last begun": [(version_at(0, 3), 10)],
    "the last version's mark above": [(version_at(4, 3), LAST)],
    "an initial mark above the last begun": [(MARKS + 2, 10)],
    "the first initial mark above": [(MARKS, 10)],
    "the last initial mark above": [(MARKS + 63, LAST)],
    "item 64": [(version_at(4, 0), 64)],
    "item far above": [(version_at(4, 0), LAST)],
    "an open place past the count": [(OPEN + 3, 9)],
    "the last open place": [(OPEN + 31, 1)],
    "a version place past the count, item": [(version_at(5, 0), 63)],
    "a version place past the count, stamp": [(version_at(5, 1), 9)],
    "a version place past the count, value": [(version_at(5, 2), 1)],
    "a version place past the count, mark": [(version_at(5, 3), 1)],
    "the last version place": [(version_at(1023, 3), 1)],
    "no bytes used": [(USED, 0)],
    "3 bytes used": [(USED, 3)],
    "one byte over the buffer": [(USED, 161)],
    "65,537 bytes used": [(USED, 65537)],
    "no end of bytes used": [(USED, LAST)],
    "nothing begun": [(0, 0)],
    "last begun one too low": [(0, 8)],
}

NO_DAMAGES = {
    "as it is": [],
    "4 bytes used": [(USED, 4)],
    "all of the buffer used": [(USED, 160)],
    "last begun is the largest": [(0, LAST)],
    "a mark below its version's stamp": [(version_at(1, 3), 1)],
    "a mark above its version's next": [(version_at(0, 3), 9)],
    "an initial mark that is the last begun": [(MARKS + 63, 9)],
    "a version's stamp that is the last begun": [(version_at(4, 1), 9), (version_at(4, 3), 9)],
    "an open stamp that is the last begun": [(OPEN + 2, 9)],
    "a value of any size": [(version_at(0, 2), LAST)],
}


def with_changes(changes):
    numbers = GOOD
    for at, number in changes:
        numbers = changed(numbers, at, number)
    return numbers


def damages():
    """Each damage and each that is none, with each kind of operation."""
    for kind, *rest in EACH_KIND:
        operation = (kind, *rest)
        for name, changes in DAMAGES.items():
            yield f"damage, {name}, kind {kind}", with_changes(changes), BUFFER, operation
        for name, changes in NO_DAMAGES.items():
            yield f"no damage, {name}, kind {kind}", with_changes(changes), BUFFER, operation
        yield f"all zeros, kind {kind}", [0] * LENGTH, BUFFER, operation
        yield f"all ones, kind {kind}", [LAST] * LENGTH, BUFFER, operation
        yield f"buffer cut short, kind {kind}", GOOD, BUFFER[:99], operation
        yield f"buffer just used, kind {kind}", GOOD, BUFFER[:100], operation
        yield f"empty buffer, kind {kind}", GOOD, b"", operation
        log_full = changed(GOOD, USED, 65536)
        yield f"65,536 bytes used, kind {kind}", log_full, bytes(65536), operation
        yield f"65,536 used of more, kind {kind}", log_full, bytes(65600), operation
        yield f"65,537 used of more, kind {kind}", changed(GOOD, USED, 65537), bytes(
            65600), operation
        yield f"65,530 used of more, kind {kind}", changed(GOOD, USED, 65530), bytes(
            65600), operation


def numbers_wrong():
    """2: kind, stamp 0, item or unused number wrong; and 2 behind 1."""
    for kind in (0, 6, 7, 255, 256, 257, 65537, LAST):
        yield f"kind {kind}", GOOD, BUFFER, (kind, 10, 0, 0)
        yield f"kind {kind} of an open one", GOOD, BUFFER, (kind, 5, 0, 0)
    for kind, stamp, item, value in EACH_KIND:
        yield f"kind {kind}, stamp 0", GOOD, BUFFER, (kind, 0, item, value)
        yield f"kind {kind}, stamp not open", GOOD, BUFFER, (kind, 4, item, value)
        for number in (1, 63, 64, 255, 256, LAST):
            yield f"kind {kind}, item {number}", GOOD, BUFFER, (kind, stamp, number, value)
            yield f"kind {kind}, value {number}", GOOD, BUFFER, (kind, stamp, item, number)
        yield f"kind {kind}, item 64, value 1", GOOD, BUFFER, (kind, stamp, 64, 1)
        yield f"kind {kind}, stamp 0, damaged", [0] * LENGTH, BUFFER, (kind, 0, item, value)


def each_reply():
    """Every read and write of the good state, and every begin and end near a stamp of it."""
    for stamp in range(11):
        for item in (0, 1, 2, 63):
            yield f"read {stamp} {item}", GOOD, BUFFER, (READ, stamp, item, 0)
            yield f"write {stamp} {item}", GOOD, BUFFER, (WRITE, stamp, item, 6)
        for kind in (BEGIN, COMMIT, ABORT):
            yield f"kind {kind} of {stamp}", GOOD, BUFFER, (kind, stamp, 0, 0)


# 5 and 8 have written item 0, and the mark beneath 5's version is above 5: no run comes to
# this. 4's write of item 1 is late, 8's write of item 1 is not.
STRANGE = words(9, [4, 5, 8], [(0, 5, 50, 0), (0, 8, 80, 0), (1, 2, 20, 6)], {0: 9, 2: 9}, 100)


def full_of_versions(opens):
    """1,024 versions: 16 of each item, stamps 101 to 116; marks 116 on items 0 and 1."""
    versions = [(item, stamp, 0, 116 if item < 2 else 0)
                for item in range(64) for stamp in range(101, 117)]
    return words(200, opens, versions, {}, 100)


def full_tables():
    """Tables with no place left: 4 and 9, what goes before them, and a count too high."""
    full = full_of_versions([115, 150, 160])
    yield "9", full, BUFFER, (WRITE, 150, 2, 6)
    yield "9 before 10", full, BUFFER[:100], (WRITE, 150, 2, 6)
    yield "7 before 9", full, BUFFER, (WRITE, 115, 0, 6)
    yield "7 before 8 and 9", full, BUFFER, (WRITE, 115, 1, 6)
    yield "7 before 9 and 10", full, BUFFER[:100], (WRITE, 115, 2, 6)
    yield "abort frees 64", full, BUFFER, (ABORT, 115, 0, 0)
    late = full_of_versions([50, 115])
    late[MARKS + 5] = 51
    yield "late with 1,024 versions", late, BUFFER, (WRITE, 50, 5, 6)
    yield "late with 1,024 versions, 7 bytes left", late, BUFFER[:107], (WRITE, 50, 5, 6)
    yield "9 with a stamp below all", late, BUFFER, (WRITE, 50, 6, 6)
    yield "9 with 7 bytes left", late, BUFFER[:107], (WRITE, 50, 6, 6)
    many = words(100, list(range(1, 33)), [], {}, 100)
    yield "damage, all 32 open and one more", changed(many, OPEN_COUNT, 33), BUFFER, (
        COMMIT, 1, 0, 0)
    yield "damage, all 1,024 versions and one more", changed(full, VERSION_COUNT, 1025), BUFFER, (
        COMMIT, 115, 0, 0)
    yield "4", many, BUFFER, (BEGIN, 101, 0, 0)
    yield "3 before 4", many, BUFFER, (BEGIN, 100, 0, 0)
    yield "4 before 10", many, BUFFER[:100], (BEGIN, 101, 0, 0)
    yield "the first of 32 ends", many, BUFFER, (COMMIT, 1, 0, 0)
    yield "the last of 32 ends", many, BUFFER, (ABORT, 32, 0, 0)


def unreached():
    """What goes before what, where no run of operations comes to it."""
    yield "7 before 8", STRANGE, BUFFER, (WRITE, 5, 0, 6)
    yield "7 before 8 and 10", STRANGE, BUFFER[:100], (WRITE, 5, 0, 6)
    yield "late by a mark on 1", STRANGE, BUFFER, (WRITE, 4, 1, 6)
    yield "not late, mark on 1 below", STRANGE, BUFFER, (WRITE, 8, 1, 6)
    yield "late, 8 bytes left", STRANGE, BUFFER[:108], (WRITE, 4, 1, 6)
    yield "late, 7 bytes left", STRANGE, BUFFER[:107], (WRITE, 4, 1, 6)
    yield "late, version of its own goes too", STRANGE, BUFFER, (WRITE, 5, 1, 6)
    yield "6 before 10", GOOD, BUFFER[:100], (READ, 8, 1, 0)
    yield "read past an open version", STRANGE, BUFFER, (READ, 4, 0, 0)
    yield "3 before 10", GOOD, BUFFER[:100], (BEGIN, 9, 0, 0)
    begun = words(LAST, [], [], {}, 4)
    yield "G, nothing above the largest", begun, BUFFER, (BEGIN, LAST, 0, 0)


def small_buffers():
    """I and J in small buffers: the last record that fits, and one byte less."""
    fresh = words(0, [], [], {}, 4)
    one = words(1, [1], [], {}, 11)
    for length in (4, 10, 11, 12, 17, 18):
        yield f"first begin in {length} bytes", fresh, BUFFER[:length], (BEGIN, 1, 0, 0)
        yield f"second begin in {length} bytes", one, BUFFER[:length], (BEGIN, 2, 0, 0)
    sizes = {BEGIN: 7, READ: 16, WRITE: 12, COMMIT: 7, ABORT: 8}
    for kind, *rest in EACH_KIND:
        for room in (sizes[kind] - 1, sizes[kind], sizes[kind] + 1):
            yield f"kind {kind} with {room} bytes left", GOOD, BUFFER[:100 + room], (kind, *rest)


def fixed_states():
    """Every name, state's numbers, buffer and operation."""
    for part in (damages, numbers_wrong, each_reply, full_tables, unreached, small_buffers):
        yield from part()
