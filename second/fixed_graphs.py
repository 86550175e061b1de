"""Logs and version orders whose graphs have many shapes: paths, rings, chains, dense ones.
Each is a name, a log and an order."""

from by_hand import begins, commit, commits, log, order, read, write

X, Y = 0, 1


def readers_of_zero(pairs):
    """A log where, for each pair, the first reads from 0 an item that the second writes,
    which draws one edge; a new item for each pair. With its order."""
    stamps = sorted({stamp for pair in pairs for stamp in pair})
    fields = [begins(*stamps)]
    for item, (reader, writer) in enumerate(pairs):
        fields += [read(reader, item, 0, 0), write(writer, item, 7)]
    return log(*fields, commits(*stamps)), order(
        *[(item, [writer]) for item, (_, writer) in enumerate(pairs)])


EDGES = {
    "a path": [(3, 1), (1, 4), (4, 2)],
    "a path that rises": [(1, 2), (2, 3), (3, 4)],
    "a path that falls": [(4, 3), (3, 2), (2, 1)],
    "smallest first": [(5, 1), (2, 6), (3, 4)],
    "two fans": [(9, 1), (9, 2), (9, 3), (4, 8), (5, 8), (6, 8)],
    "freed in between": [(2, 1), (1, 9), (5, 3)],
    "a ring of three": [(1, 2), (2, 3), (3, 1)],
    "a ring of three the other way": [(1, 3), (3, 2), (2, 1)],
    "a ring of four": [(1, 3), (3, 2), (2, 4), (4, 1)],
    "two rings": [(1, 4), (4, 1), (2, 3), (3, 2)],
    "two rings apart": [(1, 2), (2, 1), (3, 4), (4, 3)],
    "two rings apart, the other first": [(3, 4), (4, 3), (1, 2), (2, 1)],
    "two rings, the smaller stamp in the longer": [(1, 4), (4, 5), (5, 1), (2, 3), (3, 2)],
    "the smallest left is on no ring": [(3, 4), (4, 3), (3, 1)],
    "far from the ring": [(8, 9), (9, 8), (8, 5), (5, 3), (3, 1)],
    "a free one before a ring": [(1, 2), (2, 3), (3, 2)],
    "a free one with an edge to the smallest left": [(1, 3), (5, 3), (3, 4), (4, 3), (2, 4)],
    "smallest predecessor": [(2, 1), (3, 1), (1, 2), (1, 3)],
    "smallest predecessor, told later": [(3, 1), (2, 1), (1, 3), (1, 2)],
    "the smaller predecessor is taken away": [(2, 4), (3, 4), (4, 3), (2, 3)],
    "the cycle's smallest is met last": [(5, 3), (3, 6), (6, 4), (4, 5), (5, 2)],
    "a ring within a ring": [(1, 2), (2, 3), (3, 4), (4, 1), (3, 2)],
    "predecessors on both sides": [(7, 2), (5, 2), (2, 5), (2, 7), (7, 5), (5, 7)],
}


def ring(stamps):
    return list(zip(stamps, stamps[1:] + stamps[:1]))


def rings():
    """Graphs edge by edge, and cycles of many lengths."""
    for name, pairs in EDGES.items():
        yield name, *readers_of_zero(pairs)
    for length in (2, 3, 5, 17, 64):
        rising = list(range(10, 10 + length))
        yield f"ring of {length}", *readers_of_zero(ring(rising))
        yield f"ring of {length}, falling", *readers_of_zero(ring(rising[::-1]))
        mixed = rising[::2] + rising[1::2][::-1]
        yield f"ring of {length}, mixed", *readers_of_zero(ring(mixed))
    far = list(range(50, 82))
    tail = list(zip([50] + list(range(40, 10, -1)), range(40, 10, -1)))
    yield "a ring of 32 and a tail of 30", *readers_of_zero(ring(far) + tail)
    yield "a path of 65", *readers_of_zero(list(zip(range(1, 65), range(2, 66))))
    yield "a path of 65, falling", *readers_of_zero(list(zip(range(65, 1, -1), range(64, 0, -1))))


def chain(count, closer=None):
    """Each transaction but the last reads X from the next larger and writes it, the order
    falls: edges from each to all smaller ones. Closed by an edge from one to the last, there
    is a cycle in which it and all larger ones stand; the walk comes to it by all smaller ones."""
    stamps = list(range(count, 0, -1))
    fields = [begins(*stamps), write(count, X, count)]
    for stamp in stamps[1:]:
        fields += [read(stamp, X, stamp + 1, stamp + 1), write(stamp, X, stamp)]
    if closer:
        fields += [read(closer, Y, 0, 0), write(count, Y, 1)]
    order_fields = [(X, stamps)] + ([(Y, [count])] if closer else [])
    return log(*fields, commits(*stamps)), order(*order_fields)


def all_read_and_write(count):
    """Each reads X from 0, then each writes it: edges from each to every other."""
    stamps = range(1, count + 1)
    reads = b"".join(read(stamp, X, 0, 0) for stamp in stamps)
    writes = b"".join(write(stamp, X, stamp) for stamp in stamps)
    return log(begins(*stamps), reads, writes, commits(*stamps)), order((X, stamps))


def dense():
    """Graphs with many edges."""
    yield "a cycle of 200", *chain(200, 1)
    yield "a cycle of 256", *chain(256, 1)
    yield "a cycle of 200 behind 56 others", *chain(256, 57)
    yield "a cycle of two behind 254 others", *chain(256, 255)
    yield "200 in a chain", *chain(200)
    yield "256 in a chain", *chain(256)
    for count in (100, 256):
        yield f"{count} read one item from 0 and write it", *all_read_and_write(count)
    one_reader = log(begins(*range(1, 257)), b"".join(
        write(stamp, X, stamp) for stamp in range(1, 256)), commits(*range(1, 256)),
        read(256, X, 128, 128), commit(256))
    rising = list(range(1, 256))
    yield "one reader of 255 versions", one_reader, order((X, rising))
    yield "one reader of 255 versions, falling", one_reader, order((X, rising[::-1]))
    yield "one reader of 255 versions, mixed", one_reader, order((X, rising[::2] + rising[1::2]))
    writers = range(1, 33)
    fields = [begins(*range(1, 61)), b"".join(
        write(stamp, item, stamp) for stamp in writers for item in range(8))]
    fields += [read(reader, item, (reader + item * 5) % 32 + 1, (reader + item * 5) % 32 + 1)
               for reader in range(33, 61) for item in range(8)]
    every = log(*fields, commits(*range(1, 61)))
    yield "28 readers of 8 items", every, order(*[(item, list(writers)) for item in range(8)])
    yield "28 readers of 8 items, turned", every, order(
        *[(item, [(stamp + item) % 32 + 1 for stamp in writers]) for item in range(8)])
