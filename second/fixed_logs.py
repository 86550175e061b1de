"""Logs and version orders for the checker: cases A to F, every code, what goes before what,
every cut and every limit; with the graphs of many shapes. Each is a name, a log, an order and the
length of the answer buffer."""

from by_hand import (
    HEADER, abort, begin, begins, commit, commits, field, four, log, order, read, write)
from fixed_graphs import X, Y, dense, rings

ANSWER = 1024       # bytes, as the check program has
LAST = 4294967295


def cases():
    """A to F, and what stands near them."""
    torn = log(begins(1, 2), read(1, X, 0, 0), write(1, Y, 5), read(2, Y, 0, 0),
               write(2, X, 6), commits(1, 2))
    yield "A", torn, order((X, [2]), (Y, [1]))
    yield "B", log(begins(1, 2), read(1, X, 0, 0), write(1, X, 5), read(2, X, 0, 0),
                   commits(1, 2)), order((X, [1]))
    three = log(begins(1, 2, 3), write(1, X, 5), write(2, X, 6), commits(1, 2),
                read(3, X, 1, 5), commit(3))
    yield "C", three, order((X, [1, 2]))
    yield "D", three, order((X, [2, 1]))
    yield "E", log(begins(2, 3), write(2, X, 5), write(2, Y, 6), commit(2),
                   read(3, X, 0, 0), read(3, Y, 2, 6), commit(3)), order((X, [2]), (Y, [2]))
    yield "F", HEADER, b""
    yield "both read and both write", log(
        begins(1, 2), read(1, X, 0, 0), read(2, X, 0, 0), write(1, X, 5), write(2, X, 6),
        commits(1, 2)), order((X, [1, 2]))
    yield "largest stamps", log(
        begins(LAST, LAST - 1), write(LAST, 63, LAST), commit(LAST),
        read(LAST - 1, 63, LAST, LAST), commit(LAST - 1)), order((63, [LAST]))
    yield "one that does nothing", log(begin(7), commit(7)), b""
    yield "without an end", log(begin(7), write(7, X, 1), read(7, X, 7, 1)), b""
    yield "aborted only", log(begin(7), write(7, X, 1), abort(7), begin(8), abort(8, 1)), b""


def own_reads():
    """A transaction that reads its own write: no edge."""
    fields = (begins(1, 2), write(1, X, 5), read(1, X, 1, 5), write(2, X, 6),
              read(2, X, 2, 6), commits(1, 2))
    yield "own reads, order 1 2", log(*fields), order((X, [1, 2]))
    yield "own reads, order 2 1", log(*fields), order((X, [2, 1]))
    yield "own read beside a read from 0", log(
        begins(1, 2), read(1, X, 0, 0), write(1, X, 5), read(1, X, 1, 5), write(2, X, 6),
        commits(1, 2)), order((X, [2, 1]))
    yield "own read, order 2 1, alone", log(
        begins(1, 2), write(2, X, 6), write(1, X, 5), read(1, X, 1, 5), commits(1, 2)
    ), order((X, [2, 1]))


def own_versions_of_readers():
    """A reader that also wrote the item: its own version is never the third one."""
    fields = (begins(1, 2, 3), write(1, X, 5), write(2, X, 6), commits(1, 2),
              read(3, X, 1, 5), write(3, X, 7), commit(3))
    for stamps in ([1, 2, 3], [2, 1, 3], [3, 1, 2], [3, 2, 1], [1, 3, 2], [2, 3, 1]):
        yield f"reader wrote it too, order {stamps}", log(*fields), order((X, stamps))
    only = log(begins(1, 2), write(1, X, 5), read(2, X, 1, 5), write(2, X, 6), commits(1, 2))
    yield "reader wrote it too, two versions", only, order((X, [1, 2]))
    yield "reader wrote it too, two versions turned round", only, order((X, [2, 1]))


def fronts():
    """21: header cut or wrong."""
    for length in range(4):
        yield f"header cut to {length}", HEADER[:length], b""
    for at in range(4):
        for byte in (0, 1, 2, 15, 16, 17, 32, 255):
            header = HEADER[:at] + bytes([byte]) + HEADER[at + 1:]
            yield f"header byte {at} is {byte}", header + begin(1) + commit(1), b""
    yield "header wrong and a bad field", bytes([16, 0, 1, 2]) + field(9, b""), b"\x00"
    yield "no header", begin(1) + commit(1), b""


def bad_fields():
    """22: unknown tag, wrong length, cut field, cause over 1."""
    before = log(begin(1))
    for tag in (0, 6, 7, 15, 16, 17, 32, 33, 127, 128, 254, 255):
        yield f"tag {tag}", before + field(tag, four(1)) + commit(1), b""
        yield f"tag {tag} and nothing", before + bytes([tag]), b""
    yield "second header", before + HEADER, b""
    yield "version order within the log", before + order((X, [1])), b""
    bodies = {1: 4, 2: 13, 3: 9, 4: 4, 5: 5}
    for tag, length in bodies.items():
        for wrong in (0, length - 1, length + 1, length + 256, 65535):
            name = f"tag {tag} with length {wrong}"
            yield name, before + bytes([tag, wrong >> 8, wrong & 255]) + bytes(300), b""
        for other in sorted(set(bodies.values()) - {length}):
            yield f"tag {tag} with the body of {other}", before + field(tag, bytes(other)), b""
    for cause in (0, 1, 2, 3, 128, 255):
        yield f"cause {cause}", before + abort(1, cause), b""
    yield "length bytes turned round", before + bytes([4, 4, 0]) + four(1), b""


def bad_stamps():
    """23: stamp 0, begun already, not begun, already ended."""
    kinds = {"begin": begin, "read": lambda stamp: read(stamp, X, 0, 0),
             "write": lambda stamp: write(stamp, X, 5), "commit": commit, "abort": abort}
    for name, make in kinds.items():
        yield f"{name} of stamp 0", log(begin(1), make(0), commit(1)), b""
        yield f"{name} before any begin", log(make(9)), b""
        yield f"{name} of one not begun", log(begin(1), make(9), commit(1)), b""
        yield f"{name} of one begun", log(begin(1), make(1)), b""
        yield f"{name} after its commit", log(begin(1), commit(1), make(1)), b""
        yield f"{name} after its abort", log(begin(1), abort(1), make(1)), b""
        yield f"{name} after its late abort", log(begin(1), abort(1, 1), make(1)), b""
        yield f"{name} before its begin", log(make(1), begin(1)), b""
    yield "begins that fall", log(begins(3, 2, 1), commits(2, 3, 1)), b""


def bad_items():
    """24: item over 63, second write of it."""
    for item in (63, 64, 128, 255):
        yield f"read of item {item}", log(begin(1), read(1, item, 0, 0)), b""
        yield f"write of item {item}", log(begin(1), write(1, item, 5)), b""
    yield "second write", log(begin(1), write(1, X, 5), write(1, X, 5), commit(1)), order((X, [1]))
    yield "second write of another value", log(begin(1), write(1, X, 5), write(1, X, 6)), b""
    yield "second write by another", log(
        begins(1, 2), write(1, X, 5), write(2, X, 5), commits(1, 2)), order((X, [1, 2]))
    yield "second write after another's", log(
        begins(1, 2), write(1, X, 5), write(2, X, 5), write(1, X, 5)), b""
    yield "second write after one that aborted", log(
        begins(1, 2), write(1, X, 5), abort(1), write(2, X, 5), commit(2)), order((X, [2]))


def bad_versions():
    """25: version not written earlier or aborted earlier; value differs; own earlier write
    not the one read."""
    def one(name, *fields, of=()):
        return name, log(begins(1, 2, 3), *fields), order(*of)

    yield one("version never written", read(2, X, 1, 0))
    yield one("version of one not begun", read(2, X, 9, 0))
    yield one("version written later", read(2, X, 1, 5), write(1, X, 5), commits(1, 2))
    yield one("version of another item", write(1, Y, 5), read(2, X, 1, 5))
    yield one("version aborted earlier", write(1, X, 5), abort(1), read(2, X, 1, 5))
    yield one("version late earlier", write(1, X, 5), abort(1, 1), read(2, X, 1, 5), commit(2))
    yield one("version aborted later, reader without an end",
              write(1, X, 5), read(2, X, 1, 5), abort(1))
    yield one("value differs", write(1, X, 5), read(2, X, 1, 6))
    yield one("value differs, version aborted earlier",
              write(1, X, 5), abort(1), read(2, X, 1, 6))
    yield one("value of 0 differs", read(2, X, 0, 1))
    yield one("value of 0, version of one not begun", read(2, X, 7, 0), commit(2))
    yield one("value differs in its high byte", write(1, X, 5), read(2, X, 1, 5 + (1 << 24)))
    yield one("own write not read, 0 read", write(2, X, 5), read(2, X, 0, 0))
    yield one("own write not read, another read",
              write(1, X, 4), write(2, X, 5), read(2, X, 1, 4))
    yield one("own write not read, same value", write(1, X, 5), write(2, X, 5), read(2, X, 1, 5))
    yield one("own write of another item", write(2, Y, 5), read(2, X, 0, 0), commit(2),
              of=[(Y, [2])])
    yield one("own write after the read", read(2, X, 0, 0), write(2, X, 5), commit(2),
              of=[(X, [2])])
    yield one("own version not written", read(2, X, 2, 0))
    yield one("own version not yet written", read(2, X, 2, 5), write(2, X, 5))
    yield one("own value differs", write(2, X, 5), read(2, X, 2, 4))
    yield one("own value read", write(2, X, 5), read(2, X, 2, 5), commit(2), of=[(X, [2])])
    yield one("value 0 written and read", write(1, X, 0), read(2, X, 1, 0), commits(1, 2),
              of=[(X, [1])])
    yield one("reader that aborts", write(1, X, 5), read(2, X, 1, 6), abort(2))


def many(count):
    """A log with this many committed transactions that do nothing."""
    return log(b"".join(begin(stamp) + commit(stamp) for stamp in range(1, count + 1)))


def counts():
    """26: over 256 committed."""
    yield "255 committed", many(255), b""
    yield "256 committed", many(256), b""
    yield "257 committed", many(257), b""
    yield "300 committed", many(300), b""
    yield "256 committed, one without an end, one aborted", (
        many(256) + begins(300, 301) + abort(301)), b""
    yield "256 committed, falling", log(b"".join(
        begin(stamp) + commit(stamp) for stamp in range(256, 0, -1))), b""
    yield "257 committed, answer too short", many(257), b"", 8
    yield "257 committed, bad order", many(257), b"\x00"
    unread = begins(900, 901) + write(900, X, 5) + read(901, X, 900, 5) + commit(901)
    yield "257 committed and a 27", many(256) + unread, b""
    yield "256 committed and a 27", many(255) + unread, b""
    yield "257 committed and a 25", many(257) + begin(900) + read(900, X, 0, 1), b""
    yield "257 committed and a 22", many(257) + b"\x07", b""
    yield "257 committed and a 23", many(257) + begin(1), b""
    yield "257 committed and a 24", many(257) + begin(900) + write(900, 64, 1), b""


def uncommitted():
    """27: committed reader of a version whose writer never commits."""
    def one(name, *fields, of=()):
        return name, log(begins(1, 2, 3), *fields), order(*of)

    dirty = write(1, X, 5) + read(2, X, 1, 5)
    yield one("writer without an end", dirty, commit(2))
    yield one("writer aborts after the read", dirty, abort(1), commit(2))
    yield one("writer aborts after the commit", dirty, commit(2), abort(1))
    yield one("writer commits after the reader", dirty, commit(2), commit(1), of=[(X, [1])])
    yield one("reader without an end", dirty, commit(3))
    yield one("reader aborts, writer without an end", dirty, abort(2))
    yield one("reader aborts, writer aborts", dirty, abort(2), abort(1))
    yield one("the second read is the first such", read(2, Y, 0, 0), write(3, Y, 1), commit(3),
              dirty, commit(2), of=[(Y, [3])])
    yield one("two such reads", write(1, X, 5), write(1, Y, 6), read(2, Y, 1, 6),
              read(3, X, 1, 5), commits(3, 2))
    yield one("two such reads, the larger reader first", write(1, X, 5), read(3, X, 1, 5),
              read(2, X, 1, 5), commits(2, 3))
    yield one("the first such reader never commits", write(1, X, 5), read(2, X, 1, 5),
              read(3, X, 1, 5), commit(3))
    yield one("own version, without an end", write(1, X, 5), read(1, X, 1, 5))
    yield one("27 and a bad order", dirty, commit(2), of=[(X, [9])])
    yield one("27 and a later 25", dirty, commit(2), read(3, X, 0, 1))
    yield "27 and a short answer", log(begins(1, 2), dirty, commit(2)), b"", 0


def precedence():
    """Two faults in one field, and two bad fields."""
    def one(name, *fields):
        return name, log(begins(1, 2), *fields), b""

    yield one("22 before 23 in a field", abort(0, 2))
    yield one("22 before 23, cut", read(0, 64, 9, 9)[:-1])
    yield one("23 before 24, write", write(9, 64, 1))
    yield one("23 before 24, read", read(0, 64, 0, 0))
    yield one("23 before 25", read(9, X, 9, 9))
    yield one("24 before 25", read(1, 64, 9, 9))
    yield one("24 before 25, value", read(1, 255, 0, 1))
    bad = {22: field(6, b""), 23: commit(9), 24: write(1, 64, 1), 25: read(2, X, 0, 1)}
    for code, fields in bad.items():
        for later, later_fields in bad.items():
            yield one(f"{code}, then {later}", fields, later_fields)
            yield one(f"{code}, a good one, then {later}", fields, write(1, Y, 1), later_fields)
    yield "21 and every other", bytes([16, 0, 1, 9]) + commit(9) + b"\x07", b"\x01", 0
    yield "25, order bad, answer short", log(begin(1), read(1, X, 0, 1), commit(1)), b"\x01", 0


GOOD_LOG = log(
    begins(1, 2, 3, 4, 5, 6), write(1, X, 10), write(2, X, 20), commit(1), read(3, X, 1, 10),
    write(3, 63, 30), commits(2, 3), write(4, X, 40), abort(4, 1), write(5, X, 50),
    write(6, Y, 60), write(6, X, 61), read(6, 63, 3, 30), commit(6))
GOOD_ORDER = order((X, [2, 1, 6]), (Y, [6]), (63, [3]))


def cuts():
    """Every cut of a small log and of its order, and bytes after them."""
    for length in range(len(GOOD_LOG) + 1):
        yield f"log cut to {length}", GOOD_LOG[:length], GOOD_ORDER
    for length in range(len(GOOD_ORDER) + 1):
        yield f"order cut to {length}", GOOD_LOG, GOOD_ORDER[:length]
    for more in (b"\x00", b"\x20", b"\x20\x00", b"\x20\x00\x00", b"\x20\x00\x01\x05", HEADER):
        yield f"order and {more.hex()} after it", GOOD_LOG, GOOD_ORDER + more
        yield f"log and {more.hex()} after it", GOOD_LOG + more, GOOD_ORDER


def each_byte_changed():
    """Each byte of the small log and of its order changed, one at a time."""
    for at in range(len(GOOD_LOG)):
        for change in (1, 128, 255):
            changed = bytearray(GOOD_LOG)
            changed[at] ^= change
            yield f"log byte {at} changed by {change}", bytes(changed), GOOD_ORDER
    for at in range(len(GOOD_ORDER)):
        for change in (1, 2, 7, 64, 255):
            changed = bytearray(GOOD_ORDER)
            changed[at] ^= change
            yield f"order byte {at} changed by {change}", GOOD_LOG, bytes(changed)
        yield f"order byte {at} taken out", GOOD_LOG, GOOD_ORDER[:at] + GOOD_ORDER[at + 1:]
        yield f"order byte {at} twice", GOOD_LOG, GOOD_ORDER[:at + 1] + GOOD_ORDER[at:]


BAD_ORDERS = {
    "items fall": [(Y, [6]), (X, [2, 1, 6]), (63, [3])],
    "an item twice": [(X, [2, 1, 6]), (X, [2, 1, 6]), (Y, [6]), (63, [3])],
    "an item in two fields": [(X, [2]), (X, [6, 1]), (Y, [6]), (63, [3])],
    "an item twice, the first empty": [(X, []), (X, [2, 1, 6]), (Y, [6]), (63, [3])],
    "an item twice, the second empty": [(X, [2, 1, 6]), (X, []), (Y, [6]), (63, [3])],
    "an item left out": [(X, [2, 1, 6]), (63, [3])],
    "the last item left out": [(X, [2, 1, 6]), (Y, [6])],
    "a version left out": [(X, [2, 6]), (Y, [6]), (63, [3])],
    "a version twice": [(X, [2, 6, 1, 2]), (Y, [6]), (63, [3])],
    "a version for another": [(X, [2, 6, 6]), (Y, [6]), (63, [3])],
    "a field empty": [(X, [2, 1, 6]), (Y, []), (63, [3])],
    "an empty field for an item without versions": [
        (X, [2, 1, 6]), (Y, [6]), (5, []), (63, [3])],
    "a foreign item": [(X, [2, 1, 6]), (Y, [6]), (5, [1]), (63, [3])],
    "an item over 63": [(X, [2, 1, 6]), (Y, [6]), (63, [3]), (64, [3])],
    "an item over 63, empty": [(X, [2, 1, 6]), (Y, [6]), (63, [3]), (64, [])],
    "item 255": [(X, [2, 1, 6]), (Y, [6]), (63, [3]), (255, [1])],
    "version 0 first": [(X, [0, 2, 6, 1]), (Y, [6]), (63, [3])],
    "version 0 last": [(X, [2, 6, 1, 0]), (Y, [6]), (63, [3])],
    "version 0 for one": [(X, [2, 0, 1]), (Y, [6]), (63, [3])],
    "a version that aborted": [(X, [2, 6, 1, 4]), (Y, [6]), (63, [3])],
    "a version without an end": [(X, [2, 5, 6, 1]), (Y, [6]), (63, [3])],
    "a foreign version": [(X, [2, 6, 1, 99]), (Y, [6]), (63, [3])],
    "a committed one that did not write it": [(X, [2, 6, 1, 3]), (Y, [6]), (63, [3])],
    "versions of two items changed over": [(X, [6]), (Y, [2, 1, 6]), (63, [3])],
    "empty": [],
}


def orders():
    """28: every order of the small log's item, and every way to be no version order."""
    for stamps in ([1, 2, 6], [1, 6, 2], [2, 1, 6], [2, 6, 1], [6, 1, 2], [6, 2, 1]):
        yield f"order {stamps}", GOOD_LOG, order((X, stamps), (Y, [6]), (63, [3]))
    for name, fields in BAD_ORDERS.items():
        yield f"order with {name}", GOOD_LOG, order(*fields)
    body = GOOD_ORDER[3:3 + 13]
    rest = order((Y, [6]), (63, [3]))
    for tag in (0, 16, 31, 33, 160, 255):
        yield f"order with tag {tag}", GOOD_LOG, field(tag, body) + rest
    for length in (0, 1, 2, 4, 5, 9, 12, 14, 16, 17, 269, 65535):
        front = bytes([32, length >> 8, length & 255])
        yield f"order with length {length}", GOOD_LOG, front + body + rest
    for count in (1, 2, 3):
        yield f"order with {count} bytes more in a field", GOOD_LOG, (
            field(32, body + bytes(count)) + rest)
    yield "order is a log", GOOD_LOG, HEADER
    yield "order for a log without versions", many(2), order((X, [1]))
    yield "empty field for a log without versions", many(2), order((X, []))
    yield "one zero for a log without versions", many(2), b"\x00"
    yield "order of 70,000 zeros", GOOD_LOG, bytes(70000)
    yield "order of 10,000 empty fields", many(2), order((X, [])) * 10000


def short_answers():
    """29: answer buffer under 4 bytes per committed transaction."""
    for length in (0, 1, 4, 15, 16, 17):
        yield f"four committed, {length} bytes", GOOD_LOG, GOOD_ORDER, length
    (_, torn, torn_order), *_ = cases()
    for length in (0, 7, 8, 9, 100):
        yield f"cycle of two, {length} bytes", torn, torn_order, length
        more = torn + begin(9) + commit(9)
        yield f"cycle of two among three, {length} bytes", more, torn_order, length
    yield "three with a cycle of two, 11 bytes", torn + begin(9) + commit(9), torn_order, 11
    yield "three with a cycle of two, 12 bytes", torn + begin(9) + commit(9), torn_order, 12
    yield "none committed, 0 bytes", HEADER, b"", 0
    yield "28 before 29", torn, b"", 0
    yield "256 committed, 1,023 bytes", many(256), b"", 1023
    yield "256 committed, 1,024 bytes", many(256), b"", 1024
    yield "256 committed, 2,000 bytes", many(256), b"", 2000


def lengths():
    """Logs of up to 65,536 bytes and more."""
    full = log(begins(1, 2), read(1, X, 0, 0) * 4094, commits(1, 2))
    yield "65,536 bytes", full, b""
    yield "65,537 bytes", full + b"\x01", b""
    yield "65,552 bytes, all good", full[:-7] + read(2, X, 0, 0) + full[-7:], b""
    yield "65,536 bytes, the last one cut", full[:-7] + read(2, X, 0, 0)[:7], b""
    yield "65,535 bytes, cut", full[:-1], b""
    yield "65,536 bytes, bad in the last field", full[:-7] + commit(3), b""
    yield "65,537 bytes and a bad field", full[:4] + b"\x09" + full[4:], b""
    yield "65,537 zeros", bytes(65537), b""
    yield "200,000 bytes", HEADER + begin(1) + bytes(200000), b""
    writes = log(begins(*range(1, 86)), b"".join(
        write(stamp, item, stamp) for stamp in range(1, 86) for item in range(63)),
        commits(*range(1, 86)))
    yield "5,355 writes", writes, order(*[(item, range(1, 86)) for item in range(63)])
    yield "5,355 writes, falling", writes, order(
        *[(item, range(85, 0, -1)) for item in range(63)])


def steps():
    """Stamps far apart, by one step from each to the next, as a table of stamps may not like them."""
    for step in (256, 8191, 8192, 65536, 16777216):
        stamps = [step * number for number in range(1, 201)]
        fields = [begins(*stamps)]
        for older, stamp in zip([0, *stamps], stamps):
            fields += [read(stamp, X, older, older), write(stamp, X, stamp), write(stamp, Y, step)]
        text = log(*fields, commits(*stamps))
        yield f"200 stamps that step by {step:,}", text, order((X, stamps), (Y, stamps[::-1]))
        yield f"200 stamps that step by {step:,}, one left out", text, order(
            (X, stamps), (Y, stamps[:-1]))
    stamps = [8191 * number for number in range(1, 9362)]
    yield "9,361 begins that step by 8,191", log(begins(*stamps)), b""
    yield "9,361 begins that step by 8,191, one twice", log(
        begins(*stamps[:-1]), begin(stamps[17])), b""
    yield "4,368 begins and aborts that step by 8,191", log(b"".join(
        begin(stamp) + abort(stamp) for stamp in stamps[:4368])), b""


PARTS = (
    cases, own_reads, own_versions_of_readers, fronts, bad_fields, bad_stamps, bad_items,
    bad_versions, uncommitted, precedence, cuts, each_byte_changed, orders, short_answers,
    rings, counts, lengths, dense, steps)


def fixed_logs():
    """Every name, log, order and answer length, the large ones last."""
    for part in PARTS:
        for name, log_bytes, order_bytes, *answer in part():
            yield name, log_bytes, order_bytes, (answer or [ANSWER])[0]
