"""Inputs of the run program: every reply, every limit, what goes before what, and every
kind of line that is no operation."""

WORKED_EXAMPLE = """
begin 10
write 10 1 7
begin 20
read 20 1
commit 10
read 20 1
begin 30
read 30 2
write 20 2 9
commit 20
begin 20
commit 30
"""

# Inputs told line by line; each shows one rule of the page.
SMALL = {
    "the worked example": WORKED_EXAMPLE,
    "begin must rise": "begin 5; begin 5; begin 4; begin 0; begin 6; commit 6; begin 6; begin 7",
    "G, the last stamp": """begin 4294967294; begin 4294967295; begin 4294967295; begin 1;
        begin 4294967296; begin 0; read 4294967295 63; write 4294967295 63 4294967295;
        read 4294967295 63; commit 4294967295; begin 4294967295""",
    "H, item 63 and item 64": """begin 1; read 1 63; read 1 64; write 1 63 5; write 1 64 5;
        read 1 63; read 1 4294967295; write 1 255 1; write 1 256 1; read 1 256""",
    "stamp 0 for each kind": "begin 0; read 0 1; write 0 1 1; commit 0; abort 0",
    "not begun": "read 1 1; write 1 1 1; commit 1; abort 1; begin 1; read 2 1; commit 2",
    "ended by a commit": "begin 1; commit 1; read 1 1; write 1 1 1; commit 1; abort 1",
    "ended by an abort": "begin 1; abort 1; read 1 1; write 1 1 1; commit 1; abort 1",
    "2 before 3": "begin 5; begin 0; begin 4294967296; begin 05",
    "2 before 5": "read 9 64; write 9 64 1; read 0 0; write 0 64 1",
    "read the largest at or below": """begin 1; begin 2; begin 3; write 2 0 22; commit 2;
        read 1 0; read 3 0; write 3 0 33; commit 3; begin 4; read 4 0; read 1 0""",
    "read between versions": """begin 1; write 1 7 11; commit 1; begin 2; begin 3; begin 4;
        write 4 7 44; commit 4; read 3 7; read 2 7; begin 5; read 5 7""",
    "read own version": """begin 1; write 1 0 5; read 1 0; begin 2; read 2 0; read 1 0;
        commit 1; read 2 0; write 2 0 6; read 2 0""",
    "read past another's open version": """begin 1; begin 2; write 2 0 5; read 1 0;
        begin 3; read 3 0; commit 2; read 3 0""",
    "wait, then the writer aborts": """begin 1; write 1 0 5; begin 2; read 2 0; abort 1;
        read 2 0""",
    "wait for the largest only": """begin 1; begin 2; write 1 0 5; write 2 0 6; begin 3;
        read 3 0; commit 2; read 3 0; read 2 0; commit 1""",
    "a waiting read leaves no mark": """begin 1; begin 2; begin 3; write 1 0 5; read 3 0;
        write 2 0 6; commit 1; read 3 0; commit 2; read 3 0""",
    "a waiting read leaves no initial mark": """begin 1; begin 2; begin 3; write 2 0 5;
        read 3 0; write 1 0 6; commit 2; commit 1""",
    "late by the initial mark": "begin 1; begin 2; read 2 0; write 1 0 5; read 1 0; begin 3",
    "late by a version's mark": """begin 1; write 1 0 5; commit 1; begin 2; begin 3;
        read 3 0; write 2 0 6; commit 2""",
    "late by a reader that aborted": """begin 1; begin 2; read 2 0; abort 2; write 1 0 5;
        commit 1""",
    "late by a reader of a version that aborted": """begin 1; write 1 0 5; commit 1; begin 2;
        begin 3; read 3 0; abort 3; write 2 0 6; commit 2""",
    "late by a reader that committed": "begin 1; begin 2; read 2 0; commit 2; write 1 0 5",
    "not late by a read of a later version": """begin 1; begin 2; begin 3; write 3 0 5;
        commit 3; begin 4; read 4 0; write 2 0 6; write 1 0 7; commit 1; commit 2""",
    "not late by a read of another item": "begin 1; begin 2; read 2 1; write 1 0 5; write 1 1 5",
    "not late by an equal mark": "begin 1; read 1 0; write 1 0 5; commit 1",
    "not late by a lower mark": "begin 1; read 1 0; begin 2; write 2 0 5; commit 2",
    "a mark is not lowered": """begin 1; begin 2; begin 3; read 3 0; read 1 0; write 2 0 5;
        commit 2""",
    "a version's mark is not lowered": """begin 1; write 1 0 5; commit 1; begin 2; begin 3;
        begin 4; read 4 0; read 2 0; write 3 0 6; commit 3""",
    "late judged beneath the write": """begin 1; write 1 0 5; commit 1; begin 2; begin 3;
        begin 4; write 2 0 6; commit 2; read 4 0; write 3 0 7; read 3 0""",
    "a late write takes all versions": """begin 1; begin 2; write 1 3 1; write 1 5 2;
        read 2 0; read 2 3; write 1 0 9; read 2 3; read 2 5; commit 1""",
    "a late write leaves others' versions": """begin 1; write 1 0 5; commit 1; begin 2; begin 3;
        read 3 0; write 2 0 6; read 3 0; begin 4; read 4 0""",
    "an abort takes its versions only": """begin 1; begin 2; write 1 3 1; write 2 3 2;
        write 2 5 3; abort 2; begin 3; commit 1; read 3 3; read 3 5""",
    "a commit keeps versions": "begin 1; write 1 0 5; commit 1; begin 2; read 2 0",
    "a mark goes with its version": """begin 1; write 1 0 5; read 1 0; abort 1; begin 2;
        begin 3; write 2 0 6; read 3 0; commit 2; read 3 0""",
    "a new version has mark 0": """begin 1; read 1 0; begin 2; begin 3; begin 4; read 2 0;
        write 3 0 5; commit 3; write 4 0 6; commit 4""",
    "an aborted stamp is not begun again": "begin 5; abort 5; begin 5; begin 6",
    "7, each item once": """begin 1; write 1 0 5; write 1 0 5; write 1 0 6; read 1 0;
        write 1 1 6; commit 1; begin 2; write 2 0 7; write 2 0 7""",
    "two write the same item": """begin 1; begin 2; write 2 0 5; write 1 0 6; write 1 0 7;
        commit 2; commit 1; begin 3; read 3 0""",
    "value 0 and the largest": """begin 1; write 1 0 0; write 1 1 4294967295; read 1 0;
        read 1 1; commit 1; begin 2; read 2 0; read 2 1""",
    "a refused begin may be tried again": "begin 1; begin 1; begin 2; begin 04; begin 4",
    "two readers and an older writer": """begin 1; begin 2; begin 3; read 2 0; read 3 0;
        write 1 0 5; begin 4; write 4 0 6; commit 4; commit 2; commit 3""",
}

# Lines that are no operation.
NO_OPERATION = {
    "the empty line": b"",
    "one space": b" ",
    "keyword alone": b"begin",
    "keyword and a space": b"begin ",
    "keyword and number together": b"begin1",
    "keyword with a letter more": b"begins 7",
    "keyword with a letter less": b"begi 7",
    "keyword in capitals": b"BEGIN 7",
    "keyword with one capital": b"Begin 7",
    "another word": b"start 7",
    "reply word": b"ok",
    "log": b"log 4",
    "number alone": b"7",
    "kind as a number": b"1 7",
    "space before": b" begin 7",
    "space after": b"begin 7 ",
    "double space": b"begin  7",
    "double space further on": b"write 5 1  2",
    "tab": b"begin\t7",
    "tab after": b"begin 7\t",
    "carriage return after": b"begin 7\r",
    "carriage return alone": b"\r",
    "form feed": b"begin 7\x0c",
    "NUL after": b"begin 7\x00",
    "NUL alone": b"\x00",
    "NUL between": b"begin\x007",
    "NUL within the keyword": b"be\x00gin 7",
    "NUL within the number": b"read 5 \x001",
    "high byte": b"begin 7\xff",
    "no-break space": b"begin\xc2\xa07",
    "digits of another script": "begin \u0667".encode(),
    "superscript digit": "begin \u00b2".encode(),
    "byte order mark": b"\xef\xbb\xbfbegin 7",
    "leading zero": b"begin 07",
    "two zeros": b"begin 00",
    "leading zero in the item": b"read 5 01",
    "leading zero in the value": b"write 5 1 01",
    "two zeros as the item": b"read 5 00",
    "plus sign": b"begin +7",
    "minus sign": b"begin -7",
    "minus zero": b"read 5 -0",
    "letter in a number": b"begin 7a",
    "hexadecimal": b"begin 0x7",
    "point": b"begin 7.0",
    "underscore": b"begin 1_0",
    "exponent": b"begin 1e1",
    "comma": b"read 5,1",
    "above the largest": b"begin 4294967296",
    "above the largest by ten": b"begin 4294967305",
    "above the largest, eleven digits": b"begin 10000000007",
    "two to the 64th and 7": b"begin 18446744073709551623",
    "above the largest item": b"read 5 4294967296",
    "above the largest, then item 1": b"read 5 4294967297",
    "above the largest value": b"write 5 1 4294967296",
    "above the largest value by 7": b"write 5 1 4294967303",
    "begin with two numbers": b"begin 7 0",
    "read with one number": b"read 5",
    "read with three numbers": b"read 5 1 0",
    "write with two numbers": b"write 5 1",
    "write with four numbers": b"write 5 1 2 3",
    "commit alone": b"commit",
    "commit with two numbers": b"commit 5 0",
    "abort with two numbers": b"abort 5 0",
    "abort cut": b"abor 5",
    "commit with a letter more": b"commits 5",
    "read with a letter more": b"reads 5 1",
    "readonly": b"readonly 5 1",
    "63 bytes": b"begin " + b"7" * 57,
    "64 bytes": b"begin " + b"7" * 58,
    "63 bytes of zeros": b"begin " + b"0" * 57,
    "64 bytes of zeros and a number": b"begin " + b"0" * 57 + b"7",
    "63 spaces": b" " * 63,
    "64 spaces": b" " * 64,
    "63 bytes that end in an operation": b"x" * 56 + b"begin 7",
    "64 bytes and an operation": b"x" * 64 + b"begin 7",
    "an operation and 64 spaces": b"begin 7" + b" " * 64,
    "an operation and 57 spaces": b"begin 7" + b" " * 57,
    "an operation and 56 spaces": b"begin 7" + b" " * 56,
    "65 bytes": b"begin " + b"7" * 59,
    "128 bytes and an operation": b"x" * 128 + b"begin 7",
    "256 bytes and an operation": b"x" * 256 + b"begin 7",
    "4,096 bytes and an operation": b"x" * 4096 + b"begin 7",
    "8,192 bytes and an operation": b"x" * 8192 + b"begin 7",
    "65,536 bytes and an operation": b"x" * 65536 + b"begin 7",
    "300,000 digits": b"begin " + b"7" * 300000,
    "300,000 spaces": b" " * 300000,
}

# Whole inputs, byte for byte.
WHOLE = {
    "empty input": b"",
    "one newline": b"\n",
    "two newlines": b"\n\n",
    "no final newline": b"begin 1\ncommit 1",
    "no final newline, one line": b"begin 1",
    "two final newlines": b"begin 1\n\n",
    "newline first": b"\nbegin 1\n",
    "every newline with a carriage return": b"begin 1\r\nread 1 1\r\ncommit 1\r\n",
    "carriage returns for newlines": b"begin 1\rcommit 1\r",
    "NUL at the very end": b"begin 1\n\x00",
    "a space at the very end": b"begin 1\n ",
    "no final newline after a bad line": b"begin 1\nbegin",
    "no final newline after a long line": b"begin 1\n" + b"x" * 70000,
    "no final newline after 64 bytes": b"begin 1\n" + b"x" * 64,
    "every byte as a line": b"".join(bytes([byte, 10]) for byte in range(256)),
    "every byte after an operation": b"".join(
        b"begin " + str(byte + 1).encode() + bytes([byte, 10]) for byte in range(256)),
    "every byte as the space": b"".join(
        b"begin" + bytes([byte]) + str(byte + 1).encode() + b"\n" for byte in range(256)),
    "3,000 empty lines": b"\n" * 3000,
    "every part of each keyword": b"begin 5\n" + b"".join(
        line[start:end] + rest + b"\n"
        for line, rest in ((b"begin", b" 7"), (b"read", b" 5 1"), (b"write", b" 5 1 2"),
                           (b"commit", b" 5"), (b"abort", b" 5"))
        for start in range(len(line)) for end in range(start, len(line) + 1)
        if end - start < len(line)),
}


def data_of(lines):
    return b"".join(line.encode() + b"\n" for line in lines)


def lines_of(text):
    return [line.strip() for line in text.replace(";", "\n").split("\n") if line.strip()]


def pad(amount, reader):
    """Lines that use just this many log bytes: reads of item 63, of 16 bytes, by an open
    reader, and begins and aborts of new stamps from 1,000, of 15 bytes together."""
    pairs = -amount % 16
    lines = [f"read {reader} 63"] * ((amount - 15 * pairs) // 16)
    for stamp in range(1000, 1000 + pairs):
        lines += [f"begin {stamp}", f"abort {stamp}"]
    return lines


# Item 2 has an open version of 20; item 1's initial version has mark 30: a write of it by
# 10 is late. 53 bytes with the header.
BEFORE_THE_END = lines_of("begin 10; begin 20; begin 30; write 20 2 5; read 30 1")


def with_room(room, tail):
    """Lines that leave the log this many bytes of room, then the tail."""
    return data_of(BEFORE_THE_END + pad(65536 - 53 - room, 30) + tail)


AT_THE_END = {
    "begin": (7, "begin 5000"),
    "read": (16, "read 30 3"),
    "read of own version": (16, "read 20 2"),
    "write": (12, "write 30 4 1"),
    "commit": (7, "commit 30"),
    "abort": (8, "abort 30"),
    "late write": (8, "write 10 1 9"),
}

FULL = lines_of("""begin 0; begin 5; begin 5000; read 30 64; read 99 1; write 99 1 1;
    commit 99; abort 99; read 30 2; read 30 3; read 20 2; write 20 2 6; write 20 3 6;
    write 10 1 9; commit 10; abort 10; write 30 1 4; commit 20; abort 20; read 30 2""")


def rooms():
    """Each kind with just its record's bytes left, and with one less."""
    for name, (size, line) in AT_THE_END.items():
        for room in (size - 1, size):
            yield (f"{name} with {room} bytes left",
                   with_room(room, [line, line, "commit 10", "read 30 2"]))
    for room in (0, 1, 6):
        yield f"each code with {room} bytes left", with_room(room, FULL)
    tail = lines_of("write 10 1 9; write 10 5 1; abort 10; commit 10; begin 5000")
    yield "late with 7 bytes left stays open", with_room(7, tail)
    yield "late with 8 bytes left", with_room(8, tail)
    tail = lines_of("begin 5000; abort 30; commit 30; abort 30; begin 5000")
    yield "abort with 7 bytes left, then commit", with_room(7, tail)


def opened(count):
    return [f"begin {stamp}" for stamp in range(1, count + 1)]


def open_limits():
    """32 and 33 open, and room after an abort, a commit and a late write."""
    yield "32 open", data_of(opened(32))
    yield "33 open", data_of(opened(33) + ["begin 33", "begin 32", "begin 0"])
    for end in ("abort 7", "commit 7", "commit 1", "abort 32"):
        yield (f"33 open, room after {end}",
               data_of(opened(33) + [end, "begin 33", "begin 34", "commit 33"]))
    tail = lines_of("read 32 0; begin 40; write 7 0 1; begin 40; begin 41; commit 40")
    yield "33 open, room after a late write", data_of(opened(32) + tail)
    for count in (256, 257):
        yield f"{count} committed one after the other", data_of(
            line for stamp in range(1, count + 1)
            for line in (f"begin {stamp}", f"write {stamp} 1 {stamp}", f"commit {stamp}"))
    lines = pad(65536 - 11 - 31 * 7, 1)
    late_begins = [f"begin {stamp}" for stamp in range(2000, 2031)]
    tail = ["begin 5", "begin 3000", "begin 0", "commit 2000", "read 1 0"]
    yield "4 before 10", data_of(["begin 1"] + lines + late_begins + tail)


def many_versions():
    """Lines that use 12,519 log bytes, after which 1,024 versions are held: 2001 to 2015
    have written all items and committed, 2016 all but item 0, 2017 item 1; 2018 is open."""
    lines = []
    for stamp in range(2001, 2016):
        lines.append(f"begin {stamp}")
        lines += [f"write {stamp} {item} {stamp * 100 + item}" for item in range(64)]
        lines.append(f"commit {stamp}")
    lines += ["begin 2016", "begin 2017", "begin 2018"]
    lines += [f"write 2016 {item} 1" for item in range(1, 64)]
    return lines + ["write 2017 1 1"]


def version_limits():
    """1,024 and 1,025 versions, what goes before 9, and room after an abort."""
    full = many_versions()
    yield "1,024 versions", data_of(full + lines_of("read 2017 1; read 2018 0; read 2018 9"))
    yield "1,025 versions", data_of(full + lines_of("""write 2017 2 1; write 2018 0 1;
        write 2017 1 2; write 2017 64 1; write 99 1 1; read 2018 0"""))
    yield "1,025 versions, room after an abort", data_of(full + lines_of("""write 2018 2 1;
        abort 2017; write 2018 2 1; write 2018 3 1; abort 2016; write 2018 3 1; read 2018 1"""))
    yield "1,025 versions, no room after a commit", data_of(full + lines_of("""
        write 2018 2 1; commit 2017; write 2018 2 1; commit 2016; write 2018 2 1"""))
    yield "1,025 versions, late", data_of(full + lines_of("""read 2018 0; write 2017 0 1;
        write 2018 2 5; write 2016 0 1; write 2017 2 5; write 2018 2 5; read 2018 1"""))


def versions_at_the_end():
    """1,024 and 1,023 versions in a log that is nearly full; the write of item 0 by 2016,
    where there is one, is late."""
    full = many_versions()
    before = 65536 - 11 - 12519 - 16
    for room in (0, 7, 8, 11, 12, 20):
        lines = ["begin 1"] + pad(before - room, 1) + full + ["read 2018 0"]
        yield f"1,024 versions and {room} bytes left", data_of(lines + lines_of("""
            write 2018 2 1; write 2017 1 1; read 2018 1; begin 2016; write 2016 0 1;
            write 2018 2 1; abort 2017; write 2018 2 1"""))
    lines = ["begin 1"] + pad(before - 11 + 12, 1) + full[:-1] + ["read 2018 0"]
    yield "1,023 versions and 11 bytes left", data_of(
        lines + lines_of("write 2017 1 1; commit 2016; write 2017 1 1"))


def small_inputs():
    """The small ones, whole inputs, and each line that is no operation between two."""
    for name, text in SMALL.items():
        yield name, data_of(lines_of(text))
    yield from WHOLE.items()
    for name, line in NO_OPERATION.items():
        data = b"begin 5\n" + line + b"\nread 5 1\nbegin 7\nwrite 5 1 2\n"
        yield f"no operation: {name}", data
        if len(line) < 100:
            yield f"no operation, no newline: {name}", b"begin 5\n" + line


def fixed_runs():
    """Every name and input, the small ones first."""
    yield from small_inputs()
    yield from open_limits()
    yield from version_limits()
    yield from versions_at_the_end()
    yield from rooms()
