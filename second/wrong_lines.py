"""Wrong readers of operation lines, one slip each."""

import lines
from limits import READ
from wrong import wrong

RIGHT_OPERATION = lines.operation_of
RIGHT_NUMBER = lines.number_of
RIGHT_REPLY = lines.reply_line


def leading_zeros(word):
    return RIGHT_NUMBER(word.lstrip(b"0") or b"0") if word else None


def zero_is_none(word):
    return None if word == b"0" else RIGHT_NUMBER(word)


def wraps(word):
    return int(word) % 4294967296 if RIGHT_NUMBER(word[-1:]) is not None and (
        word.isdigit() and (word[:1] != b"0" or word == b"0")) else None


def held_at_largest(word):
    return min(int(word), 4294967295) if word.isdigit() and (
        word[:1] != b"0" or word == b"0") else None


def signed(word):
    return RIGHT_NUMBER(word[1:] if word[:1] == b"+" else word)


def any_spaces(line):
    return RIGHT_OPERATION(b" ".join(line.split()))


def spaces_runs(line):
    return RIGHT_OPERATION(b" ".join(word for word in line.split(b" ") if word))


def any_capitals(line):
    return RIGHT_OPERATION(line.lower())


def without_return(line):
    return RIGHT_OPERATION(line.rstrip(b"\r"))


def up_to_nul(line):
    return RIGHT_OPERATION(line.split(b"\0")[0])


def first_63(line):
    return RIGHT_OPERATION(line[:63].rstrip(b" "))


def by_first_letter(line):
    keyword, space, rest = line.partition(b" ")
    full = {word[:1]: word for word in lines.KEYWORDS}
    return RIGHT_OPERATION(full.get(keyword[:1], keyword) + space + rest)


def by_prefix(line):
    keyword, space, rest = line.partition(b" ")
    for word in lines.KEYWORDS:
        if keyword.startswith(word):
            return RIGHT_OPERATION(word + space + rest)
    return None


def numbers_left_over(line):
    words = line.split(b" ")
    count = lines.KEYWORDS.get(words[0], (0, 0))[1]
    return RIGHT_OPERATION(b" ".join(words[:count + 1]))


def item_in_a_byte(line):
    operation = RIGHT_OPERATION(line)
    return operation and operation._replace(item=operation.item % 256)


def last_needs_newline(data):
    return data.split(b"\n")[:-1]


def newline_starts_a_line(data):
    return data.split(b"\n")


def empty_lines_skipped(data):
    return [line for line in data.split(b"\n") if line]


def split_at_returns(data):
    return data.splitlines()


def long_lines_cut(size):
    def lines_of(data):
        pieces = []
        for line in data.removesuffix(b"\n").split(b"\n") if data else []:
            pieces += [line[at:at + size] for at in range(0, max(len(line), 1), size)]
        return pieces
    return lines_of


def numbers_changed_over(kind, reply):
    if reply.code == 0 and kind == READ:
        return f"value {reply.stamp} from {reply.value}"
    return RIGHT_REPLY(kind, reply)


def no_before_late(kind, reply):
    return "no 8" if reply.code == 8 else RIGHT_REPLY(kind, reply)


WRONG = (
    wrong("leading zeros taken", lines, "number_of", leading_zeros),
    wrong("0 is no decimal", lines, "number_of", zero_is_none),
    wrong("numbers wrap above the largest", lines, "number_of", wraps),
    wrong("numbers stop at the largest", lines, "number_of", held_at_largest),
    wrong("a plus sign taken", lines, "number_of", signed),
    wrong("any blanks taken", lines, "operation_of", any_spaces),
    wrong("double spaces taken", lines, "operation_of", spaces_runs),
    wrong("capitals taken", lines, "operation_of", any_capitals),
    wrong("a carriage return dropped", lines, "operation_of", without_return),
    wrong("a line ends at a NUL", lines, "operation_of", up_to_nul),
    wrong("a long line cut to 63 bytes", lines, "operation_of", first_63),
    wrong("a keyword by its first letter", lines, "operation_of", by_first_letter),
    wrong("a keyword with more letters taken", lines, "operation_of", by_prefix),
    wrong("numbers left over not seen", lines, "operation_of", numbers_left_over),
    wrong("items taken as one byte", lines, "operation_of", item_in_a_byte),
    wrong("a last line without newline dropped", lines, "lines_of", last_needs_newline),
    wrong("a final newline starts a line", lines, "lines_of", newline_starts_a_line),
    wrong("empty lines skipped", lines, "lines_of", empty_lines_skipped),
    wrong("carriage returns end lines", lines, "lines_of", split_at_returns),
    wrong("a long line is several of 64 bytes", lines, "lines_of", long_lines_cut(64)),
    wrong("a long line is several of 4,096 bytes", lines, "lines_of", long_lines_cut(4096)),
    wrong("value and stamp changed over", lines, "reply_line", numbers_changed_over),
    wrong("late told as no 8", lines, "reply_line", no_before_late),
)
