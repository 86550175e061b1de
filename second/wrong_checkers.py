"""Wrong judges of logs and orders, and wrong answers, one slip each."""

import checker
import history as the_history
import log as the_log
import order as the_order
from answers import Answer, Refused
from history import FIELD_FAULTS, History
from limits import BEGIN, HEADER, INITIAL, READ, WRITE
from wrong import Wrong, wrong

RIGHT_CHECK = checker.check
RIGHT_RECORD_AT = the_log.record_at
RIGHT_VERSION_ORDER = the_order.version_order
RIGHT_FIELD_AT = the_order.field_at
RIGHT_READ = the_history.read_history
RIGHT_WRITE_ORDER = the_order.write_timestamp_order
FAULTS = dict(FIELD_FAULTS)


# Codes.

def all_reads(self):
    return self.reads


def fault(code, is_wrong):
    return tuple((each, is_wrong if each == code else right) for each, right in FIELD_FAULTS)


def faults(*codes):
    return tuple((code, FAULTS[code]) for code in codes)


def never(history, record):
    return False


def begins_again_after_end(history, record):
    if record.tag == BEGIN and history.has_ended(record.stamp):
        return False
    return FAULTS[23](history, record)


def ended_not_seen(history, record):
    return record.stamp == 0 or (record.stamp in history.begun) == (record.tag == BEGIN)


def begins_must_rise(history, record):
    return FAULTS[23](history, record) or (
        record.tag == BEGIN and record.stamp < max(history.begun, default=0))


def stamp_0_begins(history, record):
    if record.tag == BEGIN:
        return record.stamp in history.begun
    return FAULTS[23](history, record)


def written_by_anyone(history, record):
    return FAULTS[24](history, record) or (
        record.tag == WRITE and any(item == record.item for item, _ in history.values))


def item_over_64(history, record):
    return record.tag in (READ, WRITE) and record.item != 64 and FAULTS[24](history, record)


def items_of_writes_only(history, record):
    return record.tag == WRITE and FAULTS[24](history, record)


def abort_ignored(history, item, version):
    return 0 if version == INITIAL else history.values.get((item, version))


def value_not_compared(history, record):
    return record.tag == READ and (
        the_history.own_write_passed_over(history, record)
        or the_history.value_to_read(history, record.item, record.version) is None)


def unwritten_is_zero(history, item, version):
    return 0 if version in history.aborted else history.values.get((item, version), 0)


def uncommitted_is_25(history, record):
    return FAULTS[25](history, record) or (
        record.tag == READ and record.version != record.stamp
        and not history.commits(record.version))


def own_write_seen(history, record):
    return False


def own_write_of_any_item(history, record):
    own = any(stamp == record.stamp for _, stamp in history.values)
    return own and record.version != record.stamp


def lowest_code_anywhere(log):
    """The lowest code of all bad fields decides, not the first bad field."""
    history, found = History(), []
    try:
        for place, record in the_log.walk(log):
            codes = [code for code, is_wrong in FIELD_FAULTS if is_wrong(history, record)]
            found += [(code, place) for code in codes[:1]]
            if not codes:
                history.take(place, record)
    except Refused as refused:
        found.append(refused.answer)
    if found:
        raise Refused(*min(found))
    return history


def too_many_at(count):
    def refuse(history):
        if len(history.committed) > count:
            raise Refused(26, 0)
    return (refuse, the_history.refuse_uncommitted_version)


def first_27_by_stamp(history):
    bad = [read for read in history.committed_reads() if not history.commits(read.version)]
    if bad:
        raise Refused(27, min(bad, key=lambda read: (read.reader, read.place)).place)


def last_27(history):
    bad = [read for read in history.committed_reads() if not history.commits(read.version)]
    if bad:
        raise Refused(27, bad[-1].place)


def every_reader_27(history):
    for read in history.reads:
        if read.version != read.reader and not history.commits(read.version):
            raise Refused(27, read.place)


def aborted_writer_27(history):
    for read in history.committed_reads():
        if read.version in history.aborted:
            raise Refused(27, read.place)


def history_faults(*refusals):
    return ((the_history, "HISTORY_FAULTS", refusals),)


# The log's front and fields.

def front(longest, header):
    def refuse_front(log):
        if len(log) > longest or log[:len(header)] != header:
            raise Refused(21, 0)
    return refuse_front


def header_tag_only(log):
    if len(log) > 65536 or len(log) < 4 or log[0] != 16:
        raise Refused(21, 0)


def cause_taken(log, place):
    if log[place:place + 3] == bytes([5, 0, 5]) and len(log) >= place + 8:
        stamp = int.from_bytes(log[place + 3:place + 7], "big")
        return the_log.Record(5, stamp, cause=min(log[place + 7], 1)), place + 8
    return RIGHT_RECORD_AT(log, place)


def place_of_body(log, place):
    try:
        return RIGHT_RECORD_AT(log, place)
    except Refused:
        raise Refused(22, place + 3) from None


def cut_at_the_end_taken(log):
    """A log that is cut within its last field is taken without it."""
    the_log.refuse_front(bytes(log))
    place = len(HEADER)
    while place + 3 <= len(log):
        length = log[place + 1] * 256 + log[place + 2]
        if place + 3 + length > len(log):
            return
        record, next_place = the_log.record_at(bytes(log), place)
        yield place, record
        place = next_place


def length_not_compared(log, place):
    body = the_log.BODIES.get(log[place])
    if body is None or place + 3 + body[0].size > len(log):
        raise Refused(22, place)
    size = body[0].size
    field = log[place:place + 1] + bytes([0, size]) + log[place + 3:place + 3 + size]
    record, _ = RIGHT_RECORD_AT(field, 0)
    return record, place + 3 + size


# Version orders.

def any_items(fields):
    return True


def items_may_repeat(fields):
    items = [item for item, _ in fields]
    return items == sorted(items)


def doubles_taken(fields, history):
    return {item: sorted(set(stamps)) for item, stamps in fields} == history.committed_versions()


def some_left_out(fields, history):
    versions = history.committed_versions()
    return all(len(set(stamps)) == len(stamps) > 0 and set(stamps) <= set(versions.get(item, []))
               for item, stamps in fields)


def items_left_out(fields, history):
    versions = history.committed_versions()
    return all(sorted(stamps) == versions.get(item) for item, stamps in fields)


def others_taken(fields, history):
    told = dict(fields)
    return all(set(stamps) <= set(told.get(item, []))
               for item, stamps in history.committed_versions().items())


def empty_fields_taken(fields, history):
    told = {item: sorted(stamps) for item, stamps in fields if stamps}
    return told == history.committed_versions()


def version_0_taken(fields, history):
    told = {item: sorted(stamp for stamp in stamps if stamp) for item, stamps in fields}
    return told == history.committed_versions()


def counted_only(fields, history):
    told = {item: len(stamps) for item, stamps in fields}
    return told == {item: len(stamps) for item, stamps in history.committed_versions().items()}


def rest_not_read(order):
    """Stops at the first thing that is no field."""
    fields, place = [], 0
    try:
        while place < len(order):
            field, place = the_order.field_at(order, place)
            fields.append(field)
    except Refused:
        pass
    return fields


def any_tag(order, place):
    return RIGHT_FIELD_AT(order[:place] + bytes([32]) + order[place + 1:], place)


def without_28(order, history):
    try:
        return RIGHT_VERSION_ORDER(order, history)
    except Refused:
        return history.committed_versions()


def order_first(log, order):
    """28 before 26 and 27."""
    history = the_history.read_history(log)
    versions = the_order.version_order(order, history)
    return the_history.judged_history(log), versions


# Answers.

def answer_before_order(log, order, answer):
    """29 before 28."""
    code, number = RIGHT_CHECK(log, order, answer)
    if code == 28 and len(answer) < 4 * len(RIGHT_READ(log).committed):
        return Answer(29, 0)
    return Answer(code, number)


def answer_by_length(log, order, answer):
    """29 asks 4 bytes for each stamp written, fewer for a short cycle."""
    whole = bytearray(max(len(answer), 1024))
    code, number = RIGHT_CHECK(log, order, whole)
    if code not in (0, 30):
        return Answer(code, number)
    if len(answer) < 4 * number:
        return Answer(29, 0)
    answer[:4 * number] = whole[:4 * number]
    return Answer(code, number)


def always_accepted(log, order, answer):
    code, number = RIGHT_CHECK(log, order, answer)
    return Answer(0 if code == 30 else code, number)


def made_up_length(log, order, answer):
    code, number = RIGHT_CHECK(log, order, answer)
    return Answer(code, number + 1 if code == 30 else number)


def writes_zeros_after(answer, stamps):
    written = b"".join(stamp.to_bytes(4, "big") for stamp in stamps)
    answer[:] = written + bytes(len(answer) - len(written))


def low_byte_first(answer, stamps):
    written = b"".join(stamp.to_bytes(4, "little") for stamp in stamps)
    answer[:len(written)] = written


def order_without_27(log, buffer):
    """The order call writes an order for a log that is refused with 27."""
    answer = RIGHT_WRITE_ORDER(log, buffer)
    if answer.code != 27:
        return answer
    written = the_order.order_bytes(RIGHT_READ(log).committed_versions())
    buffer[:len(written)] = written
    return Answer(0, len(written))


def order_must_leave_a_byte(log, buffer):
    """The order call answers 29 where the order just fits."""
    if len(buffer) == the_order.timestamp_order_length(log) > 0:
        return Answer(29, 0)
    return RIGHT_WRITE_ORDER(log, buffer)


def order_cut(log, buffer):
    """The order call writes what fits of an order that is too long, and answers 29."""
    answer = RIGHT_WRITE_ORDER(log, buffer)
    if answer.code == 29:
        written = the_order.order_bytes(RIGHT_READ(log).committed_versions())
        buffer[:] = written[:len(buffer)]
    return answer


def byte_past_order(log, buffer):
    answer = RIGHT_WRITE_ORDER(log, buffer)
    if answer.code == 0 and answer.number < len(buffer):
        buffer[answer.number] = 0
    return answer


def order_as_written(self):
    """The committed versions in the order in which the log has their writes."""
    versions = {}
    for item, stamp in self.values:
        if stamp in self.committed:
            versions.setdefault(item, []).append(stamp)
    return versions


def all_versions(self):
    versions = {}
    for item, stamp in sorted(self.values):
        if stamp not in self.aborted:
            versions.setdefault(item, []).append(stamp)
    return versions


FIELDS = (
    wrong("the lowest code of all fields", the_history, "read_history", lowest_code_anywhere),
    wrong("24 before 23", the_history, "FIELD_FAULTS", faults(24, 23, 25)),
    wrong("25 before 24", the_history, "FIELD_FAULTS", faults(23, 25, 24)),
    wrong("25 before 23", the_history, "FIELD_FAULTS", faults(25, 23, 24)),
    wrong("65,536 bytes too many", the_log, "refuse_front", front(65535, HEADER)),
    wrong("65,537 bytes taken", the_log, "refuse_front", front(65537, HEADER)),
    wrong("header by its tag only", the_log, "refuse_front", header_tag_only),
    wrong("any cause taken", the_log, "record_at", cause_taken),
    wrong("22 at the body's place", the_log, "record_at", place_of_body),
    wrong("lengths not compared", the_log, "record_at", length_not_compared),
    wrong("a cut last field passed over", the_log, "walk", cut_at_the_end_taken),
    wrong("an ended stamp begins again", the_history, "FIELD_FAULTS",
          fault(23, begins_again_after_end)),
    wrong("an ended stamp goes on", the_history, "FIELD_FAULTS", fault(23, ended_not_seen)),
    wrong("stamp 0 may begin", the_history, "FIELD_FAULTS", fault(23, stamp_0_begins)),
    wrong("begins must rise", the_history, "FIELD_FAULTS", fault(23, begins_must_rise)),
    wrong("no 24", the_history, "FIELD_FAULTS", fault(24, never)),
    wrong("24 for another's write", the_history, "FIELD_FAULTS", fault(24, written_by_anyone)),
    wrong("item 64 taken", the_history, "FIELD_FAULTS", fault(24, item_over_64)),
    wrong("items of reads not judged", the_history, "FIELD_FAULTS",
          fault(24, items_of_writes_only)),
    wrong("25 ignores an abort", the_history, "value_to_read", abort_ignored),
    wrong("25 ignores the value", the_history, "FIELD_FAULTS", fault(25, value_not_compared)),
    wrong("an unwritten version has value 0", the_history, "value_to_read", unwritten_is_zero),
    wrong("25 for a writer not yet committed", the_history, "FIELD_FAULTS",
          fault(25, uncommitted_is_25)),
    wrong("25 ignores the own write", the_history, "own_write_passed_over", own_write_seen),
    wrong("25 for an own write of any item", the_history, "own_write_passed_over",
          own_write_of_any_item),
)

WHOLE_LOGS = (
    Wrong("27 before 26", history_faults(
        the_history.refuse_uncommitted_version, the_history.refuse_too_many)),
    Wrong("255 committed at most", history_faults(*too_many_at(255))),
    Wrong("257 committed at most", history_faults(*too_many_at(257))),
    Wrong("27 by the smallest reader", history_faults(
        the_history.refuse_too_many, first_27_by_stamp)),
    Wrong("27 by the last such read", history_faults(the_history.refuse_too_many, last_27)),
    Wrong("27 for readers that never commit", history_faults(
        the_history.refuse_too_many, every_reader_27)),
    Wrong("27 for aborted writers only", history_faults(
        the_history.refuse_too_many, aborted_writer_27)),
    wrong("28 before 26 and 27", checker, "well_formed", order_first),
    wrong("reads of all transactions", History, "committed_reads", all_reads),
)

ORDERS = (
    wrong("28 overlooked", the_order, "version_order", without_28),
    wrong("items in any order", the_order, "items_rise", any_items),
    wrong("items may repeat", the_order, "items_rise", items_may_repeat),
    wrong("doubled versions taken", the_order, "each_stands_once", doubles_taken),
    wrong("versions may be left out", the_order, "each_stands_once", some_left_out),
    wrong("items may be left out", the_order, "each_stands_once", items_left_out),
    wrong("foreign versions taken", the_order, "each_stands_once", others_taken),
    wrong("empty fields taken", the_order, "each_stands_once", empty_fields_taken),
    wrong("version 0 taken", the_order, "each_stands_once", version_0_taken),
    wrong("versions counted only", the_order, "each_stands_once", counted_only),
    wrong("bytes after the fields taken", the_order, "fields_of", rest_not_read),
    wrong("any tag in an order", the_order, "field_at", any_tag),
    wrong("timestamp order as the log has it", History, "committed_versions",
          order_as_written),
    wrong("versions without an end in the order", History, "committed_versions", all_versions),
    wrong("the order call does not refuse 27", the_order, "write_timestamp_order",
          order_without_27, by_orders=True),
    wrong("an order that just fits is refused", the_order, "write_timestamp_order",
          order_must_leave_a_byte, by_orders=True),
    wrong("an order is cut to its buffer", the_order, "write_timestamp_order", order_cut,
          by_orders=True),
    wrong("a byte past the order changed", the_order, "write_timestamp_order", byte_past_order,
          by_orders=True),
)

ANSWERS = (
    wrong("29 before 28", checker, "check", answer_before_order),
    wrong("29 by the stamps written", checker, "check", answer_by_length),
    wrong("a cycle accepted", checker, "check", always_accepted),
    wrong("a made-up length", checker, "check", made_up_length),
    wrong("bytes past the last stamp changed", checker, "write_stamps", writes_zeros_after),
    wrong("stamps low byte first", checker, "write_stamps", low_byte_first),
)

WRONG = (*FIELDS, *WHOLE_LOGS, *ORDERS, *ANSWERS)
