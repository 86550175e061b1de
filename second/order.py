"""Version orders: reading one for a log, and writing the timestamp order of a log."""

from answers import Answer, Refused
import history as the_history
from limits import ORDER_TAG, STAMP_BYTES

FRONT_BYTES = 3     # tag 1, length 2


def field_at(order, place):
    """The item and stamps of the field at the place, and the place after it; refuses with
    28 what is no such field."""
    front = order[place:place + FRONT_BYTES]
    if len(front) < FRONT_BYTES or front[0] != ORDER_TAG:
        raise Refused(28, 0)
    length = int.from_bytes(front[1:], "big")
    body = order[place + FRONT_BYTES:place + FRONT_BYTES + length]
    if len(body) < length or length % STAMP_BYTES != 1:
        raise Refused(28, 0)
    stamps = [int.from_bytes(body[at:at + STAMP_BYTES], "big")
              for at in range(1, length, STAMP_BYTES)]
    return (body[0], stamps), place + FRONT_BYTES + length


def fields_of(order):
    """The fields in turn, each an item and its stamps; refuses with 28."""
    fields = []
    place = 0
    while place < len(order):
        field, place = field_at(order, place)
        fields.append(field)
    return fields


def items_rise(fields):
    items = [item for item, _ in fields]
    return all(item < next_item for item, next_item in zip(items, items[1:]))


def each_stands_once(fields, history):
    """Whether the fields have each committed version once, no other, and none is empty."""
    return {item: sorted(stamps) for item, stamps in fields} == history.committed_versions()


def version_order(order, history):
    """For each item with committed versions, their stamps oldest first, as the bytes give
    them; refuses with 28 what is not a version order of the log."""
    fields = fields_of(bytes(order))
    if not items_rise(fields) or not each_stands_once(fields, history):
        raise Refused(28, 0)
    return dict(fields)


def order_bytes(versions):
    """The fields for these items and stamps, items rising."""
    fields = []
    for item in sorted(versions):
        body = bytes([item]) + b"".join(
            stamp.to_bytes(STAMP_BYTES, "big") for stamp in versions[item])
        fields.append(bytes([ORDER_TAG]) + len(body).to_bytes(2, "big") + body)
    return b"".join(fields)


def write_timestamp_order(log, buffer):
    """The order call: writes the log's timestamp order into the buffer and answers 0 and
    the number of bytes. On 21 to 27, and on 29 for too short a buffer, writes nothing."""
    try:
        history = the_history.judged_history(log)
    except Refused as refused:
        return refused.answer
    written = order_bytes(history.committed_versions())
    if len(buffer) < len(written):
        return Answer(29, 0)
    buffer[:len(written)] = written
    return Answer(0, len(written))


def timestamp_order_length(log):
    """The length of the log's timestamp order, 0 where it has none."""
    try:
        return len(order_bytes(the_history.judged_history(log).committed_versions()))
    except Refused:
        return 0
