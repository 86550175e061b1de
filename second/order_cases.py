"""Cases for the program `orders`: a log for the order call, as the program reads it, and the line that the second program says it
prints.

A case is the log's length and the buffer's, four bytes each, high byte first, and the log's bytes. The file ends after the last
case. The line for a case has the code, the number and the hash of the buffer after the call; `told.py` has the hash, and the
buffer before the call.
"""

import struct

from order import write_timestamp_order
from told import buffer_before, hash_of

FRONT = struct.Struct(">II")
MOST = 65600        # bytes of a log or a buffer that the program takes


def is_taken(vector):
    return len(vector.log) <= MOST


def bytes_of(vector):
    """The vector as the program reads it."""
    return FRONT.pack(len(vector.log), vector.room) + vector.log


def line_of(vector):
    """The line that the program prints for the vector."""
    buffer = buffer_before(vector.room)
    code, number = write_timestamp_order(vector.log, buffer)
    return f"{code} {number} {hash_of(buffer)}"
