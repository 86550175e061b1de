"""The numbers of the page, each in one place."""

INITIAL = 0                 # the stamp of the initial transaction
MAX_NUMBER = 4294967295     # the largest stamp, and the largest value
MAX_ITEM = 63
MAX_OPEN = 32
MAX_VERSIONS = 1024
MAX_LOG = 65536
MAX_COMMITTED = 256
MAX_LINE = 63
MAX_CAUSE = 1

HEADER = bytes([16, 0, 1, 1])   # tag 16, length 1, body 1
ORDER_TAG = 32
STAMP_BYTES = 4

# Kinds of operations, and tags of the records they write.
BEGIN, READ, WRITE, COMMIT, ABORT = 1, 2, 3, 4, 5

# Causes of an abort.
ASKED, LATE = 0, 1
