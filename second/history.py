"""What a log tells: its transactions, versions and reads, judged field by field."""

from typing import NamedTuple

from answers import Refused
from limits import (
    ABORT, BEGIN, COMMIT, INITIAL, MAX_COMMITTED, MAX_ITEM, READ, WRITE)
import log as the_log


class Read(NamedTuple):
    place: int
    reader: int
    item: int
    version: int    # the stamp of the version read


class History:
    """The log up to a place."""

    def __init__(self):
        self.begun = set()
        self.committed = set()
        self.aborted = set()
        self.values = {}    # (item, stamp) of each version written: its value
        self.reads = []

    def has_ended(self, stamp):
        return stamp in self.committed or stamp in self.aborted

    def has_written(self, item, stamp):
        return (item, stamp) in self.values

    def commits(self, stamp):
        """Whether the transaction commits; the initial one counts as committed."""
        return stamp == INITIAL or stamp in self.committed

    def committed_versions(self):
        """For each item that has some, the stamps of its committed versions, rising."""
        versions = {}
        for item, stamp in sorted(self.values):
            if stamp in self.committed:
                versions.setdefault(item, []).append(stamp)
        return versions

    def committed_reads(self):
        """The committed transactions' reads, by place."""
        return [read for read in self.reads if read.reader in self.committed]

    def take(self, place, record):
        """Adds a record that has no fault."""
        if record.tag == BEGIN:
            self.begun.add(record.stamp)
        elif record.tag == READ:
            self.reads.append(Read(place, record.stamp, record.item, record.version))
        elif record.tag == WRITE:
            self.values[record.item, record.stamp] = record.value
        elif record.tag == COMMIT:
            self.committed.add(record.stamp)
        elif record.tag == ABORT:
            self.aborted.add(record.stamp)


# The faults of a field, each judged against the log before it.

def stamp_wrong(history, record):
    """23: stamp 0, begun already, or not begun or already ended."""
    if record.stamp == INITIAL:
        return True
    if record.tag == BEGIN:
        return record.stamp in history.begun
    return record.stamp not in history.begun or history.has_ended(record.stamp)


def item_wrong(history, record):
    """24: item over 63, or second write of it by the same transaction."""
    if record.tag not in (READ, WRITE):
        return False
    if record.item > MAX_ITEM:
        return True
    return record.tag == WRITE and history.has_written(record.item, record.stamp)


def value_to_read(history, item, version):
    """The version's value, or None if it is not written earlier or aborted earlier."""
    if version == INITIAL:
        return 0
    if version in history.aborted:
        return None
    return history.values.get((item, version))


def own_write_passed_over(history, record):
    """Whether the reader has written the item and reads another version of it."""
    return (history.has_written(record.item, record.stamp)
            and record.version != record.stamp)


def version_wrong(history, record):
    """25: version not written earlier or aborted earlier; value differs; own earlier write
    not the one read."""
    if record.tag != READ:
        return False
    return (own_write_passed_over(history, record)
            or record.value != value_to_read(history, record.item, record.version))


FIELD_FAULTS = ((23, stamp_wrong), (24, item_wrong), (25, version_wrong))


def read_history(log):
    """The log's history. Refuses with 21 to 25; the first bad field decides, by its lowest
    code."""
    history = History()
    for place, record in the_log.walk(log):
        for code, is_wrong in FIELD_FAULTS:
            if is_wrong(history, record):
                raise Refused(code, place)
        history.take(place, record)
    return history


# The faults of a whole log.

def refuse_too_many(history):
    """26: over 256 committed."""
    if len(history.committed) > MAX_COMMITTED:
        raise Refused(26, 0)


def refuse_uncommitted_version(history):
    """27: committed reader of a version whose writer never commits, by the first such
    read's place."""
    for read in history.committed_reads():
        if not history.commits(read.version):
            raise Refused(27, read.place)


HISTORY_FAULTS = (refuse_too_many, refuse_uncommitted_version)


def judged_history(log):
    """The log's history. Refuses with 21 to 27."""
    history = read_history(log)
    for refuse in HISTORY_FAULTS:
        refuse(history)
    return history
