"""The scheduler's state, and when one is damaged.

Any numbers at all can stand in a state; `damaged` tells which states no call
works on. Its tables have a fixed number of places and a count.
"""

from itertools import islice
from operator import lt as less
from typing import NamedTuple

from limits import INITIAL, HEADER, MAX_ITEM, MAX_LOG, MAX_OPEN, MAX_VERSIONS


class Version(NamedTuple):
    item: int
    stamp: int
    value: int
    mark: int


NO_VERSION = Version(0, 0, 0, 0)


class State(NamedTuple):
    last_begun: int
    open_count: int
    open_table: tuple       # MAX_OPEN stamps
    version_count: int
    version_table: tuple    # MAX_VERSIONS versions
    initial_marks: tuple    # one mark for each item
    used: int               # log bytes

    @classmethod
    def empty(cls):
        """The empty state: all zeros."""
        return cls(
            last_begun=0,
            open_count=0,
            open_table=(0,) * MAX_OPEN,
            version_count=0,
            version_table=(NO_VERSION,) * MAX_VERSIONS,
            initial_marks=(0,) * (MAX_ITEM + 1),
            used=0,
        )

    def open_stamps(self):
        """The open transactions' stamps."""
        return self.open_table[:self.open_count]

    def versions(self):
        """The versions held, initial ones not counted."""
        return self.version_table[:self.version_count]

    def with_open(self, stamps):
        """This state with these open stamps, zeros past their count."""
        rest = (0,) * (MAX_OPEN - len(stamps))
        return self._replace(open_count=len(stamps), open_table=tuple(stamps) + rest)

    def with_versions(self, versions):
        """This state with these versions, zeros past their count."""
        rest = (NO_VERSION,) * (MAX_VERSIONS - len(versions))
        return self._replace(
            version_count=len(versions), version_table=tuple(versions) + rest)


def rises_strictly(things):
    """Whether each thing is less than the next."""
    return all(map(less, things, things[1:]))


def open_do_not_rise(state, buffer_length):
    return not rises_strictly(state.open_stamps())


def versions_do_not_rise(state, buffer_length):
    """Whether versions do not rise strictly by item, then stamp."""
    return not rises_strictly([held[:2] for held in state.versions()])


def stamp_out_of_range(state, buffer_length):
    """Whether an open or version stamp is 0 or above the last begun one."""
    stamps = [*state.open_stamps(), *[held.stamp for held in state.versions()]]
    return bool(stamps) and (min(stamps) == INITIAL or max(stamps) > state.last_begun)


def mark_above_last_begun(state, buffer_length):
    """Whether a mark, of a version held or an initial one, is above the last begun stamp."""
    marks = [*state.initial_marks, *[held.mark for held in state.versions()]]
    return max(marks) > state.last_begun


def item_out_of_range(state, buffer_length):
    return max([held.item for held in state.versions()], default=0) > MAX_ITEM


def not_zero_past_count(state, buffer_length):
    """Whether a table place past its count is not all zeros."""
    zeroed = state.with_open(state.open_stamps()).with_versions(state.versions())
    return (state.open_table != zeroed.open_table
            or state.version_table != zeroed.version_table)


def used_out_of_range(state, buffer_length):
    """Whether the log bytes used are under 4, over 65,536 or over the buffer."""
    return not len(HEADER) <= state.used <= min(MAX_LOG, buffer_length)


FAULTS = (
    open_do_not_rise,
    versions_do_not_rise,
    stamp_out_of_range,
    mark_above_last_begun,
    item_out_of_range,
    not_zero_past_count,
    used_out_of_range,
)


def count_passes_limit(state):
    return state.open_count > MAX_OPEN or state.version_count > MAX_VERSIONS


def damaged(state, buffer_length):
    """Whether the state, with a log buffer of this length, is damaged."""
    if count_passes_limit(state):
        return True
    return any(fault(state, buffer_length) for fault in FAULTS)


def words_of(state):
    """The state's numbers in one list, field after field."""
    words = [state.last_begun, state.open_count, *state.open_table, state.version_count]
    for held in state.version_table:
        words.extend(held)
    return words + [*state.initial_marks, state.used]


def state_of_words(words):
    """The state with these numbers: any list of as many numbers is a state."""
    given = iter(words)

    def take(count):
        return tuple(islice(given, count))

    def take_versions():
        numbers = take(4 * MAX_VERSIONS)
        return tuple(map(Version, numbers[0::4], numbers[1::4], numbers[2::4], numbers[3::4]))

    return State(
        last_begun=next(given),
        open_count=next(given),
        open_table=take(MAX_OPEN),
        version_count=next(given),
        version_table=take_versions(),
        initial_marks=take(MAX_ITEM + 1),
        used=next(given),
    )
