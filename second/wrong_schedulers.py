"""Wrong schedulers, one slip each."""

import log as the_log
import scheduler
import state as the_state
from limits import ABORT, BEGIN, COMMIT, INITIAL, READ, WRITE
from log import Record
from scheduler import Reply, held_of
from state import Version
from wrong import Wrong, wrong

RIGHT_CALL = scheduler.call
RIGHT_CODE_OF = scheduler.code_of
RIGHT_ABORTED = scheduler.aborted
RIGHT_ROWS = dict(scheduler.ROWS)
RIGHT_DUE = scheduler.record_due
RIGHT_ADD = scheduler.add_record
RIGHT_RAISED = scheduler.mark_raised


# What is chosen, and who waits.

def newest(state, item, stamp):
    return held_of(state, item)[-1]


def below_the_reader(state, item, reader):
    return [held for held in held_of(state, item)
            if held.stamp == INITIAL or held.stamp < reader][-1]


def newest_committed(state, item, reader):
    return [held for held in held_of(state, item)
            if held.stamp <= reader and (
                held.stamp == reader or held.stamp not in state.open_stamps())][-1]


def waits_for_itself(state, buffer_length, operation):
    if operation.kind != READ:
        return False
    version = scheduler.version_read(state, operation.item, operation.stamp)
    return version.stamp in state.open_stamps()


def waits_for_any_writer(state, buffer_length, operation):
    return operation.kind == READ and any(
        held.stamp != operation.stamp and held.stamp in state.open_stamps()
        for held in held_of(state, operation.item))


def waiting_read_leaves_mark(state, buffer, operation):
    after, reply = RIGHT_CALL(state, buffer, operation)
    if reply.code == 6:
        version = scheduler.version_read(state, operation.item, operation.stamp)
        after = scheduler.mark_raised(state, version, operation.stamp)
    return after, reply


def waiting_read_marks_initial(state, buffer, operation):
    after, reply = RIGHT_CALL(state, buffer, operation)
    if reply.code == 6:
        after = scheduler.mark_raised(
            state, held_of(state, operation.item)[0], operation.stamp)
    return after, reply


# Marks and lateness.

def without_marks_of(state, stamp):
    marks = tuple(0 if mark == stamp else mark for mark in state.initial_marks)
    versions = [held._replace(mark=0) if held.mark == stamp else held
                for held in state.versions()]
    return state._replace(initial_marks=marks).with_versions(versions)


def marks_lost_on_abort(state, operation):
    return without_marks_of(RIGHT_ABORTED(state, operation), operation.stamp)


def marks_lost_on_commit(state, operation):
    return without_marks_of(scheduler.committed(state, operation), operation.stamp)


def initial_marks_ignored(state, operation):
    version = scheduler.version_beneath(state, operation.item, operation.stamp)
    return 0 if version.stamp == INITIAL else version.mark


def versions_marks_ignored(state, operation):
    version = scheduler.version_beneath(state, operation.item, operation.stamp)
    return version.mark if version.stamp == INITIAL else 0


def last_read_of_item(state, operation):
    return max(held.mark for held in held_of(state, operation.item))


def newest_versions_mark(state, operation):
    return held_of(state, operation.item)[-1].mark


def any_items_mark(state, operation):
    marks = [held.mark for held in state.versions() if held.stamp < operation.stamp]
    return max([*marks, *state.initial_marks])


def mark_set(state, version, reader):
    lowered = version._replace(mark=0)
    versions = [lowered if held == version else held for held in state.versions()]
    return RIGHT_RAISED(state.with_versions(versions), lowered, reader)


def own_read_leaves_no_mark(state, version, reader):
    return state if version.stamp == reader else RIGHT_RAISED(state, version, reader)


def late_when_equal(state, buffer_length, operation):
    return (operation.kind == WRITE
            and scheduler.mark_beneath(state, operation) >= operation.stamp)


def never(state, buffer_length, operation):
    return False


def new_version_takes_mark(state, operation):
    beneath = scheduler.version_beneath(state, operation.item, operation.stamp)
    new = Version(operation.item, operation.stamp, operation.value, beneath.mark)
    return state.with_versions(sorted(state.versions() + (new,)))


# Ends.

def late_keeps_versions(state, operation):
    return scheduler.committed(state, operation)


def late_stays_open(state, operation):
    return state.with_versions(RIGHT_ABORTED(state, operation).versions())


def late_takes_other_version(state, operation):
    stay = [held for held in state.versions() if held.item != operation.item]
    return scheduler.committed(state, operation).with_versions(
        [held for held in stay if held.stamp != operation.stamp])


def stamp_free_again(state, operation):
    after = RIGHT_ABORTED(state, operation)
    return after._replace(last_begun=min(after.last_begun, operation.stamp - 1))


def appended(state, operation):
    new = Version(operation.item, operation.stamp, operation.value, 0)
    return state.with_versions(state.versions() + (new,))


def stamp_left_in_table(state, operation):
    return state._replace(open_count=state.open_count - 1)


def refused_begin_counts(state, buffer, operation):
    after, reply = RIGHT_CALL(state, buffer, operation)
    if operation.kind == BEGIN and reply.code in (4, 10):
        after = state._replace(last_begun=operation.stamp)
    return after, reply


def abort_takes_one(state, operation):
    own = [held for held in state.versions() if held.stamp == operation.stamp][:1]
    return scheduler.committed(state, operation).with_versions(
        [held for held in state.versions() if held not in own])


# Rows.

def rows(*codes):
    return tuple((code, RIGHT_ROWS[code]) for code in codes)


def ten_before(code):
    """The code that 10 goes before, and no other."""
    def code_of(state, buffer_length, operation):
        right = RIGHT_CODE_OF(state, buffer_length, operation)
        no_room = right == code and scheduler.no_log_room(state, buffer_length, operation)
        return 10 if no_room else right
    return code_of


def instead(code, applies):
    return tuple((each, applies if each == code else row) for each, row in scheduler.ROWS)


def full_even_when_late(state, buffer_length, operation):
    return operation.kind == WRITE and state.version_count == 1024


def full_at(count):
    def applies(state, buffer_length, operation):
        return (operation.kind == WRITE and state.version_count >= count
                and not scheduler.write_is_late(state, buffer_length, operation))
    return applies


def open_at(count):
    return lambda state, buffer_length, operation: (
        operation.kind == BEGIN and state.open_count >= count)


def begin_below(state, buffer_length, operation):
    return operation.kind == BEGIN and operation.stamp < state.last_begun


def begin_by_open_stamps(state, buffer_length, operation):
    return operation.kind == BEGIN and operation.stamp <= max(state.open_stamps(), default=0)


def item_63_wrong(state, buffer_length, operation):
    return RIGHT_ROWS[2](state, buffer_length, operation) or operation.item > 62


def unused_not_judged(state, buffer_length, operation):
    return operation.kind not in range(1, 6) or operation.stamp == 0 or (
        operation.kind in (READ, WRITE) and operation.item > 63)


def written_by_anyone(state, buffer_length, operation):
    return operation.kind == WRITE and len(held_of(state, operation.item)) > 1


def late_needs_write_room(state, operation):
    due = RIGHT_DUE(state, operation)
    return due if operation.kind != WRITE else Record(WRITE, due.stamp)


def no_late_room(state, buffer_length, operation):
    return not the_log.fits(buffer_length, state.used, late_needs_write_room(state, operation))


def late_cause_0(state, operation):
    return RIGHT_DUE(state, operation)._replace(cause=0)


def reader_for_version(state, operation):
    due = RIGHT_DUE(state, operation)
    return due._replace(version=due.stamp) if due.tag == READ else due


# Replies.

def changed_reply(code, change):
    def call(state, buffer, operation):
        after, reply = RIGHT_CALL(state, buffer, operation)
        return after, change(operation, reply) if reply.code == code else reply
    return call


def byte_past_record(buffer, used, record):
    code, end = RIGHT_ADD(buffer, used, record)
    if code == 0 and end < len(buffer):
        buffer[end] = 0
    return code, end


def first_call_only(state, buffer, operation):
    if state.last_begun == 0:
        return RIGHT_CALL(state, buffer, operation)
    return state, Reply(5, 0, 0)


def always_0(state, buffer, operation):
    return state, Reply(0, 0, 0)


def refuses_everything(state, buffer, operation):
    return state, Reply(5, 0, 0)


def no_versions(state, operation):
    return state


def effects(**changed):
    kinds = {"begin": BEGIN, "read": READ, "write": WRITE, "commit": COMMIT, "abort": ABORT}
    return {**scheduler.EFFECTS, **{kinds[name]: effect for name, effect in changed.items()}}


def aborts(name, instead_of_aborted):
    """A slip in what an abort leaves, late or asked."""
    return Wrong(name, ((scheduler, "aborted", instead_of_aborted),
                        (scheduler, "EFFECTS", effects(abort=instead_of_aborted))))


def lateness(name, instead_of_late):
    """A slip in when a write is late."""
    return Wrong(name, ((scheduler, "write_is_late", instead_of_late),
                        (scheduler, "ROWS", instead(8, instead_of_late))))


def changed_effect(name, by_calls=False, **changed):
    return wrong(name, scheduler, "EFFECTS", effects(**changed), by_calls)


def changed_rows(name, new_rows, by_calls=False):
    return wrong(name, scheduler, "ROWS", new_rows, by_calls)


def changed_row(name, code, applies, by_calls=False):
    return changed_rows(name, instead(code, applies), by_calls)


CHOICES = (
    wrong("the newest version is read", scheduler, "version_read", newest),
    wrong("the largest version below the reader is read", scheduler, "version_read",
          below_the_reader),
    wrong("an open version is passed over, no wait", scheduler, "version_read",
          newest_committed),
    changed_row("no read waits", 6, never),
    changed_row("a read waits for its own write", 6, waits_for_itself),
    changed_row("a read waits for any open writer of the item", 6, waits_for_any_writer),
    wrong("a waiting read leaves its mark", scheduler, "call", waiting_read_leaves_mark),
    wrong("a waiting read marks the initial version", scheduler, "call",
          waiting_read_marks_initial),
)

MARKS = (
    aborts("marks lost on abort", marks_lost_on_abort),
    changed_effect("marks lost on commit", commit=marks_lost_on_commit),
    wrong("initial marks ignored", scheduler, "mark_beneath", initial_marks_ignored),
    wrong("marks of versions ignored", scheduler, "mark_beneath", versions_marks_ignored),
    wrong("late by the item's last read", scheduler, "mark_beneath", last_read_of_item),
    wrong("late by the newest version's mark", scheduler, "mark_beneath",
          newest_versions_mark),
    wrong("late by a mark of any item", scheduler, "mark_beneath", any_items_mark),
    lateness("late at an equal mark", late_when_equal),
    lateness("never late", never),
    wrong("a mark is set, not raised", scheduler, "mark_raised", mark_set),
    changed_effect("no marks kept", read=no_versions),
    wrong("an own read leaves no mark", scheduler, "mark_raised", own_read_leaves_no_mark,
          by_calls=True),
    changed_effect("a new version takes the mark beneath", True, write=new_version_takes_mark),
)

ENDS = (
    wrong("a late write keeps its transaction's versions", scheduler, "aborted",
          late_keeps_versions),
    wrong("a late write leaves its transaction open", scheduler, "aborted", late_stays_open),
    wrong("a late write takes the item's other versions", scheduler, "aborted",
          late_takes_other_version),
    changed_effect("an abort keeps versions", abort=scheduler.committed),
    changed_effect("a commit drops versions", commit=RIGHT_ABORTED),
    changed_effect("an abort takes one version only", abort=abort_takes_one),
    aborts("an aborted stamp may begin again", stamp_free_again),
    changed_effect("versions stand as written, unsorted", write=appended),
    changed_effect("no versions kept", write=no_versions),
    changed_effect("an ended stamp is left in the table", commit=stamp_left_in_table),
    wrong("a begin refused with 4 or 10 counts as begun", scheduler, "call",
          refused_begin_counts),
)

ORDER_OF_ROWS = (
    changed_rows("3 before 2", rows(1, 3, 2, 4, 5, 6, 7, 9, 10, 8)),
    changed_rows("5 before 2", rows(1, 5, 2, 3, 4, 6, 7, 9, 10, 8)),
    changed_rows("4 before 3", rows(1, 2, 4, 3, 5, 6, 7, 9, 10, 8)),
    changed_rows("9 before 7", rows(1, 2, 3, 4, 5, 6, 9, 7, 10, 8)),
    *(wrong(f"10 before {code}", scheduler, "code_of", ten_before(code))
      for code in (3, 4, 5, 6, 7, 9)),
    changed_rows("late before 10", rows(1, 2, 3, 4, 5, 6, 7, 9, 8, 10)),
    changed_rows("late before 7", rows(1, 2, 3, 4, 5, 6, 8, 7, 9, 10), by_calls=True),
    changed_rows("2 before 1", rows(2, 1, 3, 4, 5, 6, 7, 9, 10, 8), by_calls=True),
    changed_row("9 even when late", 9, full_even_when_late),
)

LIMITS = (
    changed_row("31 open at most", 4, open_at(31)),
    changed_row("33 open at most", 4, open_at(33)),
    changed_row("1,023 versions at most", 9, full_at(1023)),
    changed_row("1,025 versions at most", 9, full_at(1025)),
    wrong("65,535 log bytes at most", the_log, "MAX_LOG", 65535),
    changed_row("begin may repeat the last stamp", 3, begin_below),
    changed_row("begin judged by the open stamps", 3, begin_by_open_stamps),
    changed_row("item 63 wrong", 2, item_63_wrong),
    changed_row("unused numbers not judged", 2, unused_not_judged, by_calls=True),
    changed_row("7 for an item that anyone has written", 7, written_by_anyone),
    changed_row("no 7", 7, never),
    changed_row("a late write asks the room of a write", 10, no_late_room),
)

REPLIES = (
    wrong("a late abort's cause is 0", scheduler, "record_due", late_cause_0),
    wrong("a read's record tells the reader twice", scheduler, "record_due",
          reader_for_version),
    wrong("late tells the writer's stamp", scheduler, "call", changed_reply(
        8, lambda operation, reply: Reply(8, operation.stamp, 0))),
    wrong("wait tells the reader's stamp", scheduler, "call", changed_reply(
        6, lambda operation, reply: Reply(6, operation.stamp, 0))),
    wrong("a byte written past the record", scheduler, "add_record", byte_past_record,
          by_calls=True),
    wrong("right on the first call only", scheduler, "call", first_call_only),
    wrong("always answers 0", scheduler, "call", always_0),
    wrong("refuses everything", scheduler, "call", refuses_everything),
)


def damages():
    """Each damage overlooked, one at a time."""
    for fault in the_state.FAULTS:
        others = tuple(each for each in the_state.FAULTS if each is not fault)
        name = fault.__name__.replace("_", " ")
        yield wrong(f"damage overlooked: {name}", the_state, "FAULTS", others, by_calls=True)
    yield wrong("damage overlooked: count passes limit", the_state, "count_passes_limit",
                lambda state: False, by_calls=True)
    yield changed_row("no damage at all seen", 1, never, by_calls=True)


WRONG = (*CHOICES, *MARKS, *ENDS, *ORDER_OF_ROWS, *LIMITS, *REPLIES, *damages())
