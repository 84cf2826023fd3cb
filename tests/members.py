"""Which transactions of a script stand in logs that a run left: each is there whole or not at all, and no earlier one of its session is missing."""

import logs
import reports


def with_sum(found, key, by):
    """Adds to what was written at a key: to its number, or to what was added to one of others, a sum alone."""
    value = found.get(key, (0,))
    if isinstance(value, tuple):
        found[key] = ((value[0] + by) % logs.BEYOND,)
    elif value is not None:
        found[key] = (value + by) % logs.BEYOND


def writes_alone(transaction):
    """The last value of each key that it writes, None for none; where it only adds the sum, as a tuple. To go back is to have what was there at the savepoint."""
    found, saves = {}, []
    for line in transaction.lines:
        if line[0] == "put":
            found[line[1]] = line[2]
        elif line[0] == "del":
            found[line[1]] = None
        elif line[0] == "add":
            with_sum(found, line[1], line[2])
        elif line[0] == "save":
            saves.append(dict(found))
        elif line[0] == "back":
            found = dict(saves[line[1] - 1])
    return found


def writes_of(script):
    """What the transactions of each session write that commit, but those that write nothing."""
    sessions = [[writes_alone(it) for it in session if it.commits] for session in reports.sessions_of(script)]
    return [[it for it in session if it] for session in sessions]


def members(opened, run):
    """The transactions of a run that are committed in some log, with what they wrote in all of them, and didn't take back."""
    found = {it: {} for facts in opened for it in facts.committed if it[0] == run}
    for facts in opened:
        for record in facts.standing():
            if record[0] == "UPDATE" and record[1] in found:
                found[record[1]][record[2]] = logs.told(record[4])
            elif record[0] == "ADD" and record[1] in found:
                with_sum(found[record[1]], *record[2:])
    return found


def may_be_nothing(value):
    """Whether such a write may have written nothing: to take away what isn't there, or to add where no number is."""
    return value is None or isinstance(value, tuple)


def is_of(wrote, wanted):
    """Whether this is what a transaction wrote that leaves these values."""
    return wrote == {key: value for key, value in wanted.items() if not may_be_nothing(value) or key in wrote}


def is_passed_over(wanted, may_miss):
    """Whether a later one of its session may stand where this one doesn't: it may have written nothing, or was given up."""
    return may_miss or all(map(may_be_nothing, wanted.values()))


def wrong_in_session(wanted, done, may_miss):
    """What is wrong in the members of one session, by rising serials, if anything."""
    left = iter(wanted)
    for name, wrote in done:
        other = next((it for it in left if is_of(wrote, it) or not is_passed_over(it, may_miss)), None)
        if other is None or not is_of(wrote, other):
            return f"transaction {name} wrote {wrote}; the next of its session was to leave {other}"
    return None


def by_session(script, files, run):
    """What the members of each session wrote, by rising serials, with their names."""
    done = sorted(members(logs.opened(files)[1], run).items())
    return [[it for it in done if it[0][1] == number] for number in range(1, len(reports.sessions_of(script)) + 1)]


def wrong_in(script, files, run, may_miss=False):
    """What is wrong in the members of a run of a script without moves; None where all is well. Earlier ones of a session may be missing where
    transactions may have been given up."""
    found = [wrong_in_session(*it, may_miss) for it in zip(writes_of(script), by_session(script, files, run))]
    return next((it for it in found if it), None)


def missing(script, files, run, seen):
    """Those of these transactions, by session and place, that are no members though they write."""
    sessions, done = reports.sessions_of(script), by_session(script, files, run)
    wanted = [(session, writes_alone(sessions[session][place])) for session, place in seen.items()]
    return [it for session, it in wanted if it and not any(is_of(wrote, it) for _, wrote in done[session])]
