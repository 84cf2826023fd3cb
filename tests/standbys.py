"""What a standby shows: who its members are, and what they wrote.

Written from docs/COMMANDS.md; it shares no code with the program. A stream is the first records of a shard's log, read by logs.py.
"""

import logs


def home_and_parts(streams, transaction):
    """The shards on whose streams it has to have a COMMIT: its home, and the parts that the COMMIT there names; None where one is missing."""
    for home, stream in enumerate(streams):
        parts = stream.committed.get(transaction)
        if parts is None or stream.prepared.get(transaction, (home,))[0] != home:
            continue
        if all(part < len(streams) and transaction in streams[part].committed for part in parts):
            return (home, *parts)
    return None


def members(streams):
    """The greatest set of transactions that have a COMMIT on their home's stream and on that of each of its parts, and of which, on each of these, all
    with an earlier COMMIT are of the set."""
    orders = [[it[1] for it in stream.records if it[0] == "COMMIT"] for stream in streams]
    found = {it: home_and_parts(streams, it) for order in orders for it in order}
    found = {it: shards for it, shards in found.items() if shards is not None}
    while True:
        early = [len(list(front(order, found))) for order in orders]
        kept = {it: shards for it, shards in found.items() if all(orders[shard].index(it) < early[shard] for shard in shards)}
        if len(kept) == len(found):
            return set(found)
        found = kept


def front(order, found):
    """Those of an order before the first that isn't there."""
    for it in order:
        if it not in found:
            return
        yield it


def shown(streams):
    """What is shown of these streams: None while one has no record, else the pairs."""
    if not all(stream.records for stream in streams):
        return None
    done, pairs = members(streams), {}
    for stream in streams:
        for record in stream.standing():
            if record[1] in done and record[1] in stream.committed:
                logs.written(pairs, record)
    return {key: logs.told(value) for key, value in pairs.items() if value is not None}


def answer(files, counts):
    """What `standby` writes that is fed so many of the first records of each log, all where no number stands."""
    _, whole = logs.read_all(files)
    counts = [*counts, *[len(it.records) for it in whole[len(counts) :]]]
    pairs = shown([logs.Facts(it.shard, it.records[:count]) for it, count in zip(whole, counts)])
    return "not yet\n" if pairs is None else logs.shown(pairs)
