"""Lists of calls in which fixes wait on the shelf beside a track, in the form that src/main.rt reads."""
import struct

import layouts

LISTING = b"\3"


def report(engine, tags, models=(), *, time=1000, spec=0, **fields):
    return bytes([0, engine]) + layouts.record(tags, time=time, models=models, spec=spec, **fields)


def summary(engine, model, *, spec=0, inputs=1):
    return b"\1" + layouts.summary(engine, model, spec, bytes([inputs]) * 32)


def conviction(engine):
    return bytes([2, engine])


def many(count, models, *, engine=1, first=0):
    """So many reports, each of a transmission of its own."""
    return [report(engine, [100 + first + k], models, time=2000 + first + k) for k in range(count)]


def cases():
    # A fix waits, and is merged when its model arrives; an arrival of another model is none of its own.
    yield [report(1, [1], [5]), summary(2, 6), summary(2, 5), summary(3, 5), LISTING]
    # It waits under the first missing model in its order, which is not the least, then under the next, at the end.
    yield [report(1, [1], [6, 5], time=1), report(2, [2], [5], time=2), report(3, [3], [7, 6], time=3), report(4, [4], [6, 7], time=4),
           summary(9, 6), LISTING, summary(9, 5), summary(9, 7), LISTING]
    # Those that are tried keep their order among themselves, behind all that wait for others.
    yield [report(1, [1], [5, 6], time=1), report(1, [2], [5, 7], time=2), report(1, [3], [8], time=3), report(1, [4], [5, 6], time=4),
           summary(2, 5), summary(2, 6), LISTING, summary(2, 7), summary(2, 8), LISTING]
    # A repeat takes a place of its own, and so does the same record from another engine.
    yield [report(1, [1], [5], time=1), report(1, [2], [5], time=2), report(1, [1, 2], [5], time=3), report(1, [1, 2], [5], time=3),
           report(2, [1, 2], [5], time=3), summary(4, 5), LISTING]
    # Nested fixes that are tried in the order in which they came, and contested on the way.
    yield [report(1, [1, 2, 3], [5], lat=5400), report(1, [1], [5]), report(1, [1, 2], [5], lat=2700), summary(2, 5), LISTING]
    yield [report(1, [1], [5]), report(1, [1, 2], [5], lat=2700), report(1, [1, 2, 3], [5], lat=5400), summary(2, 5), LISTING]
    # Gone where it would be answered 7: of another spec, and where another cited model is disputed.
    yield [report(1, [1], [5], spec=1), summary(2, 5), LISTING, report(1, [2], [5], spec=1)]
    yield [summary(2, 6), summary(3, 6, inputs=2), report(1, [1], [6, 5]), report(1, [2], [5, 6]), summary(2, 5), LISTING, report(1, [1], [6, 5])]
    # A conviction throws out the engine's own, and the others close up.
    yield [report(1, [1], [5], time=1), report(2, [1], [5], time=1), report(1, [2], [6], time=2), report(3, [3], [6], time=3), conviction(1),
           report(1, [4], [5]), summary(4, 5), summary(4, 6), conviction(2), LISTING]
    # A conviction takes a model's only summary: what waits stays under its model, and then waits for the other.
    yield [summary(1, 5), report(2, [1], [5, 6]), conviction(1), summary(3, 6), summary(3, 5), LISTING]
    # A fix in the track whose model goes missing is dropped, and does not wait.
    yield [summary(1, 5), report(2, [1], [5]), conviction(1), LISTING, summary(3, 5), LISTING]
    # A dispute, and one that is settled, try none.
    yield [summary(1, 5), summary(2, 5, inputs=2), report(3, [1], [5, 6]), conviction(2), LISTING, summary(3, 6), LISTING]
    # Refused calls leave both: engine, record, convicted, model over 63, of an engine that is convicted.
    yield [report(1, [1], [5]), report(32, [1], [5]), report(1, [2, 1], [5]), conviction(2), report(2, [1], [5]), b"\1" + layouts.summary(1, 64, 0, bytes(32)),
           summary(2, 5), conviction(32), conviction(2), LISTING]
    # 64 wait: the next, a repeat too, is answered 13, before 7; one whose models all have summaries is taken; a place is free again after a conviction.
    yield [summary(9, 7), summary(8, 8, spec=1), *many(63, [5]), report(2, [1], [6], time=9), report(2, [2], [5]), report(2, [1], [6], time=9), report(2, [3], [8, 5]),
           report(2, [3], [8]), report(2, [4], [7]), conviction(2), report(3, [2], [6]), report(3, [3], [6]), LISTING]
    # All 64 are tried in one call.
    yield [*many(64, [5]), summary(2, 5), LISTING, report(3, [1], [6]), summary(2, 6)]
    # All 64 go to the end in one call, and then half of them leave.
    yield [*many(32, [5, 6]), *many(32, [5, 7], first=32), summary(2, 5), summary(2, 6), report(3, [1], [8]), summary(2, 7), LISTING]
    # Summaries are full: nothing is stored, so nothing is tried.
    yield [report(0, [1], [63]), *[summary(engine, model) for engine in range(1, 6) for model in range(51)], summary(6, 0), summary(6, 63), LISTING]


def lists():
    return b"".join(struct.pack("<H", len(calls)) + b"".join(calls) for calls in cases())
