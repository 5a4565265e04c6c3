"""Two control rooms get the reports of four engines over ten minutes, each in its own order, with copies and late ones, and cut them
by transmit time into windows with a register each. Half way engine 7 is convicted. In the end all boards are equal."""

from collections import Counter
from toastlagoon import Covariance, Desk, Error, Fields, Record, Register

SECOND, WINDOW, START = 10**9, 4 * 10**9, 1731679200 * 10**9
ENGINES = [(1, 3, 101), (2, 4, 102), (3, 4, 101), (7, 5, 103)]  # an engine's number, how many receivers it hears, and the first of them
LIAR, MODEL, SPEC, HEARD, READING, LINK, LATE, COPY = 7, 5, 1, *range(5)


def drawn(kind, room, transmission, engine):  # a number that depends on nothing but its arguments
    x = (((kind * 4 + room) * 65536 + transmission) * 64 + engine + 1) * 0x9E3779B97F4A7C15 % 2**64
    x = (x ^ x >> 30) * 0xBF58476D1CE4E5B9 % 2**64
    x = (x ^ x >> 27) * 0x94D049BB133111EB % 2**64
    return x ^ x >> 31


def time_of(t, e):
    return START + t * SECOND // 2 + SECOND // 10 + drawn(READING, 0, t, e) % 2000


def record(t, e):  # the aircraft flies north; the convicted engine puts it a tenth of a degree further, and cites no model
    number, tags, first = ENGINES[e]
    lat, models, spec = (1000000, [], 0) if number == LIAR else (0, [MODEL], SPEC)
    return Record(Fields(time=time_of(t, e), lat=lat + 481370000 + 1800 * t + 100 * e, lon=115820000, height=312400,
                         message=bytes.fromhex("8d3c6dd0") + t.to_bytes(3, "little"), tags=range(first, first + tags),
                         used=2**tags - 1, models=models, spec=spec, covariance=Covariance.diagonal(100.0)))  # fmt: skip


def arrivals(room):
    for t, e in ((t, e) for t in range(1200) for e in range(4) if drawn(HEARD, 0, t, e) % 16 != 0):
        late = drawn(LATE, room, t, e)
        at = time_of(t, e) + SECOND // 20 + drawn(LINK, room, t, e) % SECOND + (late // 20 % (60 * SECOND) if late % 20 == 0 else 0)
        yield from [(at, t, e), (at + SECOND, t, e)] if drawn(COPY, room, t, e) % 25 == 0 else [(at, t, e)]


def run(room, name):
    """The room's registers by their windows. Each has the summaries, and from half way on the conviction, also one that is opened later."""
    got, windows, answers = sorted(arrivals(room)), {}, Counter()
    half = len(got) // 2 + 200 * room
    for i, (_, t, e) in enumerate(got):
        window = windows.setdefault((time_of(t, e) - START) // WINDOW, Register())
        for number in (1, 2, 3):
            window.summary(number, MODEL, SPEC, bytes(32))
        for told in windows.values() if i == half else [window] if i > half else []:
            told.convict(Desk.MANAGER, LIAR)
        try:
            window.report(ENGINES[e][0], record(t, e))
            answers["0 (done)"] += 1
        except Error as error:
            answers[f"{error.kind.value} ({error})"] += 1
    print(f"{name}: {len(got)} reports, " + ", ".join(f"{n} answered {answer}" for answer, n in sorted(answers.items())))
    return windows


north, south = run(0, "north"), run(1, "south")
same = sum(north[w] == south.get(w) for w in north)
equal = north.keys() == south.keys() and all(north[w].board(Desk.MANAGER) == south[w].board(Desk.MANAGER) for w in north)
print(f"{len(north)} windows, {same} hold the same in both rooms, {'all boards are equal' if equal else 'boards differ'}")
