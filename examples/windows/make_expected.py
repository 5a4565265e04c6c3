"""Prints what the program beside this file must print, from the same reports and no call of the library: what a window holds is the
set of its reports without those of the convicted engine, and every fix of a window of eight transmissions is shown.

    python3 examples/windows/make_expected.py > examples/windows/expected
"""

SECOND = 10**9
WINDOW = 4 * SECOND
START = 1731679200 * SECOND
TRANSMISSIONS, ENGINES, LIAR, ROOMS = 1200, 4, 3, 2
PLACES = 96
HEARD, READING, LINK, LATE, COPY = range(5)
M = 2**64 - 1


def drawn(kind, room, transmission, engine):
    x = ((kind * 4 + room) * 65536 + transmission) * 64 + engine + 1
    x = x * 0x9E3779B97F4A7C15 & M
    x = (x ^ x >> 30) * 0xBF58476D1CE4E5B9 & M
    x = (x ^ x >> 27) * 0x94D049BB133111EB & M
    return x ^ x >> 31


def time_of(t, e):
    return START + t * SECOND // 2 + SECOND // 10 + drawn(READING, 0, t, e) % 2000


def arrivals(room):
    """(arrival, transmission, engine) in the order of arrival, with how many are copies and how many are late."""
    got, copies, late = [], 0, 0
    for t in range(TRANSMISSIONS):
        for e in range(ENGINES):
            if drawn(HEARD, 0, t, e) % 16 == 0:
                continue
            at = time_of(t, e) + SECOND // 20 + drawn(LINK, room, t, e) % SECOND
            d = drawn(LATE, room, t, e)
            at += d // 20 % (60 * SECOND) if d % 20 == 0 else 0
            got.append((at, t, e))
            late += at // WINDOW > time_of(t, e) // WINDOW
            if drawn(COPY, room, t, e) % 25 == 0:
                got.append((at + SECOND, t, e))
                copies += 1
    return sorted(got), copies, late


def with_liar(held):
    return sum(any(e == LIAR for _, e in w) for w in held.values())


def run(room, got, window_of, forgets):
    """What each window holds in the end, how many reports had each answer, and at the conviction how many windows are open and how many
    of them hold a record of the convicted engine."""
    held, answers, convicted, told, seen = {}, {0: 0, 4: 0, 5: 0}, False, set(), None
    for i, (at, t, e) in enumerate(got):
        if i == len(got) // 2 + 200 * room:
            convicted = True
            seen, told = (len(held), with_liar(held)), set(held)
            held = {k: {r for r in w if r[1] != LIAR} for k, w in held.items()}
        number = window_of(at, t, e)
        window = held.setdefault(number, set())
        if convicted and e == LIAR and (number in told or not forgets):
            answers[4] += 1
        elif (t, e) not in window and len(window) == PLACES:
            answers[5] += 1
        else:
            window.add((t, e))
            answers[0] += 1
    return held, answers, seen


WORDS = {0: "done", 4: "engine convicted", 5: "full"}
NAMES = ["north", "south"]


def by_transmit_time(at, t, e):
    return (time_of(t, e) - START) // WINDOW


WAYS = [
    ("cut by transmit time", by_transmit_time, False),
    ("cut by transmit time, later windows are not told of the conviction", by_transmit_time, True),
    ("cut by arrival", lambda at, t, e: (at - START) // WINDOW, False),
    ("not cut", lambda at, t, e: 0, False),
]

feeds = [arrivals(r) for r in range(ROOMS)]
for name, (got, copies, late) in zip(NAMES, feeds):
    print(f"{name}: {len(got)} reports, {copies} of them copies, {late} after the end of their window")
for way, window_of, forgets in WAYS:
    print(f"\n{way}")
    both = []
    for r in range(ROOMS):
        held, answers, (windows, shown) = run(r, feeds[r][0], window_of, forgets)
        both.append(held)
        print(f"{NAMES[r]}: {len(feeds[r][0])} reports" + "".join(f", {n} answered {a} ({WORDS[a]})" for a, n in answers.items() if n))
        if window_of == by_transmit_time:
            line = f"{NAMES[r]}: of {windows} open windows engine 7 was on {shown} boards before its conviction, on 0 after"
            print(line + f", and of all windows on {with_liar(held)} in the end")
    north, south = both
    names = sorted(north.keys() | south.keys())
    same = sum(north.get(w) == south.get(w) for w in names)
    line = f"{len(names)} windows, {same} hold the same in both rooms, "
    if same < len(names):
        print(line + "boards differ")
        continue
    assert all(len({t for t, _ in w}) <= 8 for w in north.values())
    transmissions = sum(len({t for t, _ in w}) for w in north.values())
    fixes, most = sum(map(len, north.values())), max(map(len, north.values()))
    print(line + f"all boards are equal: {transmissions} transmissions, {fixes} fixes, at most {most} records in a window")
