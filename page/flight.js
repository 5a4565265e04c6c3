// The flight of examples/windows/main.c: what two rooms get of four engines over ten minutes, each in an order of its own, with copies and
// late reports, and half way a conviction. examples/windows/expected says what becomes of it in windows of four seconds.
(function (root) {
  "use strict";
  const SECOND = 1000000000n, START = 1731679200n * SECOND, EVERY = SECOND / 2n, TRANSMISSIONS = 1200;
  const ENGINES = [{ number: 1, tags: 3, first: 101 }, { number: 2, tags: 4, first: 102 }, { number: 3, tags: 4, first: 101 }, { number: 7, tags: 5, first: 103 }];
  const LIAR = 3, MODEL = 5, SPEC = 1, HUNDRED = 0x4059000000000000n;
  const HEARD = 0, READING = 1, LINK = 2, LATE = 3, COPY = 4;
  const low = (n) => BigInt.asUintN(64, n);

  // A number that depends on nothing but its arguments (the last step of SplitMix64).
  function drawn(kind, room, transmission, engine) {
    let x = low(BigInt(((kind * 4 + room) * 65536 + transmission) * 64 + engine + 1) * 0x9e3779b97f4a7c15n);
    x = low((x ^ (x >> 30n)) * 0xbf58476d1ce4e5b9n);
    x = low((x ^ (x >> 27n)) * 0x94d049bb133111ebn);
    return x ^ (x >> 31n);
  }
  const transmitTime = (t, e) => START + BigInt(t) * EVERY + SECOND / 10n + (drawn(READING, 0, t, e) % 2000n);

  // The aircraft flies north; the convicted engine puts it a tenth of a degree further, and cites no model.
  function report(t, e) {
    const { number, tags, first } = ENGINES[e], lies = e === LIAR, byte = (n) => (n & 255).toString(16).padStart(2, "0");
    return { op: "report", engine: number, values: {
      time: transmitTime(t, e), lat: 481370000 + 1800 * t + 100 * e + (lies ? 1000000 : 0), lon: 115820000, height: 312400,
      message: `8d3c6dd0${byte(t)}${byte(t >> 8)}00`, tags: Array.from({ length: tags }, (_, i) => BigInt(first + i)), used: 2 ** tags - 1,
      models: lies ? [] : [MODEL], spec: lies ? 0 : SPEC, covariance: [HUNDRED, 0n, 0n, HUNDRED, 0n, HUNDRED] } };
  }

  // What arrives in a room. One report in sixteen is not heard, one in twenty comes up to a minute late, one in twenty-five comes twice.
  function flight(room) {
    const arrivals = [];
    for (let t = 0; t < TRANSMISSIONS; t++)
      for (let e = 0; e < ENGINES.length; e++) {
        if (drawn(HEARD, 0, t, e) % 16n === 0n) continue;
        const late = drawn(LATE, room, t, e);
        let at = transmitTime(t, e) + SECOND / 20n + (drawn(LINK, room, t, e) % SECOND);
        if (late % 20n === 0n) at += (late / 20n) % (60n * SECOND);
        const call = report(t, e);
        arrivals.push({ at, t, e, call });
        if (drawn(COPY, room, t, e) % 25n === 0n) arrivals.push({ at: at + SECOND, t, e, call });
      }
    arrivals.sort((a, b) => (a.at < b.at ? -1 : a.at > b.at ? 1 : a.t - b.t || a.e - b.e));
    const calls = arrivals.map(({ call }) => call);
    // (the later place first, so that it does not move)
    calls.splice(Math.floor(calls.length / 2) + 200 * room, 0, { op: "convict", engine: ENGINES[LIAR].number });
    const summaries = ENGINES.filter((_, e) => e !== LIAR).map(({ number }) => ({ op: "summary", engine: number, model: MODEL, spec: SPEC, inputs: "00".repeat(32) }));
    calls.splice(1000 * room, 0, ...summaries);
    return calls;
  }

  root.ToastlagoonFlight = { flight, length: 4n * SECOND };
})(globalThis);
