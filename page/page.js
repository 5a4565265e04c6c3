// The page: two rooms, their boards beside tally's merge, a map of each. What decides anything is in toastlagoon.wasm, which core.js calls.
(async function () {
  "use strict";
  const T = Toastlagoon, { TL } = T, $ = (id) => document.getElementById(id);
  const MOST_IN_LINK = 60000, MOST_LACKING = 6, FRESH = new Uint8Array(TL.REGISTER_SIZE);
  const LENGTHS = [["0", "not cut"], ...[1, 2, 4, 8, 15, 30, 60].map((seconds) => [String(seconds), `of ${seconds} s`])];

  const element = (name, attributes = {}, ...inside) => dress(document.createElement(name), attributes, inside);
  const svg = (name, attributes = {}, ...inside) => dress(document.createElementNS("http://www.w3.org/2000/svg", name), attributes, inside);
  function dress(made, attributes, inside) {
    for (const [name, value] of Object.entries(attributes)) if (value !== false) made.setAttribute(name, value);
    made.append(...inside);
    return made;
  }
  function fill(select, options, value) {
    select.replaceChildren(...options.map(([v, text]) => element("option", { value: v }, text)));
    select.value = value;
  }
  const count = (n, one, many = `${one}s`) => `${n} ${n === 1 ? one : many}`;
  // Lets the browser draw and listen.
  const pause = () => new Promise((done) => setTimeout(done));

  // What a stream of the browser's makes of bytes. (They are written to it as they are: a Blob would go through another process.)
  async function through(bytes, stream) {
    const writer = stream.writable.getWriter(), made = new Response(stream.readable).arrayBuffer();
    writer.write(bytes).catch(() => {});
    writer.close().catch(() => {});
    return new Uint8Array(await made);
  }
  const fromBase64 = (text) => Uint8Array.from(atob(text), (c) => c.charCodeAt(0));

  // A fault of this script, wherever it comes from, is shown and not passed over.
  const fault = (why) => say("bad", `A fault of the page: ${why?.stack ?? why}`);
  window.addEventListener("error", (event) => fault(event.error));
  window.addEventListener("unhandledrejection", (event) => fault(event.reason));

  let core;
  try {
    core = await T.load(await through(fromBase64(TOASTLAGOON_MODULE), new DecompressionStream("gzip")));
  } catch (why) {
    say("bad", `This browser does not run the module: ${why.message}. It needs WebAssembly with 64-bit memory.`);
    document.documentElement.dataset.ready = "not";
    return;
  }
  const made = TOASTLAGOON_MADE;
  $("made").textContent = `Toastlagoon ${TL.VERSION_MAJOR}.${TL.VERSION_MINOR}.${TL.PATCH}, module ${made.bytes} bytes, sha256 ${made.sha256}; commit ${made.commit}; kit ${made.kit}`;

  // What is seen, beside the rooms' calls. A window is a number (BigInt), a length is in nanoseconds; `only` is the transmission on the maps: a
  // number, "all" or "latest", which may be another in each room.
  const seen = { example: null, seed: 0, engine: null, desk: TL.MANAGER, length: 0n, window: null, only: "latest", zoom: { by: 1, east: 0, north: 0 }, notice: "" };
  const rooms = ["North", "South"].map((name) => ({ name, calls: [], source: "", problem: "" }));
  const [north, south] = rooms;
  const others = [[north, south], [south, north]];
  // Which comparison of windows, and which count of orders, is still wanted.
  let turn = 0, counting = 0;

  // ---- files

  function give(room, bytes, source) {
    Object.assign(room, { source, calls: [], problem: "" });
    Object.assign(seen, { example: null, notice: "", engine: null, only: "latest", window: null, zoom: { by: 1, east: 0, north: 0 } });
    try {
      const { kind, calls } = T.read(core, bytes);
      room.calls = calls;
      const reports = calls.filter((call) => call.op === "report").length;
      // A session that the program `session` takes is shown as the program shows it.
      if (reports > TL.MAX_RECORDS && !seen.length && !(kind === "session" && bytes.length <= TL.MAX_SESSION)) seen.length = ToastlagoonFlight.length;
    } catch (why) {
      if (!(why instanceof T.Refused)) throw why;
      room.problem = /^refused=/.test(why.message) ? why.message : `${source}: ${why.message}`;
    }
  }
  const bytesOf = (text) => new TextEncoder().encode(text);
  // The calls in the order that is shown, from now on; the seed counts from them.
  function settle() {
    for (const room of rooms) room.calls = room.ordered;
    Object.assign(seen, { example: null, notice: "", seed: 0 });
  }

  // ---- what follows of the calls

  function arrange() {
    turn++;
    const random = new T.Random(seen.seed);
    for (const room of rooms) room.ordered = seen.seed ? T.shuffled(room.calls, random) : room.calls;
    seen.numbers = T.windowNumbers(rooms.flatMap((room) => room.calls), seen.length);
    for (const room of rooms) room.windows = T.windowsOf(room.ordered, seen.length, seen.numbers);
    seen.survey = new Map();
    // The latest window whose board is not empty.
    if (seen.window === null || !seen.numbers.includes(seen.window))
      seen.window = seen.numbers.findLast((number) => rooms.some((room) => core.board(registerOf(room, number)))) ?? seen.numbers.at(-1);
  }
  const callsIn = (room, number) => room.windows.get(number);
  const registerOf = (room, number) => core.perform(FRESH, callsIn(room, number)).register;

  // A board's lines, each with its fix: a crew sees the ranked ones alone.
  function linesOf(text, fixes) {
    const shown = text.includes("dominated=") || !text ? fixes : fixes.filter((fix) => fix.role === "ranked");
    let next = 0;
    return text.split("\n").slice(0, -1).map((line) => (line.startsWith("role=") ? { line, fix: shown[next++], fixes } : { line, fix: null, fixes }));
  }
  function compute(room) {
    const calls = callsIn(room, seen.window);
    Object.assign(room, core.perform(FRESH, calls));
    room.now = core.board(room.register, seen.desk);
    room.lines = room.nowLines = linesOf(room.now, core.fixes(room.register));
    room.shown = room.now;
    if (seen.engine !== null) {
      room.shown = core.preview(room.register, seen.engine);
      const copy = core.perform(room.register, [{ op: "convict", engine: seen.engine }]).register;
      room.lines = linesOf(room.shown, core.fixes(copy));
    }
    room.merge = core.follow(calls);
    room.full = room.answers.filter((answer) => answer === TL.FULL).length;
  }

  function update() {
    arrange();
    render();
    survey(turn);
    $("rooms").dataset.turn = String(turn);
  }
  function render() {
    counting++;
    rooms.forEach(compute);
    for (const [mine, other] of others) mine.lacks = T.callsOfRegister(core.lacks(mine.register, other.register));
    renderTools();
    for (const room of rooms) renderRoom(room);
    drawMaps();
    renderVerdict();
  }

  function renderTools() {
    const engines = [...new Set(rooms.flatMap((room) => room.calls.map((call) => call.engine)))].filter((n) => n <= TL.MAX_ENGINE).sort((a, b) => a - b);
    if (seen.engine !== null && !engines.includes(seen.engine)) engines.push(seen.engine);
    fill($("engine"), [["", "nobody"], ...engines.map((n) => [String(n), `engine ${n}`])], seen.engine === null ? "" : String(seen.engine));
    $("engine").disabled = seen.desk === TL.CREW;
    $("convict").hidden = seen.engine === null;
    $("convict").disabled = seen.desk !== TL.MANAGER;
    $("example").value = seen.example ?? "";
    $("desk").value = String(seen.desk);
    $("seed").value = String(seen.seed);
    $("address").hidden = true;
    $("windows").classList.toggle("whole", !seen.length);
    const length = String(seen.length / 1000000000n);
    fill($("length"), LENGTHS.some(([value]) => value === length) ? LENGTHS : [...LENGTHS, [length, `of ${length} s`]], length);
    $("cut").hidden = !seen.length;
    renderWindow();
    const transmissions = Math.max(0, ...rooms.flatMap((room) => [...room.nowLines, ...room.lines].map(({ fix }) => fix?.number ?? 0)));
    if (seen.only > transmissions) seen.only = "latest";
    for (const room of rooms)
      fill(room.only, [["latest", "the latest transmission"], ["all", "all transmissions"], ...Array.from({ length: transmissions }, (_, i) => [String(i + 1), `transmission ${i + 1}`])], String(seen.only));
  }
  function renderWindow() {
    const slider = $("window"), at = seen.numbers.indexOf(seen.window), begins = seen.window * seen.length;
    slider.max = String(seen.numbers.length - 1);
    slider.value = String(at);
    const found = seen.survey.get(seen.window);
    const text = `window ${at + 1} of ${seen.numbers.length}, ${T.timeText(begins).slice(0, 23)} to ${T.timeText(begins + seen.length).slice(11, 23)}`;
    slider.setAttribute("aria-valuetext", `${text}${found ? `, boards ${found.equal ? "equal" : "differ"}` : ""}`);
    $("which").textContent = text;
    $("earlier").disabled = at === 0;
    $("later").disabled = at === seen.numbers.length - 1;
    $("differing").disabled = nextDiffering() === undefined;
    drawStrip();
  }
  // The next window, and behind the last the first, in which the rooms do not show or hold the same, or were full.
  function nextDiffering() {
    const at = seen.numbers.indexOf(seen.window), round = [...seen.numbers.keys()].map((i) => (at + 1 + i) % seen.numbers.length);
    return round.find((i) => {
      const found = seen.survey.get(seen.numbers[i]);
      return found && (!found.equal || !found.same || found.full);
    });
  }
  function drawStrip() {
    const strip = $("strip"), n = seen.numbers.length;
    strip.toggleAttribute("hidden", !seen.length);
    if (!seen.length) return;
    strip.setAttribute("viewBox", `0 0 ${n} 16`);
    strip.replaceChildren(...seen.numbers.map((number, i) => {
      const found = seen.survey.get(number), kind = !found ? "" : found.full ? "full" : found.equal ? "equal" : "differ";
      const [y, height] = kind === "equal" ? [5, 6] : [1, 14];
      return svg("rect", { class: `${kind}${number === seen.window ? " shown" : ""}`, x: i + 0.05, y, width: 0.9, height });
    }));
  }

  // Every window of both rooms, in pieces, so that the page can be used meanwhile.
  async function survey(mine) {
    let until = performance.now() + 15;
    for (const number of seen.numbers) {
      if (performance.now() > until) {
        await pause();
        if (mine !== turn) return;
        until = performance.now() + 15;
      }
      const [a, b] = rooms.map((room) => core.perform(FRESH, callsIn(room, number)));
      const found = { full: [a, b].some(({ answers }) => answers.includes(TL.FULL)), equal: core.board(a.register) === core.board(b.register) };
      found.same = sameBytes(a.register, b.register);
      seen.survey.set(number, found);
    }
    if (seen.length) renderWindow();
    renderVerdict();
  }
  const sameBytes = (a, b) => a.every((byte, i) => byte === b[i]);

  // ---- the verdict

  function say(kind, sentence, ...more) {
    const verdict = $("verdict"), parts = [element("p", {}, sentence), ...more];
    verdict.className = kind;
    // What is said already is not said again to who listens.
    if (verdict.innerHTML !== parts.map((part) => part.outerHTML).join("")) verdict.replaceChildren(...parts);
  }
  const listed = (list) => (list.length > 1 ? `${list.slice(0, -1).join(", ")} and ${list.at(-1)}` : list[0]);
  function whyDifferent() {
    const full = rooms.filter((room) => room.full), lacking = rooms.filter((room) => room.lacks.length);
    if (full.length) return `${listed(full.map((room) => `${room.name}'s register was full and refused ${count(room.full, "call")}`))}, so nothing is claimed`;
    if (lacking.length) return listed(lacking.map((room) => `${room.name} lacks ${count(room.lacks.length, "call")} that ${rooms.find((it) => it !== room).name} has`));
    return "neither lacks anything that the other has";
  }
  function renderVerdict() {
    const verdict = $("verdict"), equal = north.shown === south.shown, full = rooms.some((room) => room.full), bad = rooms.find((room) => room.problem);
    verdict.dataset.equal = String(equal && !bad);
    verdict.dataset.full = String(full);
    if (bad) return say("bad", `${bad.name} shows nothing. ${bad.problem}`);
    const what = seen.engine === null ? "The two boards" : `The two previews of engine ${seen.engine}'s conviction`, lacking = rooms.filter((room) => room.lacks.length);
    let sentence = `${what} ${equal ? "are equal, byte for byte" : `differ: ${whyDifferent()}`}`;
    if (equal && full) sentence += `, but ${whyDifferent()}`;
    else if (equal && lacking.length) sentence += `; but the rooms do not hold the same: ${whyDifferent()}`;
    const lines = [`${count(north.shown.length, "byte")}${equal ? "" : ` and ${south.shown.length}`}. The merge of sky-commons/tally shows ${north.merge.listing === south.merge.listing ? "the same in both" : "two different listings"}.`];
    if (seen.length) {
      const all = [...seen.survey.values()], some = (what) => all.filter((found) => found[what]).length;
      lines.push(all.length < seen.numbers.length ? ` The other windows are being compared.`
        : ` Of ${count(all.length, "window")} ${some("equal")} have equal boards, ${some("same")} hold the same in both rooms, ${some("full")} were full in one room or both.`);
    }
    say(equal && !full ? "good" : "bad", `${sentence}.`, element("p", {}, ...lines), ...(seen.notice ? [element("p", { class: "full" }, seen.notice)] : []));
  }

  // ---- a room

  function renderRoom(room) {
    const { parts } = room, calls = callsIn(room, seen.window), said = new Map();
    parts.source.textContent = `${room.source || "no calls"}${seen.seed ? `, order of seed ${seen.seed}` : ""}`;
    parts.problem.textContent = room.problem;
    for (const answer of room.answers) said.set(answer, (said.get(answer) ?? 0) + 1);
    const texts = [...said].sort((a, b) => a[0] - b[0]).map(([answer, n]) => element("span", { class: answer === TL.FULL ? "full" : "" }, `${n} answered ${answer} (${core.answerText(answer)})`));
    parts.answers.replaceChildren(`${count(calls.length, "call")}${texts.length ? ": " : ""}`, ...texts.flatMap((text, i) => (i ? [", ", text] : [text])));
    renderBoard(room);
    renderMerge(room);
    const { hash, convicted } = core.spoken(room.register);
    parts.spoken.replaceChildren("To read to the other room: board ", element("code", { class: "board-hash" }, spaced(core.hash(bytesOf(room.shown)).slice(0, 8))), ", register ",
      element("code", { class: "register-hash" }, `${hash.slice(0, 16)}..`), ", convicted ", element("code", { class: "convicted" }, convicted));
    parts.spoken.title = `BLAKE2s-256 of the board: ${core.hash(bytesOf(room.shown))}; of the register from byte 4 on: ${hash}`;
    parts.show.textContent = toShow(room);
    const { missing, disputed } = core.withheld(room.register);
    parts.withheld.textContent = missing + disputed ? `On no board: ${listed([[missing, "a model without a summary"], [disputed, "a model that is disputed or of another spec"]].filter(([n]) => n).map(([n, why]) => `${count(n, "record")} that cite${n === 1 ? "s" : ""} ${why}`))}.` : "";
    parts.lacks.replaceChildren(...lackingOf(room));
    parts.counted.textContent = "";
    // Of a window of many the text is only shown.
    parts.calls.value = T.sessionText(calls);
    parts.calls.readOnly = Boolean(seen.length);
  }
  // The position to show: the first ranked line of the last transmission.
  const firstOf = (room) => room.lines.findLast(({ fix }, i, all) => fix?.role === "ranked" && !all[i - 1].fix);
  function toShow(room) {
    const first = firstOf(room);
    if (!first) return "No position to show.";
    const { lat, lon, height, time } = first.fix.values;
    return `To show: ${T.degrees(lat)}, ${T.degrees(lon)}, ${height === null ? "no height" : `${height / 1000} m`}, of ${T.timeText(time)}, from ${enginesText(first.fix)}.`;
  }
  const spaced = (digits) => digits.replace(/(.{4})(?=.)/g, "$1 ");
  function lackingOf(room) {
    if (!room.lacks.length) return [];
    const rest = room.lacks.length - MOST_LACKING, items = room.lacks.slice(0, MOST_LACKING).map((call) => element("li", {}, T.words(call)));
    if (rest > 0) items.push(element("li", {}, `and ${count(rest, "more", "more")}`));
    return [element("p", {}, `${room.name} lacks:`), element("ul", {}, ...items)];
  }

  const roleOf = (line) => /^role=(\w+)/.exec(line)?.[1] ?? "header";
  function lineElement(line, kind, note) {
    const name = { stays: "span", goes: "del", comes: "ins" }[kind];
    const it = element("li", { class: `${roleOf(line)}${kind === "stays" ? "" : ` ${kind}`}`, tabindex: -1 }, element(name, { class: "line" }, line));
    if (line.startsWith("role=")) it.dataset.line = line;
    if (note) it.append(element("span", { class: "note" }, note));
    return it;
  }
  // The board, and under a preview the lines that go and those that come.
  function renderBoard(room) {
    const before = room.nowLines, after = room.lines, list = room.parts.board;
    const rows = T.changes(before.map(({ line }) => line), after.map(({ line }) => line));
    list.replaceChildren(...rows.map((row) => {
      const it = row.after === undefined ? before[row.before] : after[row.after];
      return lineElement(it.line, row.kind, it.fix && refusalText(it));
    }));
    finish(list, room.problem ? "nothing is shown" : "no position on the board", `Board of ${room.name}`);
    mark(list, north.shown === south.shown);
  }
  function renderMerge(room) {
    const list = room.parts.merge, { listing, waiting } = room.merge;
    list.replaceChildren(...listing.split("\n").slice(0, -1).map((line) => lineElement(line, "stays", "")));
    if (waiting) list.append(element("li", { class: "quiet" }, `${count(waiting, "fix waits", "fixes wait")} for a summary`));
    finish(list, "", `Tally's merge of ${room.name}`);
    mark(list, north.merge.listing === south.merge.listing);
  }
  function finish(list, empty, label) {
    list.setAttribute("aria-label", label);
    if (!list.childElementCount) list.append(element("li", { class: "quiet" }, empty));
    list.firstElementChild.tabIndex = 0;
  }
  function mark(list, equal) {
    const it = list.parentElement.querySelector(".same");
    it.className = `same ${equal ? "equal" : "differ"}`;
    it.textContent = equal ? "= same in both rooms" : "\u2260 differs";
  }
  // Whom a fix is refused against, and by how much.
  function refusalText({ fix, fixes }) {
    if (fix.role !== "refused") return "";
    const against = fixes[fix.against], measure = core.agreement(against.values, fix.values);
    const far = metresBetween(against.values, fix.values);
    const by = fix.chi2 === null || !measure ? "nothing was measured" : `chi-square ${T.numberOf(fix.chi2).toFixed(2)}, limit ${measure.limit.toFixed(2)}`;
    return `against ${against.role} ${enginesText(against)}, ${far} away: ${by}`;
  }
  const enginesText = ({ engines }) => `${engines.length === 1 ? "engine" : "engines"} ${engines.join(", ")}`;

  // The same fix everywhere where it stands.
  function light(line) {
    for (const it of document.querySelectorAll("[data-line]")) it.classList.toggle("lit", it.dataset.line === line);
  }

  const onlyOf = (word) => (word === "all" ? word : Number(word) || "latest");

  // ---- the map: metres east and north of the middle of what is shown, true near it

  const DEGREE = 111195, UNIT = 1e-7;
  // As wide as it is shown, so that marks and labels have one size everywhere.
  let width = 640, height = 320;
  const eastOf = (lat) => DEGREE * UNIT * Math.max(0.01, Math.cos((lat * UNIT * Math.PI) / 180));
  // How far one longitude is east of another, the short way round.
  function eastBy(lon, other) {
    const apart = (lon - other) % 3.6e9;
    return apart > 1.8e9 ? apart - 3.6e9 : apart < -1.8e9 ? apart + 3.6e9 : apart;
  }
  function metresBetween(a, b) {
    const far = Math.hypot(eastBy(a.lon, b.lon) * eastOf(a.lat), (a.lat - b.lat) * DEGREE * UNIT);
    return far < 9999.5 ? `${far.toFixed(far < 99.5 ? 1 : 0)} m` : `${(far / 1000).toFixed(1)} km`;
  }
  // Those of the transmission that is chosen.
  function chosen(lines) {
    const number = seen.only === "latest" ? Math.max(...lines.map(({ fix }) => fix?.number ?? 0)) : seen.only;
    return lines.filter(({ fix }) => fix && (number === "all" || fix.number === number));
  }
  function marksOf(room) {
    const after = chosen(room.lines), stay = new Set(room.lines.map(({ line }) => line));
    const gone = seen.engine === null ? [] : chosen(room.nowLines).filter(({ line }) => !stay.has(line));
    const marks = [...gone.map((it) => ({ ...it, goes: true })), ...after];
    const depth = ({ goes, fix }) => (goes ? 0 : 1 + ["dominated", "refused", "ranked"].indexOf(fix.role));
    return marks.sort((a, b) => depth(a) - depth(b));
  }
  // The position that tally's merge serves: the first fix of its last transmission.
  function servedBy(room) {
    const blocks = room.merge.listing.split(/^(?=transmission=)/m), line = blocks.length > 1 && blocks.at(-1).split("\n").find((text) => text.startsWith("role=ranked"));
    return line ? { line, lat: Number(/ lat=(-?\d+)/.exec(line)[1]), lon: Number(/ lon=(-?\d+)/.exec(line)[1]) } : null;
  }
  function drawMaps() {
    width = Math.max(280, Math.round(north.parts.map.clientWidth));
    height = Math.round(width > 500 ? width / 2 : width * 0.75);
    const marks = rooms.map(marksOf), served = rooms.map(servedBy);
    const places = [...marks.flat().map(({ fix }) => fix.values), ...served.filter((it) => it)];
    const plane = places.length ? planeOf(places) : null;
    rooms.forEach((room, i) => drawMap(room, plane, marks[i], served[i]));
  }
  function planeOf(places) {
    const middle = (numbers) => (Math.min(...numbers) + Math.max(...numbers)) / 2, lats = places.map(({ lat }) => lat), lons = places.map(({ lon }) => places[0].lon + eastBy(lon, places[0].lon));
    const lat = middle(lats), lon = middle(lons), east = eastOf(lat), north = DEGREE * UNIT;
    const wide = Math.max((Math.max(...lons) - lon) * 2 * east, 20), high = Math.max((Math.max(...lats) - lat) * 2 * north, 20);
    const scale = Math.min((width - Math.min(240, width / 2)) / wide, (height - 90) / high) * seen.zoom.by;
    return { scale, x: (value) => width / 2 + (eastBy(value, lon) * east - seen.zoom.east) * scale, y: (value) => height / 2 - ((value - lat) * north - seen.zoom.north) * scale };
  }
  function drawMap(room, plane, marks, served) {
    const map = room.parts.map;
    map.setAttribute("viewBox", `0 0 ${width} ${height}`);
    seen.scale = plane?.scale ?? 1;
    map.replaceChildren();
    map.setAttribute("aria-label", plane ? `Map of ${room.name}: ${marks.map(({ fix }) => `${fix.role}, ${enginesText(fix)}, ${T.degrees(fix.values.lat)}, ${T.degrees(fix.values.lon)}`).join("; ")}` : `Map of ${room.name}: nothing to show`);
    if (!plane) return map.append(svg("text", { x: 14, y: 22 }, "nothing to show"));
    drawScale(map, plane.scale);
    const at = ({ lat, lon }) => [plane.x(lon), plane.y(lat)], taken = [];
    for (const { fix, fixes, goes } of marks)
      if (fix.role === "refused" && !goes) {
        const [[x1, y1], [x2, y2]] = [at(fix.values), at(fixes[fix.against].values)];
        map.append(svg("line", { class: "against", x1, y1, x2, y2 }));
      }
    if (served) drawMark(map, at(served), served.line, "served", "tally's merge", taken, svg("path", { class: "mark", d: "M0 -12L12 0L0 12L-12 0Z" }));
    const first = firstOf(room);
    for (const mark of [...marks].reverse()) {
      const { line, fix, goes } = mark, shape = { ranked: svg("circle", { class: "mark", r: 6.5 }), dominated: svg("circle", { class: "mark", r: 5 }), refused: svg("path", { class: "mark", d: "M-5 -5l10 10m0 -10l-10 10" }) }[fix.role];
      const parts = [ellipseOf(fix.values, plane.scale), first?.line === line && !goes ? svg("circle", { class: "first", r: 10 }) : null, shape].filter((part) => part);
      drawMark(map, at(fix.values), line, `${fix.role}${goes ? " goes" : ""}`, `${enginesText(fix)}, weight ${/ weight=(\d+)/.exec(line)[1]}`, taken, ...parts);
    }
  }
  // A mark, with a label where none is yet.
  function drawMark(map, [x, y], line, kind, label, taken, ...shapes) {
    if (!(Math.abs(x) < 1e5 && Math.abs(y) < 1e5)) return;
    let down = y + 4;
    while (taken.some(([left, top]) => Math.abs(left - x) < 130 && Math.abs(top - down) < 12)) down += 12;
    taken.push([x, down]);
    const it = svg("g", { class: kind, "data-line": line }, svg("g", { transform: `translate(${x} ${y})` }, ...shapes), svg("title", {}, line));
    if (down - y > 8) it.append(svg("line", { class: "leader", x1: x + 8, y1: y + 4, x2: x + 14, y2: down - 4 }));
    it.append(svg("text", { x: x + 16, y: down }, label));
    it.addEventListener("mouseenter", () => light(line));
    map.append(it);
  }
  function drawScale(map, scale) {
    const power = 10 ** Math.floor(Math.log10(160 / scale)), bar = [5, 2, 1].map((n) => n * power).find((metres) => metres * scale <= 160), step = bar * scale;
    for (let x = (width / 2) % step; x < width; x += step) map.append(svg("line", { class: "grid", x1: x, y1: 0, x2: x, y2: height }));
    for (let y = (height / 2) % step; y < height; y += step) map.append(svg("line", { class: "grid", x1: 0, y1: y, x2: width, y2: y }));
    map.append(svg("path", { class: "measure", d: `M14 ${height - 16}v4h${step}v-4` }), svg("text", { x: 18, y: height - 20 }, bar >= 1000 ? `${bar / 1000} km` : `${Number(bar.toPrecision(1))} m`),
      svg("path", { class: "measure", d: `M${width - 20} 34v-20m-4 7l4-7 4 7` }), svg("text", { x: width - 24, y: 46 }, "N"));
  }
  // One standard deviation of the covariance east and north, as it was reported.
  function ellipseOf({ covariance }, scale) {
    const [xx, xy, , yy] = covariance.map(T.numberOf), mean = (xx + yy) / 2, apart = Math.hypot((xx - yy) / 2, xy);
    const rx = Math.sqrt(mean + apart) * scale, ry = Math.sqrt(mean - apart) * scale;
    if (!(rx > 3 && ry > 0 && rx < 1e5)) return null;
    return svg("ellipse", { class: "ellipse", rx, ry, transform: `rotate(${(-Math.atan2(2 * xy, xx - yy) * 90) / Math.PI})` });
  }
  function move(east, north, by = 1) {
    seen.zoom = { by: Math.min(1e4, Math.max(0.01, seen.zoom.by * by)), east: seen.zoom.east + east / seen.scale, north: seen.zoom.north + north / seen.scale };
    drawMaps();
  }
  function whole() {
    seen.zoom = { by: 1, east: 0, north: 0 };
    drawMaps();
  }
  const MOVES = { ArrowLeft: [-40, 0], ArrowRight: [40, 0], ArrowUp: [0, 40], ArrowDown: [0, -40], "+": [0, 0, 1.5], "=": [0, 0, 1.5], "-": [0, 0, 1 / 1.5] };
  function listenToMap(map) {
    map.addEventListener("keydown", (event) => {
      if (event.ctrlKey || event.metaKey || event.altKey) return;
      if (event.key === "0") whole();
      else if (MOVES[event.key]) move(...MOVES[event.key]);
      else return;
      event.preventDefault();
    });
    // A wheel moves the page, unless the map was chosen.
    map.addEventListener("wheel", (event) => {
      if (document.activeElement !== map) return;
      event.preventDefault();
      move(0, 0, 1.15 ** -Math.sign(event.deltaY));
    }, { passive: false });
    map.addEventListener("pointerdown", (event) => { map.setPointerCapture(event.pointerId); map.focus({ preventScroll: true }); });
    map.addEventListener("pointermove", (event) => {
      if (!map.hasPointerCapture(event.pointerId)) return;
      const size = width / map.getBoundingClientRect().width;
      move(-event.movementX * size, event.movementY * size);
    });
  }

  // ---- the rooms' parts of the page

  function save(name, bytes) {
    const link = element("a", { download: name, href: URL.createObjectURL(new Blob([bytes])) });
    link.click();
    setTimeout(() => URL.revokeObjectURL(link.href), 1000);
  }
  function listenToLines(list) {
    list.addEventListener("keydown", (event) => {
      const it = event.target.closest("li"), to = { ArrowDown: it?.nextElementSibling, ArrowUp: it?.previousElementSibling }[event.key];
      if (!to) return;
      event.preventDefault();
      it.tabIndex = -1;
      to.tabIndex = 0;
      to.focus();
    });
    for (const kind of ["focusin", "mouseover"]) list.addEventListener(kind, (event) => light(event.target.closest("[data-line]")?.dataset.line));
  }
  for (const room of rooms) {
    const section = $("room").content.cloneNode(true).querySelector("section"), part = (name) => section.querySelector(`.${name}`);
    room.parts = { source: part("source"), problem: part("problem"), answers: part("answers"), board: part("board"), merge: part("merge"), counted: part("counted"),
      spoken: part("spoken"), show: part("show"), withheld: part("withheld"), lacks: part("lacks"), map: part("map"), calls: section.querySelector("textarea"), file: part("file") };
    room.only = part("only");
    section.dataset.room = room.name;
    section.querySelector("h2").textContent = room.name;
    section.setAttribute("aria-label", room.name);
    const name = room.name.toLowerCase(), { file, calls } = room.parts;
    file.setAttribute("aria-label", `File for ${room.name}`);
    calls.setAttribute("aria-label", `Calls of ${room.name}`);
    file.addEventListener("change", () => file.files[0] && take([[room, file.files[0]]]));
    calls.addEventListener("change", () => { give(room, bytesOf(calls.value), "as typed"); update(); });
    part("save-board").addEventListener("click", () => save(`${name}.board`, room.shown));
    part("save-map").addEventListener("click", () => save(`${name}.geojson`, core.map(room.register)));
    part("save-register").addEventListener("click", () => save(`${name}.register`, room.register));
    part("save-calls").addEventListener("click", () => save(`${name}.session`, T.sessionText(callsIn(room, seen.window))));
    room.only.addEventListener("change", () => { seen.only = onlyOf(room.only.value); render(); });
    part("nearer").addEventListener("click", () => move(0, 0, 1.5));
    part("farther").addEventListener("click", () => move(0, 0, 1 / 1.5));
    part("whole").addEventListener("click", whole);
    listenToMap(room.parts.map);
    listenToLines(room.parts.board);
    listenToLines(room.parts.merge);
    section.addEventListener("dragover", (event) => { event.preventDefault(); section.classList.add("over"); });
    section.addEventListener("dragleave", () => section.classList.remove("over"));
    section.addEventListener("drop", (event) => {
      event.preventDefault();
      section.classList.remove("over");
      const files = [...event.dataTransfer.files].slice(0, 2), text = event.dataTransfer.getData("text/plain");
      // Two files at once are the two rooms'.
      if (files.length === 2) take(files.map((it, i) => [rooms[i], it]));
      else if (files.length) take([[room, files[0]]]);
      else if (text) { give(room, bytesOf(text), "as dropped"); update(); }
    });
    $("rooms").append(section);
  }
  // What is dropped beside a room is not opened in place of the page.
  for (const kind of ["dragover", "drop"]) document.addEventListener(kind, (event) => event.preventDefault());
  async function take(gifts) {
    const read = await Promise.all(gifts.map(([, file]) => file.arrayBuffer()));
    gifts.forEach(([room, file], i) => give(room, new Uint8Array(read[i]), file.name));
    seen.seed = 0;
    update();
  }

  // ---- tools

  function choose(example) {
    Object.assign(seen, { notice: "", seed: 0, engine: null, length: 0n });
    rooms.forEach((room, i) => {
      room.parts.file.value = "";
      if (example !== "flight") {
        const { name, text } = TOASTLAGOON_EXAMPLES[Number(example)].rooms[i];
        return give(room, bytesOf(text), name);
      }
      Object.assign(room, { calls: ToastlagoonFlight.flight(i), source: "a flight of ten minutes", problem: "" });
      Object.assign(seen, { length: ToastlagoonFlight.length, window: null, only: "latest" });
    });
    seen.example = example;
  }
  function when(id, event, what) {
    $(id).addEventListener(event, what);
  }
  fill($("example"), [...TOASTLAGOON_EXAMPLES.map(({ name }, i) => [String(i), name]), ["flight", "A flight of ten minutes, in windows"]], "0");
  $("example").append(element("option", { value: "", hidden: "" }, "of your own"));
  when("example", "change", () => { choose($("example").value); update(); });
  when("desk", "change", () => { seen.desk = Number($("desk").value); if (seen.desk === TL.CREW) seen.engine = null; render(); });
  const reseed = (seed) => { seen.seed = Math.min(0xffffffff, Math.max(0, Math.floor(seed) || 0)); update(); };
  when("seed", "change", () => reseed(Number($("seed").value)));
  when("shuffle", "click", () => reseed(seen.seed + 1));
  when("engine", "change", () => { seen.engine = $("engine").value === "" ? null : Number($("engine").value); render(); });
  when("convict", "click", () => {
    settle();
    for (const room of rooms) room.calls = [...room.calls, { op: "convict", engine: seen.engine }];
    seen.engine = null;
    update();
    $("engine").focus();
  });
  when("length", "change", () => { seen.length = BigInt($("length").value) * 1000000000n; seen.window = null; update(); });
  const show = (index) => { seen.window = seen.numbers[Math.min(seen.numbers.length - 1, Math.max(0, index))]; seen.only = "latest"; render(); };
  when("window", "input", () => show(Number($("window").value)));
  when("earlier", "click", () => show(seen.numbers.indexOf(seen.window) - 1));
  when("later", "click", () => show(seen.numbers.indexOf(seen.window) + 1));
  when("differing", "click", () => show(nextDiffering()));
  when("strip", "click", (event) => {
    const { left, width } = $("strip").getBoundingClientRect();
    show(Math.floor(((event.clientX - left) / width) * seen.numbers.length));
  });

  // In each window each room joins what it lacks of the other. The calls that this stands for are put behind the room's, and must leave the
  // register of the join.
  when("exchange", "click", () => {
    settle();
    const gained = rooms.map(() => new Map());
    let refused = 0;
    for (const number of seen.numbers) {
      const registers = rooms.map((room) => registerOf(room, number));
      rooms.forEach((room, i) => {
        const lacking = core.lacks(registers[i], registers[1 - i]), joined = core.join(registers[i], lacking), calls = T.callsOfRegister(lacking);
        if (joined.answer !== TL.OK) return refused++;
        if (!sameBytes(core.perform(registers[i], calls).register, joined.register)) throw new Error(`the calls that ${room.name} lacked do not leave the join`);
        for (const call of calls) gained[i].set(T.textOf(call), call);
      });
    }
    rooms.forEach((room, i) => { room.calls = [...room.calls, ...gained[i].values()]; });
    if (refused) seen.notice = `${count(refused, "join was", "joins were")} refused with ${TL.FULL} (${core.answerText(TL.FULL)}): both rooms together hold more than a register has places for.`;
    update();
  });

  when("count", "click", async () => {
    const mine = ++counting, number = Math.min(100000, Math.max(1, Math.floor(Number($("orders").value)) || 1)), seed = seen.seed || 1;
    for (const room of rooms) {
      let until = performance.now() + 40, found;
      // From the calls as they came, so that the program `rooms` counts the same.
      const calls = T.windowsOf(room.calls, seen.length, seen.numbers).get(seen.window);
      for (found of T.orders(core, calls, number, seed)) {
        if (performance.now() < until) continue;
        room.parts.counted.textContent = `${found.orders} of ${number} orders ..`;
        await pause();
        if (mine !== counting) return;
        until = performance.now() + 40;
      }
      room.parts.counted.textContent = `${count(found.orders, "order")} from seed ${seed}: ${count(found.boards, "board")}, ${count(found.listings, "listing")} of tally's merge; full in ${found.full}.`;
    }
  });

  // ---- a link that restores what is seen

  const toText = (bytes) => btoa(T.latin1(bytes)).replaceAll("+", "-").replaceAll("/", "_").replaceAll("=", "");
  const fromText = (text) => fromBase64(text.replaceAll("-", "+").replaceAll("_", "/"));
  async function linked() {
    const words = new URLSearchParams();
    if (seen.example !== null) words.set("example", seen.example);
    else {
      const text = JSON.stringify(rooms.map((room) => [room.source, T.sessionText(room.calls)]));
      words.set("calls", toText(await through(bytesOf(text), new CompressionStream("deflate-raw"))));
    }
    if (seen.seed) words.set("seed", String(seen.seed));
    if (seen.engine !== null) words.set("engine", String(seen.engine));
    if (seen.desk !== TL.MANAGER) words.set("desk", String(seen.desk));
    words.set("length", String(seen.length / 1000000000n));
    if (seen.length) words.set("window", String(seen.window));
    if (seen.only !== "latest") words.set("map", String(seen.only));
    if (seen.zoom.by !== 1 || seen.zoom.east || seen.zoom.north) words.set("zoom", `${seen.zoom.by},${seen.zoom.east},${seen.zoom.north}`);
    return words.toString();
  }
  when("link", "click", async () => {
    const words = await linked(), address = $("address");
    address.hidden = false;
    if (words.length > MOST_IN_LINK) {
      address.value = `too much for a link (${words.length} characters): save the calls`;
      return;
    }
    history.replaceState(null, "", `#${words}`);
    address.value = location.href;
    address.select();
  });
  async function restore() {
    const words = new URLSearchParams(location.hash.slice(1)), number = (name) => (/^[0-9]+$/.test(words.get(name) ?? "") ? Number(words.get(name)) : null);
    const example = words.get("example");
    choose(example === "flight" || TOASTLAGOON_EXAMPLES[example] ? example : "0");
    if (words.has("calls")) {
      const texts = JSON.parse(new TextDecoder().decode(await through(fromText(words.get("calls")), new DecompressionStream("deflate-raw"))));
      rooms.forEach((room, i) => give(room, bytesOf(String(texts[i][1])), String(texts[i][0])));
    }
    seen.seed = Math.min(0xffffffff, number("seed") ?? 0);
    seen.desk = [TL.CREW, TL.ANALYST].includes(number("desk")) ? number("desk") : TL.MANAGER;
    const engine = number("engine");
    seen.engine = engine !== null && engine <= TL.MAX_ENGINE && seen.desk !== TL.CREW ? engine : null;
    if (number("length") !== null) seen.length = BigInt(words.get("length")) * 1000000000n;
    if (number("window") !== null) seen.window = BigInt(words.get("window"));
    seen.only = onlyOf(words.get("map"));
    const zoom = (words.get("zoom") ?? "").split(",").map(Number);
    if (zoom.length === 3 && zoom.every(Number.isFinite) && zoom[0] > 0) seen.zoom = { by: zoom[0], east: zoom[1], north: zoom[2] };
    update();
  }
  const restoreSafely = () => restore().catch((why) => {
    choose("0");
    seen.notice = `The link cannot be read: ${why.message}.`;
    update();
  });
  window.addEventListener("hashchange", restoreSafely);

  await restoreSafely();
  window.addEventListener("resize", drawMaps);
  document.documentElement.dataset.ready = "yes";
})().catch((why) => {
  document.getElementById("verdict").textContent = `A fault of the page: ${why.stack}`;
  document.documentElement.dataset.ready = "fault";
});
