// The module of a page, and what the page's scripts make of it, in Node: beside the stdin and stdout of the gate's programs, the examples, and
// what the program `session` printed of sessions that page/test lays down.
//
//   node [--experimental-wasm-memory64] page/beside.mjs PAGE.html [SESSIONS]
//
// SESSIONS is a folder with pairs of files: N.in, and N.out, which is what was printed, the sentence of a refusal behind it. A line for each
// comparison; the exit status is 1 where one differs.
import fs from "node:fs";
import path from "node:path";
import vm from "node:vm";
import zlib from "node:zlib";

const [pageFile, sessionsFolder] = process.argv.slice(2);
const root = path.dirname(path.dirname(path.resolve(process.argv[1])));
const scripts = [...fs.readFileSync(pageFile, "utf8").matchAll(/<script>([\s\S]*?)<\/script>/g)].map((found) => found[1]);
// All but the page itself, which is the last.
for (const text of scripts.slice(0, -1)) vm.runInThisContext(text);
const T = globalThis.Toastlagoon, { TL } = T, flight = globalThis.ToastlagoonFlight;
const wasm = zlib.gunzipSync(Buffer.from(vm.runInThisContext("TOASTLAGOON_MODULE"), "base64"));
const core = await T.load(wasm), fresh = new Uint8Array(TL.REGISTER_SIZE);

let differ = 0;
function compare(name, seen, wanted, about = "") {
  if (seen === wanted) return console.log(`${name}: equal, ${seen.length} bytes${about && `, ${about}`}`);
  differ++;
  let at = 0;
  while (at < seen.length && seen[at] === wanted[at]) at++;
  const near = (text) => JSON.stringify(text.slice(Math.max(0, at - 60), at + 60));
  console.log(`${name}: DIFFERS at byte ${at}: ${near(seen)}, wanted ${near(wanted)}`);
}
const read = (name) => fs.readFileSync(path.join(root, name));
const textOf = (name) => read(name).toString("latin1");
const names = (folder, end) => fs.readdirSync(path.join(root, folder)).filter((name) => name.endsWith(end)).sort();
const without = (name, end) => name.slice(0, -end.length);

// ---- the module itself, in a memory of its own

const raw = new WebAssembly.Instance(core.module, {}).exports;
const memory = new Uint8Array(raw.memory.buffer), view = new DataView(memory.buffer);
let free = Number(raw.__heap_base.value);
function place(size) {
  const at = free;
  free += (size + 15) & ~15;
  if (free > memory.length) throw new Error("the module's memory is too small for the tests");
  return at;
}
const first = place(TL.REGISTER_SIZE + 16), second = place(TL.REGISTER_SIZE + 16), output = place(TL.REGISTER_SIZE + 16), track = place(TL.TRACK_SIZE);
const shelf = place(TL.SHELF_SIZE), record = place(TL.RECORD_SIZE), small = place(1024), items = place(65536), text = place(TL.BOARD_SIZE), hashed = place(TL.HASH_SIZE);
const B = BigInt;
const put = (at, bytes) => { memory.set(bytes, at); return bytes.length; };
const hex = (at, length) => Buffer.from(memory.subarray(at, at + length)).toString("hex");
const bits = (at) => view.getBigUint64(at, true).toString(16).padStart(16, "0");
const latin1 = (at, length) => Buffer.from(memory.subarray(at, at + length)).toString("latin1");
function hash(at, length) {
  raw.tl_blake2s256(B(at), B(length), B(hashed));
  return hex(hashed, TL.HASH_SIZE);
}
// Pieces of one size, up to the first that is cut short.
function* pieces(bytes, size) {
  for (let at = 0; at + size <= bytes.length; at += size) yield bytes.subarray(at, at + size);
}

const gate = {
  hashes() {
    const bytes = Uint8Array.from({ length: 4096 }, (_, i) => i % 251), inputs = [Buffer.from("abc"), Buffer.from("")];
    for (const length of [...Array(261).keys(), 1000, 4096]) inputs.push(bytes.subarray(0, length));
    return inputs.map((input) => `${core.hash(input)}\n`).join("");
  },
  sessions(stdin) {
    let at = 0, out = "";
    for (let number = 1; number < 155; number++) {
      let size = TL.MAX_SESSION + 1;
      if (at + 4 <= stdin.length) {
        size = Math.min(size, stdin.readUInt32LE(at));
        at += 4;
      }
      const bytes = stdin.subarray(at, at + size);
      at += bytes.length;
      out += `case ${number}\n${core.session(bytes).output}`;
    }
    return out;
  },
  orders(stdin) {
    let out = "";
    for (let at = 0; at < stdin.length; ) {
      const count = stdin.readUInt32LE(at), seed = stdin.readBigUInt64LE(at + 4), length = stdin.readUInt16LE(at + 12);
      const bytes = stdin.subarray(at + 14, at + 14 + length);
      at += 14 + length;
      const calls = upToBadLine(bytes);
      let found = { boards: 0, listings: 0, full: 0 };
      for (found of T.orders(core, calls, count, seed));
      out += `seed=${seed}\norders=${count}\nboards=${found.boards}\nlistings=${found.listings}\nfull=${found.full}\n`;
    }
    return out;
  },
  previews(stdin) {
    const desks = [TL.CREW, TL.ANALYST, TL.MANAGER, 3, 258], size = B(TL.REGISTER_SIZE), whole = B(TL.BOARD_SIZE);
    let out = "";
    const shown = (answer) => (answer > 17 ? latin1(text, answer) : "");
    for (const register of pieces(stdin, TL.REGISTER_SIZE)) {
      put(first, register);
      for (const desk of desks) {
        const board = raw.tl_board(desk, B(first), size, B(text), whole);
        out += `desk=${desk} board answer=${board}\n${shown(board)}desk=${desk} too small answer=${raw.tl_board(desk, B(first), size, B(text), whole - 1n)}\n`;
        for (const engine of [1, 33]) {
          put(second, register);
          const answer = raw.tl_register_conviction(desk, B(second), size, engine);
          out += `desk=${desk} convict=${engine} answer=${answer}\nsame=${Buffer.compare(memory.subarray(second, second + TL.REGISTER_SIZE), register) === 0}\n`;
        }
        for (let engine = 0; engine < 33; engine++) {
          const answer = raw.tl_register_preview(desk, B(first), size, engine, B(text), whole);
          out += `desk=${desk} engine=${engine} answer=${answer}\n${shown(answer)}`;
        }
        for (const engine of [0, 33]) out += `desk=${desk} engine=${engine} too small answer=${raw.tl_register_preview(desk, B(first), size, engine, B(text), whole - 1n)}\n`;
      }
      out += "\n";
    }
    return out;
  },
  entries(stdin) {
    let out = "";
    for (const register of pieces(stdin, TL.REGISTER_SIZE)) {
      put(first, register);
      memory.fill(0, text, text + TL.FIXES_SIZE);
      const answer = raw.tl_register_fixes(B(first), B(TL.REGISTER_SIZE), B(text), B(TL.FIXES_SIZE));
      out += `answer=${answer} output=${hash(text, TL.FIXES_SIZE)}\nanswer=${raw.tl_register_fixes(B(first), B(TL.REGISTER_SIZE), B(text), B(TL.FIXES_SIZE - 1))}\n`;
    }
    return out;
  },
  maps(stdin) {
    let out = "";
    for (const register of pieces(stdin, TL.REGISTER_SIZE)) {
      put(first, register);
      const answer = raw.tl_register_map(B(first), B(TL.REGISTER_SIZE), B(text), B(TL.MAP_SIZE));
      out += `answer=${answer}\n${answer > 14 ? `${latin1(text, answer)}\n` : ""}answer=${raw.tl_register_map(B(first), B(TL.REGISTER_SIZE), B(text), B(TL.MAP_SIZE - 1))}\n\n`;
    }
    return out;
  },
  joins(stdin) {
    let out = "";
    const size = B(TL.REGISTER_SIZE);
    const joined = (a, b) => {
      put(first, a);
      put(second, b);
      const answer = raw.tl_register_join(B(first), size, B(second), size);
      return `${answer} ${hash(first, TL.REGISTER_SIZE)}\n`;
    };
    const lacking = (a, b) => {
      put(first, a);
      put(second, b);
      return [TL.REGISTER_SIZE + 1, TL.REGISTER_SIZE - 1].map((length) => {
        memory.fill(7, output, output + length);
        const answer = raw.tl_register_lacks(B(first), size, B(second), size, B(output), B(length));
        return `${answer} ${hash(output, length)}\n`;
      }).join("");
    };
    for (const pair of pieces(stdin, 2 * TL.REGISTER_SIZE)) {
      const [a, b] = [...pieces(pair, TL.REGISTER_SIZE)];
      out += joined(a, b) + joined(b, a) + lacking(a, b) + lacking(b, a);
    }
    return out;
  },
  columns(stdin) {
    let out = "";
    const turn = (name, from, length, to, room) => `${raw[name](B(from), B(length), B(to), B(room))} ${hash(to, room)}\n`;
    for (let at = 0; at + 2 <= stdin.length; ) {
      const length = stdin.readUInt16LE(at), bytes = stdin.subarray(at + 2, at + 2 + length);
      at += 2 + length;
      put(items, bytes);
      for (const [one, other] of [["tl_register_columns", "tl_register_uncolumns"], ["tl_register_uncolumns", "tl_register_columns"]]) {
        for (const to of [first, second]) memory.fill(7, to, to + TL.REGISTER_SIZE);
        out += turn(one, items, length, first, TL.REGISTER_SIZE) + turn(other, first, TL.REGISTER_SIZE, second, TL.REGISTER_SIZE);
      }
      memory.fill(7, first, first + TL.REGISTER_SIZE);
      out += turn("tl_register_columns", items, length, first, TL.REGISTER_SIZE - 1) + turn("tl_register_uncolumns", items, length, first, TL.REGISTER_SIZE - 1) + "\n";
    }
    return out;
  },
  values(stdin) {
    const MESSAGE_ROOM = 20, TAGS_ROOM = 30, MODELS_ROOM = 8, MESSAGE_AT = 22, TAGS_AT = MESSAGE_AT + MESSAGE_ROOM + 1, USED_AT = TAGS_AT + 8 * TAGS_ROOM;
    const MODELS_AT = USED_AT + 5, SPEC_AT = MODELS_AT + MODELS_ROOM, COVARIANCE_AT = SPEC_AT + 2, CASE = COVARIANCE_AT + 48;
    const [message, tags, models, covariance] = [MESSAGE_ROOM, 8 * TAGS_ROOM, MODELS_ROOM, 48].map(place), faultOf = () => raw.tl_record_fault(B(record), B(TL.RECORD_SIZE));
    put(first, stdin.subarray(0, TL.REGISTER_SIZE));
    let out = "";
    for (const c of pieces(stdin.subarray(TL.REGISTER_SIZE), CASE)) {
      const counts = [c[21], c[TAGS_AT - 1], c[MODELS_AT - 1]];
      if (counts[0] > MESSAGE_ROOM || counts[1] > TAGS_ROOM || counts[2] > MODELS_ROOM) continue;
      put(message, c.subarray(MESSAGE_AT, MESSAGE_AT + MESSAGE_ROOM));
      put(tags, c.subarray(TAGS_AT, USED_AT));
      put(models, c.subarray(MODELS_AT, SPEC_AT));
      put(covariance, c.subarray(COVARIANCE_AT));
      memory.fill(0, record, record + TL.RECORD_SIZE);
      const answer = raw.tl_record_write(c.readBigUInt64LE(0), c.readInt32LE(8), c.readInt32LE(12), c[16] === 1 ? 1 : 0, c.readInt32LE(17), B(message), B(counts[0]),
        B(tags), B(counts[1]), c.readUInt32LE(USED_AT), B(models), B(counts[2]), c.readUInt16LE(SPEC_AT), B(covariance), B(record));
      const of = [B(record), B(TL.RECORD_SIZE)];
      memory.fill(0, small, small + 64);
      const inputs = raw.tl_register_inputs(B(first), B(TL.REGISTER_SIZE), ...of, B(small)), known = hex(small, 32);
      const identity = raw.tl_record_identity(...of, B(small), B(small + 32));
      out += `answer=${answer} record=${hash(record, TL.RECORD_SIZE)} answer=${inputs} inputs=${known} answer=${identity} identity=${hex(small + 32, 32)} fault=${faultOf()} turned=`;
      for (let i = 0; i < TL.RECORD_SIZE; i++) {
        memory[record + i] ^= 255;
        out += String.fromCharCode(97 + faultOf());
        memory[record + i] ^= 255;
      }
      out += "\n";
    }
    return out;
  },
  tracks(stdin) {
    let at = 0, out = "";
    const pair = [B(track), B(TL.TRACK_SIZE), B(shelf), B(TL.SHELF_SIZE)], u8 = () => stdin[at++];
    const said = (answer) => { out += `answer=${answer} hash=${hash(track, TL.TRACK_SIZE)} shelf=${hash(shelf, TL.SHELF_SIZE)}\n`; };
    const calls = {
      0() { const engine = u8(); at += put(record, stdin.subarray(at, at + TL.RECORD_SIZE)); said(raw.tl_track_report(...pair, engine, B(record), B(TL.RECORD_SIZE))); },
      1() {
        const [engine, model, spec] = [u8(), u8(), stdin.readUInt16LE(at)];
        at += 2 + put(small, stdin.subarray(at + 2, at + 34));
        said(raw.tl_track_summary(...pair, engine, model, spec, B(small), 32n));
      },
      2() { said(raw.tl_track_conviction(...pair, u8())); },
      3() { const length = raw.tl_track_listing(B(track), B(TL.TRACK_SIZE), B(text), B(TL.LISTING_SIZE)); out += length <= 10 ? `answer=${length}\n` : latin1(text, length); },
    };
    while (at + 2 <= stdin.length) {
      let left = stdin.readUInt16LE(at);
      at += 2;
      memory.fill(0, track, track + TL.TRACK_SIZE);
      memory.fill(0, shelf, shelf + TL.SHELF_SIZE);
      for (; left; left--) calls[u8()]();
      out += "\n";
    }
    return out;
  },
  replay(stdin) {
    let out = "";
    const claim = (at) => [stdin.readInt32LE(at), stdin.readInt32LE(at + 4), stdin[at + 8] ? 1 : 0, stdin.readInt32LE(at + 9), ...[0, 1, 2, 3, 4, 5].map((i) => stdin.readDoubleLE(at + 13 + 8 * i))];
    const list = (at) => Array.from(memory.subarray(at + 1, at + 1 + memory[at]), (index) => ` ${index}`).join("");
    for (let at = 0; at < stdin.length; ) {
      if (stdin[at++] === 97) {
        const outcome = raw.tl_agreement(...claim(at), ...claim(at + 61), B(small), B(small + 8));
        at += 122;
        // A zero's sign is left free.
        if (outcome !== TL.UNMEASURABLE && view.getFloat64(small, true) === 0) view.setFloat64(small, 0, true);
        out += outcome === TL.UNMEASURABLE ? "agreement none none\n" : `agreement ${bits(small)} ${bits(small + 8)}\n`;
        continue;
      }
      const length = stdin.readUInt16LE(at);
      put(items, stdin.subarray(at + 2, at + 2 + length));
      at += 2 + length;
      memory.fill(0, text, text + TL.ANSWER_SIZE);
      out += `answer ${raw.tl_decide(B(items), B(length), B(text))} ranked${list(text + TL.RANKED_AT)} dominated${list(text + TL.DOMINATED_AT)} refused`;
      for (let i = 0; i < memory[text + TL.REFUSALS_AT]; i++) {
        const refusal = text + TL.REFUSALS_AT + 1 + i * TL.REFUSAL_SIZE;
        out += ` ${memory[refusal + TL.REFUSAL_SUPERSEDED_AT] ? "superseded" : "contested"} ${memory[refusal]} ${memory[refusal + 1]} ${memory[refusal + 3] ? bits(refusal + 4) : "none"}`;
      }
      out += "\n";
    }
    return out;
  },
  // What each of two rooms lacks, as the page has it, in the words of the program `rooms`.
  rooms(stdin) {
    let out = "", at = 0;
    const counted = () => {
      const length = stdin.readUInt16LE(at), bytes = stdin.subarray(at + 2, at + 2 + length);
      at += 2 + length;
      return bytes;
    };
    const held = (bytes) => {
      if (bytes.length === TL.REGISTER_SIZE) return core.isRegister(bytes) ? bytes : "no register";
      return core.session(bytes).refused ? "a refused session" : core.perform(fresh, T.callsOfSession(bytes.toString("latin1"))).register;
    };
    const lines = (room, call) => {
      const v = call.values;
      return `room=${room} lacks=${call.op === "convict" ? "conviction" : call.op} engine=${call.engine}${call.op === "summary" ? ` model=${call.model} spec=${call.spec} inputs=${call.inputs}` : call.op === "report" ? ` time=${v.time} lat=${v.lat} lon=${v.lon}` : ""}\n`;
    };
    while (at < stdin.length) {
      const [a, b] = [held(counted()), held(counted())], bad = [a, b].find((room) => typeof room === "string");
      if (bad) {
        out += `${bad}\n`;
        continue;
      }
      for (const [room, mine, other] of [["A", a, b], ["B", b, a]]) out += T.callsOfRegister(core.lacks(mine, other)).map((call) => lines(room, call)).join("");
      const same = Buffer.compare(a.subarray(4), b.subarray(4)) === 0, boards = [a, b].map((register) => core.board(register));
      out += `registers=${same ? "equal" : "different"}\nboards=${boards[0] === boards[1] ? "equal" : "different"}\n`;
      const [first, second] = boards.map((board) => board.split("\n").slice(0, -1));
      for (let i = 0; i < Math.max(first.length, second.length); i++) {
        if (first[i] === second[i]) continue;
        for (const [room, line] of [["A", first[i]], ["B", second[i]]]) if (line !== undefined) out += `board=${room} line=${i + 1} ${line}\n`;
      }
      out += `${same}\n`;
    }
    return out;
  },
};
// The calls of a session up to its first bad line.
function upToBadLine(bytes) {
  const { refused, output: said } = core.session(bytes);
  if (!refused) return T.callsOfSession(bytes.toString("latin1"));
  const lines = bytes.toString("latin1").split("\n").slice(0, Number(/line=(\d+)/.exec(said)[1]) - 1), starts = lines.flatMap((line, i) => (line.startsWith("op=") ? [i] : []));
  const whole = { "op=report": 12, "op=summary": 5, "op=convict": 2 }, last = starts.at(-1) ?? 0;
  const kept = lines.length - last >= (whole[lines[last]] ?? 0) ? lines.length : last;
  return T.callsOfSession(lines.slice(0, kept).map((line) => `${line}\n`).join(""));
}

for (const [name, run] of Object.entries(gate)) {
  const folder = `crates/test_${name}`, stdin = fs.existsSync(path.join(root, folder, "stdin")) ? read(`${folder}/stdin`) : Buffer.alloc(0);
  compare(name, run(stdin), textOf(`${folder}/stdout`), "beside the program of the gate");
}

// ---- what the page's scripts read

// What the page makes of a session's calls, one by one, beside the whole session.
function byCalls(bytes) {
  const { calls } = T.read(core, bytes), { answers, register } = core.perform(fresh, calls);
  return answers.map((answer) => `answer=${answer}\n`).join("") + (core.board(register) || "transmissions=0\n");
}
let n = 0, seen = "", wanted = "", again = "";
for (const [folder, end] of [["examples/session", ".stdout"], ["examples/operation", ".expected"]])
  for (const name of names(folder, ".session")) {
    const bytes = read(`${folder}/${name}`);
    seen += core.session(bytes).output;
    again += byCalls(bytes);
    wanted += textOf(`${folder}/${without(name, ".session")}${end}`);
    n++;
  }
compare("examples, as sessions", seen, wanted, `${n} sessions`);
compare("examples, call by call", again, wanted, `${n} sessions`);

seen = wanted = "";
for (const name of names("examples/session/bad", ".session")) {
  const { output: said, reason } = core.session(read(`examples/session/bad/${name}`)), stem = `examples/session/bad/${without(name, ".session")}`;
  seen += said + reason;
  wanted += textOf(`${stem}.stdout`) + textOf(`${stem}.stderr`);
}
compare("bad sessions, with their sentences", seen, wanted);

const fixes = T.read(core, read("examples/csv/fixes.csv")).calls;
compare("a CSV as a session", T.sessionText(fixes), textOf("examples/csv/expected.session"));
compare("a CSV's board", core.board(core.perform(fresh, fixes).register), textOf("examples/csv/expected.board").replace(/^answer=.*\n/gm, ""));
seen = wanted = "";
for (const name of names("examples/csv/bad", ".csv")) {
  try {
    T.read(core, read(`examples/csv/bad/${name}`));
    seen += `bad/${name} is taken\n`;
  } catch (why) {
    seen += `bad/${name}: ${why.message}\n`;
  }
  wanted += textOf(`examples/csv/bad/${without(name, ".csv")}.stderr`);
}
compare("bad CSVs, with their sentences", seen, wanted);

// A register, as calls and as text, and back.
n = 0;
for (const register of pieces(read("crates/test_previews/stdin"), TL.REGISTER_SIZE)) {
  if (!core.isRegister(register)) continue;
  const calls = T.callsOfSession(T.sessionText(T.read(core, register).calls));
  const left = core.perform(fresh, calls).register;
  compare(`a saved register ${++n}, as calls and back`, T.hexOf(left), T.hexOf(register));
}

// The flight of examples/windows, in its windows.
const told = textOf("examples/windows/expected").split("\n"), flown = [0, 1].map((room) => flight.flight(room)), lines = [];
const numbers = T.windowNumbers(flown.flat(), flight.length), registers = [], counted = { transmissions: 0, fixes: 0, most: 0, boards: 0, registers: 0 };
flown.forEach((calls, room) => {
  const answers = new Map(), windows = T.windowsOf(calls, flight.length, numbers);
  registers[room] = numbers.map((number) => {
    const list = windows.get(number), left = core.perform(fresh, list);
    list.forEach((call, i) => call.op === "report" && answers.set(left.answers[i], (answers.get(left.answers[i]) ?? 0) + 1));
    return left.register;
  });
  lines.push(`${["north", "south"][room]}: ${calls.filter((call) => call.op === "report").length} reports${[...answers].sort((a, b) => a[0] - b[0]).map(([answer, many]) => `, ${many} answered ${answer} (${core.answerText(answer)})`).join("")}`);
});
numbers.forEach((_, i) => {
  const [north, south] = registers.map((list) => list[i]), board = core.board(north);
  counted.boards += board === core.board(south) ? 1 : 0;
  counted.registers += Buffer.compare(north.subarray(4), south.subarray(4)) === 0 ? 1 : 0;
  counted.most = Math.max(counted.most, north[TL.REGISTER_RECORD_COUNT_AT]);
  counted.transmissions += board.split("transmission=").length - 1;
  counted.fixes += board.split("role=").length - 1;
});
lines.push(`${numbers.length} windows, ${counted.registers} hold the same in both rooms, ${counted.boards === numbers.length ? "all boards are equal" : "boards differ"}: ${counted.transmissions} transmissions, ${counted.fixes} fixes, at most ${counted.most} records in a window`);
const from = told.indexOf("cut by transmit time");
compare("a flight in windows", lines.join("\n"), [told[from + 1], told[from + 3], told[from + 5]].join("\n"), "beside examples/windows");

// A session that is too long for the program, in parts.
const long = Buffer.from(T.sessionText(flown[0].slice(0, 400)));
compare("a long session, in parts", T.sessionText(T.read(core, long).calls), long.toString("latin1"));

seen = "taken";
try {
  T.read(core, Buffer.concat([long, Buffer.from("op=convict\nengine=07\n")]));
} catch (why) {
  seen = why.message;
}
const line = long.toString("latin1").split("\n").length + 1;
compare("a bad line of a long session", seen, `refused=11 line=${line}: line ${line}: engine= is due, then a decimal number from 0 to 255 without leading zeros, then a line feed; found 'engine=07'`);

// ---- beside the program `session`

if (sessionsFolder) {
  const files = fs.readdirSync(sessionsFolder).filter((name) => name.endsWith(".in"));
  let alike = 0, good = 0;
  for (const name of files) {
    const bytes = fs.readFileSync(path.join(sessionsFolder, name)), printed = fs.readFileSync(path.join(sessionsFolder, `${without(name, ".in")}.out`), "latin1");
    const { refused, output: said, reason } = core.session(bytes);
    if (said + reason === printed && (refused || byCalls(bytes) === said)) alike++;
    else compare(`session ${name}`, said + reason, printed);
    if (!refused) good++;
  }
  console.log(`sessions beside the program: ${alike} of ${files.length} alike, ${good} of them not refused`);
}
console.log(differ ? `${differ} differ` : "nothing differs");
process.exit(differ ? 1 : 0);
