// The functions of toastlagoon.wasm for a page, and what reads files and texts for it. There is nothing of a page in it, so it runs in Node
// too. A classic script, since no module is loaded from file://; it leaves one name, Toastlagoon. TOASTLAGOON_NAMES has the numbers of
// include/toastlagoon.h, without their TL_; page/make writes it.
(function (root) {
  "use strict";
  const TL = root.TOASTLAGOON_NAMES;

  // What a person's file or text is refused for, in a sentence.
  class Refused extends Error {}

  // ---- the module

  // The module has one memory of a fixed size and asks its host for nothing. Its stack lies at the bottom, its constants above that, and
  // from __heap_base on all is the host's. Each argument has a place of its own there, so no two that a call is lent overlap.
  const PLACES = {
    session: TL.MAX_SESSION + 1, answers: TL.SESSION_SIZE, reason: TL.REASON_SIZE, register: TL.REGISTER_SIZE, other: TL.REGISTER_SIZE,
    lacking: TL.REGISTER_SIZE, track: TL.TRACK_SIZE, shelf: TL.SHELF_SIZE, text: TL.BOARD_SIZE, map: TL.MAP_SIZE, fixes: TL.FIXES_SIZE,
    record: TL.RECORD_SIZE, message: TL.LONG_MESSAGE, tags: TL.MAX_TAGS * TL.TAG_SIZE, models: TL.MAX_CITED, covariance: 6 * TL.F64_SIZE,
    inputs: TL.INPUTS_SIZE, hash: TL.HASH_SIZE, chi2: TL.F64_SIZE, limit: TL.F64_SIZE,
  };

  async function load(wasm) {
    const module = await WebAssembly.compile(wasm);
    if (WebAssembly.Module.imports(module).length) throw new Error("the module asks for imports");
    let exports, memory, view, at;
    const start = () => {
      exports = new WebAssembly.Instance(module, {}).exports;
      memory = new Uint8Array(exports.memory.buffer);
      view = new DataView(memory.buffer);
      let next = Number(exports.__heap_base.value);
      at = {};
      for (const [name, size] of Object.entries(PLACES)) {
        at[name] = next;
        next += (size + 15) & ~15;
      }
      if (next > memory.length) throw new Error(`the module has ${memory.length} bytes of memory, and ${next} are needed`);
    };
    start();

    // A trap leaves the instance unusable: each later call traps too. So another one is made.
    const call = (name, ...words) => {
      try {
        return exports[name](...words);
      } catch (why) {
        start();
        throw why;
      }
    };
    const put = (name, bytes) => {
      if (bytes.length > PLACES[name]) throw new RangeError(`${bytes.length} bytes for ${name}, which has ${PLACES[name]}`);
      memory.set(bytes, at[name]);
    };
    const get = (name, length) => memory.slice(at[name], at[name] + length);
    const clear = (name) => memory.fill(0, at[name], at[name] + PLACES[name]);
    const text = (name, length) => latin1(memory.subarray(at[name], at[name] + length));
    // A pointer is a BigInt, and a slice is two: where it begins and how long it is.
    const pointer = (name) => BigInt(at[name]);
    const slice = (name, length = PLACES[name]) => [pointer(name), BigInt(length)];

    const answerText = (answer) => text("text", call("tl_answer_text", u32(answer), ...slice("text")));
    // Of a call that returns a length. None of its lengths is one of the numbers that it refuses with, all of which are below `least`.
    const written = (place, answer, least) => {
      if (answer !== 0 && answer < least) throw new Error(`refused with ${answer}: ${answerText(answer)}`);
      return text(place, answer);
    };

    // Where no record says this, the library is given bytes that are none, and it answers for them.
    const recordOf = (say) => {
      if (say.record === undefined) {
        say.record = core.record(say.values) ?? new Uint8Array(TL.RECORD_SIZE);
      }
      return say.record;
    };
    // The same call to the register or to the track with its shelf that lies in the memory.
    const perform = (say, kind, places, desk) => {
      const engine = u32(say.engine);
      if (say.op === "convict") return call(`tl_${kind}_conviction`, ...desk, ...places, engine);
      if (say.op === "summary") {
        put("inputs", bytesOf(say.inputs));
        return call(`tl_${kind}_summary`, ...places, engine, u32(say.model), u16(say.spec), ...slice("inputs"));
      }
      put("record", recordOf(say));
      return call(`tl_${kind}_report`, ...places, engine, ...slice("record"));
    };

    const core = {
      // For who calls what has no name here.
      module,
      get exports() { return exports; },
      get memory() { return memory; },
      answerText,
      version: () => call("tl_version"),

      // What the program `session` prints, and what it says of a session that is refused.
      session(bytes) {
        const input = bytes.subarray(0, PLACES.session);
        put("session", input);
        clear("register");
        const answer = call("tl_register_session", ...slice("register"), ...slice("session", input.length), ...slice("answers"));
        const reason = text("reason", call("tl_session_reason", ...slice("session", input.length), pointer("reason")));
        if (answer === TL.SESSION_TOO_LONG) return { refused: answer, output: `refused=${answer}\n`, reason };
        if (answer === TL.BAD_LINE) return { refused: answer, output: `refused=${answer} line=${/^line ([0-9]+):/.exec(reason)[1]}\n`, reason };
        if (answer % TL.ANSWER_LINE_SIZE) throw new Error(`refused with ${answer}: ${answerText(answer)}`);
        const answers = text("answers", answer);
        return { refused: 0, output: answers + (core.board(get("register", TL.REGISTER_SIZE)) || "transmissions=0\n"), reason };
      },

      // The record that says this, or null where none does.
      record(values) {
        const { message, tags, models, covariance, height } = values;
        put("message", bytesOf(message));
        tags.forEach((tag, i) => view.setBigUint64(at.tags + 8 * i, tag, true));
        put("models", Uint8Array.from(models, (model) => (model > 255 ? 255 : model)));
        covariance.forEach((bits, i) => view.setBigUint64(at.covariance + 8 * i, bits, true));
        const answer = call("tl_record_write", values.time, i32(values.lat), i32(values.lon), height === null ? 0 : 1, i32(height ?? 0),
          ...slice("message", message.length / 2), ...slice("tags", tags.length), u32(values.used), ...slice("models", models.length),
          u16(values.spec), pointer("covariance"), pointer("record"));
        return answer === TL.OK ? get("record", TL.RECORD_SIZE) : null;
      },

      // Makes calls on a register, as a manager does.
      perform(register, calls) {
        put("register", register);
        const places = slice("register");
        const answers = calls.map((say) => perform(say, "register", places, [TL.MANAGER]));
        return { answers, register: get("register", TL.REGISTER_SIZE) };
      },
      // Makes them on a fresh track with its shelf.
      follow(calls) {
        clear("track");
        clear("shelf");
        const places = [...slice("track"), ...slice("shelf")];
        const answers = calls.map((say) => perform(say, "track", places, []));
        const listing = written("text", call("tl_track_listing", ...slice("track"), ...slice("text")), 11);
        return { answers, listing, waiting: memory[at.shelf + TL.SHELF_COUNT_AT] };
      },

      isRegister(bytes) {
        if (bytes.length !== TL.REGISTER_SIZE) return false;
        put("register", bytes);
        return call("tl_register_map", ...slice("register"), ...slice("map")) !== TL.MALFORMED_REGISTER;
      },
      board(register, desk = TL.MANAGER) {
        put("register", register);
        return written("text", call("tl_board", u32(desk), ...slice("register"), ...slice("text")), TL.MIN_CREW_LENGTH);
      },
      preview(register, engine) {
        put("register", register);
        return written("text", call("tl_register_preview", TL.MANAGER, ...slice("register"), u32(engine), ...slice("text")), TL.MIN_LENGTH);
      },
      map(register) {
        put("register", register);
        return written("map", call("tl_register_map", ...slice("register"), ...slice("map")), TL.MIN_MAP_LENGTH);
      },
      // The fixes of the full board, in the order of its lines, each with the record that represents it.
      fixes(register) {
        put("register", register);
        const length = call("tl_register_fixes", ...slice("register"), ...slice("fixes"));
        if (length % TL.SHOWN_SIZE) throw new Error(`refused with ${length}: ${answerText(length)}`);
        return Array.from({ length: length / TL.SHOWN_SIZE }, (_, i) => {
          const from = at.fixes + i * TL.SHOWN_SIZE, place = memory[from + TL.SHOWN_PLACE_AT];
          return {
            number: memory[from + TL.SHOWN_NUMBER_AT], role: ["ranked", "dominated", "refused"][memory[from + TL.SHOWN_ROLE_AT]],
            against: memory[from + TL.SHOWN_AGAINST_AT], engines: enginesOf(view.getUint32(from + TL.SHOWN_SIGNERS_AT, true)),
            chi2: memory[from + TL.SHOWN_MEASURED_AT] ? view.getBigUint64(from + TL.SHOWN_CHI2_AT, true) : null,
            values: valuesOf(view, at.register + TL.REGISTER_RECORDS_AT + place * TL.HELD_SIZE),
          };
        });
      },
      // How many records of a register count on no board, since a model that they cite has no summary, or is disputed or of another spec.
      withheld(register) {
        put("register", register);
        const found = { missing: 0, disputed: 0 }, count = view.getUint16(at.register + TL.REGISTER_RECORD_COUNT_AT, true);
        for (let i = 0; i < count; i++) {
          const record = [BigInt(at.register + TL.REGISTER_RECORDS_AT + i * TL.HELD_SIZE), BigInt(TL.RECORD_SIZE)];
          const answer = call("tl_register_inputs", ...slice("register"), ...record, pointer("inputs"));
          if (answer === TL.WAITING) found.missing++;
          else if (answer === TL.MODEL_DISPUTED) found.disputed++;
        }
        return found;
      },
      // Whether a larger fix lies within a smaller one's uncertainty, with the chi-square and its limit.
      agreement(smaller, larger) {
        const claim = ({ lat, lon, height, covariance }) => [lat, lon, height === null ? 0 : 1, height ?? 0, ...covariance.map(numberOf)];
        const outcome = call("tl_agreement", ...claim(smaller), ...claim(larger), pointer("chi2"), pointer("limit"));
        if (outcome === TL.UNMEASURABLE) return null;
        return { outcome, chi2: view.getFloat64(at.chi2, true), limit: view.getFloat64(at.limit, true) };
      },

      // What a register lacks of another, as a register.
      lacks(register, other) {
        put("register", register);
        put("other", other);
        const answer = call("tl_register_lacks", ...slice("register"), ...slice("other"), ...slice("lacking"));
        if (answer !== TL.OK) throw new Error(`refused with ${answer}: ${answerText(answer)}`);
        return get("lacking", TL.REGISTER_SIZE);
      },
      join(register, other) {
        put("register", register);
        put("other", other);
        const answer = call("tl_register_join", ...slice("register"), ...slice("other"));
        return { answer, register: get("register", TL.REGISTER_SIZE) };
      },

      hash(bytes) {
        put("other", bytes);
        call("tl_blake2s256", ...slice("other", bytes.length), pointer("hash"));
        return hexOf(get("hash", TL.HASH_SIZE));
      },
      // What a room reads to another of a window: the hash of the register behind the convicted engines, and these.
      spoken(register) {
        const convicted = new DataView(register.buffer, register.byteOffset).getUint32(TL.REGISTER_CONVICTED_AT, true);
        return { hash: core.hash(register.subarray(TL.REGISTER_SUMMARY_COUNT_AT)), convicted: convicted.toString(16).padStart(8, "0") };
      },
    };
    return core;
  }

  // WebAssembly takes a missing or broken number for 0, cuts what is too large, and has an engine 0.
  const within = (least, most) => (n) => {
    if (!Number.isInteger(n) || n < least || most < n) throw new TypeError(`not a whole number from ${least} to ${most}: ${n}`);
    return n;
  };
  const u16 = within(0, 0xffff), u32 = within(0, 0xffffffff), i32 = within(-0x80000000, 0x7fffffff);

  // ---- bytes

  const latin1 = (bytes) => {
    let text = "";
    for (let i = 0; i < bytes.length; i += 8192) text += String.fromCharCode(...bytes.subarray(i, i + 8192));
    return text;
  };
  const hexOf = (bytes) => Array.from(bytes, (byte) => byte.toString(16).padStart(2, "0")).join("");
  const bytesOf = (hex) => Uint8Array.from(hex.match(/../g) ?? [], (two) => parseInt(two, 16));
  const enginesOf = (bits) => Array.from({ length: TL.MAX_ENGINE + 1 }, (_, n) => n).filter((n) => (bits >>> n) & 1);
  const numberOf = (bits) => new DataView(BigUint64Array.of(bits).buffer).getFloat64(0, true);

  // What the record at a place says.
  function valuesOf(view, at) {
    const list = (from, count, step, read) => Array.from({ length: count }, (_, i) => read(at + from + i * step));
    const u64 = (from) => view.getBigUint64(from, true);
    const bytes = (from, length) => new Uint8Array(view.buffer, view.byteOffset + at + from, length);
    return {
      time: u64(at + TL.RECORD_TIME_AT), lat: view.getInt32(at + TL.RECORD_LAT_AT, true), lon: view.getInt32(at + TL.RECORD_LON_AT, true),
      height: view.getUint8(at + TL.RECORD_HAS_HEIGHT_AT) ? view.getInt32(at + TL.RECORD_HEIGHT_AT, true) : null,
      message: hexOf(bytes(TL.RECORD_MESSAGE_AT, view.getUint8(at + TL.RECORD_MESSAGE_LENGTH_AT))),
      tags: list(TL.RECORD_TAGS_AT, view.getUint8(at + TL.RECORD_TAG_COUNT_AT), TL.TAG_SIZE, u64),
      used: view.getUint32(at + TL.RECORD_USED_AT, true),
      models: list(TL.RECORD_MODELS_AT, view.getUint8(at + TL.RECORD_MODEL_COUNT_AT), 1, (from) => view.getUint8(from)),
      spec: view.getUint16(at + TL.RECORD_SPEC_AT, true),
      covariance: list(TL.RECORD_XX_AT, 6, TL.F64_SIZE, u64),
    };
  }

  // What a register holds, as the calls that leave it of a fresh one: convictions, summaries, and a report for each signer of each record.
  function callsOfRegister(register) {
    const view = new DataView(register.buffer, register.byteOffset, register.length), calls = [];
    for (const engine of enginesOf(view.getUint32(TL.REGISTER_CONVICTED_AT, true))) calls.push({ op: "convict", engine });
    for (let i = 0; i < view.getUint16(TL.REGISTER_SUMMARY_COUNT_AT, true); i++) {
      const at = TL.REGISTER_SUMMARIES_AT + i * TL.SUMMARY_SIZE, inputs = at + TL.SUMMARY_INPUTS_AT;
      calls.push({ op: "summary", engine: register[at + TL.SUMMARY_ENGINE_AT], model: register[at + TL.SUMMARY_MODEL_AT],
        spec: view.getUint16(at + TL.SUMMARY_SPEC_AT, true), inputs: hexOf(register.subarray(inputs, inputs + TL.INPUTS_SIZE)) });
    }
    for (let i = 0; i < view.getUint16(TL.REGISTER_RECORD_COUNT_AT, true); i++) {
      const at = TL.REGISTER_RECORDS_AT + i * TL.HELD_SIZE, values = valuesOf(view, at);
      for (const engine of enginesOf(view.getUint32(at + TL.HELD_SIGNERS_AT, true))) calls.push({ op: "report", engine, values });
    }
    return calls;
  }

  // ---- sessions as text

  // The calls of a session that is not refused.
  function callsOfSession(text) {
    return text.split(/^(?=op=)/m).filter((part) => part !== "").map((part) => {
      const f = Object.fromEntries(part.trimEnd().split("\n").map((line) => line.split("=")));
      const call = { op: f.op, engine: Number(f.engine) };
      if (f.op === "summary") Object.assign(call, { model: Number(f.model), spec: Number(f.spec), inputs: f.inputs });
      if (f.op === "report")
        call.values = {
          time: BigInt(f.time), lat: Number(f.lat), lon: Number(f.lon), height: f.height === "none" ? null : Number(f.height), message: f.message,
          tags: f.tags.split(",").map(BigInt), used: Number(f.used), models: f.models === "none" ? [] : f.models.split(",").map(Number),
          spec: Number(f.spec), covariance: f.cov.match(/.{16}/g).map((hex) => BigInt(`0x${hex}`)),
        };
      return call;
    });
  }
  // The lines of a call.
  function textOf(call) {
    if (call.text === undefined) {
      const lines = [`op=${call.op}`, `engine=${call.engine}`], v = call.values;
      if (call.op === "summary") lines.push(`model=${call.model}`, `spec=${call.spec}`, `inputs=${call.inputs}`);
      if (call.op === "report")
        lines.push(`time=${v.time}`, `lat=${v.lat}`, `lon=${v.lon}`, `height=${v.height ?? "none"}`, `message=${v.message}`, `tags=${v.tags.join()}`,
          `used=${v.used}`, `models=${v.models.join() || "none"}`, `spec=${v.spec}`, `cov=${v.covariance.map((bits) => bits.toString(16).padStart(16, "0")).join("")}`);
      call.text = `${lines.join("\n")}\n`;
    }
    return call.text;
  }
  const sessionText = (calls) => calls.map(textOf).join("");

  // The calls of a session. One that is longer than a session may be is judged in parts of whole operations.
  function readSession(core, bytes) {
    let from = 0, line = 1;
    const ends = [];
    if (bytes.length > TL.MAX_SESSION)
      for (let i = 1; i < bytes.length; i++) if (bytes[i - 1] === 10 && bytes[i] === 111 && bytes[i + 1] === 112 && bytes[i + 2] === 61) ends.push(i);
    ends.push(bytes.length);
    while (from < bytes.length) {
      const to = ends.findLast((end) => from < end && end - from <= TL.MAX_SESSION) ?? ends.find((end) => from < end);
      const part = bytes.subarray(from, to), { refused, output, reason } = core.session(part);
      if (refused) {
        const whole = (said) => said.trim().replace(/line([ =])([0-9]+)/, (_, between, n) => `line${between}${Number(n) + line - 1}`);
        throw new Refused(`${whole(output)}: ${whole(reason)}`);
      }
      for (const byte of part) if (byte === 10) line++;
      from = to;
    }
    return callsOfSession(latin1(bytes));
  }

  // ---- a CSV of fixes: the rules of examples/csv/to_session.py

  const COVARIANCE = ["cov_xx", "cov_xy", "cov_xz", "cov_yy", "cov_yz", "cov_zz"];
  const COLUMNS = ["engine", "time_ns", "lat_deg", "lon_deg", "height_m", "message_hex", "tags", "used_tags", "models", "spec", ...COVARIANCE];
  const U64 = 2n ** 64n - 1n;

  // RFC 4180: quotes, doubled quotes, CR LF or LF. Each row comes with the number of its last line.
  function rowsOf(text) {
    const rows = [];
    let row = [], field = "", quoted = false, wasQuoted = false, line = 1;
    const endField = () => { row.push(field); field = ""; wasQuoted = false; };
    const endRow = () => {
      if (row.length || field !== "" || wasQuoted) endField();
      rows.push({ line, row });
      row = [];
    };
    for (let i = 0; i < text.length; i++) {
      const c = text[i], next = text[i + 1];
      if (quoted && c === '"' && next === '"') { field += c; i++; }
      else if (quoted && c === '"') {
        quoted = false;
        if (next !== undefined && !",\r\n".includes(next)) throw new Refused(`line ${line}: ',' expected after '"'`);
      } else if (quoted) { if (c === "\n") line++; field += c; }
      else if (c === '"' && field === "" && !wasQuoted) quoted = wasQuoted = true;
      else if (c === ",") endField();
      else if (c === "\n" || c === "\r") { if (c === "\r" && next === "\n") i++; endRow(); line++; }
      else field += c;
    }
    if (quoted) throw new Refused(`line ${text.endsWith("\n") ? line - 1 : line}: unexpected end of data`);
    if (row.length || field !== "" || wasQuoted) endRow();
    return rows;
  }
  function whole(column, text, most) {
    if (!/^[0-9]{1,20}$/.test(text) || BigInt(text) > most) throw new Refused(`${column} is '${text}' and must be a whole number from 0 to ${most}`);
    return BigInt(text);
  }
  // A decimal number in units of 10 ** -places: the nearest, and of two the even one.
  function scaled(column, text, places, least, most) {
    const found = /^(-?)([0-9]+)(?:\.([0-9]+))?$/.exec(text);
    if (!found) throw new Refused(`${column} is '${text}' and must be a decimal number, as -12.5`);
    const [, minus, before, after = ""] = found, behind = after.padEnd(places, "0"), one = 10n ** BigInt(behind.length), digits = BigInt(before + behind);
    if (digits > BigInt(minus ? -least : most) * one) throw new Refused(`${column} is '${text}' and must be from ${least} to ${most}`);
    const unit = 10n ** BigInt(behind.length - places), twice = 2n * (digits % unit);
    let units = digits / unit;
    if (twice > unit || (twice === unit && units % 2n === 1n)) units += 1n;
    return Number(minus ? -units : units);
  }
  function wholes(column, text, most, count) {
    const values = text.split(/\s+/).filter((word) => word).map((word) => whole(column, word, most));
    if (values.length > count) throw new Refused(`${column} has ${values.length} numbers and may have at most ${count}`);
    return values;
  }
  function bitsOf(column, text) {
    if (!/^-?[0-9]+(\.[0-9]+)?([eE][-+]?[0-9]+)?$/.test(text) || !Number.isFinite(Number(text)))
      throw new Refused(`${column} is '${text}' and must be a decimal number that an f64 can hold, as 100 or 2.5e-3`);
    return new BigUint64Array(Float64Array.of(Number(text)).buffer)[0];
  }
  function callOfFix(fix) {
    const message = fix.message_hex.toLowerCase();
    const engine = () => Number(whole("engine", fix.engine, BigInt(TL.MAX_ENGINE)));
    if (!/^([0-9a-f]{14}){1,2}$/.test(message)) throw new Refused(`message_hex is '${fix.message_hex}' and must be 14 or 28 hex digits`);
    const tags = wholes("tags", fix.tags, U64, TL.MAX_TAGS).sort((a, b) => (a < b ? -1 : a > b ? 1 : 0));
    if (!tags.length) throw new Refused("tags is empty and must have at least one number");
    const used = wholes("used_tags", fix.used_tags, U64, TL.MAX_TAGS);
    for (const [column, values] of [["tags", tags], ["used_tags", used]]) {
      const twice = values.find((value, i) => values.indexOf(value) !== i);
      if (twice !== undefined) throw new Refused(`${column} has ${twice} twice`);
    }
    const strange = used.find((value) => !tags.includes(value));
    if (strange !== undefined) throw new Refused(`used_tags has ${strange}, which is not among tags`);
    const models = wholes("models", fix.models, BigInt(TL.MAX_MODEL), TL.MAX_CITED).map(Number);
    return { op: "report", engine: engine(), values: {
      time: whole("time_ns", fix.time_ns, U64), lat: scaled("lat_deg", fix.lat_deg, 7, -90, 90), lon: scaled("lon_deg", fix.lon_deg, 7, -180, 180),
      height: fix.height_m ? scaled("height_m", fix.height_m, 3, -2147483, 2147483) : null, message, tags,
      used: used.reduce((mask, value) => mask + 2 ** tags.indexOf(value), 0), models, spec: Number(whole("spec", fix.spec, 65535n)),
      covariance: COVARIANCE.map((column) => bitsOf(column, fix[column])) } };
  }
  function readCsv(bytes) {
    let text;
    try {
      text = new TextDecoder("utf-8", { fatal: true }).decode(bytes);
    } catch {
      throw new Refused("it is not in UTF-8");
    }
    const rows = rowsOf(text), head = (rows.shift()?.row ?? []).map((name) => name.trim());
    if ([...head].sort().join() !== [...COLUMNS].sort().join()) {
      const missing = COLUMNS.find((column) => !head.includes(column));
      const strange = head.find((column) => !COLUMNS.includes(column) || head.indexOf(column) !== head.lastIndexOf(column));
      throw new Refused(`line 1: the columns must be ${COLUMNS.join()}, each once; ${missing ? `${missing} is missing` : `'${strange}' is too many`}`);
    }
    const calls = rows.map(({ line, row }) => {
      if (row.length !== COLUMNS.length) throw new Refused(`line ${line}: ${row.length} fields where ${COLUMNS.length} are due`);
      try {
        return callOfFix(Object.fromEntries(head.map((column, i) => [column, row[i].trim()])));
      } catch (why) {
        if (why instanceof Refused) why.message = `line ${line}: ${why.message}`;
        throw why;
      }
    });
    if (!calls.length) throw new Refused("there is no fix");
    return calls;
  }

  // ---- files

  // The calls that a file holds: a saved register, a CSV, whose first line names columns with commas between, or else a session.
  function read(core, bytes) {
    if (bytes.length === TL.REGISTER_SIZE && core.isRegister(bytes)) return { kind: "register", calls: callsOfRegister(bytes) };
    const end = bytes.indexOf(10), first = latin1(bytes.subarray(0, end < 0 ? bytes.length : end));
    if (first.includes(",") && !first.includes("=")) return { kind: "CSV", calls: readCsv(bytes) };
    return { kind: "session", calls: readSession(core, bytes) };
  }

  // ---- orders

  // SplitMix64, as the Rust crate rand_xoshiro draws 32 bits of it.
  class Random {
    constructor(seed) { this.state = BigInt.asUintN(64, BigInt(seed)); }
    draw() {
      this.state = BigInt.asUintN(64, this.state + 0x9e3779b97f4a7c15n);
      let z = BigInt.asUintN(64, (this.state ^ (this.state >> 33n)) * 0x62a9d9ed799705f5n);
      z = BigInt.asUintN(64, (z ^ (z >> 28n)) * 0xcb24d0a5c88c35b3n);
      return z >> 32n;
    }
    // A number below another, as rand draws it.
    below(bound) {
      const product = this.draw() * BigInt(bound), low = Number(product & 0xffffffffn);
      let high = Number(product >> 32n);
      if (2 ** 32 - bound < low && low + Number((this.draw() * BigInt(bound)) >> 32n) >= 2 ** 32) high++;
      return high;
    }
  }
  // The order that the program `rooms` would give a list: Fisher and Yates, where one draw serves several places.
  function shuffled(list, random) {
    const to = [...list];
    let chunk = 0, left = 1;
    for (let i = 0; i < to.length; i++) {
      if (left === 0) {
        let bound = i + 1;
        for (left = 1; bound * (i + 1 + left) < 2 ** 32; left++) bound *= i + 1 + left;
        chunk = random.below(bound);
      }
      left--;
      const index = left === 0 ? chunk : chunk % (i + 1);
      chunk = Math.floor(chunk / (i + 1));
      [to[i], to[index]] = [to[index], to[i]];
    }
    return to;
  }
  // How many different boards and listings so many orders give, one order after another.
  function* orders(core, calls, count, seed) {
    const random = new Random(seed), boards = new Set(), listings = new Set(), fresh = new Uint8Array(TL.REGISTER_SIZE);
    let full = 0;
    for (let n = 1; n <= count; n++) {
      calls = shuffled(calls, random);
      listings.add(core.follow(calls).listing);
      const { answers, register } = core.perform(fresh, calls);
      boards.add(core.board(register));
      if (answers.includes(TL.FULL)) full++;
      yield { orders: n, boards: boards.size, listings: listings.size, full };
    }
  }

  // ---- windows

  // The calls of each window: a report goes to the window of its transmit time, all else to every window. Without a length there is one.
  function windowsOf(calls, length, numbers = windowNumbers(calls, length)) {
    const windows = new Map(numbers.map((number) => [number, []]));
    for (const call of calls) {
      if (call.op === "report") windows.get(windowOf(call, length)).push(call);
      else for (const list of windows.values()) list.push(call);
    }
    return windows;
  }
  const windowOf = (call, length) => (length ? call.values.time / length : 0n);
  function windowNumbers(calls, length) {
    const numbers = new Set(calls.filter((call) => call.op === "report").map((call) => windowOf(call, length)));
    if (!numbers.size) numbers.add(0n);
    return [...numbers].sort((a, b) => (a < b ? -1 : a > b ? 1 : 0));
  }

  // ---- texts

  // Nanoseconds as a date in UTC, if they are counted from 1970.
  function timeText(time) {
    const ms = Number(time / 1000000n);
    return ms > 8.64e15 ? `${time} ns` : `${new Date(ms).toISOString().slice(0, 19).replace("T", " ")}.${String(time % 1000000000n).padStart(9, "0")}`;
  }
  const degrees = (units) => (units / 1e7).toFixed(7);
  // What a call says, in words.
  function words(call) {
    if (call.op === "convict") return `the conviction of engine ${call.engine}`;
    if (call.op === "summary") return `engine ${call.engine}'s summary of model ${call.model}`;
    return `engine ${call.engine}'s report of ${timeText(call.values.time)} at ${degrees(call.values.lat)}, ${degrees(call.values.lon)}`;
  }
  // The lines of one text that go and those of another that come, by a longest common subsequence.
  function changes(before, after) {
    const n = before.length, m = after.length, best = Array.from({ length: n + 1 }, () => new Uint16Array(m + 1)), out = [];
    for (let i = n - 1; i >= 0; i--)
      for (let j = m - 1; j >= 0; j--) best[i][j] = before[i] === after[j] ? best[i + 1][j + 1] + 1 : Math.max(best[i + 1][j], best[i][j + 1]);
    for (let i = 0, j = 0; i < n || j < m; )
      if (i < n && j < m && before[i] === after[j]) out.push({ kind: "stays", before: i++, after: j++ });
      else if (i < n && (j === m || best[i + 1][j] >= best[i][j + 1])) out.push({ kind: "goes", before: i++ });
      else out.push({ kind: "comes", after: j++ });
    return out;
  }

  root.Toastlagoon = { TL, Refused, Random, load, read, callsOfSession, callsOfRegister, textOf, sessionText, shuffled, orders, windowsOf, windowNumbers,
    timeText, degrees, words, changes, hexOf, bytesOf, numberOf, latin1 };
})(globalThis);
