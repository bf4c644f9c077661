"use strict";
// The page, and the worker in which the proved module runs: the same file in both parts. The module's exports are
// functions of bytes (crates/trips_page); this file draws what they answer, and proves nothing.

// --- the worker: hands bytes to an export, and sends back what it answers ---

function serve() {
  let x = null, made = null, room = 0n, size = 0n;
  const resize = n => {
    if (room) x.host_free(room);
    size = n; room = x.host_room(n);
    if (!room) { size = 0n; throw new Error("no room"); }
  };
  const place = bytes => {
    const at = x.host_room(BigInt(bytes.length || 1));
    if (!at) throw new Error("no room");
    new Uint8Array(x.memory.buffer, Number(at), bytes.length).set(bytes);
    return at;
  };
  const call = (name, texts, numbers) => {
    const held = texts.map(place), words = texts.flatMap((t, i) => [held[i], BigInt(t.length)]);
    try {
      for (;;) {
        const n = x[name](...words, ...numbers, room, size);
        if (n <= size) return new Uint8Array(x.memory.buffer, Number(room), Number(n)).slice();
        resize(n);
      }
    } finally { held.forEach(p => x.host_free(p)); }
  };
  const start = async () => {
    x = (await WebAssembly.instantiate(made, {})).exports;
    room = 0n;
    resize(1n << 22n);
  };
  // Where a call stops halfway, as on a stack that is too small, the module begins anew.
  onmessage = async e => {
    const { id, module, name, texts, numbers } = e.data;
    try {
      if (module) {
        made = module;
        await start();
        return postMessage({ id });
      }
      if (!x) await start();
      const begun = performance.now(), bytes = call(name, texts, numbers);
      postMessage({ id, bytes, ms: performance.now() - begun }, [bytes.buffer]);
    } catch (fault) {
      x = null;
      postMessage({ id, fault: fault instanceof RangeError ? DEEP : String(fault && fault.message || fault) });
    }
  };
}

// --- what the bytes say ---

const STATUS = { 0: "ended", 2: "usage", 3: "read fault", 4: "refused", 5: "budget spent", 6: "stack full",
  8: "want of memory", 9: "trap", 10: "undefined", 11: "aborted" };
const STANDS = ["goes on", "ended", "stack full", "budget spent", "trap"];
const utf8 = new TextEncoder(), read = new TextDecoder();
const NUMBER = new Intl.NumberFormat("en");
const AGAIN = { cache: "no-cache" }, DEEP = "the browser's stack is too small for this program";

// The moments of a record (crates/grid_record/specs/Moments.antt), and the output behind the last.
function momentsOf(bytes) {
  const view = new DataView(bytes.buffer, bytes.byteOffset, bytes.length), list = [];
  let p = 0;
  const long = () => { const n = Number(view.getBigUint64(p)); p += 8; return n; };
  while (bytes[p] === 1) {
    p += 1;
    const m = { cycles: long(), fetched: long(), committed: long(), flushed: long() };
    m.stands = bytes[p++];
    const count = bytes[p++];
    m.order = [...bytes.subarray(p, p + count)]; p += count;
    m.standing = bytes[p] ? view.getUint32(p + 1) : null; p += 5;
    m.frames = [];
    for (let n = 0; n < 8; n++) {
      if (bytes[p] === 0) { m.frames.push(null); p += 1; continue; }
      const f = { number: n, sealed: bytes[p] === 2, careful: bytes[p + 1] === 1, block: view.getUint32(p + 3),
        exit: bytes[p + 2] === 255 ? null : bytes[p + 2], slots: bytes.subarray(p + 7, p + 135), tokens: [] };
      for (p += 135; view.getUint16(p) !== 65535; p += 2) f.tokens.push(view.getUint16(p));
      p += 2;
      m.frames.push(f);
    }
    m.registers = p; m.view = view; p += 1024;
    m.length = long();
    list.push(m);
  }
  return { list, output: bytes.subarray(p + 1) };
}

// The blocks of a target text (docs/MACHINE.md, "Target text").
function blocksOf(text) {
  const all = [];
  let b = null;
  const targets = words => words.filter(w => /^[NW]\[/.test(w)).map(w => {
    const m = /^([NW])\[(\d+)(?:,(\w))?\]/.exec(w);
    return { to: m[1], n: +m[2], part: m[3] };
  });
  for (const line of text.split("\n")) {
    const w = line.split(" ");
    if (w[0] === "block") { b = { number: all.length, reads: [], writes: [], nodes: [], lines: [] }; all.push(b); }
    if (!b || !line) continue;
    b.lines.push(line);
    const n = parseInt(w[0].slice(2), 10);
    if (line[0] === "R") b.reads.push({ register: +w[2].slice(2, -1), targets: targets(w.slice(3)) });
    else if (line[0] === "W") b.writes.push({ register: +w[2].slice(2, -1) });
    else if (line[0] === "N") {
      const rest = w.slice(2).filter(t => !/^[NW]\[/.test(t)).join(" ");
      b.nodes.push({ slot: n, name: w[1], rest, targets: targets(w.slice(2)) });
    }
  }
  return all;
}

// What happened between two moments of which the second is a cycle later: which frames went, and why (docs/GRID.md).
function changesOf(before, after) {
  const left = [...before.order], made = { committed: null, flushed: [], cause: "" };
  if (after.committed > before.committed) made.committed = left.shift();
  let k = 0;
  while (k < left.length && k < after.order.length && left[k] === after.order[k]) k++;
  made.flushed = left.slice(k).map(n => ({ frame: n, block: before.frames[n].block }));
  made.unseen = after.flushed - before.flushed - made.flushed.length;
  if (made.flushed.length || made.unseen > 0) {
    const survivor = k ? after.frames[left[k - 1]] : null;
    if (after.stands) made.cause = "the run ended: " + STANDS[after.stands];
    else if (after.standing !== null) made.cause = "a store showed that a load had taken older bytes";
    else if (survivor && survivor.exit !== null)
      made.cause = `exit ${survivor.exit} of block ${survivor.block} led elsewhere than predicted`;
    else made.cause = "the block behind it came to be known as another";
  }
  return made;
}

if (typeof document === "undefined") serve(); else page();

// --- the page ---

function page() {
  const $ = id => document.getElementById(id);
  // A record has a window of moments that begins some way before the cycle that is looked at.
  const MOST_CYCLES = 0xffffffff, SPAN = 512, BACK = 160, MOST_MOMENTS = 16384;
  const state = { module: null, image: null, blocks: [], kind: "c", list: [], first: 0, output: new Uint8Array(),
    at: 0, chosen: null, shown: 0, turn: 0, memory: null, playing: 0, busy: false,
    asking: false, notice: "", room: { banks: 40, rows: [16, 16, 16, 16] }, sketches: new Map(), palette: null,
    wide: 0, bytes: 16, told: "", registers: "" };
  let examples = {};

  // One worker steps, the other evaluates and runs to the end, so that a long run keeps nobody waiting.
  class Bench {
    constructor() { this.count = 0; this.open = new Map(); this.worker = null; }
    start() {
      this.worker = new Worker("page.js");
      this.worker.onmessage = e => {
        const held = this.open.get(e.data.id);
        this.open.delete(e.data.id);
        if (held) e.data.fault ? held.fail(new Error(e.data.fault)) : held.done(e.data);
      };
      this.send({ module: state.module }).catch(() => {});
    }
    send(what) {
      const id = ++this.count;
      return new Promise((done, fail) => {
        this.open.set(id, { done, fail });
        this.worker.postMessage({ id, ...what });
      });
    }
    ask(name, texts, numbers) { return this.send({ name, texts, numbers }); }
    // What is under way is given up.
    anew() {
      if (this.worker && !this.open.size) return;
      if (this.worker) this.worker.terminate();
      for (const held of this.open.values()) held.fail(new Error("given up"));
      this.open.clear();
      this.start();
    }
  }
  const quick = new Bench(), long = new Bench();

  const say = (words, kind) => { $("said").textContent = words; $("said").className = kind || ""; };
  const source = () => $("text").value;
  const input = () => utf8.encode($("input").value);
  const within = (id, low, high, other) => {
    const n = parseInt($(id).value, 10);
    return Number.isFinite(n) ? Math.min(Math.max(n, low), high) : other;
  };
  const most = () => within("most", 1, 4000000, 1000000);
  const unroll = () => +$("unroll").value;
  const seed = () => {
    try { return BigInt.asIntN(64, BigInt($("seed").value.trim() || "0")); } catch { return 0n; }
  };
  const answer = made => made.bytes.length ? { status: made.bytes[0], report: made.bytes.subarray(1), ms: made.ms }
    : { status: 8, report: new Uint8Array(), ms: made.ms };
  const isTarget = text => text.startsWith("trips 1\n");

  // --- from the text to the image, and to what it does ---

  async function change() {
    const turn = ++state.turn, text = source();
    stop();
    quick.anew(); long.anew();
    link();
    try { await build(turn, text); } catch (fault) {
      if (fault.message !== "given up") say("The module stopped: " + fault.message, "bad");
    }
  }

  // The seed and the budget, where they are no numbers: 0 and the usual one are taken.
  function fields() {
    const wrong = { seed: !/^-?\d+$/.test($("seed").value.trim() || "0"),
      most: !/^[1-9]\d*$/.test($("most").value.trim()) || +$("most").value > 4000000 };
    for (const id in wrong) $(id).setAttribute("aria-invalid", wrong[id]);
    return (wrong.seed ? "; the seed is no whole number, 0 is taken" : "")
      + (wrong.most ? `; blocks or steps are 1 to 4000000, ${most()} is taken` : "");
  }

  async function build(turn, text) {
    const bytes = utf8.encode(text), target = isTarget(text);
    state.kind = target ? "target" : "c";
    const made = answer(target ? await quick.ask("page_assemble", [bytes], [])
      : await quick.ask("page_compile", [bytes], [unroll()]));
    if (turn !== state.turn) return;
    $("evaluated").textContent = $("ran").textContent = $("agree").textContent = $("speed").textContent = "";
    if (made.status !== 0) return refused(turn, bytes, made, target);
    faults([]);
    state.image = made.report.slice();
    const told = answer(await quick.ask("page_disassemble", [state.image], []));
    if (turn !== state.turn) return;
    state.blocks = blocksOf(read.decode(told.report)); state.room = roomOf(state.blocks); state.sketches.clear();
    state.shown = Math.min(state.shown, state.blocks.length - 1);
    state.chosen = state.memory = null; state.list = [];
    const nodes = state.blocks.reduce((n, b) => n + b.nodes.length, 0);
    say(`${target ? "Assembled" : "Compiled"} in ${made.ms.toFixed(0)} ms: ${count(state.blocks.length, "block")}, `
      + `${count(nodes, "instruction")}, ${state.image.length} bytes${fields()}${state.notice}`, "good");
    state.notice = "";
    await seek(state.wantedCycle || 0);
    state.wantedCycle = 0;
    await wholeRun(turn, bytes, target);
  }

  async function refused(turn, bytes, made, target) {
    state.image = null; state.blocks = []; state.list = []; state.output = new Uint8Array();
    state.room = roomOf([]); state.sketches.clear();
    let found = [];
    if (made.status === 4) {
      const told = answer(await quick.ask(target ? "page_explain_target" : "page_explain", [bytes], []));
      if (turn !== state.turn) return;
      found = faultsOf(read.decode(told.report), source());
    }
    faults(found.length ? found : [{ words: read.decode(made.report).trim() || STATUS[made.status], line: 0 }]);
    say(found.length > 1 ? `Refused, with ${count(found.length, "fault")}` : "Refused", "bad");
    draw();
  }

  // What `explain` tells of a text: the words of each fault, and its line and column, where it has them.
  function faultsOf(told, text) {
    const found = [], heads = text.split("\n").map((l, i) => l.startsWith("block") ? i + 1 : 0).filter(i => i);
    for (const line of told.split("\n")) {
      const c = /^program\.c:(\d+):(\d+): (.*)/.exec(line), t = /^program\.tasl:(\d+): (.*)/.exec(line),
        b = /^program\.tasl: block (\d+): (.*)/.exec(line);
      if (c) found.push({ words: c[3], line: +c[1], column: +c[2] });
      else if (t) found.push({ words: t[2], line: +t[1] });
      else if (b) found.push({ words: `block ${b[1]}: ${b[2]}`, line: heads[+b[1]] || 0 });
    }
    return found;
  }

  // The faults of the text as a list, and underlined where they are.
  function faults(found) {
    const list = $("fault"), under = $("under"), text = source(), lines = text.split("\n");
    list.textContent = under.textContent = "";
    $("text").setAttribute("aria-invalid", found.length ? "true" : "false");
    let done = 0;
    for (const f of found) {
      const item = document.createElement("li");
      list.append(item);
      if (!f.line) { item.textContent = f.words; continue; }
      const line = lines[f.line - 1] ?? "", before = lines.slice(0, f.line - 1).reduce((n, l) => n + l.length + 1, 0),
        from = before + (f.column ? read.decode(utf8.encode(line).subarray(0, f.column - 1)).length : 0),
        word = f.column ? (/^(?:\w+|[^\w\s]+)/.exec(text.slice(from)) || [" "])[0] : line,
        go = document.createElement("button");
      go.type = "button";
      go.textContent = f.column ? `Line ${f.line}, column ${f.column}` : `Line ${f.line}`;
      go.onclick = () => { $("text").focus(); $("text").setSelectionRange(from, from + word.length); };
      item.append(go, `: ${f.words}`);
      if (from < done) continue;
      const mark = document.createElement("mark");
      mark.textContent = text.slice(from, from + word.length) || " ";
      under.append(text.slice(done, from), mark);
      done = from + word.length;
    }
    under.append(text.slice(done) + "\n");
    under.scrollTop = $("text").scrollTop; under.scrollLeft = $("text").scrollLeft;
  }

  // A report up to the line that says how it ended, and the counts behind (docs/trips.1).
  function partsOf(report) {
    const m = /^output (\d+)\n/.exec(read.decode(report.subarray(0, 40))),
      to = m ? report.indexOf(10, m[0].length + +m[1] + 1) : -1;
    return (to < 0 ? [report, report.subarray(0, 0)] : [report.subarray(0, to), report.subarray(to)])
      .map(bytes => read.decode(bytes));
  }

  async function wholeRun(turn, bytes, target) {
    let meant = null;
    $("ran").textContent = "runs ..";
    if (!target) {
      $("evaluated").textContent = "evaluates ..";
      try { meant = answer(await long.ask("page_evaluate", [bytes, input()], [most()])); } catch (fault) {
        if (fault.message !== DEEP) throw fault;
      }
      if (turn !== state.turn) return;
      $("evaluated").textContent = meant ? read.decode(meant.report).trimEnd() + `\n(${STATUS[meant.status]})`
        : "The calls of this program nest deeper than the browser's stack goes: ./trips eval answers.";
    } else $("evaluated").textContent = "A target text has no evaluation.";
    const ran = answer(target
      ? await long.ask("page_run_image", [state.image, input()], [seed(), most(), 0, 0, 1])
      : await long.ask("page_run", [bytes, input()], [seed(), most(), unroll(), 0, 0, 1]));
    if (turn !== state.turn) return;
    const [end, counts] = partsOf(ran.report), cycles = +(/\ncycles (\d+)/.exec(counts) || [0, 0])[1];
    $("ran").textContent = (end + counts).trimEnd() + `\n(${STATUS[ran.status]})`;
    $("speed").textContent = cycles ? `${NUMBER.format(cycles)} cycles in ${ran.ms.toFixed(0)} ms, `
      + `${NUMBER.format(Math.round(cycles / ran.ms))} thousand a second` : "";
    if (!meant) return;
    const same = ran.status === meant.status && end === partsOf(meant.report)[0];
    $("agree").textContent = same ? "The grid's run ends as the evaluation does: the same output, the same ending."
      : `The run: ${STATUS[ran.status]}. The evaluation: ${STATUS[meant.status]}.`
        + (meant.status === 10 ? " C does not define what this program does: the grid may do anything." : "");
    $("agree").className = same ? "good" : "";
  }

  // --- the run, cycle by cycle ---

  const now = () => state.list[state.at - state.first];
  const end = () => state.first + state.list.length - 1;
  const hasEnded = () => state.list.length > 0 && state.list[state.list.length - 1].stands !== 0;

  async function record(first, count) {
    const turn = state.turn;
    const made = await quick.ask("page_record", [state.image, input()],
      [seed(), most(), Math.min(first, MOST_CYCLES), count]);
    if (turn !== state.turn) throw new Error("given up");
    if (!made.bytes.length) throw new Error("want of memory");
    const told = momentsOf(made.bytes);
    state.list = told.list; state.output = told.output; state.first = told.list[0].cycles;
    state.changes = told.list.map((m, i) => i ? changesOf(told.list[i - 1], m) : null);
  }

  async function seek(cycle, move) {
    if (!state.image || state.busy) return;
    state.busy = true;
    try {
      const wanted = Math.max(0, Math.min(cycle, MOST_CYCLES));
      const inside = c => state.list.length && c >= state.first && (c <= end() || hasEnded());
      if (!inside(wanted) || (wanted - state.first < 40 && state.first > 0)) {
        await record(Math.max(0, wanted - BACK), SPAN);
        if (state.list.length === 1 && state.first > 0) await record(Math.max(0, state.first - BACK), SPAN);
      }
      const was = state.at;
      state.at = Math.max(state.first, Math.min(wanted, end()));
      draw(move && state.at === was + 1);
    } finally { state.busy = false; }
    guarded(remember)();
  }

  // The first cycle behind this one at which something holds, as far as the run goes.
  async function find(holds, name) {
    if (!state.image || state.busy) return;
    const from = state.at;
    let at = from + 1, count = SPAN;
    const here = (c, i = c - state.first) => holds(state.changes[i], state.list[i], state.list[i - 1]);
    state.busy = true;
    try {
      say("");
      for (;;) {
        for (at = Math.max(at, state.first + 1); at <= end() && !here(at); at++);
        if (at <= end()) { say(`The next ${name}: cycle ${at}`); break; }
        if (hasEnded()) { say(`No ${name} behind cycle ${from}: the run ends without it`); at = from; break; }
        count = Math.min(count * 2, MOST_MOMENTS);
        say(`Looks for the next ${name} behind cycle ${end()}`);
        await record(end(), count);
      }
    } finally { state.busy = false; }
    await seek(at);
  }

  // The committed memory of the cycle that is looked at. One call is open at a time, so that no step waits for it.
  async function remember() {
    if (state.asking) return;
    const turn = state.turn, wanted = () => state.image && now() && !state.playing && turn === state.turn
      ? [now().cycles, Math.max(0, (parseInt($("address").value, 0) || 0) & ~15)] : null;
    let told = null;
    state.asking = true;
    try {
      for (let q = wanted(); q && String(q) !== String(told); q = wanted()) {
        const made = await quick.ask("page_memory", [state.image, input()], [seed(), most(), ...q, 256]);
        if (turn === state.turn) drawMemory(q[1], made.bytes.subarray(1));
        told = q;
      }
    } finally { state.asking = false; }
  }

  // The bytes as lines of text, with those that have changed since in bold.
  function drawMemory(from, bytes, again) {
    const pre = $("memory"), old = state.memory && state.memory.from === from ? state.memory.bytes : null;
    if (!again && !state.changed && old && String(old) === String(bytes)) return;
    let text = "";
    state.changed = false;
    pre.textContent = "";
    for (let i = 0; i < bytes.length; i++) {
      const two = bytes[i].toString(16).padStart(2, "0");
      text += i % state.bytes ? " " : `${i ? "\n" : ""}${(from + i).toString(16).padStart(6, "0")}  `;
      if (!old || old[i] === bytes[i]) { text += two; continue; }
      const one = document.createElement("b");
      one.textContent = two; state.changed = true;
      pre.append(text, one);
      text = "";
    }
    pre.append(text);
    state.memory = { from, bytes: bytes.slice() };
  }

  // --- drawing ---

  const count = (n, word) => `${n} ${word}${n === 1 ? "" : "s"}`;
  const hue = b => (b * 67 + 200) % 360;
  // The colours of the theme, and the sizes of what is drawn, are read once: to read them costs a layout.
  const css = name => {
    if (!state.palette) {
      const style = getComputedStyle(document.documentElement);
      state.palette = Object.fromEntries(["--soft", "--bad", "--line", "--good", "--ground", "--waits", "--card"]
        .map(n => [n, style.getPropertyValue(n).trim()]));
    }
    return state.palette[name];
  };
  function measure() {
    state.wide = $("time").clientWidth || 400; state.bytes = $("memory").clientWidth < 440 ? 8 : 16;
    state.palette = null;
    draw();
    if (state.memory) drawMemory(state.memory.from, state.memory.bytes, true);
  }
  const ones = (slots, bit) => slots.reduce((n, s) => n + (s & bit ? 1 : 0), 0);

  function draw(moved) {
    const m = now();
    if (m && (state.chosen === null || !m.order.includes(state.chosen))) state.chosen = m.order[0] ?? null;
    if (m && $("follow").checked && state.chosen !== null) state.shown = m.frames[state.chosen].block;
    if ($("step").disabled === !!state.image)
      for (const e of $("controls").querySelectorAll("button, input, select")) e.disabled = !state.image;
    drawTable(m); drawState(m); drawTime(m); drawBlock(m, moved);
  }

  function drawTable(m) {
    const body = $("frames");
    const focused = document.activeElement && document.activeElement.closest
      && document.activeElement.closest("#frames") !== null;
    body.textContent = "";
    $("cycle").textContent = m ? `cycle ${m.cycles}, ${STANDS[m.stands]}` : "";
    if (!m) return;
    if (document.activeElement !== $("to")) $("to").value = m.cycles;
    for (const n of m.order) {
      const f = m.frames[n], row = body.insertRow();
      const pick = document.createElement("button");
      pick.textContent = n; pick.setAttribute("aria-pressed", n === state.chosen);
      pick.setAttribute("aria-label", `Show frame ${n}`);
      pick.onclick = () => { state.chosen = n; $("follow").checked = true; draw(); };
      row.insertCell().append(pick);
      const total = state.blocks[f.block] ? state.blocks[f.block].nodes.length : 0;
      for (const cell of [f.block, f.sealed ? "sealed" : f.careful ? "runs, careful" : "runs",
        `${ones(f.slots, 8)} of ${total}`, ones(f.slots, 16), f.exit ?? "", f.tokens.length])
        row.insertCell().textContent = cell;
      if (n === state.chosen) { row.className = "chosen"; if (focused) pick.focus(); }
    }
    if (!m.order.length) {
      const cell = body.insertRow().insertCell();
      cell.colSpan = 7; cell.textContent = "no frame is in flight"; cell.className = "none";
    }
  }

  function drawState(m) {
    const dl = $("counts");
    dl.textContent = "";
    if (!m) {
      $("out").textContent = $("memory").textContent = "";
      return tellRegisters([]);
    }
    for (const [name, n] of [["cycles", m.cycles], ["fetched", m.fetched], ["committed", m.committed],
      ["flushed", m.flushed], ["in flight", m.order.length],
      ["on their way", m.order.reduce((k, n) => k + m.frames[n].tokens.length, 0)]]) {
      const div = document.createElement("div"), dt = document.createElement("dt"), dd = document.createElement("dd");
      dt.textContent = name; dd.textContent = NUMBER.format(n); div.append(dt, dd); dl.append(div);
    }
    const before = state.list[state.at - state.first - 1], words = [];
    for (let r = 0; r < 128; r++) {
      const word = m.view.getBigInt64(m.registers + 8 * r),
        old = before ? before.view.getBigInt64(before.registers + 8 * r) : word;
      if (word || old || $("all").checked) words.push([word !== old ? "b" : "span", `G[${r}] ${word}`]);
    }
    tellRegisters(words);
    const out = read.decode(state.output.subarray(0, m.length));
    if ($("out").textContent !== out) $("out").textContent = out;
  }

  // The registers, those that have just changed in bold; the list is made anew where it differs.
  function tellRegisters(words) {
    const regs = $("regs"), told = String(words);
    if (told === state.registers) return;
    state.registers = told;
    regs.textContent = "";
    for (const [kind, word] of words) {
      const span = document.createElement(kind);
      span.textContent = word; regs.append(span);
    }
  }

  function drawTime(m) {
    const canvas = $("time"), wide = state.wide, high = 232, k = window.devicePixelRatio || 1;
    canvas.width = wide * k; canvas.height = high * k;
    const g = canvas.getContext("2d");
    g.scale(k, k); g.clearRect(0, 0, wide, high);
    if (!m) return tellFlushes([]);
    const ROW = 26, left = 20, dx = 5, span = Math.floor((wide - left - 8) / dx);
    const x0 = Math.max(state.first, Math.min(state.at - Math.floor(span * 0.6), end() - span)),
      x = c => left + (c - x0) * dx;
    const soft = css("--soft"), bad = css("--bad"), line = css("--line"), good = css("--good");
    g.font = "11px ui-monospace, 'DejaVu Sans Mono', monospace"; g.textBaseline = "middle";
    for (let n = 0; n < 8; n++) {
      g.fillStyle = n % 2 ? css("--ground") : css("--waits"); g.fillRect(left, n * ROW, wide - left, ROW);
      g.fillStyle = soft; g.fillText(n, 6, n * ROW + ROW / 2);
    }
    const open = new Map(), bars = [], flushes = [];
    for (let c = x0; c <= Math.min(x0 + span, end()); c++) {
      const i = c - state.first, r = state.list[i], made = c > x0 ? state.changes[i] : null;
      if (made) {
        const close = (frame, how) => {
          if (open.has(frame)) open.get(frame).ending = how;
          open.delete(frame);
        };
        if (made.committed !== null) close(made.committed, "commit");
        for (const f of made.flushed) close(f.frame, "flush");
        if (made.flushed.length || made.unseen > 0) {
          const gone = made.flushed.map(f => `frame ${f.frame} with block ${f.block}`)
            .concat(made.unseen > 0 ? ["a frame just filled"] : []);
          flushes.push({ cycle: c, words: ` ${gone.join(", ")} flushed: ${made.cause}` });
        }
      }
      for (const n of r.order) {
        const f = r.frames[n];
        let b = open.get(n);
        if (!b) { b = { n, block: f.block, from: c, to: c, sealed: -1, ending: "" }; open.set(n, b); bars.push(b); }
        b.to = c; if (f.sealed && b.sealed < 0) b.sealed = c;
      }
    }
    for (const b of bars) {
      const y = b.n * ROW + 3, w = (b.to + 1 - b.from) * dx - 1;
      g.fillStyle = `hsl(${hue(b.block)} 58% 62%)`; g.fillRect(x(b.from), y, w, 20);
      if (b.sealed >= 0) {
        g.fillStyle = "rgba(16,20,32,.62)";
        g.fillRect(x(b.sealed), y + 14, (b.to + 1 - b.sealed) * dx - 1, 6);
      }
      g.save(); g.beginPath(); g.rect(x(b.from), y, w, 20); g.clip();
      g.fillStyle = "#10141d"; if (w > 10) g.fillText(b.block, x(b.from) + 3, y + 8);
      g.restore();
      if (b.ending) {
        g.fillStyle = b.ending === "flush" ? bad : good;
        g.fillText(b.ending === "flush" ? "\u2717" : "\u2713", x(b.to + 1) - 1, y + 9);
      }
    }
    g.fillStyle = css("--card"); g.globalAlpha = .55; g.fillRect(x(state.at + 1), 0, wide, 8 * ROW);
    g.globalAlpha = 1;
    g.strokeStyle = bad; g.lineWidth = 2; g.beginPath(); g.moveTo(x(state.at) + 2, 0);
    g.lineTo(x(state.at) + 2, 8 * ROW); g.stroke();
    g.fillStyle = soft; g.strokeStyle = line;
    for (let c = Math.ceil(x0 / 20) * 20; c < x0 + span - 4; c += 20) g.fillText(c, x(c), 8 * ROW + 14);
    canvas.setAttribute("aria-label", `Frames over time, cycles ${x0} to ${Math.min(x0 + span, end())}: `
      + m.order.map(n => `frame ${n} holds block ${m.frames[n].block}`).join(", "));
    tellFlushes(flushes.slice(0, 12));
    canvas.onclick = e => {
      const c = x0 + Math.floor((e.offsetX - left) / dx);
      if (c >= state.first && c <= end()) seek(c);
    };
  }

  // The flushes near this cycle as a list, which is made anew where it differs.
  function tellFlushes(flushes) {
    const list = $("flushes"), told = JSON.stringify(flushes);
    if (told === state.told) return;
    const held = [...list.querySelectorAll("button")].indexOf(document.activeElement);
    state.told = told;
    list.textContent = "";
    for (const f of flushes) {
      const item = document.createElement("li"), go = document.createElement("button");
      go.textContent = `cycle ${f.cycle}`; go.onclick = () => seek(f.cycle);
      item.append(go, f.words); list.append(item);
    }
    if (held >= 0 && flushes.length)
      list.querySelectorAll("button")[Math.min(held, flushes.length - 1)].focus();
  }

  // Places on the picture of the grid: the mesh is 5 by 5 (docs/GRID.md, "Stations"). The rows are as high as the
  // fullest block of the program asks, so that the picture keeps its size from block to block.
  const WIDE = 760, SIDE = 74, TILE = 168, GAP = 8, NODE = { w: 77, h: 29 };
  const banksOf = b => {
    const banks = [[], [], [], []];
    b.reads.forEach((r, i) => banks[r.register % 4].push({ kind: "read", i, register: r.register }));
    b.writes.forEach((w, i) => banks[w.register % 4].push({ kind: "write", i, register: w.register }));
    return banks;
  };
  function roomOf(blocks) {
    const cells = [0, 0, 0, 0];
    let rows = 1;
    for (const b of blocks) {
      rows = Math.max(rows, ...banksOf(b).map(l => Math.ceil(l.length / 4)));
      for (const n of b.nodes) {
        const d = (n.slot % 16) >> 2;
        cells[d] = Math.max(cells[d], (n.slot >> 5) + 1);
      }
    }
    return { banks: 22 + rows * 18, rows: cells.map(n => n ? 12 + 32 * n : 16) };
  }
  function layout(b) {
    const room = state.room, tops = [], spots = { read: [], write: [] };
    let top = room.banks + GAP;
    for (const h of room.rows) { tops.push(top); top += h + GAP; }
    (b ? banksOf(b) : []).forEach((l, bank) => l.forEach((q, k) => {
      spots[q.kind][q.i] = { x: SIDE + 8 + bank * TILE + (k % 4) * 40, y: 18 + (k >> 2) * 18, w: 37, h: 15, ...q };
    }));
    const tile = t => ({ x: SIDE + 4 + (t % 4) * TILE, y: tops[t >> 2] });
    const cell = s => { const t = tile(s % 16), k = s >> 4;
      return { x: t.x + 4 + (k & 1) * 80, y: t.y + 14 + (k >> 1) * 32, ...NODE }; };
    return { tops, high: top, spots, tile, cell };
  }
  const NS = "http://www.w3.org/2000/svg";
  function el(parent, name, attributes, words) {
    const e = document.createElementNS(NS, name);
    for (const k in attributes) e.setAttribute(k, attributes[k]);
    if (words !== undefined) e.textContent = words;
    parent.append(e);
    return e;
  }

  // The picture of a block as long as nothing has come: it is kept, and later pictures change what differs.
  function sketchOf(number) {
    const kept = state.sketches.get(number);
    if (kept) return kept;
    const b = state.blocks[number], L = layout(b), room = state.room, root = document.createElementNS(NS, "g"),
      made = { root, high: L.high, edges: new Map(), nodes: [], tokens: null };
    el(root, "text", { x: 7, y: 12, class: "name" }, "control");
    el(root, "rect", { x: 2, y: 1, width: SIDE - 6, height: room.banks - 1, rx: 5, class: "tile" });
    for (let d = 0; d < 4; d++) {
      el(root, "text", { x: 7, y: L.tops[d] + 11, class: "name" }, `data ${d}`);
      el(root, "rect", { x: 2, y: L.tops[d], width: SIDE - 6, height: room.rows[d], rx: 5, class: "tile" });
      el(root, "text", { x: SIDE + 9 + d * TILE, y: 12, class: "name" }, `bank ${d}`);
      el(root, "rect", { x: SIDE + 4 + d * TILE, y: 1, width: TILE - 6, height: room.banks - 1, rx: 5,
        class: "tile" });
    }
    for (let t = 0; t < 16; t++) {
      const p = L.tile(t);
      el(root, "rect", { x: p.x, y: p.y, width: TILE - 6, height: room.rows[t >> 2], rx: 5, class: "tile" });
      el(root, "text", { x: p.x + 5, y: p.y + 11, class: "name" }, `tile ${t}`);
    }
    if (b) sketchNodes(made, b, L);
    made.tokens = el(root, "g", {});
    if (state.sketches.size > 60) state.sketches.clear();
    state.sketches.set(number, made);
    return made;
  }

  // The lines and the instructions of a block, and the line of each place in which a token can be on its way.
  function sketchNodes(made, b, L) {
    const middle = c => [c.x + c.w / 2, c.y + c.h / 2], lines = el(made.root, "g", {});
    const edge = (from, t, place, slot) => {
      const to = t.to === "W" ? L.spots.write[t.n] : L.cell(t.n);
      if (!to) return;
      const [x, y] = middle(from), [x2, y2] = middle(to);
      const bend = Math.abs(x2 - x) + Math.abs(y2 - y) < 60 ? 16 : 9;
      const u = x2 + (t.to === "W" ? 0 : t.part === "0" ? -18 : t.part === "1" ? 18 : 0);
      const v = t.to === "W" ? y2 + 8 : y2 - 13, p = (x + x2) / 2 + bend, q = (y + v) / 2 - bend;
      const line = el(lines, "path", { d: `M${x} ${y} Q${p} ${q} ${u} ${v}` });
      const tip = el(lines, "circle", { cx: u, cy: v, r: 2.4 });
      made.edges.set(place, { line, tip, slot, kind: t.part === "p" ? " pred" : "", hot: null, x, y, p, q, u, v });
    };
    b.reads.forEach((r, i) => r.targets.forEach((t, k) => edge(L.spots.read[i], t, 256 + 2 * i + k, null)));
    b.nodes.forEach(n => n.targets.forEach((t, k) => edge(L.cell(n.slot), t, 2 * n.slot + k, n.slot)));
    for (const kind of ["read", "write"]) for (const s of L.spots[kind]) if (s) {
      const g = el(made.root, "g", {});
      el(g, "title", {}, `${kind} ${s.i} of register ${s.register}`);
      el(g, "rect", { x: s.x, y: s.y, width: s.w, height: s.h, rx: 3, class: kind });
      el(g, "text", { x: s.x + 3, y: s.y + 11 }, `${kind === "read" ? "r" : "w"}G${s.register}`);
    }
    for (const n of b.nodes) {
      const c = L.cell(n.slot), g = el(made.root, "g", {}), title = el(g, "title", {});
      const rect = el(g, "rect", { x: c.x, y: c.y, width: c.w, height: c.h, rx: 4 });
      el(g, "text", { x: c.x + 4, y: c.y + 12 }, n.name.slice(0, 11));
      el(g, "text", { x: c.x + 4, y: c.y + 24 }, `${n.slot}${n.rest ? ": " + n.rest : ""}`.slice(0, 11));
      made.nodes.push({ n, title, rect, how: null });
    }
  }

  const HOW = { fired: "has fired", ready: "may fire", come: "some operands have come", "": "waits" };
  function drawBlock(m, moved) {
    const svg = $("grid"), b = state.blocks[state.shown], sketch = sketchOf(state.shown);
    const f = m && state.chosen !== null ? m.frames[state.chosen] : null;
    const mine = f && f.block === state.shown ? f : null;
    const parts = b ? [count(b.nodes.length, "instruction"), count(b.reads.length, "read"),
      count(b.writes.length, "write"), ...(mine ? [`in frame ${mine.number}`] : [])] : [];
    $("blockname").textContent = b ? `${state.shown} of ${state.blocks.length}: ${parts.join(", ")}` : "";
    const told = mine ? `In frame ${mine.number} ${ones(mine.slots, 8)} of ${count(b.nodes.length, "instruction")} `
      + `have fired, ${ones(mine.slots, 16)} may fire` : "";
    svg.setAttribute("aria-label", b ? `Block ${state.shown} on the grid. ${told}` : "No block");
    if (svg.firstChild !== sketch.root) {
      svg.replaceChildren(sketch.root);
      svg.setAttribute("viewBox", `0 0 ${WIDE} ${sketch.high}`);
      $("block").textContent = b ? b.lines.join("\n") : "";
    }
    const slots = mine ? mine.slots : null;
    for (const e of sketch.edges.values()) {
      const hot = slots && e.slot !== null && slots[e.slot] & 8 ? " hot" : "";
      if (hot === e.hot) continue;
      e.hot = hot;
      e.line.setAttribute("class", `edge${hot}${e.kind}`); e.tip.setAttribute("class", `tip${hot}`);
    }
    for (const e of sketch.nodes) {
      const s = slots ? slots[e.n.slot] : 0, how = s & 8 ? "fired" : s & 16 ? "ready" : s & 7 ? "come" : "";
      if (how === e.how) continue;
      e.how = how;
      e.rect.setAttribute("class", `node ${how}`);
      e.title.textContent = `N[${e.n.slot}] ${e.n.name} ${e.n.rest}: ${HOW[how]}`;
    }
    drawTokens(sketch, mine, moved);
  }

  // For how many cycles a token has been on its way in a place of a frame, as far as the record goes.
  function age(index, frame, place) {
    let k = 0;
    while (k < 12 && index - k > 0) {
      const f = state.list[index - k - 1].frames[frame];
      if (!f || f.block !== state.list[index].frames[frame].block || !f.tokens.includes(place)) break;
      k++;
    }
    return k;
  }

  // Dots on the lines whose tokens are on their way: the longer they are, the further on.
  let moving = 0;
  function drawTokens(sketch, mine, moved) {
    cancelAnimationFrame(moving);
    sketch.tokens.textContent = "";
    if (!mine) return;
    const index = state.at - state.first, share = k => k < 0 ? 0.05 : 1 - 0.85 / (1 + 0.5 * k);
    const dots = mine.tokens.filter(p => sketch.edges.has(p)).map(p => {
      const k = age(index, mine.number, p), dot = el(sketch.tokens, "circle", { r: 4.5, class: "token" });
      el(dot, "title", {}, `on its way for ${count(k + 1, "cycle")}`);
      return { dot, e: sketch.edges.get(p), from: moved ? share(k - 1) : share(k), to: share(k) };
    });
    const still = matchMedia("(prefers-reduced-motion: reduce)").matches;
    const ms = still || !moved ? 0 : state.playing ? 900 / +$("pace").value : 160, begun = performance.now();
    const tick = t => {
      const k = ms ? Math.min(1, Math.max(0, (t - begun) / ms)) : 1;
      for (const { dot, e, from, to } of dots) {
        const s = from + (to - from) * k, r = 1 - s, on = (a, b, c) => r * r * a + 2 * r * s * b + s * s * c;
        dot.setAttribute("cx", on(e.x, e.p, e.u)); dot.setAttribute("cy", on(e.y, e.q, e.v));
      }
      if (k < 1) moving = requestAnimationFrame(tick);
    };
    if (ms) moving = requestAnimationFrame(tick); else tick(begun);
  }

  // --- playing ---

  function stop() {
    if (!state.playing) return;
    cancelAnimationFrame(state.playing); state.playing = 0;
    $("play").textContent = "Run"; $("play").setAttribute("aria-pressed", "false");
    $("cycle").setAttribute("aria-live", "polite");
    if (now()) guarded(remember)();
  }
  function play() {
    if (state.playing) return stop();
    if (!state.image) return;
    $("play").textContent = "Stop"; $("play").setAttribute("aria-pressed", "true");
    $("cycle").setAttribute("aria-live", "off");
    // So many cycles are owed since the last picture; where pictures are slow, several are made at once.
    const pace = +$("pace").value;
    let last = performance.now(), owed = 0;
    const tick = t => {
      if (!state.playing) return;
      state.playing = requestAnimationFrame(tick);
      owed = Math.min(owed + Math.max(0, t - last) * pace / 1000, 8);
      last = t;
      const k = Math.floor(owed);
      if (k < 1 || state.busy) return;
      if (now() && now().stands) return stop();
      owed -= k;
      guarded(() => seek(state.at + k, true))();
    };
    state.playing = requestAnimationFrame(tick);
  }

  // --- links, examples, themes ---

  const base64 = text => btoa(Array.from(utf8.encode(text), b => String.fromCharCode(b)).join(""))
    .replace(/\+/g, "-").replace(/\//g, "_").replace(/=+$/, "");
  const plain = text => {
    try {
      const bytes = atob(text.replace(/-/g, "+").replace(/_/g, "/"));
      return read.decode(Uint8Array.from(bytes, c => c.charCodeAt(0)));
    } catch {
      state.notice = "; the link is not whole";
      return null;
    }
  };
  function link() {
    const p = new URLSearchParams(), name = $("example").value, e = examples[name];
    const known = e && e.text === source();
    if (known) p.set("example", name); else { $("example").value = ""; p.set("text", base64(source())); }
    if ($("input").value !== (known ? e.input : "")) p.set("input", base64($("input").value));
    for (const [id, usual] of [["seed", "0"], ["most", "1000000"], ["unroll", "1"]])
      if ($(id).value !== usual) p.set(id, $(id).value);
    if (state.list.length && state.at) p.set("cycle", state.at);
    return location.href.replace(/#.*$/, "") + "#" + p;
  }
  function setTheme(theme) {
    if (theme === "system") document.documentElement.removeAttribute("data-theme");
    else document.documentElement.dataset.theme = theme;
    $("theme").textContent = `Theme: ${theme === "system" ? "as the system" : theme}`;
    try { localStorage.setItem("theme", theme); } catch { /* kept for this visit alone */ }
    state.theme = theme;
    measure();
  }
  function take(name) {
    const e = examples[name];
    if (!e) return;
    $("text").value = e.text; $("input").value = e.input; state.shown = 0; $("text").scrollTop = 0;
  }
  function fromLink() {
    const p = new URLSearchParams(location.hash.slice(1)), name = p.get("example"),
      text = p.has("text") ? plain(p.get("text")) : null;
    if (text !== null) {
      $("example").value = ""; $("text").value = text; $("input").value = "";
    } else {
      if (name && !examples[name]) state.notice = `; there is no example ${name}`;
      $("example").value = examples[name] ? name : "words.c" in examples ? "words.c" : Object.keys(examples)[0] ?? "";
      take($("example").value);
    }
    if (p.has("input")) $("input").value = plain(p.get("input")) ?? "";
    for (const id of ["seed", "most", "unroll"]) if (p.has(id)) $(id).value = p.get(id);
    state.wantedCycle = +p.get("cycle") || 0;
    if (p.has("theme")) setTheme(p.get("theme"));
  }

  const guarded = act => (...words) => { Promise.resolve(act(...words)).catch(fault => {
    if (fault.message !== "given up") say("The module stopped: " + fault.message, "bad");
  }); };
  const manual = act => guarded(async () => { stop(); await act(); });

  function listen() {
    let waiting = 0;
    const later = () => { clearTimeout(waiting); waiting = setTimeout(guarded(change), 250); };
    $("text").oninput = () => { faults([]); later(); };
    $("text").onscroll = () => {
      $("under").scrollTop = $("text").scrollTop; $("under").scrollLeft = $("text").scrollLeft;
    };
    for (const id of ["input", "seed", "most"]) $(id).oninput = later;
    $("unroll").onchange = later;
    $("example").onchange = () => { take($("example").value); guarded(change)(); };
    const moves = { first: () => seek(0), back: () => seek(state.at - 1), step: () => seek(state.at + 1, true),
      step10: () => seek(state.at + 10), last: () => seek(MOST_CYCLES),
      commit: () => find(c => c.committed !== null, "commit"),
      flush: () => find(c => c.flushed.length > 0 || c.unseen > 0, "flush"),
      toblock: () => {
        const wanted = within("wanted", 0, Math.max(0, state.blocks.length - 1), 0);
        return find((c, m, before) => m.order.some(n => m.frames[n].block === wanted && (!before
          || !before.order.includes(n) || before.frames[n].block !== wanted)), `frame with block ${wanted}`);
      } };
    for (const id in moves) $(id).onclick = manual(moves[id]);
    $("play").onclick = play;
    $("pace").onchange = () => { if (state.playing) { stop(); play(); } };
    $("to").onchange = manual(() => seek(within("to", 0, MOST_CYCLES, 0)));
    $("address").onchange = guarded(remember);
    $("all").onchange = () => draw();
    const show = k => { $("follow").checked = false;
      state.shown = Math.max(0, Math.min(state.blocks.length - 1, state.shown + k)); draw(); };
    $("prev").onclick = () => show(-1); $("next").onclick = () => show(1); $("follow").onchange = () => draw();
    const keys = { ArrowRight: "step", ArrowLeft: "back", PageDown: "step10", Home: "first", End: "last",
      " ": "play" };
    $("right").onkeydown = $("state").onkeydown = e => {
      if (e.ctrlKey || e.altKey || e.metaKey || !(e.key in keys)) return;
      if (e.target.closest("input, select, .report, .regs") || (e.key === " " && e.target.closest("button, summary")))
        return;
      e.preventDefault(); $(keys[e.key]).click();
    };
    $("link").onclick = async () => {
      const to = link();
      history.replaceState(null, "", to);
      try {
        await navigator.clipboard.writeText(to); say("The link is copied");
      } catch { say("The link stands in the address line"); }
    };
    $("theme").onclick = () => setTheme({ system: "light", light: "dark", dark: "system" }[state.theme || "system"]);
    matchMedia("(prefers-color-scheme: dark)").onchange = measure;
    addEventListener("resize", measure);
    addEventListener("hashchange", () => { fromLink(); guarded(change)(); });
  }

  // The lesson, which is a text with headings, paragraphs, `names` and *buttons*. The name of an example chooses it.
  async function showLesson() {
    const got = await fetch("lesson.md", AGAIN), place = $("lesson");
    if (!got.ok) return;
    for (const part of (await got.text()).trim().split(/\n\s*\n/)) {
      const [, marks, words] = /^(#*) *([^]*)$/.exec(part);
      if (marks === "#") continue;
      const e = document.createElement(marks ? "h2" : "p");
      words.split(/(`[^`]+`|\*[^*]+\*)/).forEach((piece, i) => {
        if (i % 2 === 0) return e.append(piece);
        const name = piece.slice(1, -1), inner = document.createElement(examples[name] ? "button"
          : piece[0] === "`" ? "code" : "em");
        inner.textContent = name;
        if (examples[name]) inner.onclick = () => {
          $("example").value = name; take(name); guarded(change)();
          $("controls").scrollIntoView({ block: "nearest" }); $("controls").focus({ preventScroll: true });
        };
        e.append(inner);
      });
      place.append(e);
    }
  }

  async function open() {
    try { examples = await (await fetch("examples.json", AGAIN)).json(); } catch { examples = {}; }
    showLesson().catch(() => {});
    for (const name in examples) $("example").add(new Option(name));
    try {
      const got = await fetch("trips.wasm", AGAIN);
      if (!got.ok) throw new Error("page/build has not made trips.wasm");
      state.module = await WebAssembly.compile(await got.arrayBuffer());
    } catch (fault) {
      say(`The module does not load: ${fault.message}. The browser needs 64-bit WebAssembly memory `
        + "(Chromium 133, Firefox 134 and later).", "bad");
      return;
    }
    quick.start(); long.start();
    let theme = "system";
    try { theme = localStorage.getItem("theme") || "system"; } catch { /* as the system */ }
    setTheme(theme);
    listen(); fromLink();
    await change();
    document.documentElement.dataset.ready = "yes";
  }
  guarded(open)();
}
