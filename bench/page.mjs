// Called by bench/page: `module MODULE PROGRAM ROOT` compares the module with the program, `browser PORT SERVER
// PROGRAM ROOT PICTURES` drives a headless Chromium over the page.
import fs from "fs";
import os from "os";
import path from "path";
import { spawnSync } from "child_process";
import { performance } from "perf_hooks";
import { gzipSync } from "zlib";
import { testTexts } from "./page_texts.mjs";

const INPUT = Buffer.from("the quick brown fox\njumps over the lazy dog\n123456789 3 4 + 2 * = /* x */ (i < 10)\n");
const FAULTY = "int main(void) {\n    int n = 3;\n    retrun n;\n}\n";
const folder = fs.mkdtempSync(path.join(os.tmpdir(), "page-"));
process.on("exit", () => fs.rmSync(folder, { recursive: true, force: true }));

// A text of some 200 lines, with as many functions.
function largeText() {
  const lines = [];
  for (let i = 0; i < 190; i++)
    lines.push(`int f${i}(int x) { int s = x; while (s > ${i}) s = s - ${i + 1}; return s * ${i} + 1; }`);
  lines.push("int main(void) {", "    int s = 0;", "    for (int i = 0; i < 50; i++)",
    "        s = (s + f7(i)) & 255;", "    return s;", "}", "");
  return lines.join("\n");
}

class Module {
  constructor(file) {
    const bytes = fs.readFileSync(file), begun = performance.now();
    this.module = new WebAssembly.Module(bytes);
    this.start();
    const imports = WebAssembly.Module.imports(this.module).length, ms = performance.now() - begun;
    console.log(`module: ${bytes.length} bytes, ${gzipSync(bytes).length} gzipped, ${imports} imports, loaded in `
      + `${ms.toFixed(0)} ms`);
  }
  start() {
    this.x = new WebAssembly.Instance(this.module, {}).exports;
    this.size = 1n << 22n; this.room = this.x.host_room(this.size);
  }
  // What a call answers; nothing where it stops halfway.
  call(name, texts, numbers) {
    try { return this.answer(name, texts, numbers); } catch (fault) {
      console.log(`STOPPED ${name}: ${fault}`);
      this.start();
      return Buffer.alloc(0);
    }
  }
  answer(name, texts, numbers) {
    const x = this.x, held = texts.map(t => {
      const at = x.host_room(BigInt(t.length || 1));
      new Uint8Array(x.memory.buffer, Number(at), t.length).set(t);
      return at;
    }), words = texts.flatMap((t, i) => [held[i], BigInt(t.length)]);
    let n = x[name](...words, ...numbers, this.room, this.size);
    while (n > this.size) {
      x.host_free(this.room); this.size = n; this.room = x.host_room(n);
      n = x[name](...words, ...numbers, this.room, this.size);
    }
    held.forEach(p => x.host_free(p));
    return Buffer.from(new Uint8Array(x.memory.buffer, Number(this.room), Number(n)));
  }
}

function compare(module, program, root) {
  let same = 0, other = 0;
  const kinds = {}, none = Buffer.alloc(0);
  const file = (name, bytes) => { fs.writeFileSync(path.join(folder, name), bytes); return name; };
  const said = words => spawnSync(program, words, { cwd: folder, maxBuffer: 1 << 28 });
  const judge = (what, got, words) => {
    const want = said(words);
    kinds[want.status] = (kinds[want.status] || 0) + 1;
    if (got[0] === want.status && got.subarray(1).equals(want.stdout)) same++;
    else {
      other++;
      console.log(`DIFFERS ${what}: ${got[0]} for ${want.status}, ${got.length - 1} bytes for ${want.stdout.length}`);
    }
  };
  let input = INPUT;
  file("input", input);
  const shown = ["--regs", "--trace", "--cycles"];
  // Answers whether a run spent its budget.
  const text = (name, bytes, most, seeds, turns) => {
    let spent = false;
    file("program.c", bytes);
    for (const seed of seeds) for (const unroll of turns) {
      const ran = module.call("page_run", [bytes, input], [seed, most, unroll, 1, 1, 1]);
      judge(`${name} run, seed ${seed}, ${unroll} turns`, ran, ["run", "program.c", "--input", "input", "--seed",
        String(seed), "--unroll", String(unroll), "--blocks", String(most), ...shown]);
      spent ||= ran[0] === 5;
    }
    judge(`${name} eval`, module.call("page_evaluate", [bytes, input], [most]), ["eval", "program.c", "--input",
      "input", "--steps", String(most)]);
    judge(`${name} explain`, module.call("page_explain", [bytes], []), ["explain", "program.c"]);
    for (const unroll of turns) {
      const made = module.call("page_compile", [bytes], [unroll]);
      judge(`${name} compile, ${unroll} turns`, made, ["compile", "program.c", "--unroll", String(unroll)]);
      if (made[0] === 0) image(name, made.subarray(1), most);
    }
    return spent;
  };
  const image = (name, bytes, most) => {
    file("program.img", bytes);
    judge(`${name} check`, module.call("page_check", [bytes], []), ["check", "program.img"]);
    const dis = module.call("page_disassemble", [bytes], []);
    judge(`${name} dis`, dis, ["dis", "program.img"]);
    const run = module.call("page_run_image", [bytes, input], [3n, most, 1, 0, 1]);
    judge(`${name} run of the image`, run, ["run", "program.img", "--input", "input", "--seed", "3", "--blocks",
      String(most), "--regs", "--cycles"]);
    if (dis[0] === 0) target(name, dis.subarray(1));
    if (run.includes("\ncycles ")) recorded(name, bytes, most, run.subarray(1).toString("latin1"));
  };
  const target = (name, bytes) => {
    file("program.tasl", bytes);
    const made = module.call("page_assemble", [bytes], []);
    judge(`${name} asm`, made, ["asm", "program.tasl"]);
    judge(`${name} explain`, module.call("page_explain_target", [bytes], []), ["explain", "program.tasl"]);
    return made;
  };
  // The last moment of a record is what the report tells, and in each moment what was fetched adds up.
  let records = 0, wrong = 0;
  const recorded = (name, bytes, most, report) => {
    const number = word => +new RegExp(`\n${word} (\\d+)`).exec(report)[1], cycles = number("cycles");
    const told = module.call("page_record", [bytes, input], [3n, most, Math.max(0, cycles - 60), 100]);
    const view = new DataView(told.buffer, told.byteOffset, told.length), list = [];
    let p = 0;
    while (told[p] === 1) {
      const m = { at: p, counts: [1, 9, 17, 25].map(k => Number(view.getBigUint64(p + k))), stands: told[p + 33],
        flying: told[p + 34] };
      p += 35 + m.flying + 5;
      for (let n = 0; n < 8; n++) {
        if (told[p] === 0) { p += 1; continue; }
        for (p += 135; view.getUint16(p) !== 65535; p += 2);
        p += 2;
      }
      m.registers = p; p += 1024; m.length = Number(view.getBigUint64(p)); p += 8;
      list.push(m);
    }
    const last = list[list.length - 1], output = told.subarray(p + 1).toString("latin1"), registers = [];
    for (let r = 0; r < 128; r++)
      registers.push(`G[${r}] ${view.getBigUint64(last.registers + 8 * r).toString(16).padStart(16, "0")}`);
    const good = last.counts[0] === cycles && last.counts[1] === number("fetched")
      && last.counts[2] === number("blocks") && last.counts[3] === number("flushed") && last.stands > 0
      && last.length === output.length && report.startsWith(`output ${output.length}\n${output}\n`)
      && report.includes(registers.join("\n"))
      && list.every(m => m.counts[1] === m.counts[2] + m.counts[3] + m.flying);
    records++;
    if (!good) { wrong++; console.log("RECORD DIFFERS", name); }
  };

  const examples = fs.readdirSync(path.join(root, "examples")).filter(f => f.endsWith(".c"));
  for (const name of examples) text(name, fs.readFileSync(path.join(root, "examples", name)), 1000000, [0n, 7n],
    [1, 4]);
  for (const name of fs.readdirSync(path.join(root, "examples/target"))) {
    const made = target(name, fs.readFileSync(path.join(root, "examples/target", name)));
    if (made[0] === 0) image(name, made.subarray(1), 1000000);
  }
  console.log(`examples: ${same} answers the same, ${other} others; ${records} records, ${wrong} others`);
  // The programs of the tests; those that spend the first budget, again with a larger one.
  const tests = testTexts(root);
  for (const t of tests.programs) {
    const name = JSON.stringify(t.text.slice(0, 60)), bytes = Buffer.from(t.text, "latin1");
    input = t.input === undefined ? INPUT : Buffer.from(t.input, "latin1");
    file("input", input);
    if (text(name, bytes, 20000, [5n], [1])) text(name, bytes, 60000, [5n], [2]);
  }
  input = INPUT;
  file("input", input);
  for (const t of tests.targets) {
    const bytes = Buffer.from(t, "latin1"), made = target(JSON.stringify(t.slice(8, 60)), bytes);
    if (made[0] === 0) image(JSON.stringify(t.slice(8, 60)), made.subarray(1), 20000);
  }
  console.log(`programs of the tests: ${tests.programs.length} texts of C, ${tests.targets.length} target texts`);
  for (const t of ["", "int main(void) { retrun 1; }\n", "/* ", "int main(void) { return 0x; }", "int f(",
    "#define X 1\n", "\xc3\xa9"])
    text(JSON.stringify(t), Buffer.from(t, "latin1"), 1000, [0n], [1]);
  for (const t of ["", "trips 1\n", "trips 1\nblock 1\n", "trips 1\nblock\nN[0] bro EXIT0 B[9]\nend\n"])
    target(JSON.stringify(t), Buffer.from(t));
  for (const t of [none, Buffer.from("TRIPSIMG"), Buffer.alloc(300, 255)]) {
    file("program.img", t);
    judge("no image", module.call("page_check", [t], []), ["check", "program.img"]);
    judge("no image", module.call("page_run_image", [t, none], [0n, 10, 0, 0, 0]),
      ["run", "program.img", "--blocks", "10"]);
  }
  console.log(`all: ${same} answers the same, ${other} others, by status ${JSON.stringify(kinds)}; `
    + `${records} records, ${wrong} others`);
  for (const name of ["words.c", "sort.c", "crc.c", "queens.c", "life.c"]) {
    const bytes = fs.readFileSync(path.join(root, "examples", name)), tries = [];
    for (let i = 0; i < 5; i++) {
      const begun = performance.now(), report = module.call("page_run", [bytes, INPUT],
        [0n, 1000000, 1, 0, 0, 1]).toString("latin1");
      tries.push([+(/\ncycles (\d+)/.exec(report) || [0, 0])[1], performance.now() - begun]);
    }
    const [cycles, ms] = tries.sort((a, b) => a[1] - b[1])[0];
    console.log(`${name}: ${cycles} cycles in ${ms.toFixed(0)} ms, ${Math.round(cycles / ms)} thousand a second `
      + "(compiling included, best of 5)");
  }
  const large = Buffer.from(largeText());
  const begun = performance.now(), made = module.call("page_compile", [large], [1]);
  const ms = performance.now() - begun;
  console.log(`a text of ${large.toString().split("\n").length - 1} lines: compiled in ${ms.toFixed(0)} ms, status `
    + made[0]);
  return other + wrong === 0;
}

async function drive(port, server, program, root, pictures) {
  const wait = ms => new Promise(r => setTimeout(r, ms));
  const made = await (await fetch(`http://127.0.0.1:${port}/json/new?about:blank`, { method: "PUT" })).json();
  const socket = new WebSocket(made.webSocketDebuggerUrl);
  await new Promise(r => { socket.onopen = r; });
  let n = 0, bad = 0;
  const open = {}, errors = [];
  socket.onmessage = e => {
    const m = JSON.parse(e.data);
    if (m.id) open[m.id](m.result || m.error);
    else if (/exceptionThrown|entryAdded/.test(m.method)) errors.push(JSON.stringify(m.params).slice(0, 300));
  };
  const send = (method, params = {}) => new Promise(r => {
    open[++n] = r;
    socket.send(JSON.stringify({ id: n, method, params }));
  });
  const js = async expression => {
    const r = await send("Runtime.evaluate", { expression, returnByValue: true, awaitPromise: true });
    return r.result?.value;
  };
  for (const domain of ["Page", "Runtime", "Log"]) await send(`${domain}.enable`);
  await send("Emulation.setScrollbarsHidden", { hidden: true });
  const size = (width, height) => send("Emulation.setDeviceMetricsOverride",
    { width, height, deviceScaleFactor: 1, mobile: width < 600 });
  const shot = async (name, whole) => {
    const s = await send("Page.captureScreenshot", { format: "png", captureBeyondViewport: !!whole });
    fs.writeFileSync(path.join(pictures, `${name}.png`), Buffer.from(s.data, "base64"));
  };
  const text = id => js(`document.getElementById("${id}").textContent`);
  const click = id => js(`document.getElementById("${id}").click()`);
  const until = async s => {
    for (let i = 0; i < 200; i++) { if (await js(s)) return true; await wait(50); }
    return false;
  };
  const go = async hash => {
    await send("Page.navigate", { url: "about:blank" }); await wait(100);
    const begun = performance.now();
    await send("Page.navigate", { url: `http://127.0.0.1:${server}/index.html#${hash}` });
    await until('document.documentElement.dataset.ready === "yes"');
    return performance.now() - begun;
  };
  const base64 = s => Buffer.from(s).toString("base64url");
  const expect = (what, got, want) => {
    if (got === want) return;
    bad++;
    console.log(`PAGE DIFFERS ${what}: ${JSON.stringify(got)} for ${JSON.stringify(want)}`);
  };
  const hello = ["#include <stdio.h>", "", "int main(void) {", "    putchar('H');", "    putchar('i');",
    "    putchar(10);", "    return 0;", "}", ""].join("\n");
  for (const theme of ["light", "dark"]) for (const width of [1280, 400]) {
    await send("Emulation.setEmulatedMedia", { features: [{ name: "prefers-color-scheme", value: theme }] });
    await size(width, width === 400 ? 860 : 900);
    for (const [name, source, input] of [["hello", hello, ""],
      ["sort", fs.readFileSync(path.join(root, "examples/sort.c"), "utf8"), "hello, grid"]]) {
      const ms = await go(`text=${base64(source)}&input=${base64(input)}&cycle=60`);
      fs.writeFileSync(path.join(folder, "program.c"), source); fs.writeFileSync(path.join(folder, "input"), input);
      const want = spawnSync(program, ["run", "program.c", "--input", "input", "--cycles"], { cwd: folder });
      expect(`${name} report`, (await text("ran")).replace(/\n\([a-z ]+\)$/, ""), want.stdout.toString().trimEnd());
      expect(`${name} agrees`, /^The grid's run ends as/.test(await text("agree")), true);
      await click("last"); await until('/ended/.test(document.getElementById("cycle").textContent)');
      expect(`${name} cycles`, (await text("cycle")),
        `cycle ${/\ncycles (\d+)/.exec(want.stdout.toString())[1]}, ended`);
      await click("first"); await wait(200);
      for (let i = 0; i < 70; i++) { await click("step"); await wait(8); }
      await wait(300);
      const said = `${await text("said")}; ${await text("speed")}`;
      if (theme === "light" && width === 1280) console.log(`page ${name}: ready in ${ms.toFixed(0)} ms; ${said}`);
      await shot(`${name}_${theme}_${width}`, true);
    }
    await go(`text=${base64(FAULTY)}`);
    await until('document.getElementById("fault").textContent !== ""');
    fs.writeFileSync(path.join(folder, "program.c"), FAULTY);
    const told = spawnSync(program, ["explain", "program.c"], { cwd: folder }).stdout.toString();
    const m = /^program\.c:(\d+):(\d+): (.*)/.exec(told);
    expect("fault", await text("fault"), m ? `Line ${m[1]}, column ${m[2]}: ${m[3]}` : told);
    await shot(`fault_${theme}_${width}`);
  }
  await size(1280, 900);
  // The page after a change of a text of 200 lines: its image and first picture, and then the reports.
  await js(`$ = id => document.getElementById(id), long = ${JSON.stringify(largeText())}`);
  const changed = await js(`new Promise(done => {
    const begun = performance.now(), found = [];
    for (const id of ["said", "cycle"]) $(id).textContent = "";
    $("text").value = long; $("text").dispatchEvent(new Event("input"));
    const look = () => {
      if (!found.length && /^Compiled/.test($("said").textContent) && $("cycle").textContent)
        found.push(performance.now() - begun);
      if (found.length && $("agree").textContent) done([...found, performance.now() - begun]);
      else setTimeout(look, 5);
    };
    setTimeout(look, 300);
  })`);
  console.log(`page: a change of a text of 200 lines is answered in ${Math.round(changed[0])} ms, its reports in `
    + `${Math.round(changed[1])} ms`);
  await go("example=sort.c&cycle=200");
  const played = await js(`new Promise(done => {
    const at = () => +/\\d+/.exec(document.getElementById("cycle").textContent)[0];
    document.getElementById("pace").value = "60"; document.getElementById("play").click();
    setTimeout(() => {
      const begun = performance.now(), from = at();
      let drawn = 0;
      const tick = () => {
        const seconds = (performance.now() - begun) / 1000;
        drawn++;
        if (seconds < 3) requestAnimationFrame(tick); else done([(at() - from) / seconds, drawn / seconds]);
      };
      requestAnimationFrame(tick);
    }, 500);
  })`);
  console.log(`page: playing at 60 cycles a second, ${played[0].toFixed(0)} cycles and ${played[1].toFixed(0)} `
    + "pictures are drawn a second");
  await go("example=queens.c&cycle=5000&seed=7");
  await click("flush"); await wait(1500);
  console.log("page queens, next flush:", await text("cycle"), "|", (await text("flushes")).slice(0, 160));
  await shot("queens_flush", true);
  console.log(`page: ${bad} differ, ${errors.length} errors in the console ${errors.slice(0, 3).join("\n")}`);
  socket.close();
  return bad + errors.length === 0;
}

const [how, ...words] = process.argv.slice(2);
const good = how === "module" ? compare(new Module(words[0]), words[1], words[2]) : await drive(words[0], words[1],
  words[2], words[3], words[4]);
process.exit(good ? 0 : 1);
