// The programs of trips_run_tests and its like, read out of their sources: bench/page has the module and the program
// answer each. `node bench/page_texts.mjs` says how many there are.
import fs from "fs";
import path from "path";
import { pathToFileURL } from "url";

// The value of a string of Rust: a backslash before the end of a line leaves out what is blank behind it.
function plain(inner) {
  return inner.replace(/\\(x[0-9a-fA-F]{2}|u\{[0-9a-fA-F]+\}|\n\s*|[^])/g, (_, e) => {
    if (e[0] === "x") return String.fromCharCode(parseInt(e.slice(1), 16));
    if (e[0] === "u" && e.length > 1) return String.fromCodePoint(parseInt(e.slice(2, -1), 16));
    return e[0] === "\n" ? "" : { n: "\n", t: "\t", r: "\r", 0: "\0" }[e] ?? e;
  });
}

// The tokens of a source: strings as objects, the rest as words and marks.
function tokensOf(source) {
  const tokens = [];
  for (const m of source.matchAll(/\/\/[^\n]*|b?"((?:[^"\\]|\\[^])*)"|'(?:[^'\\]|\\[^])'|[A-Za-z_]\w*|\d\w*|\S/g)) {
    if (m[1] !== undefined) tokens.push({ text: plain(m[1]) });
    else if (!m[0].startsWith("//")) tokens.push(m[0]);
  }
  return tokens;
}

// The constants of a source: lists as arrays, structs as objects, strings as strings, other names as they are.
function constantsOf(source) {
  const tokens = tokensOf(source), found = {};
  let at = 0;
  const list = end => {
    const items = [];
    while (at < tokens.length && tokens[at] !== end) {
      items.push(value());
      if (tokens[at] === ",") at++;
    }
    at++;
    return items;
  };
  const fields = () => {
    const made = {};
    while (at < tokens.length && tokens[at] !== "}") {
      const name = tokens[at];
      at += 2;
      made[name] = value();
      if (tokens[at] === ",") at++;
    }
    at++;
    return made;
  };
  const value = () => {
    while (tokens[at] === "&" || tokens[at] === "*") at++;
    const token = tokens[at++];
    if (token === "[") return list("]");
    if (token === "(") return list(")");
    if (typeof token === "object") return token.text;
    if (tokens[at] === "{") { at++; return fields(); }
    let word = token;
    while (at < tokens.length && !/^[,;\])}]$/.test(tokens[at])) word += tokens[at++];
    return found[word] ?? { word };
  };
  while (at < tokens.length) {
    if (tokens[at++] !== "const" || tokens[at + 1] !== ":") continue;
    const name = tokens[at];
    while (at < tokens.length && tokens[at] !== "=") at++;
    at++;
    found[name] = value();
  }
  return found;
}

// The text of each string of a source, also of those outside its constants.
const stringsOf = source => tokensOf(source).filter(t => typeof t === "object").map(t => t.text);

// Texts of C, each with an input where the test has one, and target texts.
export function testTexts(root) {
  const programs = new Map(), targets = new Set(), sources = {};
  const add = (text, input) => { if (!programs.has(text) || input !== undefined) programs.set(text, input); };
  for (const crate of ["trips_run_tests", "trips_run_refusal_tests", "trips_run_image_tests"]) {
    const src = path.join(root, "crates", crate, "src");
    for (const file of fs.readdirSync(src).sort())
      sources[`${crate}/${file}`] = fs.readFileSync(path.join(src, file), "utf8");
  }
  const of = (file, crate = "trips_run_tests") => constantsOf(sources[`${crate}/${file}.rt`] ?? "");
  for (const source of Object.values(sources)) for (const text of stringsOf(source)) {
    if (/^trips 1\n/.test(text)) targets.add(text);
    else if (/^block 0 mask /.test(text)) targets.add("trips 1\n" + text);
    else if (/\bmain\b/.test(text) && text.length > 12) add(text);
  }
  // What tests put together: programs that return an expression (eval_tests, run_tests) ..
  for (const [outside, inside] of of("tables").EDGES)
    for (const expression of [outside, inside]) add(`int main(void) { return ${expression}; }`);
  // .. each operator at each type ..
  const run = of("run_tests");
  for (const type of run.TYPES) for (const [before, operators, after] of [["x ", run.OPERATORS, " y"],
    ["x ", run.ASSIGNERS, " y"], ["", run.PREFIXES, "x"], ["x", run.SUFFIXES, ""]]) for (const operator of operators)
    add(`int main(void) { ${type} x = 103; ${type} y = 5; long z; z = (${before}${operator}${after}); `
      + "return (int) (z % 1000 + x); }");
  // .. full blocks, loops with each number of turns ..
  const full = of("block_tests"), loops = of("unroll_tests");
  for (const [before, part, after] of full.CROWDS) for (const often of [1, 40])
    add(before + part.repeat(often) + after);
  for (const [before, after] of loops.LOOPS) for (const often of loops.OFTEN) add(before + often + after);
  // .. each token replaced, and what stands behind it left out ..
  const tokens = of("token_tests");
  for (const list of [tokens.DOUBLED, tokens.WORDS]) for (let i = 0; i < list.length; i++) {
    for (const other of [")", "else"]) add(" " + [...list.slice(0, i), other, ...list.slice(i + 1)].join(" "));
    add(list.slice(0, i).map(t => " " + t).join(""));
  }
  // .. bodies and items that are refused (trips_run_refusal_tests) ..
  const refused = of("larger_rows", "trips_run_refusal_tests"), main = (items, body) =>
    add(`${items} int main(void) { ${body} }`);
  for (const list of [refused.SYNTAX_BODIES, refused.TWICE, refused.UNKNOWN]) for (const body of list) main("", body);
  for (const body of refused.MISMATCHED) main(refused.HEAD, body);
  for (const list of [refused.SYNTAX_ITEMS, refused.MISMATCHED_ITEMS, refused.TOO_LARGE]) for (const item of list)
    main(item, "return 0;");
  // .. and inputs.
  for (const p of of("programs").PROGRAMS) add(p.text, p.input);
  for (const [input] of full.CHOICES) add(full.CHOICE, input);
  add(of("tables").WORDS, of("save_tests").INPUT);
  return { programs: [...programs].map(([text, input]) => ({ text, input })), targets: [...targets] };
}

if (import.meta.url === pathToFileURL(process.argv[1]).href) {
  const { programs, targets } = testTexts(path.dirname(path.dirname(process.argv[1])));
  console.log(`${programs.length} texts of C and ${targets.length} target texts`);
}
