// Answers questions, a line each, by the library as WebAssembly, as the program semver_lines does:
//   node wasm_lines.js nodejs_semver.wasm <LINES
// Node 20 needs --experimental-wasm-memory64 before the name of this file.
"use strict";
const fs = require("fs");
const { Library, LENIENT, Refused } = require("../web/library.js");

const library = new Library(new WebAssembly.Instance(new WebAssembly.Module(fs.readFileSync(process.argv[2]))).exports);
const MESSAGES = { 4: "bad version", 5: "bad range", 6: "bad argument", 7: "bad identifier", 8: "not a prerelease", 9: "overflow" };
const ORDERS = ["less", "equal", "greater"];
const KINDS = ["none", "major", "minor", "patch", "premajor", "preminor", "prepatch", "prerelease"];
const BASES = { 0: 0, 1: 1, false: 2 };

const text = (name, texts, ...others) => library.text(name, LENIENT, texts, ...others);
const flag = (name, texts, ...flags) => library.flag(name, LENIENT, texts, ...flags);
const number = (name, texts) => library.number(name, LENIENT, texts);

// The best of some versions, printed.
function best(name, range, versions) {
  const index = library.with([range, ...versions], ([asked, ...given]) => {
    const list = library.library.malloc(BigInt(16 * given.length || 1));
    library.numbers(list, 2 * given.length).set(given.flat());
    const status = library.library[`nodejs_semver_range_${name}_satisfying`](LENIENT, ...asked, list, BigInt(given.length), library.answer);
    library.library.free(list);
    if (status > 1) throw new Refused(status);
    return status === 0 ? Number(library.numbers(library.answer, 1)[0]) : null;
  });
  return index === null ? null : text("version_print", [versions[index]]);
}

const ANSWERS = {
  ver: (v) => text("version_print", [v]),
  cmp: (v, w) => ORDERS[number("version_compare", [v, w]) + 1],
  diff: (v, w) => KINDS[number("version_diff", [v, w])],
  inc: (v, word, id = "", base = "0") => text("version_inc", [v, word, id], BASES[base]),
  range: (r) => text("range_print", [r]),
  least: (r) => text("range_min_version", [r]),
  and: (r, s) => text("range_intersect", [r, s]),
  minus: (r, s) => text("range_difference", [r, s]),
  beyond: (r, s) => text("range_least_beyond", [r, s]),
  sat: (r, v) => flag("range_satisfies", [r, v], false),
  pre: (r, v) => flag("range_satisfies", [r, v], true),
  out: (r, v, side) => flag("range_outside", [r, v], side === ">", false),
  max: (r, ...versions) => best("max", r, versions),
  min: (r, ...versions) => best("min", r, versions),
};

// What a question comes to, or why it has no answer.
function answer(kind, fields) {
  try {
    return ANSWERS[kind](...fields) ?? "none";
  } catch (it) {
    if (it instanceof Refused) return MESSAGES[it.status] ?? `status ${it.status}`;
    throw it;
  }
}

const lines = fs.readFileSync(0, "utf8").split("\n").slice(0, -1);
process.stdout.write(lines.map((line) => line.split(";")).map(([kind, ...fields]) => `${answer(kind, fields)}\n`).join(""));
