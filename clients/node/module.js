// The functions of the addon, over the library as WebAssembly with 64-bit memory: Node 24 or later,
// or Node 20 with --experimental-wasm-memory64. `open(path)` takes the path of the module.
"use strict";
const fs = require("fs");
const { shared } = require("./shared.js");
const { Library, NPM, Refused, WITHOUT } = shared("library.js");

const NPM_LOOSE = 2;
const OK = 0, TOO_SMALL = 2, NO_MEMORY = 10, TOO_LONG = 11;
const MESSAGES = ["", "", "", "not UTF-8", "bad version", "bad range", "bad argument", "bad identifier", "not a prerelease", "overflow", "out of memory", "too long"];
const BASE_ZERO = 0;

// npm's reading, strict or loose.
const by = (loose) => (loose ? NPM_LOOSE : NPM);

// How many words of 64 bits a bound has as it is told, and as it is kept.
const TOLD = 6, KEPT = 8;

// The words of a kept bound, whose texts begin at a place, and the place behind them.
function keptBound([kind, major, minor, patch, preLength, buildLength], at) {
  const build = at + preLength;
  const kept = [kind & 0xffffffffn, major, minor, patch, at, preLength, build, buildLength];
  return [kept, build + buildLength];
}

class Module extends Library {
  ask(name, reading, texts, ...others) {
    if (!texts.every((it) => typeof it === "string")) throw new TypeError("strings expected");
    return super.ask(name, reading, texts, ...others);
  }

  // The text of a range, read with pre-releases included or without. With them it is read and kept,
  // since a text is printed as it is read without them.
  range(text, pre, reading) {
    if (!pre) return this.text("range_print", reading, [text]);
    const read = (told, size, at, room) => {
      const count = this.answer, length = this.answer + 8n;
      return this.ask("range_read", reading, [text], 1, told, size, count, at, room, length);
    };
    const status = read(0n, 0n, 0n, 0n);
    if (status !== TOO_SMALL) throw new Refused(status);
    const [count, length] = this.numbers(this.answer, 2);
    const bounds = 2n * count, told = this.library.malloc(8n * BigInt(TOLD + KEPT) * bounds + length);
    if (told === 0n) throw new Refused(NO_MEMORY);
    try {
      const kept = told + 8n * BigInt(TOLD) * bounds, texts = kept + 8n * BigInt(KEPT) * bounds;
      const again = read(told, count, texts, length);
      if (again !== OK) throw new Refused(again);
      this.keep(Number(bounds), told, kept, texts);
      return this.text("print_range", WITHOUT, [], kept, count);
    } finally {
      this.library.free(told);
    }
  }

  // Makes the kept form of some bounds that are told.
  keep(count, told, kept, texts) {
    const [words, made] = [this.numbers(told, TOLD * count), this.numbers(kept, KEPT * count)];
    for (let nth = 0, at = texts; nth < count; nth++) {
      const [bound, behind] = keptBound(words.slice(TOLD * nth, TOLD * (nth + 1)), at);
      made.set(bound, KEPT * nth);
      at = behind;
    }
  }

  // The text of the pre-release of a version, whose numbers go into an array.
  read(version, numbers, reading) {
    const status = this.ask("version_read", reading, [version], this.answer, this.written, this.room);
    if (status !== OK) throw new Refused(status);
    const parts = Array.from(this.numbers(this.answer, 4), Number);
    numbers.set(parts.slice(0, 3));
    const from = Number(this.written);
    return new TextDecoder().decode(this.bytes().slice(from, from + parts[3]));
  }
}

// What a question answers, with an Error of the addon's text where a value is rejected.
function strict(question) {
  try {
    return question();
  } catch (error) {
    throw error instanceof Refused ? new Error(MESSAGES[error.status]) : error;
  }
}

// The same, and undefined where a value is rejected.
function attempt(question) {
  try {
    return question();
  } catch (error) {
    if (error instanceof Refused && error.status !== NO_MEMORY && error.status !== TOO_LONG) return undefined;
    throw error instanceof Refused ? new Error(MESSAGES[error.status]) : error;
  }
}

function open(file) {
  const compiled = new WebAssembly.Module(fs.readFileSync(file));
  const it = new Module(new WebAssembly.Instance(compiled, {}).exports);
  const inc = (version, word, identifier, base) => it.text("version_inc", NPM, [version, word, identifier], base);
  return {
    compare: (one, two) => strict(() => it.number("version_compare", NPM, [one, two])),
    satisfies: (range, version, pre) => strict(() => it.flag("range_satisfies", NPM, [range, version], pre)),
    inc: (version, word, identifier) => strict(() => inc(version, word, identifier, BASE_ZERO)),
    intersect: (one, two) => strict(() => it.text("range_intersect", NPM, [one, two])),
    subtract: (one, two) => strict(() => it.text("range_difference", NPM, [one, two])),
    minVersion: (range) => strict(() => it.text("range_min_version", NPM, [range])),
    tryRead: (version, numbers, loose) => attempt(() => it.read(version, numbers, by(loose))),
    tryCompare: (one, two, loose) => attempt(() => it.number("version_compare", by(loose), [one, two])),
    tryCompareBuild: (one, two, loose) => attempt(() => it.number("version_compare_build", by(loose), [one, two])),
    tryDiff: (one, two) => attempt(() => it.number("version_diff", NPM, [one, two])),
    tryInc: (version, word, identifier, base) => attempt(() => inc(version, word, identifier, base)),
    tryClean: (version) => attempt(() => it.text("version_clean", WITHOUT, [version])),
    tryCoerce: (text, ...flags) => attempt(() => it.text("version_coerce", WITHOUT, [text], ...flags.map(Number))),
    tryBuildText: (version, loose) => attempt(() => it.text("version_build_text", WITHOUT, [version], Number(loose))),
    tryRange: (range, pre, loose) => attempt(() => it.range(range, pre, by(loose))),
    trySatisfies: (range, version, pre, loose) => attempt(() => it.flag("range_satisfies", by(loose), [range, version], pre)),
    tryOutside: (range, version, above, pre, loose) => attempt(() => it.flag("range_outside", by(loose), [range, version], above, pre)),
    tryMinVersion: (range, loose) => attempt(() => it.text("range_min_version", by(loose), [range])),
    trySubset: (one, two, pre, loose) => attempt(() => it.flag("range_is_subset", by(loose), [one, two], pre)),
    tryUnion: (one, two) => attempt(() => it.text("range_union", NPM, [one, two])),
    tryIntersect: (one, two, loose) => attempt(() => it.text("range_intersect", by(loose), [one, two])),
    tryDifference: (one, two) => attempt(() => it.text("range_difference", NPM, [one, two])),
    tryVersionFlaw: (version) => attempt(() => it.versionFlaw(version)),
    tryRangeFlaw: (range, pre) => attempt(() => it.rangeFlaw(range, pre)),
  };
}

module.exports = { open };
