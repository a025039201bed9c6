// Asks this client and node-semver the same questions: node beside.js ADDON FOLDER [ROUNDS [SEED]].
// FOLDER has node-semver. Each name of its index is asked, and `sets` of its own objects. An answer
// that differs has to have a kind of docs/NODE_CLIENT.md; each kind is counted.
"use strict";
const fs = require("fs");
const path = require("path");
process.env.NODEJS_SEMVER_ADDON = path.resolve(process.argv[2]);
const here = require("./index.js");
const sets = require("./sets.js");
const there = require(path.resolve(process.argv[3]));
const ROUNDS = Number(process.argv[4] || 4000);
let seed = Number(process.argv[5] || 1);

function below(end) {
  seed = (Math.imul(seed, 1103515245) + 12345) >>> 0;
  return Math.floor((seed / 2 ** 32) * end);
}
const one = (words) => words[below(words.length)];

// ---- What is asked about

const VERSIONS = (
  "1.2.3 v1.2.3 =1.2.3 1.2.34-abc.123+1 1.0.0-rc.2-migration 1.0.0-alpha 1.0.0-alpha.1 " +
  "1.0.0-alpha.beta 1.0.0-beta 1.0.0-beta.2 1.0.0-beta.11 1.0.0-rc.1 1.0.0 2.0.0 2.0.0-pre " +
  "1.2.3+build 0.0.0 0.0.0-0 9007199254740991.0.0 9007199254740992.0.0 1.2.3-9007199254740990 " +
  "1.2 1 x 01.2.3 1.2.3beta 1.2.3-01 1.2.3.4 1.2.3- 1.2.3+ V1.2.3 1.2.3+001 0.7.2-beta 3.4.5 " +
  "1.9.9 5.0.0-a =v1.2.3 1.2.3-rc.01.a 1.2.3-009007199254740993 01.2.3-a+b"
).split(" ");
const RANGES = [
  "1.0.0 - 2.0.0", "1 - 2", "1.2 - 3.4.5", "1.2.3 - 3.4", "1.2 - 1.4 >=1.3.0", "* - 2", "<=2.0",
  "2.*.*", ">1.x.3", ">x", "=1.x.3", "=1.2.3+a", "1.2.3+a", "1.2.3beta", "~1", "~1.2.3-beta",
  "~ > 1.2.3", "^0", "^0.0", "^0.0.3-beta", "^0.2.3", "^1.0.0alpha", "^1.2.3+build",
  ">=0.2.3 || <0.0.1", "^1.x.3", "=x", "~x", "==1", "> 1foo", ">1|2", "x - x", "", "*", "||",
  "1.2.3||", ">2 <1", "foo", "foo 1.2.3", "<=x", "^1.2.3-rc.4", ">=3.3.0-beta.1 <3.4.0-beta.3",
  "^1 || ^2", "<0.0.0-0", ">1.0.0 <1.0.1-5", ">=0.0.0", "<1.0.0-0", ">=1.0.0, <2.0.0", "latest",
  ">=01.2.3", "1.2.3 foo || bar", "^1.2.3beta || >02", "= v1.2.3 - 2.0.0rc", "foo || *",
];
const OTHERS = [null, undefined, 5, true, {}, [], ""];
const IDENTIFIERS = ["0", "1", "01", "10", "a", "b", "a-b", "-", "A", "-1", "a b", "", 0, 5];
const INCREMENTS = "major minor patch premajor preminor prepatch prerelease pre other".split(" ");
const SIGNS = ["", "=", "==", "===", "!=", "!==", ">", ">=", "<", "<=", "~"];
const PRE = { includePrerelease: true };
const LOOSE = { loose: true };
const BOTH = { ...LOOSE, ...PRE };
const OPTIONS = [undefined, undefined, {}, PRE, PRE, LOOSE, true, BOTH];

const number = () => one(["0", "0", "1", "1", "2", "3", "10"]);
const tail = () => one(["", "", "", "-0", "-1", "-a", "-a.0", "-a.b", "-rc.1"]);
const triple = () => `${number()}.${number()}.${number()}`;
const build = () => one(["", "", "", "+b", "+b.1"]);
// What the loose reading alone takes.
const looseTriple = () => one(["", "v ", "=", "v="]) + one(["", "0"]) + triple();
const loose = () => looseTriple() + one(["", "-01", "beta", "rc.1", "-a.00"]) + build();
const version = () => (below(6) === 0 ? loose() : triple() + tail() + build());
const wildcard = () => one(["x", "*", "1.x", "1.2.x"]);
const short = () => one([number, () => `${number()}.${number()}`, wildcard])();
const partial = () => one([version, short])();
const sign = () => one(["", "^", "~", ">=", ">", "<", "<=", "="]);
const plain = () => (below(8) === 0 ? `${partial()} - ${partial()}` : sign() + partial());
const word = () => (below(20) === 0 ? one(["foo", "1foo", "~v 01.2", ">1|2"]) : plain());
const some = (most, make, between) => Array.from({ length: 1 + below(most) }, make).join(between);
const range = () => some(3, () => some(2, word, " "), one(["||", " || "]));
const comparator = () => one([">=", ">", "<", "<=", "=", ""]) + one([version, version, short])();

const random = Array.from({ length: 60 }, version);
const POOL = [...new Set([...VERSIONS, ...random])].filter((it) => there.valid(it));
const same = (a, b) => JSON.stringify(a) === JSON.stringify(b);

// The versions of the pool, and those at the bounds of some ranges of node-semver and next to them.
function versionsAbout(ranges) {
  const bounds = ranges.flatMap((it) => it.set.flat()).map((it) => it.semver);
  const around = ({ major, minor, patch, version, prerelease }) => {
    const texts = [`${major}.${minor}.${patch}`, `${major}.${minor}.${patch + 1}`];
    const last = prerelease.length ? [version, `${version}.0`] : [];
    return [...texts, ...texts.map((it) => `${it}-0`), ...last];
  };
  const named = bounds.filter((it) => it instanceof there.SemVer).flatMap(around);
  return [...new Set([...POOL, "0.0.0", "0.0.0-0", ...named])].filter((it) => there.valid(it));
}
const rangesOf = (options, ...texts) => texts.map((it) => new there.Range(it, options));

// ---- How it is asked

// The fields of a version or a comparator.
function fieldsOf(it) {
  const { raw, version, major, minor, patch, prerelease, build, loose, options } = it;
  const { operator, value, semver } = it;
  const own = semver && (typeof semver === "symbol" ? "ANY" : fieldsOf(semver));
  const numbers = { major, minor, patch, prerelease, build };
  return { raw, version, numbers, operator, value, own, loose, options };
}

// What is no function of the index: the constants, and the classes with their methods.
const ORDERS = ["compare", "compareMain", "comparePre", "compareBuild"];
const CALLS = {
  RELEASE_TYPES: (it) => it.RELEASE_TYPES,
  SEMVER_SPEC_VERSION: (it) => it.SEMVER_SPEC_VERSION,
  SemVer: (it, ...given) => fieldsOf(new it.SemVer(...given)),
  "SemVer orders": (it, v, w, options) => ORDERS.map((name) => new it.SemVer(v, options)[name](w)),
  "SemVer inc": (it, v, options, ...given) => fieldsOf(new it.SemVer(v, options).inc(...given)),
  Comparator: (it, ...given) => fieldsOf(new it.Comparator(...given)),
  "Comparator test": (it, text, v, options) => new it.Comparator(text, options).test(v),
  "Comparator intersects": (it, text, other, options) =>
    new it.Comparator(text, options).intersects(new it.Comparator(other, options), options),
  Range(it, ...given) {
    const { raw, loose, includePrerelease, options } = new it.Range(...given);
    return { raw, loose, includePrerelease, options };
  },
  "Range test": (it, text, v, options) => new it.Range(text, options).test(v),
  "Range satisfies": (it, text, v, options) => it.satisfies(v, new it.Range(text, PRE), options),
  "Range of Comparator": (it, text) => String(new it.Range(new it.Comparator(text))),
  "Range intersects": (it, text, other, options) =>
    new it.Range(text, options).intersects(new it.Range(other, options), options),
  // One of them is read loosely, and the other is not.
  "Range intersects, mixed": (it, text, other) =>
    new it.Range(text, LOOSE).intersects(new it.Range(other)),
  // Of a version with other options the build does not count.
  "compareBuild of objects": (it, v, w, options) =>
    it.compareBuild(new it.SemVer(v, LOOSE), new it.SemVer(w), options),
};

// What a call returns, or the kind of its error.
function answer(library, name, given) {
  try {
    const own = given.map((it) => (Array.isArray(it) ? [...it] : it));
    const found = CALLS[name] ? CALLS[name](library, ...own) : library[name](...own);
    const isShown = [library.SemVer, library.Range].some((it) => found instanceof it);
    return isShown ? String(found) : found;
  } catch (error) {
    return error instanceof TypeError ? "TypeError" : "Error";
  }
}

// ---- Why an answer may differ

const accepted = (text, options) => POOL.map((it) => there.satisfies(it, text, options));

// Whether two ranges have a version in common is held to versions at their bounds.
const inCommon = (mine, other, [text, to, options]) =>
  inCommonOf(mine, [text, options], [to, options]);
function inCommonOf(mine, ...given) {
  const ranges = given.map((it) => new there.Range(...it));
  const isThere = versionsAbout(ranges).some((it) => ranges.every((range) => range.test(it)));
  return mine === isThere && "what two ranges have in common";
}

// The names of the kinds, for the answers to a call with some values, or false.
const KINDS = {
  validRange(mine, other, [text, options]) {
    if (typeof mine !== "string" || typeof other !== "string") return false;
    return same(accepted(mine, options), accepted(text, options)) && "a range in another form";
  },
  toComparators(mine, other, [text, options]) {
    if (!Array.isArray(mine) || !Array.isArray(other)) return false;
    const joined = mine.map((it) => it.join(" ")).join("||");
    return KINDS.validRange(joined, "", [text, options]);
  },
  intersects: inCommon,
  "Range intersects": inCommon,
  "Range intersects, mixed": (mine, other, [text, to]) => inCommonOf(mine, [text, LOOSE], [to]),
  "Comparator intersects": inCommon,
  "Range of Comparator": (mine, other, [text]) => KINDS.validRange(mine, other, [text]),
  subset(mine, other, [sub, text, options]) {
    const ranges = rangesOf(options, sub, text);
    const isLeft = (it) => ranges[0].test(it) && !ranges[1].test(it);
    if (mine === versionsAbout(ranges).some(isLeft)) return false;
    if (mine) return "a subset that node-semver does not see";
    return "no subset, though node-semver says so";
  },
  minVersion(mine, other, [text, options]) {
    const isIn = (it) => there.satisfies(it, text, options);
    const isBetter = () => other === null || there.gt(other, mine) || !isIn(other);
    return typeof mine === "string" && isIn(mine) && isBetter() && "the smallest version";
  },
  simplifyRange(mine, other, [versions, text, options]) {
    const of = (it) => versions.map((version) => there.satisfies(version, it, options));
    const [own, given] = [of(mine), of(text)];
    return same(own, given) && !same(of(other), given) && "a simpler range with other answers";
  },
  outside(mine, other, [version, text, side, options]) {
    // node-semver looks at each bound, also at one that another of its alternative makes needless.
    const normal = here.validRange(text, options);
    const isNothing = (it) => here.validRange(it, options) === "<0.0.0-0";
    if (there.outside(version, normal, side, options) === mine)
      return "above or below a range with more bounds than it needs";
    const isIn = text.split("||").some(isNothing);
    return isIn && "above or below an alternative that accepts nothing";
  },
  gtr: (mine, other, [v, text, options]) => KINDS.outside(mine, other, [v, text, ">", options]),
  ltr: (mine, other, [v, text, options]) => KINDS.outside(mine, other, [v, text, "<", options]),
  coerce(mine, other, [text, options]) {
    const isLonger = options?.includePrerelease && String(mine).startsWith(other);
    return isLonger && "an identifier that begins with digits, found in a text";
  },
  satisfies(mine, other, [version]) {
    const isThrown = mine === false && other === "TypeError";
    return isThrown && typeof version !== "string" && "satisfies of no text";
  },
};

// Each kind is a row of the page.
const PAGE = fs.readFileSync(path.join(__dirname, "../../docs/NODE_CLIENT.md"), "utf8");
const isTold = (kind) => PAGE.includes(`\n| ${kind} | `);

const isLoose = (it) => it === true || it?.loose === true;
const ZEROS = /(["\-.])0+(\d{16})/g;
const withoutZeros = (it) => JSON.stringify(it)?.replace(ZEROS, "$1$2");

// What is asked loosely without an option.
const LOOSELY = ["compareLoose", "compareBuild of objects", "Range intersects, mixed"];

// The kind of a difference. What node-semver reads with a long number it may not read again.
function kindOf(name, given, mine, other) {
  const isRead = LOOSELY.includes(name) || given.some(isLoose);
  const isSame = other === "TypeError" || withoutZeros(mine) === withoutZeros(other);
  if (isRead && isSame && withoutZeros(given) !== JSON.stringify(given))
    return "a leading zero of a long number, read loosely";
  return KINDS[name]?.(mine, other, given);
}

const counts = new Map(), calls = new Map();
const wrong = [];
let asked = 0;

const count = (map, name) => map.set(name, (map.get(name) || 0) + 1);

function ask(name, ...given) {
  asked += 1;
  count(calls, name.split(" ")[0]);
  const [mine, other] = [answer(here, name, given), answer(there, name, given)];
  if (same(mine, other)) return;
  const kind = kindOf(name, given, mine, other);
  if (kind && isTold(kind)) return count(counts, kind);
  const [asks, says, said] = [given, mine, other].map((it) => JSON.stringify(it));
  wrong.push(`${name} of ${asks}: ${says}, and node-semver ${said}`);
}

// ---- The questions

const OF_ONE = ["valid", "parse", "prerelease", "major", "minor", "patch", "coerce", "clean"];
const OF_TWO = ["compare", "rcompare", "compareBuild", "gt", "lt", "eq", "neq", "gte", "lte"];

function ofPair(v, w) {
  for (const name of OF_TWO) ask(name, v, w, one(OPTIONS));
  for (const name of ["diff", "compareLoose"]) ask(name, v, w);
  ask("cmp", v, one(SIGNS), w, one(OPTIONS));
  ask("SemVer orders", v, w, one(OPTIONS));
  ask("compareBuild of objects", v, w, one(OPTIONS));
}

function ofVersion(v) {
  for (const name of OF_ONE) ask(name, v, one(OPTIONS));
  ask("SemVer", v, one(OPTIONS));
  const text = typeof v === "string" ? `a ${v} b ${number()}` : v;
  for (const options of [PRE, { rtl: true }, { rtl: true, ...PRE }, LOOSE])
    ask("coerce", text, options);
  for (const release of INCREMENTS) {
    const [identifier, base] = [one(["a", "rc", "beta"]), one([undefined, false, "0", "1", 0, 1])];
    ask("inc", v, release);
    ask("inc", v, release, identifier, base);
    ask("inc", v, release, PRE, one(["a", "rc"]));
    ask("SemVer inc", v, one(OPTIONS), release, identifier, base);
  }
}

function ofComparators(text, v, other) {
  const options = one(OPTIONS);
  ask("Comparator", text, options);
  ask("Comparator test", text, v, options);
  ask("Comparator intersects", text, other, options);
  ask("Range of Comparator", text);
}

function ofRanges(text, v, w, other) {
  for (const options of [undefined, PRE, one(OPTIONS)]) {
    ask("satisfies", v, text, options);
    ask("maxSatisfying", [v, w, ...POOL.slice(0, 20)], text, options);
    ask("minSatisfying", [v, w, ...POOL.slice(0, 20)], text, options);
    for (const name of ["gtr", "ltr"]) ask(name, v, text, options);
    ask("outside", v, text, one(["<", ">", "="]), options);
    for (const name of ["validRange", "toComparators", "minVersion"]) ask(name, text, options);
    for (const name of ["intersects", "subset"]) ask(name, text, other, options);
  }
  const options = one(OPTIONS);
  ask("Range", text, options);
  ask("Range test", text, v, options);
  ask("Range satisfies", text, v, options);
  ask("Range intersects", text, other, options);
  ask("Range intersects, mixed", text, other);
  ask("satisfies", one(OTHERS), text);
  if (typeof text === "string") ask("simplifyRange", POOL.slice(below(40)), text, options);
}

function ofRest() {
  for (const name of ["compareIdentifiers", "rcompareIdentifiers"])
    ask(name, one(IDENTIFIERS), one(IDENTIFIERS));
  const list = Array.from({ length: 10 }, version);
  for (const name of ["sort", "rsort"]) ask(name, list, one(OPTIONS));
  for (const name of ["RELEASE_TYPES", "SEMVER_SPEC_VERSION"]) ask(name);
}

// ---- Sets of node-semver's own objects

// What `sets` says of two ranges of node-semver is held to what these say of versions about them:
// whether it is right, by the function. `all` asks of each version whether it is in both.
const HELD = {
  intersects: (a, b, all) => sets.intersects(a, b) === !all((inA, inB) => !(inA && inB)),
  subset: (a, b, all) => sets.subset(a, b) === all((inA, inB) => !inA || inB),
  minVersion(a, b, all) {
    const least = sets.minVersion(a);
    if (least === null) return all((inA) => !inA);
    return a.test(least) && all((inA, inB, it) => !inA || there.lte(least, it));
  },
  union(a, b, all) {
    const made = new there.Range(sets.union(a, b), a.options);
    return all((inA, inB, it) => made.test(it) === (inA || inB));
  },
  intersect(a, b, all) {
    const isMade = made(sets.intersect(a, b), a);
    return all((inA, inB, it) => (inA && inB ? isMade(it) : !isExact(a, it) || !isMade(it)));
  },
  difference(a, b, all) {
    const isMade = made(sets.difference(a, b), a);
    return all((inA, inB, it) => !isExact(a, it) || isMade(it) === (inA && !inB));
  },
  why: (a, b, all) => all((inA, inB, it) => (sets.why(it, a) === null) === inA),
};
// Whether a version is in a range that is made of another one. There may be none.
function made(text, { options }) {
  const found = text === null ? null : new there.Range(text, options);
  return (it) => found !== null && found.test(it);
}
// Without pre-releases, intersections and differences are exact of releases alone.
const isExact = (a, it) => a.includePrerelease || !there.prerelease(it);

function ofSets(a, b) {
  const versions = versionsAbout([a, b]).map((it) => new there.SemVer(it));
  const tested = versions.map((it) => [a.test(it), b.test(it), it]);
  const all = (isRight) => tested.every((it) => isRight(...it));
  for (const [name, isRight] of Object.entries(HELD)) {
    asked += 1;
    const told = `sets.${name} of ${a.raw} and ${b.raw}, ${JSON.stringify(a.options)}`;
    if (!isRight(a, b, all)) wrong.push(told);
  }
}

// Alternatives that node-semver keeps beside `>=0.0.0`, since that has a build.
const BESIDE_ALL = [
  [">1 || >=0.0.0+b || <3.1.0-a =1.2.2-0", "^0.1.0 1.2.2-a"],
  ["<10.2 || >=3.0.1-1", "<1.10.1-0 || 0.0.0+b - 0.0.0-0"],
];

function ofSetsOfTexts(...texts) {
  const options = one([undefined, PRE, LOOSE, BOTH]);
  if (texts.every((it) => there.validRange(it, options))) ofSets(...rangesOf(options, ...texts));
}

// ---- All of it

for (const v of [...VERSIONS, ...OTHERS]) {
  ofVersion(v);
  for (const w of [...VERSIONS, ...OTHERS]) ofPair(v, w);
}
for (const texts of BESIDE_ALL)
  for (const options of [undefined, {}, PRE]) ofSets(...rangesOf(options, ...texts));
for (const text of [...RANGES, ...OTHERS]) {
  for (let at = 0; at < 10; at++) {
    ofRanges(text, one(VERSIONS), version(), one(RANGES));
    ofComparators(text, one(VERSIONS), comparator());
    ofSetsOfTexts(one(RANGES), one(RANGES));
  }
}
for (let at = 0; at < ROUNDS; at++) {
  ofVersion(version());
  ofPair(version(), version());
  ofComparators(comparator(), version(), comparator());
  ofRanges(range(), version(), version(), range());
  ofSetsOfTexts(range(), range());
  ofRest();
}

const names = Object.keys(there).filter((it) => !["re", "src", "tokens"].includes(it));
const fewest = Math.min(...names.map((it) => calls.get(it) || 0));
if (fewest === 0) wrong.push(`never asked: ${names.filter((it) => !calls.has(it))}`);
for (const [kind, count] of counts) console.log(`${kind}: ${count}`);
console.log(`${names.length} names of node-semver, each asked ${fewest} times or more`);
console.log(`${asked} questions, ${wrong.length} answers that differ without a kind`);
console.log(wrong.slice(0, 20).map((it) => it.slice(0, 300)).join("\n"));
process.exitCode = wrong.length > 0 ? 1 : 0;
