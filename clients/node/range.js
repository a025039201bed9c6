// node-semver's classes Comparator and Range and its functions of ranges, over the addon, as npm
// reads texts. docs/NODE_CLIENT.md names what is different.
"use strict";
const { WithOptions, optionsOf, orNull, textOf } = require("./values.js");
const { SemVer, cmp, compare, parse } = require("./version.js");
const { addon } = require("./opened.js");

const ANY = Symbol("SemVer ANY");

// The text of a comparator or of a range, with one blank between its words.
function spaced(text, kind) {
  if (typeof text !== "string") throw new TypeError(`Invalid ${kind}: ${text}`);
  return text.trim().split(/\s+/).join(" ");
}

// A sign and a version, or nothing, which is any version.
class Comparator extends WithOptions {
  static get ANY() {
    return ANY;
  }

  constructor(comparator, options) {
    super(options);
    if (comparator instanceof Comparator) {
      if (this.hasOptionsOf(comparator)) return comparator;
      comparator = comparator.value;
    }
    this.parse(spaced(comparator, "comparator"));
    this.value = this.semver === ANY ? "" : this.operator + this.semver.version;
  }

  parse(text) {
    const [sign] = /^[<>]?=?/.exec(text);
    this.operator = sign === "=" ? "" : sign;
    this.semver = text === "" ? ANY : parse(text.slice(sign.length).trim(), this.options.loose);
    if (this.semver === null) throw new TypeError(`Invalid comparator: ${text}`);
  }

  toString() {
    return this.value;
  }

  // By the version alone: a pre-release may be of any numbers.
  test(version) {
    if (this.semver === ANY || version === ANY) return true;
    const found = typeof version === "string" ? parse(version, this.options) : version;
    return found !== null && cmp(found, this.operator, this.semver, this.options);
  }

  // Whether a version satisfies both, as ranges.
  intersects(comparator, options) {
    if (!(comparator instanceof Comparator)) throw new TypeError("a Comparator is required");
    return new Range(this, options).intersects(new Range(comparator, options));
  }
}

class Range extends WithOptions {
  #set = null;

  constructor(range, options) {
    super(options);
    if (range instanceof Range) {
      if (this.hasOptionsOf(range)) return range;
      range = range.raw;
    }
    this.raw = spaced(range instanceof Comparator ? range.value : range, "SemVer Range");
    const printed = addon().tryRange(this.raw, this.includePrerelease, this.loose);
    if (printed === undefined) throw new TypeError(`Invalid SemVer Range: ${this.raw}`);
    this.range = printed === "*" ? "" : printed;
  }

  // The comparators of each alternative.
  get set() {
    const comparator = (text) => new Comparator(text, this.options);
    return (this.#set ??= this.range.split("||").map((it) => it.split(" ").map(comparator)));
  }

  format() {
    return this.range;
  }

  toString() {
    return this.range;
  }

  test(version) {
    const text = textOf(version);
    return (
      typeof text === "string" &&
      addon().trySatisfies(this.raw, text, this.includePrerelease, this.loose) === true
    );
  }

  // Whether a version satisfies both.
  intersects(range, options) {
    if (!(range instanceof Range)) throw new TypeError("a Range is required");
    const read = (it) => (options === undefined ? it : new Range(it, options));
    const both = [this, range].map(read);
    return commonSoon(both) ?? satisfyingAll(both).length > 0;
  }
}

// Whether a version satisfies two ranges, where that is soon told: both read alike and without
// pre-releases included, by the smallest version of what they have in common. Else undefined.
function commonSoon([one, two]) {
  if (one.includePrerelease || two.includePrerelease || one.loose !== two.loose) return undefined;
  const common = addon().tryIntersect(one.raw, two.raw, one.loose);
  if (common === null) return false;
  const least = addon().tryMinVersion(common);
  return (typeof least === "string" && one.test(least) && two.test(least)) || undefined;
}

// Versions at a bound and next to it. The smallest version above a bound is one of these, and so
// are the smallest release and the smallest pre-release of the bound's numbers there.
function nextTo({ major, minor, patch, prerelease, version }) {
  const [same, next] = [`${major}.${minor}.${patch}`, `${major}.${minor}.${patch + 1}`];
  const found = [`${same}-0`, same, `${next}-0`, next];
  return prerelease.length === 0 ? found : [version, `${version}.0`, ...found];
}

// Some versions that satisfy all of some ranges, and the smallest such version among them. There
// are none only if no version satisfies all.
function satisfyingAll(ranges) {
  const bounds = ranges.flatMap((it) => it.set.flat()).filter((it) => it.semver !== ANY);
  const found = ["0.0.0-0", "0.0.0", ...bounds.flatMap((it) => nextTo(it.semver))];
  return [...new Set(found)].filter((it) => ranges.every((range) => range.test(it)));
}

function satisfies(version, range, options) {
  const text = textOf(version);
  if (typeof range === "string" && typeof text === "string") {
    const { includePrerelease, loose } = optionsOf(options);
    const flags = [includePrerelease, loose].map(Boolean);
    return addon().trySatisfies(range, text, ...flags) === true;
  }
  return orNull(() => new Range(range, options).test(version)) ?? false;
}

const validRange = (range, options) => orNull(() => new Range(range, options).range || "*");

// The best of the versions that a range accepts, the first of equal ones, as it was given.
function best(versions, range, options, isBetter) {
  const found = orNull(() => new Range(range, options));
  if (found === null) return null;
  const isFirst = (it, chosen) => chosen === null || isBetter(compare(it, chosen, options));
  const better = (chosen, it) => (isFirst(it, chosen) ? it : chosen);
  return versions.filter((it) => found.test(it)).reduce(better, null);
}

const isAbove = (order) => order > 0, isBelow = (order) => order < 0;
const maxSatisfying = (versions, range, options) => best(versions, range, options, isAbove);
const minSatisfying = (versions, range, options) => best(versions, range, options, isBelow);

function minVersion(range, options) {
  const found = new Range(range, options);
  const least = found.includePrerelease
    ? satisfyingAll([found]).sort(compare)[0]
    : addon().tryMinVersion(found.raw, found.loose);
  return typeof least === "string" ? new SemVer(least.replace(/\+.*/, "")) : null;
}

function outside(version, range, side, options) {
  const [{ version: text }, asked] = [new SemVer(version, options), new Range(range, options)];
  if (side !== "<" && side !== ">") throw new TypeError('Must provide a hilo val of "<" or ">"');
  const { raw, includePrerelease, loose } = asked;
  return addon().tryOutside(raw, text, side === ">", includePrerelease, loose);
}

const gtr = (version, range, options) => outside(version, range, ">", options);
const ltr = (version, range, options) => outside(version, range, "<", options);

const intersects = (one, two, options) =>
  new Range(one, options).intersects(new Range(two, options));

function subset(sub, range, options) {
  if (sub === range) return true;
  const [one, two] = [new Range(sub, options), new Range(range, options)];
  return addon().trySubset(one.raw, two.raw, one.includePrerelease, one.loose);
}

const toComparators = (range, options) =>
  new Range(range, options).set.map((it) => it.map(({ value }) => value));

// The versions of a sorted list that a range accepts, as pairs of the first and the last of a run.
function runsOf(sorted, range) {
  const runs = [];
  let isOpen = false;
  for (const it of sorted) {
    const isIn = range.test(it);
    if (isIn && !isOpen) runs.push([it, it]);
    if (isIn) runs[runs.length - 1][1] = it;
    isOpen = isIn;
  }
  return runs;
}

// A shorter range that accepts the same of some versions, if there is one, and else the range as it
// was given.
function simplifyRange(versions, range, options) {
  const asked = () => new Range(range, options);
  const found = typeof range === "string" ? orNull(asked) : asked();
  if (found === null) return range;
  const sorted = [...versions].sort((one, two) => compare(one, two, options));
  const [first, last] = [sorted[0], sorted[sorted.length - 1]];
  const words = runsOf(sorted, found).map(([from, to]) => {
    if (from === first && to === last) return "*";
    if (to === last) return `>=${textOf(from)}`;
    if (from === to) return textOf(from);
    return from === first ? `<=${textOf(to)}` : `${textOf(from)} - ${textOf(to)}`;
  });
  const text = words.join(" || ");
  const given = range instanceof Range ? found.raw : range;
  return text !== "" && text.length < given.length ? text : range;
}

// Names alone, so that `import` finds them.
module.exports = {
  Comparator, Range, satisfies, validRange, maxSatisfying, minSatisfying, minVersion, outside, gtr,
  ltr, intersects, subset, simplifyRange, toComparators,
};
