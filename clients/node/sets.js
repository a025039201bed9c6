// Ranges as sets, for those who keep node-semver: the functions take its own SemVer, Comparator and
// Range, and texts. A Range of node-semver is what its comparators say, also where it was read
// loosely. A text is read as npm reads it. Answers are texts.
"use strict";
const ours = require("./range.js");
const { addon } = require("./opened.js");
const { notAccepted, wrongRange, wrongVersion } = require("./shared.js").shared("reasons.js");

const isObject = (it) => it !== null && typeof it === "object";

// npm reads `>=0.0.0` as any version, which drops the other alternatives and their pre-releases.
// With a build it is the comparator that it seems to be.
const ALL_RELEASES = ">=0.0.0+0";
const exact = (text) => text.replace(/>=0\.0\.0(?![-+.\w])/g, ALL_RELEASES);

// A Range or a Comparator by the comparators that it has, and a text with the options of a call.
function rangeOf(it, options) {
  if (!isObject(it)) return new ours.Range(it, options);
  const { includePrerelease } = it.options ?? {};
  const text = Array.isArray(it.set) ? it.range : it.value;
  return new ours.Range(exact(text), { includePrerelease });
}

// Two ranges, of which both or neither include pre-releases.
function pairOf(one, two, options) {
  const found = [one, two].map((it) => rangeOf(it, options));
  if (found[0].includePrerelease !== found[1].includePrerelease)
    throw new TypeError("one range includes pre-releases, and the other does not");
  return found;
}

// What the addon answers of the normal forms of two ranges.
const ofForms = (question, pair) => addon()[question](...pair.map((it) => exact(it.range) || "*"));

function union(one, two, options) {
  const pair = pairOf(one, two, options), found = ofForms("tryUnion", pair);
  if (pair[0].includePrerelease || !found.includes("||")) return found;
  return found.split("||").map((it) => (it === "*" ? ALL_RELEASES : it)).join("||");
}

const intersect = (one, two, options) => ofForms("tryIntersect", pairOf(one, two, options));
const difference = (one, two, options) => ofForms("tryDifference", pairOf(one, two, options));

const intersects = (one, two, options) =>
  rangeOf(one, options).intersects(rangeOf(two, options));

function subset(sub, range, options) {
  const [one, two] = pairOf(sub, range, options);
  return ours.subset(one, two, one.options);
}

function minVersion(range, options) {
  const found = rangeOf(range, options);
  return ours.minVersion(found, found.options)?.version ?? null;
}

const library = {
  versionFlaw: (version) => addon().tryVersionFlaw(version),
  rangeFlaw: (range, pre) => addon().tryRangeFlaw(range, pre),
  satisfies: (range, version, pre) => addon().trySatisfies(range, version, pre),
  isOutside: (range, version, above, pre) => addon().tryOutside(range, version, above, pre),
};

// Why a range does not accept a version, or null: a reason, and the part of a text that it is
// about.
function why(version, range, options) {
  const { includePrerelease } = (isObject(range) ? range.options : options) ?? {};
  const [text, pre] = [isObject(version) ? version.version : version, Boolean(includePrerelease)];
  const asked = isObject(range) ? exact(rangeOf(range).range) || "*" : range;
  const wrong = wrongRange(library, asked, pre) ?? wrongVersion(library, text);
  if (wrong !== null) return wrong;
  const reason = notAccepted(library, asked, text, pre);
  return reason && { reason, text, start: 0, end: text.length };
}

// Names alone, so that `import` finds them.
module.exports = { difference, intersect, intersects, minVersion, subset, union, why };
