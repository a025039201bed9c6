// node-semver's class SemVer and its functions of versions, over the addon, as npm reads texts.
// docs/NODE_CLIENT.md names what is different.
"use strict";
const { WithOptions, isLoose, optionsOf, orNull, textOf, NoNext } = require("./values.js");
const { addon } = require("./opened.js");

const KINDS = [null, "major", "minor", "patch", "premajor", "preminor", "prepatch", "prerelease"];
const SEMVER_SPEC_VERSION = "2.0.0";
const RELEASE_TYPES = ["major", "premajor", "minor", "preminor", "patch", "prepatch", "prerelease"];
const NO_NUMBER = 2;
// Where the addon writes the numbers of a version.
const numbers = new Float64Array(3);

const isDigits = (it) => /^[0-9]+$/.test(it);

// An identifier of a pre-release: a number, if JavaScript counts so far.
function identifierOf(text) {
  const number = isDigits(text) ? Number(text) : NaN;
  return number < Number.MAX_SAFE_INTEGER ? number : text;
}

const listOf = (text) => (text === "" ? [] : text.split("."));
const orderOf = (one, two) => (one < two ? -1 : one > two ? 1 : 0);

function wrongVersion(version) {
  if (typeof version === "string") return new TypeError(`Invalid Version: ${version}`);
  return new TypeError(`Invalid version. Must be a string. Got type "${typeof version}".`);
}

function printed({ major, minor, patch }, pre) {
  const triple = `${major}.${minor}.${patch}`;
  return pre === "" ? triple : `${triple}-${pre}`;
}

class SemVer extends WithOptions {
  constructor(version, options) {
    super(options);
    if (version instanceof SemVer) {
      if (this.hasOptionsOf(version)) return version;
      version = version.version;
    }
    if (typeof version !== "string") throw wrongVersion(version);
    const pre = addon().tryRead(version, numbers, this.loose);
    if (pre === undefined) throw wrongVersion(version);
    this.raw = version;
    [this.major, this.minor, this.patch] = numbers;
    this.prerelease = listOf(pre).map(identifierOf);
    // As it is written: `+001` keeps its zeros.
    this.build = version.includes("+") ? listOf(addon().tryBuildText(version, this.loose)) : [];
    this.version = printed(this, pre);
  }

  // The version as its numbers and its pre-release say.
  format() {
    this.version = printed(this, this.prerelease.join("."));
    return this.version;
  }

  toString() {
    return this.version;
  }

  compare(other) {
    const found = versionOf(other, this.options);
    if (found.version === this.version) return 0;
    return this.compareMain(found) || asked("tryCompare", this.version, found.version);
  }

  // By the three numbers alone.
  compareMain(other) {
    const { major, minor, patch } = versionOf(other, this.options);
    return orderOf(this.major, major) || orderOf(this.minor, minor) || orderOf(this.patch, patch);
  }

  // By the pre-releases alone.
  comparePre(other) {
    const of = (it) => `0.0.0${it.version.replace(/^[^-]*/, "")}`;
    return asked("tryCompare", of(this), of(versionOf(other, this.options)));
  }

  // By build metadata alone.
  compareBuild(other) {
    const of = (it) => whole({ version: "0.0.0", build: it.build });
    return addon().tryCompareBuild(of(this), of(versionOf(other, this.options)));
  }

  // Changes this version to the next one. The build stays.
  inc(release, identifier, base) {
    const number = base === false ? NO_NUMBER : Number(Boolean(Number(base)));
    const word = typeof release === "string" ? release : "";
    const next = addon().tryInc(this.version, word, identifier || "", number);
    if (next === undefined) throw new NoNext(`invalid increment argument: ${release}`);
    // Its numbers may be one more than what is read.
    const [, triple, pre] = /^([\d.]+)-?([^+]*)/.exec(next);
    [this.major, this.minor, this.patch] = triple.split(".").map(Number);
    this.prerelease = listOf(pre).map(identifierOf);
    this.version = printed(this, pre);
    this.raw = whole(this);
    return this;
  }
}

const versionOf = (it, options) => (it instanceof SemVer ? it : new SemVer(it, options));

// The text of a version has no build.
const whole = ({ version, build }) =>
  build.length === 0 ? version : `${version}+${build.join(".")}`;

function parse(version, options, throws = false) {
  if (version instanceof SemVer) return version;
  return throws ? new SemVer(version, options) : orNull(() => new SemVer(version, options));
}

const valid = (version, options) => parse(version, options)?.version ?? null;
// Another value than a string is a TypeError.
function clean(version, options) {
  if (!isLoose(options)) return addon().tryClean(version) ?? null;
  if (typeof version !== "string") throw wrongVersion(version);
  return valid(version.trim().replace(/^[=v]+/, ""), options);
}

function coerce(version, options) {
  if (version instanceof SemVer) return version;
  const text = typeof version === "number" ? String(version) : version;
  if (typeof text !== "string") return null;
  const { loose, rtl, includePrerelease } = optionsOf(options);
  const found = addon().tryCoerce(text, ...[loose, rtl, includePrerelease].map(Boolean));
  return typeof found === "string" ? new SemVer(found, options) : null;
}

function inc(version, release, options, identifier, base) {
  if (typeof options === "string") [options, identifier, base] = [undefined, options, identifier];
  const next = () => new SemVer(textOf(version), options).inc(release, identifier, base).version;
  return orNull(next);
}

const major = (version, options) => new SemVer(version, options).major;
const minor = (version, options) => new SemVer(version, options).minor;
const patch = (version, options) => new SemVer(version, options).patch;

function prerelease(version, options) {
  const found = parse(version, options);
  return found !== null && found.prerelease.length > 0 ? found.prerelease : null;
}

// ---- Order

// The text of a version. Another value is a TypeError.
function checked(version) {
  const text = textOf(version);
  if (typeof text !== "string") throw wrongVersion(text);
  return text;
}

// The answer of a question about two versions. A text that is none is a TypeError.
function asked(question, one, two, options) {
  const [version, other, loose] = [checked(one), checked(two), isLoose(options)];
  const answer = addon()[question](version, other, loose);
  if (answer !== undefined) return answer;
  throw wrongVersion(addon().tryRead(version, numbers, loose) === undefined ? version : other);
}

const compare = (one, two, options) => asked("tryCompare", one, two, options);
const compareLoose = (one, two) => compare(one, two, true);
const rcompare = (one, two, options) => compare(two, one, options);
const withBuild = (it, options) => (it instanceof SemVer ? whole(new SemVer(it, options)) : it);
const compareBuild = (one, two, options) =>
  asked("tryCompareBuild", withBuild(one, options), withBuild(two, options), options);
const diff = (one, two) => KINDS[asked("tryDiff", one, two)];

const gt = (one, two, options) => compare(one, two, options) > 0;
const lt = (one, two, options) => compare(one, two, options) < 0;
const eq = (one, two, options) => compare(one, two, options) === 0;
const neq = (one, two, options) => compare(one, two, options) !== 0;
const gte = (one, two, options) => compare(one, two, options) >= 0;
const lte = (one, two, options) => compare(one, two, options) <= 0;
const SIGNS = { "": eq, "=": eq, "==": eq, "!=": neq, ">": gt, ">=": gte, "<": lt, "<=": lte };

function cmp(one, sign, two, options) {
  // Of null this is a TypeError.
  const shown = (it) => (typeof it === "object" ? it.version : it);
  if (sign === "===") return shown(one) === shown(two);
  if (sign === "!==") return shown(one) !== shown(two);
  if (!Object.hasOwn(SIGNS, sign)) throw new TypeError(`Invalid operator: ${sign}`);
  return SIGNS[sign](one, two, options);
}

// Identifiers as those of pre-releases. Other values are compared too: numbers below texts.
function compareIdentifiers(one, two) {
  const order = addon().tryCompare(`0.0.0-${one}`, `0.0.0-${two}`);
  if (order !== undefined) return order;
  const [isOne, isTwo] = [isDigits(one), isDigits(two)];
  if (isOne !== isTwo) return isOne ? -1 : 1;
  return isOne ? orderOf(Number(one), Number(two)) : orderOf(String(one), String(two));
}

const rcompareIdentifiers = (one, two) => compareIdentifiers(two, one);

const sort = (versions, options) =>
  versions.sort((one, two) => compareBuild(one, two, options));
const rsort = (versions, options) =>
  versions.sort((one, two) => compareBuild(two, one, options));

// Names alone, so that `import` finds them.
module.exports = {
  SemVer, RELEASE_TYPES, SEMVER_SPEC_VERSION, parse, valid, clean, coerce, inc, diff, prerelease,
  major, minor, patch, compare, compareBuild, compareLoose, rcompare, compareIdentifiers,
  rcompareIdentifiers, gt, lt, eq, neq, gte, lte, cmp, sort, rsort,
};
