// Times calls of the Node client and of a node-semver: clients.js ADDON SEMVER. Prints a line for each kind: its name, and nanoseconds a call
// of each, the best of some rounds in turn.
"use strict";
const path = require("path");
process.env.NODEJS_SEMVER_ADDON = path.resolve(process.argv[2]);
const libraries = [require("../clients/node"), require(path.resolve(process.argv[3]))];

let seed = 88172645;
function below(end) {
  seed = (Math.imul(seed, 1103515245) + 12345) >>> 0;
  return Math.floor((seed / 2 ** 32) * end);
}
const one = (words) => words[below(words.length)];
const version = () => `${below(9)}.${below(30)}.${below(60)}${one(["", "", "", "-alpha.1", "-beta.2", "-rc.10"])}`;
const range = () => one([() => `^${version()}`, () => `~${below(9)}.${below(9)}`, () => `>=${version()} <${below(9) + 5}.0.0`, () => `^${version()} || ^${version()}`])();

const COUNT = 1000, ROUNDS = 15;
const versions = Array.from({ length: COUNT }, version);
const ranges = Array.from({ length: COUNT }, range);

// Of a library: each question, about texts or about objects that are kept.
function questions(semver) {
  const kept = versions.map((it) => new semver.SemVer(it));
  const keptRanges = ranges.map((it) => new semver.Range(it));
  const next = (at) => (at + 1) % COUNT;
  return {
    "valid": (at) => semver.valid(versions[at]),
    "new SemVer": (at) => new semver.SemVer(versions[at]),
    "new Range": (at) => new semver.Range(ranges[at]),
    "compare, texts": (at) => semver.compare(versions[at], versions[next(at)]),
    "compare, kept": (at) => kept[at].compare(kept[next(at)]),
    "satisfies, texts": (at) => semver.satisfies(versions[at], ranges[at]),
    "satisfies, kept range": (at) => semver.satisfies(versions[at], keptRanges[at % 20]),
    "satisfies, both kept": (at) => keptRanges[at % 20].test(kept[at]),
    "inc": (at) => semver.inc(versions[at], "minor"),
    "diff": (at) => semver.diff(versions[at], versions[next(at)]),
    "minVersion": (at) => semver.minVersion(ranges[at]),
    "intersects": (at) => semver.intersects(ranges[at], ranges[next(at)]),
    "subset": (at) => semver.subset(ranges[at], ranges[next(at)]),
  };
}

function time(question) {
  const begun = process.cpuUsage();
  for (let at = 0; at < COUNT; at++) question(at);
  const { user, system } = process.cpuUsage(begun);
  return ((user + system) * 1000) / COUNT;
}

const [mine, theirs] = libraries.map(questions);
for (const name of Object.keys(mine)) {
  const best = [Infinity, Infinity];
  for (let round = 0; round < ROUNDS; round++) [mine, theirs].forEach((it, at) => (best[at] = Math.min(best[at], time(it[name]))));
  console.log([name, ...best.map(Math.round)].join("\t"));
}
