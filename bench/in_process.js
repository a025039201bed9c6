// Nanoseconds of processor time a call of node-semver, as bench/in_process.c says: node in_process.js FOLDER CALL FILE
"use strict";
const semver = require(process.argv[2]);
const lines = require("fs").readFileSync(process.argv[4], "utf8").split("\n").slice(0, -1).map((line) => line.split(";").slice(1));
const ROUNDS = 5;

function each([text, ...versions]) {
  const range = new semver.Range(text);
  return versions.reduce((sum, version) => sum + range.test(version), 0);
}

const calls = {
  compare: ([one, other]) => semver.compare(one, other),
  diff: ([one, other]) => semver.diff(one, other) !== null,
  satisfies: ([range, version]) => semver.satisfies(version, range),
  outside: ([range, version, side]) => semver.outside(version, range, side),
  intersects: ([one, other]) => semver.intersects(one, other),
  inc: ([version, word]) => semver.inc(version, word).length,
  version: ([version]) => semver.valid(version).length,
  range: ([range]) => new semver.Range(range).range.length,
  minVersion: ([range]) => (semver.minVersion(range)?.version ?? "").length,
  subset: ([one, other]) => semver.subset(one, other),
  each,
  max: ([range, ...versions]) => semver.maxSatisfying(versions, range) !== null,
  sort: ([, ...versions]) => semver.sort(versions).length > 0,
};

const ask = calls[process.argv[3]];
const count = ["each", "max", "sort"].includes(process.argv[3]) ? lines.reduce((sum, line) => sum + line.length - 1, 0) : lines.length;
let [best, sum] = [Infinity, 0];
for (let round = 0; round < ROUNDS; round++) {
  const began = process.cpuUsage();
  sum = lines.reduce((so_far, line) => so_far + Number(ask(line)), 0);
  const took = process.cpuUsage(began);
  best = Math.min(best, ((took.user + took.system) * 1000) / count);
}
console.log(best.toFixed(1), sum);
