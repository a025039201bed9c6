// npm's versions and ranges by the C library, as npm reads them. The functions and classes are
// those of node-semver. `load(path)` returns others, which are strict: each throws where a text is
// rejected.
"use strict";
const { beside, opened } = require("./opened.js");
const { version } = require("./package.json");

function load(from) {
  const addon = from === undefined ? beside() : opened(from);
  const greater = (best, it) => (best === null || addon.compare(best, it) <= 0 ? it : best);
  return {
    compare: (version, other) => addon.compare(version, other),
    satisfies: (version, range, { includePrerelease } = {}) =>
      addon.satisfies(range, version, Boolean(includePrerelease)),
    inc: (version, word, identifier = "") => addon.inc(version, word, identifier),
    intersect: (range, other) => addon.intersect(range, other),
    subtract: (range, other) => addon.subtract(range, other),
    minVersion: (range) => addon.minVersion(range),
    maxSatisfying: (versions, range) =>
      versions.filter((it) => addon.satisfies(range, it, false)).reduce(greater, null),
  };
}

module.exports = { ...require("./version.js"), ...require("./range.js"), load, version };
