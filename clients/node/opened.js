// Where the addon is: beside this file, or the module of WebAssembly where the addon is of another
// system. NODEJS_SEMVER_ADDON may have the path of either.
"use strict";
const fs = require("fs");
const path = require("path");

const BESIDE = path.join(__dirname, "nodejs_semver.node");
const MODULE = path.join(__dirname, "nodejs_semver.wasm");

function opened(from) {
  if (!from.endsWith(".wasm")) return require(from);
  return require("./module.js").open(path.resolve(__dirname, from));
}

function beside() {
  try {
    return opened(BESIDE);
  } catch (error) {
    if (!fs.existsSync(MODULE)) throw error;
    return opened(MODULE);
  }
}

const given = process.env.NODEJS_SEMVER_ADDON;
let found = null;

// The addon. It is opened when the first question is asked.
const addon = () => (found ??= given ? opened(path.resolve(given)) : beside());

module.exports = { addon, beside, opened };
