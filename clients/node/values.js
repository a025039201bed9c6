// What versions, comparators and ranges have in common.
"use strict";
const { addon } = require("./opened.js");

const EMPTY = Object.freeze({});
const LOOSE = Object.freeze({ loose: true });

// Options may be a boolean, which is `loose`.
function optionsOf(given) {
  if (!given) return EMPTY;
  return typeof given === "object" ? given : LOOSE;
}

// A value with the options that it was made with.
class WithOptions {
  constructor(given) {
    this.options = optionsOf(given);
    this.loose = Boolean(this.options.loose);
    this.includePrerelease = Boolean(this.options.includePrerelease);
  }

  hasOptionsOf(other) {
    return this.loose === other.loose && this.includePrerelease === other.includePrerelease;
  }
}

const isLoose = (options) => Boolean(optionsOf(options).loose);

// What is asked about a version or a range: its text.
function textOf(it) {
  if (it === null || typeof it !== "object") return it;
  return typeof it.version === "string" ? it.version : it.raw;
}

// There is no next version.
class NoNext extends Error {}

// The answer of a question, or null where a value is rejected. Without the addon, or without
// memory, it throws.
function orNull(question) {
  addon();
  try {
    return question();
  } catch (error) {
    if (error instanceof TypeError || error instanceof NoNext) return null;
    throw error;
  }
}

module.exports = { NoNext, WithOptions, isLoose, optionsOf, orNull, textOf };
