// Why a text is rejected, and why a range does not accept a version, in words: for the page, and
// for the Node client. `library` answers satisfies, isOutside, versionFlaw and rangeFlaw.
"use strict";

// What is wrong with a version text, by the number of the library.
const FLAWS = [
  "a mark where a number begins", "a leading zero", "a number above 9007199254740991",
  "a - is missing before a pre-release", "a digit is expected", "a dot is expected",
  "an identifier is expected", "text after a version", "longer than 256 characters",
];
const BEHIND = 7, TOO_LONG = 8;

// The place in a string that has some bytes of UTF-8 before it.
function placeOf(text, bytes) {
  const before = new TextEncoder().encode(text).slice(0, bytes);
  return new TextDecoder("utf-8", { ignoreBOM: true }).decode(before).length;
}

// What npm finds wrong with a version text, and the part of the text; null if npm reads it.
function wrongVersion(library, text) {
  const found = library.versionFlaw(text);
  if (found === null) return null;
  const [kind, at] = found, start = kind === TOO_LONG ? 0 : placeOf(text, at);
  const end = kind === BEHIND || kind === TOO_LONG ? text.length : start;
  return { reason: FLAWS[kind], text, start, end };
}

// What npm finds wrong with a range text, and the part of the text; null if npm reads it.
function wrongRange(library, text, pre) {
  const found = library.rangeFlaw(text, pre);
  if (found === null) return null;
  const [start, end] = found.map((it) => placeOf(text, it));
  return { reason: "malformed word", text, start, end };
}

// Why a range does not accept a version, which npm reads both; null if it does.
function notAccepted(library, range, version, pre) {
  if (library.satisfies(range, version, pre)) return null;
  if (!pre && library.satisfies(range, version, true)) {
    return "a pre-release, and no bound is one of the same three numbers";
  }
  if (library.isOutside(range, version, true, pre)) return "above the range";
  if (library.isOutside(range, version, false, pre)) return "below the range";
  return "between its intervals";
}

if (typeof module !== "undefined") module.exports = { notAccepted, wrongRange, wrongVersion };
