// The library as WebAssembly, called with texts: npm's versions and ranges on the page, and all of them in node.
"use strict";

// The readings. Some functions have one, and take none.
const NPM = 1, LENIENT = 0, WITHOUT = null;
const STATUS = ["ok", "nothing", "too small", "not UTF-8", "no version", "no range", "no argument", "no identifier", "no pre-release", "a number is too great", "out of memory", "too long"];
const OK = 0, NOTHING = 1, TOO_SMALL = 2;

// Why a call has no answer.
class Refused extends Error {
  constructor(status) {
    super(STATUS[status]);
    this.status = status;
  }
}

class Library {
  constructor(exports) {
    this.library = exports;
    this.answer = exports.malloc(64n);
    this.room = 4096n;
    this.written = exports.malloc(this.room);
  }

  // The memory moves when it grows.
  bytes() {
    return new Uint8Array(this.library.memory.buffer);
  }

  numbers(at, count) {
    return new BigUint64Array(this.library.memory.buffer, Number(at), count);
  }

  // Puts texts into the memory for a call, each as its place and its length, and frees them after it.
  with(texts, call) {
    const blocks = [];
    try {
      for (const it of texts) {
        const encoded = new TextEncoder().encode(it), at = this.library.malloc(BigInt(encoded.length || 1));
        if (at === 0n) throw new Error("out of memory");
        blocks.push([at, BigInt(encoded.length)]);
        this.bytes().set(encoded, Number(at));
      }
      return call(blocks);
    } finally {
      blocks.forEach(([at]) => this.library.free(at));
    }
  }

  ask(name, reading, texts, ...others) {
    const first = reading === WITHOUT ? [] : [reading];
    const call = (blocks) => this.library[`nodejs_semver_${name}`](...first, ...blocks.flat(), ...others);
    return this.with(texts, call);
  }

  // Whether a call has an answer. What is wrong with the texts is an error.
  isAnswered(name, reading, texts, ...others) {
    const status = this.ask(name, reading, texts, ...others);
    if (status !== OK && status !== NOTHING) throw new Refused(status);
    return status === OK;
  }

  // The text that a call writes, or null where there is nothing.
  text(name, reading, texts, ...others) {
    const call = () => this.ask(name, reading, texts, ...others, this.written, this.room, this.answer);
    let status = call();
    if (status === TOO_SMALL) {
      this.library.free(this.written);
      this.room = this.numbers(this.answer, 1)[0];
      this.written = this.library.malloc(this.room);
      status = call();
    }
    if (status === NOTHING) return null;
    if (status !== OK) throw new Refused(status);
    const from = Number(this.written);
    return new TextDecoder().decode(this.bytes().slice(from, from + Number(this.numbers(this.answer, 1)[0])));
  }

  // A number of 32 bits, or null.
  number(name, reading, texts) {
    return this.isAnswered(name, reading, texts, this.answer) ? new Int32Array(this.library.memory.buffer, Number(this.answer), 1)[0] : null;
  }

  flag(name, reading, texts, ...flags) {
    return this.isAnswered(name, reading, texts, ...flags.map(Number), this.answer) ? this.bytes()[Number(this.answer)] === 1 : null;
  }

  satisfies(range, version, pre) {
    return this.flag("range_satisfies", NPM, [range, version], pre);
  }

  isOutside(range, version, above, pre) {
    return this.flag("range_outside", NPM, [range, version], above, pre);
  }

  compare(one, other) {
    return this.number("version_compare", NPM, [one, other]);
  }

  // What npm's reading finds wrong with a version text: the kind and the byte, or null.
  versionFlaw(text) {
    const places = [this.answer, this.answer + 8n];
    if (!this.isAnswered("version_npm_flaw", WITHOUT, [text], ...places)) return null;
    const [kind, place] = this.numbers(this.answer, 2);
    return [Number(kind & 0xffffffffn), Number(place)];
  }

  // The bytes of the first word that npm's reading finds wrong in a range text, or null.
  rangeFlaw(text, pre) {
    const asked = [WITHOUT, [text], Number(pre), this.answer];
    if (!this.isAnswered("range_npm_flaw", ...asked)) return null;
    return Array.from(this.numbers(this.answer, 4), Number).slice(2);
  }
}

async function openLibrary(base64) {
  const bytes = Uint8Array.from(atob(base64), (it) => it.charCodeAt(0));
  const { instance } = await WebAssembly.instantiate(bytes, {});
  return new Library(instance.exports);
}

if (typeof module !== "undefined") module.exports = { Library, LENIENT, NPM, Refused, WITHOUT };
