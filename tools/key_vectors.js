#!/usr/bin/env node
// Reads crates/core_tests/data/keys.txt: reads each key back by the table of docs/KEYS.md, and compares each two keys and their versions.
const fs = require('fs'), path = require('path');
const rows = fs.readFileSync(path.join(__dirname, '../crates/core_tests/data/keys.txt'), 'utf8').trim().split('\n')
  .map((row) => row.split('\t')).map(([version, hex]) => ({ version: version.split('+')[0], key: Buffer.from(hex, 'hex') }));
function read(key) {
  let at = 0;
  const size = { 251: 2, 252: 4, 253: 8 };
  const number = () => {
    const wide = size[key[at++]];
    return wide ? BigInt('0x' + key.subarray(at, at += wide).toString('hex')) : BigInt(key[at - 1]);
  };
  const text = () => { const end = key.indexOf(0, at), found = key.subarray(at, end).toString(); at = end + 1; return found; };
  const numbers = [number(), number(), number()].join('.'), ids = [];
  if (key[at] === 3) return at + 1 === key.length ? numbers : null;
  while (key[at] !== 0) ids.push(key[at++] === 1 ? number() : text());
  return at + 1 === key.length ? numbers + '-' + ids.join('.') : null;
}
const parts = (v) => { const at = (v + '-').indexOf('-'); return [v.slice(0, at).split('.'), v.length > at ? v.slice(at + 1).split('.') : []]; };
const isNumber = (id) => /^\d+$/.test(id) && BigInt(id) < 1n << 64n;
const ofNumbers = (a, b) => (BigInt(a) < BigInt(b) ? -1 : BigInt(a) > BigInt(b) ? 1 : 0);
function ofIds(a, b) {
  if (isNumber(a) && isNumber(b)) return ofNumbers(a, b);
  return isNumber(a) ? -1 : isNumber(b) ? 1 : a < b ? -1 : a > b ? 1 : 0;
}
function compare(v, w) {
  const [[a, p], [b, q]] = [parts(v), parts(w)];
  const first = a.map((n, i) => ofNumbers(n, b[i])).find((order) => order) || (p.length === 0) - (q.length === 0);
  return first || p.slice(0, q.length).map((id, i) => ofIds(id, q[i])).find((order) => order) || Math.sign(p.length - q.length);
}
const wrong = rows.filter(({ version, key }) => read(key) !== version).map(({ version }) => version);
for (const v of rows) for (const w of rows) if (Buffer.compare(v.key, w.key) !== compare(v.version, w.version)) wrong.push(v.version + ' ' + w.version);
if (rows.length < 60 || wrong.length) { console.error('wrong: ' + wrong.join(', ')); process.exit(1); }
console.log(rows.length + ' keys agree');
