// Answers each line, a question as JSON, by a line of JSON, and writes the answers at an empty line at the latest. bench/npm_readings runs it
// with the folder of a package `semver` as its argument.
const semver = require(process.argv[2]);
Error.stackTraceLimit = 0;
const print = (v, build = v && v.build) => v ? v.version + (build.length ? '+' + build.join('.') : '') : null;
// What the library has of an identifier of a build: the value of a number below 2^64, and else the text.
const byValue = id => /^\d+$/.test(id) && BigInt(id) < 2n ** 64n ? String(BigInt(id)) : id;
const kept = new Map();
function version(text, options) {
  const key = text + (options.loose ? ' l' : '') + (options.includePrerelease ? ' p' : '');
  let found = kept.get(key);
  if (found === undefined) {
    if (kept.size > 400000) kept.clear();
    kept.set(key, found = new semver.SemVer(text, options));
  }
  return found;
}
function accepted(text, options, versions) {
  let range;
  try { range = new semver.Range(text, options); } catch { return '-'; }
  try { return versions.map(v => range.test(version(v, options)) ? '1' : '0').join(''); } catch { return 'throws'; }
}
function coerced(text, options) {
  const found = semver.coerce(text, options);
  return semver.valid(found ? found.version : text);
}
const ANSWERS = {
  range: (loose, text, versions) => [false, true].map(includePrerelease => accepted(text, {loose, includePrerelease}, versions)),
  least: text => { try { return print(semver.minVersion(text)); } catch { return '-'; } },
  satisfies: (text, version, includePrerelease) => semver.satisfies(version, text, {includePrerelease}),
  meet: (one, other) => { try { return semver.intersects(one, other); } catch { return '-'; } },
  version: text => print(semver.parse(text)),
  printed: text => { const v = semver.parse(text); return print(v, v && v.build.map(byValue)); },
  order: (one, other) => { try { return semver.compare(one, other); } catch { return '-'; } },
  coerce: (loose, rtl, includePrerelease, texts) =>
    texts.map(text => coerced(text, {loose, rtl, includePrerelease})).filter(v => v).sort(semver.compare),
};
let told = [];
const lines = require('readline').createInterface({input: process.stdin});
lines.on('line', line => {
  if (line !== '') {
    const [name, ...given] = JSON.parse(line);
    told.push(JSON.stringify(ANSWERS[name](...given)) + '\n');
  }
  if (line === '' || told.length === 500) { process.stdout.write(told.join('')); told = []; }
});
