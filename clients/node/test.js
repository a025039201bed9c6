// The test of the Node client: node test.js ADDON. `beside.js` compares it with node-semver.
"use strict";
const assert = require("assert");
const { spawnSync } = require("child_process");
const fs = require("fs");
const path = require("path");
process.env.NODEJS_SEMVER_ADDON = path.resolve(process.argv[2]);
const client = require("./index.js");
const sets = require("./sets.js");
const semver = client.load(path.resolve(process.argv[2]));

assert.deepStrictEqual([semver.compare("1.2.3-a", "1.2.3"), semver.compare("1.2.3+x", "v1.2.3"), semver.compare("2.0.0", "1.2.3")], [-1, 0, 1]);
assert.strictEqual(semver.satisfies("1.9.0", "^1.2.3"), true);
assert.strictEqual(semver.satisfies("1.3.0-beta", "^1.2.3"), false);
assert.strictEqual(semver.satisfies("1.3.0-beta", "^1.2.3", { includePrerelease: true }), true);
assert.strictEqual(semver.inc("1.2.3", "prerelease", "beta"), "1.2.4-beta.0");
assert.strictEqual(semver.inc("1.2.3", "minor"), "1.3.0");
assert.strictEqual(semver.intersect("^1.2.3", "<1.5.0"), ">=1.2.3 <1.5.0");
assert.strictEqual(semver.intersect("^1", "^2"), null);
assert.strictEqual(semver.subtract("^1.2", "1.5.0"), ">=1.2.0 <1.5.0||>1.5.0 <2.0.0-0");
assert.strictEqual(semver.minVersion(">1.0.0 <1.0.1-5"), "1.0.1-0");
assert.strictEqual(semver.maxSatisfying(["1.2.0", "1.4.0", "2.0.0", "1.3.0"], "^1"), "1.4.0");
const long = Array.from({ length: 90 }, (_, n) => `1.0.${n}`);
assert.strictEqual(semver.intersect(long.join(" || "), ">=1.0.0"), long.join("||"));
assert.throws(() => semver.satisfies("1.9.0", "latest"), /bad range/);
assert.throws(() => semver.compare("1.2", "1.2.3"), /bad version/);
assert.throws(() => semver.inc("1.2.3", "sideways"), /bad argument/);
assert.throws(() => semver.compare(1, "1.2.3"), TypeError);
for (const wrong of [null, undefined, 5, [], {}, Buffer.from("1.2.3")]) {
  for (const call of [
    () => semver.compare(wrong, "1.2.3"), () => semver.compare("1.2.3", wrong), () => semver.satisfies(wrong, "^1"), () => semver.satisfies("1.2.3", wrong),
    () => semver.inc(wrong, "patch"), () => semver.inc("1.2.3", wrong), () => semver.intersect(wrong, "^1"), () => semver.intersect("^1", wrong),
    () => semver.subtract(wrong, "^1"), () => semver.subtract("^1", wrong), () => semver.minVersion(wrong), () => semver.maxSatisfying([wrong], "^1"),
    () => semver.maxSatisfying(["1.2.3"], wrong),
  ])
    assert.throws(call, TypeError);
}
assert.throws(() => semver.inc("1.2.3", "prerelease", null), TypeError);
assert.throws(() => semver.satisfies("1.9.0", ">=1.0.0, <2.0.0"), /bad range/);
assert.strictEqual(semver.satisfies("1.0.0-a", "1.x", { includePrerelease: true }), true);
assert.strictEqual(semver.satisfies("1.0.0-a", "1.x", { includePrerelease: 1 }), true);

// ---- As node-semver

assert.strictEqual(client.satisfies("1.9.0", "^1.2.3"), true);
assert.strictEqual(client.satisfies("1.9.0", "latest"), false);
assert.strictEqual(client.maxSatisfying(["1.2.0", "oops", "1.4.0+a", "1.4.0+b"], "^1"), "1.4.0+a");
assert.deepStrictEqual(client.sort(["1.0.0+b", "1.0.0-a", "1.0.0+a"]), ["1.0.0-a", "1.0.0+a", "1.0.0+b"]);
const version = new client.SemVer("v1.2.3-rc.4+001");
assert.deepStrictEqual([version.major, version.minor, version.patch, version.prerelease, version.build], [1, 2, 3, ["rc", 4], ["001"]]);
assert.deepStrictEqual([version.version, `${version}`, version.raw], ["1.2.3-rc.4", "1.2.3-rc.4", "v1.2.3-rc.4+001"]);
assert.strictEqual(version.inc("prerelease", "rc").version, "1.2.3-rc.5");
assert.strictEqual(new client.SemVer("9007199254740991.0.0").inc("major").version, "9007199254740992.0.0");
assert.deepStrictEqual([version.compare("1.2.3"), version.compareMain("1.2.3"), version.comparePre("1.2.3-rc.5")], [-1, 0, 0]);
assert.strictEqual(new client.SemVer("1.0.0+a").compareBuild("2.0.0+b"), -1);
const range = new client.Range("^1.2 || >=3");
assert.deepStrictEqual([range.test(version), range.test("3.5.0"), `${range}`], [false, true, ">=1.2.0 <2.0.0-0||>=3.0.0"]);
assert.strictEqual(range.intersects(new client.Range("<1.3")), true);
assert.strictEqual(new client.Range("^1", { includePrerelease: true }).test("1.5.0-a"), true);
assert.throws(() => new client.SemVer("1.2"), /Invalid Version: 1.2/);
assert.throws(() => new client.Range("latest"), /Invalid SemVer Range: latest/);

// The numbers of a version may be changed, and a build stays behind inc.
const bumped = new client.SemVer("1.2.3-a+b");
bumped.patch += 1;
assert.deepStrictEqual([bumped.format(), bumped.inc("minor").raw], ["1.2.4-a", "1.3.0+b"]);
assert.strictEqual(new client.SemVer("1.0.0", { loose: true }).options.loose, true);

// ---- Read loosely

const loose = { loose: true };
const longest = `1.2.3${"b".repeat(251)}`;
assert.deepStrictEqual(["=v1.2.3", "01.2.3", "1.2.3beta", "1.2.3-01", "1.2"].map((it) => client.valid(it, loose)), ["1.2.3", "1.2.3", "1.2.3-beta", "1.2.3-1", null]);
assert.deepStrictEqual([client.valid("01.2.3", true), client.valid("01.2.3"), client.valid("01.2.3", {})], ["1.2.3", null, null]);
assert.deepStrictEqual([client.clean(" =v1.2.3beta ", loose), client.clean(" =v1.2.3beta ")], ["1.2.3-beta", null]);
assert.throws(() => client.clean(5, loose), TypeError);
assert.deepStrictEqual([client.compareLoose("=1.2.3", "01.2.3"), client.compare("1.2.3beta", "1.2.3", loose), client.lt("1.2.3beta", "1.2.3", true)], [0, -1, true]);
assert.throws(() => client.compare("1.2.3beta", "1.2.3"), TypeError);
assert.throws(() => client.diff("1.2.3beta", "1.2.3"), TypeError);
assert.deepStrictEqual([client.major("01.2.3", true), client.inc("1.2.3beta", "patch", loose), client.inc("1.2.3beta", "patch")], [1, "1.2.3", null]);
assert.deepStrictEqual(client.prerelease("1.2.3-01.b", loose), [1, "b"]);
assert.deepStrictEqual(client.sort(["1.2.3", "1.2.3beta", "01.0.0"], true), ["01.0.0", "1.2.3beta", "1.2.3"]);
assert.strictEqual(client.cmp("=1.2.3", "==", "1.2.3", loose), true);
assert.deepStrictEqual([client.satisfies("1.2.3", ">=01.2 foo", loose), client.satisfies("1.2.3", ">=01.2 foo")], [true, false]);
assert.deepStrictEqual([client.validRange("1 foo || bar", loose), client.validRange("foo", loose), client.validRange("1 foo")], [">=1.0.0 <2.0.0-0", null, null]);
assert.deepStrictEqual([client.maxSatisfying(["1.2.3beta", "1.2.2"], ">=1.2.3-a", loose), client.maxSatisfying(["1.2.3beta", "1.2.2"], ">=1.2.3-a")], ["1.2.3beta", null]);
assert.deepStrictEqual([client.minVersion("^1.2.3beta", loose).version, client.subset("=1.2.3", "^01.2", loose)], ["1.2.3-beta", true]);
assert.deepStrictEqual([client.gtr("2.0.0beta", "^01", true), client.intersects("^01.2", "1.5 foo", loose)], [true, true]);
const { raw, options, set } = new client.Range(">=01.2 foo", loose);
assert.deepStrictEqual([raw, options, set.map((it) => it.map(String))], [">=01.2 foo", loose, [[">=1.2.0"]]]);
assert.strictEqual(new client.Comparator(">=v1.2.3beta", true).value, ">=1.2.3-beta");
assert.strictEqual(new client.Range("^01", loose).intersects(new client.Range("1.5")), true);
assert.deepStrictEqual([new client.SemVer("1.2.3beta", true).compare("1.2.3"), new client.SemVer(longest, true).version.length], [-1, 257]);
assert.throws(() => new client.SemVer(longest, true).compare("1.2.3-a"), TypeError);
assert.throws(() => new client.SemVer("1.2.3", true).compareBuild("x"), TypeError);

// ---- Comparators

const { Comparator } = client;
const comparator = new Comparator(">=  v1.2.3+b");
assert.deepStrictEqual([comparator.operator, comparator.value, `${comparator}`], [">=", ">=1.2.3", ">=1.2.3"]);
assert.deepStrictEqual([comparator.semver.version, comparator.semver.raw], ["1.2.3", "v1.2.3+b"]);
assert.deepStrictEqual(["2.0.0-a", "1.2.3", "1.2.2", "x"].map((it) => comparator.test(it)), [true, true, false, false]);
assert.deepStrictEqual([new Comparator("=1.2.3").operator, new Comparator("").value], ["", ""]);
assert.strictEqual(new Comparator("").semver, Comparator.ANY);
assert.deepStrictEqual([new Comparator("").test("x"), comparator.test(Comparator.ANY)], [true, true]);
assert.strictEqual(new Comparator(comparator), comparator);
for (const text of ["1.2", ">", "=>1.2.3", "==1.2.3", ">1.2.3 <2.0.0", "^1.2.3", null])
  assert.throws(() => new Comparator(text), { name: "TypeError", message: `Invalid comparator: ${text}` });
const meets = (one, two, options) => new Comparator(one).intersects(new Comparator(two), options);
assert.deepStrictEqual([meets(">1.2.3", "<=1.3.0"), meets(">1.2.3", "<1.2.3"), meets("1.2.3", ">=1.2.3")], [true, false, true]);
assert.deepStrictEqual([meets("1.2.3-a", ">1.0.0"), meets("1.2.3-a", ">1.0.0", { includePrerelease: true })], [false, true]);
assert.throws(() => comparator.intersects(">1.0.0"), TypeError);

const values = (text, options) => new client.Range(text, options).set.map((it) => it.map(String));
assert.deepStrictEqual(values("^1.2 || 3.0.0"), [[">=1.2.0", "<2.0.0-0"], ["3.0.0"]]);
assert.deepStrictEqual([values("*"), `${new client.Range("*")}`, client.validRange("*")], [[[""]], "", "*"]);
assert.deepStrictEqual(values("^1.2", { includePrerelease: true }), [[">=1.2.0-0", "<2.0.0-0"]]);
const many = Array.from({ length: 90 }, (_, nth) => `~1.${2 * nth}.0-alpha.${nth}`).join(" || ");
assert.strictEqual(new client.Range(many, { includePrerelease: true }).set.length, 90);
assert.strictEqual(`${new client.Range(comparator)}`, ">=1.2.3");
assert.strictEqual(client.satisfies("1.5.0-a", new client.Range("^1", { includePrerelease: true })), false);

// ---- Ranges as sets

const pre = { includePrerelease: true };
assert.deepStrictEqual([sets.subset(">=1 <3", "1 || 2"), sets.subset("1.0.3-a <10", "<3")], [true, false]);
assert.deepStrictEqual([sets.subset("^1.2.0", "^1", pre), sets.subset("^1", "^1.2.0", pre)], [true, false]);
assert.deepStrictEqual([sets.intersects("<0", "<1"), sets.intersects("1.0.0-a", ">=0.9.0 <1.0.0-b")], [false, true]);
assert.deepStrictEqual([sets.intersects(">1.2.3", "<1.2.4"), sets.intersects(">1.2.3", "<1.2.4", pre)], [false, true]);
assert.deepStrictEqual([sets.minVersion(">1.0.0 <1.0.1-b"), sets.minVersion(">1.0.0", pre), sets.minVersion("<0")], ["1.0.1-0", "1.0.1-0", null]);
// Of a union each alternative stays, also beside any version.
const accepts = (text, options) => (it) => client.satisfies(it, text, options);
assert.deepStrictEqual(["1.0.0", "2.9.0", "3.0.0", "1.2.0-a"].map(accepts(sets.union("^1", "^2"))), [true, true, false, false]);
assert.deepStrictEqual(["0.0.0", "9.0.0", "1.0.0-b", "1.0.1-b"].map(accepts(sets.union("*", ">=1.0.0-a"))), [true, true, true, false]);
assert.deepStrictEqual(["1.0.0-a", "2.9.0-a", "3.0.0-a"].map(accepts(sets.union("^1", "^2", pre), pre)), [true, true, false]);
assert.deepStrictEqual(["0.0.0-a", "0.0.0"].map(accepts(sets.union(">=0.0.0", "^2", pre), pre)), [false, true]);
assert.deepStrictEqual([sets.intersect("^1.2", "<1.5.0"), sets.intersect("^1", "^2")], [">=1.2.0 <1.5.0", null]);
assert.deepStrictEqual([sets.difference("^1.2", "1.5.0"), sets.difference("^1.2", "*")], [">=1.2.0 <1.5.0||>1.5.0 <2.0.0-0", null]);
assert.strictEqual(sets.subset(new client.Range("^1.2"), comparator), false);
assert.throws(() => sets.union(new client.Range("^1", pre), "^2"), TypeError);
assert.throws(() => sets.subset("latest", "^1"), TypeError);
for (const [version, range, reason, start, end] of [
  ["1.2.2", "^1.2.3", "below the range", 0, 5],
  ["2.0.0", "^1.2.3", "above the range", 0, 5],
  ["2.0.0", "1 || 3", "between its intervals", 0, 5],
  ["1.3.0-beta", "^1.2.3", "a pre-release, and no bound is one of the same three numbers", 0, 10],
  ["1.x", "^1", "a digit is expected", 2, 2],
  ["1.02.3", "^1", "a leading zero", 3, 3],
  ["1.2.3.4", "^1", "text after a version", 5, 7],
  ["1.2.3", ">=1, <2", "malformed word", 0, 4],
  ["1.2.3", "^1 || \u00e9\u{1f600} 2 || x y", "malformed word", 6, 9],
])
  assert.deepStrictEqual(sets.why(version, range), { reason, text: reason === "malformed word" ? range : version, start, end });
assert.strictEqual(sets.why("1.2.3", "^1"), null);
assert.strictEqual(sets.why("1.3.0-beta", new client.Range("^1.2.3", pre)), null);

// ---- The package

// Without an addon each question says so.
const env = { ...process.env, NODEJS_SEMVER_ADDON: "no such addon" };
for (const call of ["valid('1.2.3')", "satisfies('1.2.3', '^1')", "clean('1.2.3')", "validRange('^1')"]) {
  const done = spawnSync(process.execPath, ["-e", `require("./index.js").${call}`], { cwd: __dirname, env, encoding: "utf8" });
  assert.ok(done.status === 1 && done.stderr.includes("MODULE_NOT_FOUND"), done.stderr);
}
for (const [file, library] of [["index.d.ts", client], ["sets.d.ts", sets]]) {
  const declared = fs.readFileSync(path.join(__dirname, file), "utf8").matchAll(/export (?:function|const|class) (\w+)/g);
  assert.deepStrictEqual([...new Set([...declared].map((it) => it[1]))].sort(), Object.keys(library).sort());
}
// `import` finds each name.
(async () => {
  for (const [name, library] of [["nodejs_semver", client], ["nodejs_semver/sets", sets]])
    for (const it of Object.keys(library)) assert.strictEqual((await import(name))[it], library[it], it);
  console.log("passed");
})();
