// Answers lines `cmp;VERSION;VERSION` and `sat;RANGE;VERSION` by node-semver, for `bench/lines --node FOLDER`.
const semver = require(process.argv[2]);
const ORDER = { "-1": "less", 0: "equal", 1: "greater" };

function answer(line) {
  const [command, one, other] = line.split(";");
  return command === "cmp" ? ORDER[semver.compare(one, other)] : String(semver.satisfies(other, one));
}

const lines = require("fs").readFileSync(0, "utf8").split("\n");
lines.pop();
process.stdout.write(lines.map((line) => answer(line) + "\n").join(""));
