// The page: it asks the library at each change, and shows what it answers.
"use strict";

const field = (id) => document.getElementById(id);
const LEFT = 96, ROW = 26;

function element(name, attributes, ...children) {
  const space = ["svg", "rect", "text", "line", "circle", "title"].includes(name) ? "http://www.w3.org/2000/svg" : "http://www.w3.org/1999/xhtml";
  const made = document.createElementNS(space, name);
  Object.entries(attributes).forEach(([key, value]) => made.setAttribute(key, value));
  made.append(...children);
  return made;
}

// The intervals of a range in its normal form: each bound with its version, and whether it belongs to the interval.
function intervalsOf(normal) {
  return normal.split("||").map((part) => {
    const found = { lower: null, upper: null };
    for (const [, sign, version] of part.trim().matchAll(/(>=|<=|>|<|)([^\s<>=]+)/g)) {
      if (version === "*") continue;
      if (sign.startsWith(">") || !sign) found.lower = { version, holds: sign !== ">" };
      if (sign.startsWith("<") || !sign) found.upper = { version, holds: sign !== "<" };
    }
    return found;
  });
}

// The versions of all bounds, in their order.
function marksOf(library, ranges) {
  const all = ranges.flat().flatMap((it) => [it.lower, it.upper]).filter(Boolean).map((it) => it.version);
  return [...new Set(all)].sort((one, other) => library.compare(one, other));
}

// The picture of some ranges, as wide as its place.
function drawn(library, rows) {
  const WIDTH = Math.max(field("drawn").clientWidth, 320);
  const marks = marksOf(library, rows.map((it) => it.intervals));
  const step = (WIDTH - LEFT - 40) / (marks.length + 1 || 1);
  const at = (version) => LEFT + step * (marks.findIndex((it) => library.compare(it, version) === 0) + 1);
  const height = ROW * rows.length + 40, isClose = step < 90;
  const picture = element("svg", { viewBox: `0 0 ${WIDTH} ${height}`, role: "img", "aria-label": "the ranges as intervals" });
  marks.forEach((it, index) => {
    const x = at(it), lower = index % 2 === 1 && isClose;
    picture.append(element("line", { x1: x, x2: x, y1: 0, y2: height - 34, stroke: "#8886" }));
    picture.append(element("text", { x, y: height - (lower ? 4 : 20), "text-anchor": "middle" }, it));
  });
  rows.forEach(({ name, intervals, colour }, index) => {
    const y = ROW * index + 6;
    picture.append(element("text", { x: 0, y: y + 11 }, name));
    for (const { lower, upper } of intervals) {
      const from = lower ? at(lower.version) : LEFT, to = upper ? at(upper.version) : WIDTH - 10;
      picture.append(element("rect", { x: from, y, width: Math.max(to - from, 3), height: 12, rx: 3, fill: colour, "fill-opacity": 0.75 }));
      for (const [bound, x] of [[lower, from], [upper, to]]) {
        if (bound) picture.append(element("circle", { cx: x, cy: y + 6, r: 5, stroke: colour, "stroke-width": 2, fill: bound.holds ? colour : "Canvas" }));
      }
    }
  });
  return picture;
}

// The number of the character where a part of a text begins.
const placeIn = ({ text, start }) => [...text.slice(0, start)].length + 1;

// A text with the part marked that is wrong. Where something is missing the mark is empty.
function marked({ text, start, end }) {
  const [before, part, behind] = [text.slice(0, start), text.slice(start, end), text.slice(end)];
  return element("code", {}, before, element("mark", {}, part), behind);
}

// Reads a range, and says beside its field how it is read, or what is wrong and where. Returns its
// normal form, or null.
function read(library, id, pre) {
  const said = field(`${id}-said`), text = field(id).value;
  const wrong = wrongRange(library, text, false) ?? wrongRange(library, text, pre);
  said.className = wrong === null ? "faint" : "wrong";
  field(id).setAttribute("aria-invalid", String(wrong !== null));
  if (wrong !== null) {
    const words = `npm rejects this text: ${wrong.reason}, from character ${placeIn(wrong)} on: `;
    said.replaceChildren(words, marked(wrong));
    return null;
  }
  const normal = library.text("range_print", NPM, [text]);
  said.textContent = normal === text ? "" : `read as ${normal}`;
  return normal;
}

// The row of a version: what each range says of it, or what is wrong with it and where.
function rowOf(library, version, ranges, pre) {
  const wrong = wrongVersion(library, version);
  if (wrong !== null) {
    const words = `no version: ${wrong.reason}, at character ${placeIn(wrong)}`;
    const said = element("td", { class: "no", colspan: 2 }, words);
    return element("tr", {}, element("td", {}, marked(wrong)), said);
  }
  const cell = ([text, normal]) => {
    if (normal === null) return element("td", {}, "");
    const reason = notAccepted(library, text, version, pre);
    return element("td", { class: reason === null ? "yes" : "no" }, reason ?? "accepted");
  };
  return element("tr", {}, element("td", {}, version), ...ranges.map(cell));
}

function show(library) {
  const pre = field("pre").checked;
  const [range, other] = ["range", "other"].map((it) => read(library, it, pre));
  const texts = [field("range").value, field("other").value];
  const together = (name) => (range === null || other === null ? null : library.text(name, NPM, texts));
  const both = together("range_intersect"), alone = together("range_difference");
  const rows = [["range", range, "#2563eb"], ["second range", other, "#b45309"], ["both", both, "#1a7f37"], ["first alone", alone, "#7c3aed"]];
  const shown = rows.filter(([, normal]) => normal !== null).map(([name, normal, colour]) => ({ name, colour, intervals: intervalsOf(normal) }));
  field("drawn").replaceChildren(drawn(library, shown));
  const versions = field("versions").value.split("\n").map((it) => it.trim()).filter(Boolean);
  const ranges = [[texts[0], range], [texts[1], other]];
  field("rows").replaceChildren(...versions.map((it) => rowOf(library, it, ranges, pre)));
  const answer = (normal) => (range === null || other === null ? "" : normal ?? "nothing");
  field("both").textContent = answer(both);
  field("alone").textContent = answer(alone);
  field("least").textContent = range === null ? "" : library.text("range_min_version", NPM, [texts[0]]) ?? "none: no version satisfies it";
  let lenient = "rejected";
  try {
    lenient = library.text("range_print", LENIENT, [texts[0]]);
  } catch (error) {
    lenient = error.message;
  }
  field("lenient").textContent = lenient;
}

async function begin() {
  try {
    const library = await openLibrary(NODEJS_SEMVER_WASM);
    const change = () => show(library);
    document.querySelector("form").addEventListener("input", change);
    addEventListener("resize", change);
    change();
  } catch (error) {
    field("trouble").textContent = `This browser has no WebAssembly with 64-bit memory, which the library needs (${error.message}). Chromium has it from version 133 on.`;
  }
}

begin();
