"use strict";
// The design, what is shown of it, and the elements of the page. Names are only ever text.
const $ = id => document.getElementById(id);
const damaged = [];
const parsed = (id, otherwise) => {
  try {
    return JSON.parse($(id).textContent);
  } catch {
    damaged.push(id);
    return otherwise;
  }
};
const data = parsed("data", {title: "", summary: "", nevers: [], warnings: [], pads: [], forbidden: [], protected: [], lines: []});
const texts = parsed("texts", null);
const byLine = new Map(data.lines.map(l => [l.l, l]));
const words = ["cc0", "cc1", "sc0", "sc1", "co", "so"];
const titles = {cc0: "CC0, set to 0", cc1: "CC1, set to 1", sc0: "SC0, set to 0 (sequential)", sc1: "SC1, set to 1 (sequential)",
  co: "CO, see", so: "SO, see (sequential)"};
const terms = {
  hardest: "hardest fault: the dearer of CC0 and CC1, plus CO. To see a net stuck at one value, it is set to the other and seen.",
  line: "the number of the net in net.txt",
  net: "the net's name, as its netlist has it; a name that is too long is cut so that no two read alike",
  kind: "input, register, gate, constant, open line, or part of a gate that was split",
  cc0: "CC0: the cost of setting the net to 0. Each input costs its price, each gate passed adds its depth.",
  cc1: "CC1: the cost of setting the net to 1",
  sc0: "SC0: the same for 0 in clock periods, through registers alone",
  sc1: "SC1: the same for 1 in clock periods",
  co: "CO: the cost of seeing the net at an output or a pad: setting what lets it through, on the way there",
  so: "SO: the same in clock periods",
  gain: "pad gain: how far a pad here lets the CO of all nets fall together; +N: nets that nothing could see, or only for more than 999,999,999",
  touches: "touches: how many protected nets a pad here would make easier to see",
  marks: "pad: one is placed. no pad: forbidden. protected: no pad may make it easier to see. carries: the value of a protected net stands "
    + "here too. up 1r 3g: a protected net is fed from here through 1 register and 3 gates",
  feeds: "the nearest register or output that the net feeds",
  never: "never: there is no way at all, however long",
  over: "over: there is a way, but it costs more than 999,999,999",
  depth: "depth: what a gate adds to the costs of its pins, for one more level, or in sequential terms for one more clock period",
  row: "row: one way of the cell to set or to show a value, by the octal number that lib.txt has for it",
};

// Costs are figures or the words over and never, in that order.
const rank = c => c === "never" ? 2e9 : c === "over" ? 1e9 : c === null ? -1 : c;
const plus = (a, b) => a === "never" || b === "never" ? "never" : a === "over" || b === "over" || a + b >= 1e9 ? "over" : a + b;
const group = n => String(n).replace(/\B(?=(\d{3})+$)/g, ",");
const short = c => typeof c !== "number" ? (c === null ? "-" : c) : c < 1e6 ? group(c) : (c / 1e6).toFixed(c < 1e8 ? 2 : 1) + " M";
const many = (n, word) => `${group(n)} ${word}${n === 1 ? "" : "s"}`;

function make(tag, attributes, ...inner) {
  const svg = attributes && attributes.svg;
  const e = svg ? document.createElementNS("http://www.w3.org/2000/svg", tag) : document.createElement(tag);
  for (const [k, v] of Object.entries(attributes || {})) {
    if (k === "svg" || v === null || v === undefined || v === false) continue;
    if (k.startsWith("on")) e.addEventListener(k.slice(2), v);
    else e.setAttribute(k, v);
  }
  for (const x of inner) if (x !== null && x !== undefined) e.append(x);
  return e;
}
const cost = c => make("span", {class: typeof c === "string" ? c : null, title: typeof c === "number" && c >= 1e6 ? group(c) : null}, short(c));
const option = (value, told, chosen) => {
  const o = make("option", {value}, told);
  o.selected = value === chosen;
  return o;
};
// A word that is explained when it is touched.
const term = (key, told) => make("button", {class: "term", title: terms[key], onclick: e => { e.stopPropagation(); explain(key); }}, told);
function explain(key) {
  const tip = $("tip");
  if (tip) tip.textContent = tip.textContent === terms[key] ? "" : terms[key];
}

// Names are cut in the middle. Where two would then read alike, the cut shows where they differ; where that is not enough, the
// line.
const cut = (s, n) => {
  const a = Array.from(s);
  return a.length <= n ? s : a.slice(0, Math.ceil((n - 1) / 2)).join("") + "…" + a.slice(a.length - Math.floor((n - 1) / 2)).join("");
};
const labels = new Map();
function label(line, n = innerWidth < 640 ? 20 : 34) {
  if (!labels.has(n)) labels.set(n, cutAll(n));
  return labels.get(n).get(line);
}
function cutAll(n) {
  const alike = new Map(), out = new Map(), used = new Set();
  for (const l of data.lines) {
    const told = cut(l.n, n);
    if (!alike.has(told)) alike.set(told, []);
    alike.get(told).push(l);
  }
  const common = (a, b) => { let k = 0; while (k < a.length && a[k] === b[k]) k++; return k; };
  for (const [told, lines] of alike) {
    lines.sort((a, b) => a.n < b.n ? -1 : 1);
    lines.forEach((l, at) => {
      let name = told;
      if (lines.length > 1) {
        const differs = Math.max(...[lines[at - 1], lines[at + 1]].filter(x => x).map(x => common(l.n, x.n)));
        name = `${l.n.slice(0, 5)}…${l.n.slice(Math.max(5, differs - 2), differs + n - 14)}…${l.n.slice(-4)}`;
      }
      if (used.has(name)) name += "~" + l.l;
      used.add(name);
      out.set(l.l, name);
    });
  }
  return out;
}
const told = (role, line) => byLine.get(line).n + (role === 2 ? " seen" : " at " + role);
const about = l => [l.n, `line ${l.l}`, l.s].filter(x => x).join(", ");
const name = (line, n) => make("button", {class: "link", title: about(byLine.get(line)), onclick: e => { e.stopPropagation(); go({line: String(line), of: ""}); }}, label(line, n));

// What is shown lives in the fragment, so that it can be sent, and gone back to. The lists are lines with dots between; one
// that is not there is the one that the page was made with, and 'none' is an empty one.
const columns = ["hardest", "line", "net", "marks", "kind", ...words, "gain", "touches", "feeds"];
const choices = {
  only: {"": "all nets", pads: "pads", easier: "easier to see with the pad", protected: "protected", forbidden: "forbidden", carries: "carries a protected value",
    upstream: "upstream of a protected net", touches: "a pad touches protected nets", allowed: "a pad is allowed"},
  fold: {"": "nothing", buses: "buses", blocks: "blocks"},
};
const lists = {pads: "pads", forbid: "forbidden", protect: "protected"};
const state = {};
const lineOf = s => /^\d{1,5}$/.test(s) && byLine.has(Number(s)) ? s : "";
const listOf = key => state[key] === "none" ? [] : state[key] ? state[key].split(".").map(Number) : data[lists[key]].slice();
const asList = (key, lines) => String(lines) === String(data[lists[key]]) ? "" : lines.length ? lines.join(".") : "none";
// What a hand may have written: each word is one that this page would write, or it is not there.
const reads = {
  sort: s => columns.includes(s) ? s : "hardest",
  up: s => s ? "1" : "", registers: s => s ? "1" : "", all: s => s ? "1" : "", sheet: s => s ? "1" : "",
  q: s => s.slice(0, 200),
  min: s => /^\d{1,9}$/.test(s) ? s : "",
  line: lineOf,
  of: s => words.includes(s) ? s : "",
  bar: s => /^(cc0|cc1|sc0|sc1|co|so):(\d{1,3}|over|never)$/.test(s) ? s : "",
  only: s => Object.hasOwn(choices.only, s) ? s : "",
  fold: s => Object.hasOwn(choices.fold, s) ? s : "",
  pads: s => linesOf("pads", s, l => !l.base), forbid: s => linesOf("forbid", s), protect: s => linesOf("protect", s),
};
function linesOf(key, s, may = () => true) {
  if (!s) return "";
  const lines = s === "none" ? [] : [...new Set(s.split(".").map(lineOf).filter(x => x).map(Number))].filter(line => may(byLine.get(line)));
  return s !== "none" && !lines.length ? "" : asList(key, lines);
}
function read() {
  const given = new URLSearchParams(location.hash.slice(1));
  for (const [k, of] of Object.entries(reads)) state[k] = of(given.get(k) || "");
}
const hashOf = () => {
  const out = new URLSearchParams();
  for (const [k, v] of Object.entries(state)) if (v && !(k === "sort" && v === "hardest")) out.set(k, v);
  return "#" + out;
};
// Each step is one that Back takes back, but for typing and for keys that go from row to row.
function go(change, quiet) {
  Object.assign(state, change);
  const hash = hashOf();
  if (hash !== (location.hash || "#")) history[quiet ? "replaceState" : "pushState"](null, "", hash);
  show();
}
