// The table: what the state chooses, in its order, with buses and blocks folded; rows are drawn as they come into view.
const heads = {hardest: "hardest", line: "line", net: "net", kind: "kind", gain: "pad gain", touches: "touches", marks: "privacy", feeds: "feeds"};
const left = ["net", "kind", "marks", "feeds"], wide = ["kind", "cc0", "cc1", "sc0", "sc1", "so", "touches", "feeds"];
const fed = l => l.d ? byLine.get(l.d).n : "";
const touched = l => live && live.effects.has(l.l) ? touches(live.effects.get(l.l)).length : -1;
function value(l, key) {
  switch (key) {
    case "hardest": return rank(l.h);
    case "line": return -l.l;
    case "net": return l.n;
    case "kind": return l.k;
    case "gain": return l.g === null ? -1 : l.f * 1e12 + l.g;
    case "touches": return touched(l);
    case "marks": return marks(l).map(m => m[1]).join(" ");
    case "feeds": return fed(l);
    default: return rank(l.c[words.indexOf(key)]);
  }
}
const only = {
  pads: l => (live ? live.pads : data.pads).includes(l.l),
  easier: l => { const x = chosenEffect(); return x && x.after.has(l.l); },
  protected: l => marks(l).some(m => m[0] === "protected"),
  forbidden: l => marks(l).some(m => m[0] === "forbidden"),
  carries: l => marks(l).some(m => m[0] === "carries"),
  upstream: l => marks(l).some(m => m[0] === "upstream"),
  touches: l => touched(l) > 0,
  allowed: l => live && live.effects.has(l.l) && allowed(live.effects.get(l.l)),
};
function chosen() {
  const q = state.q.toLowerCase(), [word, at] = state.bar.split(":"), number = words.indexOf(word);
  const lines = data.lines.filter(l => (state.all || l.r) && (!state.registers || l.k === "register")
    && (!q || l.n.toLowerCase().includes(q) || String(l.l) === q || l.a.some(a => a.toLowerCase().includes(q)))
    && (!state.min || rank(l.h) >= Number(state.min)) && (!state.bar || l.r && String(bin(l.c[number])) === at)
    && (!state.only || only[state.only](l)));
  const turn = state.up ? 1 : -1, keys = new Map(lines.map(l => [l, value(l, state.sort)]));
  return lines.sort((a, b) => {
    const x = keys.get(a), y = keys.get(b), first = typeof x === "string" ? -x.localeCompare(y, "en", {numeric: true}) : x - y;
    return first ? turn * (first < 0 ? -1 : 1) : rank(b.h) - rank(a.h) || a.l - b.l;
  });
}
// A bus is what stands before a bit's number, a block what stands before the last dot; a name that was made, rx[2].d~3, is in
// the block of what it feeds. Each stands where its first net would.
const opened = new Set();
const busOf = l => { const m = /^(.+)\[(\d+)\]$/.exec(l.n); return m ? m[1] + "[" : null; };
const ends = new Set(data.lines.map(l => l.n));
function blockOf(l) {
  const base = l.n.replace(/~\d+$/, ""), own = base === l.n || ends.has(base) ? base : base.replace(/\.[^.]*$/, ""), at = own.lastIndexOf(".");
  return at > 0 ? own.slice(0, at + 1) : null;
}
function folded(lines) {
  if (!state.fold) return lines.map(l => ({l}));
  const keyOf = state.fold === "buses" ? busOf : blockOf, groups = new Map(), items = [];
  for (const l of lines) {
    const key = keyOf(l);
    if (key === null) { items.push({l}); continue; }
    if (!groups.has(key)) items.push(groups.set(key, {key, inside: []}).get(key));
    groups.get(key).inside.push(l);
  }
  return items.flatMap(item => item.l ? [item] : item.inside.length === 1 ? [{l: item.inside[0]}] : [item, ...opened.has(item.key) ? item.inside.map(l => ({l, within: item.key})) : []]);
}
function groupName({key, inside}) {
  if (key.endsWith(".")) return key + "*";
  const bits = inside.map(l => Number(/\[(\d+)\]$/.exec(l.n)[1]));
  return `${key}${Math.max(...bits)}:${Math.min(...bits)}]`;
}

let items = [], rowsFrom = -1, rowsTo = -1;
const ROW = 21, ALL = 300;
const cell = (key, content, title) => make("td", {class: [left.includes(key) ? "left" : "", wide.includes(key) ? "wide" : ""].filter(x => x).join(" ") || null, title}, content);
const gained = l => l.g === null ? "-" : group(l.g) + (l.f ? " +" + l.f : "");
function rowOf(item, at) {
  const {l} = item, x = live && chosenEffect(), after = x && x.after.get(l.l);
  const is = String(l.l) === state.line ? "on" : after ? (live.protected.has(l.l) ? "leaks" : "easier") : null;
  const row = make("tr", {"data-line": l.l, class: is, "aria-rowindex": at + 2, "aria-selected": is === "on" ? "true" : null, onclick: () => go({line: String(l.l), of: ""})},
    cell("hardest", cost(l.h)), cell("line", String(l.l), l.s || null), cell("net", (item.within ? "  " : "") + label(l.l), about(l)),
    cell("marks", make("span", null, ...marks(l).map(([kind, word, title]) => make("span", {class: "mark " + kind, title}, word)))), cell("kind", l.k === "register" ? "reg" : l.k));
  words.forEach((word, at) => {
    const td = cell(word, cost(l.c[at]));
    if (after && at > 3 && rank(after[at - 4]) < rank(l.c[at])) td.append(make("span", {class: "after"}, " → ", short(after[at - 4])));
    row.append(td);
  });
  const t = touched(l);
  row.append(cell("gain", l.may && live && l.g === null && !l.o && !done() ? "…" : gained(l), l.f ? `${l.f} nets freed of never or over` : null),
    cell("touches", t < 0 ? "" : t ? make("span", {class: "never"}, String(t)) : "0"), cell("feeds", l.d ? label(l.d, 18) : "", fed(l) || null));
  return row;
}
const worst = costs => costs.reduce((a, b) => rank(b) > rank(a) ? b : a);
function groupRow(item, at) {
  const {key, inside} = item, open = opened.has(key);
  const turn = () => { if (open) opened.delete(key); else opened.add(key); show(); };
  const kinds = new Map(inside.flatMap(marks).map(m => [m[0], m]));
  const row = make("tr", {class: "folded", "data-group": key, "aria-rowindex": at + 2, "aria-expanded": String(open), onclick: turn},
    cell("hardest", cost(worst(inside.map(l => l.h)))), cell("line", ""),
    cell("net", make("button", {class: "link", onclick: e => { e.stopPropagation(); turn(); }}, `${open ? "▾" : "▸"} ${cut(groupName(item), 30)}`), `${groupName(item)}: the worst of ${inside.length}`),
    cell("marks", make("span", null, ...[...kinds.values()].map(([kind, word]) => make("span", {class: "mark " + kind}, kind === "upstream" ? "upstream" : word)))), cell("kind", "× " + inside.length));
  words.forEach((word, at) => row.append(cell(word, cost(worst(inside.map(l => l.c[at]))))));
  row.append(cell("gain", gained(inside.reduce((a, b) => value(b, "gain") > value(a, "gain") ? b : a))), cell("touches", String(Math.max(0, ...inside.map(touched)))), cell("feeds", ""));
  return row;
}
// All rows of a short table; of a long one those in view and some around them.
function drawRows(all) {
  const host = $("rows"), many = items.length > ALL && !all;
  const first = many ? Math.max(0, Math.floor(host.scrollTop / ROW) - 40) : 0, last = many ? Math.min(items.length, first + Math.ceil((host.clientHeight || 600) / ROW) + 80) : items.length;
  rowsFrom = first;
  rowsTo = last;
  const space = n => n ? [make("tr", {class: "space", "aria-hidden": "true"}, make("td", {colspan: columns.length, style: `height:${n * ROW}px`}))] : [];
  document.querySelector("#table tbody").replaceChildren(...space(first), ...items.slice(first, last).map((item, k) => item.l ? rowOf(item, first + k) : groupRow(item, first + k)), ...space(items.length - last));
}
function scrolled() {
  if (items.length <= ALL) return;
  const first = Math.floor($("rows").scrollTop / ROW), last = first + Math.ceil($("rows").clientHeight / ROW);
  if (first < rowsFrom + 8 && rowsFrom > 0 || last > rowsTo - 8 && rowsTo < items.length) drawRows();
}
// Brings the chosen row into view, and answers its place.
function reveal() {
  const at = items.findIndex(item => item.l && String(item.l.l) === state.line), host = $("rows");
  if (at < 0) return;
  const top = at * ROW, room = host.clientHeight - 2 * ROW;
  if (top < host.scrollTop) host.scrollTop = top;
  else if (top > host.scrollTop + room) host.scrollTop = top - room;
  scrolled();
}
function table() {
  const head = make("tr", {"aria-rowindex": 1});
  for (const key of columns) {
    const on = state.sort === key, told = heads[key] || key.toUpperCase();
    head.append(make("th", {class: [left.includes(key) ? "left" : "", wide.includes(key) ? "wide" : ""].filter(x => x).join(" ") || null, scope: "col", "aria-sort": on ? (state.up ? "ascending" : "descending") : null},
      make("button", {"data-key": key, title: terms[key], onclick: () => go({sort: key, up: on && !state.up ? "1" : ""})}, told + (on ? (state.up ? " ▲" : " ▼") : ""))));
  }
  document.querySelector("#table thead").replaceChildren(head);
  const lines = chosen();
  items = folded(lines);
  $("table").setAttribute("aria-rowcount", items.length + 1);
  drawRows();
  $("count").textContent = `${group(lines.length)} of ${group(data.lines.length)} nets`;
  $("clear").hidden = !(state.q || state.registers || state.min || state.bar || state.only);
}
