// Reasons. Those of setting are in the page; pads do not change them. Those of seeing are found here as they stand, as
// why.rs finds them: the first row in library order whose terms and depth give the number, over nets that were found before.
const index = (role, sequential) => role === 2 ? 4 + sequential : 2 * sequential + role;
const chip = (() => {
  const cells = new Map(), readers = new Map(), drivers = new Map(), inputs = new Set();
  let cell = null;
  const unpack = (octal, {n, three}) => {
    let row = parseInt(octal, 8);
    const depth = three ? row & 7 : row & 1, pins = [], output = [];
    if (three) row >>= 2;
    for (let pin = n - 1; pin >= 0; pin--) {
      const at = 2 * (n - 1 - pin);
      if (row >> at + 1 & 1) pins.push([pin, 1]);
      if (row >> at + 2 & 1) pins.push([pin, 0]);
    }
    if (row >> 2 * n + 1 & 1) output.push(1);
    if (row >> 2 * n + 2 & 1) output.push(0);
    return {octal, depth, pins, output};
  };
  for (const line of texts ? texts.lib.split("\n") : []) {
    const f = line.split(",");
    if (f[0] === "Name" || f[0] === "Name3") cells.set(f[1], cell = {n: Number(f[2]), three: f[0] === "Name3", see: []});
    else if (f[0] === "CO" || f[0] === "SO") {
      const groups = [];
      let joined = false;
      for (const x of f.slice(1)) {
        if (x === "M") { joined = true; continue; }
        if (!joined) groups.push([]);
        joined = false;
        if (x !== "Z") groups[groups.length - 1].push(unpack(x, cell));
      }
      cell.see[f[0] === "CO" ? 0 : 1] = groups;
    }
  }
  for (const line of texts ? texts.net.split("\n") : []) {
    const f = line.split(",");
    if (f[0] === "input") inputs.add(Number(f[1]));
    if (f[0] !== "gate") continue;
    const gate = {cell: cells.get(f[1]), name: f[1], line: Number(f[2]), pins: f.slice(3).map(Number)};
    drivers.set(gate.line, gate);
    gate.pins.forEach((line, pin) => {
      if (!readers.has(line)) readers.set(line, []);
      readers.get(line).push([gate, pin]);
    });
  }
  return {readers, drivers, inputs};
})();
const pinName = (gate, pin) => byLine.get(gate.line).p[pin] || String(pin + 1);
function throughTold({gate, pin, row}) {
  const asked = [];
  for (let p = 0; p < gate.cell.n; p++) {
    const values = row.pins.filter(x => x[0] === p).map(x => x[1]).sort();
    if (values.length) asked.push(`${pinName(gate, p)} ${values.join(" ")}`);
  }
  for (const v of row.output) asked.push("output " + v);
  return `through pin ${pinName(gate, pin)} of ${byLine.get(gate.line).t || gate.name} -> ${byLine.get(gate.line).n} with ${asked.join(", ") || "nothing"} (row ${row.octal})`;
}
function seeReasons(sequential) {
  const cost = (role, line) => byLine.get(line).c[index(role, sequential)], steps = new Map();
  const ways = line => (chip.readers.get(line) || []).flatMap(([gate, pin]) => gate.cell.see[sequential][pin].map(row => ({gate, pin, row})));
  const terms = ({gate, row}) => [...row.pins.map(([pin, v]) => [v, gate.pins[pin]]), ...row.output.map(v => [v, gate.line]), [2, gate.line]];
  const gives = (line, way) => terms(way).reduce((sum, [r, at]) => plus(sum, cost(r, at)), way.row.depth) === cost(2, line);
  const found = way => steps.has(way.gate.line) && !steps.get(way.gate.line).b;
  let open = [];
  for (const l of data.lines) {
    if (l.o) steps.set(l.l, 1);
    else if (cost(2, l.l) !== "never") open.push(l.l);
    else {
      const b = ways(l.l).slice(0, 12).map(way => [throughTold(way), ...(terms(way).find(([r, line]) => cost(r, line) === "never") || [-1, 0])]);
      steps.set(l.l, {b, t: chip.readers.has(l.l) ? "no cell that reads it ever changes with it" : "nothing reads it, and it is no output"});
    }
  }
  for (let before = -1; before !== open.length;) {
    before = open.length;
    open = open.filter(line => {
      const way = ways(line).find(way => found(way) && gives(line, way));
      if (!way) return true;
      const dearest = terms(way).map((t, at) => [t, at]).sort(([a, i], [b, j]) => rank(cost(...b)) - rank(cost(...a)) || i - j);
      steps.set(line, {t: throughTold(way), d: way.row.depth, x: dearest.map(([t]) => t)});
      return false;
    });
  }
  if (open.length) throw new Error("no row gives the number of line " + open[0]);
  return steps;
}
// By kind; forgotten when pads change.
let seen = [];
// A step: 0 an input, 1 an output, else its row's words t, depth d and terms x, or the blocked ways b.
const stepOf = (l, at) => at < 4 ? l.w[at] : texts ? (seen[at - 4] ||= seeReasons(at - 4)).get(l.l) : {b: [], t: "this page holds no netlist"};

// A node of a reason: what it does (0, 1 set to the value, 2 see), the line, and the kind of terms.
function node(role, line, sequential, open) {
  const l = byLine.get(line), at = index(role, sequential), step = stepOf(l, at), c = l.c[at];
  const inner = make("ul"), item = make("li"), leaf = step === 0 || step === 1;
  const text = step === 0 ? "an input" : step === 1 ? "it is an output" : step.b ? (step.b.length ? "each way is blocked" : step.t) : step.t + (step.d ? ", depth " + step.d : "");
  const button = make("button", {"aria-expanded": leaf ? null : "false", "data-node": `${role}:${line}`, onclick: () => toggle()},
    make("b", {class: typeof c === "string" ? c : null, title: typeof c === "number" ? group(c) : null}, short(c)), told(role, line), make("span", {class: "soft"}, leaf ? ": " + text : " ▸"));
  item.append(button, inner);
  function toggle() {
    if (leaf) return;
    const isOpen = button.getAttribute("aria-expanded") === "true";
    button.setAttribute("aria-expanded", String(!isOpen));
    inner.replaceChildren();
    if (isOpen) return;
    inner.append(make("li", {class: "soft"}, text));
    for (const [way, r, at2] of step.b || []) {
      inner.append(make("li", null, way + ": ", r < 0 ? "asks 0 and 1 of one wire" : make("span", {class: "never"}, told(r, at2) + " is never"),
        r < 0 ? null : make("ul", {class: "tree"}, node(r, at2, sequential))));
    }
    for (const [r, at2] of step.x || []) inner.append(node(r, at2, sequential));
  }
  if (open) toggle();
  return item;
}

// The same reason as an icicle: a slab is as wide as it costs, and what it is made of hangs below it. What is left of its width
// is the depth of its row. A touch goes into a slab, one on the uppermost back out.
function icicle(role, line, sequential) {
  const host = make("div", {id: "flame", role: "group", "aria-label": "the reason, as wide as it costs"}), high = 19, deepest = 9;
  const back = [];
  function draw(role, line) {
    const total = byLine.get(line).c[index(role, sequential)];
    if (typeof total !== "number" || total === 0) {
      host.replaceChildren(make("p", {class: "soft"}, total === 0 ? "it costs nothing" : `${total}: no width to draw`));
      host.setAttribute("style", "");
      return;
    }
    const slabs = [];
    let lowest = 0;
    const walk = (role, line, left, wide, depth) => {
      const at = index(role, sequential), c = byLine.get(line).c[at], step = stepOf(byLine.get(line), at);
      lowest = Math.max(lowest, depth);
      const said = `${short(c)} ${told(role, line)}`;
      slabs.push(make("button", {class: "slab" + (role === 2 ? " see" : ""), style: `left:${left}%;width:${wide}%;top:${depth * high}px`, title: said, "aria-label": said, "data-slab": `${role}:${line}`,
        onclick: () => { if (depth) { back.push([slabs.root]); draw(role, line); } else if (back.length) draw(...back.pop()[0]); }}, wide > 6 ? said : ""));
      if (depth === deepest || !step || !step.x) return;
      let at2 = left;
      for (const [r, l] of step.x) {
        const w = wide * byLine.get(l).c[index(r, sequential)] / c;
        if (w >= 0.6) walk(r, l, at2, w, depth + 1);
        at2 += w;
      }
    };
    slabs.root = [role, line];
    walk(role, line, 0, 100, 0);
    host.setAttribute("style", `height:${(lowest + 1) * high}px`);
    host.replaceChildren(...slabs);
  }
  draw(role, line);
  return host;
}
