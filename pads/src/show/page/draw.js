// Drawings: the profiles, and the neighbourhood of a net.

// Unit bars up to 80, above that ten bars a decade; over and never apart.
const bin = c => typeof c === "string" ? c : c <= 80 ? c : 80 + Math.max(1, Math.ceil(10 * Math.log10(c / 80)));
const bound = b => b <= 80 ? b : Math.round(80 * Math.pow(10, (b - 80) / 10));
const counted = costs => {
  const counts = new Map();
  for (const c of costs) counts.set(bin(c), (counts.get(bin(c)) || 0) + 1);
  return counts;
};
function profile(at) {
  const ranked = data.lines.filter(l => l.r), counts = counted(ranked.map(l => l.c[at]));
  // Pads change CO and SO alone: their profile without a pad stands behind.
  const was = live && at > 3 && live.pads.length ? counted(ranked.map(l => l.before[at])) : new Map();
  const both = [...new Set([...counts.keys(), ...was.keys()])], bins = both.filter(b => typeof b === "number").sort((x, y) => x - y);
  const last = Math.max(10, ...bins), most = Math.max(1, ...counts.values(), ...was.values());
  const width = 400, right = 330, h = 70, step = right / (last + 1);
  const svg = make("svg", {svg: 1, viewBox: `0 0 ${width} 96`, role: "group", "aria-label": titles[words[at]]});
  svg.append(make("text", {svg: 1, x: 0, y: 10}, `${titles[words[at]]}, most ${most}${was.size ? "; outlined: without pads" : ""}`));
  svg.append(make("line", {svg: 1, x1: 0, x2: width, y1: 84, y2: 84}));
  const bar = (b, x, w, told) => {
    const count = counts.get(b) || 0, before = was.get(b) || 0, key = words[at] + ":" + b, tall = count ? Math.max(1.5, h * count / most) : 0;
    const label = `${words[at].toUpperCase()} ${told}: ${many(count, "net")}` + (was.size ? `, ${before} without pads` : "");
    const pick = () => go({bar: state.bar === key ? "" : key});
    if (before) svg.append(make("rect", {svg: 1, class: "before", x, y: 84 - h * before / most, width: w, height: h * before / most}, make("title", {svg: 1}, label)));
    if (!count) return;
    svg.append(make("rect", {svg: 1, class: "bar" + (typeof b === "string" ? " " + b : "") + (state.bar === key ? " on" : ""), x, y: 84 - tall, width: w, height: tall,
      tabindex: 0, role: "button", "aria-pressed": String(state.bar === key), "aria-label": label, "data-bar": key, onclick: pick,
      onkeydown: k => { if (k.key === "Enter" || k.key === " ") { k.preventDefault(); k.stopPropagation(); pick(); } }}, make("title", {svg: 1}, label)),
      make("rect", {svg: 1, class: "hit", x, y: 14, width: w, height: 70 - tall, onclick: pick}));
  };
  for (const b of bins) bar(b, b * step, Math.max(1.2, step * 0.9), b <= 80 ? b : `${group(bound(b - 1) + 1)} to ${group(bound(b))}`);
  for (const [at2, b] of ["over", "never"].entries()) {
    if (!both.includes(b)) continue;
    bar(b, 340 + 30 * at2, 16, b);
    svg.append(make("text", {svg: 1, x: 348 + 30 * at2, y: 94, "text-anchor": "middle"}, b));
  }
  let until = -9;
  for (let t = 0; bin(t) <= last; t = t ? t * 10 : 10) {
    const x = bin(t) * step, told = t < 1e6 ? group(t) : t / 1e6 + " M";
    if (x - told.length * 3 <= until) continue;
    svg.append(make("text", {svg: 1, x: Math.max(x, 3), y: 94, "text-anchor": "middle"}, told));
    until = x + told.length * 3 + 4;
  }
  return svg;
}

// The neighbourhood of a net, left to right: what its dearer value is set by, its gate's pins, the net, what reads it, and the
// way by which it is seen. Warm is dear; a filled square is a pad, an empty one an output.
function near(l) {
  const layers = new Map([[0, [l.l]]]), at = new Map([[l.l, 0]]), edges = [], most = 7;
  let more = 0;
  const add = (line, layer) => {
    if (at.has(line)) return at.get(line) === layer;
    const list = layers.get(layer) || layers.set(layer, []).get(layer);
    if (list.length >= most) { more++; return false; }
    list.push(line);
    at.set(line, layer);
    return true;
  };
  const join = (from, to, chosen) => {
    if (at.has(from) && at.has(to) && !edges.some(e => e[0] === from && e[1] === to)) edges.push([from, to, chosen]);
  };
  const pinsOf = line => (chip.drivers.get(line) || {pins: []}).pins;
  // The way that it is seen by, from net to net.
  const way = [l.l];
  for (let line = l.l; way.length < 6;) {
    const step = stepOf(byLine.get(line), 4), next = step && step.x && step.x.find(([r]) => r === 2);
    if (!next || way.includes(next[1])) break;
    way.push(line = next[1]);
  }
  way.forEach((line, k) => add(line, k));
  // The way that its dearer value is set by.
  const dear = rank(l.c[1]) >= rank(l.c[0]) ? 1 : 0, set = new Set([l.l]);
  let ends = [[dear, l.l]];
  for (let k = 1; k < 4; k++) {
    ends = ends.flatMap(([v, line]) => { const step = stepOf(byLine.get(line), v); return step && step.x ? step.x : []; }).filter(([, line]) => !set.has(line)).slice(0, 3);
    for (const [, line] of ends) { set.add(line); add(line, -k); }
  }
  for (const line of pinsOf(l.l)) add(line, -1);
  for (const line of l.v) add(line, 1);
  for (const line of at.keys()) for (const pin of pinsOf(line)) join(pin, line, way.includes(pin) && way[way.indexOf(pin) + 1] === line || set.has(pin) && set.has(line));
  const low = Math.min(...layers.keys()), high = Math.max(...layers.keys()), wide = 148, gap = 44, tall = 38;
  const rows = Math.max(...[...layers.values()].map(x => x.length)), width = (high - low + 1) * (wide + gap) - gap + 20, height = rows * (tall + 10) + 6;
  const box = line => {
    const list = layers.get(at.get(line)), k = list.indexOf(line), x = 10 + (at.get(line) - low) * (wide + gap);
    return [x, (height - list.length * (tall + 10)) / 2 + k * (tall + 10) + 5];
  };
  const svg = make("svg", {svg: 1, width, height, viewBox: `0 0 ${width} ${height}`, role: "group", "aria-label": "what drives and reads " + l.n});
  for (const [from, to, chosen] of edges) {
    const [x1, y1] = box(from), [x2, y2] = box(to), a = x1 + wide, ya = y1 + tall / 2, yb = y2 + tall / 2;
    const d = x2 > x1 ? `M${a} ${ya} C${a + gap / 2} ${ya} ${x2 - gap / 2} ${yb} ${x2} ${yb}` : `M${a} ${ya} C${a + gap} ${y1 - 14} ${x2 - gap} ${y2 - 14} ${x2} ${yb}`;
    svg.append(make("path", {svg: 1, d, class: chosen ? "chosen" : null}));
  }
  const dearest = Math.max(2, ...data.lines.filter(x => x.r && typeof x.h === "number").map(x => x.h));
  for (const line of at.keys()) {
    const [x, y] = box(line), n = byLine.get(line), heat = typeof n.h === "number" ? Math.log(1 + n.h) / Math.log(1 + dearest) : 1;
    const pick = () => go({line: String(line), of: ""}), told = `CC ${short(n.c[0])} ${short(n.c[1])}  CO ${short(n.c[4])}`;
    const pad = live ? live.pads.includes(line) : data.pads.includes(line);
    svg.append(make("g", {svg: 1, class: "net" + (line === l.l ? " on" : ""), tabindex: 0, role: "button", "aria-label": `${n.n}, ${told}`, "data-near": line, onclick: pick,
      onkeydown: k => { if (k.key === "Enter" || k.key === " ") { k.preventDefault(); k.stopPropagation(); pick(); } }},
      make("title", {svg: 1}, `${about(n)}; ${told}`),
      make("rect", {svg: 1, x, y, width: wide, height: tall, rx: 3, style: `fill: color-mix(in oklab, var(--warm) ${Math.round(100 * heat)}%, var(--cool))`}),
      make("text", {svg: 1, x: x + 6, y: y + 15}, label(line, 19)), make("text", {svg: 1, class: "soft", x: x + 6, y: y + 30}, `${n.t ? n.t.slice(0, 9) + "  " : ""}${told}`.slice(0, 30)),
      n.o ? make("rect", {svg: 1, class: pad ? "pad" : null, x: x + wide - 12, y: y + 4, width: 8, height: 8, style: pad ? null : "fill: none; stroke: var(--ink)"}) : null));
  }
  return make("div", {id: "near", "data-at": Math.max(0, box(l.l)[0] - 150)}, svg, more ? make("p", {class: "soft"}, `and ${many(more, "net")} more`) : null);
}
