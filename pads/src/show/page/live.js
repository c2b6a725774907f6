// The proved calls inside this page. Every CO and SO below is theirs; this page adds them up, counts and orders.
let live = null;
// What native code wrote into the page: the waking is held to it, and a still page shows it.
const written = ["c", "h", "q", "o", "r", "g", "f", "en"];
for (const l of data.lines) {
  l.base = l.o && !data.pads.includes(l.l);
  l.native = Object.fromEntries(written.map(k => [k, l[k]]));
}
const fields = l => written.map(k => String(l[k])).join(" ");
const sizes = typeof Scoap === "undefined" ? {} : Scoap.sizes;
const place = (line, at) => sizes.STANDING_NUMBERS + 6 * (line - 1) + at;

async function wake() {
  if (typeof Scoap === "undefined") throw new Error("it was made without the calls");
  if (!texts) throw new Error("its library and netlist cannot be read");
  const begun = performance.now(), scoap = await Scoap.load(), utf = new TextEncoder();
  const made = {scoap, lib: utf.encode(texts.lib), net: utf.encode(texts.net), pads: [], effects: new Map(), kept: new Map(), turn: 0, asked: 0, of: 0};
  made.none = scoap.stand(made.lib, made.net).standing;
  made.ranged = /^range,/m.test(texts.net);
  made.guarded = made.ranged || data.taken.length > 0;
  // What this page was made with must come out here too.
  const standing = placed(made, data.pads);
  for (const l of data.lines) {
    l.c.forEach((c, at) => {
      const here = Scoap.cost(standing[place(l.l, at)]);
      if (here !== c) throw new Error(`${words[at].toUpperCase()} of line ${l.l} is ${short(here)} by the calls in this page and ${short(c)} as native code wrote it. Trust neither`);
    });
  }
  nearAsWritten();
  for (const l of data.lines) l.before = six(made.none, l.l);
  made.woke = performance.now() - begun;
  live = made;
}
const six = (standing, line) => words.map((_, at) => Scoap.cost(standing[place(line, at)]));
// The standing table with pads on these lines.
function placed({scoap, lib, net, none}, lines) {
  const standing = none.slice();
  for (const line of lines) scoap.commit(lib, net, standing, line, scoap.ask(lib, net, standing, line).count);
  return standing;
}

// A page that goes on without the calls, and says why: the numbers are those that native code wrote.
function still(why) {
  live = null;
  seen = [];
  for (const l of data.lines) Object.assign(l, l.native);
  for (const key of ["pads", "forbid", "protect"]) state[key] = "";
  $("live").hidden = true;
  $("state").className = "alarm";
  $("state").textContent = `Still: ${why}. The numbers below are those that native code wrote into the page; no pad can be tried here.`;
}

// The pads, marks and numbers of the state. Work for the same pads is done once.
function stand() {
  live.forbidden = new Set(listOf("forbid"));
  live.protected = new Set(listOf("protect"));
  live.near = nearness([...live.protected]);
  live.touched = new Map();
  const key = listOf("pads").join(".");
  if (live.key === key) return;
  live.turn++;
  live.key = key;
  live.pads = listOf("pads");
  live.standing = placed(live, live.pads);
  live.advice = live.detail = null;
  seen = [];
  const on = new Set(live.pads);
  for (const l of data.lines) {
    l.c = six(live.standing, l.l);
    l.o = l.base || on.has(l.l);
    l.r = !["constant", "part"].includes(l.k) && (l.o || l.v.length > 0);
    const dear = rank(l.c[1]) >= rank(l.c[0]) ? 1 : 0;
    l.h = plus(l.c[dear], l.c[4]);
    l.q = rank(l.c[4]) >= rank(l.c[dear]) ? "co" : "cc" + dear;
    l.g = null;
    l.f = l.en = 0;
  }
  live.ranked = data.lines.filter(l => l.r).map(l => l.l);
  if (live.guarded) {
    // CO and SO without a further pad, at HIGH, out of the second of the two reports, and with what boxes take not seen.
    const net = data.taken.reduce((net, line) => net.replace(`\noutput,${line}\n`, "\n"), marked(live.pads));
    const cost = f => /^\d+$/.test(f) ? Number(f) : f;
    live.guard = new Map(live.scoap.report(live.lib, net).split("\nhigh\n")[live.ranged ? 1 : 0].split("\n").map(row => row.split(",")).map(f => [Number(f[0]), [cost(f[5]), cost(f[6])]]));
    live.bare ||= live.scoap.stand(live.lib, live.bareNet ||= texts.net.replace(/^output,.*\n/gm, "")).standing;
  }
  live.measure = measured(line => live.standing[place(line, 4)]);
  live.effects = live.kept.get(key) || new Map();
  live.kept.delete(key);
  live.kept.set(key, live.effects);
  if (live.kept.size > 6) live.kept.delete(live.kept.keys().next().value);
  for (const x of live.effects.values()) note(x);
  askAll();
}

// How well the ranked nets are seen, as the command measures it: never, over, the largest figure, the sum of figures.
function measured(co) {
  const m = {never: 0, over: 0, largest: 0, sum: 0};
  for (const line of live.ranked) {
    const c = co(line);
    if (c >= sizes.NEVER) m.never++;
    else if (c === sizes.OVER) m.over++;
    else { m.sum += c; if (c > m.largest) m.largest = c; }
  }
  return m;
}
const lower = (a, b) => a.never - b.never || a.over - b.over || a.largest - b.largest || a.sum - b.sum;

// What a pad on a line does; which nets become easier to see is kept a bit for each.
function effect(line) {
  const {standing} = live, {seen} = live.scoap.ask(live.lib, live.net, standing, line);
  const x = {line, after: measured(l => seen[2 * l - 2]), gain: 0, freed: 0, count: 0, bits: new Uint8Array((sizes.LINES >> 3) + 1)};
  for (const l of live.ranked) {
    const co = seen[2 * l - 2], was = standing[place(l, 4)];
    if (co < was) { if (was < sizes.OVER) x.gain += was - co; else x.freed++; }
    if (co < was || seen[2 * l - 1] < standing[place(l, 5)]) { x.count++; x.bits[l >> 3] |= 1 << (l & 7); }
  }
  if (live.guarded) {
    // Whatever the prices within the ranges, and whatever boxes take: against the numbers with the pad as the only output.
    const alone = live.scoap.ask(live.lib, live.bareNet, live.bare, line).seen;
    x.ends = new Uint8Array(x.bits.length);
    for (const l of data.lines) {
      const [co, so] = live.guard.get(l.l);
      if (rank(Scoap.cost(alone[2 * l.l - 2])) < rank(co) || rank(Scoap.cost(alone[2 * l.l - 1])) < rank(so)) x.ends[l.l >> 3] |= 1 << (l.l & 7);
    }
  }
  return x;
}
const eases = (x, line) => x.bits[line >> 3] >> (line & 7) & 1;
function note(x) {
  Object.assign(byLine.get(x.line), {g: x.gain, f: x.freed, en: x.count});
}
const may = l => l.may && !l.o;
const marked = lines => texts.net + lines.map(line => `output,${line}\n`).join("");
// Every pad that may be, asked in pieces while nothing else is to be done: no piece takes longer than a frame or one ask.
const idle = typeof requestIdleCallback === "function" ? f => requestIdleCallback(f, {timeout: 50}) : f => setTimeout(f, 0);
function askAll() {
  const mine = live.turn, begun = performance.now(), todo = data.lines.filter(l => may(l) && !live.effects.has(l.l)).map(l => l.l).reverse();
  live.of = todo.length + live.effects.size;
  live.longest = 0;
  const piece = () => guarded(() => {
    if (!live || mine !== live.turn) return;
    const from = performance.now();
    while (todo.length && performance.now() - from < 12) {
      const x = effect(todo.pop());
      live.effects.set(x.line, x);
      note(x);
    }
    live.longest = Math.max(live.longest, performance.now() - from);
    live.asked = live.of - todo.length;
    if (todo.length) {
      tellState();
      idle(piece);
      return;
    }
    live.took = performance.now() - begun;
    const wrong = live.key === data.pads.join(".") && data.lines.find(l => fields(l) !== fields(l.native));
    if (wrong) throw new Error(`a pad on line ${wrong.l} does not do here what native code wrote. Trust neither`);
    show();
  });
  live.asked = live.of - todo.length;
  if (todo.length) piece();
}
const done = () => live.asked === live.of;

// What privacy rules out: the forbidden, the protected, what carries a protected value, and what makes one easier to see.
function touches(x) {
  if (!live.touched.has(x.line)) live.touched.set(x.line, [...live.protected].filter(line => eases(x, line) || x.ends && x.ends[line >> 3] >> (line & 7) & 1));
  return live.touched.get(x.line);
}
const ruledOut = line => live.forbidden.has(line) || live.protected.has(line) || near0(live.near, line);
const near0 = (near, line) => data.depth > 0 && (near.carries.has(line) || near.steps.has(line) && near.steps.get(line) < data.depth);
const allowed = x => !ruledOut(x.line) && !touches(x).length;

// What feeds the protected nets, as upstream.rs finds it, over what it wrote of each line: u what its gate reads, b what has its
// value at the same time, y what its register takes.
const handers = new Map();
for (const l of data.lines) if (l.k !== "register") for (const line of l.b || []) handers.set(line, [...handers.get(line) || [], l.l]);
function nearness(protect) {
  const carries = new Map(), upstream = new Map(), steps = new Map();
  let front = protect.map(of => [of, of, 0]), earlier = [];
  while (front.length) {
    for (let k = 0; k < front.length; k++) {
      const [line, of, registers] = front[k], l = byLine.get(line);
      if (carries.has(line)) continue;
      carries.set(line, [of, registers]);
      for (const other of l.b) front.push([other, of, registers]);
      if (line !== of) for (const other of handers.get(line) || []) front.push([other, of, registers]);
      if (registers === 0) for (const data of l.y) earlier.push([data, of, 1]);
    }
    [front, earlier] = [earlier, []];
  }
  // The fewest registers, then gates, then the lowest protected line.
  const before = (a, b) => a[1] - b[1] || a[2] - b[2] || a[0] - b[0];
  const far = protect.map(line => [line, [line, 0, 0]]);
  for (let k = 0; k < far.length; k++) {
    const [line, [to, registers, gates]] = far[k], l = byLine.get(line);
    if (upstream.has(line) && before(upstream.get(line), far[k][1]) <= 0) continue;
    upstream.set(line, far[k][1]);
    const on = l.k === "register" ? [to, registers + 1, gates] : [to, registers, gates + (l.k === "part" ? 0 : 1)];
    for (const from of l.u) far.push([from, on]);
  }
  for (const line of protect) upstream.delete(line);
  const count = [...carries.keys()].map(line => [line, 0]);
  for (let k = 0; k < count.length; k++) {
    const [line, own] = count[k], l = byLine.get(line);
    if (steps.has(line) && steps.get(line) <= own) continue;
    steps.set(line, own);
    // A part belongs to its gate; one that an inverter only hands on is that gate.
    const free = l.k !== "register" && l.b.length > 0 || l.k === "part" && !handers.has(line);
    for (const from of l.u) count.push([from, free ? own : own + 1]);
  }
  return {carries, upstream, steps};
}
// The lists that the page was made with must come to what native code found.
function nearAsWritten() {
  const near = nearness(data.protected), forbidden = new Set([...data.forbidden, ...data.protected]);
  for (const l of data.lines) {
    const here = JSON.stringify([near.carries.has(l.l), near.upstream.get(l.l) || null, forbidden.has(l.l) || near0(near, l.l)]);
    if (here !== JSON.stringify(l.m)) throw new Error(`what is upstream of protected nets comes out otherwise at line ${l.l} than native code wrote it. Trust neither`);
  }
}
function carriesTold(line) {
  const [of, registers] = live.near.carries.get(line);
  return `carries ${byLine.get(of).n}${registers ? ", one register earlier" : ""}`;
}

// Advice in the command's order, and the proved adviser's, to which every line is forbidden that gets no pad.
function advise() {
  const all = [...live.effects.values()], ok = all.filter(allowed);
  ok.sort((a, b) => lower(a.after, b.after) || a.line - b.line);
  const best = ok.length && lower(ok[0].after, live.measure) < 0 ? ok[0] : null, free = new Set(ok.map(x => x.line));
  // As the command asks it: a constant, or an input that nothing reads, is marked output, so that its own CO does not count.
  const bare = data.lines.filter(l => !l.o && (chip.drivers.has(l.l) ? !chip.drivers.get(l.l).pins.length : chip.inputs.has(l.l) && !l.v.length)).map(l => l.l);
  const no = data.lines.filter(l => !free.has(l.l)).map(l => l.l), net = marked([...live.pads, ...bare]);
  const {line, largest} = live.scoap.advise(live.lib, net, no);
  live.advice = {best, ok: ok.length, of: all.length, line, largest: line ? Scoap.cost(largest) : null};
  if (best) go({line: String(best.line), of: ""}); else show();
}
function toggle(key, line) {
  const lines = listOf(key);
  live.advice = null;
  go({[key]: asList(key, lines.includes(line) ? lines.filter(x => x !== line) : [...lines, line])});
}

// What the chosen net's pad would do: for each net that is easier to see, CO and SO then.
function chosenEffect() {
  const l = live && byLine.get(Number(state.line));
  if (!l || l.o) return null;
  if (!live.detail || live.detail.line !== l.l) {
    const {seen} = live.scoap.ask(live.lib, live.net, live.standing, l.l), x = live.effects.get(l.l) || effect(l.l);
    live.detail = {line: l.l, x, after: new Map(live.ranked.filter(line => eases(x, line)).map(line => [line, [Scoap.cost(seen[2 * line - 2]), Scoap.cost(seen[2 * line - 1])]]))};
  }
  return live.detail;
}

const largestTold = m => short(m.never ? "never" : m.over ? "over" : m.largest);
function tellState() {
  const asks = done() ? `${many(live.of, "pad")} tried in ${Math.round(live.took || 0)} ms` : `trying pads: ${group(live.asked)} of ${group(live.of)}`;
  $("state").className = "soft";
  $("state").textContent = `Live: proved code, compiled by LLVM, run by your browser; at waking it had every number that native code wrote. ${asks}.`
    + (live.ranged ? " With ranges all numbers are those at LOW." : "");
}
function showLive() {
  tellState();
  $("live").hidden = false;
  const a = live.advice, was = measured(line => live.none[place(line, 4)]);
  const is = live.measure, pair = (word, x, y) => x === y ? `${word} ${group(x)}` : `${word} ${group(x)} → ${group(y)}`;
  $("pads").replaceChildren(make("b", null, "Pads:"),
    ...live.pads.map(line => make("span", {class: "pad"}, name(line, 24), make("button", {title: "take this pad away", "aria-label": "take away the pad on " + byLine.get(line).n, onclick: () => toggle("pads", line)}, "×"))),
    live.pads.length ? "" : make("span", {class: "soft"}, "none yet"),
    make("button", {class: "do", id: "advise", disabled: done() ? null : "", onclick: () => guarded(advise)}, "advise a pad"),
    live.pads.length ? make("button", {class: "do", id: "takeall", onclick: () => { live.advice = null; go({pads: asList("pads", [])}); }}, "take all away") : "",
    make("button", {class: "do", id: "tosheet", onclick: () => go({sheet: state.sheet ? "" : "1"})}, state.sheet ? "back to the nets" : "review sheet"));
  $("totals").textContent = [pair("largest CO", was.largest, is.largest), pair("sum of CO", was.sum, is.sum), pair("never seen", was.never, is.never), is.over || was.over ? pair("over", was.over, is.over) : ""].filter(x => x).join(", ");
  $("advice").replaceChildren(...a ? [a.best
    ? make("span", null, `Best of ${group(a.ok)} allowed of ${group(a.of)}: `, name(a.best.line, 30), `, largest CO then ${largestTold(a.best.after)}, sum ${group(a.best.after.sum)}.`)
    : make("span", null, a.ok ? "No pad that is allowed helps further." : "No pad is allowed."),
    make("span", null, " The proved adviser, by the largest CO of all nets: ", a.line ? name(a.line, 30) : "none", a.line ? ` (${short(a.largest)})` : "")] : []);
}

// Marks of a net, with the words of the column.
function marks(l) {
  const m = [], lists = live || {pads: data.pads, forbidden: new Set(data.forbidden), protected: new Set(data.protected)};
  const carries = live ? live.near.carries.has(l.l) : l.m[0], up = live ? live.near.upstream.get(l.l) : l.m[1];
  if (lists.pads.includes(l.l)) m.push(["pad", "pad", "a pad is placed here"]);
  if (lists.forbidden.has(l.l)) m.push(["forbidden", "no pad", "forbidden: gets no pad"]);
  if (lists.protected.has(l.l)) m.push(["protected", "protected", "protected: no pad may make it easier to see"]);
  else if (carries) m.push(["carries", "carries", live ? carriesTold(l.l) : "the value of a protected net stands here too"]);
  if (up) m.push(["upstream", `up ${up[1]}r ${up[2]}g`, upstreamTold(up)]);
  return m;
}
const upstreamTold = ([line, registers, gates]) => `upstream of ${byLine.get(line).n}: ${many(registers, "register")}, ${many(gates, "gate")}`;
