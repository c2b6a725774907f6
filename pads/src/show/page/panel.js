// The chosen net: its numbers, reasons, neighbours, and what a pad here does.
function panel() {
  const l = byLine.get(Number(state.line)), p = $("panel");
  if (!l) {
    p.replaceChildren(make("p", {class: "soft"}, "Choose a net: touch a row, or use the arrow keys. / filters by name, Escape leaves a field."));
    return;
  }
  const of = state.of || l.q, dear = rank(l.c[1]) >= rank(l.c[0]) ? 1 : 0;
  const six = make("table", null, make("tr", null, ...words.map(w => make("th", {scope: "col"}, term(w, w.toUpperCase())))), make("tr", null, ...l.c.map(c => make("td", null, cost(c)))));
  if (live && live.pads.length && (l.before[4] !== l.c[4] || l.before[5] !== l.c[5])) six.append(make("tr", {class: "soft"}, ...l.before.map(c => make("td", {title: "without pads"}, "was ", cost(c)))));
  const select = make("select", {id: "of", "aria-label": "the number", onchange: e => go({of: e.target.value})}, ...words.map(w => option(w, titles[w], of)));
  const at = words.indexOf(of), role = at > 3 ? 2 : at % 2, sequential = at === 5 || at === 2 || at === 3 ? 1 : 0;
  const parts = [make("h2", {tabindex: -1}, l.n), make("p", {class: "soft"}, `line ${l.l}, ${l.k}` + (l.o ? ", output" : "") + (l.t ? `, ${l.t}` : "") + (l.i ? ` ${l.i}` : "") + (l.s ? `, ${l.s}` : "")),
    l.a.length ? make("p", {class: "soft"}, "also " + l.a.join(", ")) : null,
    ...marks(l).map(([kind, word, title]) => make("p", {class: kind === "upstream" ? "over" : kind === "pad" ? "soft" : "never", "data-mark": kind}, title)),
    six, make("p", null, term("hardest", "hardest fault"), " ", cost(l.h), ` = CC${dear} `, cost(l.c[dear]), " + CO ", cost(l.c[4])),
    make("p", {id: "tip", class: "soft", role: "status"}),
    ...live ? padPart(l) : l.g !== null ? [make("h3", null, "A pad here"), make("p", {id: "pad"}, gainTold(l.g, l.f, l.en))] : [],
    make("h3", null, "Why ", select, " ", term("row", "row?"), " ", term("depth", "depth?")), icicle(role, l.l, sequential), make("ul", {class: "tree", id: "tree"}, node(role, l.l, sequential, true)),
    make("h3", null, "Around it"), near(l)];
  if (l.v.length) parts.push(make("h3", null, "Read by"), make("ul", {class: "tree"}, ...l.v.slice(0, 40).map(line => make("li", null, name(line, 48)))));
  p.replaceChildren(...parts.filter(x => x));
  // The chosen net is in view.
  $("near").scrollLeft = Number($("near").dataset.at);
}
const gainTold = (gain, freed, easier) => `CO of all nets falls by ${group(gain)}` + (freed ? `, ${freed} nets are freed of never or over` : "") + `; ${many(easier, "net")} easier to see`;
function padPart(l) {
  const act = (id, told, key) => make("button", {class: "do", id, onclick: () => toggle(key, l.l)}, told);
  const both = [act("forbid", live.forbidden.has(l.l) ? "allow a pad" : "forbid a pad", "forbid"), act("protect", live.protected.has(l.l) ? "unprotect" : "protect", "protect")];
  if (live.pads.includes(l.l)) return [make("h3", null, "A pad is here"), make("p", null, act("take", "take it away", "pads"), ...both)];
  const d = chosenEffect();
  if (!d) return [make("p", null, ...both)];
  const {x, after} = d, inside = touches(x), why = [];
  if (live.forbidden.has(l.l)) why.push("it is forbidden");
  if (live.protected.has(l.l)) why.push("the net is protected");
  else if (live.near.carries.has(l.l) && data.depth > 0) why.push("it " + carriesTold(l.l));
  else if (ruledOut(l.l) && !live.forbidden.has(l.l)) why.push("it is too near upstream of a protected net");
  if (inside.length) why.push(`${many(inside.length, "protected net")} easier to see`);
  const fall = line => { const [was, is] = [byLine.get(line).c[4], after.get(line)[0]]; return typeof was === "number" && typeof is === "number" ? was - is : was === is ? 0 : 2e9; };
  const listed = [...after.keys()].sort((a, b) => live.protected.has(b) - live.protected.has(a) || fall(b) - fall(a) || a - b);
  const part = line => { const n = byLine.get(line), [co, so] = after.get(line);
    return make("li", null, name(line, 40), " CO ", cost(n.c[4]), " → ", cost(co), rank(so) < rank(n.c[5]) ? make("span", null, ", SO ", cost(n.c[5]), " → ", cost(so)) : null,
      live.protected.has(line) ? make("span", {class: "never"}, " protected") : null); };
  return [make("h3", null, "A pad here"), make("p", {id: "pad"}, gainTold(x.gain, x.freed, x.count)),
    why.length ? make("p", {class: "never", id: "leak"}, "ruled out: " + why.join("; ")) : l.may ? null : make("p", {class: "soft", id: "leak"}, "never advised here: no net that a gate drives and something reads"),
    make("p", null, act("place", why.length ? "place it all the same" : "place a pad", "pads"), ...both),
    make("details", {id: "easier", open: listed.length < 13 ? "" : null}, make("summary", null, many(listed.length, "net") + " easier to see"), make("ul", {class: "tree"}, ...listed.map(part)))].filter(y => y);
}
