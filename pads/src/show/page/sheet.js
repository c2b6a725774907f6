// The review sheet: what privacy signs. It prints on paper, and everything on it is of the state in the address.
const sha = async text => {
  if (!globalThis.crypto || !crypto.subtle) return "no checksum here: this address is not one that browsers trust";
  const sum = await crypto.subtle.digest("SHA-256", new TextEncoder().encode(text));
  return [...new Uint8Array(sum)].map(b => b.toString(16).padStart(2, "0")).join("");
};
const rowsOf = (heads, rows) => make("table", null, make("tr", null, ...heads.map(h => make("th", {scope: "col"}, h))), ...rows.map(row => make("tr", null, ...row.map(x => make("td", null, x)))));
const change = (was, is) => was === is ? short(is) : `${short(was)} → ${short(is)}`;
function sheet() {
  const host = $("sheet");
  document.body.classList.toggle("sheet", !!state.sheet && !!live);
  host.hidden = !state.sheet || !live;
  if (host.hidden) return;
  const named = line => `${byLine.get(line).n} (line ${line})`, ease = l => rank(l.c[4]) < rank(l.before[4]) || rank(l.c[5]) < rank(l.before[5]);
  const easier = data.lines.filter(l => l.r && ease(l)), protectedLines = [...live.protected];
  // What each pad alone adds, in the order of their placing.
  let standing = live.none.slice();
  const pads = live.pads.map(line => {
    const {count, seen} = live.scoap.ask(live.lib, live.net, standing, line), falls = data.lines.filter(l => l.r && (seen[2 * l.l - 2] < standing[place(l.l, 4)] || seen[2 * l.l - 1] < standing[place(l.l, 5)]));
    const secret = falls.filter(l => live.protected.has(l.l)).map(l => named(l.l)), up = live.near.upstream.get(line);
    live.scoap.commit(live.lib, live.net, standing, line, count);
    return [named(line), byLine.get(line).s || "-", group(falls.length), secret.join(", ") || "none",
      [live.forbidden.has(line) ? "forbidden" : "", live.protected.has(line) ? "protected itself" : "", !live.protected.has(line) && live.near.carries.has(line) ? carriesTold(line) : "", up ? upstreamTold(up) : ""].filter(x => x).join("; ") || "-"];
  });
  const closest = line => live.pads.filter(pad => { const up = live.near.upstream.get(pad); return pad === line || up && up[0] === line; }).map(named).join(", ") || "none";
  const sums = make("table"), sum = (what, text) => {
    const at = make("code", null, "…");
    sums.append(make("tr", null, make("td", null, what), make("td", null, at)));
    sha(text).then(s => { at.textContent = s; }, e => { at.textContent = e.message; });
  };
  sum("library (lib.txt)", texts.lib);
  sum("netlist (net.txt)", texts.net);
  for (const [what, lines] of [["pads", live.pads], ["forbidden nets", [...live.forbidden]], ["protected nets", protectedLines]]) sum(`${what}: ${many(lines.length, "line")}`, lines.slice().sort((a, b) => a - b).map(line => line + "\n").join(""));
  host.replaceChildren(make("p", {class: "screen"}, make("button", {class: "do", onclick: () => print()}, "print"), " ", make("button", {class: "do", onclick: () => go({sheet: ""})}, "back to the nets")),
    make("h1", null, "Review sheet: " + data.title), make("p", null, data.summary), make("p", null, $("totals").textContent),
    make("h3", null, many(live.pads.length, "pad")), pads.length ? rowsOf(["pad", "source", "nets easier to see", "protected ones among them", "how near"], pads) : make("p", null, "No pad is placed."),
    make("h3", null, `${many(protectedLines.length, "protected net")}`),
    protectedLines.length ? rowsOf(["net", "CO", "SO", "pads on it or nearest upstream of it"], protectedLines.map(line => { const l = byLine.get(line); return [named(line), change(l.before[4], l.c[4]), change(l.before[5], l.c[5]), closest(line)]; })) : make("p", null, "None."),
    make("h3", null, `${many(easier.length, "net")} easier to see with all pads together`),
    easier.length ? rowsOf(["net", "CO", "SO", ""], easier.map(l => [named(l.l), change(l.before[4], l.c[4]), change(l.before[5], l.c[5]), live.protected.has(l.l) ? "protected" : ""])) : make("p", null, "None."),
    make("h3", null, "Checksums (SHA-256; of a list: its line numbers in order, one a line)"), sums,
    make("p", null, "Every CO and SO on this sheet: proved code, compiled by LLVM, run by a browser. Counts and orders are this page's own. A number tells what is seen through gates; it cannot tell what somebody learns from several pads together."),
    make("div", {class: "sign"}, make("div", null, "Layout: name, date"), make("div", null, "Privacy review: name, date")));
}
