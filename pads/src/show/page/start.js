// Everything that is shown, and what the user does.
function guarded(work) {
  try {
    work();
  } catch (error) {
    // Whatever goes wrong with the calls, the numbers that native code wrote are shown.
    still(error.message);
    draw();
  }
}
function show() {
  guarded(() => {
    if (live) stand();
    draw();
  });
}
function draw() {
  if (live) showLive();
  for (const k of ["q", "min", "only", "fold"]) if ($(k).value !== state[k]) $(k).value = state[k];
  for (const k of ["registers", "all"]) $(k).checked = !!state[k];
  $("profiles").replaceChildren(...words.map((_, at) => profile(at)));
  table();
  panel();
  sheet();
}
function wordsPart() {
  const list = make("dl");
  for (const [key, text] of Object.entries(terms)) list.append(make("dt", null, heads[key] || (words.includes(key) ? key.toUpperCase() : key)), make("dd", null, text));
  $("words").append(list,
    make("p", null, make("b", null, "What this page holds: "), "the cell library and the netlist, whole, with the names and source lines of all nets. Whoever has this file has the design. It asks for nothing over a network and keeps nothing."),
    make("p", null, make("b", null, "What is trusted: "), "the six numbers come from proved code, compiled by LLVM, run by your browser. At waking the page holds every number to those that native code wrote when the page was made, and stays still where one differs. "
      + "Trusted besides are LLVM's compiler for WebAssembly, the browser, and the lines of JavaScript that lend memory to the calls. Sums, counts, orders, reasons of CO and SO and the drawings are this page's own: tested, not proved."));
}
function keys(e) {
  const tag = document.activeElement.tagName, typing = ["INPUT", "TEXTAREA"].includes(tag) && document.activeElement.type !== "checkbox";
  if (e.ctrlKey || e.metaKey || e.altKey) return;
  if (e.key === "/" && !typing) { e.preventDefault(); $("q").focus(); return; }
  if (e.key === "Escape") { document.activeElement.blur(); return; }
  if (tag === "SELECT" || typing && !["Enter", "ArrowDown", "ArrowUp"].includes(e.key) || document.activeElement.type === "number" && e.key !== "Enter") return;
  const rows = items.filter(item => item.l), at = rows.findIndex(item => String(item.l.l) === state.line);
  const to = e.key === "ArrowDown" ? at + 1 : e.key === "ArrowUp" ? Math.max(0, at - 1) : e.key === "Enter" && typing ? 0 : -1;
  if (to < 0 || to >= rows.length) return;
  e.preventDefault();
  go({line: String(rows[to].l.l), of: ""}, true);
  reveal();
}
function start() {
  document.title = "Pads: " + data.title;
  $("title").textContent = data.title;
  $("summary").textContent = data.summary + (data.pads.length ? "; made with pads on " + data.pads.map(l => byLine.get(l).n).join(", ") : "");
  $("nevers").append(...data.nevers.map(t => make("p", {class: "never"}, t)));
  $("warnings").append(...data.warnings.map(t => make("p", null, t)));
  for (const k of ["only", "fold"]) $(k).append(...Object.entries(choices[k]).map(([value, told]) => option(value, told)));
  wordsPart();
  for (const k of ["q", "min"]) $(k).addEventListener("input", e => go({[k]: reads[k](e.target.value)}, true));
  for (const k of ["only", "fold"]) $(k).addEventListener("change", e => go({[k]: e.target.value}));
  for (const k of ["registers", "all"]) $(k).addEventListener("change", e => go({[k]: e.target.checked ? "1" : ""}));
  $("clear").addEventListener("click", () => go({q: "", registers: "", min: "", bar: "", only: ""}));
  $("rows").addEventListener("scroll", scrolled, {passive: true});
  addEventListener("popstate", () => { read(); show(); reveal(); });
  addEventListener("keydown", keys);
  // On paper all rows stand.
  addEventListener("beforeprint", () => drawRows(true));
  addEventListener("afterprint", () => drawRows());
  read();
  const asked = {...state};
  draw();
  reveal();
  $("whole").hidden = true;
  if (damaged.includes("data")) {
    $("whole").textContent = "This page is damaged: its data cannot be read. Have it made anew.";
    $("whole").hidden = false;
    return;
  }
  wake().then(() => { Object.assign(state, asked); show(); reveal(); }, e => { still(e.message); draw(); });
}
try {
  start();
} catch (error) {
  $("whole").hidden = false;
  $("whole").textContent = "This page is damaged: " + error.message + ". Have it made anew.";
}
