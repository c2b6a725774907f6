// Makes in the browser the calls that 'compare --record' wrote (tests/second/src/record.rs has the form): every byte of every
// slice afterwards and every answer must be as native code left them. tests/page puts it into a page with scoap.js.
(async () => {
  const tell = text => { document.getElementById("out").textContent = text; };
  try {
    const stream = Uint8Array.from(atob(document.getElementById("stream").textContent), c => c.charCodeAt(0)), view = new DataView(stream.buffer);
    const scoap = await Scoap.load(), calls = new Map(), refusals = new Set(), wrong = [];
    // What was lent, from one place to another of the stream.
    const given = (at, end) => {
      const list = [];
      while (at < end) {
        const kind = String.fromCharCode(stream[at]), n = view.getBigUint64(at + 1, true);
        at += 9;
        if (kind === "s") { list.push(n); continue; }
        const bytes = Number(n) * (kind === "u" ? 4 : 1), copy = stream.slice(at, at + bytes);
        list.push(kind === "u" ? new Uint32Array(copy.buffer) : copy);
        at += bytes;
      }
      return list;
    };
    const same = (a, b) => typeof a === "bigint" ? a === b : a.length === b.length && a.every((x, k) => x === b[k]);
    for (let at = 0; at < stream.length;) {
      const name = new TextDecoder().decode(stream.subarray(at + 1, at + 1 + stream[at]));
      at += 1 + stream[at];
      const size = view.getUint32(at, true), before = given(at + 4, at + 4 + size), after = given(at + 4 + size, at + 4 + 2 * size);
      at += 4 + 2 * size;
      const answer = Number(view.getBigUint64(at, true)), got = scoap.call(name, ...before);
      at += 8;
      if (got !== answer) wrong.push(`${name} answers ${got} instead of ${answer}`);
      else if (!before.every((x, k) => same(x, after[k]))) wrong.push(`${name} leaves other bytes`);
      calls.set(name, (calls.get(name) || 0) + 1);
      if (answer >= Scoap.sizes.REFUSED) refusals.add(Math.floor(answer / Scoap.sizes.REFUSED));
    }
    const all = [...calls.values()].reduce((a, b) => a + b, 0);
    tell(`${all} calls of ${calls.size} kinds, ${refusals.size} refusals met, ${wrong.length} differ ${wrong.slice(0, 5).join("; ")}`);
  } catch (error) {
    tell("broken off: " + error.message);
  }
})();
