// The calls of include/scoap.h as WebAssembly: proved code, compiled by LLVM, run by a browser. Here memory is lent to a call
// and taken back after it, and a refusal becomes an error in words. Nothing is calculated here. pads/wasm writes
// SCOAP_HEADER (sizes and words of the header) and SCOAP_MODULE (the module in base64) before these lines.
const Scoap = (() => {
  const {version, sizes, words} = SCOAP_HEADER;
  const told = number => words[number] || "the analyser refuses it";
  const cost = number => number < sizes.OVER ? number : number === sizes.OVER ? "over" : "never";

  // A call that is refused: the refusal's number, and the line of the text that it belongs to, 0 where it belongs to none.
  class Refused extends Error {
    constructor(number, line) {
      super(`${told(number)} (refusal ${number}${line ? `, line ${line}` : ""})`);
      Object.assign(this, {name: "Refused", number, line});
    }
  }

  // A call that was broken off. What it left in its memory is nothing to go on with: load() makes new calls.
  class Stopped extends Error {
    constructor(why) {
      super("the module was broken off and thrown away: " + why);
      this.name = "Stopped";
    }
  }

  // Lends every list of numbers to a call, each at a place of its own above the stack, and takes it back into the same list.
  function lending(instance) {
    let exports = instance.exports, stopped = "";
    const even = at => (at + 63) & ~63, base = even(exports.__heap_base.value);
    return (name, ...given) => {
      if (!exports) throw new Stopped(stopped);
      let top = base;
      const lists = given.filter(x => ArrayBuffer.isView(x)).map(list => {
        const at = top;
        top = even(at + list.byteLength + 1);
        return {list: new Uint8Array(list.buffer, list.byteOffset, list.byteLength), at};
      });
      const short = top - exports.memory.buffer.byteLength;
      if (short > 0) exports.memory.grow(Math.ceil(short / 65536));
      const memory = new Uint8Array(exports.memory.buffer), args = [];
      let next = 0;
      for (const x of given) {
        if (!ArrayBuffer.isView(x)) args.push(BigInt.asUintN(64, BigInt(x)));
        else {
          const {list, at} = lists[next++];
          memory.set(list, at);
          args.push(at, BigInt(x.length));
        }
      }
      let answer;
      try {
        answer = Number(BigInt.asUintN(64, exports[name](...args)));
      } catch (error) {
        stopped = error.message;
        exports = null;
        throw new Stopped(stopped);
      }
      for (const {list, at} of lists) list.set(memory.subarray(at, at + list.length));
      return answer;
    };
  }

  function calls(instance) {
    const call = lending(instance), encoder = new TextEncoder(), decoder = new TextDecoder();
    const text = x => typeof x === "string" ? encoder.encode(x) : x;
    const accepted = (...given) => {
      const answer = call(...given);
      if (answer >= sizes.REFUSED) throw new Refused(Math.floor(answer / sizes.REFUSED), answer % sizes.REFUSED);
      return answer;
    };
    const written = (name, room, ...given) => {
      const buffer = new Uint8Array(room);
      return decoder.decode(buffer.subarray(0, accepted(name, ...given, buffer)));
    };
    return {
      // A call by its own name, over lists of numbers as they are: answers the number that it answers.
      call,
      report: (lib, net) => written("scoap_report", sizes.MOST_REPORTS, text(lib), text(net)),
      plan: (lib, net, line, value, kind) => written("scoap_plan", sizes.REFUSED - 1, text(lib), text(net), line, value, kind),
      cell: line => written("scoap_cell", sizes.MOST_ENTRY, text(line)),
      built_in: () => written("scoap_built_in", sizes.BUILT_IN),
      qualifies: (lib, net) => accepted("scoap_qualifies", text(lib), text(net)),
      best(lib, net, budget) {
        const best = new Uint32Array(sizes.BEST);
        return {steps: accepted("scoap_best", text(lib), text(net), budget, best), best};
      },
      advise(lib, net, forbidden = []) {
        const largest = new Uint32Array(1), line = accepted("scoap_advise", text(lib), text(net), Uint32Array.from(forbidden), largest);
        return {line, largest: line ? largest[0] : null};
      },
      rank(lib, net, forbidden = []) {
        const ranks = new Uint32Array(sizes.RANKS);
        return {allowed: accepted("scoap_rank", text(lib), text(net), Uint32Array.from(forbidden), ranks), ranks};
      },
      stand(lib, net) {
        const standing = new Uint32Array(sizes.STANDING);
        let report = new Uint8Array(sizes.MOST_REPORTS);
        report = report.subarray(0, accepted("scoap_stand", text(lib), text(net), standing, report));
        return {standing, report: decoder.decode(report)};
      },
      ask(lib, net, standing, line) {
        const seen = new Uint32Array(sizes.OBSERVED);
        return {count: accepted("scoap_ask", text(lib), text(net), standing, line, seen), seen};
      },
      commit: (lib, net, standing, line, count) => accepted("scoap_commit", text(lib), text(net), standing, line, count),
      change: (lib, new_lib, net, standing) => accepted("scoap_change", text(lib), text(new_lib), text(net), standing),
    };
  }

  async function load(code) {
    if (typeof WebAssembly !== "object") throw new Error("this browser has no WebAssembly");
    if (!code && !SCOAP_MODULE) throw new Error("it was built without WebAssembly");
    code = code || Uint8Array.from(atob(SCOAP_MODULE), c => c.charCodeAt(0));
    return calls((await WebAssembly.instantiate(code, {})).instance);
  }

  return {version, sizes, words: told, cost, load, Refused, Stopped};
})();
globalThis.Scoap = Scoap;
