// The calls of include/scoap.h for TypeScript, as scoap.js has them. The header says what each does and what it leaves; here a
// refusal is thrown, and texts may be strings.

/** A text: a string, or its bytes. */
type ScoapText = string | Uint8Array;
/** A cost: a figure up to 999,999,999, or one of the two words above all figures. */
type ScoapCost = number | "over" | "never";

/** A call that is refused, in words. The line is 0 where the refusal belongs to none. */
interface ScoapRefused extends Error {
  readonly name: "Refused";
  readonly number: number;
  readonly line: number;
}

/** A call that was broken off: the module is thrown away, and every later call of the same load() throws this too. */
interface ScoapStopped extends Error {
  readonly name: "Stopped";
}

interface ScoapCalls {
  report(lib: ScoapText, net: ScoapText): string;
  plan(lib: ScoapText, net: ScoapText, line: number, value: 0 | 1, kind: 0 | 1): string;
  /** The entry of one line 'NAME,n,BITS' with its line end. */
  cell(line: ScoapText): string;
  built_in(): string;
  /** What never says of the chip: 0 nothing, 1 that no setting gives such a value, 2 exactly so. */
  qualifies(lib: ScoapText, net: ScoapText): 0 | 1 | 2;
  best(lib: ScoapText, net: ScoapText, budget: number): { steps: number; best: Uint32Array };
  /** line is 0, and largest null, where no line is allowed. */
  advise(lib: ScoapText, net: ScoapText, forbidden?: Iterable<number>): { line: number; largest: number | null };
  rank(lib: ScoapText, net: ScoapText, forbidden?: Iterable<number>): { allowed: number; ranks: Uint32Array };
  stand(lib: ScoapText, net: ScoapText): { standing: Uint32Array; report: string };
  ask(lib: ScoapText, net: ScoapText, standing: Uint32Array, line: number): { count: number; seen: Uint32Array };
  /** Changes the standing table, and answers the count of pads placed now. */
  commit(lib: ScoapText, net: ScoapText, standing: Uint32Array, line: number, count: number): number;
  /** Changes the standing table: 1 where the sweeps went on, 0 where it was analysed from the beginning. */
  change(lib: ScoapText, new_lib: ScoapText, net: ScoapText, standing: Uint32Array): 0 | 1;
  /** A call of the header by its name. Each list is lent and taken back; the answer may be a refusal. */
  call(name: string, ...given: (number | bigint | Uint8Array | Uint32Array)[]): number;
}

declare const Scoap: {
  readonly version: string;
  /** The header's constants without SCOAP_ before them: LINES, STANDING, OBSERVED, OVER, NEVER and the others. */
  readonly sizes: Readonly<Record<string, number>>;
  /** What a refusal's number means. */
  words(number: number): string;
  /** A number of a table as a cost. */
  cost(number: number): ScoapCost;
  /** New calls over the module inside scoap.js, or over the bytes of scoap.wasm. */
  load(code?: BufferSource): Promise<ScoapCalls>;
  readonly Refused: new (number: number, line: number) => ScoapRefused;
  readonly Stopped: new (why: string) => ScoapStopped;
};
