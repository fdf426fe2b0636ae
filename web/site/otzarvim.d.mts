/** The types of otzarvim.mjs; include/otzarvim.h says what each function does. */

export type Refusal = "BUDGET" | "LENGTH" | "VERSION" | "LIMIT" | "ORDER" | "NAME" | "DEAD" | "SIZE" | "ROOM" | "FORM" | "PROFILE";
export type Verdict = "none" | "yes" | "no";

/** Every answer: the number and its name. */
export interface Numbered { number: number; name: "OK" | Refusal }
/** The offset of the field that is wrong; 0 where there is none. */
export interface Answer extends Numbered { offset: number }

export interface Question { model: Uint8Array; formula: Uint8Array }
/** Rooms are changed in place; one that is left out is made, and always suffices. */
export interface Rooms { bytes?: Uint8Array; values?: BigUint64Array }
export interface Solved extends Answer { count: number; length: number; bytes: Uint8Array; values: BigUint64Array }

export interface Library {
    /** A refusal has no counts. */
    otzarvim_graph_check(given: { message: Uint8Array }): Answer & { counts: { nodes: number; hyperedges: number; covers: number } | null };
    otzarvim_model_check(given: { message: Uint8Array }): Answer & { counts: { states: number; propositions: number; transitions: number } | null };
    otzarvim_formula_check(given: { message: Uint8Array; p: number }): Answer & { rows: number | null };
    otzarvim_rounds_solve(given: { message: Uint8Array; budget: number; room?: BigUint64Array }): Answer & { count: number; room: BigUint64Array };
    otzarvim_search(given: { message: Uint8Array; root: number; words?: Uint32Array }): Answer & { verdict: Verdict; count: bigint; words: Uint32Array };
    otzarvim_formula_text(given: { message: Uint8Array; p: number; room?: Uint8Array }): Answer & { length: number; room: Uint8Array };
    otzarvim_verdict(given: Question & Rooms & { state: number; budget: number }): Solved & { verdict: Verdict };
    otzarvim_graph(given: Question & { bytes?: Uint8Array }): Answer & { length: number; bytes: Uint8Array };
    /** `states.first` is the place among the values of state 0's number. */
    otzarvim_settle(given: Question & Rooms & { budget: number }): Solved & { states: { first: number; count: number } | null };
    otzarvim_claims_check(given: { message: Uint8Array; claims: Uint8Array }): Answer & { verdict: Verdict };
    otzarvim_claims_write(given: { message: Uint8Array; claims?: Uint8Array; words?: BigUint64Array }): Answer & { claims: Uint8Array; words: BigUint64Array };
    /** The tally's 15 numbers, in the order of the header's struct, are changed in place. */
    otzarvim_tally_enter(given: { tally: BigUint64Array; number: number; verdict: number; rounds: number }): Numbered & { tally: BigUint64Array };
    otzarvim_tally_report(given: { tally: BigUint64Array; room?: Uint8Array }): Numbered & { length: number; room: Uint8Array };
}

export const NUMBERS: readonly ["OK", ...Refusal[]];
export const VERDICTS: readonly Verdict[];
/** The stored value of a node that no finite number bounds. */
export const INFINITE: bigint;
/** The bound, in a message, that means no bound. */
export const NO_BOUND: number;
/** The limits on counts and rooms. */
export const MOST: Readonly<Record<"NODES" | "HYPEREDGES" | "TARGETS" | "COVERS" | "STATES" | "PROPOSITIONS" | "TRANSITIONS" | "ROWS" | "TEXT" | "GRAPH" | "VALUES" | "REPORT", number>>;

/** The library of a module: its bytes, or a response that has them, or the promise of either. */
export function load(source: BufferSource | Response | Promise<BufferSource | Response>): Promise<Library>;
