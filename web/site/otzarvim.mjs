// The proved library as WebAssembly: the functions of include/otzarvim.h by their names.
//
//   const library = await load(fetch("otzarvim.wasm"));      // a Response, or its promise, or the bytes
//   library.otzarvim_verdict({ model, formula, state: 3, budget: 4096 });
//   // { number: 0, name: "OK", offset: 0, verdict: "yes", count: 4, length: 140, bytes: .., values: .. }
//
// A call takes one object whose fields have the names of the C parameters, without the lengths: messages are Uint8Arrays, and
// rooms are typed arrays that are changed in place, or are left out for new ones that always suffice. What C gets back through a
// pointer is a field of the answer. Arguments that are not of this form are a TypeError before anything is called.
// otzarvim.d.mts has the types.

export const NUMBERS = Object.freeze(["OK", "BUDGET", "LENGTH", "VERSION", "LIMIT", "ORDER", "NAME", "DEAD", "SIZE", "ROOM", "FORM", "PROFILE"]);
export const VERDICTS = Object.freeze(["none", "yes", "no"]);
export const INFINITE = 0xffff_ffff_ffff_ffffn;
export const NO_BOUND = 0xffff_ffff;
export const MOST = Object.freeze({
    NODES: 4096, HYPEREDGES: 65535, TARGETS: 262144, COVERS: 4096, STATES: 256, PROPOSITIONS: 32, TRANSITIONS: 65535, ROWS: 64,
    TEXT: 2048, GRAPH: 1867786, VALUES: 8192, REPORT: 315,
});

// The kinds of parameters. `words` are how many WebAssembly gets: a pointer, or a pointer and a length.

/** A message: read only. */
const message = (name) => ({ name, kind: "message", type: Uint8Array, words: 2, lent: true });
/** A room that is changed in place; `most` says how long one is that always suffices. */
const room = (name, type, most) => ({ name, kind: "room", type, most, words: 2, lent: true });
/** So many numbers without a length that are read, and written where `changed`. */
const record = (name, type, length, changed) => ({ name, kind: "record", type, length, changed, words: 1, lent: true });
/** A number of so many bits. */
const number = (name, bits) => ({ name, kind: "number", bits });
/** What comes back through a pointer; `turned` makes of the numbers what the answer has, `kept` if a refusal leaves them. */
const back = (name, type, length, turned, kept = false) => ({ name, kind: "back", type, length, turned, kept, words: 1 });

const plain = ([n]) => Number(n);
const bytes8 = (name, most) => room(name, Uint8Array, most);
const words32 = (name, most) => room(name, Uint32Array, most);
const words64 = (name, most) => room(name, BigUint64Array, most);
const verdict = back("verdict", Uint8Array, 1, ([n]) => VERDICTS[n]);
const count = back("count", Uint32Array, 1, plain);
const size = (name) => back(name, BigUint64Array, 1, plain); // size_t has 64 bits in the library, here too
const offset = size("offset");
const counts = (...names) => back("counts", Uint32Array, 3, (all) => Object.fromEntries(names.map((name, i) => [name, all[i]])), true);
const question = [message("model"), message("formula")];
const rooms = [bytes8("bytes", MOST.GRAPH), words64("values", MOST.VALUES)];

// Of words for a search: 4n + 8h + 4t, by the numbers that the message itself claims; any other message is refused before.
const searched = ({ message }) => {
    if (message.length < 14) return 0;
    const at = new DataView(message.buffer, message.byteOffset);
    const [n, h] = [at.getUint16(6), at.getUint32(8)];
    const targets = Math.max(0, Math.floor((message.length - 14 - 4 * h) / 6));
    return n > MOST.NODES || h > MOST.HYPEREDGES ? 0 : 4 * n + 8 * h + 4 * Math.min(targets, MOST.TARGETS);
};

// A row for each function: its parameters in the order of C. A function that the module doesn't have is left out.
const FUNCTIONS = {
    otzarvim_graph_check: [message("message"), counts("nodes", "hyperedges", "covers"), offset],
    otzarvim_model_check: [message("message"), counts("states", "propositions", "transitions"), offset],
    otzarvim_formula_check: [message("message"), number("p", 32), back("rows", Uint32Array, 1, plain, true), offset],
    otzarvim_rounds_solve: [message("message"), number("budget", 32), words64("room", MOST.VALUES), count, offset],
    otzarvim_search: [message("message"), number("root", 32), words32("words", searched), verdict, back("count", BigUint64Array, 1, ([n]) => n), offset],
    otzarvim_formula_text: [message("message"), number("p", 32), bytes8("room", MOST.TEXT), size("length"), offset],
    otzarvim_verdict: [...question, number("state", 32), number("budget", 32), ...rooms, verdict, count, size("length"), offset],
    otzarvim_graph: [...question, bytes8("bytes", MOST.GRAPH), size("length"), offset],
    otzarvim_settle: [...question, number("budget", 32), ...rooms, count, size("length"),
        back("states", Uint32Array, 2, ([first, states]) => ({ first, count: states }), true), offset],
    otzarvim_claims_check: [message("message"), message("claims"), verdict, offset],
    otzarvim_claims_write: [message("message"), bytes8("claims", 16 * MOST.NODES), words64("words", 8 * MOST.NODES), offset],
    otzarvim_tally_enter: [record("tally", BigUint64Array, 15, true), number("number", 8), number("verdict", 8), number("rounds", 32)],
    otzarvim_tally_report: [record("tally", BigUint64Array, 15, false), bytes8("room", MOST.REPORT), size("length")],
};

const typeName = (value) => (value === null ? "null" : typeof value === "object" ? (value.constructor?.name ?? "an object") : typeof value);

/** The argument of a parameter, or a TypeError that says what is wrong with it. */
function argument(call, parameter, given) {
    const { name, kind, type } = parameter;
    const fail = (words) => { throw new TypeError(`${call}: ${name} ${words}`); };
    let value = given[name];
    if (kind === "number") {
        const most = 2 ** parameter.bits - 1;
        if (!Number.isInteger(value) || value < 0 || value > most) {
            fail(value === undefined ? "is missing" : `must be a whole number from 0 to ${most}, not ${typeof value === "number" ? value : typeName(value)}`);
        }
        return value;
    }
    if (kind === "room" && value === undefined) {
        value = new type(typeof parameter.most === "function" ? parameter.most(given) : parameter.most);
    }
    if (value === undefined) fail("is missing");
    if (!(value instanceof type)) fail(`must be a ${type.name}, not ${typeName(value)}`);
    if (kind === "record" && value.length !== parameter.length) fail(`must have ${parameter.length} numbers, not ${value.length}`);
    return value;
}

const overlap = (a, b) => a.buffer === b.buffer && a.byteOffset < b.byteOffset + b.byteLength && b.byteOffset < a.byteOffset + a.byteLength;

/** All arguments of a call by name. Nothing that is written may share memory with anything else that is lent. */
function checked(call, parameters, given) {
    if (given === null || typeof given !== "object") throw new TypeError(`${call}: one object with its arguments is expected, not ${typeName(given)}`);
    const asked = parameters.filter((parameter) => parameter.kind !== "back");
    for (const name of Object.keys(given)) {
        if (!asked.some((parameter) => parameter.name === name)) {
            throw new TypeError(`${call}: there is no argument ${name}: it has ${asked.map((parameter) => parameter.name).join(", ")}`);
        }
    }
    const values = {};
    for (const parameter of asked) values[parameter.name] = argument(call, parameter, { ...given, ...values });
    const lent = asked.filter((parameter) => parameter.lent);
    for (const written of lent.filter(({ kind, changed }) => kind === "room" || changed)) {
        for (const other of lent) {
            if (other !== written && overlap(values[written.name], values[other.name])) {
                throw new TypeError(`${call}: ${written.name} and ${other.name} share memory`);
            }
        }
    }
    return values;
}

/** Memory behind all that the module has for itself, lent anew for each call. */
class Lender {
    constructor(memory) {
        this.memory = memory;
        this.start = memory.buffer.byteLength;
        this.next = this.start;
    }

    /** The place of so many bytes, where any number may stand. */
    lend(size) {
        const at = this.next;
        this.next += Math.ceil(size / 8) * 8;
        const missing = this.next - this.memory.buffer.byteLength;
        if (missing > 0) this.memory.grow(Math.ceil(missing / 65536));
        return at;
    }

    bytes(at, size) {
        return new Uint8Array(this.memory.buffer, at, size);
    }

    end() {
        this.next = this.start;
    }
}

const asBytes = (array) => new Uint8Array(array.buffer, array.byteOffset, array.byteLength);

function caller(call, parameters, code, lender) {
    return (given) => {
        const values = checked(call, parameters, given);
        try {
            const words = [];
            const places = new Map();
            for (const parameter of parameters) {
                if (parameter.kind === "number") {
                    words.push(values[parameter.name]);
                    continue;
                }
                const array = parameter.lent ? values[parameter.name] : new parameter.type(parameter.length);
                const at = lender.lend(array.byteLength);
                places.set(parameter, at);
                lender.bytes(at, array.byteLength).set(asBytes(array));
                words.push(at);
                if (parameter.words === 2) words.push(BigInt(array.length));
            }
            const result = code(...words) & 255; // the other bits of the word mean nothing
            const answer = { number: result, name: NUMBERS[result] };
            for (const [parameter, at] of places) {
                const { name, kind, type } = parameter;
                if (kind === "room" || parameter.changed) {
                    asBytes(values[name]).set(lender.bytes(at, values[name].byteLength));
                    answer[name] = values[name];
                } else if (kind === "back") {
                    const array = new type(lender.bytes(at, parameter.length * type.BYTES_PER_ELEMENT).slice().buffer);
                    answer[name] = parameter.kept && result !== 0 ? null : parameter.turned(array);
                }
            }
            return answer;
        } finally {
            lender.end();
        }
    };
}

/** The library of a module: a function for each that it exports. */
export async function load(source) {
    const given = await source;
    const code = typeof Response !== "undefined" && given instanceof Response ? await given.arrayBuffer() : given;
    const { instance } = await WebAssembly.instantiate(code, {});
    const lender = new Lender(instance.exports.memory);
    const library = {};
    for (const [name, exported] of Object.entries(instance.exports)) {
        if (typeof exported !== "function") continue;
        if (!Object.hasOwn(FUNCTIONS, name)) throw new Error(`the module exports ${name}, which this script doesn't know`);
        library[name] = caller(name, FUNCTIONS[name], exported, lender);
    }
    return Object.freeze(library);
}
