// Runs in Node: the stored batch of `trials` through the library in target/web, every line compared; the module's own refusals; and the
// language of models and formulas, by the cases that the tools' tests run too. `bash web/test.sh` builds first.
import assert from "node:assert/strict";
import { readFileSync } from "node:fs";
import { load, MOST, NUMBERS } from "../target/web/otzarvim.mjs";
import { compileQuestion } from "../target/web/language/question.mjs";

const root = new URL("../", import.meta.url);
const read = (path) => readFileSync(new URL(path, root));
const library = await load(read("target/web/otzarvim.wasm"));
const say = (words) => console.log(`test: ${words}`);

// What the module exports is what the header declares.
{
    const declared = [...read("include/otzarvim.h").toString().matchAll(/^uint8_t (otzarvim_[a-z_]*)/gm)].map(([, name]) => name);
    const module = new WebAssembly.Module(read("target/web/otzarvim.wasm"));
    assert.deepEqual(Object.keys(library).sort(), declared.sort());
    assert.deepEqual(WebAssembly.Module.imports(module), []);
    assert.deepEqual(WebAssembly.Module.exports(module).map(({ name }) => name).filter((name) => name !== "memory").sort(), declared);
    const types = read("web/site/otzarvim.d.mts").toString();
    for (const name of declared) assert.match(types, new RegExp(`\\b${name}\\??\\(`), `otzarvim.d.mts has no ${name}`);
    say(`the module exports what the header declares, ${declared.length} functions, and imports nothing`);
}

// The batch. A call is a letter, a size, its numbers, and its messages, each with its length.
function adler(array) {
    let [a, b] = [1, 0];
    const add = (byte) => {
        a = (a + byte) % 65521;
        b = (b + a) % 65521;
    };
    for (const number of array) {
        for (let i = array.BYTES_PER_ELEMENT - 1; i >= 0; i--) {
            add(typeof number === "bigint" ? Number((number >> BigInt(8 * i)) & 255n) : (number >>> (8 * i)) & 255);
        }
    }
    return (((b << 16) | a) >>> 0).toString(16).padStart(8, "0");
}

const byteRoom = (length) => Uint8Array.from({ length }, (_, i) => i % 251);
const wordRoom = (length) => Uint32Array.from({ length }, (_, i) => i + 1);
const valueRoom = (length) => BigUint64Array.from({ length }, (_, i) => BigInt(i + 1));
const start = ({ number, offset }) => [number, offset];

// How many numbers each letter has, how many messages, and the fields of its line.
const LETTERS = {
    G: [0, 1, (_, [message]) => start(library.otzarvim_graph_check({ message }))],
    M: [0, 1, (_, [message]) => start(library.otzarvim_model_check({ message }))],
    F: [1, 1, ([p], [message]) => start(library.otzarvim_formula_check({ message, p }))],
    T: [2, 1, ([p, length], [message]) => {
        const found = library.otzarvim_formula_text({ message, p, room: byteRoom(length) });
        return [...start(found), found.length, adler(found.room)];
    }],
    R: [2, 1, ([budget, length], [message]) => {
        const found = library.otzarvim_rounds_solve({ message, budget, room: valueRoom(length) });
        return [...start(found), found.count, adler(found.room)];
    }],
    V: [4, 2, ([state, budget, bytes, values], [model, formula]) => {
        const found = library.otzarvim_verdict({ model, formula, state, budget, bytes: byteRoom(bytes), values: valueRoom(values) });
        alike(found, { model, formula, state, budget });
        return [...start(found), found.verdict, found.count, found.length, adler(found.bytes), adler(found.values)];
    }],
    S: [2, 1, ([root, length], [message]) => {
        const found = library.otzarvim_search({ message, root, words: wordRoom(length) });
        const roomy = library.otzarvim_search({ message, root }); // a room that is left out suffices
        assert.deepEqual(roomy.name, found.name === "ROOM" ? "OK" : found.name);
        if (found.name === "OK") assert.deepEqual([roomy.verdict, roomy.count], [found.verdict, found.count]);
        return [...start(found), found.verdict, found.count, adler(found.words)];
    }],
    C: [0, 2, (_, [message, claims]) => {
        const found = library.otzarvim_claims_check({ message, claims });
        return [...start(found), found.verdict];
    }],
    W: [2, 1, ([claims, words], [message]) => {
        const found = library.otzarvim_claims_write({ message, claims: byteRoom(claims), words: valueRoom(words) });
        if (found.number !== 0) return [...start(found), "none", "00000001", adler(found.claims), adler(found.words)];
        const n = library.otzarvim_graph_check({ message }).counts.nodes;
        const own = found.claims.subarray(0, 16 * n);
        const { verdict } = library.otzarvim_claims_check({ message, claims: own });
        return [...start(found), verdict, adler(own.filter((_, i) => i % 16 < 8)), adler(found.claims.subarray(16 * n)), adler(found.words)];
    }],
    N: [0, 1, (_, [entries]) => {
        const tally = new BigUint64Array(15);
        const answers = new Uint8Array(entries.length / 6);
        answers.forEach((_, i) => {
            const [kind, number] = entries.subarray(6 * i);
            const rounds = new DataView(entries.buffer, entries.byteOffset + 6 * i).getUint32(2);
            answers[i] = library.otzarvim_tally_enter({ tally, number, verdict: kind === 2 ? 0 : kind + 1, rounds }).number;
        });
        const report = library.otzarvim_tally_report({ tally });
        const numbers = new TextDecoder().decode(report.room.subarray(0, report.length)).trimEnd().split("\n");
        return [answers.filter((answer) => answer === 0).length, adler(answers), ...numbers];
    }],
};

// The two functions that no letter calls answer as otzarvim_verdict did, with the same rooms.
let both = 0;
function alike(found, { model, formula, state, budget }) {
    const all = library.otzarvim_settle({ model, formula, budget, bytes: byteRoom(found.bytes.length), values: valueRoom(found.values.length) });
    if (found.name === "NAME" && found.offset === 0) {
        return;
    }
    assert.deepEqual([all.number, all.offset, all.count, all.length], [found.number, found.offset, found.count, found.length]);
    assert.deepEqual(all.bytes, found.bytes);
    assert.deepEqual(all.values, found.values);
    if (all.number === 0) assert.equal(all.values[all.states.first + state] === 0n ? "yes" : "no", found.verdict);
    const built = library.otzarvim_graph({ model, formula, bytes: byteRoom(found.bytes.length) });
    if (found.name === "OK" || found.name === "BUDGET") {
        assert.deepEqual([built.number, built.length], [0, found.length]);
        assert.deepEqual(built.bytes, found.bytes);
    }
    both++;
}

{
    const batch = read("crates/trials/stdin");
    const expected = read("crates/trials/stdout").toString().trimEnd().split("\n");
    const found = {};
    let at = 0;
    let line = 0;
    while (at < batch.length) {
        const letter = String.fromCharCode(batch[at]);
        const end = at + 5 + batch.readUInt32BE(at + 1);
        at += 5;
        const [numbers, messages, fields] = LETTERS[letter];
        const next = () => batch.readUInt32BE((at += 4) - 4);
        const words = Array.from({ length: numbers }, next);
        const bodies = Array.from({ length: messages }, () => {
            const length = next();
            return new Uint8Array(batch.subarray(at, (at += length)));
        });
        assert.equal(at, end);
        assert.equal([letter, ...fields(words, bodies)].join(" "), expected[line], `line ${line + 1} of the batch`);
        found[letter] = (found[letter] ?? 0) + 1;
        line++;
    }
    assert.equal(line, expected.length);
    say(`the stored batch: ${line} of ${expected.length} lines are as stored (${Object.entries(found).map(([letter, n]) => `${letter} ${n}`).join(", ")})`);
    say(`otzarvim_settle and otzarvim_graph answered ${both} of its questions as otzarvim_verdict did`);
}

// What is no argument is told before the call.
{
    const message = new Uint8Array(3);
    const [model, formula] = [message, message];
    const shared = new Uint8Array(64);
    const refused = [
        [() => library.otzarvim_graph_check(), "one object"],
        [() => library.otzarvim_graph_check({}), "message is missing"],
        [() => library.otzarvim_graph_check({ message: "abc" }), "message must be a Uint8Array, not string"],
        [() => library.otzarvim_graph_check({ message: [1, 2] }), "message must be a Uint8Array, not Array"],
        [() => library.otzarvim_graph_check({ message: null }), "message must be a Uint8Array, not null"],
        [() => library.otzarvim_graph_check({ message, mesage: message }), "there is no argument mesage"],
        [() => library.otzarvim_formula_check({ message }), "p is missing"],
        [() => library.otzarvim_formula_check({ message, p: -1 }), "p must be a whole number from 0 to 4294967295, not -1"],
        [() => library.otzarvim_formula_check({ message, p: 1.5 }), "not 1.5"],
        [() => library.otzarvim_formula_check({ message, p: 2 ** 32 }), "not 4294967296"],
        [() => library.otzarvim_formula_check({ message, p: 1n }), "not bigint"],
        [() => library.otzarvim_rounds_solve({ message, budget: 1, room: new Uint32Array(4) }), "room must be a BigUint64Array, not Uint32Array"],
        [() => library.otzarvim_graph({ model: shared.subarray(0, 9), formula, bytes: shared.subarray(8) }), "bytes and model share memory"],
    ];
    for (const [act, words] of refused) {
        assert.throws(act, (error) => error instanceof TypeError && error.message.includes(words), words);
    }
    assert.equal(library.otzarvim_graph({ model, formula }).name, "LENGTH");
    assert.equal(library.otzarvim_verdict({ model, formula, state: 0, budget: 0 }).bytes.length, MOST.GRAPH);
    const far = 2 ** 32 - 1;
    assert.equal(library.otzarvim_verdict({ model, formula, state: far, budget: far, bytes: new Uint8Array(0), values: new BigUint64Array(0) }).name, "LENGTH");
    assert.equal(NUMBERS.length, 12);
    say(`${refused.length} calls with bad arguments are told before the call`);
}

// The language, by the cases of the tools.
{
    const cases = JSON.parse(read("tools/tests/language.json"));
    for (const { model, formula, messages, mistakes } of cases) {
        const found = compileQuestion(model, formula);
        const told = JSON.stringify({ model, formula });
        assert.deepEqual(found.mistakes.map(({ path, line, column, words }) => [path, line, column].filter((part) => part !== null).join(":") + `: ${words}`), mistakes ?? [], told);
        const hex = (bytes) => Buffer.from(bytes).toString("hex");
        assert.deepEqual(found.messages?.map(hex) ?? null, messages ?? null, told);
    }
    say(`${cases.length} cases of the language are as in tools/tests/language.json`);
}
