// A model and a formula over its names, read together and made into messages.
import { Mistake, byDigits, byNumber, grouped, hint, wrongNumber } from "./names.mjs";
import { readModel } from "./model.mjs";
import { readFormula } from "./formula.mjs";

const LARGEST_ASKED = 255; // the largest action that a row can ask for
const LIMITS = { states: [1, 256], propositions: [0, 32], transitions: [0, 65535], rows: [1, 64] };

// What people from other checkers write, and how it is said here.
const ELSEWHERE = new Map(Object.entries({
    EF: "EF x is written E[true U x]",
    AF: "AF x is written A[true U x]",
    EG: "EG can't be said in this language",
    AG: "AG can't be said in this language",
    X: "X is written EX or AX",
    F: "F x is written E[true U x] or A[true U x]",
    G: "G can't be said in this language",
    not: "not x is written !x",
    and: "x and y is written (x & y)",
    or: "x or y is written (x | y)",
}));

/** A copy of a model to which a formula adds the states that it names: each takes the next free proposition. */
class Names {
    constructor(model) {
        this.own = model.propositions.length;
        this.model = { ...model, propositions: [...model.propositions], labels: model.labels.map((label) => new Set(label)) };
    }

    number(word, fail) {
        const { model, own } = this;
        const given = byNumber(word);
        if (given !== null) {
            if (given < own) return given;
            fail(`there is no proposition ${word}: the model has ${own} of its own, counted from p0`);
        }
        const known = model.propositions.indexOf(word);
        if (known >= 0) return known;
        const state = model.states.indexOf(word);
        if (state >= 0) {
            const number = model.propositions.push(word) - 1;
            model.labels[state].add(number);
            return number;
        }
        const names = [...model.propositions, ...model.states];
        const more = ELSEWHERE.has(word) ? ` (${ELSEWHERE.get(word)})` : hint(word, ["true", "false", ...names], names);
        return fail(`no proposition or state has the name ${word}${more}`);
    }

    /** The number of the action that a word behind EX# or AX# means. */
    action(word, fail) {
        if (byDigits(word)) {
            const wrong = wrongNumber(word, "action", LARGEST_ASKED);
            return wrong ? fail(wrong) : Number(word);
        }
        const numbers = new Map([...this.model.actions].map(([number, name]) => [name, number]));
        const names = [...numbers.keys()];
        if (!numbers.has(word)) fail(`no transition has the action ${word}${hint(word, names, names)}`);
        const number = numbers.get(word);
        if (number > LARGEST_ASKED) fail(`the action ${word} has the number ${number}, and a formula can ask for 0 to ${LARGEST_ASKED} only (mention it earlier in the model)`);
        return number;
    }
}

function* outside(path, what, count, more = "") {
    const [least, most] = LIMITS[what];
    if (count < least || count > most) {
        yield new Mistake(path, null, null, `${count} ${what}: ${least} to ${grouped(most)} are allowed${more}`);
    }
}

function* limits(model, own, rows) {
    const named = model.propositions.length - own;
    yield* outside("model", "states", model.states.length);
    yield* outside("model", "propositions", model.propositions.length, named ? ` (${named} for states that the formula names)` : "");
    yield* outside("model", "transitions", model.transitions.length);
    yield* outside("formula", "rows", rows.length);
}

/** A message of so many bytes, whose fields of 1, 2 or 4 bytes come one after another, most significant byte first. */
class Message {
    constructor(length) {
        this.bytes = new Uint8Array(length);
        this.at = 0;
    }

    put(sizes, numbers) {
        sizes.forEach((size, i) => {
            for (let shift = 8 * (size - 1); shift >= 0; shift -= 8) this.bytes[this.at++] = numbers[i] >>> shift;
        });
    }
}

function modelMessage({ states, propositions, labels, transitions }) {
    const message = new Message(13 + 4 * states.length + 10 * transitions.length);
    message.put([4, 1, 1, 2, 1, 4], [message.bytes.length, 2, 2, states.length, propositions.length, transitions.length]);
    for (const label of labels) message.put([4], [[...label].reduce((bits, i) => bits | (1 << i), 0)]);
    const sorted = [...transitions].sort((a, b) => a.source - b.source); // keeps the file's order within a state
    for (const { source, weight, action, target } of sorted) message.put([2, 4, 2, 2], [source, weight, action, target]);
    return message.bytes;
}

function formulaMessage(rows) {
    const message = new Message(7 + 8 * rows.length);
    message.put([4, 1, 1, 1], [message.bytes.length, 1, 3, rows.length]);
    for (const { operator, left, right, bound } of rows) message.put([1, 1, 1, 1, 4], [operator, left, right, 0, bound]);
    return message.bytes;
}

/**
 * Reads a question: `model` is the model where its text could be read, `messages` are the two messages where there is no mistake,
 * `propositions` the names of the propositions in them.
 */
export function compileQuestion(modelText, formulaText) {
    const found = { model: null, propositions: null, messages: null, mistakes: [] };
    try {
        found.model = readModel(modelText, "model");
        const names = new Names(found.model);
        const rows = readFormula(formulaText, "formula", (word, fail) => names.number(word, fail), (word, fail) => names.action(word, fail));
        found.mistakes = [...limits(names.model, names.own, rows)];
        if (!found.mistakes.length) {
            found.propositions = names.model.propositions;
            found.messages = [modelMessage(names.model), formulaMessage(rows)];
        }
    } catch (mistake) {
        if (!(mistake instanceof Mistake)) throw mistake;
        found.mistakes = [mistake];
    }
    return found;
}
