// The text of models, read: states, propositions, labels, transitions and actions by number, with their names.
import { ACTION, BLANK, Mistake, byDigits, hint, strip, words, wrongName, wrongNumber, wrongPropositionName, wrongStateName } from "./names.mjs";

const LARGEST_WEIGHT = 4294967295;
const LARGEST_ACTION = 65535;
const STATE = new RegExp(`^(?:state[${BLANK}]+)?([^${BLANK}:]+)[${BLANK}]*(?::([^\\n]*))?$`);

// A name of its own is expected behind the word, so that a state may be called expect or question.
const ASKED = new RegExp(`^(question|expect)[${BLANK}]+(?!->)([^:]*?)[${BLANK}]*:([^\\n]*)$`);

// What stands before a # that is no comment's, if a name or a number follows it at once.
const WEIGHED = new RegExp(`^[^#]*->[${BLANK}]*[^${BLANK}#]+[${BLANK}]+[^${BLANK}#]+[${BLANK}]*(#[^]*)?$`);
const NEXT = /(?<![A-Za-z0-9_])[EA]X$/;

class Reader {
    constructor(path) {
        this.path = path;
        this.states = [];
        this.propositions = [];
        this.labels = []; // a set for each state
        this.transitions = []; // { source, weight, target, action }
        this.acting = []; // each transition whose action has a name, that name, its line
        this.numbers = new Map(); // of the states
        this.known = new Map(); // of the propositions
        this.declared = false; // a propositions line stood above
        this.labelled = new Map(); // the line of each state's own line
        this.labelLines = [];
        this.questions = new Map(); // the line of each question, by its name
        this.expected = []; // the words before the colon, and the line
    }

    fail(line, said) {
        throw new Mistake(this.path, line, null, said);
    }

    /** The number of a state, which is new at its first mention. */
    state(name, line) {
        const wrong = wrongStateName(name);
        if (wrong) this.fail(line, wrong);
        if (!this.numbers.has(name)) {
            this.numbers.set(name, this.states.length);
            this.states.push(name);
            this.labels.push(new Set());
        }
        return this.numbers.get(name);
    }

    addProposition(name, line) {
        const number = this.propositions.length;
        const wrong = wrongPropositionName(name, number);
        if (wrong) this.fail(line, wrong);
        this.propositions.push(name);
        this.known.set(name, number);
        return number;
    }

    /** The names of a comma-separated list, each once. */
    listOf(text, line) {
        if (!text) this.fail(line, "the list is empty");
        const seen = new Set();
        for (const name of text.split(",").map(strip)) {
            if (!name) this.fail(line, "a name is missing beside a comma");
            if (seen.has(name)) this.fail(line, `${name} stands twice`);
            seen.add(name);
        }
        return [...seen];
    }

    propositionsLine(text, line) {
        if (this.labelled.size) this.fail(line, "propositions are listed before the first state's line");
        this.declared = true;
        for (const name of this.listOf(text, line)) {
            if (this.known.has(name)) this.fail(line, `${name} stands twice`);
            this.addProposition(name, line);
        }
    }

    stateLine(text, line) {
        const found = STATE.exec(text);
        if (!found) this.fail(line, `not a state's line: '${text}' (as: state cold: idle, safe)`);
        const [name, labels] = [found[1], strip(found[2] ?? "")];
        const state = this.state(name, line);
        if (this.labelled.has(name)) this.fail(line, `state ${name} has its line already, line ${this.labelled.get(name)}`);
        this.labelled.set(name, line);
        for (const label of labels ? this.listOf(labels, line) : []) {
            const number = this.label(label, line);
            this.labelLines.push([state, number, line]);
            this.labels[state].add(number);
        }
    }

    /** The number of a proposition, which is new at its first mention unless all are listed. */
    label(name, line) {
        if (this.known.has(name)) return this.known.get(name);
        if (this.declared) this.fail(line, `${name} isn't among the propositions listed above${hint(name, this.propositions, this.propositions)}`);
        return this.addProposition(name, line);
    }

    transitionLine(text, line) {
        const at = text.indexOf("->");
        const left = strip(text.slice(0, at));
        const sign = text.indexOf("#", at);
        const right = words(text.slice(at + 2, sign < 0 ? undefined : sign));
        if (!left || right.length !== 2) {
            this.fail(line, `not a transition: '${text}'${left && right.length === 1 ? " (its weight is missing)" : ""} (as: cold -> hot 12)`);
        }
        const source = this.state(left, line);
        const target = this.state(right[0], line);
        const wrong = wrongNumber(right[1], "weight", LARGEST_WEIGHT);
        if (wrong) this.fail(line, wrong);
        const action = sign < 0 ? 0 : this.action(strip(text.slice(sign + 1)), text, line);
        this.transitions.push({ source, weight: Number(right[1]), target, action });
    }

    /** The number of an action; 0 for now where it has a name. */
    action(word, text, line) {
        if (ACTION.exec(word)?.[0] !== word) {
            this.fail(line, `not a transition: '${text}' (one action can stand behind the weight, as: cold -> hot 12 #compile; a comment has a blank behind its #)`);
        }
        const wrong = byDigits(word) ? wrongNumber(word, "action", LARGEST_ACTION) : wrongName(word, "an action");
        if (wrong) this.fail(line, wrong);
        if (byDigits(word)) return Number(word);
        this.acting.push([this.transitions.length, word, line]);
        return 0;
    }

    /** Names are numbered from 1, as they are first mentioned; numbers that the text gives by themselves are passed over. */
    numberActions() {
        const given = new Set(this.transitions.map(({ action }) => action));
        const numbers = new Map();
        let last = 0;
        for (const [at, name, line] of this.acting) {
            if (!numbers.has(name)) {
                do last++;
                while (given.has(last));
                numbers.set(name, last);
            }
            if (numbers.get(name) > LARGEST_ACTION) this.fail(line, `the action ${name} would have the number ${numbers.get(name)}: at most ${LARGEST_ACTION}`);
            this.transitions[at].action = numbers.get(name);
        }
        return new Map([...numbers].map(([name, number]) => [number, name]));
    }

    /** A question or an expectation, for `otz check`. What it names may stand below it, so it is looked at in the end. */
    askedLine(kind, named, formula, line) {
        if (!formula) this.fail(line, `a formula is missing behind the colon (as: ${kind} cold: EX idle)`);
        if (kind === "expect") {
            this.expected.push([named, line]);
            return;
        }
        const wrong = wrongName(named, "a question");
        if (wrong) this.fail(line, wrong);
        if (this.questions.has(named)) this.fail(line, `question ${named} stands already, line ${this.questions.get(named)}`);
        this.questions.set(named, line);
    }

    /** The states that are named before an expectation's colon exist. */
    expectation(named, line) {
        const first = named.split(" ", 1)[0];
        const rest = strip(named.slice(first.length + 1));
        const names = this.listOf(first === "not" && rest ? rest : named, line);
        if (names.length === 1 && names[0] === "*") return;
        for (const name of names) {
            if (!this.numbers.has(name)) this.fail(line, `there is no state ${name}${hint(name, this.states, this.states)}`);
        }
    }

    line(text, line) {
        const [first, second] = words(text);
        const asked = ASKED.exec(text);
        if (asked) this.askedLine(asked[1], asked[2], strip(asked[3]), line);
        else if ((first === "expect" || first === "question") && second !== undefined && !text.includes("->") && !second.startsWith(":")) {
            this.fail(line, `'${text}' has no colon (as: ${first} cold: EX idle)`);
        } else if (text.includes("->")) this.transitionLine(text, line);
        else if (first.replace(/:+$/, "") === "propositions") this.propositionsLine(text.slice("propositions".length).replace(/^[ \t:]+/, ""), line);
        else if (first === "state" || text.includes(":")) this.stateLine(text, line);
        else this.fail(line, `not a line of a model: '${text}' (as: state cold: idle, or: cold -> hot 12)`);
    }

    /** A state's name holds in that state alone, so labels that say otherwise are mistakes. */
    end() {
        const { states, propositions, labels, transitions } = this;
        const actions = this.numberActions(); // the names by their numbers
        for (const [state, number, line] of this.labelLines) {
            const name = propositions[number];
            if (this.numbers.has(name) && name !== states[state]) {
                this.fail(line, `${name} is a state, and its name holds in that state alone; ${states[state]} can't have it as a proposition`);
            }
        }
        propositions.forEach((name, number) => {
            if (this.numbers.has(name)) labels[this.numbers.get(name)].add(number);
        });
        for (const [name, line] of this.questions) {
            if (this.numbers.has(name) || this.known.has(name)) {
                this.fail(line, `${name} is a ${this.numbers.has(name) ? "state" : "proposition"}, and no question can have its name`);
            }
        }
        for (const [named, line] of this.expected) this.expectation(named, line);
        return { states, propositions, labels, transitions, actions };
    }
}

/**
 * A line without its comment. A # starts one, but where a name or a number follows it at once behind a transition's weight, or between
 * EX or AX and that name or number.
 */
export function content(line) {
    for (const { index } of line.matchAll(/#/g)) {
        const before = line.slice(0, index);
        if (!ACTION.test(line.slice(index + 1)) || !(WEIGHED.test(before) || NEXT.test(before))) return before;
    }
    return line;
}

/** A transition's action as it stands behind the weight, ' #compile'; empty for none. */
export const by = ({ actions }, { action }) => (action ? ` #${actions.get(action) ?? action}` : "");

/** Reads the text of a model; the first mistake is thrown with its line. */
export function readModel(text, path) {
    const reader = new Reader(path);
    text.split("\n").forEach((whole, i) => {
        const found = strip(content(whole));
        if (found) reader.line(found, i + 1);
    });
    return reader.end();
}
