// The text of formulas, read into rows: { operator, left, right, bound }, operands before what uses them. Of EX and AX with an action
// right is the action.
import { BLANK, FORMULA_WORDS, Mistake, wrongNumber } from "./names.mjs";

const NO_BOUND = 4294967295;
const LARGEST_BOUND = NO_BOUND - 1;
const DEEPEST = 255; // a row's number is one byte, so nothing deeper can be written
const TOKEN = /[0-9]+|[A-Za-z_][A-Za-z0-9_]*|<=|[()[\]&|!]/y;
const ACTED = /#[A-Za-z0-9_]+/y;
const SPACE = new RegExp(`[${BLANK}]`);
const COMMENT = new RegExp(`^[${BLANK}]*#`);
const NAME = /^[A-Za-z_]/;

// Signs from elsewhere, and how they are written here.
const SIGNS = new Map([
    ["#", "an action stands at once behind EX or AX, as EX#compile; a comment has a line of its own"],
    ...[..."<>=≤"].map((sign) => [sign, "a bound is written <=3"]),
    ...[..."¬~"].map((sign) => [sign, "a negation is written !idle"]),
    ["∧", "written (x & y)"],
    ["∨", "written (x | y)"],
    ...["->", "→", "⇒"].map((sign) => [sign, "x -> y is written (!x | y), where x is a proposition"]),
]);

export const OPERATORS = { TRUE: 0, FALSE: 1, PROPOSITION: 2, NOT_PROPOSITION: 3, AND: 4, OR: 5, EX: 6, AX: 7, E_UNTIL: 8, A_UNTIL: 9, EX_ACTION: 10, AX_ACTION: 11 };

const isNext = (word) => word === "EX" || word === "AX";

/** Whether the last word is EX or AX and ends right there. */
const behindNext = (last, line, at) => last !== undefined && isNext(last.word) && last.line === line && last.column === at - 1;

function tokens(text, path) {
    const found = [];
    text.split("\n").forEach((line, i) => {
        if (COMMENT.test(line)) return;
        let at = 0;
        while (at < line.length) {
            if (SPACE.test(line[at])) {
                at++;
                continue;
            }
            const pattern = line[at] === "#" && behindNext(found.at(-1), i + 1, at) ? ACTED : TOKEN;
            pattern.lastIndex = at;
            const match = pattern.exec(line);
            if (!match) {
                const sign = line.startsWith("->", at) ? "->" : String.fromCodePoint(line.codePointAt(at));
                const more = SIGNS.has(sign) ? ` (${SIGNS.get(sign)})` : "";
                throw new Mistake(path, i + 1, at + 1, `'${sign}' has no place in a formula${more}`);
            }
            found.push({ word: match[0], line: i + 1, column: at + 1 });
            at += match[0].length;
        }
    });
    // the end is told as the place behind the last word
    const last = found.at(-1) ?? { word: "", line: 1, column: 1 };
    found.push({ word: "", line: last.line, column: last.column + last.word.length });
    return found;
}

const brackets = (sign) => `x ${sign} y is written with brackets, (x ${sign} y)`;
const instead = (token) => (token.word ? `not '${token.word}'` : "and the text ends");
const joins = (token) => token.word === "&" || token.word === "|";

class Parser {
    constructor(text, path, numberOf, actionOf) {
        this.path = path;
        this.tokens = tokens(text, path);
        this.at = 0;
        this.numberOf = numberOf;
        this.actionOf = actionOf;
        this.rows = [];
    }

    next() {
        const token = this.tokens[this.at];
        this.at = Math.min(this.at + 1, this.tokens.length - 1);
        return token;
    }

    fail(token, said) {
        throw new Mistake(this.path, token.line, token.column, said);
    }

    expect(word, after) {
        const token = this.next();
        if (joins(token)) this.fail(token, brackets(token.word));
        if (token.word !== word) this.fail(token, `'${word}' is expected after ${after}, ${instead(token)}`);
    }

    bound() {
        if (this.tokens[this.at].word !== "<=") return NO_BOUND;
        this.next();
        const token = this.next();
        const wrong = wrongNumber(token.word, "bound", LARGEST_BOUND);
        if (wrong) this.fail(token, `${wrong} (for no bound, leave <= out)`);
        return Number(token.word);
    }

    /** The action behind EX or AX; null where none is written. */
    action() {
        if (!this.tokens[this.at].word.startsWith("#")) return null;
        const { word, line, column } = this.next();
        return this.actionOf(word.slice(1), (said) => this.fail({ line, column: column + 1 }, said));
    }

    row(operator, left = 0, right = 0, bound = 0) {
        return this.rows.push({ operator: OPERATORS[operator], left, right, bound }) - 1;
    }

    proposition(operator, token) {
        return this.row(operator, this.numberOf(token.word, (said) => this.fail(token, said)));
    }

    /** Reads a formula, adds its rows, and gives the number of the last. */
    formula(depth = 1) {
        const token = this.next();
        const { word } = token;
        if (depth > DEEPEST) this.fail(token, "the formula is too deep for its rows to be numbered");
        if (word === "true" || word === "false") return this.row(word.toUpperCase());
        if (word === "!") return this.negation();
        if (word === "(") return this.both(depth);
        if (isNext(word)) {
            const action = this.action();
            const bound = this.bound();
            return this.row(action === null ? word : `${word}_ACTION`, this.formula(depth + 1), action ?? 0, bound);
        }
        if (word === "E" || word === "A") return this.until(word, depth);
        if (NAME.test(word) && word !== "U") return this.proposition("PROPOSITION", token);
        return this.fail(token, `a formula is expected here, ${instead(token)}`);
    }

    negation() {
        const token = this.next();
        if (!NAME.test(token.word) || FORMULA_WORDS.includes(token.word)) {
            this.fail(token, "only a proposition can be negated, as !idle: !(x & y) is (!x | !y), !(x | y) is (!x & !y), !EX x is AX !x");
        }
        return this.proposition("NOT_PROPOSITION", token);
    }

    both(depth) {
        const left = this.formula(depth + 1);
        const token = this.next();
        if (!joins(token)) this.fail(token, `'&' or '|' is expected, ${instead(token)}: brackets stand around (x & y) and (x | y) alone`);
        const right = this.formula(depth + 1);
        const end = this.next();
        if (joins(end)) this.fail(end, `each ${end.word} has brackets of its own, as ((x ${token.word} y) ${end.word} z)`);
        if (end.word !== ")") this.fail(end, `')' is expected after (x ${token.word} y, ${instead(end)}`);
        return this.row(token.word === "&" ? "AND" : "OR", left, right);
    }

    until(quantifier, depth) {
        this.expect("[", quantifier);
        const left = this.formula(depth + 1);
        this.expect("U", `${quantifier}[x`);
        const bound = this.bound();
        const right = this.formula(depth + 1);
        this.expect("]", `${quantifier}[x U y`);
        return this.row(`${quantifier}_UNTIL`, left, right, bound);
    }
}

/**
 * Reads a formula; `numberOf(word, fail)` gives the proposition that a word means, `actionOf(word, fail)` the action. The first mistake is
 * thrown with its place.
 */
export function readFormula(text, path, numberOf, actionOf) {
    const parser = new Parser(text, path, numberOf, actionOf);
    parser.formula();
    const token = parser.next();
    if (joins(token)) parser.fail(token, brackets(token.word));
    if (token.word) parser.fail(token, `the formula is complete before '${token.word}'`);
    return parser.rows;
}
