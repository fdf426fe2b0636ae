// What may be a name, and how a mistake is told. The same rules and words as tools/otzarvim_tools/names.py: tools/tests/language.json
// holds both to them.

/** A mistake in what a person wrote; line and column count from 1, and are null where there is none. */
export class Mistake extends Error {
    constructor(path, line, column, words) {
        super(words);
        Object.assign(this, { path, line, column, words });
    }
}

// What Python calls a blank.
export const BLANK = "\\t-\\r\\x1c-\\x20\\x85\\xa0\\u1680\\u2000-\\u200a\\u2028\\u2029\\u202f\\u205f\\u3000";
const ENDS = new RegExp(`^[${BLANK}]+|[${BLANK}]+$`, "g");
const BLANKS = new RegExp(`[${BLANK}]+`);
export const strip = (text) => text.replace(ENDS, "");
export const words = (text) => strip(text).split(BLANKS).filter((word) => word);
export const grouped = (number) => String(number).replace(/\B(?=(\d{3})+$)/g, ",");

export const ACTION = /^[A-Za-z0-9_]+/; // what stands behind # where it is no comment's
export const byDigits = (word) => /^[0-9]/.test(word);
const WORD = /^[A-Za-z_][A-Za-z0-9_]*$/;
const LIKE_BY_NUMBER = /^p[0-9]+$/;
export const FORMULA_WORDS = ["true", "false", "E", "A", "U", "EX", "AX"];
const RESERVED = [...FORMULA_WORDS, "state", "propositions"];
const LISTED = 12; // so many names are listed where none is near

/** What is wrong with a name, or null. */
export function wrongName(word, what) {
    if (!WORD.test(word)) {
        const several = what === "a proposition" && word && words(word).every((part) => WORD.test(part));
        return `'${word}' can't name ${what}: a name has letters, digits and _, and starts with no digit${several ? " (several have commas between them)" : ""}`;
    }
    return RESERVED.includes(word) ? `'${word}' is a word of the language and can't name ${what}` : null;
}

/** The number in p0, p1 and so on; null for another word. */
export function byNumber(word) {
    const found = /^p(0|[1-9][0-9]*)$/.exec(word);
    return found ? Number(found[1]) : null;
}

export function wrongStateName(word) {
    const wrong = wrongName(word, "a state");
    if (wrong || !LIKE_BY_NUMBER.test(word)) return wrong;
    return `'${word}' can't name a state: p0, p1 and so on mean propositions by number`;
}

export function wrongPropositionName(word, number) {
    const wrong = wrongName(word, "a proposition");
    if (wrong || !LIKE_BY_NUMBER.test(word) || byNumber(word) === number) return wrong;
    return `'${word}' would be proposition ${number}, which is p${number}: p0, p1 and so on mean propositions by number`;
}

/** What is wrong with a decimal number without leading zeros, or null. */
export function wrongNumber(word, what, most) {
    if (!/^(0|[1-9][0-9]*)$/.test(word)) return `'${word}' is no ${what}: a whole number, decimal, without leading zeros`;
    if (word.length > String(most).length || Number(word) > most) return `the ${what} ${word} is too large: at most ${most}`;
    return null;
}

// How alike two words are: twice what their longest common pieces have, by all letters. As Python's difflib has it.
function common(a, b, places, [aLow, aHigh, bLow, bHigh]) {
    if (aLow >= aHigh || bLow >= bHigh) return 0;
    let [bestA, bestB, size] = [aLow, bLow, 0];
    let ends = new Map();
    for (let i = aLow; i < aHigh; i++) {
        const next = new Map();
        for (const j of places.get(a[i]) ?? []) {
            if (j < bLow) continue;
            if (j >= bHigh) break;
            const length = (ends.get(j - 1) ?? 0) + 1;
            next.set(j, length);
            if (length > size) [bestA, bestB, size] = [i - length + 1, j - length + 1, length];
        }
        ends = next;
    }
    while (bestA > aLow && bestB > bLow && a[bestA - 1] === b[bestB - 1]) [bestA, bestB, size] = [bestA - 1, bestB - 1, size + 1];
    while (bestA + size < aHigh && bestB + size < bHigh && a[bestA + size] === b[bestB + size]) size++;
    if (size === 0) return 0;
    return size + common(a, b, places, [aLow, bestA, bLow, bestB]) + common(a, b, places, [bestA + size, aHigh, bestB + size, bHigh]);
}

function likeness(name, word) {
    const [a, b] = [[...name], [...word]];
    const all = a.length + b.length;
    if (all === 0) return 1;
    if (2 * Math.min(a.length, b.length) < 0.6 * all) return 0; // can't be near enough
    const places = new Map();
    b.forEach((letter, i) => places.set(letter, [...(places.get(letter) ?? []), i]));
    if (b.length >= 200) {
        for (const [letter, found] of places) if (found.length > Math.floor(b.length / 100) + 1) places.delete(letter);
    }
    return (2 * common(a, b, places, [0, a.length, 0, b.length])) / all;
}

/** ' (did you mean ..?)' where a known name is near, whatever its capitals; else what there is. */
export function hint(word, known, listed) {
    const bySmall = new Map(known.map((name) => [name.toLowerCase(), name]));
    let [near, best] = [null, 0.6];
    const small = word.toLowerCase();
    for (const name of small.length > 1000 ? [] : bySmall.keys()) {
        const found = likeness(name, small);
        if (found > best || (found === best && (near === null || name > near))) [near, best] = [name, found];
    }
    if (near !== null) return ` (did you mean ${bySmall.get(near)}?)`;
    const names = [...new Set(listed)];
    const more = names.length > LISTED ? ` and ${names.length - LISTED} more` : "";
    return names.length ? ` (there are ${names.slice(0, LISTED).join(", ")}${more})` : "";
}
