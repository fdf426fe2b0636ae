// The page: reads what is typed, asks the library, and shows its answer. Every text goes in as text, never as markup.
import { load, MOST } from "./otzarvim.mjs";
import { content } from "./language/model.mjs";
import { compileQuestion } from "./language/question.mjs";
import { draw, mark, tooLarge } from "./picture.mjs";

const EXAMPLES = [
    { title: "The life of a compiled formula", file: "examples/formula_life.otz", formula: "A[true U<=42 interpreted]", state: "guard_failed" },
    { title: "Model M", file: "examples/paper_m.otz", formula: "E[zero U<=2 one]", state: "zero" },
];
const PAUSE = 120; // milliseconds after the last key
const LONGEST_ADDRESS = 60000;
const LONGEST_WORDS = 400; // of a mistake, which may repeat a line of the text
const MEANING = { SIZE: "the graph to be built would pass a limit on its nodes, hyperedges, cover edges or targets" };

const $ = (id) => document.getElementById(id);
function element(name, text = "", ...classes) {
    const made = document.createElement(name);
    made.textContent = text;
    made.classList.add(...classes.filter(Boolean));
    return made;
}

// Colours of the text: comments, words of the language, numbers, actions.
function mode(keywords, comment) {
    return () => ({
        startState: () => ({}),
        token(stream) {
            if (comment(stream)) {
                stream.skipToEnd();
                return "comment";
            }
            if (stream.eatSpace()) return null;
            if (stream.match(/^[A-Za-z_]\w*/)) return keywords.includes(stream.current()) ? "keyword" : null;
            if (stream.match(/^[0-9]+/)) return "number";
            if (stream.match(/^#\w+/)) return "action";
            stream.next();
            return null;
        },
    });
}

function editor(id, said, name) {
    const made = globalThis.CodeMirror.fromTextArea($(id), {
        mode: name, lineWrapping: true, lineNumbers: id === "model", viewportMargin: 50,
        extraKeys: { Tab: false, "Shift-Tab": false }, // so that the keyboard gets out again
    });
    made.getWrapperElement().classList.add(`of-${id}`);
    made.getInputField().setAttribute("aria-label", said);
    document.querySelector(`label[for=${id}]`).addEventListener("click", () => made.focus()); // it names a field that is hidden now
    return made;
}

globalThis.CodeMirror.defineMode("otz-model", mode(["state", "propositions"], (stream) => stream.peek() === "#" && stream.pos === content(stream.string).length));
globalThis.CodeMirror.defineMode("otz-formula", mode(["true", "false", "E", "A", "U", "EX", "AX"], (stream) => stream.sol() && /^\s*#/.test(stream.string)));
const editors = { model: editor("model", "Model", "otz-model"), formula: editor("formula", "Formula", "otz-formula") };
const text = (name) => editors[name].getValue("\n");

let library = null;
const rooms = { bytes: new Uint8Array(MOST.GRAPH), values: new BigUint64Array(MOST.VALUES) };
let asked = ""; // the name of the asked state
let drawn = { key: "", svg: null };

/** The answers of the library for two messages: for every state, and the formula's text; or what it refused. */
function ask([model, formula], propositions, actions) {
    const settled = library.otzarvim_settle({ model, formula, budget: MOST.NODES, ...rooms });
    if (settled.name !== "OK") return { refused: `refused ${settled.number}, ${settled.name}${settled.offset ? ` at ${settled.offset}` : ""}${MEANING[settled.name] ? `: ${MEANING[settled.name]}` : ""}` };
    const { first, count } = settled.states;
    const answers = Array.from({ length: count }, (_, a) => settled.values[first + a] === 0n);
    const written = library.otzarvim_formula_text({ message: formula, p: propositions.length });
    const text = new TextDecoder().decode(written.room.subarray(0, written.length)); // what was answered, by the library's own reading
    const named = text.replace(/p([0-9]+)|#([0-9]+)/g, (_, number, action) => (number ? propositions[number] : `#${actions.get(Number(action)) ?? action}`));
    return { answers, rounds: settled.count, text: named };
}

/** The same; a module that could not end its call is told, and never taken for an answer. */
function attempt(messages, propositions, actions) {
    try {
        return ask(messages, propositions, actions);
    } catch (error) {
        return { refused: `No answer: the library could not end its call (${error.message}). Load the page again.` };
    }
}

/** Underlines a mistake: the word at its column, or its whole line. */
function underline({ path, line, column, words }) {
    if (line === null) return;
    const lines = editors[path].getDoc();
    const content = lines.getLine(line - 1) ?? "";
    let from = column === null ? content.search(/\S/) : column - 1;
    let to = column === null ? content.trimEnd().length : from + (/^(\w+|<=|.)/u.exec(content.slice(from))?.[0].length ?? 0);
    if (from >= content.length) [from, to] = [Math.max(0, content.length - 1), content.length]; // the text ends too early
    lines.markText({ line: line - 1, ch: Math.max(0, from) }, { line: line - 1, ch: to }, { className: "wrong", attributes: { title: shortened(words) } });
}

const shortened = (words) => (words.length > LONGEST_WORDS ? `${words.slice(0, LONGEST_WORDS)} …` : words);

function showMistakes(mistakes) {
    for (const { doc } of Object.values(editors)) doc.getAllMarks().forEach((marked) => marked.clear());
    mistakes.forEach(underline);
    $("mistakes").replaceChildren(...mistakes.map(({ path, line, column, words }) => {
        const place = [path, line === null ? "" : `line ${line}`, column === null ? "" : `column ${column}`].filter(Boolean).join(", ");
        return element("li", `${place}: ${shortened(words)}`);
    }));
}

function showPicture(model, answers, state) {
    const why = model ? tooLarge(model) : null;
    $("note").textContent = why ?? "";
    if (why || !model) {
        if (why) $("figure").replaceChildren();
        if (why) drawn = { key: "", svg: null };
        if (drawn.svg) mark(drawn.svg, null, -1, true);
        return;
    }
    const narrow = $("figure").parentElement.clientWidth < 640;
    const key = JSON.stringify([narrow, model.states, model.labels.map((label) => [...label]), model.transitions, [...model.actions]]);
    if (key !== drawn.key) {
        drawn = { key, svg: model.states.length ? draw(model, narrow, choose) : null };
        $("figure").replaceChildren(...(drawn.svg ? [drawn.svg] : []));
    }
    if (drawn.svg) mark(drawn.svg, answers, state);
}

function stateRow(model, i, answer, chosen) {
    const row = element("tr", "", chosen && "asked");
    const radio = element("input");
    Object.assign(radio, { type: "radio", name: "asked", checked: chosen });
    radio.addEventListener("change", () => choose(model.states[i]));
    const label = element("label");
    label.append(radio, ` ${model.states[i]}`);
    const name = element("td");
    name.append(label);
    const word = answer === null ? "" : answer ? "yes" : "no";
    row.append(name, element("td", [...model.labels[i]].sort((a, b) => a - b).map((number) => model.propositions[number]).join(", ")), element("td", word, word));
    return row;
}

/** Rows that already stand are kept, with the keyboard's focus, where only answers change. */
let listed = "";
function showTable(model, answers, state) {
    const key = JSON.stringify([model?.states, model?.labels.map((label) => [...label]), model?.propositions]);
    if (key !== listed) $("states").replaceChildren(...(model?.states ?? []).slice(0, MOST.STATES).map((_, i) => stateRow(model, i, null, i === state)));
    listed = key;
    [...$("states").rows].forEach((row, i) => {
        const word = answers ? (answers[i] ? "yes" : "no") : "";
        row.classList.toggle("asked", i === state);
        row.cells[0].querySelector("input").checked = i === state;
        row.cells[2].textContent = word;
        row.cells[2].className = word;
    });
}

function showVerdict(model, found, state) {
    const verdict = $("verdict");
    if (!found?.answers) {
        verdict.className = "";
        verdict.textContent = found?.refused ?? "No answer: there is a mistake.";
        $("about").textContent = "";
        document.title = "Otzarvim";
        return;
    }
    const word = found.answers[state] ? "yes" : "no";
    verdict.className = word;
    verdict.textContent = `${model.states[state]}: ${word}`;
    const all = found.answers.filter(Boolean).length;
    $("about").textContent = `${all} of ${found.answers.length} states satisfy it. Asked: ${found.text}, settled after ${found.rounds} round${found.rounds === 1 ? "" : "s"}.`;
    document.title = `${model.states[state]}: ${word} – Otzarvim`;
}

/** Reads, asks and shows. */
function answer() {
    const { model, messages, mistakes, propositions } = compileQuestion(text("model"), text("formula"));
    const found = messages ? attempt(messages, propositions, model.actions) : null;
    const state = model ? Math.max(0, model.states.indexOf(asked)) : -1;
    showMistakes(mistakes);
    showVerdict(model, found, state);
    showPicture(model, found?.answers ?? null, state);
    showTable(model, found?.answers ?? null, state);
    document.body.dataset.answered = String(Number(document.body.dataset.answered ?? 0) + 1);
}

// The question is in the address, behind #, which is never sent to a server.
function remember() {
    const question = new URLSearchParams({ formula: text("formula"), state: asked, model: text("model") }).toString();
    const fits = question.length <= LONGEST_ADDRESS;
    $("copy").disabled = !fits;
    $("copied").textContent = fits ? "" : "This model is too long for an address.";
    history.replaceState(null, "", fits ? `#${question}` : location.pathname);
}

function recall() {
    const question = new URLSearchParams(location.hash.slice(1));
    if (!question.has("model")) return false;
    put({ model: question.get("model"), formula: question.get("formula") ?? "", state: question.get("state") ?? "" });
    return true;
}

let waiting = 0;
function changed() {
    clearTimeout(waiting);
    waiting = setTimeout(() => {
        answer();
        remember();
    }, PAUSE);
}

function choose(name) {
    asked = name;
    answer();
    remember();
}

let putting = false; // then what changes was not typed
function put({ model, formula, state }) {
    putting = true;
    asked = state;
    editors.model.setValue(model);
    editors.formula.setValue(formula);
    putting = false;
    answer();
}

async function example({ file, formula, state }) {
    const found = await fetch(file);
    if (!found.ok) throw new Error(`${file} can't be read`);
    put({ model: (await found.text()).trimEnd(), formula, state });
}

async function start() {
    library = await load(fetch("otzarvim.wasm"));
    EXAMPLES.forEach(({ title }, i) => $("example").append(new Option(title, String(i))));
    if (!recall()) await example(EXAMPLES[0]);
    for (const made of Object.values(editors)) made.on("change", () => putting || changed());
    addEventListener("hashchange", recall);
    let wide = innerWidth;
    addEventListener("resize", () => {
        if (innerWidth !== wide) changed();
        wide = innerWidth;
    });
    $("example").addEventListener("change", async ({ target }) => {
        if (target.value) await example(EXAMPLES[Number(target.value)]);
        target.value = "";
        remember();
    });
    $("copy").addEventListener("click", async () => {
        remember();
        try {
            await navigator.clipboard.writeText(location.href);
            $("copied").textContent = "Copied.";
        } catch {
            $("copied").textContent = "It stands in the address line.";
        }
    });
}

start().catch((error) => {
    $("verdict").textContent = `The page could not start: ${error.message}`;
});
