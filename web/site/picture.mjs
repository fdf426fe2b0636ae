// The model as a picture: boxes and arrows in SVG, laid out by dagre. Every text goes in as text, never as markup.
import { by } from "./language/model.mjs";

const SVG = "http://www.w3.org/2000/svg";
const MOST_STATES = 60;
const MOST_ARROWS = 240;
const LONGEST = 28; // letters of a line in a box
const LETTER = 8.5; // its width

const cut = (text, most = LONGEST) => (text.length > most ? `${text.slice(0, most - 1)}…` : text);

function element(name, attributes = {}, ...inner) {
    const made = document.createElementNS(SVG, name);
    for (const [key, value] of Object.entries(attributes)) made.setAttribute(key, value);
    made.append(...inner); // a string becomes a text node
    return made;
}

/** The arrows of a model: one from a state to another, with all their weights and actions in the text's order. */
function arrowsOf(model) {
    const arrows = new Map();
    for (const step of model.transitions) {
        const { source, target } = step;
        const key = `${source} ${target}`;
        if (!arrows.has(key)) arrows.set(key, { source, target, weights: [] });
        arrows.get(key).weights.push(`${step.weight}${by(model, step)}`);
    }
    return [...arrows.values()].map(({ source, target, weights }) => ({ source, target, label: cut(weights.join(", ")), whole: cut(weights.join(", "), 400) }));
}

/** Why a model isn't drawn, or null. */
export function tooLarge(model) {
    const arrows = arrowsOf(model).length;
    if (model.states.length > MOST_STATES) return `No picture: the model has ${model.states.length} states, and above ${MOST_STATES} a picture can't be read. The table has them all.`;
    if (arrows > MOST_ARROWS) return `No picture: the model has ${arrows} arrows, and above ${MOST_ARROWS} a picture can't be read. The table has every state.`;
    return null;
}

/** A path through the points that dagre gives, round at each. */
function through(points) {
    const at = ({ x, y }) => `${x.toFixed(1)} ${y.toFixed(1)}`;
    const middle = (a, b) => ({ x: (a.x + b.x) / 2, y: (a.y + b.y) / 2 });
    let path = `M ${at(points[0])}`;
    for (let i = 1; i + 1 < points.length; i++) {
        const end = i + 2 === points.length ? points[i + 1] : middle(points[i], points[i + 1]);
        path += ` Q ${at(points[i])} ${at(end)}`;
    }
    return points.length === 2 ? `${path} L ${at(points[1])}` : path;
}

/** A loop from a box to itself, whose farthest point is where its weight stands. */
function loop({ points, x, y }) {
    const [a, b] = [points[0], points.at(-1)];
    const out = { x: (4 * (x - (a.x + b.x) / 2)) / 3, y: (4 * (y - (a.y + b.y) / 2)) / 3 };
    const at = (point, by) => `${(point.x + by.x).toFixed(1)} ${(point.y + by.y).toFixed(1)}`;
    const none = { x: 0, y: 0 };
    return `M ${at(a, none)} C ${at(a, out)} ${at(b, out)} ${at(b, none)}`;
}

function laidOut(model, arrows, narrow) {
    const graph = new globalThis.dagre.graphlib.Graph({ multigraph: false });
    graph.setGraph({ rankdir: narrow ? "TB" : "LR", nodesep: 28, ranksep: 34, edgesep: 16, marginx: 12, marginy: 12 });
    model.states.forEach((name, i) => {
        const labels = [...model.labels[i]].sort((a, b) => a - b).map((number) => model.propositions[number]).join(", ");
        const letters = Math.max(cut(name).length, cut(labels).length, 6);
        graph.setNode(String(i), { name, labels, width: letters * LETTER + 26, height: labels ? 64 : 46 });
    });
    for (const arrow of arrows) {
        graph.setEdge(String(arrow.source), String(arrow.target), { ...arrow, width: arrow.label.length * 8 + 8, height: 18, labelpos: "c" });
    }
    globalThis.dagre.layout(graph);
    return graph;
}

function drawnState(node, i, choose) {
    const { x, y, width, height, name, labels } = node;
    const group = element("g", { class: "state", "data-state": i, transform: `translate(${x} ${y})` });
    group.append(element("title", {}, labels ? `${name}: ${labels}` : name));
    group.append(element("rect", { class: "box", x: -width / 2, y: -height / 2, width, height, rx: 8 }));
    group.append(element("text", { class: "name", y: -height / 2 + 15 }, cut(name)));
    if (labels) group.append(element("text", { class: "labels", y: -height / 2 + 33 }, cut(labels)));
    group.append(element("text", { class: "mark", y: height / 2 - 12 }));
    group.addEventListener("click", () => choose(name));
    return group;
}

/** A picture of a model, without answers; `choose` is called with the name of a state that is clicked. */
export function draw(model, narrow, choose) {
    const graph = laidOut(model, arrowsOf(model), narrow);
    const { width, height } = graph.graph();
    const said = `${model.states.length} states; the table below has the same in words`;
    const svg = element("svg", { viewBox: `0 0 ${width} ${height}`, width, height, role: "img", "aria-label": said });
    svg.style.minWidth = `${Math.round(width * 0.6)}px`; // below that it is scrolled, not made smaller
    const head = element("marker", { id: "head", viewBox: "0 0 8 8", refX: 7, refY: 4, markerWidth: 7, markerHeight: 7, orient: "auto-start-reverse" });
    head.append(element("path", { class: "head", d: "M 0 0 L 8 4 L 0 8 z" }));
    svg.append(element("defs", {}, head));
    const weights = element("g");
    for (const name of graph.edges()) {
        const arrow = graph.edge(name);
        svg.append(element("path", { class: "arrow", d: arrow.source === arrow.target ? loop(arrow) : through(arrow.points), "marker-end": "url(#head)" }));
        weights.append(element("text", { class: "weight", x: arrow.x, y: arrow.y }, element("title", {}, arrow.whole), arrow.label));
    }
    svg.append(weights, ...model.states.map((_, i) => drawnState(graph.node(String(i)), i, choose)));
    return svg;
}

/** Marks each state by its answer, or takes all marks away, and puts the asked one in front; stale: of a model that is no longer there. */
export function mark(svg, answers, asked, stale = false) {
    for (const group of [...svg.querySelectorAll(".state")]) {
        const i = Number(group.dataset.state);
        const answer = answers?.[i] ?? null;
        group.classList.toggle("yes", answer === true);
        group.classList.toggle("no", answer === false);
        group.classList.toggle("asked", i === asked);
        group.querySelector(".mark").textContent = answer === null ? "" : answer ? "yes" : "no";
        if (i === asked) svg.append(group);
    }
    svg.classList.toggle("stale", stale);
}
