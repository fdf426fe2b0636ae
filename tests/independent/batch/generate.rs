//! Random graphs, models and formulas that are well formed.

use crate::bytes::{
    bound_of, Bound, Cover, Formula, Graph, Hyperedge, Model, Row, Runs, Target, Transition,
};
use crate::random::Random;

/// Weights and bounds at the ends and in the middle of 4 bytes.
pub const EXTREMES: [u32; 5] = [0, 1, 1 << 31, u32::MAX - 1, u32::MAX];

pub fn weight(random: &mut Random) -> u32 {
    match random.below(20) {
        0..=13 => random.below(7) as u32,
        14..=16 => random.pick(&EXTREMES),
        17 => (1 << 31) - 3 + random.below(6) as u32,
        18 => u32::MAX - random.below(6) as u32,
        _ => random.next() as u32,
    }
}

/// Few actions, so that a row's is met; those at the ends of a byte and of two; and those that differ
/// from the few by a multiple of 256 only.
pub fn action(random: &mut Random) -> u16 {
    match random.below(12) {
        0..=5 => random.below(3) as u16,
        6..=7 => 256 + random.below(3) as u16,
        8 => random.pick(&[254, 255, 256 + 255, 0xff00, 0xff01]),
        9 => 65_535 - random.below(2) as u16,
        _ => random.next() as u16,
    }
}

/// An action for a row: the low byte of one.
pub fn action_asked(random: &mut Random) -> u8 {
    action(random) as u8
}

pub fn bound(random: &mut Random) -> Bound {
    match random.below(4) {
        0 => None,
        1 => bound_of(weight(random)),
        _ => Some(random.below(12) as u32),
    }
}

pub fn runs(random: &mut Random) -> Runs {
    random.pick(&[Runs::Some, Runs::All])
}

/// A graph of at most so many nodes, with about twice as many hyperedges and some cover edges.
pub fn graph(random: &mut Random, most: usize) -> Graph {
    let nodes = random.between(1, most);
    let hyperedges = random.below(2 * nodes + 3);
    let covers = random.below(nodes + 2);
    graph_of(random, nodes, hyperedges, covers)
}

/// A graph of exactly so many nodes, hyperedges and cover edges.
pub fn graph_of(random: &mut Random, nodes: usize, hyperedges: usize, covers: usize) -> Graph {
    let mut graph = Graph {
        nodes,
        hyperedges: (0..hyperedges).map(|_| hyperedge(random, nodes)).collect(),
        covers: (0..covers).map(|_| cover(random, nodes)).collect(),
    };
    graph.hyperedges.sort_by_key(|edge| edge.source);
    graph.covers.sort_by_key(|edge| edge.source);
    graph
}

fn hyperedge(random: &mut Random, nodes: usize) -> Hyperedge {
    let count = random.pick(&[0, 1, 1, 1, 1, 2, 2, 2, 3, 5]);
    let mut target = || Target {
        weight: weight(random),
        node: random.below(nodes),
    };
    let targets = (0..count).map(|_| target()).collect();
    Hyperedge {
        source: random.below(nodes),
        targets,
    }
}

/// A graph for a search, of at most so many nodes: no weights, no cover edges, few ends, and now and
/// then a target or a record that comes again.
pub fn plain_graph(random: &mut Random, most: usize) -> Graph {
    let nodes = random.between(1, most);
    let ends = random.pick(&[3, 6, 12, 1_000]);
    let mut hyperedges: Vec<Hyperedge> = vec![];
    for _ in 0..random.below(3 * nodes + 3) {
        let again = !hyperedges.is_empty() && random.once_in(10);
        let edge = if again {
            random.pick(&hyperedges)
        } else {
            plain_hyperedge(random, nodes, ends)
        };
        hyperedges.push(edge);
    }
    hyperedges.sort_by_key(|edge| edge.source);
    Graph {
        nodes,
        hyperedges,
        covers: vec![],
    }
}

/// One in so many has no targets.
fn plain_hyperedge(random: &mut Random, nodes: usize, ends: usize) -> Hyperedge {
    let count = if random.once_in(ends) {
        0
    } else {
        random.pick(&[1, 1, 1, 2, 2, 3, 4])
    };
    let mut targets: Vec<Target> = vec![];
    for _ in 0..count {
        let fresh = Target {
            weight: 0,
            node: random.below(nodes),
        };
        let again = random.once_in(6);
        targets.push(targets.last().filter(|_| again).cloned().unwrap_or(fresh));
    }
    Hyperedge {
        source: random.below(nodes),
        targets,
    }
}

fn cover(random: &mut Random, nodes: usize) -> Cover {
    Cover {
        source: random.below(nodes),
        bound: bound(random),
        target: random.below(nodes),
    }
}

/// A model of at most so many states. Half of the models go forward to a last state, so that A
/// untils hold on them. Half of them may have dead states, few of those many.
pub fn model(random: &mut Random, most: usize) -> Model {
    let states = random.between(1, most);
    let alive: &[usize] = &[1, 1, 1, 2, 2, 3];
    let some_dead: &[usize] = &[0, 1, 1, 1, 2, 2, 3];
    let many_dead: &[usize] = &[0, 0, 1, 2];
    let degrees = random.pick(&[alive, alive, alive, some_dead, some_dead, many_dead]);
    model_of(random, states, |random, _| random.pick(degrees))
}

/// A model of so many states; `degree` says how many transitions leave each.
fn model_of(
    random: &mut Random,
    states: usize,
    degree: impl Fn(&mut Random, usize) -> usize,
) -> Model {
    let propositions = random.pick(&[0, 1, 2, 2, 2, 3, 3, 4, 32]);
    let forward = random.once_in(2);
    let mask = ((1u64 << propositions) - 1) as u32;
    let labels = (0..states).map(|_| random.next() as u32 & mask).collect();
    let mut transitions = vec![];
    for from in 0..states {
        for _ in 0..degree(random, from) {
            transitions.push(transition(random, states, from, forward));
        }
    }
    Model {
        propositions,
        labels,
        transitions,
    }
}

fn transition(random: &mut Random, states: usize, from: usize, forward: bool) -> Transition {
    let to = if forward {
        random.between((from + 1).min(states - 1), states - 1)
    } else {
        random.below(states)
    };
    Transition {
        from,
        weight: weight(random),
        action: action(random),
        to,
    }
}

/// A model of exactly so many states and transitions. In half of them no state is dead, where there
/// are transitions enough.
pub fn crowd(random: &mut Random, states: usize, transitions: usize) -> Model {
    let each = usize::from(transitions >= states && random.once_in(2));
    let mut degrees = vec![each; states];
    for _ in each * states..transitions {
        degrees[random.below(states)] += 1;
    }
    model_of(random, states, |_, from| degrees[from])
}

/// A formula of exactly so many rows over so many propositions. Its rows stand in some order in
/// which operands come first.
pub fn formula(random: &mut Random, propositions: u32, rows: usize) -> Formula {
    let mut tree = vec![];
    grow(random, propositions, rows, &mut tree);
    shuffle(random, &tree)
}

/// Adds a tree of exactly so many rows, operands first, and returns its root.
fn grow(random: &mut Random, propositions: u32, rows: usize, tree: &mut Vec<Row>) -> usize {
    let row = if rows == 1 {
        leaf(random, propositions)
    } else if rows == 2 || random.once_in(4) {
        let operand = grow(random, propositions, rows - 1, tree);
        unary(random, operand)
    } else {
        let first = random.between(1, rows - 2);
        let one = grow(random, propositions, first, tree);
        let other = grow(random, propositions, rows - 1 - first, tree);
        let (left, right) = random.pick(&[(one, other), (other, one)]);
        binary(random, left, right)
    };
    tree.push(row);
    tree.len() - 1
}

fn leaf(random: &mut Random, propositions: u32) -> Row {
    let known = propositions > 0 && !random.once_in(4);
    match (known, random.once_in(2)) {
        (true, true) => Row::Has(random.below(propositions as usize)),
        (true, false) => Row::HasNot(random.below(propositions as usize)),
        (false, true) => Row::True,
        (false, false) => Row::False,
    }
}

fn unary(random: &mut Random, operand: usize) -> Row {
    let (runs, bound) = (runs(random), bound(random));
    if random.once_in(2) {
        Row::Next(runs, bound, operand)
    } else {
        Row::NextBy(runs, action_asked(random), bound, operand)
    }
}

fn binary(random: &mut Random, left: usize, right: usize) -> Row {
    match random.below(6) {
        0 => Row::And(left, right),
        1 => Row::Or(left, right),
        _ => Row::Until(runs(random), bound(random), left, right),
    }
}

/// The rows in another order in which operands come first.
fn shuffle(random: &mut Random, tree: &[Row]) -> Formula {
    let mut placed: Vec<Option<usize>> = vec![None; tree.len()];
    let mut rows = vec![];
    while rows.len() < tree.len() {
        let is_ready = |row: &Row| {
            row.operands()
                .iter()
                .all(|operand| placed[*operand].is_some())
        };
        let free = |index: &usize| placed[*index].is_none() && is_ready(&tree[*index]);
        let ready: Vec<usize> = (0..tree.len()).filter(free).collect();
        let index = random.pick(&ready);
        rows.push(renamed(&tree[index], &|operand| placed[operand].unwrap()));
        placed[index] = Some(rows.len() - 1);
    }
    rows
}

/// The row with other operands.
fn renamed(row: &Row, name: &dyn Fn(usize) -> usize) -> Row {
    match *row {
        Row::And(left, right) => Row::And(name(left), name(right)),
        Row::Or(left, right) => Row::Or(name(left), name(right)),
        Row::Next(runs, bound, operand) => Row::Next(runs, bound, name(operand)),
        Row::NextBy(runs, action, bound, operand) => {
            Row::NextBy(runs, action, bound, name(operand))
        }
        Row::Until(runs, bound, left, right) => Row::Until(runs, bound, name(left), name(right)),
        ref leaf => leaf.clone(),
    }
}
