//! Document 01, "The graph that is built"; document 02, request 1, for states without transitions, and
//! request 7: "the built graph skips transitions of other actions".

use crate::bytes::{limit, Bound, Cover, Graph, Hyperedge, Model, Row, Runs, Target, Transition};
use crate::refusal::{Fault, Number, CALL};

/// Where nodes stand: "State a and row r have node a + s·r. The j-th until row, from 0, has also the
/// helper node a + s·(f + j)."
pub struct Layout {
    states: usize,
    rows: usize,
}

impl Layout {
    pub fn of(model: &Model, rows: &[Row]) -> Layout {
        Layout {
            states: model.states(),
            rows: rows.len(),
        }
    }

    pub fn node(&self, state: usize, row: usize) -> usize {
        state + self.states * row
    }

    pub fn helper(&self, state: usize, until: usize) -> usize {
        state + self.states * (self.rows + until)
    }
}

/// The indices of the until rows; the j-th of them has helper j.
pub fn until_rows(rows: &[Row]) -> Vec<usize> {
    (0..rows.len())
        .filter(|row| matches!(rows[*row], Row::Until(..)))
        .collect()
}

/// "With u the number of until rows, n is s times (f + u)." "Hyperedges stand by rising source"
pub fn graph(model: &Model, rows: &[Row]) -> Graph {
    let layout = Layout::of(model, rows);
    let untils = until_rows(rows);
    let nodes = model.states() * (rows.len() + untils.len());
    let mut graph = Graph {
        nodes,
        hyperedges: vec![],
        covers: vec![],
    };
    for row in 0..rows.len() {
        for state in 0..model.states() {
            add_row(
                &mut graph,
                model,
                &layout,
                &rows[row],
                layout.node(state, row),
            );
        }
    }
    for (until, row) in untils.iter().enumerate() {
        for state in 0..model.states() {
            let source = layout.node(state, *row);
            add_until(
                &mut graph,
                model,
                &layout,
                &rows[*row],
                (source, layout.helper(state, until)),
            );
        }
    }
    graph
}

/// The transitions of a state that EX and AX look at: "within the bound, in model order"; with an
/// action, those that carry it.
fn seen(
    model: &Model,
    state: usize,
    action: Option<u8>,
    bound: Bound,
) -> impl Iterator<Item = &Transition> {
    model.leaving(state).filter(move |step| {
        let within = bound.is_none_or(|most| step.weight <= most);
        let skipped = action.is_some_and(|asked| u16::from(asked) != step.action);
        within && !skipped
    })
}

fn free(node: usize) -> Target {
    Target { weight: 0, node }
}

impl Graph {
    fn add(&mut self, source: usize, targets: Vec<Target>) {
        self.hyperedges.push(Hyperedge { source, targets });
    }
}

/// The hyperedges of a row's own node: "true, and a proposition or its negation that holds: one
/// without targets. false, or one that doesn't hold: none. and: one, left then right, weights 0. or:
/// two, left first. EX: for each transition within the bound, in model order, one with the successor
/// at weight 0. AX: one with all of these. until: no hyperedge".
fn add_row(graph: &mut Graph, model: &Model, layout: &Layout, row: &Row, source: usize) {
    let state = source % model.states();
    let has = |proposition: usize| model.labels[state] >> proposition & 1 == 1;
    let at = |operand: usize| free(layout.node(state, operand));
    match *row {
        Row::True => graph.add(source, vec![]),
        Row::Has(proposition) if has(proposition) => graph.add(source, vec![]),
        Row::HasNot(proposition) if !has(proposition) => graph.add(source, vec![]),
        Row::And(left, right) => graph.add(source, vec![at(left), at(right)]),
        Row::Or(left, right) => {
            graph.add(source, vec![at(left)]);
            graph.add(source, vec![at(right)]);
        }
        Row::Next(runs, bound, operand) => {
            let next = seen(model, state, None, bound);
            let next = next.map(|step| free(layout.node(step.to, operand)));
            add_next(graph, source, runs, next.collect());
        }
        Row::NextBy(runs, action, bound, operand) => {
            let next = seen(model, state, Some(action), bound);
            let next = next.map(|step| free(layout.node(step.to, operand)));
            add_next(graph, source, runs, next.collect());
        }
        Row::False | Row::Has(_) | Row::HasNot(_) | Row::Until(..) => {}
    }
}

fn add_next(graph: &mut Graph, source: usize, runs: Runs, next: Vec<Target>) {
    match runs {
        Runs::Some => next
            .into_iter()
            .for_each(|target| graph.add(source, vec![target])),
        Runs::All => graph.add(source, next),
    }
}

/// "until: .. one cover edge with its bound to the helper. Helper: first {right at weight 0}; then
/// for E, per transition, {left at 0, the successor's helper at its weight}; for A, a single one
/// {left at 0, then all successors' helpers}." Request 1: "the A helper there has only its first
/// hyperedge".
fn add_until(graph: &mut Graph, model: &Model, layout: &Layout, row: &Row, ends: (usize, usize)) {
    let Row::Until(runs, bound, left, right) = *row else {
        return;
    };
    let (source, helper) = ends;
    let state = source % model.states();
    let base = helper - state;
    graph.covers.push(Cover {
        source,
        bound,
        target: helper,
    });
    graph.add(helper, vec![free(layout.node(state, right))]);
    let left = free(layout.node(state, left));
    let steps = model.leaving(state);
    let next = steps.map(|step| Target {
        weight: step.weight,
        node: base + step.to,
    });
    match runs {
        Runs::Some => next.for_each(|target| graph.add(helper, vec![left.clone(), target])),
        Runs::All if model.is_dead(state) => {}
        Runs::All => graph.add(helper, std::iter::once(left).chain(next).collect()),
    }
}

/// "8 SIZE: the graph to be built would pass a limit on n, h, c or targets (all together or of one
/// hyperedge)"
pub fn within_limits(graph: &Graph) -> Result<(), Fault> {
    let counts = graph.hyperedges.iter().map(|edge| edge.targets.len());
    let (all, most) = counts.fold((0, 0), |(all, most), count| (all + count, count.max(most)));
    CALL.demand(graph.nodes <= limit::N, Number::Size, "n to be built")?;
    CALL.demand(
        graph.hyperedges.len() <= limit::H,
        Number::Size,
        "h to be built",
    )?;
    CALL.demand(
        graph.covers.len() <= limit::C,
        Number::Size,
        "c to be built",
    )?;
    CALL.demand(all <= limit::TARGETS, Number::Size, "targets to be built")?;
    let one = most <= limit::TARGETS_OF_ONE;
    CALL.demand(one, Number::Size, "targets of one hyperedge to be built")
}
