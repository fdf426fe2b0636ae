//! Satisfaction by the maximal runs of a model, without any graph: document 01, "Formulas and runs",
//! and document 02, request 1: runs are "endless, or ending in a state without transitions"; request 7:
//! actions.

use crate::bytes::{Bound, Model, Row, Runs};
use crate::rounds::{plus, within, Value};

/// What a formula means on a model, for each row.
pub struct Meaning {
    /// Whether a state satisfies the row.
    pub holds: Vec<Vec<bool>>,
    /// For an until row and each state: for E the least weight of a walk to right through left, for
    /// A the greatest over all maximal runs; infinity where there is none. Empty for other rows.
    pub weights: Vec<Vec<Value>>,
}

pub fn meaning(model: &Model, rows: &[Row]) -> Meaning {
    let mut meaning = Meaning {
        holds: vec![],
        weights: vec![],
    };
    for row in rows {
        let weights = until_weights(model, row, &meaning.holds);
        let satisfies = |state: usize| state_satisfies(model, row, &meaning.holds, &weights, state);
        let holds = (0..model.states()).map(satisfies).collect();
        meaning.holds.push(holds);
        meaning.weights.push(weights);
    }
    meaning
}

fn until_weights(model: &Model, row: &Row, holds: &[Vec<bool>]) -> Vec<Value> {
    match *row {
        Row::Until(Runs::Some, _, left, right) => least(model, &holds[left], &holds[right]),
        Row::Until(Runs::All, _, left, right) => worst(model, &holds[left], &holds[right]),
        _ => vec![],
    }
}

fn state_satisfies(
    model: &Model,
    row: &Row,
    holds: &[Vec<bool>],
    weights: &[Value],
    state: usize,
) -> bool {
    let has = |proposition: usize| model.labels[state] >> proposition & 1 == 1;
    match *row {
        Row::True => true,
        Row::False => false,
        Row::Has(proposition) => has(proposition),
        Row::HasNot(proposition) => !has(proposition),
        Row::And(left, right) => holds[left][state] && holds[right][state],
        Row::Or(left, right) => holds[left][state] || holds[right][state],
        Row::Next(runs, bound, operand) => next(model, runs, None, bound, &holds[operand], state),
        Row::NextBy(runs, action, bound, operand) => {
            next(model, runs, Some(action), bound, &holds[operand], state)
        }
        Row::Until(_, bound, _, _) => within(weights[state], bound),
    }
}

/// "EX: some transition of weight within the bound leads to a state that satisfies the operand. AX:
/// all such transitions do." So at a state without transitions "EX is false, AX is true". Request 7:
/// with an action they "look only at transitions of the action given".
fn next(
    model: &Model,
    runs: Runs,
    action: Option<u8>,
    bound: Bound,
    operand: &[bool],
    state: usize,
) -> bool {
    let mut steps = model
        .leaving(state)
        .filter(|step| action.is_none_or(|asked| u16::from(asked) == step.action))
        .filter(|step| within(Some(u64::from(step.weight)), bound));
    match runs {
        Runs::Some => steps.any(|step| operand[step.to]),
        Runs::All => steps.all(|step| operand[step.to]),
    }
}

/// "E until: on some run from the state there is a position that satisfies right, with the weights
/// before it summing to within the bound and left holding at each earlier position." Every walk goes
/// on as a maximal run, so this is a shortest weight: states are closed by rising weight, and what has
/// been closed lowers the states before it (Dijkstra, backwards).
fn least(model: &Model, left: &[bool], right: &[bool]) -> Vec<Value> {
    let mut weight: Vec<Value> = right.iter().map(|holds| holds.then_some(0)).collect();
    let mut open: Vec<bool> = vec![true; model.states()];
    while let Some(state) = nearest(&weight, &open) {
        open[state] = false;
        for step in model
            .transitions
            .iter()
            .filter(|step| step.to == state && left[step.from])
        {
            let through = plus(weight[state], step.weight);
            if weight[step.from].is_none_or(|known| through.is_some_and(|sum| sum < known)) {
                weight[step.from] = through;
            }
        }
    }
    weight
}

/// The open state of least finite weight.
fn nearest(weight: &[Value], open: &[bool]) -> Option<usize> {
    let finite = (0..weight.len()).filter(|state| open[*state] && weight[*state].is_some());
    finite.min_by_key(|state| weight[*state])
}

/// How far the search for the worst run has come with a state.
#[derive(Clone, Copy)]
enum Seen {
    Never,
    OnTheWalk,
    Known(Value),
}

/// "A until: on every run." The first position with right is the lightest, and asks least of left.
/// So a state costs 0 where right holds, and nothing helps where neither holds; otherwise it costs
/// the worst over its transitions. A walk that comes back to a state before it met right can be
/// repeated for ever, whatever the weights: a run without right. So is one that ends before it met it.
fn worst(model: &Model, left: &[bool], right: &[bool]) -> Vec<Value> {
    let mut seen = vec![Seen::Never; model.states()];
    (0..model.states())
        .map(|state| worst_from(model, left, right, &mut seen, state))
        .collect()
}

fn worst_from(
    model: &Model,
    left: &[bool],
    right: &[bool],
    seen: &mut [Seen],
    state: usize,
) -> Value {
    match seen[state] {
        Seen::Known(value) => return value,
        Seen::OnTheWalk => return None,
        Seen::Never => seen[state] = Seen::OnTheWalk,
    }
    let value = if right[state] {
        Some(0)
    } else if !left[state] || model.is_dead(state) {
        None
    } else {
        model.leaving(state).fold(Some(0), |cost: Value, step| {
            let after = plus(worst_from(model, left, right, seen, step.to), step.weight);
            Some(cost?.max(after?))
        })
    };
    seen[state] = Seen::Known(value);
    value
}
