//! The systematic part for request 4: where a fault is. The other parts damage every field of small
//! messages; here are longer ones, whose offsets take more than a byte, the last field of the longest
//! ones, and every choice of unused fields.

use super::generate;
use super::{graphs, models, searches, verdicts};
use crate::answer::Call;
use crate::bytes::{Formula, Row, Runs};
use crate::message::{self, set, Field, Message};
use crate::random::Random;
use std::ops::Range;

pub fn calls() -> Vec<Call> {
    let parts = [
        unused_fields(),
        long_graph(),
        plain_graph(),
        long_model(),
        long_formula(),
        longest(),
    ];
    parts.into_iter().flatten().collect()
}

/// Every choice of left, right, zero and bound not zero, for every operator and one that is none: in a
/// last row whose names exist, so that only an unused field is wrong.
fn unused_fields() -> Vec<Call> {
    let mut calls = vec![];
    let rows = vec![Row::Has(0), Row::Has(1), Row::And(0, 1)];
    let formula = message::formula(&rows);
    let last: Vec<Field> = formula.fields[formula.fields.len() - 5..].to_vec();
    for operator in 0..=12 {
        for choice in 0..16 {
            let mut bytes = formula.with(last[0], operator);
            for (bit, field) in last[1..].iter().enumerate() {
                set(&mut bytes, *field, choice >> bit & 1);
            }
            calls.push(Call::formula(2, &bytes));
            if choice % 5 == 0 {
                calls.push(Call::text(2, 40, &bytes));
            }
        }
    }
    calls
}

/// Each field that starts in this part of the message with all bits set, and with none.
fn damaged(message: &Message, part: Range<usize>) -> Vec<Vec<u8>> {
    let fields = message.fields.iter();
    let within = fields.filter(|field| part.contains(&field.at));
    let mut changed: Vec<Vec<u8>> = within
        .flat_map(|field| [u32::MAX, 0].map(|number| message.with(*field, number)))
        .collect();
    changed.retain(|bytes| *bytes != message.bytes);
    changed
}

/// The parts of a message around the offsets 256 and 512, and its end.
fn parts(message: &Message) -> Vec<Range<usize>> {
    let end = message.bytes.len();
    vec![240..272, 504..520, end - 24..end]
}

fn damaged_in_parts(message: &Message) -> Vec<Vec<u8>> {
    let parts = parts(message).into_iter();
    parts.flat_map(|part| damaged(message, part)).collect()
}

/// A graph with many records of each kind.
fn long_graph() -> Vec<Call> {
    let message = message::graph(&generate::graph_of(&mut Random::new(4), 24, 30, 20));
    let mut calls = vec![];
    for changed in damaged_in_parts(&message) {
        calls.push(Call::graph(&changed));
        calls.push(Call::rounds(9, 48, &changed));
    }
    calls
}

/// The same without weights and cover edges.
fn plain_graph() -> Vec<Call> {
    let mut graph = generate::graph_of(&mut Random::new(5), 24, 50, 0);
    let edges = graph.hyperedges.iter_mut();
    edges
        .flat_map(|edge| &mut edge.targets)
        .for_each(|target| target.weight = 0);
    let message = message::graph(&graph);
    damaged_in_parts(&message)
        .iter()
        .map(|changed| searches::search_of(3, changed))
        .collect()
}

/// A model with labels and transitions on both sides of those offsets.
fn long_model() -> Vec<Call> {
    let formula = message::formula(&vec![Row::True, Row::Next(Runs::All, Some(2), 0)]).bytes;
    let mut calls = vec![];
    for (states, transitions) in [(62, 40), (20, 64)] {
        let message = message::model(&models::full(states, transitions));
        for changed in damaged_in_parts(&message) {
            calls.push(Call::model(&changed));
            calls.push(verdicts::asked(&changed, &formula, 1));
        }
    }
    calls
}

/// A formula of 64 rows, beside a small model too.
fn long_formula() -> Vec<Call> {
    let rows: Formula = generate::formula(&mut Random::new(6), 2, 64);
    let message = message::formula(&rows);
    let model = models::base().bytes;
    let mut calls = vec![];
    for changed in damaged_in_parts(&message) {
        calls.push(Call::formula(2, &changed));
        calls.push(Call::text(2, 30, &changed));
        calls.push(verdicts::asked(&model, &changed, 1));
    }
    calls
}

/// The last name of the longest graph and of the longest model.
fn longest() -> Vec<Call> {
    let graph = message::graph(&graphs::full());
    let model = message::model(&models::full(256, models::most_transitions(256)));
    let last = |message: &Message| {
        let field = *message.fields.last().expect("a field");
        message.with(field, u32::MAX)
    };
    vec![Call::graph(&last(&graph)), Call::model(&last(&model))]
}
