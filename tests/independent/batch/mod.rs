//! Batches of calls: a systematic part that is always the same, then calls made from a seed.

pub mod claims;
mod damage;
pub mod ends;
pub mod entries;
mod formulas;
pub mod generate;
mod graphs;
pub mod inputs;
mod models;
mod offsets;
pub mod searches;
mod sweep;
mod verdicts;
mod wild;
mod wild_inputs;

use crate::answer::{answer_batch, Call};
use crate::random::Random;
use std::collections::BTreeSet;

/// The calls that don't depend on a seed, each once.
pub fn systematic() -> Vec<Call> {
    let parts = [
        graphs::calls(),
        models::calls(),
        formulas::calls(),
        verdicts::calls(),
        searches::calls(),
        offsets::calls(),
        claims::calls(),
        entries::calls(),
    ];
    let mut calls: Vec<Call> = parts.into_iter().flatten().collect();
    let mut seen = BTreeSet::new();
    calls.retain(|call| seen.insert(call.clone()));
    assert!(
        calls.iter().all(Call::within_limits),
        "a call past the limits of trials"
    );
    calls
}

/// A batch of so many calls with these letters, and the lines that it must get: the systematic part,
/// cut where it is longer, then calls from the seed. A `?` among the letters asks for a last call
/// that ends the run.
pub fn make(seed: u64, calls: usize, letters: &str) -> (Vec<u8>, String) {
    let mut random = Random::new(seed);
    let last = letters.contains('?').then(|| no_call(&mut random));
    let wanted = calls - usize::from(last.is_some() && calls > 0);
    let mut batch: Vec<Call> = systematic();
    batch.retain(|call| letters.contains(call.letter as char));
    batch.truncate(wanted);
    while batch.len() < wanted {
        match wild::call(&mut random, letters) {
            Some(call) => batch.push(call),
            None => break,
        }
    }
    let mut input = vec![];
    batch.iter().for_each(|call| call.write(&mut input));
    input.extend(last.unwrap_or_default());
    let lines = answer_batch(&input);
    (input, lines)
}

fn no_call(random: &mut Random) -> Vec<u8> {
    random.pick(&ends::no_calls())
}
