//! Inputs of the program from a seed.

use super::generate;
use super::inputs::{around_room, joined, most_transitions};
use super::wild;
use crate::bytes::{Model, Row};
use crate::random::Random;

/// Mostly a small question whose messages are damaged now and then; sometimes a large one, or one
/// whose bytes are damaged as a whole.
pub fn input(random: &mut Random) -> Vec<u8> {
    match random.below(24) {
        0..=15 => small(random),
        16..=18 => large(random),
        19 => crowded(random),
        _ => {
            let input = if random.once_in(6) {
                large(random)
            } else {
                small(random)
            };
            damaged(random, &input)
        }
    }
}

fn small(random: &mut Random) -> Vec<u8> {
    let (model, formula) = wild::two_messages(random);
    [model, formula].concat()
}

/// Many states or many rows, with n on both sides of its limit; up to 8,192 bytes together, and
/// now and then past them.
fn large(random: &mut Random) -> Vec<u8> {
    let states = random.pick(&[1, 2, 5, 20, 60, 100, 150, 200, 250, 255, 256]);
    let rows = random.between(1, (4_096 / states).min(64));
    let most = most_transitions(states, rows);
    let transitions = match random.below(8) {
        0 => most,
        1 => most + 1,
        2 => random.between(0, most),
        _ => (random.between(1, 3) * states).min(most),
    };
    let mut model = generate::crowd(random, states, transitions);
    if random.once_in(2) {
        stretch(random, &mut model);
    }
    joined(&model, &generate::formula(random, model.propositions, rows))
}

/// Leads each transition to a state near by and labels most states alike, so that ways are long and
/// rounds many.
fn stretch(random: &mut Random, model: &mut Model) {
    let states = model.states();
    let common = model.labels[0];
    for label in &mut model.labels {
        if !random.once_in(60) {
            *label = common;
        }
    }
    let ring = random.once_in(2);
    for step in &mut model.transitions {
        let to = step.from + random.pick(&[1, 1, 1, 1, 1, 1, 2, 0]);
        step.to = if ring {
            to % states
        } else {
            to.min(states - 1)
        };
    }
}

/// A few states with as many transitions as there can be, and rows that bring the graph near its
/// room; where it can be, to the last transition that fits or the first that doesn't.
fn crowded(random: &mut Random) -> Vec<u8> {
    let states = random.between(1, 12);
    let size = random.between(8, 26);
    let most = most_transitions(states, size);
    let transitions = random.between(most / 2, most);
    let mut model = generate::crowd(random, states, transitions);
    for step in &mut model.transitions {
        step.weight = random.below(3_000) as u32;
    }
    let mut rows = generate::formula(random, model.propositions, size - 5);
    for _ in 0..4 {
        let top = rows.len() - 1;
        let bound = random.pick(&[None, None, Some(2_900), Some(2_000), Some(500)]);
        rows.push(Row::Next(generate::runs(random), bound, top));
    }
    let runs = generate::runs(random);
    let rows = match around_room(&model, &rows, runs) {
        Some(found) => random.pick(&found),
        None => rows,
    };
    joined(&model, &rows)
}

/// Cut, with bytes more, less or changed anywhere, with another length of the model, or turned
/// around.
fn damaged(random: &mut Random, input: &[u8]) -> Vec<u8> {
    let mut bytes = input.to_vec();
    let at = random.below(input.len().max(1)).min(input.len());
    match random.below(7) {
        0 => bytes.truncate(at),
        1 => drop(bytes.drain(..at)),
        2 => drop(bytes.splice(at..at, [random.below(4) as u8])),
        3 => {
            let more = random.pick(&[1, 4, 8, 1_000, 8_192, 9_000]);
            bytes.resize(input.len() + more, random.below(3) as u8);
        }
        4 if at < input.len() => bytes[at] = random.next() as u8,
        5 if input.len() >= 4 => {
            let length = random.below(input.len() + 3) as u32;
            let any = random.next() as u32;
            let number = random.pick(&[length, length, length, any]);
            bytes[..4].copy_from_slice(&number.to_be_bytes());
        }
        _ => bytes.rotate_left(at),
    }
    bytes
}
