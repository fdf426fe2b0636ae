//! The systematic part for the nightly sheet: N.

use super::generate::EXTREMES;
use crate::answer::{Call, MOST_BYTES};
use crate::random::Random;
use crate::tally::{Entry, Outcome, LAST_NUMBER};

pub fn calls() -> Vec<Call> {
    let parts = [
        single(),
        pairs(),
        every_number(),
        largest_in_each_place(),
        long(),
    ];
    parts.into_iter().flatten().collect()
}

fn entry(outcome: Outcome, rounds: u32) -> Entry {
    Entry { outcome, rounds }
}

/// Yes, no, and the numbers around the table's ends.
fn outcomes() -> Vec<Outcome> {
    let mut all = vec![Outcome::Yes, Outcome::No];
    all.extend((0..=LAST_NUMBER + 3).map(Outcome::Refusal));
    all.extend([127, 128, 254, 255].map(Outcome::Refusal));
    all
}

/// No entry, and each one alone with small and extreme rounds.
fn single() -> Vec<Call> {
    let mut calls = vec![Call::entries(&[])];
    for outcome in outcomes() {
        for rounds in EXTREMES {
            calls.push(Call::entries(&[entry(outcome, rounds)]));
        }
    }
    calls
}

/// Every two outcomes in both orders: what the first leaves, the second finds.
fn pairs() -> Vec<Call> {
    let mut calls = vec![];
    for first in outcomes() {
        for second in outcomes() {
            calls.push(Call::entries(&[entry(first, 5), entry(second, 7)]));
        }
    }
    calls
}

/// Each outcome so many times that the counts differ, alone and behind what is refused.
fn every_number() -> Vec<Call> {
    let mut rising = vec![];
    for (index, outcome) in outcomes().into_iter().enumerate() {
        rising.extend((0..=index).map(|times| entry(outcome, (1000 * index + times) as u32)));
    }
    let falling: Vec<Entry> = rising.iter().rev().copied().collect();
    let all: Vec<Entry> = (0..=255)
        .map(|number| entry(Outcome::Refusal(number), u32::from(number) + 1))
        .collect();
    [rising, falling, all]
        .iter()
        .map(|entries| Call::entries(entries))
        .collect()
}

/// The largest rounds first, in the middle and last, of each outcome: a refusal's don't count.
fn largest_in_each_place() -> Vec<Call> {
    let mut calls = vec![];
    for outcome in outcomes() {
        for place in 0..3 {
            let mut entries = [
                entry(Outcome::Yes, 3),
                entry(Outcome::No, 2),
                entry(Outcome::Yes, 3),
            ];
            entries[place] = entry(outcome, u32::MAX);
            calls.push(Call::entries(&entries));
        }
    }
    calls
}

/// As many as a message holds: sums far past 32 bits, and histories of every outcome.
fn long() -> Vec<Call> {
    let most = MOST_BYTES / 6;
    let mut calls: Vec<Call> = [Outcome::No, Outcome::Refusal(1)]
        .iter()
        .map(|outcome| Call::entries(&vec![entry(*outcome, u32::MAX); most]))
        .collect();
    // the sum on both sides of 2 ^ 32
    for last in [0, 1, 2] {
        calls.push(Call::entries(&[
            entry(Outcome::Yes, u32::MAX),
            entry(Outcome::No, last),
        ]));
    }
    let mut random = Random::new(8);
    calls.push(Call::entries(&history(&mut random, most)));
    calls
}

/// A random history.
pub fn history(random: &mut Random, length: usize) -> Vec<Entry> {
    (0..length)
        .map(|_| {
            let outcome = match random.below(4) {
                0 => Outcome::Yes,
                1 => Outcome::No,
                2 => Outcome::Refusal(random.between(1, LAST_NUMBER as usize) as u8),
                _ => Outcome::Refusal(random.below(256) as u8),
            };
            let rounds = if random.once_in(4) {
                random.next() as u32
            } else {
                random.below(5000) as u32
            };
            entry(outcome, rounds)
        })
        .collect()
}
