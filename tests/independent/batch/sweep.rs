//! Systematic changes of one message: every field across every border between its outcomes, every
//! two faults together, every cut, every byte, every record.

use super::damage::{self, MENDS};
use crate::message::{set, Field, Message};
use crate::refusal::Fault;
use std::collections::BTreeSet;

/// How the changed messages are judged: the fault that is found first, or none.
pub type Judged<'a> = &'a dyn Fn(&[u8]) -> Option<Fault>;

/// Numbers at which a rule may begin or end to hold: small ones, the limits of the table on both
/// sides, and the ends of each width.
fn candidates(current: u32, width: usize) -> Vec<u32> {
    let near = [32, 64, 128, 256, 4_096, 32_768, 65_536];
    let mut numbers: Vec<u32> = (0..=12).collect();
    numbers.extend(
        near.iter()
            .flat_map(|limit| [limit - 2, limit - 1, *limit, limit + 1, limit + 2]),
    );
    numbers.extend([(1 << 31) - 1, 1 << 31, u32::MAX - 1, u32::MAX]);
    numbers.extend([current.wrapping_sub(1), current, current.wrapping_add(1)]);
    numbers.retain(|number| u64::from(*number) >> (8 * width) == 0);
    numbers.sort_unstable();
    numbers.dedup();
    numbers
}

/// The numbers of a field on both sides of each change of the outcome, and the ends, each with its
/// outcome.
fn borders(message: &Message, field: Field, judged: Judged) -> Vec<(u32, Option<Fault>)> {
    let numbers = candidates(message.value(field), field.width);
    let outcome = |number: &u32| (*number, judged(&message.with(field, *number)));
    let all: Vec<(u32, Option<Fault>)> = numbers.iter().map(outcome).collect();
    let differs =
        |index: usize, other: usize| all.get(other).is_none_or(|next| next.1 != all[index].1);
    let kept = |index: &usize| differs(*index, index.wrapping_sub(1)) || differs(*index, index + 1);
    (0..all.len())
        .filter(kept)
        .map(|index| all[index])
        .collect()
}

/// Each field with each of its border numbers.
pub fn fields(message: &Message, judged: Judged) -> Vec<Vec<u8>> {
    let mut changed = vec![];
    for field in &message.fields {
        for (number, _) in borders(message, *field, judged) {
            changed.push(message.with(*field, number));
        }
    }
    changed.retain(|bytes| *bytes != message.bytes);
    changed
}

/// For each field the first number that is refused, for each rule that refuses one.
fn faults(message: &Message, judged: Judged) -> Vec<(Field, u32)> {
    let mut found = vec![];
    for field in &message.fields {
        let mut rules = BTreeSet::new();
        for (number, fault) in borders(message, *field, judged) {
            if fault.is_some_and(|fault| rules.insert(fault.rule())) {
                found.push((*field, number));
            }
        }
    }
    found
}

/// Two faults in one message, for every two: "the first fault found is the answer".
pub fn pairs(message: &Message, judged: Judged) -> Vec<Vec<u8>> {
    let faults = faults(message, judged);
    let mut changed = vec![];
    for (index, (first, number)) in faults.iter().enumerate() {
        for (second, other) in faults[index..].iter().filter(|(field, _)| field != first) {
            let mut bytes = message.with(*first, *number);
            set(&mut bytes, *second, *other);
            changed.push(bytes);
        }
    }
    changed
}

/// The message cut at each length, with its length field put right; some as it stands too. And with
/// bytes behind it.
pub fn lengths(message: &Message) -> Vec<Vec<u8>> {
    let whole = message.bytes.len();
    let mut changed: Vec<Vec<u8>> = (0..whole)
        .map(|length| damage::cut(message, length, true))
        .collect();
    changed.extend(
        (0..whole)
            .step_by(4)
            .map(|length| damage::cut(message, length, false)),
    );
    for more in [1, 2, 4, 8] {
        changed.push(damage::extend(message, &vec![0; more], true));
        changed.push(damage::extend(message, &vec![0; more], false));
    }
    changed
}

/// Each byte changed, its lowest bit, its highest or all of them in turn.
pub fn bytes(message: &Message) -> Vec<Vec<u8>> {
    let change = |at: usize| {
        let mut bytes = message.bytes.clone();
        bytes[at] ^= [1, 128, 255][at % 3];
        bytes
    };
    (0..message.bytes.len()).map(change).collect()
}

/// Each record repeated and left out, and every two of a list swapped.
pub fn records(message: &Message) -> Vec<Vec<u8>> {
    let mut changed = vec![];
    for list in &message.lists {
        for record in 0..list.records.len() {
            for mend in MENDS {
                changed.push(damage::repeat(message, list, record, mend));
                changed.push(damage::leave_out(message, list, record, mend));
            }
            for other in record + 1..list.records.len() {
                changed.push(damage::swap(message, list, record, other));
            }
        }
    }
    changed
}

/// For each rule that one of these messages breaks, the first that breaks it.
pub fn one_for_each_rule(messages: &[Vec<u8>], judged: Judged) -> Vec<Vec<u8>> {
    let mut rules = BTreeSet::new();
    let mut found = messages.to_vec();
    found.retain(|message| judged(message).is_some_and(|fault| rules.insert(fault.rule())));
    found
}
