//! The systematic part for model messages: M.

use super::sweep;
use crate::answer::{Call, MOST_BYTES};
use crate::bytes::{self, Model};
use crate::known::{self, acting, model, Step};
use crate::message::{self, Message, STEP};

pub fn calls() -> Vec<Call> {
    let parts = [
        refusals(),
        labels(),
        dead_states(),
        faulty_and_dead(),
        actions(),
        old_versions(),
        large(),
    ];
    let messages: Vec<Vec<u8>> = parts.into_iter().flatten().collect();
    messages
        .iter()
        .map(|message| Call::model(message))
        .collect()
}

/// A model with a state of several transitions and two propositions.
pub fn base() -> Message {
    let steps = [
        (0, 3, 7, 0),
        (0, 2, 263, 1),
        (1, 0, 65_535, 2),
        (2, 1, 255, 1),
        (2, 1, 255, 1),
    ];
    message::model(&acting(2, &[1, 3, 2], &steps))
}

pub fn field_changes() -> Vec<Vec<u8>> {
    sweep::fields(&base(), &|bytes| bytes::model(bytes).err())
}

/// Every field, every two faults, every cut, every byte and every record of a model.
fn refusals() -> Vec<Vec<u8>> {
    let base = base();
    let judged = |bytes: &[u8]| bytes::model(bytes).err();
    let parts = [
        vec![base.bytes.clone(), message::model(&known::model_m()).bytes],
        field_changes(),
        sweep::lengths(&base),
        sweep::bytes(&base),
        sweep::records(&base),
        sweep::pairs(&base, &judged),
    ];
    parts.into_iter().flatten().collect()
}

/// "Label: a bit at p or above is FORM.", for each p and the bits on both sides.
pub fn labels() -> Vec<Vec<u8>> {
    let mut messages = vec![];
    for p in 0..=32 {
        for bit in [p as i32 - 1, p as i32, 31]
            .into_iter()
            .filter(|bit| (0..32).contains(bit))
        {
            messages.push(message::model(&model(p, &[1 << bit], &[(0, 0, 0)])).bytes);
        }
    }
    let all_below = |p: u32| ((1u64 << p) - 1) as u32;
    let full = |p: u32| message::model(&model(p, &[all_below(p)], &[(0, 0, 0)])).bytes;
    messages.extend([0, 1, 31, 32].map(full));
    messages
}

/// "a state without transitions" is taken: each state in turn, all, and all but one.
pub fn dead_states() -> Vec<Vec<u8>> {
    let ring = |states: usize, dead: &dyn Fn(usize) -> bool| {
        let alive = (0..states).filter(|state| !dead(*state));
        let steps: Vec<(usize, u32, usize)> = alive
            .map(|state| (state, 1, (state + 1) % states))
            .collect();
        message::model(&model(0, &vec![0; states], &steps)).bytes
    };
    let mut messages: Vec<Vec<u8>> = (0..5).map(|dead| ring(5, &|state| state == dead)).collect();
    messages.extend((0..5).map(|alive| ring(5, &|state| state != alive)));
    messages.extend([
        ring(1, &|_| false),
        ring(1, &|_| true),
        ring(5, &|_| true),
        ring(5, &|_| false),
    ]);
    messages
}

/// A dead state in a message that is refused for something else: before it, at it and after it.
fn faulty_and_dead() -> Vec<Vec<u8>> {
    let dead = message::model(&model(1, &[1, 0, 1], &[(0, 1, 1), (2, 4, 1)]));
    let none = message::model(&model(1, &[1, 0, 1], &[]));
    let judged = |bytes: &[u8]| bytes::model(bytes).err();
    let parts = [&dead, &none].map(|base| {
        [
            vec![base.bytes.clone()],
            sweep::fields(base, &judged),
            sweep::records(base),
        ]
        .concat()
    });
    parts.concat()
}

/// Actions at which a wrong reading or a wrong comparison shows: the ends of a byte and of two, single
/// bits, and numbers that are alike in their low or in their high byte.
pub const ACTIONS: [u16; 16] = [
    0, 1, 2, 127, 128, 254, 255, 256, 257, 511, 512, 768, 32_768, 65_280, 65_281, 65_535,
];

/// Of an action nothing is demanded: each is taken, at the first transition and at the last, where no
/// state but the first has a transition, so that an action read as a state would be refused.
pub fn actions() -> Vec<Vec<u8>> {
    let with = |first: u16, last: u16| {
        let steps = [(0, 1, first, 0), (0, 2, last, 0)];
        message::model(&acting(1, &[1], &steps)).bytes
    };
    let mut messages: Vec<Vec<u8>> = ACTIONS.iter().map(|action| with(*action, 0)).collect();
    messages.extend(ACTIONS.iter().map(|action| with(65_535, *action)));
    messages
}

/// "Version 1 is refused with VERSION": models as they were written before, the same with version 2,
/// and new ones with version 1.
pub fn old_versions() -> Vec<Vec<u8>> {
    let mut messages = vec![];
    for model in [known::model_m(), full(3, 5), full(2, 4), full(3, 0)] {
        let (new, old) = (message::model(&model), message::old_model(&model));
        let version = new.fields[1];
        messages.push(new.with(version, 1));
        let mut renamed = old.clone();
        message::set(&mut renamed, version, 2);
        messages.extend([old, renamed]);
    }
    messages
}

/// So many states, and transitions from each in turn until there are so many.
pub fn full(states: usize, transitions: usize) -> Model {
    let step = |index: usize| {
        let from = index * states / transitions;
        let (weight, action) = (index as u32 % 5, index as u16 % 3 * 128);
        (from, weight, action, (from + 1 + index % 3) % states)
    };
    let labels: Vec<u32> = (0..states as u32).map(|state| state % 4).collect();
    acting(
        2,
        &labels,
        &(0..transitions).map(step).collect::<Vec<Step>>(),
    )
}

/// The most transitions that so many states can have in 65,536 bytes.
pub fn most_transitions(states: usize) -> usize {
    (MOST_BYTES - 13 - 4 * states) / STEP
}

/// Models at the limits of the table, as far as 65,536 bytes can hold them.
fn large() -> Vec<Vec<u8>> {
    let written = |model: Model| message::model(&model).bytes;
    let mut last_dead = full(256, 255);
    last_dead
        .transitions
        .iter_mut()
        .enumerate()
        .for_each(|(index, step)| step.from = index);
    vec![
        written(full(255, 255)),
        written(full(256, 256)),
        written(full(257, 257)),
        written(last_dead),
        written(full(256, 0)),
        written(full(257, 0)),
        written(full(256, most_transitions(256))),
        vec![0; 65_536],
    ]
}
