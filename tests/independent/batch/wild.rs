//! Calls from a seed: random messages, some of them damaged, with rooms and budgets around what is
//! needed.

use super::damage::{self, MENDS};
use super::generate::{self, EXTREMES};
use super::{claims as around, entries, graphs, searches, verdicts};
use crate::answer::{Call, MOST_BYTES, MOST_VALUES, MOST_WORDS};
use crate::bytes;
use crate::claims::{self, Claims};
use crate::message::{self, set, Message};
use crate::random::Random;
use crate::text;
use crate::verdict::Question;

/// A call with one of the letters, and none where no letter is known.
pub fn call(random: &mut Random, letters: &str) -> Option<Call> {
    let weighted = "GGMMFFTTTRRRRRVVVVVVVSSSSSSCCCCWWWNN".bytes();
    let usable: Vec<u8> = weighted
        .filter(|letter| letters.contains(*letter as char))
        .collect();
    if usable.is_empty() {
        return None;
    }
    Some(match random.pick(&usable) {
        b'G' => graph_call(random),
        b'M' => model_call(random),
        b'F' => formula_call(random),
        b'T' => text_call(random),
        b'R' => rounds_call(random),
        b'S' => search_call(random),
        b'C' => claims_call(random),
        b'W' => writer_call(random),
        b'N' => entries_call(random),
        _ => verdict_call(random),
    })
}

/// Once in many calls a message is large.
fn large(random: &mut Random) -> bool {
    random.once_in(150)
}

/// A graph; now and then one that takes many rounds.
fn graph(random: &mut Random) -> Message {
    if random.once_in(60) {
        let (stages, length) = (random.between(1, 7), random.between(1, 9));
        return message::graph(&graphs::staged(stages, length));
    }
    let most = if large(random) { 900 } else { 8 };
    message::graph(&generate::graph(random, most))
}

fn model(random: &mut Random, large: bool) -> Message {
    message::model(&generate::model(random, if large { 256 } else { 7 }))
}

fn formula(random: &mut Random, p: u32, large: bool) -> Message {
    let rows = random.between(1, if large { 64 } else { 11 });
    message::formula(&generate::formula(random, p, rows))
}

/// A message for a check alone, damaged twice out of three times.
fn checked(random: &mut Random, message: &Message) -> Vec<u8> {
    if random.once_in(3) {
        message.bytes.clone()
    } else {
        damaged(random, message)
    }
}

/// A message that is damaged once in so many times.
fn maybe_damaged(random: &mut Random, message: &Message, times: usize) -> Vec<u8> {
    if random.once_in(times) {
        damaged(random, message)
    } else {
        message.bytes.clone()
    }
}

/// A change of the records, of a field or of the length; sometimes bytes changed on top.
fn damaged(random: &mut Random, message: &Message) -> Vec<u8> {
    let mut bytes = match random.below(8) {
        0 => damage::cut(
            message,
            random.below(message.bytes.len()),
            random.once_in(2),
        ),
        1 => {
            let more: Vec<u8> = (0..random.between(1, 12))
                .map(|_| random.below(3) as u8)
                .collect();
            damage::extend(message, &more, random.once_in(2))
        }
        2..=3 => in_records(random, message),
        4..=6 => in_fields(random, message),
        _ => message.bytes.clone(),
    };
    if random.once_in(3) && !bytes.is_empty() {
        let at = random.below(bytes.len());
        bytes[at] = random.pick(&[
            0,
            1,
            255,
            bytes[at] ^ 1,
            bytes[at] ^ 128,
            bytes[at].wrapping_add(1),
        ]);
    }
    if random.once_in(8) {
        message::mend_length(&mut bytes);
    }
    bytes
}

/// Records swapped, repeated or left out.
fn in_records(random: &mut Random, message: &Message) -> Vec<u8> {
    let list = random.pick(&message.lists);
    let count = list.records.len();
    let mend = random.pick(&MENDS);
    match (count, random.below(3)) {
        (0, _) => message.bytes.clone(),
        (_, 0) => damage::repeat(message, &list, random.below(count), mend),
        (1, _) | (_, 1) => damage::leave_out(message, &list, random.below(count), mend),
        _ => {
            let second = random.between(1, count - 1);
            damage::swap(message, &list, random.below(second), second)
        }
    }
}

/// One or two fields with another number.
fn in_fields(random: &mut Random, message: &Message) -> Vec<u8> {
    let mut bytes = message.bytes.clone();
    for _ in 0..random.between(1, 2) {
        let field = random.pick(&message.fields);
        let near = message
            .value(field)
            .wrapping_add(random.below(7) as u32)
            .wrapping_sub(3);
        let small = random.below(14) as u32;
        let number = random.pick(&[
            near,
            near,
            small,
            small,
            33,
            65,
            257,
            4_097,
            EXTREMES[2],
            EXTREMES[4],
        ]);
        set(&mut bytes, field, number);
    }
    bytes
}

/// A p, and the p handed in: mostly the same.
fn propositions(random: &mut Random) -> (u32, u32) {
    let p = random.pick(&[0, 1, 2, 3, 4, 10, 31, 32]);
    let other = random.pick(&[p / 2, 32, 33, 40, 256, u32::MAX]);
    (p, if random.once_in(8) { other } else { p })
}

fn graph_call(random: &mut Random) -> Call {
    let message = graph(random);
    Call::graph(&checked(random, &message))
}

/// A model; now and then as it was written before it had actions.
fn model_call(random: &mut Random) -> Call {
    if random.once_in(25) {
        return Call::model(&message::old_model(&generate::model(random, 7)));
    }
    let large = large(random);
    let message = model(random, large);
    Call::model(&checked(random, &message))
}

/// A formula, and the p handed in beside it.
fn formula_with_p(random: &mut Random) -> (Message, u32) {
    let (p, handed_in) = propositions(random);
    let large = large(random);
    (formula(random, p, large), handed_in)
}

fn formula_call(random: &mut Random) -> Call {
    let (message, p) = formula_with_p(random);
    Call::formula(p, &checked(random, &message))
}

fn text_call(random: &mut Random) -> Call {
    let (message, p) = formula_with_p(random);
    let message = maybe_damaged(random, &message, 4);
    let needed = bytes::formula(p, &message).map_or(30, |rows| text::text(&rows).len());
    Call::text(p, room(random, needed, MOST_BYTES), &message)
}

fn rounds_call(random: &mut Random) -> Call {
    let message = graph(random);
    let message = maybe_damaged(random, &message, 5);
    let (needed, count) = bytes::graph(&message).map_or((9, 3), |graph| graphs::needs(&graph));
    let room = room(random, needed, MOST_VALUES);
    Call::rounds(budget(random, count), room, &message)
}

/// A model and a formula over its propositions, each damaged now and then.
pub fn two_messages(random: &mut Random) -> (Vec<u8>, Vec<u8>) {
    let parts = if large(random) {
        random.between(1, 3)
    } else {
        0
    };
    let model = model(random, parts & 1 != 0);
    let p = model.value(model.fields[4]);
    let formula = formula(random, p, parts & 2 != 0);
    (
        maybe_damaged(random, &model, 9),
        maybe_damaged(random, &formula, 9),
    )
}

fn verdict_call(random: &mut Random) -> Call {
    let (model, formula) = two_messages(random);
    let (length, values, count) = verdicts::needs(&model, &formula).map_or((90, 20, 3), |needs| {
        (needs.length, needs.values, needs.count)
    });
    let states = bytes::model(&model).map_or(1, |model| model.states());
    let question = Question {
        model: &model,
        formula: &formula,
        state: state(random, states),
        budget: budget(random, count),
    };
    let graph_room = room(random, length, MOST_BYTES);
    Call::verdict(&question, graph_room, room(random, values, MOST_VALUES))
}

/// A search, mostly of a plain graph.
fn search_call(random: &mut Random) -> Call {
    let message = if random.once_in(12) {
        graph(random)
    } else {
        let most = if large(random) { 300 } else { 10 };
        message::graph(&generate::plain_graph(random, most))
    };
    let message = maybe_damaged(random, &message, 12);
    let nodes = bytes::graph(&message).map_or(1, |graph| graph.nodes);
    let root = state(random, nodes);
    let room = room(random, searches::needed(&message), MOST_WORDS);
    Call::search(root, room, &message)
}

/// Claims around the ranked ones of a graph, now and then damaged.
fn claims_call(random: &mut Random) -> Call {
    let message = graph(random);
    let message = maybe_damaged(random, &message, 12);
    let none = || Claims {
        values: vec![None],
        ranks: vec![0],
    };
    let ranked = bytes::graph(&message).map_or_else(|_| none(), |graph| claims::ranked(&graph));
    let claims = if random.once_in(3) || ranked.values.len() > 60 {
        ranked
    } else {
        random.pick(&around::around(&ranked))
    };
    let mut bytes = claims.write();
    if random.once_in(8) {
        let at = random.below(bytes.len());
        bytes[at] ^= random.pick(&[1, 2, 128, 255]);
    }
    if random.once_in(20) {
        bytes.truncate(random.below(bytes.len()));
    }
    Call::claims(&message, &bytes)
}

/// A writer, with rooms around what it needs.
fn writer_call(random: &mut Random) -> Call {
    let message = graph(random);
    let message = maybe_damaged(random, &message, 12);
    let nodes = bytes::graph(&message).map_or(2, |graph| graph.nodes);
    let bytes = room(random, claims::CLAIM * nodes, MOST_BYTES);
    let words = room(random, claims::WORDS * nodes, MOST_VALUES);
    Call::certify(bytes, words, &message)
}

/// Mostly a state that exists.
fn state(random: &mut Random, states: usize) -> u32 {
    if random.once_in(12) {
        random.pick(&[states as u32, states as u32 + 1, 255, 65_536, u32::MAX])
    } else {
        random.below(states) as u32
    }
}

/// A room of what is needed, of one less, or of more; at most the limit.
fn room(random: &mut Random, needed: usize, most: usize) -> usize {
    let room = match random.below(16) {
        0 => needed.saturating_sub(1),
        1 => random.below(needed + 1),
        2..=5 => needed + random.between(1, 20),
        _ => needed,
    };
    room.min(most)
}

/// A budget around the count, or an ample one.
fn budget(random: &mut Random, count: u32) -> u32 {
    match random.below(10) {
        0 => count.saturating_sub(1),
        1 => random.below(count as usize + 1) as u32,
        2 => random.pick(&EXTREMES),
        3 => count + 1,
        4..=5 => count,
        _ => u32::MAX,
    }
}

/// A history, now and then a long one.
fn entries_call(random: &mut Random) -> Call {
    let most = if large(random) { MOST_BYTES / 6 } else { 40 };
    let length = random.between(0, most);
    Call::entries(&entries::history(random, length))
}
