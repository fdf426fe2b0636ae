//! Inputs of the program `otzarvim`: a model followed by a formula, and what is none. First the
//! systematic part, then inputs made from a seed.

use super::formulas::{self, nested, tower, tower_by};
use super::verdicts::{self, loops, loops_of_action, passing, with_unary};
use super::{generate, models, offsets, wild_inputs};
use crate::build;
use crate::bytes::{Formula, Model, Row, Runs};
use crate::known::{self, model};
use crate::message::{self, mend_length, STEP};
use crate::program::{GRAPH_ROOM, MOST_INPUT};
use crate::random::Random;
use std::collections::BTreeSet;

/// So many inputs: the systematic part, cut where it is longer, then inputs from the seed.
pub fn make(seed: u64, cases: usize) -> Vec<Vec<u8>> {
    let mut random = Random::new(seed);
    let mut inputs = systematic();
    inputs.truncate(cases);
    while inputs.len() < cases {
        inputs.push(wild_inputs::input(&mut random));
    }
    inputs
}

/// The inputs that don't depend on a seed, each once. Those that only the program tells apart come
/// first, then the two messages of every systematic verdict.
pub fn systematic() -> Vec<Vec<u8>> {
    let parts = [
        known_questions(),
        cuts(),
        changed_bytes(),
        length_fields(),
        orders(),
        totals(),
        graph_rooms(),
        sizes(),
        many_states(),
        long_texts(),
        of_verdicts(),
    ];
    let mut inputs: Vec<Vec<u8>> = parts.into_iter().flatten().collect();
    let mut seen = BTreeSet::new();
    inputs.retain(|input| seen.insert(input.clone()));
    inputs
}

pub fn joined(model: &Model, rows: &Formula) -> Vec<u8> {
    [message::model(model).bytes, message::formula(rows).bytes].concat()
}

/// T13's input: 51 bytes of model M and 31 of the formula.
pub fn t13() -> Vec<u8> {
    joined(&known::model_m(), &known::until(Runs::Some, Some(2)))
}

/// Where T13's formula starts.
const T13_CUT: usize = 51;

fn known_questions() -> Vec<Vec<u8>> {
    let ask = |known: &known::KnownQuestion| joined(&known::model_m(), &known.rows);
    let mut inputs: Vec<Vec<u8>> = known::questions().iter().map(ask).collect();
    inputs.push([models::base().bytes, formulas::every_operator().bytes].concat());
    inputs
}

/// T13's input cut at each byte, at its end and at its start: as it stands, with the model's length
/// field saying how many bytes there are, and with the formula's. A longer one cut here and there.
fn cuts() -> Vec<Vec<u8>> {
    let whole = t13();
    let mut inputs = vec![];
    for length in 0..whole.len() {
        let cut = &whole[..length];
        inputs.push(cut.to_vec());
        inputs.push(mended(cut, 0));
        if length > T13_CUT {
            inputs.push(mended(cut, T13_CUT));
        }
        inputs.push(whole[length..].to_vec());
    }
    let long = [models::base().bytes, formulas::every_operator().bytes].concat();
    inputs.extend(
        (0..long.len())
            .step_by(7)
            .map(|length| long[..length].to_vec()),
    );
    inputs
}

/// The bytes with the length field at a place saying how many follow from there.
fn mended(bytes: &[u8], at: usize) -> Vec<u8> {
    let (front, message) = bytes.split_at(at);
    let mut message = message.to_vec();
    mend_length(&mut message);
    [front, &message].concat()
}

/// Each byte of T13's input with its lowest bit, its highest or all of them changed; left out; and
/// with a zero before it.
fn changed_bytes() -> Vec<Vec<u8>> {
    let whole = t13();
    let mut inputs = vec![];
    for at in 0..whole.len() {
        for change in [1, 128, 255] {
            let mut bytes = whole.clone();
            bytes[at] ^= change;
            inputs.push(bytes);
        }
        inputs.push([&whole[..at], &whole[at + 1..]].concat());
        inputs.push([&whole[..at], &[0], &whole[at..]].concat());
    }
    inputs
}

/// Other numbers in the length field of the model and of the formula: too small for a header, on both
/// sides of where the message and the input end, huge, and those whose low bytes are right. On T13,
/// on an input of 8,192 bytes, and on one with bytes to spare.
fn length_fields() -> Vec<Vec<u8>> {
    let mut inputs = vec![];
    let roomy = [t13(), vec![0; 40]].concat();
    let full = of_length(MOST_INPUT);
    let cut = full.len() - 31;
    for (input, cut) in [(t13(), T13_CUT), (roomy, T13_CUT), (full, cut)] {
        for at in [0, cut] {
            let end = if at == 0 { cut } else { input.len() };
            for number in lengths(end - at, input.len() - at) {
                let mut bytes = input.clone();
                bytes[at..at + 4].copy_from_slice(&number.to_be_bytes());
                inputs.push(bytes);
            }
        }
    }
    inputs
}

fn lengths(message: usize, rest: usize) -> Vec<u32> {
    let (message, rest) = (message as u32, rest as u32);
    let mut numbers: Vec<u32> = (0..=15).collect();
    numbers.extend([message - 8, message - 4, message - 1, message, message + 1]);
    numbers.extend([message + 4, message + 8]);
    numbers.extend([rest - 1, rest, rest + 1, rest + 4, 8_191, 8_192, 8_193]);
    numbers.extend([65_535, 65_536, 65_536 + message, (1 << 24) + message]);
    numbers.extend([(1 << 31) - 1, 1 << 31, (1 << 31) + message]);
    numbers.extend([u32::MAX - 1, u32::MAX, message.swap_bytes()]);
    numbers
}

/// The messages in another order, alone, twice, and with others: what a person may hand in by
/// mistake.
fn orders() -> Vec<Vec<u8>> {
    let m = message::model(&known::model_m()).bytes;
    let f = message::formula(&known::until(Runs::Some, Some(2))).bytes;
    let g = message::graph(&known::graph_g()).bytes;
    let text = b"E[p0 U<=2 p1]\n".to_vec();
    let line_feed = vec![b'\n'];
    let none = vec![];
    let orders: [&[&Vec<u8>]; 24] = [
        &[&none],
        &[&m],
        &[&f],
        &[&g],
        &[&f, &m],
        &[&m, &m],
        &[&f, &f],
        &[&m, &m, &f],
        &[&m, &f, &f],
        &[&m, &f, &m],
        &[&m, &f, &m, &f],
        &[&f, &m, &f],
        &[&g, &f],
        &[&m, &g],
        &[&m, &g, &f],
        &[&g, &m, &f],
        &[&text],
        &[&m, &text],
        &[&m, &f, &line_feed],
        &[&m, &line_feed, &f],
        &[&line_feed, &m, &f],
        &[&line_feed],
        &[&m, &f, &text],
        &[&text, &m, &f],
    ];
    let mut inputs: Vec<Vec<u8>> = orders
        .iter()
        .map(|parts| parts.iter().flat_map(|part| part.iter().copied()).collect())
        .collect();
    // one length field for both messages
    inputs.push(mended(&[m, f].concat(), 0));
    inputs
}

/// A question of so many bytes, a multiple of 4: one to five states with as many transitions as it
/// takes, and T13's formula.
fn of_length(total: usize) -> Vec<u8> {
    let rest = total - 13 - 31;
    let states = 1 + (rest / 4 + 4) % 5;
    let transitions = (rest - 4 * states) / STEP;
    let step = |index: usize| {
        let from = index * states / transitions;
        (from, index as u32 % 7, (from + index) % states)
    };
    let labels = &[1, 3, 0, 2, 1][..states];
    let steps: Vec<(usize, u32, usize)> = (0..transitions).map(step).collect();
    let input = joined(
        &model(2, labels, &steps),
        &known::until(Runs::Some, Some(2)),
    );
    assert_eq!(input.len(), total);
    input
}

/// "at most 8,192 bytes together .. if .. the input is longer, it writes `refused 2`": questions on
/// both sides; with bytes behind them, where the first 8,192 would be answered, or refused with
/// another number; a small question and no question, of all these lengths.
fn totals() -> Vec<Vec<u8>> {
    let mut inputs = vec![];
    for total in [8_180, 8_184, 8_188, 8_192, 8_196, 8_200, 8_204, 16_384] {
        let input = of_length(total);
        inputs.push(other_version(&input));
        inputs.push(input[..total - 1].to_vec());
        inputs.push([&input[..], &[0]].concat());
        inputs.push(input);
    }
    let longer = [
        8_190, 8_191, 8_192, 8_193, 8_194, 8_200, 12_288, 16_384, 16_385, 65_535, 65_536, 65_537,
        200_000, 1_000_000,
    ];
    for length in longer {
        for start in [vec![], t13(), of_length(8_192), other_version(&t13())] {
            let mut bytes = start;
            bytes.resize(length, 0);
            inputs.push(bytes);
        }
    }
    // the formula alone may be too long, and a model's length field may ask for all of it
    for length in [8_191, 8_192, 8_193] {
        inputs.push(mended(&vec![0; length], 0));
        let mut bytes = t13();
        bytes.resize(length, 0);
        inputs.push(mended(&bytes, T13_CUT));
        inputs.push(mended(&bytes, 0));
    }
    inputs.push(of_length(8_192).repeat(2));
    inputs
}

fn other_version(input: &[u8]) -> Vec<u8> {
    let mut bytes = input.to_vec();
    bytes[4] = 1;
    bytes
}

/// The most transitions of an input with so many states and rows.
pub fn most_transitions(states: usize, rows: usize) -> usize {
    (MOST_INPUT - 13 - 4 * states - 7 - 8 * rows) / STEP
}

fn graph_length(model: &Model, rows: &Formula) -> usize {
    message::graph(&build::graph(model, rows)).bytes.len()
}

/// The formula with an EX or AX on top whose bound lets so many transitions pass that the graph just
/// fits its room, and with one that lets the next pass too. None where no bound does.
pub fn around_room(model: &Model, rows: &Formula, runs: Runs) -> Option<[Formula; 2]> {
    let with_bound = |bound: u32| {
        let top = Row::Next(runs, Some(bound), rows.len() - 1);
        [&rows[..], &[top]].concat()
    };
    let fits = |bound: &u32| graph_length(model, &with_bound(*bound)) <= GRAPH_ROOM;
    let weights = model.transitions.iter().map(|step| step.weight);
    let mut bounds: Vec<u32> = weights.filter(|weight| *weight != u32::MAX).collect();
    bounds.sort_unstable();
    bounds.dedup();
    let past = bounds.partition_point(fits);
    let most = past.checked_sub(1)?;
    Some([with_bound(bounds[most]), with_bound(*bounds.get(past)?)])
}

/// "Graph room 65,536 bytes": graphs that just fit it and that just don't, made of EX, AX, E until
/// and A until rows on one state with many loops; one of exactly 65,536 bytes; and of many states.
fn graph_rooms() -> Vec<Vec<u8>> {
    let mut inputs = vec![];
    let most = |rows: usize| most_transitions(1, rows);
    // below the top: all loops pass, so that the top decides
    let mut below: Vec<(&str, Formula)> = vec![];
    for rows in 6..=16 {
        below.push(("EX", tower(Runs::Some, None, rows)));
        below.push(("AX", tower(Runs::All, None, rows)));
    }
    for untils in 3..=14 {
        below.push(("EU", nested(Runs::Some, Some(5), untils, true)));
        below.push(("AU", nested(Runs::All, Some(5), untils, false)));
    }
    below.push(("mixed", with_unary(4, 2)));
    let mut met = BTreeSet::new();
    for (kind, rows) in below {
        let loops = loops(most(rows.len() + 1));
        for runs in [Runs::Some, Runs::All] {
            if let Some(found) = around_room(&loops, &rows, runs) {
                met.insert(kind);
                inputs.extend(found.iter().map(|rows| joined(&loops, rows)));
            }
        }
    }
    assert_eq!(met.len(), 5, "a kind of row that never meets the room");
    // 14 + 4 · 17 + 6 · 10,909 is 65,536; one target more, one less
    for last in [408, 409, 410] {
        let rows = passing(Runs::All, &[vec![700; 15], vec![last]].concat());
        inputs.push(joined(&loops(803), &rows));
        let mut rows = passing(Runs::All, &[700; 15]);
        rows.push(Row::NextBy(Runs::All, 1, None, rows.len() - 1));
        inputs.push(joined(&loops_of_action(803, 1, last), &rows));
    }
    let exact = passing(Runs::All, &[vec![700; 15], vec![409]].concat());
    assert_eq!(graph_length(&loops(803), &exact), GRAPH_ROOM);
    // many states: n is far below its limit
    for (states, transitions) in [
        (40, 60),
        (51, 100),
        (52, 104),
        (53, 106),
        (60, 118),
        (63, 126),
    ] {
        for runs in [Runs::Some, Runs::All] {
            let rows = tower(runs, None, 64);
            inputs.push(joined(&models::full(states, transitions), &rows));
        }
    }
    inputs
}

/// "8 SIZE" comes before ROOM: n at 4,096 and above it, with graphs that fit their room and that
/// don't. 64 · 64, 128 · (24 + 8) and 256 · 16 are 4,096; 241 · 17 is 4,097.
fn sizes() -> Vec<Vec<u8>> {
    let mut inputs = vec![];
    for (states, rows) in [
        (64, tower(Runs::Some, None, 64)),
        (65, tower(Runs::Some, None, 64)),
        (128, with_unary(8, 7)),
        (129, with_unary(8, 7)),
        (241, with_unary(4, 4)),
        (256, with_unary(5, 0)),
        (256, with_unary(5, 1)),
        (256, tower(Runs::All, None, 16)),
        (256, tower(Runs::All, None, 17)),
        (256, tower(Runs::All, None, 64)),
        (256, nested(Runs::All, Some(1), 31, true)),
        (43, nested(Runs::All, Some(1), 31, true)),
        (44, nested(Runs::All, Some(1), 31, true)),
    ] {
        let most = most_transitions(states, rows.len());
        for transitions in [states, 2 * states, most] {
            inputs.push(joined(&models::full(states, transitions.min(most)), &rows));
        }
    }
    inputs
}

/// Up to 256 states, and 257: rows of states, in which rounds are many, and random ones.
fn many_states() -> Vec<Vec<u8>> {
    let mut inputs = vec![];
    for states in [1, 2, 9, 10, 11, 99, 100, 101, 199, 200, 255, 256, 257] {
        for rows in [
            vec![Row::True],
            vec![Row::HasNot(1)],
            known::until(Runs::Some, Some(300)),
            known::until(Runs::All, None),
        ] {
            inputs.push(joined(&chain(states, 2), &rows));
            inputs.push(joined(&ending(chain(states, 2)), &rows));
        }
    }
    for (states, levels) in [(16, 5), (64, 10), (215, 3), (256, 2)] {
        inputs.push(joined(&ring(states), &one_after_another(levels)));
    }
    let mut random = Random::new(256);
    for states in [254, 255, 256, 256, 256] {
        for rows in [1, 3, 7, 10] {
            let model = generate::crowd(&mut random, states, 2 * states);
            let rows = generate::formula(&mut random, model.propositions, rows);
            inputs.push(joined(&model, &rows));
        }
    }
    inputs
}

/// States in a row, each with p0 but the last, which has p1.
fn chain(states: usize, weight: u32) -> Model {
    let last = states - 1;
    let step = |state: usize| (state, weight, (state + 1).min(last));
    let labels: Vec<u32> = (0..states)
        .map(|state| if state < last { 1 } else { 2 })
        .collect();
    model(2, &labels, &(0..states).map(step).collect::<Vec<_>>())
}

/// The model without the transitions of its last state.
pub fn ending(mut model: Model) -> Model {
    let last = model.states() - 1;
    model.transitions.retain(|step| step.from != last);
    model
}

/// States in a ring, the first with p0.
fn ring(states: usize) -> Model {
    let step = |state: usize| (state, u32::MAX, (state + 1) % states);
    let labels: Vec<u32> = (0..states).map(|state| u32::from(state == 0)).collect();
    model(1, &labels, &(0..states).map(step).collect::<Vec<_>>())
}

/// Untils that wait for each other: on a ring, each is known of state 0 only after all the others, and
/// the next starts from that.
fn one_after_another(levels: usize) -> Formula {
    let mut rows = vec![Row::Has(0)];
    for _ in 0..levels {
        let below = rows.len() - 1;
        rows.push(Row::Next(Runs::All, None, below));
        rows.push(Row::True);
        rows.push(Row::Until(Runs::Some, None, below + 2, below + 1));
        rows.push(Row::Has(0));
        rows.push(Row::And(below + 3, below + 4));
    }
    rows
}

/// 64 rows, with the longest bounds and propositions, and 65.
fn long_texts() -> Vec<Vec<u8>> {
    let most = Some(u32::MAX - 1);
    let p31 = model(32, &[1 << 31, u32::MAX], &[(0, 1, 1), (1, u32::MAX, 0)]);
    let mut inputs = vec![];
    for runs in [Runs::Some, Runs::All] {
        for bound in [most, None, Some(0), Some(1_000_000_000)] {
            for rows in [
                tower(runs, bound, 63),
                tower(runs, bound, 64),
                tower(runs, bound, 65),
                nested(runs, bound, 31, true),
                nested(runs, bound, 31, false),
                nested(runs, bound, 32, false),
            ] {
                inputs.push(joined(&p31, &named_leaves(&rows)));
                inputs.push(joined(&p31, &rows));
            }
        }
    }
    // the longest text without an action, 950 bytes, and the longest of all, 1,202 bytes
    let mut longest = tower(Runs::Some, most, 64);
    longest[0] = Row::False;
    inputs.push(joined(&p31, &longest));
    for runs in [Runs::Some, Runs::All] {
        inputs.push(joined(&p31, &tower_by(runs, 255, most, 64)));
        inputs.push(joined(&p31, &tower_by(runs, 0, None, 64)));
    }
    let mut random = Random::new(64);
    for size in [62, 63, 64, 64, 64, 64] {
        inputs.push(joined(&p31, &generate::formula(&mut random, 32, size)));
    }
    inputs
}

/// The formula with `!p31` in place of each `true`.
fn named_leaves(rows: &Formula) -> Formula {
    let named = |row: &Row| match row {
        Row::True => Row::HasNot(31),
        row => row.clone(),
    };
    rows.iter().map(named).collect()
}

/// The model and the formula of each systematic verdict.
fn of_verdicts() -> Vec<Vec<u8>> {
    let calls = [verdicts::calls(), offsets::calls()].concat();
    let verdicts = calls.iter().filter(|call| call.letter == b'V');
    verdicts.map(|call| call.messages.concat()).collect()
}
