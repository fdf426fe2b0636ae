//! Calls that are none and end the run.

use crate::answer::{answer_batch, Call, MOST_BYTES, MOST_VALUES, MOST_WORDS};
use crate::tally::{Entry, Outcome};
use crate::verdict::Question;

/// Bytes that are no call: "a call past these [limits], with an unknown letter, cut short, or with
/// bytes left over behind its last message".
pub fn no_calls() -> Vec<Vec<u8>> {
    [whole_no_calls(), ends_of_input()].concat()
}

/// Those that nothing behind them can make a call.
fn whole_no_calls() -> Vec<Vec<u8>> {
    let mut all = vec![
        vec![b'?', 0, 0, 0, 0],
        vec![b'g', 0, 0, 0, 4, 0, 0, 0, 0],
        vec![b'V', 255, 255, 255, 255],
        vec![b'V', 128, 0, 0, 0],
    ];
    all.extend(calls_past_limits().iter().map(written));
    all.extend(no_entries());
    for call in &small_calls() {
        all.extend(cut_bodies(call));
        all.extend(wrong_lengths(call));
    }
    all
}

/// Calls that the input ends in.
fn ends_of_input() -> Vec<Vec<u8>> {
    let mut all = vec![vec![0]];
    for call in &small_calls() {
        let bytes = written(call);
        all.extend((1..bytes.len()).map(|length| bytes[..length].to_vec()));
    }
    all
}

fn written(call: &Call) -> Vec<u8> {
    let mut out = vec![];
    call.write(&mut out);
    out
}

/// A call of each letter, all of whose messages are short.
fn small_calls() -> Vec<Call> {
    vec![
        Call::graph(&[1, 2, 3]),
        Call::model(&[1, 2, 3]),
        Call::formula(7, &[1, 2, 3]),
        Call::text(7, 5, &[1, 2, 3]),
        Call::rounds(7, 5, &[1, 2, 3]),
        verdict_on(&[1, 2, 3], &[4, 5], 6, 5),
        Call::search(7, 5, &[1, 2, 3]),
        Call::claims(&[1, 2, 3], &[4, 5]),
        Call::certify(6, 5, &[1, 2, 3]),
        Call::entries(&[one_entry()]),
    ]
}

fn one_entry() -> Entry {
    Entry {
        outcome: Outcome::Refusal(2),
        rounds: 9,
    }
}

fn verdict_on(model: &[u8], formula: &[u8], graph_room: usize, value_room: usize) -> Call {
    let question = Question {
        model,
        formula,
        state: 0,
        budget: 9,
    };
    Call::verdict(&question, graph_room, value_room)
}

/// Each message and each room one past its limit, and rooms far past.
fn calls_past_limits() -> Vec<Call> {
    let long = vec![0; MOST_BYTES + 1];
    let most = u32::MAX as usize;
    vec![
        Call::graph(&long),
        Call::model(&long),
        Call::formula(0, &long),
        Call::text(0, 1, &long),
        Call::text(0, MOST_BYTES + 1, &[]),
        Call::text(0, most, &[]),
        Call::rounds(0, 1, &long),
        Call::rounds(0, MOST_VALUES + 1, &[]),
        Call::rounds(0, most, &[]),
        verdict_on(&long, &[1], 1, 1),
        verdict_on(&[1], &long, 1, 1),
        verdict_on(&long, &long, 1, 1),
        verdict_on(&[1], &[1], MOST_BYTES + 1, 1),
        verdict_on(&[1], &[1], most, 1),
        verdict_on(&[1], &[1], 1, MOST_VALUES + 1),
        verdict_on(&[1], &[1], 1, most),
        Call::search(0, 1, &long),
        Call::search(0, MOST_WORDS + 1, &[]),
        Call::search(0, most, &[]),
        Call::claims(&long, &[1]),
        Call::claims(&[1], &long),
        Call::certify(1, 1, &long),
        Call::certify(MOST_BYTES + 1, 1, &[]),
        Call::certify(most, 1, &[]),
        Call::certify(1, MOST_VALUES + 1, &[]),
        Call::certify(1, most, &[]),
        Call::entries(&vec![one_entry(); MOST_BYTES / 6 + 1]),
    ]
}

/// Messages of a sheet with bytes that are no entry, and with a kind that is none, first and last.
fn no_entries() -> Vec<Vec<u8>> {
    let mut all = vec![];
    for length in [1, 2, 5, 7, 11] {
        all.push(written_message(&vec![0; length]));
    }
    for kind in [3, 128, 255] {
        for at in [0, 6, 12] {
            let mut message = vec![0; 18];
            message[at] = kind;
            all.push(written_message(&message));
        }
    }
    all
}

/// A call of N with any message.
fn written_message(message: &[u8]) -> Vec<u8> {
    let length = (message.len() as u32).to_be_bytes();
    sized(b'N', &[&length[..], message].concat())
}

/// The letter, a size, and a body.
fn sized(letter: u8, body: &[u8]) -> Vec<u8> {
    [&[letter], &(body.len() as u32).to_be_bytes()[..], body].concat()
}

/// The body cut at each length, and with bytes left over; its size says so.
fn cut_bodies(call: &Call) -> Vec<Vec<u8>> {
    let body = &written(call)[5..];
    let mut all: Vec<Vec<u8>> = (0..body.len())
        .map(|length| sized(call.letter, &body[..length]))
        .collect();
    all.extend([1, 4, 5].map(|more| sized(call.letter, &[body, &vec![0; more]].concat())));
    all
}

/// Each message's length with another number.
fn wrong_lengths(call: &Call) -> Vec<Vec<u8>> {
    let mut all = vec![];
    let mut at = 5 + 4 * call.numbers.len();
    for message in &call.messages {
        let length = message.len() as u32;
        for other in [0, length - 1, length + 1, 65_537, 1 << 31, u32::MAX] {
            let mut bytes = written(call);
            bytes[at..at + 4].copy_from_slice(&other.to_be_bytes());
            all.push(bytes);
        }
        at += 4 + message.len();
    }
    all
}

/// Batches that end in each of those bytes, and the lines that they must get: a call of each letter
/// before, and behind, where the input goes on, others that nothing may answer.
pub fn batches() -> Vec<(Vec<u8>, String)> {
    let calls: Vec<u8> = small_calls().iter().flat_map(written).collect();
    let mut inputs: Vec<Vec<u8>> = vec![];
    inputs.extend(
        whole_no_calls()
            .iter()
            .map(|bytes| [&calls, &bytes[..], &calls].concat()),
    );
    inputs.extend(
        ends_of_input()
            .iter()
            .map(|bytes| [&calls, &bytes[..]].concat()),
    );
    let with_lines = |input: Vec<u8>| {
        let lines = answer_batch(&input);
        (input, lines)
    };
    inputs.into_iter().map(with_lines).collect()
}
