//! The batch format of the program `trials` and the line expected for each call.

use crate::bytes;
use crate::claims;
use crate::message;
use crate::refusal::{Fault, Number, CALL};
use crate::search;
use crate::tally::{self, Entry, Tally};
use crate::verdict::{self, Question};

/// A call: a letter, its numbers and its messages.
#[derive(Clone, PartialEq, Eq, PartialOrd, Ord, Debug)]
pub struct Call {
    pub letter: u8,
    pub numbers: Vec<u32>,
    pub messages: Vec<Vec<u8>>,
}

pub const LETTERS: &str = "GMFTRVSCWN";

/// "a message of at most 65,536 bytes, byte rooms of at most 65,536, value rooms of at most
/// 32,768 numbers, word rooms of at most 262,144 words"
pub const MOST_BYTES: usize = 65_536;
pub const MOST_VALUES: usize = 32_768;
pub const MOST_WORDS: usize = 262_144;

/// How many numbers and messages follow a letter.
fn shape(letter: u8) -> Option<(usize, usize)> {
    match letter {
        b'G' | b'M' | b'N' => Some((0, 1)),
        b'F' => Some((1, 1)),
        b'T' | b'R' | b'S' | b'W' => Some((2, 1)),
        b'C' => Some((0, 2)),
        b'V' => Some((4, 2)),
        _ => None,
    }
}

impl Call {
    fn new(letter: u8, numbers: &[u32], messages: &[&[u8]]) -> Call {
        let messages = messages.iter().map(|message| message.to_vec()).collect();
        Call {
            letter,
            numbers: numbers.to_vec(),
            messages,
        }
    }

    pub fn graph(message: &[u8]) -> Call {
        Call::new(b'G', &[], &[message])
    }

    pub fn model(message: &[u8]) -> Call {
        Call::new(b'M', &[], &[message])
    }

    pub fn formula(p: u32, message: &[u8]) -> Call {
        Call::new(b'F', &[p], &[message])
    }

    pub fn text(p: u32, room: usize, message: &[u8]) -> Call {
        Call::new(b'T', &[p, room as u32], &[message])
    }

    pub fn rounds(budget: u32, room: usize, message: &[u8]) -> Call {
        Call::new(b'R', &[budget, room as u32], &[message])
    }

    pub fn verdict(question: &Question, graph_room: usize, value_room: usize) -> Call {
        let numbers = [
            question.state,
            question.budget,
            graph_room as u32,
            value_room as u32,
        ];
        Call::new(b'V', &numbers, &[question.model, question.formula])
    }

    pub fn search(root: u32, room: usize, message: &[u8]) -> Call {
        Call::new(b'S', &[root, room as u32], &[message])
    }

    pub fn claims(message: &[u8], claims: &[u8]) -> Call {
        Call::new(b'C', &[], &[message, claims])
    }

    pub fn certify(room: usize, words: usize, message: &[u8]) -> Call {
        Call::new(b'W', &[room as u32, words as u32], &[message])
    }

    pub fn entries(entries: &[Entry]) -> Call {
        let mut message = vec![];
        entries.iter().for_each(|entry| entry.write(&mut message));
        Call::new(b'N', &[], &[&message])
    }

    /// "A call is a letter (1 byte), the size of what follows (4 bytes), and that many bytes: first
    /// the call's numbers, 4 bytes each, then its messages, each a 4-byte length and the bytes."
    pub fn write(&self, out: &mut Vec<u8>) {
        let mut body = vec![];
        for number in &self.numbers {
            body.extend_from_slice(&number.to_be_bytes());
        }
        for message in &self.messages {
            body.extend_from_slice(&(message.len() as u32).to_be_bytes());
            body.extend_from_slice(message);
        }
        out.push(self.letter);
        out.extend_from_slice(&(body.len() as u32).to_be_bytes());
        out.extend_from_slice(&body);
    }

    fn byte_room(&self) -> usize {
        match self.letter {
            b'T' => self.numbers[1] as usize,
            b'V' => self.numbers[2] as usize,
            b'W' => self.numbers[0] as usize,
            _ => 0,
        }
    }

    fn value_room(&self) -> usize {
        match self.letter {
            b'R' | b'W' => self.numbers[1] as usize,
            b'V' => self.numbers[3] as usize,
            _ => 0,
        }
    }

    fn word_room(&self) -> usize {
        match self.letter {
            b'S' => self.numbers[1] as usize,
            _ => 0,
        }
    }

    pub fn within_limits(&self) -> bool {
        let readable = self.letter != b'N' || tally::entries(&self.messages[0]).is_some();
        let short = self
            .messages
            .iter()
            .all(|message| message.len() <= MOST_BYTES);
        readable
            && short
            && self.byte_room() <= MOST_BYTES
            && self.value_room() <= MOST_VALUES
            && self.word_room() <= MOST_WORDS
    }
}

/// Takes `count` bytes off the front.
fn take<'a>(from: &mut &'a [u8], count: usize) -> Option<&'a [u8]> {
    let (front, rest) = from.split_at_checked(count)?;
    *from = rest;
    Some(front)
}

fn take_number(from: &mut &[u8]) -> Option<u32> {
    take(from, 4).map(|bytes| u32::from_be_bytes(bytes.try_into().unwrap()))
}

fn take_message(from: &mut &[u8]) -> Option<Vec<u8>> {
    let length = take_number(from)?;
    take(from, length as usize).map(<[u8]>::to_vec)
}

/// The call behind its letter, and None for one "past these [limits], with an unknown letter, cut
/// short, or with bytes left over behind its last message".
fn read_call(letter: u8, input: &mut &[u8]) -> Option<Call> {
    let (numbers, messages) = shape(letter)?;
    let size = take_number(input)?;
    let mut body = take(input, size as usize)?;
    let numbers = (0..numbers)
        .map(|_| take_number(&mut body))
        .collect::<Option<_>>()?;
    let messages = (0..messages)
        .map(|_| take_message(&mut body))
        .collect::<Option<_>>()?;
    let call = Call {
        letter,
        numbers,
        messages,
    };
    (body.is_empty() && call.within_limits()).then_some(call)
}

/// The calls of a batch, and the letter of the first that is none, which is the last.
pub fn calls(mut input: &[u8]) -> impl Iterator<Item = Result<Call, u8>> + '_ {
    std::iter::from_fn(move || {
        let (letter, rest) = input.split_first()?;
        input = rest;
        let call = read_call(*letter, &mut input).ok_or(*letter);
        if call.is_err() {
            input = &[];
        }
        Some(call)
    })
}

/// The lines for a batch: "a line for each call, in order", up to the first that is no call, which
/// "is answered by the one line `? ` and the letter's byte in decimal, and ends the run".
pub fn answer_batch(input: &[u8]) -> String {
    let line = |call: Result<Call, u8>| match call {
        Ok(call) => answer(&call).line + "\n",
        Err(letter) => format!("? {letter}\n"),
    };
    calls(input).map(line).collect()
}

/// A call for a reader's eyes: its letter and numbers, its messages in hex, the expected line and
/// the rule that refused.
pub fn shown(call: &Call) -> String {
    let hex = |message: &Vec<u8>| {
        message
            .iter()
            .map(|byte| format!("{byte:02x}"))
            .collect::<String>()
    };
    let messages: Vec<String> = call.messages.iter().map(hex).collect();
    let expected = answer(call);
    let rule = expected.fault.map_or(String::new(), |fault| {
        format!(" ({}: {})", fault.subject, fault.place)
    });
    let head = format!("{} {:?}", call.letter as char, call.numbers);
    format!(
        "{head}\n{}\nexpected: {}{rule}",
        messages.join("\n"),
        expected.line
    )
}

/// The expected line, and the rule that refused.
pub struct Expected {
    pub line: String,
    pub fault: Option<Fault>,
}

pub fn answer(call: &Call) -> Expected {
    let (fields, fault) = match call.letter {
        b'G' | b'M' | b'F' => answer_check(call),
        b'T' => answer_text(call),
        b'R' => answer_rounds(call),
        b'S' => answer_search(call),
        b'C' => answer_claims(call),
        b'W' => answer_writer(call),
        b'N' => answer_entries(call),
        _ => answer_verdict(call),
    };
    Expected {
        line: format!("{} {fields}", call.letter as char),
        fault,
    }
}

type Line = (String, Option<Fault>);

/// "From request 4 on every line .. has the offset as a field right after the number: `G 6 21`."
fn number_and_offset(fault: Option<Fault>) -> String {
    let (number, offset) = fault.map_or((Number::Ok, 0), |fault| (fault.number, fault.offset));
    format!("{} {offset}", number as u8)
}

fn answer_check(call: &Call) -> Line {
    let fault = check(call).err();
    (number_and_offset(fault), fault)
}

/// The check of the call's message. What it accepts must be the writing of what was read.
fn check(call: &Call) -> Result<(), Fault> {
    let message = &call.messages[0];
    let written = match call.letter {
        b'G' => message::graph(&bytes::graph(message)?),
        b'M' => message::model(&bytes::model(message)?),
        _ => message::formula(&bytes::formula(call.numbers[0], message)?),
    };
    assert_eq!(
        &written.bytes, message,
        "an accepted message is not the writing of what was read"
    );
    Ok(())
}

fn answer_text(call: &Call) -> Line {
    let mut room = byte_room(call.byte_room());
    let written = verdict::write_text(call.numbers[0], &call.messages[0], &mut room);
    let length = *written.as_ref().unwrap_or(&0);
    let fault = written.err();
    let told = number_and_offset(fault);
    (format!("{told} {length} {}", sum(&room)), fault)
}

fn answer_rounds(call: &Call) -> Line {
    let mut room = value_room(call.value_room());
    let (fault, count) = match verdict::run_rounds(&call.messages[0], call.numbers[0], &mut room) {
        Ok(report) => (spent(verdict::number_of(&report)), report.rounds),
        Err(fault) => (Some(fault), 0),
    };
    let told = number_and_offset(fault);
    (format!("{told} {count} {}", sum_of_values(&room)), fault)
}

fn answer_verdict(call: &Call) -> Line {
    let question = Question {
        model: &call.messages[0],
        formula: &call.messages[1],
        state: call.numbers[0],
        budget: call.numbers[1],
    };
    let mut graph = byte_room(call.byte_room());
    let mut values = value_room(call.value_room());
    let (fault, yes, count, length) = match verdict::decide(&question, &mut graph, &mut values) {
        Ok(found) => {
            let fault = spent(verdict::number_of(&found.report));
            (fault, found.yes, found.report.rounds, found.length)
        }
        Err(fault) => (Some(fault), None, 0, 0),
    };
    let word = yes.map_or("none", |yes| if yes { "yes" } else { "no" });
    let rooms = format!("{} {}", sum(&graph), sum_of_values(&values));
    let told = number_and_offset(fault);
    (format!("{told} {word} {count} {length} {rooms}"), fault)
}

fn answer_search(call: &Call) -> Line {
    let mut room = word_room(call.word_room());
    let (fault, word, taken) = match search::decide(&call.messages[0], call.numbers[0], &mut room) {
        Ok(found) => (None, if found.yes { "yes" } else { "no" }, found.taken),
        Err(fault) => (Some(fault), "none", 0),
    };
    let told = number_and_offset(fault);
    (
        format!("{told} {word} {taken} {}", sum_of_words(&room)),
        fault,
    )
}

fn answer_claims(call: &Call) -> Line {
    let (fault, word) = match claims::check(&call.messages[0], &call.messages[1]) {
        Ok(accepted) => (None, if accepted { "yes" } else { "no" }),
        Err(fault) => (Some(fault), "none"),
    };
    (format!("{} {word}", number_and_offset(fault)), fault)
}

/// "the choice of ranks is free, so the claims themselves can't be compared": the checker's verdict on
/// them, the sum of the claimed values, that of the rest of the room, and that of the words.
fn answer_writer(call: &Call) -> Line {
    let mut room = byte_room(call.byte_room());
    let mut words = value_room(call.value_room());
    let (fault, word, values, rest) = match claims::write(&call.messages[0], &mut room, &mut words)
    {
        Ok(graph) => {
            let (claimed, rest) = room.split_at(claims::CLAIM * graph.nodes);
            let accepted = claims::check(&call.messages[0], claimed) == Ok(true);
            let values: Vec<u8> = claimed
                .chunks(claims::CLAIM)
                .flat_map(|claim| claim[..8].to_vec())
                .collect();
            (
                None,
                if accepted { "yes" } else { "no" },
                sum(&values),
                sum(rest),
            )
        }
        Err(fault) => (Some(fault), "none", sum(&[]), sum(&room)),
    };
    let words = sum_of_values(&words);
    (
        format!(
            "{} {word} {values} {rest} {words}",
            number_and_offset(fault)
        ),
        fault,
    )
}

/// "how many were accepted, answers, and then the report's numbers in its order". The rule is the
/// first that refused an entry.
fn answer_entries(call: &Call) -> Line {
    let mut tally = Tally::default();
    let entries = tally::entries(&call.messages[0]).expect("a call within its limits");
    let refused: Vec<Option<Fault>> = entries
        .into_iter()
        .map(|entry| tally.enter(entry).err())
        .collect();
    let answers: Vec<u8> = refused
        .iter()
        .map(|fault| fault.map_or(Number::Ok, |fault| fault.number) as u8)
        .collect();
    let mut fields = vec![tally.accepted().to_string(), sum(&answers)];
    fields.extend(tally.report().iter().map(u128::to_string));
    (fields.join(" "), refused.into_iter().flatten().next())
}

fn spent(number: Number) -> Option<Fault> {
    (number == Number::Budget).then(|| CALL.fault(Number::Budget, "budget"))
}

/// "Byte i of a byte room starts as i mod 251"
fn byte_room(length: usize) -> Vec<u8> {
    (0..length).map(|index| (index % 251) as u8).collect()
}

/// "number i of a value room starts as i + 1"
fn value_room(length: usize) -> Vec<u64> {
    (1..=length as u64).collect()
}

/// "number i .. of a word room (4 bytes each) starts as i + 1"
fn word_room(length: usize) -> Vec<u32> {
    (1..=length as u32).collect()
}

/// "the Adler-32 sum of its bytes after the call, in 8 lowercase hex digits"
pub fn sum(bytes: &[u8]) -> String {
    let add = |(low, high): (u32, u32), byte: &u8| {
        let low = (low + u32::from(*byte)) % 65_521;
        (low, (high + low) % 65_521)
    };
    let (low, high) = bytes.iter().fold((1, 0), add);
    format!("{high:04x}{low:04x}")
}

/// "numbers of a value room as 8 bytes each, big-endian"
fn sum_of_values(room: &[u64]) -> String {
    sum(&room
        .iter()
        .flat_map(|number| number.to_be_bytes())
        .collect::<Vec<u8>>())
}

/// "numbers .. of a word room as 4, big-endian"
fn sum_of_words(room: &[u32]) -> String {
    sum(&room
        .iter()
        .flat_map(|word| word.to_be_bytes())
        .collect::<Vec<u8>>())
}
