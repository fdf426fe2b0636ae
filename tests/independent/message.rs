//! Writing of messages. A message remembers where its fields and records stand, so that a batch can
//! change each of them.

use crate::bytes::{number_of, Formula, Graph, Model, Row, Runs};
use std::ops::Range;

#[derive(Clone, Copy, PartialEq, Eq, Debug)]
pub struct Field {
    pub at: usize,
    pub width: usize,
}

/// A list of records and the field that counts them.
#[derive(Clone, Debug)]
pub struct List {
    pub count: Field,
    pub records: Vec<Range<usize>>,
}

#[derive(Clone, Debug)]
pub struct Message {
    pub bytes: Vec<u8>,
    pub fields: Vec<Field>,
    pub lists: Vec<List>,
}

/// Document 01, "Message bytes": total length (4), version, kind; then n, h, c and the records.
pub fn graph(graph: &Graph) -> Message {
    let mut out = Message::start(1, 1);
    out.put(2, graph.nodes as u64);
    let h = out.put(4, graph.hyperedges.len() as u64);
    let c = out.put(2, graph.covers.len() as u64);
    out.list(h, &graph.hyperedges, |out, edge| {
        out.put(2, edge.source as u64);
        out.put(2, edge.targets.len() as u64);
        for target in &edge.targets {
            out.put(4, u64::from(target.weight));
            out.put(2, target.node as u64);
        }
    });
    out.list(c, &graph.covers, |out, edge| {
        out.put(2, edge.source as u64);
        out.put(4, u64::from(number_of(edge.bound)));
        out.put(2, edge.target as u64);
    });
    out.finish()
}

/// The bytes of a transition.
pub const STEP: usize = 10;

/// Request 7: version 2, and "an action number (2 bytes, after the weight)".
pub fn model(model: &Model) -> Message {
    let mut out = Message::start(2, 2);
    let s = out.put(2, model.labels.len() as u64);
    out.put(1, u64::from(model.propositions));
    let t = out.put(4, model.transitions.len() as u64);
    out.list(s, &model.labels, |out, label| {
        out.put(4, u64::from(*label));
    });
    out.list(t, &model.transitions, |out, step| {
        out.put(2, step.from as u64);
        out.put(4, u64::from(step.weight));
        out.put(2, u64::from(step.action));
        out.put(2, step.to as u64);
    });
    out.finish()
}

/// A model as it was written before request 7: version 1, without actions.
pub fn old_model(of: &Model) -> Vec<u8> {
    let message = model(of);
    let mut bytes = message.bytes;
    for record in message.lists[1].records.iter().rev() {
        bytes.drain(record.start + 6..record.start + 8);
    }
    bytes[4] = 1;
    mend_length(&mut bytes);
    bytes
}

pub fn formula(formula: &Formula) -> Message {
    let mut out = Message::start(1, 3);
    let f = out.put(1, formula.len() as u64);
    out.list(f, formula, |out, row| {
        let (operator, left, right, bound) = numbers(row);
        out.put(1, operator);
        out.put(1, left as u64);
        out.put(1, right as u64);
        out.put(1, 0);
        out.put(4, u64::from(bound));
    });
    out.finish()
}

/// Operator, left, right and bound of a row; unused ones are zero.
fn numbers(row: &Row) -> (u64, usize, usize, u32) {
    let pick = |runs: Runs, some, all| if runs == Runs::Some { some } else { all };
    match *row {
        Row::True => (0, 0, 0, 0),
        Row::False => (1, 0, 0, 0),
        Row::Has(proposition) => (2, proposition, 0, 0),
        Row::HasNot(proposition) => (3, proposition, 0, 0),
        Row::And(left, right) => (4, left, right, 0),
        Row::Or(left, right) => (5, left, right, 0),
        Row::Next(runs, bound, left) => (pick(runs, 6, 7), left, 0, number_of(bound)),
        Row::Until(runs, bound, left, right) => (pick(runs, 8, 9), left, right, number_of(bound)),
        Row::NextBy(runs, action, bound, left) => {
            let operator = pick(runs, 10, 11);
            (operator, left, usize::from(action), number_of(bound))
        }
    }
}

impl Message {
    fn start(version: u64, kind: u64) -> Message {
        let mut out = Message {
            bytes: vec![],
            fields: vec![],
            lists: vec![],
        };
        out.put(4, 0);
        out.put(1, version);
        out.put(1, kind);
        out
    }

    fn put(&mut self, width: usize, number: u64) -> Field {
        let field = Field {
            at: self.bytes.len(),
            width,
        };
        self.bytes
            .extend_from_slice(&number.to_be_bytes()[8 - width..]);
        self.fields.push(field);
        field
    }

    fn list<T>(&mut self, count: Field, items: &[T], write: impl Fn(&mut Message, &T)) {
        let mut records = vec![];
        for item in items {
            let start = self.bytes.len();
            write(self, item);
            records.push(start..self.bytes.len());
        }
        self.lists.push(List { count, records });
    }

    fn finish(mut self) -> Message {
        mend_length(&mut self.bytes);
        self
    }

    /// The number that a field holds.
    pub fn value(&self, field: Field) -> u32 {
        let bytes = &self.bytes[field.at..field.at + field.width];
        bytes
            .iter()
            .fold(0, |number, byte| number << 8 | u32::from(*byte))
    }

    /// The message's bytes with another number in a field.
    pub fn with(&self, field: Field, number: u32) -> Vec<u8> {
        let mut bytes = self.bytes.clone();
        set(&mut bytes, field, number);
        bytes
    }
}

pub fn set(bytes: &mut [u8], field: Field, number: u32) {
    let range = field.at..field.at + field.width;
    bytes[range].copy_from_slice(&number.to_be_bytes()[4 - field.width..]);
}

/// Makes the length field say how many bytes there are, where there is one.
pub fn mend_length(bytes: &mut [u8]) {
    if bytes.len() >= 4 {
        let length = bytes.len() as u32;
        bytes[..4].copy_from_slice(&length.to_be_bytes());
    }
}
