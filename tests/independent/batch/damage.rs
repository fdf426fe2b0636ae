//! Ways to damage a message.

use crate::message::{mend_length, set, List, Message};
use std::ops::Range;

/// What is put right again after records were added or taken away.
#[derive(Clone, Copy, PartialEq, Eq)]
pub enum Mend {
    Nothing,
    Length,
    LengthAndCount,
}

pub const MENDS: [Mend; 3] = [Mend::Nothing, Mend::Length, Mend::LengthAndCount];

/// The first bytes of a message; with `mend`, its length field says so.
pub fn cut(message: &Message, length: usize, mend: bool) -> Vec<u8> {
    resize(message.bytes[..length].to_vec(), mend)
}

/// A message with more bytes behind it; with `mend`, its length field says so.
pub fn extend(message: &Message, more: &[u8], mend: bool) -> Vec<u8> {
    resize([&message.bytes, more].concat(), mend)
}

fn resize(mut bytes: Vec<u8>, mend: bool) -> Vec<u8> {
    if mend {
        mend_length(&mut bytes);
    }
    bytes
}

/// Two records of a list, changed for each other.
pub fn swap(message: &Message, list: &List, first: usize, second: usize) -> Vec<u8> {
    let (a, b) = (list.records[first].clone(), list.records[second].clone());
    let bytes = &message.bytes;
    let swapped = [&bytes[b.clone()], &bytes[a.end..b.start], &bytes[a.clone()]].concat();
    splice(bytes, a.start..b.end, &swapped)
}

/// A record of a list, written twice.
pub fn repeat(message: &Message, list: &List, record: usize, mend: Mend) -> Vec<u8> {
    let range = list.records[record].clone();
    let twice = message.bytes[range.clone()].repeat(2);
    let bytes = splice(&message.bytes, range, &twice);
    mended(bytes, list, list.records.len() + 1, mend)
}

/// A record of a list, left out.
pub fn leave_out(message: &Message, list: &List, record: usize, mend: Mend) -> Vec<u8> {
    let bytes = splice(&message.bytes, list.records[record].clone(), &[]);
    mended(bytes, list, list.records.len() - 1, mend)
}

fn splice(bytes: &[u8], range: Range<usize>, new: &[u8]) -> Vec<u8> {
    [&bytes[..range.start], new, &bytes[range.end..]].concat()
}

fn mended(mut bytes: Vec<u8>, list: &List, count: usize, mend: Mend) -> Vec<u8> {
    if mend == Mend::LengthAndCount {
        set(&mut bytes, list.count, count as u32);
    }
    resize(bytes, mend != Mend::Nothing)
}
