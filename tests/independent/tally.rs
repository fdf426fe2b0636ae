//! Request 8, the nightly sheet: one tally that verdicts are entered into. It keeps the whole history
//! of what was accepted and works the sheet out of it each time, where the crates count on the way.

use crate::refusal::{Fault, Number, ENTRY};

/// "every refusal number in the table from 1 up, 7 too": the table goes to 11 here.
pub const LAST_NUMBER: u8 = 11;

/// "after 4,294,967,295 accepted, LIMIT"
pub const MOST_ACCEPTED: u64 = 4_294_967_295;

/// "An entry is yes, no or a refusal number"
#[derive(Clone, Copy, PartialEq, Eq, PartialOrd, Ord, Debug)]
pub enum Outcome {
    Yes,
    No,
    Refusal(u8),
}

/// ".. with rounds of 4 bytes"
#[derive(Clone, Copy, PartialEq, Eq, Debug)]
pub struct Entry {
    pub outcome: Outcome,
    pub rounds: u32,
}

impl Entry {
    pub fn write(&self, out: &mut Vec<u8>) {
        let head = match self.outcome {
            Outcome::Yes => [0, 0],
            Outcome::No => [1, 0],
            Outcome::Refusal(number) => [2, number],
        };
        out.extend_from_slice(&head);
        out.extend_from_slice(&self.rounds.to_be_bytes());
    }

    fn read(bytes: &[u8]) -> Option<Entry> {
        let outcome = match bytes[0] {
            0 => Outcome::Yes,
            1 => Outcome::No,
            2 => Outcome::Refusal(bytes[1]),
            _ => return None,
        };
        let rounds = u32::from_be_bytes(bytes[2..6].try_into().unwrap());
        Some(Entry { outcome, rounds })
    }
}

/// "entries of 6 bytes each"; None for "a message whose length is no multiple of 6, or with another
/// kind".
pub fn entries(message: &[u8]) -> Option<Vec<Entry>> {
    if message.len() % 6 != 0 {
        return None;
    }
    message.chunks(6).map(Entry::read).collect()
}

/// The accepted history.
#[derive(Default)]
pub struct Tally {
    history: Vec<Entry>,
}

impl Tally {
    /// "Number 0 or one outside the table is NAME; else, after 4,294,967,295 accepted, LIMIT; both
    /// change nothing."
    pub fn enter(&mut self, entry: Entry) -> Result<(), Fault> {
        if let Outcome::Refusal(number) = entry.outcome {
            ENTRY.demand(
                (1..=LAST_NUMBER).contains(&number),
                Number::Name,
                "refusal number",
            )?;
        }
        ENTRY.demand(
            (self.history.len() as u64) < MOST_ACCEPTED,
            Number::Limit,
            "entries accepted",
        )?;
        self.history.push(entry);
        Ok(())
    }

    pub fn accepted(&self) -> usize {
        self.history.len()
    }

    fn count(&self, outcome: Outcome) -> u128 {
        let same = |entry: &&Entry| entry.outcome == outcome;
        self.history.iter().filter(same).count() as u128
    }

    /// "Refusals but BUDGET count as 0 rounds, whatever is handed in."
    fn rounds(&self) -> impl Iterator<Item = u128> + '_ {
        self.history.iter().map(|entry| match entry.outcome {
            Outcome::Refusal(number) if number != Number::Budget as u8 => 0,
            _ => u128::from(entry.rounds),
        })
    }

    /// "how many yes, how many no, how many of each refusal number, the exact sum of reported rounds,
    /// the largest", in this order
    pub fn report(&self) -> Vec<u128> {
        let mut numbers = vec![self.count(Outcome::Yes), self.count(Outcome::No)];
        numbers.extend((1..=LAST_NUMBER).map(|number| self.count(Outcome::Refusal(number))));
        numbers.push(self.rounds().sum());
        numbers.push(self.rounds().max().unwrap_or(0));
        numbers
    }
}
