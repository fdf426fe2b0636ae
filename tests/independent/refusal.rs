//! The numbers of document 01, "Numbers given back", and where a fault was found.

/// "No. | Name": the numbers, in the order of the table. Request 1: 7, DEAD, "is no longer given".
/// Request 2: "the new number 11, PROFILE".
#[derive(Clone, Copy, PartialEq, Eq, PartialOrd, Ord, Debug)]
pub enum Number {
    Ok = 0,
    Budget = 1,
    Length = 2,
    Version = 3,
    Limit = 4,
    Order = 5,
    Name = 6,
    Size = 8,
    Room = 9,
    Form = 10,
    Profile = 11,
}

/// A refusal: its number, the offset that request 4 adds, what was being judged, and the rule that it
/// broke. Number and offset are answered; the other two let the self-test see that a batch meets every
/// rule.
#[derive(Clone, Copy, PartialEq, Eq, PartialOrd, Ord, Debug)]
pub struct Fault {
    pub number: Number,
    pub offset: usize,
    pub subject: &'static str,
    pub place: &'static str,
}

/// A rule: what is judged, and what is demanded of it.
pub type Rule = (&'static str, &'static str);

impl Fault {
    pub fn rule(&self) -> Rule {
        (self.subject, self.place)
    }
}

/// What judges one subject, as `GRAPH.demand(..)`; or one field of it, as `GRAPH.at(12).demand(..)`.
#[derive(Clone, Copy)]
pub struct Judge {
    subject: &'static str,
    offset: usize,
}

pub const GRAPH: Judge = Judge::of("graph");
pub const MODEL: Judge = Judge::of("model");
pub const FORMULA: Judge = Judge::of("formula");
pub const CALL: Judge = Judge::of("call");
pub const PROGRAM: Judge = Judge::of("program");
pub const ENTRY: Judge = Judge::of("entry");

impl Judge {
    /// Request 4: "The offset is 0 for OK, BUDGET, LENGTH, SIZE, ROOM, PROFILE, .., for a number
    /// handed in beside a message, and for the rule that each row is used once."
    const fn of(subject: &'static str) -> Judge {
        Judge { subject, offset: 0 }
    }

    /// Request 4: "the offset of the first byte of the field it found wrong". "Offsets count within
    /// the faulty message."
    pub fn at(self, offset: usize) -> Judge {
        Judge { offset, ..self }
    }

    pub fn fault(self, number: Number, place: &'static str) -> Fault {
        Fault {
            number,
            offset: self.offset,
            subject: self.subject,
            place,
        }
    }

    /// "the first fault found is the answer and nothing after it is read"
    pub fn demand(self, holds: bool, number: Number, place: &'static str) -> Result<(), Fault> {
        if holds {
            Ok(())
        } else {
            Err(self.fault(number, place))
        }
    }
}

/// Every rule that can refuse, and the letters of the calls in which a message of at most 65,536
/// bytes can break it; P stands for an input of the program `otzarvim`. The rules without a letter
/// need longer messages, or can't be broken: the self-test tries those that can on this program
/// alone. The program can't break some that a verdict can: it cuts the model off by its length field,
/// 8,192 bytes are too few for h and targets to be built, and what passes n fits the value room.
pub const RULES: &[(&str, &str, &str)] = &[
    ("graph", "header bytes", "GRSCW"),
    ("graph", "length field", "GRSCW"),
    ("graph", "version", "GRSCW"),
    ("graph", "kind", "GRSCW"),
    ("graph", "n", "GRSCW"),
    ("graph", "h", "GRSCW"),
    ("graph", "c", "GRSCW"),
    ("graph", "hyperedge's fixed bytes", "GRSCW"),
    ("graph", "hyperedge's source", "GRSCW"),
    ("graph", "hyperedge's order", "GRSCW"),
    ("graph", "targets of all hyperedges", ""),
    ("graph", "target bytes", "GRSCW"),
    ("graph", "target", "GRSCW"),
    ("graph", "cover edge's bytes", "GRSCW"),
    ("graph", "cover edge's source", "GRSCW"),
    ("graph", "cover edge's order", "GRSCW"),
    ("graph", "cover edge's target", "GRSCW"),
    ("graph", "bytes left over", "GRSCW"),
    ("model", "header bytes", "MVP"),
    ("model", "length field", "MV"),
    ("model", "version", "MVP"),
    ("model", "kind", "MVP"),
    ("model", "s", "MVP"),
    ("model", "p", "MVP"),
    ("model", "t", "MVP"),
    ("model", "exact length", "MVP"),
    ("model", "label", "MVP"),
    ("model", "from", "MVP"),
    ("model", "order", "MVP"),
    ("model", "to", "MVP"),
    ("formula", "p handed in", "FT"),
    ("formula", "header bytes", "FTVP"),
    ("formula", "length field", "FTVP"),
    ("formula", "version", "FTVP"),
    ("formula", "kind", "FTVP"),
    ("formula", "f", "FTVP"),
    ("formula", "exact length", "FTVP"),
    ("formula", "operator", "FTVP"),
    ("formula", "left unused", "FTVP"),
    ("formula", "right unused", "FTVP"),
    ("formula", "zero", "FTVP"),
    ("formula", "bound unused", "FTVP"),
    ("formula", "left proposition", "FTVP"),
    ("formula", "left row", "FTVP"),
    ("formula", "right row", "FTVP"),
    ("formula", "row never used", "FTVP"),
    ("formula", "row used twice", "FTVP"),
    ("call", "text room", "T"),
    ("call", "value room", "RV"),
    ("call", "graph room", "VP"),
    ("call", "asked state", "V"),
    ("call", "n to be built", "VP"),
    ("call", "h to be built", "V"),
    ("call", "c to be built", ""),
    ("call", "targets to be built", "V"),
    ("call", "targets of one hyperedge to be built", ""),
    ("call", "budget", "RV"),
    ("call", "weights of a search", "S"),
    ("call", "cover edges of a search", "S"),
    ("call", "root", "S"),
    ("call", "word room", "S"),
    ("call", "claims' length", "C"),
    ("call", "cycle through a cover edge", "W"),
    ("call", "claims room", "W"),
    ("call", "writer's words", "W"),
    ("entry", "refusal number", "N"),
    ("entry", "entries accepted", ""),
    ("program", "longer input", "P"),
    ("program", "end of the model", "P"),
];
