//! Reading of graph, model and formula messages: document 01, "Message bytes" and, for the order of
//! the faults, "Numbers given back". Document 02: request 4 for the offset of a fault, request 7 for
//! actions.

use crate::refusal::{Fault, Judge, Number, FORMULA, GRAPH, MODEL};
use std::ops::RangeInclusive;

/// "The bound 4,294,967,295 means no bound."
pub type Bound = Option<u32>;

pub const NO_BOUND: u32 = 4_294_967_295;

pub fn bound_of(number: u32) -> Bound {
    (number != NO_BOUND).then_some(number)
}

pub fn number_of(bound: Bound) -> u32 {
    bound.unwrap_or(NO_BOUND)
}

#[derive(Clone, PartialEq, Eq, Debug)]
pub struct Target {
    pub weight: u32,
    pub node: usize,
}

#[derive(Clone, PartialEq, Eq, Debug)]
pub struct Hyperedge {
    pub source: usize,
    pub targets: Vec<Target>,
}

#[derive(Clone, PartialEq, Eq, Debug)]
pub struct Cover {
    pub source: usize,
    pub bound: Bound,
    pub target: usize,
}

#[derive(Clone, PartialEq, Eq, Debug)]
pub struct Graph {
    pub nodes: usize,
    pub hyperedges: Vec<Hyperedge>,
    pub covers: Vec<Cover>,
}

#[derive(Clone, PartialEq, Eq, Debug)]
pub struct Transition {
    pub from: usize,
    pub weight: u32,
    pub action: u16,
    pub to: usize,
}

/// The number of states is the number of labels.
#[derive(Clone, PartialEq, Eq, Debug)]
pub struct Model {
    pub propositions: u32,
    pub labels: Vec<u32>,
    pub transitions: Vec<Transition>,
}

impl Model {
    pub fn states(&self) -> usize {
        self.labels.len()
    }

    /// The transitions that leave a state, in model order.
    pub fn leaving(&self, state: usize) -> impl Iterator<Item = &Transition> {
        self.transitions
            .iter()
            .filter(move |step| step.from == state)
    }

    /// "a state without transitions": a run that comes there ends there.
    pub fn is_dead(&self, state: usize) -> bool {
        self.leaving(state).next().is_none()
    }
}

/// E or A.
#[derive(Clone, Copy, PartialEq, Eq, Debug)]
pub enum Runs {
    Some,
    All,
}

#[derive(Clone, PartialEq, Eq, Debug)]
pub enum Row {
    True,
    False,
    Has(usize),
    HasNot(usize),
    And(usize, usize),
    Or(usize, usize),
    Next(Runs, Bound, usize),
    /// EX or AX of an action: request 7's forms 10 and 11.
    NextBy(Runs, u8, Bound, usize),
    Until(Runs, Bound, usize, usize),
}

impl Row {
    /// The rows that this row is made of, left first.
    pub fn operands(&self) -> Vec<usize> {
        match *self {
            Row::True | Row::False | Row::Has(_) | Row::HasNot(_) => vec![],
            Row::Next(.., operand) | Row::NextBy(.., operand) => vec![operand],
            Row::And(left, right) | Row::Or(left, right) | Row::Until(_, _, left, right) => {
                vec![left, right]
            }
        }
    }
}

/// "The root is the last row."
pub type Formula = Vec<Row>;

/// A field's number, and the offset of its first byte.
#[derive(Clone, Copy)]
struct Taken {
    at: usize,
    number: u32,
}

impl Taken {
    /// The number as one of a node, a state, a proposition or a row, or as a count of them.
    fn name(self) -> usize {
        self.number as usize
    }
}

/// A place in a message that moves forward.
struct Cursor<'a> {
    bytes: &'a [u8],
    at: usize,
}

impl Cursor<'_> {
    fn left(&self) -> usize {
        self.bytes.len() - self.at
    }

    /// "All numbers are unsigned and big-endian." The caller has seen that the bytes are there.
    fn take(&mut self, width: usize) -> Taken {
        let at = self.at;
        self.at += width;
        let number = self.bytes[at..self.at]
            .iter()
            .fold(0, |number, byte| number << 8 | u32::from(*byte));
        Taken { at, number }
    }
}

/// "Every message starts with its total length (4 bytes, itself included), a version byte, 1, and a
/// kind byte." "Order: header bytes, length field, version, kind, .." Request 7: "model messages take
/// version 2".
fn open(
    judge: Judge,
    bytes: &[u8],
    header: usize,
    (version, kind): (u32, u32),
) -> Result<Cursor<'_>, Fault> {
    judge.demand(bytes.len() >= header, Number::Length, "header bytes")?;
    let mut cursor = Cursor { bytes, at: 0 };
    let length = cursor.take(4).name();
    judge.demand(length == bytes.len(), Number::Length, "length field")?;
    for (number, place) in [(version, "version"), (kind, "kind")] {
        let found = cursor.take(1);
        judge
            .at(found.at)
            .demand(found.number == number, Number::Version, place)?;
    }
    Ok(cursor)
}

/// "4 LIMIT: a count outside the table above"
fn limited(
    judge: Judge,
    count: Taken,
    allowed: RangeInclusive<usize>,
    place: &'static str,
) -> Result<usize, Fault> {
    let judge = judge.at(count.at);
    judge.demand(allowed.contains(&count.name()), Number::Limit, place)?;
    Ok(count.name())
}

/// The limits of the table, by the names it gives them.
pub mod limit {
    pub const N: usize = 4_096;
    pub const H: usize = 65_535;
    pub const TARGETS: usize = 262_144;
    pub const TARGETS_OF_ONE: usize = 65_535;
    pub const C: usize = 4_096;
    pub const S: usize = 256;
    pub const P: usize = 32;
    pub const T: usize = 65_535;
    pub const F: usize = 64;
}

/// "Graph, kind 1, header 14 bytes: after the kind come n (2), h (4), c (2)." "Last, nothing left
/// over."
pub fn graph(bytes: &[u8]) -> Result<Graph, Fault> {
    let mut cursor = open(GRAPH, bytes, 14, (1, 1))?;
    let (n, h, c) = (cursor.take(2), cursor.take(4), cursor.take(2));
    let nodes = limited(GRAPH, n, 1..=limit::N, "n")?;
    let h = limited(GRAPH, h, 0..=limit::H, "h")?;
    let c = limited(GRAPH, c, 0..=limit::C, "c")?;
    let hyperedges = hyperedges(&mut cursor, nodes, h)?;
    let covers = covers(&mut cursor, nodes, c)?;
    GRAPH.demand(cursor.left() == 0, Number::Length, "bytes left over")?;
    Ok(Graph {
        nodes,
        hyperedges,
        covers,
    })
}

/// "Hyperedge: its 4 fixed bytes fit; source NAME; ORDER; running target total LIMIT; target bytes
/// fit; each target's NAME." Request 4: "A target total over its limit points at the target count."
fn hyperedges(cursor: &mut Cursor, nodes: usize, h: usize) -> Result<Vec<Hyperedge>, Fault> {
    let mut read: Vec<Hyperedge> = Vec::new();
    let mut total = 0;
    for _ in 0..h {
        GRAPH.demand(
            cursor.left() >= 4,
            Number::Length,
            "hyperedge's fixed bytes",
        )?;
        let (source, count) = (cursor.take(2), cursor.take(2));
        let of_source = GRAPH.at(source.at);
        of_source.demand(source.name() < nodes, Number::Name, "hyperedge's source")?;
        let before = read.last().map_or(0, |edge| edge.source);
        of_source.demand(before <= source.name(), Number::Order, "hyperedge's order")?;
        total += count.name();
        GRAPH.at(count.at).demand(
            total <= limit::TARGETS,
            Number::Limit,
            "targets of all hyperedges",
        )?;
        let fit = cursor.left() >= 6 * count.name();
        GRAPH.demand(fit, Number::Length, "target bytes")?;
        read.push(Hyperedge {
            source: source.name(),
            targets: targets(cursor, nodes, count.name())?,
        });
    }
    Ok(read)
}

/// "for each target weight (4) and node (2)"
fn targets(cursor: &mut Cursor, nodes: usize, count: usize) -> Result<Vec<Target>, Fault> {
    let mut read = Vec::new();
    for _ in 0..count {
        let (weight, node) = (cursor.take(4), cursor.take(2));
        GRAPH
            .at(node.at)
            .demand(node.name() < nodes, Number::Name, "target")?;
        read.push(Target {
            weight: weight.number,
            node: node.name(),
        });
    }
    Ok(read)
}

/// "c cover edges: source (2), bound (4), target (2)"; "Cover edge: 8 bytes fit; source NAME; ORDER;
/// target NAME."
fn covers(cursor: &mut Cursor, nodes: usize, c: usize) -> Result<Vec<Cover>, Fault> {
    let mut read: Vec<Cover> = Vec::new();
    for _ in 0..c {
        GRAPH.demand(cursor.left() >= 8, Number::Length, "cover edge's bytes")?;
        let (source, bound, target) = (cursor.take(2), cursor.take(4), cursor.take(2));
        let of_source = GRAPH.at(source.at);
        of_source.demand(source.name() < nodes, Number::Name, "cover edge's source")?;
        let before = read.last().map_or(0, |edge| edge.source);
        of_source.demand(before <= source.name(), Number::Order, "cover edge's order")?;
        let of_target = GRAPH.at(target.at);
        of_target.demand(target.name() < nodes, Number::Name, "cover edge's target")?;
        read.push(Cover {
            source: source.name(),
            bound: bound_of(bound.number),
            target: target.name(),
        });
    }
    Ok(read)
}

/// "Model, kind 2, header 13 bytes: states s (2), propositions p (1), transitions t (4)." Request 7:
/// "10 bytes for a transition, so the length is 13 + 4s + 10t". Request 1: "Number 7 is no longer
/// given; t may be 0."
pub fn model(bytes: &[u8]) -> Result<Model, Fault> {
    let mut cursor = open(MODEL, bytes, 13, (2, 2))?;
    let (s, p, t) = (cursor.take(2), cursor.take(1), cursor.take(4));
    let s = limited(MODEL, s, 1..=limit::S, "s")?;
    let p = limited(MODEL, p, 0..=limit::P, "p")?;
    let t = limited(MODEL, t, 0..=limit::T, "t")?;
    MODEL.demand(
        bytes.len() == 13 + 4 * s + 10 * t,
        Number::Length,
        "exact length",
    )?;
    let labels = labels(&mut cursor, s, p)?;
    let transitions = transitions(&mut cursor, s, t)?;
    Ok(Model {
        propositions: p as u32,
        labels,
        transitions,
    })
}

/// "s labels of 4 bytes, where bit i says that proposition i holds"; "Label: a bit at p or above is
/// FORM."
fn labels(cursor: &mut Cursor, s: usize, p: usize) -> Result<Vec<u32>, Fault> {
    let mut read = Vec::new();
    for _ in 0..s {
        let label = cursor.take(4);
        let below = u64::from(label.number) >> p == 0;
        MODEL.at(label.at).demand(below, Number::Form, "label")?;
        read.push(label.number);
    }
    Ok(read)
}

/// "t transitions: from (2), weight (4), to (2)"; "Transition: from NAME, ORDER, to NAME." Request 7:
/// "an action number (2 bytes, after the weight)", of which nothing is demanded.
fn transitions(cursor: &mut Cursor, s: usize, t: usize) -> Result<Vec<Transition>, Fault> {
    let mut read: Vec<Transition> = Vec::new();
    for _ in 0..t {
        let (from, weight) = (cursor.take(2), cursor.take(4));
        let (action, to) = (cursor.take(2), cursor.take(2));
        let of_from = MODEL.at(from.at);
        of_from.demand(from.name() < s, Number::Name, "from")?;
        let before = read.last().map_or(0, |step| step.from);
        of_from.demand(before <= from.name(), Number::Order, "order")?;
        MODEL.at(to.at).demand(to.name() < s, Number::Name, "to")?;
        read.push(Transition {
            from: from.name(),
            weight: weight.number,
            action: action.number as u16,
            to: to.name(),
        });
    }
    Ok(read)
}

/// "A formula is checked against a p handed in beside it; that p's LIMIT comes before any byte."
/// "Formula, kind 3, header 7 bytes: row count f (1)." A formula must have exactly 7 + 8f bytes.
pub fn formula(p: u32, bytes: &[u8]) -> Result<Formula, Fault> {
    let p = p as usize;
    FORMULA.demand(p <= limit::P, Number::Limit, "p handed in")?;
    let mut cursor = open(FORMULA, bytes, 7, (1, 3))?;
    let f = limited(FORMULA, cursor.take(1), 1..=limit::F, "f")?;
    FORMULA.demand(bytes.len() == 7 + 8 * f, Number::Length, "exact length")?;
    let mut rows = Vec::new();
    for index in 0..f {
        rows.push(row(&mut cursor, index, p)?);
    }
    used_once(&rows)?;
    Ok(rows)
}

/// The fields of a row: "operator (1), left (1), right (1), zero (1), bound (4)".
struct Fields {
    operator: Taken,
    left: Taken,
    right: Taken,
    zero: Taken,
    bound: Taken,
}

fn row(cursor: &mut Cursor, index: usize, p: usize) -> Result<Row, Fault> {
    let fields = Fields {
        operator: cursor.take(1),
        left: cursor.take(1),
        right: cursor.take(1),
        zero: cursor.take(1),
        bound: cursor.take(4),
    };
    let known = fields.operator.number <= 11;
    FORMULA
        .at(fields.operator.at)
        .demand(known, Number::Form, "operator")?;
    unused_are_zero(&fields)?;
    names_exist(&fields, index, p)?;
    Ok(row_of(&fields))
}

fn uses_left(operator: u32) -> bool {
    operator >= 2
}

/// A row, or for 10 and 11 an action.
fn uses_right(operator: u32) -> bool {
    names_right(operator) || operator >= 10
}

fn names_right(operator: u32) -> bool {
    matches!(operator, 4 | 5 | 8 | 9)
}

fn uses_bound(operator: u32) -> bool {
    operator >= 6
}

/// "the first unused field not zero FORM"
fn unused_are_zero(fields: &Fields) -> Result<(), Fault> {
    let operator = fields.operator.number;
    let in_order = [
        (uses_left(operator), fields.left, "left unused"),
        (uses_right(operator), fields.right, "right unused"),
        (false, fields.zero, "zero"),
        (uses_bound(operator), fields.bound, "bound unused"),
    ];
    for (used, field, place) in in_order {
        FORMULA
            .at(field.at)
            .demand(used || field.number == 0, Number::Form, place)?;
    }
    Ok(())
}

/// "then left and right NAME. An operand must be an earlier row."
fn names_exist(fields: &Fields, index: usize, p: usize) -> Result<(), Fault> {
    let (operator, left) = (fields.operator.number, fields.left.name());
    let of_left = FORMULA.at(fields.left.at);
    match operator {
        0 | 1 => {}
        2 | 3 => of_left.demand(left < p, Number::Name, "left proposition")?,
        _ => of_left.demand(left < index, Number::Name, "left row")?,
    }
    let right = !names_right(operator) || fields.right.name() < index;
    FORMULA
        .at(fields.right.at)
        .demand(right, Number::Name, "right row")
}

/// "Operators: 0 true, 1 false, 2 proposition (left), 3 not that proposition, 4 and, 5 or (left,
/// right), 6 EX, 7 AX (left and bound), 8 E until, 9 A until (left, right, bound)." Request 7: "EX and
/// AX get forms 10 and 11 that look only at transitions of the action given in the row's right field".
fn row_of(fields: &Fields) -> Row {
    let (left, right) = (fields.left.name(), fields.right.name());
    let bound = bound_of(fields.bound.number);
    match fields.operator.number {
        0 => Row::True,
        1 => Row::False,
        2 => Row::Has(left),
        3 => Row::HasNot(left),
        4 => Row::And(left, right),
        5 => Row::Or(left, right),
        6 => Row::Next(Runs::Some, bound, left),
        7 => Row::Next(Runs::All, bound, left),
        8 => Row::Until(Runs::Some, bound, left, right),
        9 => Row::Until(Runs::All, bound, left, right),
        10 => Row::NextBy(Runs::Some, right as u8, bound, left),
        _ => Row::NextBy(Runs::All, right as u8, bound, left),
    }
}

/// "After all rows, every row but the last must be an operand exactly once, else FORM."
fn used_once(rows: &[Row]) -> Result<(), Fault> {
    let mut uses = vec![0; rows.len()];
    for operand in rows.iter().flat_map(Row::operands) {
        uses[operand] += 1;
    }
    for used in &uses[..rows.len() - 1] {
        FORMULA.demand(*used > 0, Number::Form, "row never used")?;
        FORMULA.demand(*used < 2, Number::Form, "row used twice")?;
    }
    Ok(())
}
