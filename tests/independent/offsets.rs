//! Tries the offsets of request 4 on document 01's own messages: what must be answered was written
//! down by hand, from the bytes that stand in document 01.

use crate::answer::{answer, Call};
use crate::batch::inputs;
use crate::bytes;
use crate::known;
use crate::message::{self, Field, Message};
use crate::program;
use crate::refusal::{Fault, Number};

/// What a reading must answer: the number and the offset.
type Expected = (Number, usize);

const OK: Expected = (Number::Ok, 0);
const LENGTH: Expected = (Number::Length, 0);

fn found<T>(read: Result<T, Fault>) -> Expected {
    read.err().map_or(OK, |fault| (fault.number, fault.offset))
}

fn version(offset: usize) -> Expected {
    (Number::Version, offset)
}

fn limit(offset: usize) -> Expected {
    (Number::Limit, offset)
}

fn order(offset: usize) -> Expected {
    (Number::Order, offset)
}

fn name(offset: usize) -> Expected {
    (Number::Name, offset)
}

fn form(offset: usize) -> Expected {
    (Number::Form, offset)
}

/// Tries them all, and says how many answers were compared.
pub fn run() -> usize {
    let parts = [
        ones_in_a_graph(),
        ones_in_a_model(),
        ones_in_a_formula(),
        other_numbers(),
        unused_fields(),
        calls(),
        program_lines(),
    ];
    parts.iter().sum()
}

type Reading<'a> = &'a dyn Fn(&[u8]) -> Expected;

/// Each field in turn with all its bits set, in the order of the bytes.
fn ones(message: &Message, read: Reading, expected: &[(usize, Expected)]) -> usize {
    let starts: Vec<usize> = message.fields.iter().map(|field| field.at).collect();
    let listed: Vec<usize> = expected.iter().map(|(at, _)| *at).collect();
    assert_eq!(starts, listed, "a field that the list lacks");
    for (field, (at, expected)) in message.fields.iter().zip(expected) {
        assert_eq!(
            read(&message.with(*field, u32::MAX)),
            *expected,
            "ones at {at}"
        );
    }
    expected.len()
}

/// Graph G: `0000003E 01 01 0004 00000004 0001`, then its hyperedges at 14, 30, 40 and 50, and its
/// cover edge at 54.
fn ones_in_a_graph() -> usize {
    let expected = [
        (0, LENGTH),
        (4, version(4)),
        (5, version(5)),
        (6, limit(6)),
        (8, limit(8)),
        (12, limit(12)),
        // 0001 0002 00000003 0002 00000001 0003
        (14, name(14)),
        (16, LENGTH),
        (18, OK),
        (22, name(22)),
        (24, OK),
        (28, name(28)),
        // 0001 0001 00000007 0003
        (30, name(30)),
        (32, LENGTH),
        (34, OK),
        (38, name(38)),
        // 0002 0001 00000001 0003
        (40, name(40)),
        (42, LENGTH),
        (44, OK),
        (48, name(48)),
        // 0003 0000
        (50, name(50)),
        (52, LENGTH),
        // 0000 00000005 0001
        (54, name(54)),
        (56, OK),
        (60, name(60)),
    ];
    let graph = message::graph(&known::graph_g());
    ones(&graph, &|bytes| found(bytes::graph(bytes)), &expected)
}

/// Model M: 13 bytes of header, labels at 13 and 17, transitions at 21, 31 and 41: from, and 2, 6 and
/// 8 bytes further weight, action and to.
fn ones_in_a_model() -> usize {
    let expected = [
        (0, LENGTH),
        (4, version(4)),
        (5, version(5)),
        (6, limit(6)),
        (8, limit(8)),
        (9, limit(9)),
        (13, form(13)),
        (17, form(17)),
        (21, name(21)),
        (23, OK),
        (27, OK),
        (29, name(29)),
        (31, name(31)),
        (33, OK),
        (37, OK),
        (39, name(39)),
        (41, name(41)),
        (43, OK),
        (47, OK),
        (49, name(49)),
    ];
    let model = message::model(&known::model_m());
    ones(&model, &|bytes| found(bytes::model(bytes)), &expected)
}

/// T13's formula: 7 bytes of header, rows p0 at 7, p1 at 15 and the until at 23.
fn ones_in_a_formula() -> usize {
    let expected = [
        (0, LENGTH),
        (4, version(4)),
        (5, version(5)),
        (6, limit(6)),
        // a proposition uses left
        (7, form(7)),
        (8, name(8)),
        (9, form(9)),
        (10, form(10)),
        (11, form(11)),
        (15, form(15)),
        (16, name(16)),
        (17, form(17)),
        (18, form(18)),
        (19, form(19)),
        // an until uses all but zero
        (23, form(23)),
        (24, name(24)),
        (25, name(25)),
        (26, form(26)),
        (27, OK),
    ];
    let rows = &known::questions()[0].rows;
    let formula = message::formula(rows);
    ones(
        &formula,
        &|bytes| found(bytes::formula(2, bytes)),
        &expected,
    )
}

/// Numbers that make another field the first that is wrong, or none: (kind, offset and width of the
/// field, its number, what must be answered).
fn other_numbers() -> usize {
    let graph = message::graph(&known::graph_g());
    let model = message::model(&known::model_m());
    let formula = message::formula(&known::questions()[0].rows);
    let cases = [
        // n below 1; n of 3, so that node 3 of the first target list doesn't exist
        ('G', 6, 2, 0, limit(6)),
        ('G', 6, 2, 3, name(28)),
        ('G', 6, 2, 4_097, limit(6)),
        // h of 3: the fourth hyperedge is read as a cover edge, 0003 00000000 0000
        ('G', 8, 4, 3, LENGTH),
        ('G', 8, 4, 65_536, limit(8)),
        // c of 0: bytes left over
        ('G', 12, 2, 0, LENGTH),
        ('G', 12, 2, 4_097, limit(12)),
        // sources below the one before: the second's own, and the second's because of the first
        ('G', 30, 2, 0, order(30)),
        ('G', 14, 2, 2, order(30)),
        ('G', 50, 2, 1, order(50)),
        // the last byte of a node, 5 in place of 2
        ('G', 23, 1, 5, name(22)),
        // a target count of 1: the second target is read as a hyperedge, 0000 0001 ..
        ('G', 16, 2, 1, order(24)),
        // version 1: request 7
        ('M', 4, 1, 1, version(4)),
        ('M', 4, 1, 3, version(4)),
        ('M', 6, 2, 0, limit(6)),
        ('M', 6, 2, 1, LENGTH),
        ('M', 6, 2, 257, limit(6)),
        ('M', 8, 1, 33, limit(8)),
        // p of 1: state 1 has p1
        ('M', 8, 1, 1, form(17)),
        ('M', 9, 4, 65_536, limit(9)),
        ('M', 13, 4, 4, form(13)),
        ('M', 21, 2, 2, name(21)),
        ('M', 21, 2, 1, order(31)),
        ('M', 41, 2, 0, OK),
        ('M', 49, 2, 2, name(49)),
        // any action
        ('M', 27, 2, 256, OK),
        ('M', 47, 2, 1, OK),
        ('F', 4, 1, 0, version(4)),
        ('F', 4, 1, 2, version(4)),
        ('F', 5, 1, 2, version(5)),
        ('F', 6, 1, 0, limit(6)),
        ('F', 6, 1, 2, LENGTH),
        ('F', 6, 1, 65, limit(6)),
        ('F', 7, 1, 12, form(7)),
        // EX of an action, whose left is then a row, and no earlier one
        ('F', 7, 1, 10, name(8)),
        // false in place of p1, whose left is then unused
        ('F', 15, 1, 1, form(16)),
        // EX in place of the until, whose right is then unused
        ('F', 23, 1, 6, form(25)),
        // EX and AX of action 1 in place of the until: row 1 is never used
        ('F', 23, 1, 10, (Number::Form, 0)),
        ('F', 23, 1, 11, (Number::Form, 0)),
        ('F', 8, 1, 2, name(8)),
        ('F', 24, 1, 2, name(24)),
        ('F', 25, 1, 2, name(25)),
        // row 0 twice and row 1 never: each row is used once
        ('F', 25, 1, 0, (Number::Form, 0)),
    ];
    for (kind, at, width, number, expected) in cases {
        let field = Field { at, width };
        let answered = match kind {
            'G' => found(bytes::graph(&graph.with(field, number))),
            'M' => found(bytes::model(&model.with(field, number))),
            _ => found(bytes::formula(2, &formula.with(field, number))),
        };
        assert_eq!(answered, expected, "{kind}: {number} at {at}");
    }
    cases.len()
}

/// A lone row at 7, each choice of its fields not zero: the first unused one, in the order left (8),
/// right (9), zero (10), bound (11); only after these the name that a used one holds.
fn unused_fields() -> usize {
    // which of left, right and bound each operator uses
    let uses: [(u8, [bool; 3]); 12] = [
        (0, [false, false, false]),
        (1, [false, false, false]),
        (2, [true, false, false]),
        (3, [true, false, false]),
        (4, [true, true, false]),
        (5, [true, true, false]),
        (6, [true, false, true]),
        (7, [true, false, true]),
        (8, [true, true, true]),
        (9, [true, true, true]),
        (10, [true, true, true]),
        (11, [true, true, true]),
    ];
    let mut compared = 0;
    for (operator, [left, right, bound]) in uses {
        for choice in 0..16u8 {
            let [l, r, z, b] = [1, 2, 4, 8].map(|bit| u8::from(choice & bit != 0));
            let row = [operator, l, r, z, 0, 0, b, 0];
            let message = [&[0, 0, 0, 15, 1, 3, 1], &row[..]].concat();
            let expected = if l != 0 && !left {
                form(8)
            } else if r != 0 && !right {
                form(9)
            } else if z != 0 {
                form(10)
            } else if b != 0 && !bound {
                form(11)
            } else if operator >= 4 || (operator >= 2 && l == 1) {
                // no row is earlier, and p is 1
                name(8)
            } else {
                OK
            };
            let answered = found(bytes::formula(1, &message));
            assert_eq!(answered, expected, "operator {operator}, choice {choice}");
            compared += 1;
        }
    }
    compared
}

/// The lines of calls: faults of the model and of the formula, and what has no offset.
fn calls() -> usize {
    let graph = message::graph(&known::graph_g());
    let model = message::model(&known::model_m());
    let formula = message::formula(&known::questions()[0].rows);
    let at = |at: usize, width: usize| Field { at, width };
    let bad_graph = graph.with(at(60, 2), 4);
    let bad_model = model.with(at(29, 2), 2);
    let bad_formula = formula.with(at(16, 1), 2);
    let ask = |model: &[u8], formula: &[u8], state: u32, rooms: (usize, usize)| {
        let question = crate::verdict::Question {
            model,
            formula,
            state,
            budget: 3,
        };
        Call::verdict(&question, rooms.0, rooms.1)
    };
    let (m, f) = (&model.bytes, &formula.bytes);
    let cases = [
        (Call::graph(&graph.bytes), "G 0 0"),
        (Call::graph(&bad_graph), "G 6 60"),
        (Call::graph(&[]), "G 2 0"),
        (Call::model(&bad_model), "M 6 29"),
        (Call::formula(2, &bad_formula), "F 6 16"),
        // p handed in: its LIMIT comes before any byte and has no offset
        (Call::formula(33, &bad_formula), "F 4 0"),
        (Call::text(2, 0, &bad_formula), "T 6 16 0 00000001"),
        (Call::text(2, 0, f), "T 9 0 0 00000001"),
        (Call::rounds(9, 0, &bad_graph), "R 6 60 0 00000001"),
        (Call::rounds(9, 0, &graph.bytes), "R 9 0 0 00000001"),
        (Call::search(9, 0, &bad_graph), "S 6 60 none 0 00000001"),
        (Call::search(9, 0, &graph.bytes), "S 11 0 none 0 00000001"),
        (
            ask(&bad_model, &bad_formula, 9, (0, 0)),
            "V 6 29 none 0 0 00000001 00000001",
        ),
        (
            ask(m, &bad_formula, 9, (0, 0)),
            "V 6 16 none 0 0 00000001 00000001",
        ),
        (ask(m, f, 9, (0, 0)), "V 6 0 none 0 0 00000001 00000001"),
        (ask(m, f, 1, (0, 0)), "V 9 0 none 0 0 00000001 00000001"),
    ];
    for (call, line) in &cases {
        assert_eq!(answer(call).line, *line);
    }
    cases.len()
}

/// "The program then writes `refused 6 at 21`, and plain `refused 2` where the offset is 0." T13's
/// formula stands at 51 of the input; offsets count within it.
fn program_lines() -> usize {
    let with = |at: usize, byte: u8| {
        let mut input = inputs::t13();
        input[at] = byte;
        program::output(&input).lines
    };
    let cases = [
        (with(22, 2), "refused 6 at 21\n"),
        (with(30, 2), "refused 6 at 29\n"),
        (with(4, 1), "refused 3 at 4\n"),
        (with(20, 7), "refused 10 at 17\n"),
        (with(51 + 6, 0), "refused 4 at 6\n"),
        (with(51 + 26, 1), "refused 10 at 26\n"),
        // row 0 twice
        (with(51 + 25, 0), "refused 10\n"),
        (with(3, 50), "refused 2\n"),
        (program::output(&[]).lines, "refused 2\n"),
    ];
    for (wrote, expected) in &cases {
        assert_eq!(wrote, expected);
    }
    cases.len()
}
