//! The systematic part for formula messages: F and T.

use super::generate::{self, EXTREMES};
use super::sweep;
use crate::answer::Call;
use crate::bytes::{self, bound_of, Bound, Formula, Row, Runs};
use crate::known;
use crate::message::{self, Message};
use crate::random::Random;
use crate::text;

pub fn calls() -> Vec<Call> {
    let parts = [
        refusals(),
        propositions_handed_in(),
        propositions_named(),
        uses(),
        actions(),
        texts(),
        texts_of_actions(),
        large(),
    ];
    parts.into_iter().flatten().collect()
}

/// The text of any message: with exact room where it is a formula.
fn text_of(p: u32, message: &[u8]) -> Call {
    let room = bytes::formula(p, message).map_or(20, |rows| text::text(&rows).len());
    Call::text(p, room, message)
}

/// A formula with every operator.
pub fn every_operator() -> Message {
    message::formula(&vec![
        Row::True,
        Row::False,
        Row::Has(1),
        Row::HasNot(0),
        Row::Has(0),
        Row::And(0, 1),
        Row::Or(2, 5),
        Row::Next(Runs::Some, Some(3), 6),
        Row::Until(Runs::Some, Some(2), 7, 3),
        Row::Next(Runs::All, None, 4),
        Row::NextBy(Runs::Some, 7, Some(3), 9),
        Row::NextBy(Runs::All, 255, None, 10),
        Row::Until(Runs::All, None, 8, 11),
    ])
}

/// A small formula, for every two faults.
pub fn base() -> Message {
    message::formula(&vec![
        Row::Has(0),
        Row::True,
        Row::Until(Runs::Some, Some(2), 0, 1),
        Row::Next(Runs::All, Some(7), 2),
    ])
}

/// Changes of the small formula that a model of 2 propositions is asked about too.
pub fn changes() -> Vec<Vec<u8>> {
    let base = base();
    let judged = |bytes: &[u8]| bytes::formula(2, bytes).err();
    [sweep::fields(&base, &judged), sweep::records(&base)].concat()
}

/// Every field of every operator; every two faults, every cut, every byte and every record.
fn refusals() -> Vec<Call> {
    let (all, base) = (every_operator(), base());
    let judged = |bytes: &[u8]| bytes::formula(2, bytes).err();
    let of_all = sweep::fields(&all, &judged);
    let parts = [
        vec![all.bytes.clone(), base.bytes.clone()],
        of_all.clone(),
        sweep::records(&all),
        sweep::lengths(&base),
        sweep::bytes(&base),
        sweep::pairs(&base, &judged),
        changes(),
    ];
    let checked: Vec<Vec<u8>> = parts.into_iter().flatten().collect();
    let mut calls: Vec<Call> = checked
        .iter()
        .map(|message| Call::formula(2, message))
        .collect();
    calls.extend(changes().iter().map(|message| text_of(2, message)));
    calls.extend(
        sweep::lengths(&base)
            .iter()
            .step_by(5)
            .map(|message| text_of(2, message)),
    );
    let accepted = of_all.iter().filter(|message| judged(message).is_none());
    calls.extend(accepted.map(|message| text_of(2, message)));
    calls
}

/// "that p's LIMIT comes before any byte": p beside a formula, a damaged one and none.
fn propositions_handed_in() -> Vec<Call> {
    let good = message::formula(&vec![Row::Has(0)]);
    let messages = [
        good.bytes.clone(),
        good.with(good.fields[1], 2),
        good.with(good.fields[3], 0),
        vec![],
    ];
    let mut calls = vec![];
    for p in [
        0,
        1,
        2,
        31,
        32,
        33,
        34,
        64,
        255,
        256,
        257,
        288,
        65_536,
        65_568,
        1 << 31,
        u32::MAX - 1,
        u32::MAX,
    ] {
        for message in &messages {
            calls.push(Call::formula(p, message));
            calls.push(Call::text(p, 5, message));
        }
    }
    calls
}

/// A proposition below p, and at p and above: "6 NAME: a .. proposition .. that doesn't exist".
fn propositions_named() -> Vec<Call> {
    let mut calls = vec![];
    for p in 0..=32 {
        for (proposition, row) in
            [p.max(1) - 1, p, p + 1].map(|name| (name, Row::Has(name as usize)))
        {
            calls.push(Call::formula(p, &message::formula(&vec![row]).bytes));
            let negated = message::formula(&vec![Row::HasNot(proposition as usize)]).bytes;
            calls.push(text_of(p, &negated));
        }
    }
    calls
}

/// "An operand must be an earlier row. After all rows, every row but the last must be an operand
/// exactly once": two binary rows over three leaves, with every choice of operands that is right and
/// some of the others; and small formulas that break the rule.
fn uses() -> Vec<Call> {
    let mut formulas: Vec<Formula> = vec![];
    for choice in 0..5 * 5 * 5 * 5 {
        let [a, b, c, d] = [choice % 5, choice / 5 % 5, choice / 25 % 5, choice / 125];
        let rows = vec![
            Row::True,
            Row::False,
            Row::True,
            Row::And(a, b),
            Row::Until(Runs::All, None, c, d),
        ];
        if choice % 7 == 0 || bytes::formula(0, &message::formula(&rows).bytes).is_ok() {
            formulas.push(rows);
        }
    }
    formulas.push(vec![Row::True, Row::True]);
    formulas.push(vec![
        Row::True,
        Row::Next(Runs::Some, None, 0),
        Row::Next(Runs::Some, None, 0),
    ]);
    formulas.push(vec![Row::True, Row::Next(Runs::Some, None, 1)]);
    formulas.push(vec![Row::Next(Runs::Some, None, 0)]);
    formulas.push(vec![Row::And(0, 0)]);
    formulas
        .iter()
        .map(|rows| Call::formula(0, &message::formula(rows).bytes))
        .collect()
}

/// "the action given in the row's right field, 0 to 255": it names no row and uses none. Numbers that
/// would name the operand, another row, the row itself, a later one and none.
fn actions() -> Vec<Call> {
    let mut formulas: Vec<Formula> = vec![];
    for action in [0, 1, 2, 3, 4, 63, 64, 128, 255] {
        for runs in [Runs::Some, Runs::All] {
            let by = |operand: usize| Row::NextBy(runs, action, Some(2), operand);
            formulas.push(vec![Row::True, by(0)]);
            formulas.push(vec![Row::True, by(0), by(1), by(2)]);
            formulas.push(vec![Row::True, Row::False, by(1), Row::Or(0, 2)]);
            // a row that only the action would use, an operand that is no earlier row, one used twice
            formulas.push(vec![Row::True, Row::False, by(0)]);
            formulas.push(vec![by(0)]);
            formulas.push(vec![Row::True, by(1)]);
            formulas.push(vec![Row::True, by(0), by(0)]);
        }
    }
    let check = |rows: &Formula| Call::formula(0, &message::formula(rows).bytes);
    let mut calls: Vec<Call> = formulas.iter().map(check).collect();
    let texts = formulas.iter().step_by(3);
    calls.extend(texts.map(|rows| text_of(0, &message::formula(rows).bytes)));
    calls
}

/// Actions of every number of digits, with bounds of every kind.
fn texts_of_actions() -> Vec<Call> {
    let mut calls = vec![];
    for action in [0, 1, 7, 9, 10, 11, 99, 100, 101, 199, 200, 254, 255] {
        for bound in [None, Some(3), Some(u32::MAX - 1)] {
            for runs in [Runs::Some, Runs::All] {
                let rows = vec![Row::Has(1), Row::NextBy(runs, action, bound, 0)];
                calls.push(text_of(2, &message::formula(&rows).bytes));
            }
        }
    }
    for action in [0, 10, 255] {
        let rows = vec![Row::Has(1), Row::NextBy(Runs::All, action, Some(3), 0)];
        calls.extend(around(2, &rows));
    }
    calls
}

/// A formula's text with rooms around its length.
fn around(p: u32, rows: &Formula) -> Vec<Call> {
    let message = message::formula(rows).bytes;
    let length = text::text(rows).len();
    let rooms = [0, length - 1, length, length + 1, length + 300];
    rooms
        .iter()
        .map(|room| Call::text(p, *room, &message))
        .collect()
}

/// Every operator with every kind of bound; numbers of every number of digits; deep formulas.
fn texts() -> Vec<Call> {
    let mut calls: Vec<Call> = known::questions()
        .iter()
        .flat_map(|known| around(2, &known.rows))
        .collect();
    calls.extend(around(
        2,
        &bytes::formula(2, &every_operator().bytes).unwrap(),
    ));
    for proposition in [0, 1, 9, 10, 11, 29, 30, 31] {
        calls.extend(around(32, &vec![Row::Has(proposition)]));
        calls.extend(around(32, &vec![Row::HasNot(proposition)]));
    }
    for rows in [vec![Row::True], vec![Row::False]] {
        calls.extend(around(0, &rows));
    }
    for bound in bounds() {
        for runs in [Runs::Some, Runs::All] {
            let next = vec![Row::True, Row::Next(runs, bound, 0)];
            let until = vec![Row::False, Row::True, Row::Until(runs, bound, 1, 0)];
            calls.push(text_of(0, &message::formula(&next).bytes));
            calls.extend(around(0, &until).into_iter().skip(1).take(2));
        }
    }
    calls
}

/// No bound, the extremes, and every number of digits from its first number to its last.
fn bounds() -> Vec<Bound> {
    let mut bounds: Vec<Bound> = EXTREMES.map(bound_of).to_vec();
    for digits in 1..10 {
        let first_longer = 10u32.pow(digits);
        bounds.extend(
            [
                first_longer - 1,
                first_longer,
                first_longer + first_longer / 10,
            ]
            .map(Some),
        );
    }
    bounds.push(Some(4_000_000_000));
    bounds
}

/// Unary rows, one on the other.
pub fn tower(runs: Runs, bound: Bound, rows: usize) -> Formula {
    let mut formula = vec![Row::True];
    formula.extend((0..rows - 1).map(|operand| Row::Next(runs, bound, operand)));
    formula
}

/// Unary rows of an action, one on the other.
pub fn tower_by(runs: Runs, action: u8, bound: Bound, rows: usize) -> Formula {
    let mut formula = vec![Row::False];
    formula.extend((0..rows - 1).map(|operand| Row::NextBy(runs, action, bound, operand)));
    formula
}

/// Untils nested on the right or on the left: so many untils, and a leaf more.
pub fn nested(runs: Runs, bound: Bound, untils: usize, on_the_right: bool) -> Formula {
    let mut formula = vec![Row::True];
    for _ in 0..untils {
        let below = formula.len() - 1;
        formula.push(Row::True);
        let (left, right) = if on_the_right {
            (below + 1, below)
        } else {
            (below, below + 1)
        };
        formula.push(Row::Until(runs, bound, left, right));
    }
    formula
}

/// "f: 1 to 64", deep and wide, and texts of their lengths.
fn large() -> Vec<Call> {
    let most = Some(u32::MAX - 1);
    let mut calls = vec![];
    for rows in [
        tower(Runs::Some, most, 63),
        tower(Runs::All, None, 64),
        nested(Runs::All, most, 31, true),
        // the longest text of all, 1,202 bytes
        tower_by(Runs::Some, 255, most, 64),
        tower_by(Runs::All, 0, None, 64),
    ] {
        calls.push(Call::formula(0, &message::formula(&rows).bytes));
        calls.extend(around(0, &rows));
    }
    calls.extend(around(0, &nested(Runs::Some, most, 31, false)));
    let past = message::formula(&tower(Runs::Some, None, 65)).bytes;
    calls.extend([Call::formula(0, &past), Call::text(0, 500, &past)]);
    let mut random = Random::new(64);
    for rows in [40, 62, 63, 64, 64, 64] {
        calls.extend(around(32, &generate::formula(&mut random, 32, rows)));
    }
    calls.push(Call::text(
        0,
        65_536,
        &message::formula(&vec![Row::True]).bytes,
    ));
    calls.push(Call::formula(0, &message_of_zeros(65_536)));
    calls
}

/// A header and zeros, with the right length: too long for any formula.
fn message_of_zeros(length: usize) -> Vec<u8> {
    let mut bytes = message::formula(&tower(Runs::Some, None, 64)).bytes;
    bytes.resize(length, 0);
    message::mend_length(&mut bytes);
    bytes
}
