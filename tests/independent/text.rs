//! Document 01, "Text and program": the text of a formula. Document 02, request 7: "the text is
//! `EX#7<=3 x`".

use crate::bytes::{Bound, Row, Runs};

/// The text of the formula: that of its last row.
pub fn text(rows: &[Row]) -> String {
    row_text(rows, rows.len() - 1)
}

/// "The text of a row is made of the texts of its operands"
fn row_text(rows: &[Row], index: usize) -> String {
    let part = |operand: usize| row_text(rows, operand);
    match rows[index] {
        Row::True => "true".to_string(),
        Row::False => "false".to_string(),
        Row::Has(proposition) => format!("p{proposition}"),
        Row::HasNot(proposition) => format!("!p{proposition}"),
        Row::And(left, right) => format!("({} & {})", part(left), part(right)),
        Row::Or(left, right) => format!("({} | {})", part(left), part(right)),
        Row::Next(runs, bound, operand) => {
            format!("{}X{} {}", letter(runs), bound_text(bound), part(operand))
        }
        Row::NextBy(runs, action, bound, operand) => {
            let (letter, bound) = (letter(runs), bound_text(bound));
            format!("{letter}X#{action}{bound} {}", part(operand))
        }
        Row::Until(runs, bound, left, right) => {
            format!(
                "{}[{} U{} {}]",
                letter(runs),
                part(left),
                bound_text(bound),
                part(right)
            )
        }
    }
}

fn letter(runs: Runs) -> char {
    match runs {
        Runs::Some => 'E',
        Runs::All => 'A',
    }
}

/// "no bound, no `<=`. Numbers are decimal without leading zeros."
fn bound_text(bound: Bound) -> String {
    bound.map_or(String::new(), |most| format!("<={most}"))
}
