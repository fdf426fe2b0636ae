//! Document 01, "Text and program": what the program must write for what it reads.

use crate::bytes::{self, Model, Row};
use crate::refusal::{Fault, Number, CALL, PROGRAM};
use crate::rounds;
use crate::text;
use crate::verdict;

/// "at most 8,192 bytes together"
pub const MOST_INPUT: usize = 8_192;

/// "Graph room 65,536 bytes, text room 2,048 bytes, value room 8,192 numbers"
pub const GRAPH_ROOM: usize = 65_536;
const TEXT_ROOM: usize = 2_048;
const VALUE_ROOM: usize = 8_192;

/// What the program must write, and the rule that refused.
pub struct Output {
    pub lines: String,
    pub fault: Option<Fault>,
}

/// "Any refusal writes only `refused` and the number." Request 4: "The program then writes `refused 6
/// at 21`, and plain `refused 2` where the offset is 0."
pub fn output(input: &[u8]) -> Output {
    match answered(input) {
        Ok(lines) => Output { lines, fault: None },
        Err(fault) => Output {
            lines: refused(fault),
            fault: Some(fault),
        },
    }
}

fn refused(fault: Fault) -> String {
    match (fault.number as u8, fault.offset) {
        (number, 0) => format!("refused {number}\n"),
        (number, offset) => format!("refused {number} at {offset}\n"),
    }
}

/// "The program reads a model followed by a formula, at most 8,192 bytes together .. The model ends
/// where its length field says; if that can't be done, or the input is longer, it writes `refused 2`."
fn cut(input: &[u8]) -> Result<(&[u8], &[u8]), Fault> {
    PROGRAM.demand(input.len() <= MOST_INPUT, Number::Length, "longer input")?;
    let field = input.first_chunk().map(|field| u32::from_be_bytes(*field));
    let parts = field.and_then(|length| input.split_at_checked(length as usize));
    parts.ok_or(PROGRAM.fault(Number::Length, "end of the model"))
}

/// The order of a verdict: "model, formula (with the model's p), .. SIZE, graph room, value room, and
/// only then BUDGET". Every state is asked about, so none is NAME.
fn answered(input: &[u8]) -> Result<String, Fault> {
    let (model, formula) = cut(input)?;
    let model = bytes::model(model)?;
    let rows = bytes::formula(model.propositions, formula)?;
    let (graph, _) = verdict::build_in(&model, &rows, GRAPH_ROOM, VALUE_ROOM)?;
    let text = text::text(&rows);
    CALL.demand(text.len() <= TEXT_ROOM, Number::Room, "text room")?;
    // "The program's budget becomes n": document 02, request 5
    let report = rounds::run(&graph, graph.nodes as u32);
    CALL.demand(report.settled, Number::Budget, "budget")?;
    verdict::check_by_runs(&model, &rows, &report);
    let mut lines = format!("{text}\nrounds {}\n", report.rounds);
    for state in 0..model.states() {
        let yes = verdict::is_yes(&model, &rows, state, &report);
        lines += &format!("{state} {}\n", if yes { "yes" } else { "no" });
    }
    Ok(lines)
}

/// An input for a reader's eyes: its bytes in hex, what was read of them, and what the program must
/// write with the rule that refused.
pub fn shown(input: &[u8]) -> String {
    let hex: String = input.iter().map(|byte| format!("{byte:02x}")).collect();
    let expected = output(input);
    let rule = expected.fault.map_or(String::new(), |fault| {
        format!("refused by: {}, {}\n", fault.subject, fault.place)
    });
    format!(
        "{} bytes: {hex}\n{}{rule}expected:\n{}",
        input.len(),
        understood(input),
        expected.lines
    )
}

/// The model and the formula, as far as they are accepted.
fn understood(input: &[u8]) -> String {
    let Ok((model, formula)) = cut(input) else {
        return String::new();
    };
    let Ok(model) = bytes::model(model) else {
        return String::new();
    };
    let rows = bytes::formula(model.propositions, formula);
    let formula = rows.map_or(String::new(), |rows| shown_rows(&rows));
    shown_model(&model) + &formula
}

fn shown_model(model: &Model) -> String {
    let steps: Vec<String> = model
        .transitions
        .iter()
        .map(|step| format!("{}-{}#{}>{}", step.from, step.weight, step.action, step.to))
        .collect();
    format!(
        "p {}, labels {:?}\ntransitions {}\n",
        model.propositions,
        model.labels,
        steps.join(" ")
    )
}

fn shown_rows(rows: &[Row]) -> String {
    format!("formula {}\n", text::text(rows))
}
