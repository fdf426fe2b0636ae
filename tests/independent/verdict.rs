//! The calls on lent rooms: the text of a formula, the rounds on a graph and the verdict.
//! Document 01: "For rounds on a graph: the graph, value room, BUDGET. For a verdict: model, formula
//! (with the model's p), asked state NAME, SIZE, graph room, value room, and only then BUDGET."
//! "Any but BUDGET has count 0 and returned length 0, and leaves all lent memory as it came."

use crate::build::{self, Layout};
use crate::bytes::{self, Graph, Model, Row};
use crate::message;
use crate::refusal::{Fault, Number, CALL};
use crate::rounds::{self, Report};
use crate::sat;
use crate::text;

/// "The formula is checked first, with its p; then ROOM if the text doesn't fit. The text's length is
/// returned and bytes past it stay."
pub fn write_text(p: u32, formula: &[u8], room: &mut [u8]) -> Result<usize, Fault> {
    let text = text::text(&bytes::formula(p, formula)?);
    CALL.demand(text.len() <= room.len(), Number::Room, "text room")?;
    room[..text.len()].copy_from_slice(text.as_bytes());
    Ok(text.len())
}

/// "Room below 2n is ROOM. Numbers beyond 2n stay."
fn has_room(nodes: usize, room: usize) -> Result<(), Fault> {
    CALL.demand(room >= 2 * nodes, Number::Room, "value room")
}

fn run_in(graph: &Graph, budget: u32, room: &mut [u64]) -> Report {
    let report = rounds::run(graph, budget);
    room[..2 * graph.nodes].copy_from_slice(&report.numbers());
    report
}

/// "1 BUDGET: the count of rounds is greater than the budget"
pub fn number_of(report: &Report) -> Number {
    if report.settled {
        Number::Ok
    } else {
        Number::Budget
    }
}

pub fn run_rounds(message: &[u8], budget: u32, room: &mut [u64]) -> Result<Report, Fault> {
    let graph = bytes::graph(message)?;
    has_room(graph.nodes, room.len())?;
    Ok(run_in(&graph, budget, room))
}

/// What a verdict is asked about.
pub struct Question<'a> {
    pub model: &'a [u8],
    pub formula: &'a [u8],
    pub state: u32,
    pub budget: u32,
}

/// What a verdict answers where it isn't refused, or refused with BUDGET.
pub struct Answer {
    pub report: Report,
    /// None with BUDGET: "Every refusal has verdict none."
    pub yes: Option<bool>,
    pub length: usize,
}

/// The graph that is built, and its message: "SIZE, graph room, value room".
pub fn build_in(
    model: &Model,
    rows: &[Row],
    graph_room: usize,
    value_room: usize,
) -> Result<(Graph, Vec<u8>), Fault> {
    let graph = build::graph(model, rows);
    build::within_limits(&graph)?;
    let written = message::graph(&graph).bytes;
    CALL.demand(written.len() <= graph_room, Number::Room, "graph room")?;
    has_room(graph.nodes, value_room)?;
    Ok((graph, written))
}

/// "After a verdict or BUDGET, the graph stands at the front of its room, the rest untouched, and its
/// length is the returned length."
pub fn decide(
    question: &Question,
    graph_room: &mut [u8],
    value_room: &mut [u64],
) -> Result<Answer, Fault> {
    let model = bytes::model(question.model)?;
    let rows = bytes::formula(model.propositions, question.formula)?;
    let state = question.state as usize;
    CALL.demand(state < model.states(), Number::Name, "asked state")?;
    let (graph, written) = build_in(&model, &rows, graph_room.len(), value_room.len())?;
    graph_room[..written.len()].copy_from_slice(&written);
    let report = run_in(&graph, question.budget, value_room);
    let yes = report.settled.then(|| {
        check_by_runs(&model, &rows, &report);
        is_yes(&model, &rows, state, &report)
    });
    Ok(Answer {
        report,
        yes,
        length: written.len(),
    })
}

/// "The verdict is yes when the root row's node of the state has value 0."
pub fn is_yes(model: &Model, rows: &[Row], state: usize, report: &Report) -> bool {
    let root = Layout::of(model, rows).node(state, rows.len() - 1);
    report.at[root] == Some(0)
}

/// The two ways against each other: the settled value of each state's node for each row must be 0
/// where the state satisfies the row by its runs and infinity elsewhere, and each helper's value
/// must be the weight that the runs give.
pub fn check_by_runs(model: &Model, rows: &[Row], report: &Report) {
    let meaning = sat::meaning(model, rows);
    let layout = Layout::of(model, rows);
    for state in 0..model.states() {
        for row in 0..rows.len() {
            let by_runs = meaning.holds[row][state].then_some(0);
            let by_graph = report.at[layout.node(state, row)];
            assert_eq!(
                by_graph, by_runs,
                "state {state}, row {row}\n{model:?}\n{rows:?}"
            );
        }
        for (until, row) in build::until_rows(rows).iter().enumerate() {
            let by_runs = meaning.weights[*row][state];
            let by_graph = report.at[layout.helper(state, until)];
            assert_eq!(
                by_graph, by_runs,
                "state {state}, helper {until}\n{model:?}\n{rows:?}"
            );
        }
    }
}
