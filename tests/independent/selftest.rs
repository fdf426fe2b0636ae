//! Tries this program: against the known graphs and models of document 01, against meanings worked
//! out by brute force, and each of its two ways against the other.

use crate::answer::{answer, answer_batch, sum, Call, LETTERS};
use crate::batch::{self, generate};
use crate::build::{self, Layout};
use crate::bytes::{self, Bound, Formula, Graph, Model, Row, Runs};
use crate::known::{self, graph, model};
use crate::message;
use crate::offsets;
use crate::program;
use crate::random::Random;
use crate::refusal::{Fault, Number, RULES};
use crate::rounds::{self, Value};
use crate::sat;
use crate::search;
use crate::tally::{Entry, Outcome, Tally};
use crate::text;
use crate::verdict::{self, Question};
use std::collections::BTreeSet;

pub fn run(seed: u64) {
    known_graphs();
    known_questions();
    sums();
    report("offsets by hand", offsets::run());
    sheets();
    long_messages();
    large_graphs();
    let mut random = Random::new(seed);
    runs_by_unrolling(&mut random, 10_000);
    dead_states(&mut random, 10_000);
    actions(&mut random, 10_000);
    no_actions(&mut random, 2_000);
    graphs_by_runs(&mut random, 5_000);
    largest_assignments(&mut random, 2_000);
    searches(&mut random, 20_000);
    texts_read_back(&mut random, 3_000);
    every_rule();
    batches(seed);
    println!("self-test passed, seed {seed}");
}

fn report(what: &str, count: usize) {
    println!("{what}: {count}");
}

// ---- document 01's own examples

fn known_graphs() {
    let hex: String = known::GRAPH_G_HEX.split_whitespace().collect();
    let written = message::graph(&known::graph_g()).bytes;
    assert_eq!(
        written
            .iter()
            .map(|byte| format!("{byte:02X}"))
            .collect::<String>(),
        hex
    );
    let mut at: Vec<Value> = vec![None; 4];
    for round in known::rounds_of_g() {
        at = rounds::next_round(&known::graph_g(), &at);
        assert_eq!(at, round, "T1 to T4");
    }
    for known in known::graphs() {
        let settled = rounds::run(&known.graph, u32::MAX);
        assert_eq!(
            (settled.at, settled.rounds),
            (known.values, known.count),
            "{}",
            known.name
        );
        assert_eq!(
            bytes::graph(&message::graph(&known.graph).bytes),
            Ok(known.graph),
            "{}",
            known.name
        );
    }
    let spent = rounds::run(&known::graph_g(), 3);
    assert!(!spent.settled && spent.rounds == 3, "budget 3 is BUDGET");
    assert_eq!(
        [spent.at, spent.after].concat(),
        known::rounds_of_g()[2..].concat()
    );
    for known in known::graphs() {
        let cycle = rounds::has_cover_cycle(&known.graph);
        assert_eq!(cycle, known.name == "T12", "{}", known.name);
    }
    report("known graphs", known::graphs().len());
}

fn known_questions() {
    let model = message::model(&known::model_m()).bytes;
    for known in known::questions() {
        let formula = message::formula(&known.rows).bytes;
        for state in 0..2 {
            let question = Question {
                model: &model,
                formula: &formula,
                state,
                budget: known.count,
            };
            let found = verdict::decide(&question, &mut [0; 200], &mut [0; 16]).expect("a verdict");
            assert_eq!(found.yes, Some(known.yes[state as usize]), "{}", known.name);
            assert_eq!(found.report.rounds, known.count, "{}", known.name);
            if known.name == "T13" {
                assert_eq!(found.report.at, known::values_of_t13());
                assert_eq!(text::text(&known.rows), "E[p0 U<=2 p1]");
            }
        }
    }
    let written = program::output(&batch::inputs::t13()).lines;
    assert_eq!(written, "E[p0 U<=2 p1]\nrounds 4\n0 yes\n1 yes\n");
    report("known questions", known::questions().len());
}

fn sums() {
    assert_eq!(sum(b"Wikipedia"), "11e60398");
    assert_eq!(sum(b""), "00000001");
}

/// Request 8: each sentence on a history that is worked out by hand.
fn sheets() {
    let mut tally = Tally::default();
    let mut entered = vec![];
    let history = [
        (Outcome::Yes, 4),
        (Outcome::No, 9),
        (Outcome::Refusal(1), u32::MAX),
        (Outcome::Refusal(7), 100),
        (Outcome::Refusal(0), 1),
        (Outcome::Refusal(12), 1),
        (Outcome::Refusal(11), 3),
        (Outcome::Yes, 0),
    ];
    for (outcome, rounds) in history {
        let fault = tally.enter(Entry { outcome, rounds }).err();
        entered.push(fault.map_or(Number::Ok, |fault| fault.number) as u8);
    }
    assert_eq!(entered, [0, 0, 0, 0, 6, 6, 0, 0]);
    assert_eq!(tally.accepted(), 6);
    assert_eq!(
        tally.report(),
        [
            2,
            1,
            1,
            0,
            0,
            0,
            0,
            0,
            1,
            0,
            0,
            0,
            1,
            4_294_967_308,
            4_294_967_295
        ]
    );
}

// ---- limits that the messages of `trials` are too short for

fn number<T>(read: Result<T, Fault>) -> Number {
    read.err().map_or(Number::Ok, |fault| fault.number)
}

fn long_messages() {
    let wide = |counts: &[usize]| {
        let targets: Vec<Vec<(u32, usize)>> =
            counts.iter().map(|count| vec![(1, 0); *count]).collect();
        let edges: Vec<known::Edge> = targets
            .iter()
            .map(|targets| (0, targets.as_slice()))
            .collect();
        message::graph(&graph(1, &edges, &[])).bytes
    };
    let four = [65_535; 4];
    assert_eq!(
        number(bytes::graph(&wide(&[&four[..], &[4]].concat()))),
        Number::Ok
    );
    let mut past = wide(&[&four[..], &[5]].concat());
    let fault = bytes::graph(&past).expect_err("a target too many");
    // the fifth hyperedge stands at 14 + 4 · (4 + 6 · 65,535), its target count 2 further
    assert_eq!((fault.number, fault.offset), (Number::Limit, 1_572_872));
    past.truncate(past.len() - 30);
    message::mend_length(&mut past);
    assert_eq!(
        number(bytes::graph(&past)),
        Number::Limit,
        "LIMIT comes before the target bytes fit"
    );
    assert_eq!(number(bytes::graph(&wide(&vec![0; 65_535]))), Number::Ok);
    assert_eq!(number(bytes::graph(&wide(&vec![0; 65_536]))), Number::Limit);
    assert_eq!(
        number(bytes::model(&message::model(&loops(65_535)).bytes)),
        Number::Ok
    );
    assert_eq!(
        number(bytes::model(&message::model(&loops(65_536)).bytes)),
        Number::Limit
    );
    report("long messages", 7);
}

fn loops(transitions: usize) -> Model {
    model(2, &[1], &vec![(0, 0, 0); transitions])
}

fn large_graphs() {
    let built = |transitions: usize, rows: &Formula| {
        number(build::within_limits(&build::graph(
            &loops(transitions),
            rows,
        )))
    };
    let next = vec![Row::True, Row::Next(Runs::All, None, 0)];
    assert_eq!(built(65_535, &next), Number::Ok);
    assert_eq!(built(65_534, &known::until(Runs::All, None)), Number::Ok);
    assert_eq!(
        built(65_535, &known::until(Runs::All, None)),
        Number::Size,
        "65,536 targets of one hyperedge"
    );
    assert_eq!(built(65_533, &known::until(Runs::Some, None)), Number::Ok);
    assert_eq!(
        built(65_534, &known::until(Runs::Some, None)),
        Number::Size,
        "65,536 hyperedges"
    );
    report("large graphs", 5);
}

// ---- the meaning of formulas by brute force

/// Maximal runs, cut after as many steps as there are states where they haven't ended. A longer walk
/// meets a state twice: for E its detour can be left out, and for A it can be repeated for ever. So
/// the cut runs decide both.
fn runs_by_unrolling(random: &mut Random, times: usize) {
    let mut untils = 0;
    for _ in 0..times {
        let model = generate::model(random, 5);
        let size = random.between(1, 9);
        let rows = generate::formula(random, model.propositions, size);
        let meaning = sat::meaning(&model, &rows);
        for row in build::until_rows(&rows) {
            for state in 0..model.states() {
                let by_walks = until_by_walks(&model, &meaning.holds, &rows[row], state);
                assert_eq!(
                    meaning.holds[row][state], by_walks,
                    "row {row}, state {state}\n{model:?}\n{rows:?}"
                );
                untils += 1;
            }
        }
    }
    report("untils by unrolled runs", untils);
}

fn until_by_walks(model: &Model, holds: &[Vec<bool>], row: &Row, state: usize) -> bool {
    let Row::Until(runs, bound, left, right) = *row else {
        unreachable!()
    };
    let meets = |walk: &Vec<(usize, u64)>| {
        (0..walk.len()).any(|at| {
            let (state, weight) = walk[at];
            let earlier = walk[..at].iter().all(|(state, _)| holds[left][*state]);
            holds[right][state] && rounds::within(Some(weight), bound) && earlier
        })
    };
    let walks = walks(model, vec![(state, 0)], model.states());
    match runs {
        Runs::Some => walks.iter().any(meets),
        Runs::All => walks.iter().all(meets),
    }
}

/// Every way to go on with a walk for so many steps, or to where it ends: the states with the weights
/// before them.
fn walks(model: &Model, walk: Vec<(usize, u64)>, steps: usize) -> Vec<Vec<(usize, u64)>> {
    let (last, weight) = walk[walk.len() - 1];
    if steps == 0 || model.is_dead(last) {
        return vec![walk];
    }
    let mut found = vec![];
    for step in model.leaving(last) {
        let longer = [&walk[..], &[(step.to, weight + u64::from(step.weight))]].concat();
        found.extend(walks(model, longer, steps - 1));
    }
    found
}

/// Request 1: "at such a state EX is false, AX is true, E until and A until hold exactly when right
/// holds, and the A helper there has only its first hyperedge".
fn dead_states(random: &mut Random, times: usize) {
    let mut dead = 0;
    for _ in 0..times {
        let model = generate::model(random, 5);
        let size = random.between(2, 9);
        let rows = generate::formula(random, model.propositions, size);
        let meaning = sat::meaning(&model, &rows);
        let built = build::graph(&model, &rows);
        for state in (0..model.states()).filter(|state| model.is_dead(*state)) {
            for (row, holds) in rows.iter().zip(&meaning.holds) {
                match *row {
                    Row::Next(runs, ..) | Row::NextBy(runs, ..) => {
                        assert_eq!(holds[state], runs == Runs::All)
                    }
                    Row::Until(.., right) => assert_eq!(holds[state], meaning.holds[right][state]),
                    _ => {}
                }
            }
            for until in 0..build::until_rows(&rows).len() {
                let helper = Layout::of(&model, &rows).helper(state, until);
                let edges = built.hyperedges.iter();
                assert_eq!(edges.filter(|edge| edge.source == helper).count(), 1);
            }
            dead += 1;
        }
    }
    report("dead states", dead);
    assert!(dead > times / 4, "hardly any state is dead");
}

/// Request 7 by taking transitions away: EX and AX of an action are EX and AX on the model that has the
/// transitions of that action alone.
fn actions(random: &mut Random, times: usize) {
    let mut told_apart = 0;
    for _ in 0..times {
        let model = generate::model(random, 5);
        let leaf = generate::formula(random, model.propositions, 1)[0].clone();
        let (runs, bound) = (generate::runs(random), generate::bound(random));
        let action = generate::action_asked(random);
        let mut only = model.clone();
        let kept = usize::from(action);
        only.transitions
            .retain(|step| usize::from(step.action) == kept);
        let next = vec![leaf.clone(), Row::Next(runs, bound, 0)];
        let by = vec![leaf, Row::NextBy(runs, action, bound, 0)];
        let holds = |model: &Model, rows: &Formula| sat::meaning(model, rows).holds[1].clone();
        let found = holds(&model, &by);
        assert_eq!(found, holds(&only, &next), "{model:?} {by:?}");
        told_apart += usize::from(found != holds(&model, &next));
    }
    report("actions told apart", told_apart);
    assert!(told_apart > times / 4, "hardly any action matters");
}

/// What asks for no action is the same whatever the actions are.
fn no_actions(random: &mut Random, times: usize) {
    for _ in 0..times {
        let model = generate::model(random, 5);
        let size = random.between(1, 9);
        let mut rows = generate::formula(random, model.propositions, size);
        for row in &mut rows {
            if let Row::NextBy(runs, _, bound, operand) = *row {
                *row = Row::Next(runs, bound, operand);
            }
        }
        let mut other = model.clone();
        let steps = other.transitions.iter_mut();
        steps.for_each(|step| step.action = generate::action(random));
        let built = build::graph(&model, &rows);
        assert_eq!(built, build::graph(&other, &rows), "{model:?} {rows:?}");
    }
    report("graphs whatever the actions", times);
}

/// The two ways against each other, on larger models and formulas too.
fn graphs_by_runs(random: &mut Random, times: usize) {
    let mut yes = 0;
    for index in 0..times {
        let (most_states, most_rows) = if index % 20 == 0 { (40, 40) } else { (8, 14) };
        let model = generate::model(random, most_states);
        let size = random.between(1, most_rows);
        let rows = generate::formula(random, model.propositions, size);
        let settled = rounds::run(&build::graph(&model, &rows), u32::MAX);
        verdict::check_by_runs(&model, &rows, &settled);
        yes += settled.at.iter().filter(|value| value.is_some()).count();
    }
    report("graphs by runs", times);
    assert!(yes > times, "hardly any node is finite");
}

// ---- settled values by brute force

/// "Settled values are the pointwise largest such assignment.": none that obeys the rules is larger
/// anywhere, among all assignments of small numbers.
fn largest_assignments(random: &mut Random, times: usize) {
    let mut obeying = 0;
    for _ in 0..times {
        let graph = small_graph(random);
        let settled = rounds::run(&graph, u32::MAX).at;
        assert_eq!(
            rounds::next_round(&graph, &settled),
            settled,
            "settled values obey the rules"
        );
        for assignment in assignments(graph.nodes) {
            if rounds::next_round(&graph, &assignment) == assignment {
                let below =
                    |(one, other): (&Value, &Value)| rounds::stored(*one) <= rounds::stored(*other);
                assert!(
                    assignment.iter().zip(&settled).all(below),
                    "{graph:?} {assignment:?}"
                );
                obeying += 1;
            }
        }
    }
    report("assignments that obey", obeying);
}

/// The search of document 000's figure, and each search's verdict by the rounds.
fn searches(random: &mut Random, times: usize) {
    let figure = search::search(&batch::searches::figure(), 0);
    assert_eq!((figure.yes, figure.taken), (true, 6), "Figure 3d");
    let mut yes = 0;
    for _ in 0..times {
        let graph = generate::plain_graph(random, 9);
        let root = random.below(graph.nodes) as u32;
        let mut words = vec![7; search::needs(&graph) + 1];
        let found = search::decide(&message::graph(&graph).bytes, root, &mut words);
        yes += usize::from(found.expect("a plain graph").yes);
        let last = words.pop();
        assert!(last == Some(7) && words.iter().all(|word| *word == 0));
    }
    report("searches", times);
    report("searches with yes", yes);
}

fn small_graph(random: &mut Random) -> Graph {
    let mut graph = generate::graph(random, 3);
    let targets = graph
        .hyperedges
        .iter_mut()
        .flat_map(|edge| &mut edge.targets);
    targets.for_each(|target| target.weight %= 3);
    graph
        .covers
        .iter_mut()
        .for_each(|edge| edge.bound = edge.bound.map(|bound| bound % 6));
    graph
}

/// Every assignment of 0 to 6 or infinity to so many nodes.
fn assignments(nodes: usize) -> Vec<Vec<Value>> {
    let values: Vec<Value> = (0..7).map(Some).chain([None]).collect();
    (0..nodes).fold(vec![vec![]], |shorter, _| {
        let longer = |start: &Vec<Value>| {
            values
                .iter()
                .map(|value| [&start[..], &[*value]].concat())
                .collect::<Vec<_>>()
        };
        shorter.iter().flat_map(longer).collect()
    })
}

// ---- texts read back

fn texts_read_back(random: &mut Random, times: usize) {
    for _ in 0..times {
        let size = random.between(1, 40);
        let rows = generate::formula(random, 32, size);
        let text = text::text(&rows);
        let (mut read, mut rest) = (vec![], text.as_str());
        read_row(&mut rest, &mut read);
        assert_eq!(rest, "", "{text}");
        let mut ordered = vec![];
        operands_first(&rows, rows.len() - 1, &mut ordered);
        assert_eq!(read, ordered, "{text}");
    }
    report("texts read back", times);
}

/// Takes a word off the front where it stands there.
fn take(text: &mut &str, word: &str) -> bool {
    let rest = text.strip_prefix(word);
    *text = rest.unwrap_or(text);
    rest.is_some()
}

fn read_number(text: &mut &str) -> u32 {
    let digits = text
        .find(|letter: char| !letter.is_ascii_digit())
        .unwrap_or(text.len());
    let (number, rest) = text.split_at(digits);
    assert!(number == "0" || !number.starts_with('0'), "a leading zero");
    *text = rest;
    number.parse().expect("a number")
}

fn read_bound(text: &mut &str) -> Bound {
    let bound = take(text, "<=").then(|| read_number(text));
    assert!(take(text, " "), "{text}");
    bound
}

fn read_row(text: &mut &str, rows: &mut Formula) -> usize {
    let row = if take(text, "true") {
        Row::True
    } else if take(text, "false") {
        Row::False
    } else if take(text, "p") {
        Row::Has(read_number(text) as usize)
    } else if take(text, "!p") {
        Row::HasNot(read_number(text) as usize)
    } else if take(text, "(") {
        read_pair(text, rows)
    } else {
        let runs = if take(text, "E") {
            Runs::Some
        } else {
            Runs::All
        };
        let _ = take(text, "A");
        read_quantified(runs, text, rows)
    };
    rows.push(row);
    rows.len() - 1
}

fn read_pair(text: &mut &str, rows: &mut Formula) -> Row {
    let left = read_row(text, rows);
    let both = take(text, " & ");
    assert!(both || take(text, " | "), "{text}");
    let right = read_row(text, rows);
    assert!(take(text, ")"), "{text}");
    if both {
        Row::And(left, right)
    } else {
        Row::Or(left, right)
    }
}

fn read_quantified(runs: Runs, text: &mut &str, rows: &mut Formula) -> Row {
    if take(text, "X") {
        let action = take(text, "#").then(|| read_number(text));
        let bound = read_bound(text);
        let operand = read_row(text, rows);
        return match action {
            None => Row::Next(runs, bound, operand),
            Some(action) => {
                let action = u8::try_from(action).expect("an action of a row");
                Row::NextBy(runs, action, bound, operand)
            }
        };
    }
    assert!(take(text, "["), "{text}");
    let left = read_row(text, rows);
    assert!(take(text, " U"), "{text}");
    let bound = read_bound(text);
    let right = read_row(text, rows);
    assert!(take(text, "]"), "{text}");
    Row::Until(runs, bound, left, right)
}

/// The rows below a row, left before right, each after its operands: the order of reading.
fn operands_first(rows: &[Row], index: usize, out: &mut Formula) -> usize {
    let names: Vec<usize> = rows[index]
        .operands()
        .iter()
        .map(|operand| operands_first(rows, *operand, out))
        .collect();
    out.push(match rows[index] {
        Row::And(..) => Row::And(names[0], names[1]),
        Row::Or(..) => Row::Or(names[0], names[1]),
        Row::Next(runs, bound, _) => Row::Next(runs, bound, names[0]),
        Row::NextBy(runs, action, bound, _) => Row::NextBy(runs, action, bound, names[0]),
        Row::Until(runs, bound, ..) => Row::Until(runs, bound, names[0], names[1]),
        ref leaf => leaf.clone(),
    });
    out.len() - 1
}

// ---- batches

/// Request 4's list of what has no offset.
fn has_no_offset(fault: &Fault) -> bool {
    let numbers = [
        Number::Budget,
        Number::Length,
        Number::Size,
        Number::Room,
        Number::Profile,
    ];
    let handed_in = ["asked state", "root", "p handed in"];
    let used_once = ["row never used", "row used twice"];
    fault.subject == "entry"
        || numbers.contains(&fault.number)
        || handed_in.contains(&fault.place)
        || used_once.contains(&fault.place)
}

/// Each fault of a call or an input has an offset exactly where request 4 gives it one.
fn offsets_where_due(faults: &[Fault]) {
    for fault in faults {
        assert_eq!(fault.offset == 0, has_no_offset(fault), "{fault:?}");
    }
    let offsets: BTreeSet<usize> = faults.iter().map(|fault| fault.offset).collect();
    report("offsets met", offsets.len());
}

/// The systematic part breaks every rule in every kind of call that can break it, and so do the
/// program's inputs; each kind of call, and the program, also go well.
fn every_rule() {
    let calls = batch::systematic();
    let inputs = batch::inputs::systematic();
    let of_calls = calls.iter().filter_map(|call| answer(call).fault);
    let of_inputs = inputs
        .iter()
        .filter_map(|input| program::output(input).fault);
    offsets_where_due(&of_calls.chain(of_inputs).collect::<Vec<Fault>>());
    let mut broken: BTreeSet<(char, &str, &str)> = calls.iter().filter_map(rule_broken).collect();
    broken.extend(inputs.iter().filter_map(|input| rule_broken_by(input)));
    for (subject, place, letters) in RULES {
        for letter in letters.chars() {
            assert!(
                broken.contains(&(letter, subject, place)),
                "{letter} never breaks: {subject}, {place}"
            );
        }
    }
    let allowed = |(letter, subject, place): &(char, &str, &str)| {
        RULES
            .iter()
            .any(|rule| rule.0 == *subject && rule.1 == *place && rule.2.contains(*letter))
    };
    assert!(
        broken.iter().all(allowed),
        "a rule that the table lacks: {broken:?}"
    );
    for letter in LETTERS.bytes() {
        let well = |call: &&Call| call.letter == letter && answer(call).fault.is_none();
        assert!(
            calls.iter().any(|call| well(&call)),
            "{} never goes well",
            letter as char
        );
    }
    let answered = |input: &&Vec<u8>| program::output(input).fault.is_none();
    assert!(
        inputs.iter().filter(answered).count() > inputs.len() / 4,
        "few inputs are answered"
    );
    report("systematic calls", calls.len());
    report("systematic inputs", inputs.len());
    report("rules broken, by letter", broken.len());
}

fn rule_broken(call: &Call) -> Option<(char, &'static str, &'static str)> {
    answer(call)
        .fault
        .map(|fault| (call.letter as char, fault.subject, fault.place))
}

fn rule_broken_by(input: &[u8]) -> Option<(char, &'static str, &'static str)> {
    let fault = program::output(input).fault;
    fault.map(|fault| ('P', fault.subject, fault.place))
}

fn batches(seed: u64) {
    let calls = batch::systematic().len() + 5_000;
    let (input, lines) = batch::make(seed, calls, LETTERS);
    assert_eq!(lines.lines().count(), calls);
    assert_eq!(
        batch::make(seed, calls, LETTERS).0,
        input,
        "a seed makes one batch"
    );
    let (input, lines) = batch::make(seed, 100, "GV");
    assert_eq!(
        lines
            .lines()
            .filter(|line| line.starts_with(['G', 'V']))
            .count(),
        100
    );
    for bytes in batch::ends::no_calls() {
        let ended = answer_batch(&[&input[..], &bytes].concat());
        assert_eq!(ended, format!("{lines}? {}\n", bytes[0]));
    }
    for (_, lines) in batch::ends::batches() {
        assert_eq!(lines.lines().count(), LETTERS.len() + 1);
        assert!(lines
            .lines()
            .last()
            .is_some_and(|line| line.starts_with("? ")));
    }
    assert_eq!(
        answer_batch(&[b"x", &input[..]].concat()),
        "? 120\n",
        "nothing follows"
    );
    assert!(batch::make(seed, 9, "?").1.starts_with("? "));
    let inputs = batch::inputs::systematic().len() + 500;
    let made = batch::inputs::make(seed, inputs);
    assert_eq!(made.len(), inputs);
    assert_eq!(
        batch::inputs::make(seed, inputs),
        made,
        "a seed makes the same inputs"
    );
    report("calls in a batch", calls);
    report("batches that end early", batch::ends::no_calls().len());
}
