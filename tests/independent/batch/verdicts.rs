//! The systematic part for verdicts: V.

use super::formulas::{self, nested, tower};
use super::generate::EXTREMES;
use super::inputs::ending;
use super::models;
use super::sweep;
use crate::answer::{Call, MOST_BYTES, MOST_VALUES};
use crate::build;
use crate::bytes::{self, bound_of, Bound, Formula, Model, Row, Runs};
use crate::known::{self, acting, model};
use crate::message;
use crate::refusal::RULES;
use crate::rounds;
use crate::verdict::Question;

pub fn calls() -> Vec<Call> {
    let parts = [
        known_questions(),
        operators(),
        dead_ends(),
        each_action(),
        operators_of_actions(),
        extremes(),
        refusals(),
        two_messages(),
        precedence(),
        sizes(),
        full_rooms(),
        large(),
    ];
    parts.into_iter().flatten().collect()
}

/// The length of the graph, 2n and the count.
pub struct Needs {
    pub length: usize,
    pub values: usize,
    pub count: u32,
}

/// What a verdict needs, where neither message is refused nor the graph is too large.
pub fn needs(model: &[u8], formula: &[u8]) -> Option<Needs> {
    let model = bytes::model(model).ok()?;
    let rows = bytes::formula(model.propositions, formula).ok()?;
    let graph = build::graph(&model, &rows);
    build::within_limits(&graph).ok()?;
    let length = message::graph(&graph).bytes.len();
    Some(Needs {
        length,
        values: 2 * graph.nodes,
        count: rounds::run(&graph, u32::MAX).rounds,
    })
}

/// A verdict on any two messages: with exact rooms where they can be had, and an ample budget.
pub fn asked(model: &[u8], formula: &[u8], state: u32) -> Call {
    let (length, values) =
        needs(model, formula).map_or((70, 9), |needs| (needs.length, needs.values));
    let question = Question {
        model,
        formula,
        state,
        budget: u32::MAX,
    };
    Call::verdict(&question, length.min(MOST_BYTES), values.min(MOST_VALUES))
}

fn asked_of(model: &Model, rows: &Formula, state: usize) -> Call {
    asked(
        &message::model(model).bytes,
        &message::formula(rows).bytes,
        state as u32,
    )
}

/// A question with states, budgets and rooms around what it needs.
fn around(model: &Model, rows: &Formula) -> Vec<Call> {
    let states = model.states() as u32;
    let (model, formula) = (message::model(model).bytes, message::formula(rows).bytes);
    let Needs {
        length,
        values,
        count,
    } = needs(&model, &formula).expect("a question that can be asked");
    let call = |state: u32, budget: u32, graph_room: usize, value_room: usize| {
        let question = Question {
            model: &model,
            formula: &formula,
            state,
            budget,
        };
        Call::verdict(&question, graph_room, value_room)
    };
    let mut calls = vec![];
    for state in states_around(states) {
        calls.push(call(state, count, length, values));
    }
    for budget in (0..=count + 1).chain([1 << 31, u32::MAX - 1, u32::MAX]) {
        calls.push(call(0, budget, length, values));
    }
    for room in [0, 1, 13, 14, length - 1, length + 1, length + 300] {
        calls.push(call(1, count, room, values));
    }
    for room in [0, 1, values / 2, values - 1, values + 1, values + 30] {
        calls.push(call(1, count, length, room));
    }
    calls.push(call(0, count - 1, length + 5, values + 5));
    calls
}

/// States on both sides of the last, and numbers whose low bytes name a state.
fn states_around(states: u32) -> Vec<u32> {
    let mut numbers = vec![0, 1, 2, 3, states - 1, states, states + 1];
    numbers.extend([255, 256, 65_535, 65_536, 65_537, 1 << 31, u32::MAX]);
    numbers
}

/// T13 to T15, and a formula with an until in an until, where the rounds take longer.
fn known_questions() -> Vec<Call> {
    let known = known::questions();
    let mut calls: Vec<Call> = known
        .iter()
        .flat_map(|known| around(&known::model_m(), &known.rows))
        .collect();
    let mut deep = known::until(Runs::Some, Some(3));
    deep.extend([
        Row::HasNot(0),
        Row::Next(Runs::Some, Some(1), 3),
        Row::Until(Runs::All, None, 2, 4),
    ]);
    let models = two_models().into_iter().chain(dead_ended());
    calls.extend(models.flat_map(|model| around(&model, &deep)));
    calls
}

/// A model that goes forward to its last state, and one with cycles, of weight 0 too. Every
/// combination of two propositions labels a state.
fn two_models() -> [Model; 2] {
    let labels = [1, 0, 3, 2, 1];
    let forward = [
        (0, 1, 1),
        (0, 2, 2),
        (0, 0, 4),
        (1, 3, 3),
        (2, 0, 3),
        (3, 2, 3),
        (4, 1, 2),
        (4, 0, 3),
    ];
    let cycles = [
        (0, 1, 4),
        (1, 0, 3),
        (1, 2, 0),
        (2, 0, 2),
        (3, 1, 0),
        (3, 1, 1),
        (4, 0, 0),
        (4, 2, 3),
    ];
    [model(2, &labels, &forward), model(2, &labels, &cycles)]
}

/// The same two where nothing leaves some of the states, and one of dead states alone.
fn dead_ended() -> [Model; 3] {
    let without = |mut model: Model, dead: &[usize]| {
        model.transitions.retain(|step| !dead.contains(&step.from));
        model
    };
    let [forward, cycles] = two_models();
    let all = without(forward.clone(), &[0, 1, 2, 3, 4]);
    [without(forward, &[3]), without(cycles, &[0, 2]), all]
}

/// Every operator over every two leaves, with bounds on both sides of the weights.
fn operators() -> Vec<Call> {
    let formulas = over_leaves();
    let ask = |(index, rows): (usize, &Formula)| {
        two_models().map(|model| asked_of(&model, rows, index % 5))
    };
    formulas.iter().enumerate().flat_map(ask).collect()
}

fn over_leaves() -> Vec<Formula> {
    let leaves = [Row::True, Row::False, Row::Has(0), Row::HasNot(1)];
    let bounds: [Bound; 5] = [Some(0), Some(1), Some(2), Some(3), None];
    let mut formulas: Vec<Formula> = leaves.iter().map(|leaf| vec![leaf.clone()]).collect();
    for left in &leaves {
        for (bound, runs) in bounds
            .iter()
            .flat_map(|bound| [(*bound, Runs::Some), (*bound, Runs::All)])
        {
            formulas.push(vec![left.clone(), Row::Next(runs, bound, 0)]);
            for right in &leaves {
                formulas.push(vec![
                    left.clone(),
                    right.clone(),
                    Row::Until(runs, bound, 0, 1),
                ]);
            }
        }
        for right in &leaves {
            formulas.push(vec![left.clone(), right.clone(), Row::And(0, 1)]);
            formulas.push(vec![left.clone(), right.clone(), Row::Or(0, 1)]);
        }
    }
    formulas
}

/// Request 7: each action of a transition beside each of a row, so that only those that are the same
/// number meet; on a state with that transition alone, and with others around it.
fn each_action() -> Vec<Call> {
    let mut calls = vec![];
    for action in models::ACTIONS {
        let alone = acting(1, &[1, 0], &[(0, 2, action, 1)]);
        let steps = [
            (0, 2, 3, 0),
            (0, 2, action, 1),
            (0, 3, action, 0),
            (1, 0, 3, 0),
        ];
        let among = acting(1, &[1, 0], &steps);
        for asked in [0, 1, 2, 127, 128, 254, 255] {
            let by = |runs, bound| vec![Row::HasNot(0), Row::NextBy(runs, asked, bound, 0)];
            calls.push(asked_of(&alone, &by(Runs::Some, Some(2)), 0));
            calls.push(asked_of(&among, &by(Runs::All, None), 0));
        }
    }
    calls
}

/// The two models with actions, some of which are alike in their low byte.
fn acting_models() -> [Model; 2] {
    let actions = [7, 263, 0, 7, 256, 255, 65_535, 1];
    two_models().map(|mut model| {
        for (step, action) in model.transitions.iter_mut().zip(actions) {
            step.action = action;
        }
        model
    })
}

/// EX and AX of an action over every leaf, with bounds on both sides of the weights; and what asks for
/// no action on the same models.
fn operators_of_actions() -> Vec<Call> {
    let leaves = [Row::True, Row::False, Row::Has(0), Row::HasNot(1)];
    let mut calls = vec![];
    for (index, leaf) in leaves.iter().enumerate() {
        for bound in [Some(0), Some(1), Some(2), None] {
            for runs in [Runs::Some, Runs::All] {
                for (state, action) in [0, 1, 7, 255].into_iter().enumerate() {
                    let rows = vec![leaf.clone(), Row::NextBy(runs, action, bound, 0)];
                    let ask = |model: &Model| asked_of(model, &rows, (index + state) % 5);
                    calls.extend(acting_models().iter().map(ask));
                }
            }
        }
    }
    let formulas = over_leaves();
    let some = formulas.iter().enumerate().step_by(7);
    let ask = |(index, rows): (usize, &Formula)| {
        acting_models().map(|model| asked_of(&model, rows, index % 5))
    };
    calls.extend(some.flat_map(ask));
    calls
}

/// Request 1: "at such a state EX is false, AX is true, E until and A until hold exactly when right
/// holds". The same formulas where runs end; walks of two steps to an end, and to one that right
/// doesn't hold at; a fork of which one way ends and the other is endless; and single states.
fn dead_ends() -> Vec<Call> {
    let ask = |(index, rows): (usize, &Formula)| {
        dead_ended().map(|model| asked_of(&model, rows, (index + index / 5) % 5))
    };
    let mut calls: Vec<Call> = over_leaves().iter().enumerate().flat_map(ask).collect();
    for bound in [Some(0), Some(2), Some(3), Some(4), Some(5), Some(6), None] {
        for runs in [Runs::Some, Runs::All] {
            let rows = known::until(runs, bound);
            // where right holds: at the end, before it, at both, nowhere; and left nowhere
            for labels in [[1, 1, 2], [1, 2, 0], [1, 2, 2], [1, 1, 1], [0, 0, 2]] {
                let walk = model(2, &labels, &[(0, 3, 1), (1, 2, 2)]);
                let models = [walk, fork(&labels, None), fork(&labels, Some(1))];
                calls.extend(models.map(|model| asked_of(&model, &rows, 0)));
            }
            // one state, with and without left and right
            for label in 0..4 {
                calls.push(asked_of(&model(2, &[label], &[]), &rows, 0));
            }
        }
    }
    calls
}

/// Two ways from state 0: to state 1, which is dead or goes on for ever, and to state 2, which is
/// dead.
fn fork(labels: &[u32], goes_on: Option<u32>) -> Model {
    let mut steps = vec![(0, 3, 1), (0, 5, 2)];
    steps.extend(goes_on.map(|weight| (1, weight, 1)));
    model(2, labels, &steps)
}

/// Extreme weights and bounds: one transition under EX and AX, and the sum of two under untils.
fn extremes() -> Vec<Call> {
    let mut calls = vec![];
    for weight in EXTREMES {
        for bound in EXTREMES.map(bound_of) {
            for runs in [Runs::Some, Runs::All] {
                let step = model(1, &[0, 1], &[(0, weight, 1), (1, 3, 0)]);
                let rows = vec![Row::Has(0), Row::Next(runs, bound, 0)];
                calls.push(asked_of(&step, &rows, 0));
                calls.extend(EXTREMES.map(|second| sum_under(weight, second, runs, bound)));
            }
        }
        for second in EXTREMES {
            let sum = u64::from(weight) + u64::from(second);
            let near = [sum.wrapping_sub(1), sum, sum % (1 << 32)];
            let fitting = near.iter().filter_map(|bound| u32::try_from(*bound).ok());
            for bound in fitting {
                calls.push(sum_under(weight, second, Runs::Some, Some(bound)));
                calls.push(sum_under(weight, second, Runs::All, Some(bound)));
                calls.push(sum_to_the_end(weight, second, Runs::Some, Some(bound)));
                calls.push(sum_to_the_end(weight, second, Runs::All, Some(bound)));
            }
        }
    }
    calls
}

fn sum_under(first: u32, second: u32, runs: Runs, bound: Bound) -> Call {
    let steps = [(0, first, 1), (1, second, 2), (2, 0, 2)];
    asked_of(&model(2, &[1, 1, 2], &steps), &known::until(runs, bound), 0)
}

/// The same on a run that ends.
fn sum_to_the_end(first: u32, second: u32, runs: Runs, bound: Bound) -> Call {
    let steps = [(0, first, 1), (1, second, 2)];
    asked_of(&model(2, &[1, 1, 2], &steps), &known::until(runs, bound), 0)
}

/// Every fault of the model and of the formula, seen through the verdict.
fn refusals() -> Vec<Call> {
    let (model, formula) = (models::base().bytes, formulas::base().bytes);
    let truth = message::formula(&vec![Row::True]).bytes;
    let mut calls: Vec<Call> = vec![];
    for changed in model_changes() {
        calls.push(asked(&changed, &formula, 1));
    }
    let taken = [
        models::labels(),
        models::dead_states(),
        models::old_versions(),
    ];
    for changed in taken.concat() {
        calls.push(asked(&changed, &truth, 0));
    }
    for changed in formula_changes() {
        calls.push(asked(&model, &changed, 2));
    }
    for p in [0, 1, 2, 3, 32] {
        let with_p = known::model(p, &[0], &[(0, 0, 0)]);
        for proposition in [p.max(1) - 1, p, 31, 32] {
            calls.push(asked_of(
                &with_p,
                &vec![Row::HasNot(proposition as usize)],
                0,
            ));
        }
    }
    calls
}

/// Every field, every cut, every byte and every record of a model.
fn model_changes() -> Vec<Vec<u8>> {
    let base = models::base();
    let parts = [
        models::field_changes(),
        sweep::records(&base),
        sweep::lengths(&base),
        sweep::bytes(&base),
    ];
    parts.concat()
}

/// The same of a formula, and every field of every operator.
fn formula_changes() -> Vec<Vec<u8>> {
    let (base, all) = (formulas::base(), formulas::every_operator());
    let judged = |bytes: &[u8]| bytes::formula(2, bytes).err();
    let parts = [
        formulas::changes(),
        sweep::lengths(&base),
        sweep::bytes(&base),
        vec![all.bytes.clone()],
        sweep::fields(&all, &judged),
    ];
    parts.concat()
}

/// Messages that break each rule, one for each: of the model and of the formula.
fn rule_breakers() -> (Vec<Vec<u8>>, Vec<Vec<u8>>) {
    let models = sweep::one_for_each_rule(&model_changes(), &|bytes| bytes::model(bytes).err());
    let formulas = formula_changes();
    let formulas = sweep::one_for_each_rule(&formulas, &|bytes| bytes::formula(2, bytes).err());
    let rules = |subject: &str| {
        let of_subject = |rule: &&(&str, &str, &str)| rule.0 == subject && rule.2.contains('V');
        RULES.iter().filter(of_subject).count()
    };
    assert_eq!(models.len(), rules("model"), "a rule of models is missing");
    assert_eq!(
        formulas.len(),
        rules("formula"),
        "a rule of formulas is missing"
    );
    (models, formulas)
}

/// "model, formula (with the model's p)": each rule of the one broken together with each rule of the
/// other; each of them with everything else at fault too, and no room; and the messages in each
/// other's place.
fn two_messages() -> Vec<Call> {
    let (model, formula) = (models::base().bytes, formulas::base().bytes);
    let (models, formulas) = rule_breakers();
    let mut calls = vec![
        asked(&formula, &model, 0),
        asked(&model, &model, 0),
        asked(&formula, &formula, 0),
    ];
    for bad_model in &models {
        calls.extend(formulas.iter().map(|bad| asked(bad_model, bad, 0)));
        calls.push(asked_for_nothing(bad_model, &formula));
    }
    for bad_formula in &formulas {
        calls.push(asked_for_nothing(&model, bad_formula));
    }
    calls.push(asked_for_nothing(&model, &formula));
    calls
}

/// A verdict on no state, in no rounds and without room.
fn asked_for_nothing(model: &[u8], formula: &[u8]) -> Call {
    let question = Question {
        model,
        formula,
        state: u32::MAX,
        budget: 0,
    };
    Call::verdict(&question, 0, 0)
}

/// "For a verdict: model, formula (with the model's p), asked state NAME, SIZE, graph room, value
/// room, and only then BUDGET.": every choice of these faults.
fn precedence() -> Vec<Call> {
    (0..128u32)
        .map(|faults| with_faults(|fault| faults >> fault & 1 == 1))
        .collect()
}

fn with_faults(has: impl Fn(u32) -> bool) -> Call {
    let (model, rows) = if has(3) {
        (models::full(44, 44), nested(Runs::Some, None, 31, true))
    } else {
        (known::model_m(), known::until(Runs::Some, Some(2)))
    };
    let (model, formula) = (message::model(&model), message::formula(&rows));
    let (length, values) = needs(&model.bytes, &formula.bytes)
        .map_or((500, 500), |needs| (needs.length, needs.values));
    let damaged = |message: &message::Message, field: usize, number: u32| {
        message.with(message.fields[field], number)
    };
    let question = Question {
        model: &if has(0) {
            damaged(&model, 1, 1)
        } else {
            model.bytes.clone()
        },
        formula: &if has(1) {
            damaged(&formula, 4, 12)
        } else {
            formula.bytes.clone()
        },
        state: if has(2) { 44 } else { 1 },
        budget: if has(6) { 3 } else { 4 },
    };
    Call::verdict(
        &question,
        length - usize::from(has(4)),
        values - usize::from(has(5)),
    )
}

/// A verdict with the largest rooms there are: SIZE where a limit is passed, and ROOM where none is
/// and the graph is too long for any room.
fn asked_in_full_rooms(model: &Model, rows: &Formula) -> Call {
    let (model, formula) = (message::model(model).bytes, message::formula(rows).bytes);
    let question = Question {
        model: &model,
        formula: &formula,
        state: 0,
        budget: u32::MAX,
    };
    Call::verdict(&question, MOST_BYTES, MOST_VALUES)
}

/// One state with so many transitions to itself, of weights 0, 1, 2 and so on: bound k lets k + 1 of
/// them pass.
pub fn loops(transitions: usize) -> Model {
    let steps: Vec<(usize, u32, usize)> = (0..transitions)
        .map(|weight| (0, weight as u32, 0))
        .collect();
    model(0, &[0], &steps)
}

/// A tower of EX or AX rows whose bounds let so many transitions pass.
pub fn passing(runs: Runs, counts: &[usize]) -> Formula {
    let mut rows = vec![Row::True];
    for count in counts {
        rows.push(Row::Next(runs, Some(*count as u32 - 1), rows.len() - 1));
    }
    rows
}

/// Each limit on the graph to be built, on both sides. A limit on c can't be passed before that on
/// n, and one hyperedge can't have too many targets where a model has at most 65,536 bytes.
fn sizes() -> Vec<Call> {
    let mut calls = vec![];
    // n: 64 · 64, 128 · (24 + 8) and 256 · 16 are 4,096; 241 · 17 is 4,097
    calls.push(asked_in_full_rooms(
        &models::full(64, 64),
        &tower(Runs::Some, None, 64),
    ));
    calls.push(asked_in_full_rooms(
        &models::full(65, 65),
        &tower(Runs::Some, None, 64),
    ));
    for (states, untils, unary) in [
        (128, 8, 7),
        (241, 4, 4),
        (256, 5, 0),
        (256, 5, 1),
        (129, 8, 7),
    ] {
        calls.push(asked_in_full_rooms(
            &models::full(states, states),
            &with_unary(untils, unary),
        ));
    }
    // h: 1 + 1,041 · 62 + 992 and one more are 65,535 and 65,536
    for last in [992, 993] {
        let counts = [vec![1_041; 62], vec![last]].concat();
        calls.push(asked_in_full_rooms(
            &loops(1_041),
            &passing(Runs::Some, &counts),
        ));
    }
    // h with E untils: 32 + 31 · (1 + 2,112) is 65,535, and an EX of one transition is one more
    let mut untils = nested(Runs::Some, None, 31, true);
    calls.push(asked_in_full_rooms(&loops(2_112), &untils));
    untils.push(Row::Next(Runs::Some, Some(0), untils.len() - 1));
    calls.push(asked_in_full_rooms(&loops(2_112), &untils));
    // targets: 4,162 · 62 + 4,100 and one more are 262,144 and 262,145
    for last in [4_100, 4_101] {
        let counts = [vec![4_162; 62], vec![last]].concat();
        calls.push(asked_in_full_rooms(
            &loops(4_162),
            &passing(Runs::All, &counts),
        ));
    }
    // targets with A untils: 22 · (2 + 6,500) + 18 · 6,500 + 2,100 and one more
    for last in [2_100, 2_101] {
        let mut rows = nested(Runs::All, None, 22, false);
        for count in [vec![6_500; 18], vec![last]].concat() {
            rows.push(Row::Next(Runs::All, Some(count as u32 - 1), rows.len() - 1));
        }
        calls.push(asked_in_full_rooms(&loops(6_500), &rows));
    }
    calls.extend(sizes_with_a_dead_state());
    calls.extend(sizes_by_action());
    // far past h and targets, with the most transitions of one state that a message can hold
    let most = loops(models::most_transitions(1));
    for runs in [Runs::Some, Runs::All] {
        calls.push(asked_in_full_rooms(&most, &tower(runs, None, 64)));
        calls.push(asked_in_full_rooms(&most, &nested(runs, None, 31, true)));
    }
    // the longest graph in the largest room: 14 + 5 · 4 + 6 · 10,917 is 65,536; one target more
    for last in [2_727, 2_728] {
        calls.push(asked_in_full_rooms(
            &loops(2_730),
            &passing(Runs::All, &[2_730, 2_730, 2_730, last]),
        ));
    }
    calls
}

/// The same limits where a second state is dead: its A helper has one hyperedge with one target, and
/// one more of either would be SIZE.
fn sizes_with_a_dead_state() -> Vec<Call> {
    let mut calls = vec![];
    // h: 1,074 · 60 + 1,088 + 4 + (2 + 1) and one more are 65,535 and 65,536;
    // targets: 4,226 · 60 + 4,281 + (2 + 4,300) + 1 and one more are 262,144 and 262,145
    for (runs, transitions, most, last) in [
        (Runs::Some, 1_089, 1_074, 1_088),
        (Runs::All, 4_300, 4_226, 4_281),
    ] {
        for last in [last, last + 1] {
            let mut rows = passing(runs, &[vec![most; 60], vec![last]].concat());
            rows.push(Row::True);
            rows.push(Row::Until(Runs::All, None, rows.len() - 2, rows.len() - 1));
            let mut with_dead = loops(transitions);
            with_dead.labels.push(0);
            calls.push(asked_in_full_rooms(&with_dead, &rows));
        }
    }
    calls
}

/// The same limits where the last row sees only transitions of its action: the graph that skips no
/// others would pass them. Of 62 rows that see all and one that sees so many, h is 1 + 1,041 · 62 + 992
/// and one more; targets are 4,162 · 62 + 4,100 and one more.
fn sizes_by_action() -> Vec<Call> {
    let mut calls = vec![];
    for (runs, transitions, seen) in [(Runs::Some, 1_041, 992), (Runs::All, 4_162, 4_100)] {
        for seen in [seen, seen + 1] {
            let mut rows = passing(runs, &[transitions; 62]);
            rows.push(Row::NextBy(runs, 1, None, rows.len() - 1));
            let with_actions = loops_of_action(transitions, 1, seen);
            calls.push(asked_in_full_rooms(&with_actions, &rows));
        }
    }
    calls
}

/// The loops, the first so many of an action, the others of one that has the same low byte.
pub fn loops_of_action(transitions: usize, action: u16, seen: usize) -> Model {
    let mut model = loops(transitions);
    for (index, step) in model.transitions.iter_mut().enumerate() {
        step.action = if index < seen { action } else { action + 256 };
    }
    model
}

/// So many nested untils with so many unary rows on top.
pub fn with_unary(untils: usize, unary: usize) -> Formula {
    let mut rows = nested(Runs::Some, None, untils, true);
    for _ in 0..unary {
        rows.push(Row::Next(Runs::All, None, rows.len() - 1));
    }
    rows
}

/// The largest rooms and messages that `trials` has: a small graph in them, the most nodes with a
/// value room of 2n, one less and two less, and two messages of 65,536 bytes.
fn full_rooms() -> Vec<Call> {
    let most = asked_in_full_rooms(&models::full(64, 64), &tower(Runs::Some, None, 64));
    let in_values = |room: usize| {
        let mut call = most.clone();
        call.numbers[3] = room as u32;
        call
    };
    let mut calls: Vec<Call> = known::questions()
        .iter()
        .map(|known| asked_in_full_rooms(&known::model_m(), &known.rows))
        .collect();
    calls.extend([MOST_VALUES - 1, MOST_VALUES - 2].map(in_values));
    let mut long = vec![0; MOST_BYTES];
    calls.push(asked(&long, &long, 0));
    message::mend_length(&mut long);
    calls.push(asked(&long, &long, 0));
    calls.push(asked(&models::base().bytes, &long, 0));
    calls
}

/// The most states, in a row: many rounds, with states and budgets around the last. The last goes on
/// for ever, or is dead. And all of them dead.
fn large() -> Vec<Call> {
    let states = 256;
    let step = |state: usize| (state, u32::MAX, (state + 1).min(states - 1));
    let labels: Vec<u32> = (0..states)
        .map(|state| if state + 1 < states { 1 } else { 2 })
        .collect();
    let row = model(2, &labels, &(0..states).map(step).collect::<Vec<_>>());
    let dead = model(2, &labels, &[]);
    let rows = [
        known::until(Runs::Some, None),
        known::until(Runs::Some, Some(u32::MAX - 1)),
        known::until(Runs::All, None),
    ];
    let mut calls = vec![];
    for model in [ending(row.clone()), row, dead] {
        for (state, rows) in rows.iter().enumerate() {
            let call = asked_of(&model, rows, state);
            let needs = needs(&call.messages[0], &call.messages[1]).expect("a question");
            for budget in [needs.count - 1, needs.count, needs.count + 1] {
                let mut again = call.clone();
                again.numbers[1] = budget;
                calls.push(again);
            }
            calls.push(call);
            calls.extend([254, 255, 256, 257].map(|state| asked_of(&model, rows, state)));
        }
    }
    calls
}
