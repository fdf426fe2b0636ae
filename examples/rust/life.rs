//! The question of README.md: is every run from a failed guard back in the interpreter within 42 instructions? And within 41? And is that so
//! whichever guard fails?
//! bindings/check.sh builds and runs it, and compares what it writes with life.txt.
//!
//! The bytes are those of
//! `tools/otz compile examples/formula_life.otz 'A[true U<=42 interpreted]' -o - | od -An -v -tu1`

use otzarvim::{Answer, Fault, Verdict, MOST_GRAPH, MOST_ROUNDS, MOST_VALUES};

const NAMES: [&str; 6] = ["cold", "hot", "speculated", "guard_failed", "interpreted", "retired"];
const SPECULATED: u32 = 2;
const GUARD_FAILED: u32 = 3;

const MODEL: [u8; 147] = [
    0, 0, 0, 147, 2, 2, 0, 6, 2, 0, 0, 0, 11, // 147 bytes, version 2, kind 2; 6 states, 2 propositions, 11 transitions
    0, 0, 0, 0, 0, 0, 0, 0, 0, 0, 0, 1, // p0 is compiled, and holds in speculated
    0, 0, 0, 0, 0, 0, 0, 2, // p1 is interpreted, and holds there
    0, 0, 0, 0, // nothing holds in retired, and no transition leaves it
    0, 0, 0, 0, 0, 30, 0, 1, 0, 4, // cold to interpreted, 30 instructions: load
    0, 1, 0, 0, 0, 90, 0, 5, 0, 2, // hot to speculated: compile
    0, 1, 0, 0, 0, 25, 0, 6, 0, 4, // hot to interpreted: give_up
    0, 1, 0, 0, 0, 6, 0, 7, 0, 5, // hot to retired: retire
    0, 2, 0, 0, 0, 4, 0, 8, 0, 2, // speculated to itself: stay
    0, 2, 0, 0, 0, 7, 0, 9, 0, 3, // speculated to guard_failed: fail
    0, 3, 0, 0, 0, 35, 0, 10, 0, 4, // guard_failed to interpreted: rebuild
    0, 3, 0, 0, 0, 12, 0, 11, 0, 0, // guard_failed to cold: discard
    0, 4, 0, 0, 0, 20, 0, 2, 0, 4, // interpreted to itself: interpret
    0, 4, 0, 0, 0, 1, 0, 3, 0, 0, // interpreted to cold: put_away
    0, 4, 0, 0, 0, 2, 0, 4, 0, 1, // interpreted to hot: heat
];

/// A[true U<=bound interpreted]
fn formula(bound: u8) -> [u8; 31] {
    [
        0, 0, 0, 31, 1, 3, 3, // 31 bytes, version 1, kind 3; 3 rows
        0, 0, 0, 0, 0, 0, 0, 0, // true
        2, 1, 0, 0, 0, 0, 0, 0, // p1
        9, 0, 1, 0, 0, 0, 0, bound, // A[row 0 U<=bound row 1]
    ]
}

/// The same with 42, under an AX that looks at the steps of one event alone.
const RECOVERS: [u8; 39] = [
    0, 0, 0, 39, 1, 3, 4, // 39 bytes, version 1, kind 3; 4 rows
    0, 0, 0, 0, 0, 0, 0, 0, // true
    2, 1, 0, 0, 0, 0, 0, 0, // p1
    9, 0, 1, 0, 0, 0, 0, 42, // A[row 0 U<=42 row 1]
    11, 2, 9, 0, 255, 255, 255, 255, // AX#9 row 2: action 9 is fail, and there is no bound
];

fn ask(words: &str, formula: &[u8], state: u32) -> Result<(), Fault> {
    // Rooms that suffice for any question.
    let (mut bytes, mut values) = (vec![0; MOST_GRAPH], vec![0; MOST_VALUES]);
    print!("{words} from {}: ", NAMES[state as usize]);
    match otzarvim::verdict(&MODEL, formula, state, MOST_ROUNDS, &mut bytes, &mut values)? {
        Answer::Decided { verdict, count, length } => {
            let word = if verdict == Verdict::Yes { "yes" } else { "no" };
            println!("{word}, after {count} rounds on a graph of {length} bytes");
        }
        Answer::Spent { count, .. } => println!("not settled after {count} rounds"),
    }
    Ok(())
}

fn main() -> Result<(), Fault> {
    ask("A[true U<=42 interpreted]", &formula(42), GUARD_FAILED)?;
    ask("A[true U<=41 interpreted]", &formula(41), GUARD_FAILED)?;
    ask("AX#fail A[true U<=42 interpreted]", &RECOVERS, SPECULATED)?;

    // All states at once, within 41, in rooms of its own.
    for (name, yes) in NAMES.iter().zip(otzarvim::satisfying(&MODEL, &formula(41))?) {
        println!("{name} {}", if yes { "yes" } else { "no" });
    }
    Ok(())
}
