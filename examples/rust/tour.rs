//! A tour of the library: the paper's graph G, its model M, and the formula E[p0 U<=2 p1]. bindings/check.sh builds and runs it, and
//! compares what it writes with tour.txt.

use otzarvim::{Fault, Rounds, INFINITE};

const GRAPH: [u8; 62] = [
    0, 0, 0, 62, 1, 1, 0, 4, 0, 0, 0, 4, 0, 1, // 62 bytes, version 1, kind 1; 4 nodes, 4 hyperedges, 1 cover edge
    0, 1, 0, 2, 0, 0, 0, 3, 0, 2, 0, 0, 0, 1, 0, 3, // 1 has {(3,2),(1,3)}
    0, 1, 0, 1, 0, 0, 0, 7, 0, 3, // and {(7,3)}
    0, 2, 0, 1, 0, 0, 0, 1, 0, 3, // 2 has {(1,3)}
    0, 3, 0, 0, // 3 has {}
    0, 0, 0, 0, 0, 5, 0, 1, // 0 covers 1 with bound 5
];

const MODEL: [u8; 51] = [
    0, 0, 0, 51, 2, 2, 0, 2, 2, 0, 0, 0, 3, // 51 bytes, version 2, kind 2; 2 states, 2 propositions, 3 transitions
    0, 0, 0, 1, 0, 0, 0, 2, // state 0 has p0, state 1 has p1
    0, 0, 0, 0, 0, 3, 0, 0, 0, 0, // 0 to 0, weight 3, action 0
    0, 0, 0, 0, 0, 2, 0, 0, 0, 1, // 0 to 1, weight 2, action 0
    0, 1, 0, 0, 0, 0, 0, 0, 0, 1, // 1 to 1, weight 0, action 0
];

const FORMULA: [u8; 31] = [
    0, 0, 0, 31, 1, 3, 3, // 31 bytes, version 1, kind 3; 3 rows
    2, 0, 0, 0, 0, 0, 0, 0, // p0
    2, 1, 0, 0, 0, 0, 0, 0, // p1
    8, 0, 1, 0, 0, 0, 0, 2, // E[row 0 U<=2 row 1]
];

fn main() -> Result<(), Fault> {
    let graph = otzarvim::check_graph(&GRAPH)?;
    println!("{graph:?}");

    let nodes = graph.nodes as usize;
    let mut room = vec![0; 2 * nodes];
    for budget in [3, graph.enough()] {
        let rounds = otzarvim::solve(&GRAPH, budget, &mut room)?;
        let (how, count) = match rounds {
            Rounds::Settled { count } => ("settled", count),
            Rounds::Spent { count } => ("spent", count),
        };
        print!("budget {budget}: {how} after {count} rounds:");
        for &value in &room[..nodes] {
            match value {
                INFINITE => print!(" inf"),
                value => print!(" {value}"),
            }
        }
        println!();
    }
    println!("{:?}", otzarvim::settled(&GRAPH)?);
    println!("{:?}", otzarvim::solve(&GRAPH, 4, &mut room[1..]));
    println!("{:?}", otzarvim::check_graph(&GRAPH[..61]));

    let model = otzarvim::check_model(&MODEL)?;
    println!("{model:?}");
    println!("{} rows", otzarvim::check_formula(&FORMULA, model.propositions)?);
    println!("{}", otzarvim::text_of(&FORMULA, model.propositions)?);
    if let Err(fault) = otzarvim::check_formula(&FORMULA, 1) {
        println!("refused {} at {}: {}", fault.refusal.number(), fault.offset, fault.refusal);
    }

    let mut built = [0; 106];
    println!("{:?}", otzarvim::graph(&MODEL, &FORMULA, &mut built[1..]));
    println!("{:?}", otzarvim::check_graph(otzarvim::graph(&MODEL, &FORMULA, &mut built)?)?);

    let mut damaged = MODEL;
    damaged[40] = 2; // the second transition leads to state 2 of 2
    if let Err(fault) = otzarvim::satisfying(&damaged, &FORMULA) {
        println!("{fault}");
    }
    Ok(())
}
