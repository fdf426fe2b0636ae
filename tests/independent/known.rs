//! Document 01, "Known graphs and models", and small ways to write down graphs, models and formulas.

use crate::bytes::{Bound, Cover, Graph, Hyperedge, Model, Row, Runs, Target, Transition};
use crate::rounds::Value;

pub type Edge<'a> = (usize, &'a [(u32, usize)]);

/// A graph from hyperedges (source, targets) and cover edges (source, bound, target).
pub fn graph(nodes: usize, hyperedges: &[Edge], covers: &[(usize, Bound, usize)]) -> Graph {
    let target = |&(weight, node): &(u32, usize)| Target { weight, node };
    let hyperedge = |&(source, targets): &Edge| {
        let targets = targets.iter().map(target).collect();
        Hyperedge { source, targets }
    };
    let cover = |&(source, bound, target): &(usize, Bound, usize)| Cover {
        source,
        bound,
        target,
    };
    Graph {
        nodes,
        hyperedges: hyperedges.iter().map(hyperedge).collect(),
        covers: covers.iter().map(cover).collect(),
    }
}

/// A model from its labels and transitions (from, weight, to), of action 0.
pub fn model(propositions: u32, labels: &[u32], transitions: &[(usize, u32, usize)]) -> Model {
    let step = |&(from, weight, to): &(usize, u32, usize)| (from, weight, 0, to);
    let transitions: Vec<Step> = transitions.iter().map(step).collect();
    acting(propositions, labels, &transitions)
}

/// From, weight, action, to.
pub type Step = (usize, u32, u16, usize);

/// A model from its labels and transitions with actions.
pub fn acting(propositions: u32, labels: &[u32], transitions: &[Step]) -> Model {
    let step = |&(from, weight, action, to): &Step| Transition {
        from,
        weight,
        action,
        to,
    };
    Model {
        propositions,
        labels: labels.to_vec(),
        transitions: transitions.iter().map(step).collect(),
    }
}

/// A known graph, its settled values and its count.
pub struct Known {
    pub name: &'static str,
    pub graph: Graph,
    pub values: Vec<Value>,
    pub count: u32,
}

const INF: Value = None;

fn fin(number: u64) -> Value {
    Some(number)
}

/// "Graph G: 0 covers 1 with bound 5; 1 has {(3,2),(1,3)} and {(7,3)}; 2 has {(1,3)}; 3 has {}."
pub fn graph_g() -> Graph {
    let hyperedges: [Edge; 4] = [
        (1, &[(3, 2), (1, 3)]),
        (1, &[(7, 3)]),
        (2, &[(1, 3)]),
        (3, &[]),
    ];
    graph(4, &hyperedges, &[(0, Some(5), 1)])
}

/// "Its 62 bytes in hex"
pub const GRAPH_G_HEX: &str = "0000003E 01 01 0004 00000004 0001 \
    0001 0002 00000003 0002 00000001 0003 \
    0001 0001 00000007 0003 0002 0001 00000001 0003 0003 0000 0000 00000005 0001";

/// "T1 to T4: G in rounds 1, 2, 3, 4"
pub fn rounds_of_g() -> [[Value; 4]; 4] {
    [
        [INF, INF, INF, fin(0)],
        [INF, fin(7), fin(1), fin(0)],
        [INF, fin(4), fin(1), fin(0)],
        [fin(0), fin(4), fin(1), fin(0)],
    ]
}

fn known(name: &'static str, graph: Graph, values: &[Value], count: u32) -> Known {
    Known {
        name,
        graph,
        values: values.to_vec(),
        count,
    }
}

/// T4 to T12 and the graph marked "Run" whose weights don't fit 32 bits when added.
pub fn graphs() -> Vec<Known> {
    let big = u32::MAX;
    vec![
        known("T4", graph_g(), &rounds_of_g()[3], 4),
        known("T5", graph(1, &[], &[]), &[INF], 0),
        known("T6", graph(1, &[(0, &[])], &[]), &[fin(0)], 1),
        known("T7", graph(1, &[(0, &[(0, 0)])], &[]), &[INF], 0),
        known("T8", graph(2, &[], &[(0, None, 1)]), &[INF, INF], 0),
        known(
            "T9",
            graph(2, &[(1, &[])], &[(0, None, 1)]),
            &[fin(0), fin(0)],
            2,
        ),
        known("T10", chain_of_t10(5, false), &[fin(0), fin(5), fin(0)], 3),
        known("T11", chain_of_t10(4, false), &[INF, fin(5), fin(0)], 2),
        known("T12", chain_of_t10(5, true), &[fin(0), fin(0), fin(0)], 4),
        known(
            "Run",
            graph(3, &[(0, &[(big, 1)]), (1, &[(big, 2)]), (2, &[])], &[]),
            &[fin(8_589_934_590), fin(4_294_967_295), fin(0)],
            3,
        ),
    ]
}

/// "T10: 0 covers 1 with bound 5; 1 has {(5,2)}; 2 has {}"; "T12: T10 where 1 has also {(0,0)}"
fn chain_of_t10(bound: u32, back: bool) -> Graph {
    let covers = [(0, Some(bound), 1)];
    if back {
        graph(3, &[(1, &[(5, 2)]), (1, &[(0, 0)]), (2, &[])], &covers)
    } else {
        graph(3, &[(1, &[(5, 2)]), (2, &[])], &covers)
    }
}

/// "Model M: state 0 has p0, state 1 has p1; transitions 0 to 0 weight 3, 0 to 1 weight 2, 1 to 1
/// weight 0." Each has action 0.
pub fn model_m() -> Model {
    model(2, &[1, 2], &[(0, 3, 0), (0, 2, 1), (1, 0, 1)])
}

/// p0 until p1.
pub fn until(runs: Runs, bound: Bound) -> Vec<Row> {
    vec![Row::Has(0), Row::Has(1), Row::Until(runs, bound, 0, 1)]
}

/// A known question on model M: the formula, the answers of states 0 and 1, and the count.
pub struct KnownQuestion {
    pub name: &'static str,
    pub rows: Vec<Row>,
    pub yes: [bool; 2],
    pub count: u32,
}

/// T13 to T15.
pub fn questions() -> Vec<KnownQuestion> {
    let question = |name, rows, yes, count| KnownQuestion {
        name,
        rows,
        yes,
        count,
    };
    vec![
        question("T13", until(Runs::Some, Some(2)), [true, true], 4),
        question("T14", until(Runs::Some, Some(1)), [false, true], 3),
        question("T15", until(Runs::All, None), [false, true], 3),
    ]
}

/// "T13: E[p0 U<=2 p1]: values (0,inf,inf,0,0,0,2,0)"
pub fn values_of_t13() -> [Value; 8] {
    [fin(0), INF, INF, fin(0), fin(0), fin(0), fin(2), fin(0)]
}
