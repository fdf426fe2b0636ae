//! Document 01, "Rounds": values, one round from another, the count and the budget.

use crate::bytes::{Bound, Cover, Graph, Hyperedge};

/// "A value is a whole number or infinity": `None` is infinity.
pub type Value = Option<u64>;

/// "infinity is stored as 18,446,744,073,709,551,615"
pub fn stored(value: Value) -> u64 {
    assert_ne!(
        value,
        Some(u64::MAX),
        "a finite value stands where infinity is stored"
    );
    value.unwrap_or(u64::MAX)
}

/// "Infinity plus any weight is infinity."
pub fn plus(value: Value, weight: u32) -> Value {
    value.map(|number| {
        number
            .checked_add(u64::from(weight))
            .expect("a sum past 64 bits")
    })
}

/// "with bound k has a target of value at most k; with no bound, a target that is finite"
pub fn within(value: Value, bound: Bound) -> bool {
    match (value, bound) {
        (None, _) => false,
        (Some(_), None) => true,
        (Some(number), Some(most)) => number <= u64::from(most),
    }
}

/// The edges of one node.
#[derive(Default)]
struct Edges<'a> {
    hyperedges: Vec<&'a Hyperedge>,
    covers: Vec<&'a Cover>,
}

fn edges_by_node(graph: &Graph) -> Vec<Edges<'_>> {
    let mut nodes: Vec<Edges> = (0..graph.nodes).map(|_| Edges::default()).collect();
    for edge in &graph.hyperedges {
        nodes[edge.source].hyperedges.push(edge);
    }
    for edge in &graph.covers {
        nodes[edge.source].covers.push(edge);
    }
    nodes
}

/// "the greatest weight plus target value. A hyperedge with no target gives 0."
fn greatest(edge: &Hyperedge, before: &[Value]) -> Value {
    let sums = edge
        .targets
        .iter()
        .map(|target| plus(before[target.node], target.weight));
    sums.fold(Some(0), |worst, sum| Some(worst?.max(sum?)))
}

/// "0 if some cover edge of it ..; otherwise the least, over its hyperedges, of the greatest weight
/// plus target value. .. No hyperedge gives infinity."
fn worked_out(edges: &Edges, before: &[Value]) -> Value {
    if edges
        .covers
        .iter()
        .any(|edge| within(before[edge.target], edge.bound))
    {
        return Some(0);
    }
    edges
        .hyperedges
        .iter()
        .filter_map(|edge| greatest(edge, before))
        .min()
}

/// "In round i + 1 each node is worked out from round i only"
pub fn next_round(graph: &Graph, before: &[Value]) -> Vec<Value> {
    edges_by_node(graph)
        .iter()
        .map(|edges| worked_out(edges, before))
        .collect()
}

/// What stands after the work: m, whether round m changed nothing more, rounds m and m + 1.
pub struct Report {
    pub rounds: u32,
    pub settled: bool,
    pub at: Vec<Value>,
    pub after: Vec<Value>,
}

/// "Work stops at the first round that changes nothing or when the budget is spent: with m the
/// smaller of count and budget, the first n numbers of the value room hold round m, the next n hold
/// round m + 1, and m is reported."
pub fn run(graph: &Graph, budget: u32) -> Report {
    let nodes = edges_by_node(graph);
    let mut at: Vec<Value> = vec![None; graph.nodes];
    let mut rounds = 0;
    loop {
        let after: Vec<Value> = nodes.iter().map(|edges| worked_out(edges, &at)).collect();
        let settled = at == after;
        if settled || rounds == budget {
            check_count(graph, rounds);
            return Report {
                rounds,
                settled,
                at,
                after,
            };
        }
        at = after;
        rounds += 1;
    }
}

/// A budget of n(c + 1) must suffice for every graph; and "on a graph where no cycle passes through a
/// cover edge the count is at most n" (document 02, request 5).
fn check_count(graph: &Graph, rounds: u32) {
    let most = graph.nodes as u64 * (graph.covers.len() as u64 + 1);
    assert!(u64::from(rounds) <= most, "{rounds} rounds on {graph:?}");
    assert!(
        rounds as usize <= graph.nodes || has_cover_cycle(graph),
        "{rounds} rounds on {graph:?}"
    );
}

/// "a cycle going from a source to any target of its hyperedges or cover edges"
pub fn has_cover_cycle(graph: &Graph) -> bool {
    let nodes = edges_by_node(graph);
    graph
        .covers
        .iter()
        .any(|edge| reached(&nodes, edge.target)[edge.source])
}

/// The nodes that walks from a node lead to, itself among them.
fn reached(nodes: &[Edges], from: usize) -> Vec<bool> {
    let mut seen = vec![false; nodes.len()];
    let mut waiting = vec![from];
    while let Some(node) = waiting.pop() {
        if !seen[node] {
            seen[node] = true;
            let along = nodes[node].hyperedges.iter().flat_map(|edge| &edge.targets);
            waiting.extend(along.map(|target| target.node));
            waiting.extend(nodes[node].covers.iter().map(|edge| edge.target));
        }
    }
    seen
}

impl Report {
    /// The first 2n numbers of the value room.
    pub fn numbers(&self) -> Vec<u64> {
        self.at
            .iter()
            .chain(&self.after)
            .map(|value| stored(*value))
            .collect()
    }
}
