//! Request 6: claims about a graph, a value and a rank for each node; a checker of claims and a writer
//! of such that it accepts. "A support is a hyperedge that gives exactly its value, or a cover edge
//! that holds, all of whose targets have a smaller rank."

use crate::bytes::{self, Cover, Graph, Hyperedge};
use crate::refusal::{Fault, Number, CALL};
use crate::rounds::{self, stored, Value};

/// "for each node, a claimed value and a rank (8 bytes each)"
#[derive(Clone, PartialEq, Eq, Debug)]
pub struct Claims {
    pub values: Vec<Value>,
    pub ranks: Vec<u64>,
}

/// The bytes of a node's claim, and the words that are lent for a node.
pub const CLAIM: usize = 16;
pub const WORDS: usize = 8;

fn long(bytes: &[u8]) -> u64 {
    u64::from_be_bytes(bytes.try_into().expect("8 bytes"))
}

impl Claims {
    /// Node 0 first: the value (8), then the rank (8), big-endian.
    pub fn read(bytes: &[u8]) -> Claims {
        let nodes = || bytes.chunks(CLAIM);
        Claims {
            values: nodes()
                .map(|claim| Some(long(&claim[..8])).filter(|number| *number != u64::MAX))
                .collect(),
            ranks: nodes().map(|claim| long(&claim[8..])).collect(),
        }
    }

    pub fn write(&self) -> Vec<u8> {
        let claim = |(value, rank): (&Value, &u64)| {
            [stored(*value).to_be_bytes(), rank.to_be_bytes()].concat()
        };
        self.values
            .iter()
            .zip(&self.ranks)
            .flat_map(claim)
            .collect()
    }

    /// What a hyperedge gives: the greatest weight plus claimed value, of any size; None is infinity.
    fn gives(&self, edge: &Hyperedge) -> Option<u128> {
        let sum = |weight: u32, value: Value| Some(u128::from(value?) + u128::from(weight));
        let sums = edge
            .targets
            .iter()
            .map(|target| sum(target.weight, self.values[target.node]));
        sums.fold(Some(0), |worst, sum| Some(worst?.max(sum?)))
    }

    fn holds(&self, cover: &Cover) -> bool {
        rounds::within(self.values[cover.target], cover.bound)
    }

    fn value(&self, node: usize) -> Option<u128> {
        self.values[node].map(u128::from)
    }

    /// "the claims obey the rules": working out a round from them gives them back.
    pub fn obey(&self, graph: &Graph) -> bool {
        let mut round: Vec<Option<u128>> = vec![None; graph.nodes];
        for edge in &graph.hyperedges {
            let least = [round[edge.source], self.gives(edge)];
            round[edge.source] = least.into_iter().flatten().min();
        }
        for cover in graph.covers.iter().filter(|cover| self.holds(cover)) {
            round[cover.source] = Some(0);
        }
        (0..graph.nodes).all(|node| round[node] == self.value(node))
    }

    /// The nodes that have a support.
    fn supported(&self, graph: &Graph) -> Vec<bool> {
        let mut found = vec![false; graph.nodes];
        for edge in &graph.hyperedges {
            let lower = |node: usize| self.ranks[node] < self.ranks[edge.source];
            let exact = self.gives(edge) == self.value(edge.source);
            found[edge.source] |= exact && edge.targets.iter().all(|target| lower(target.node));
        }
        for cover in graph.covers.iter().filter(|cover| self.holds(cover)) {
            found[cover.source] |= self.ranks[cover.target] < self.ranks[cover.source];
        }
        found
    }

    /// "it accepts exactly when the claims obey the rules and each finite node has a support"
    pub fn accepted(&self, graph: &Graph) -> bool {
        let supported = self.supported(graph);
        self.obey(graph)
            && (0..graph.nodes).all(|node| self.values[node].is_none() || supported[node])
    }
}

/// "Claims of the wrong length are LENGTH; the graph is checked first". What is accepted must be the
/// settled values.
pub fn check(message: &[u8], claims: &[u8]) -> Result<bool, Fault> {
    let graph = bytes::graph(message)?;
    CALL.demand(
        claims.len() == CLAIM * graph.nodes,
        Number::Length,
        "claims' length",
    )?;
    let claims = Claims::read(claims);
    let accepted = claims.accepted(&graph);
    if accepted {
        let settled = rounds::run(&graph, u32::MAX).at;
        assert_eq!(claims.values, settled, "accepted of {graph:?}");
    }
    Ok(accepted)
}

/// The nodes that a walk of no step or more reaches, "a cycle going from a source to any target of its
/// hyperedges or cover edges".
fn reached(steps: &[Vec<usize>], from: usize) -> Vec<bool> {
    let mut seen = vec![false; steps.len()];
    let mut waiting = vec![from];
    while let Some(node) = waiting.pop() {
        if !std::mem::replace(&mut seen[node], true) {
            waiting.extend(&steps[node]);
        }
    }
    seen
}

/// "PROFILE if there is such a cycle": one that passes through a cover edge.
pub fn has_cycle(graph: &Graph) -> bool {
    let mut steps: Vec<Vec<usize>> = vec![vec![]; graph.nodes];
    for edge in &graph.hyperedges {
        steps[edge.source].extend(edge.targets.iter().map(|target| target.node));
    }
    for cover in &graph.covers {
        steps[cover.source].push(cover.target);
    }
    let mut by_target: Vec<Vec<usize>> = vec![vec![]; graph.nodes];
    for cover in &graph.covers {
        by_target[cover.target].push(cover.source);
    }
    (0..graph.nodes).any(|target| {
        let sources = &by_target[target];
        !sources.is_empty() && {
            let seen = reached(&steps, target);
            sources.iter().any(|source| seen[*source])
        }
    })
}

/// The settled values, ranked in passes: a node gets the number of the first pass before which it has
/// an edge that gives its value, all of whose targets are ranked. u64::MAX is no rank.
pub fn ranked(graph: &Graph) -> Claims {
    let mut claims = Claims {
        values: rounds::run(graph, u32::MAX).at,
        ranks: vec![u64::MAX; graph.nodes],
    };
    for pass in 0.. {
        let supported = claims.supported(graph);
        let fresh: Vec<usize> = (0..graph.nodes)
            .filter(|node| claims.ranks[*node] == u64::MAX && supported[*node])
            .collect();
        if fresh.is_empty() {
            break;
        }
        fresh.iter().for_each(|node| claims.ranks[*node] = pass);
    }
    claims
}

/// "after the graph's checks, PROFILE if there is such a cycle, then ROOM if fewer than 16n bytes for
/// claims or 8n lent 64-bit words, which are zero afterwards; the rest stay."
pub fn write(message: &[u8], room: &mut [u8], words: &mut [u64]) -> Result<Graph, Fault> {
    let graph = bytes::graph(message)?;
    CALL.demand(
        !has_cycle(&graph),
        Number::Profile,
        "cycle through a cover edge",
    )?;
    let (bytes, numbers) = (CLAIM * graph.nodes, WORDS * graph.nodes);
    CALL.demand(bytes <= room.len(), Number::Room, "claims room")?;
    CALL.demand(numbers <= words.len(), Number::Room, "writer's words")?;
    let claims = ranked(&graph);
    assert!(claims.accepted(&graph), "not accepted of {graph:?}");
    room[..bytes].copy_from_slice(&claims.write());
    words[..numbers].fill(0);
    Ok(graph)
}
