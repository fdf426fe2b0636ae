//! The systematic part for claims: C and W.

use super::{generate, graphs, sweep};
use crate::answer::{Call, MOST_BYTES, MOST_VALUES};
use crate::bytes::{self, Graph};
use crate::claims::{self, Claims};
use crate::known;
use crate::message;
use crate::random::Random;

pub fn calls() -> Vec<Call> {
    let parts = [
        special(),
        huge(),
        refusals(),
        order_of_refusals(),
        rooms(),
        small_graphs(),
        large(),
    ];
    parts.into_iter().flatten().collect()
}

fn check(graph: &Graph, claims: &Claims) -> Call {
    Call::claims(&message::graph(graph).bytes, &claims.write())
}

/// A writer's call with exact rooms where the message is a graph.
fn write_of(message: &[u8]) -> Call {
    let nodes = bytes::graph(message).map_or(3, |graph| graph.nodes);
    Call::certify(claims::CLAIM * nodes, claims::WORDS * nodes, message)
}

fn with(claims: &Claims, change: impl FnOnce(&mut Claims)) -> Claims {
    let mut changed = claims.clone();
    change(&mut changed);
    changed
}

/// Claims around the ranked ones: each value a little more, a little less, infinite, 0 and huge; each rank
/// less, more, and that of another node; all ranks alike and turned round.
pub fn around(claims: &Claims) -> Vec<Claims> {
    let mut all = vec![claims.clone()];
    let nodes = claims.values.len();
    for node in 0..nodes {
        let value = claims.values[node];
        let others = [
            value.map(|number| number + 1),
            value.map(|number| number.saturating_sub(1)),
            None,
            Some(0),
            Some(1),
            Some(u64::MAX - 1),
        ];
        all.extend(others.map(|other| with(claims, |claims| claims.values[node] = other)));
        let rank = claims.ranks[node];
        let next = claims.ranks[(node + 1) % nodes];
        let others = [
            0,
            1,
            rank.saturating_sub(1),
            rank.saturating_add(1),
            next,
            u64::MAX,
        ];
        all.extend(others.map(|other| with(claims, |claims| claims.ranks[node] = other)));
    }
    for rank in [0, 1, u64::MAX] {
        all.push(with(claims, |claims| claims.ranks.fill(rank)));
    }
    all.push(with(claims, |claims| claims.ranks.reverse()));
    all.push(with(claims, |claims| {
        claims
            .ranks
            .iter_mut()
            .for_each(|rank| *rank = u64::MAX - *rank)
    }));
    all.push(with(claims, |claims| claims.values.fill(None)));
    all.push(with(claims, |claims| claims.values.fill(Some(0))));
    all
}

/// The known graphs, and those in which a rule of the checker or of the writer matters.
fn special_graphs() -> Vec<Graph> {
    let mut all: Vec<Graph> = known::graphs()
        .into_iter()
        .map(|known| known.graph)
        .collect();
    all.extend([
        // what obeys and rests on itself
        known::graph(1, &[(0, &[(0, 0)])], &[]),
        known::graph(2, &[(0, &[(0, 1)]), (1, &[(0, 0)])], &[]),
        known::graph(
            2,
            &[(0, &[(0, 1)]), (0, &[(7, 1)]), (1, &[(0, 0)]), (1, &[])],
            &[],
        ),
        known::graph(
            3,
            &[(0, &[(0, 1)]), (0, &[(5, 2)]), (1, &[(0, 0)]), (2, &[])],
            &[],
        ),
        // a hyperedge that gives less, one that gives more, two that give the same
        known::graph(
            2,
            &[(0, &[(3, 1)]), (0, &[(4, 1)]), (0, &[(3, 1)]), (1, &[])],
            &[],
        ),
        known::graph(3, &[(0, &[(3, 1), (5, 2)]), (1, &[]), (2, &[])], &[]),
        // cover edges: two to one node, to an infinite one, of a node with a hyperedge
        known::graph(3, &[(0, &[]), (2, &[])], &[(0, Some(0), 1), (0, None, 2)]),
        known::graph(3, &[(0, &[(2, 2)]), (2, &[])], &[(0, Some(1), 1)]),
        known::graph(
            3,
            &[(1, &[(9, 2)]), (2, &[])],
            &[(0, Some(8), 1), (0, Some(9), 1)],
        ),
        known::graph(
            4,
            &[(3, &[])],
            &[(0, None, 1), (1, None, 2), (2, Some(0), 3)],
        ),
        // cycles: along hyperedges alone, through a cover edge, of a cover edge to its source, past all that is finite
        known::graph(
            3,
            &[(0, &[(1, 1)]), (1, &[(1, 0)]), (1, &[(2, 2)]), (2, &[])],
            &[(0, None, 2)],
        ),
        known::graph(2, &[(1, &[(0, 0)]), (1, &[])], &[(0, None, 1)]),
        known::graph(1, &[], &[(0, None, 0)]),
        known::graph(1, &[(0, &[])], &[(0, Some(0), 0)]),
        known::graph(3, &[(0, &[])], &[(1, None, 2), (2, None, 1)]),
        known::graph(
            4,
            &[(1, &[(0, 2)]), (2, &[(0, 3)]), (3, &[(0, 1)])],
            &[(0, None, 1)],
        ),
        known::graph(
            4,
            &[(1, &[(0, 2)]), (2, &[(0, 3)]), (3, &[(0, 0)])],
            &[(0, None, 1)],
        ),
    ]);
    all
}

fn special() -> Vec<Call> {
    let mut calls = vec![];
    for graph in special_graphs() {
        let claims = claims::ranked(&graph);
        calls.extend(around(&claims).iter().map(|claims| check(&graph, claims)));
        calls.push(write_of(&message::graph(&graph).bytes));
    }
    calls
}

/// Claims near the end of 64 bits: sums that pass it, and what they would be if they wrapped round or were cut off there.
fn huge() -> Vec<Call> {
    let mut calls = vec![];
    let weights = [1, 2, u32::MAX - 1, u32::MAX];
    for weight in weights {
        let graph = known::graph(2, &[(0, &[(weight, 1)])], &[]);
        let unsupported = known::graph(2, &[(0, &[(weight, 1)]), (1, &[(0, 1)])], &[]);
        for below in [1, 2, u64::from(weight), u64::from(weight) + 1] {
            let value = u64::MAX - below;
            let sum = value.wrapping_add(u64::from(weight));
            let others = [
                None,
                Some(sum),
                Some(sum.wrapping_add(1)),
                Some(u64::MAX - 1),
                Some(0),
            ];
            for other in others {
                let other = other.filter(|number| *number != u64::MAX);
                let claims = Claims {
                    values: vec![other, Some(value)],
                    ranks: vec![1, 0],
                };
                calls.push(check(&graph, &claims));
                calls.push(check(&unsupported, &claims));
            }
        }
    }
    calls
}

/// Every field and every record of a graph, with claims of its nodes; and claims of every length around 16n.
fn refusals() -> Vec<Call> {
    let base = graphs::base();
    let graph = bytes::graph(&base.bytes).expect("a graph");
    let claims = claims::ranked(&graph).write();
    let judged = |bytes: &[u8]| bytes::graph(bytes).err();
    let changed = [
        sweep::fields(&base, &judged),
        sweep::lengths(&base),
        sweep::records(&base),
    ];
    let mut calls = vec![];
    for message in sweep::one_for_each_rule(&changed.concat(), &judged) {
        calls.push(Call::claims(&message, &claims));
        calls.push(Call::claims(&message, &claims[1..]));
        calls.push(write_of(&message));
        calls.push(Call::certify(0, 0, &message));
    }
    let around = [0, 1, 8, 15, 16, claims.len() - 16, claims.len() - 1];
    calls.extend(around.map(|length| Call::claims(&base.bytes, &claims[..length])));
    for more in [1, 8, 16] {
        let longer = [&claims[..], &vec![0; more]].concat();
        calls.push(Call::claims(&base.bytes, &longer));
    }
    calls
}

/// The graph, PROFILE, ROOM: every choice among a graph's fault, a cycle, a byte less and a word less.
fn order_of_refusals() -> Vec<Call> {
    let mut calls = vec![];
    for choice in 0..1 << 4 {
        let chosen = |bit: u32| choice >> bit & 1 == 1;
        let back: known::Edge = if chosen(0) {
            (1, &[(0, 0)])
        } else {
            (1, &[(0, 2)])
        };
        let graph = known::graph(3, &[back, (2, &[])], &[(0, None, 1)]);
        let message = message::graph(&graph);
        let bytes = if chosen(3) {
            message.with(message.fields[1], 2)
        } else {
            message.bytes
        };
        let (room, words) = (48 - usize::from(chosen(1)), 24 - usize::from(chosen(2)));
        calls.push(Call::certify(room, words, &bytes));
    }
    calls
}

/// Rooms around what the writer needs, and the largest.
fn rooms() -> Vec<Call> {
    let message = message::graph(&known::graph_g()).bytes;
    let mut calls = vec![];
    for room in [0, 1, 63, 64, 65, 300, MOST_BYTES] {
        for words in [0, 1, 31, 32, 33, 100, MOST_VALUES] {
            calls.push(Call::certify(room, words, &message));
        }
    }
    calls
}

/// Small graphs, the same for each seed: the writer on each, and claims around the ranked ones on some.
fn small_graphs() -> Vec<Call> {
    let mut random = Random::new(6);
    let mut calls = vec![];
    for number in 0..160 {
        let graph = generate::graph(&mut random, 6);
        calls.push(write_of(&message::graph(&graph).bytes));
        let claims = claims::ranked(&graph);
        let all = around(&claims);
        let step = if number < 12 { 1 } else { all.len() };
        calls.extend(all.iter().step_by(step).map(|claims| check(&graph, claims)));
    }
    calls
}

/// Long chains both ways, one that ends in a cover edge, and one whose cycle is all of it.
fn large() -> Vec<Call> {
    let mut graphs = vec![graphs::chain(4_096, 1), graphs::chain(1_000, u32::MAX)];
    let back = |nodes: usize| {
        let targets: Vec<[(u32, usize); 1]> = (0..nodes - 1).map(|node| [(1, node)]).collect();
        let mut edges: Vec<known::Edge> = vec![(0, &[])];
        edges.extend((1..nodes).map(|node| (node, &targets[node - 1][..])));
        known::graph(nodes, &edges, &[])
    };
    graphs.push(back(4_000));
    let mut covered = graphs::chain(900, 2);
    covered.covers = (0..899)
        .map(|source| bytes::Cover {
            source,
            bound: Some(5_000),
            target: source + 1,
        })
        .collect();
    graphs.push(covered.clone());
    covered.covers.push(bytes::Cover {
        source: 899,
        bound: None,
        target: 0,
    });
    graphs.push(covered);
    let mut calls = vec![];
    for graph in &graphs {
        let message = message::graph(graph).bytes;
        let claims = claims::ranked(graph);
        calls.push(write_of(&message));
        if message.len() <= MOST_BYTES && claims.values.len() * claims::CLAIM <= MOST_BYTES {
            calls.push(check(graph, &claims));
            let last = claims.values.len() - 1;
            calls.push(check(
                graph,
                &with(&claims, |claims| claims.ranks[last] = u64::MAX),
            ));
            calls.push(check(
                graph,
                &with(&claims, |claims| claims.values[0] = None),
            ));
        }
    }
    calls
}
