//! The systematic part for graph messages: G and R.

use super::generate::EXTREMES;
use super::{damage, sweep};
use crate::answer::{Call, MOST_VALUES};
use crate::bytes::{self, bound_of, Bound, Cover, Graph, Hyperedge, Target};
use crate::known::{self, graph};
use crate::message::{self, Message};
use crate::rounds;

pub fn calls() -> Vec<Call> {
    let parts = [
        known_graphs(),
        special_graphs(),
        extremes(),
        refusals(),
        room_before_budget(),
        large(),
        many_targets(),
        many_changes(),
        several_at_once(),
    ];
    parts.into_iter().flatten().collect()
}

/// The numbers that the rounds on a graph need: 2n, and the count.
pub fn needs(graph: &Graph) -> (usize, u32) {
    (2 * graph.nodes, rounds::run(graph, u32::MAX).rounds)
}

/// Rounds on any message: with exact room and ample budget where it is a graph.
fn rounds_on(message: &[u8]) -> Call {
    let room = bytes::graph(message).map_or(10, |graph| 2 * graph.nodes);
    Call::rounds(u32::MAX, room, message)
}

/// A graph checked, and its rounds with budgets around the count and rooms around 2n.
fn around(graph: &Graph) -> Vec<Call> {
    let message = message::graph(graph).bytes;
    let (room, count) = needs(graph);
    let mut budgets: Vec<u32> = (0..=count.min(6)).collect();
    budgets.extend([count.saturating_sub(1), count, count + 1, 1 << 31, u32::MAX]);
    budgets.sort_unstable();
    budgets.dedup();
    let mut calls = vec![Call::graph(&message)];
    calls.extend(
        budgets
            .iter()
            .map(|budget| Call::rounds(*budget, room, &message)),
    );
    for other in [0, 1, room - 1, room + 1, room + 9] {
        calls.push(Call::rounds(count, other, &message));
    }
    calls
}

fn known_graphs() -> Vec<Call> {
    known::graphs()
        .iter()
        .flat_map(|known| around(&known.graph))
        .collect()
}

/// Graphs in which one rule of the rounds matters.
fn special_graphs() -> Vec<Call> {
    let mut graphs = vec![
        // a node that covers itself, with and without a value of its own
        graph(1, &[], &[(0, None, 0)]),
        graph(1, &[(0, &[])], &[(0, None, 0)]),
        graph(2, &[(0, &[(5, 1)]), (1, &[])], &[(0, Some(4), 0)]),
        graph(2, &[(0, &[(5, 1)]), (1, &[])], &[(0, Some(5), 0)]),
        // cover edges in a cycle
        graph(2, &[], &[(0, None, 1), (1, None, 0)]),
        graph(
            3,
            &[(1, &[(2, 2)]), (2, &[])],
            &[(0, Some(2), 1), (1, Some(0), 0)],
        ),
        // a cover edge beside hyperedges: it holds, it doesn't, it holds later
        graph(2, &[(0, &[(9, 1)]), (1, &[])], &[(0, Some(0), 1)]),
        graph(
            3,
            &[(0, &[(9, 2)]), (1, &[(3, 2)]), (2, &[])],
            &[(0, Some(2), 1)],
        ),
        graph(
            3,
            &[(0, &[(9, 2)]), (1, &[(3, 2)]), (2, &[])],
            &[(0, Some(3), 1)],
        ),
        // several cover edges of one node, the last of which holds; repeated records
        graph(
            3,
            &[(1, &[(4, 2)]), (2, &[])],
            &[(0, Some(3), 1), (0, None, 0), (0, Some(4), 1)],
        ),
        graph(
            2,
            &[
                (0, &[(1, 1), (1, 1)]),
                (0, &[(1, 1), (1, 1)]),
                (1, &[]),
                (1, &[]),
            ],
            &[],
        ),
        // one target infinite, first or last; all of the hyperedges infinite but one
        graph(3, &[(0, &[(1, 1), (1, 2)]), (2, &[])], &[]),
        graph(3, &[(0, &[(1, 2), (1, 1)]), (2, &[])], &[]),
        graph(
            3,
            &[(0, &[(1, 1)]), (0, &[(8, 2)]), (0, &[(1, 0)]), (2, &[])],
            &[],
        ),
        // zero cycles with and without a way out
        graph(2, &[(0, &[(0, 1)]), (1, &[(0, 0)])], &[]),
        graph(
            3,
            &[(0, &[(0, 1)]), (1, &[(0, 0)]), (1, &[(6, 2)]), (2, &[])],
            &[],
        ),
        // a hyperedge without targets beside a dearer one
        graph(2, &[(0, &[(7, 1)]), (0, &[]), (1, &[])], &[]),
    ];
    graphs.push(chain(60, 3));
    graphs.extend([staged(2, 2), staged(4, 5), staged(9, 12)]);
    graphs.iter().flat_map(around).collect()
}

/// Nodes in a row, the last of value 0: a count of as many rounds as nodes.
pub fn chain(nodes: usize, weight: u32) -> Graph {
    let edge = |source: usize| {
        let next = Target {
            weight,
            node: source + 1,
        };
        Hyperedge {
            source,
            targets: if source + 1 < nodes {
                vec![next]
            } else {
                vec![]
            },
        }
    };
    Graph {
        nodes,
        hyperedges: (0..nodes).map(edge).collect(),
        covers: vec![],
    }
}

/// A chain whose end gets cheaper in stages: each cover edge waits until the whole chain has
/// settled, and then starts it anew. The count is about stages times length.
pub fn staged(stages: usize, length: usize) -> Graph {
    let price = |stage: usize| 100 * (stages - stage) as u32;
    let switch = |stage: usize| length + stage;
    let mut graph = chain(length, 1);
    graph.nodes = length + stages;
    let end = |stage: usize| Hyperedge {
        source: length - 1,
        targets: vec![Target {
            weight: price(stage),
            node: switch(stage),
        }],
    };
    graph.hyperedges.pop();
    graph.hyperedges.extend((0..stages).map(end));
    graph.hyperedges.push(Hyperedge {
        source: switch(0),
        targets: vec![],
    });
    let settled = |stage: usize| Some(length as u32 - 1 + price(stage - 1));
    let cover = |stage: usize| Cover {
        source: switch(stage),
        bound: settled(stage),
        target: 0,
    };
    graph.covers = (1..stages).map(cover).collect();
    graph
}

/// Extreme weights and bounds: a sum of two weights under every bound, from both sides.
fn extremes() -> Vec<Call> {
    let mut calls = vec![];
    for first in EXTREMES {
        for second in EXTREMES {
            for bound in EXTREMES {
                calls.push(rounds_on(&sum_under(first, second, bound_of(bound))));
            }
            let sum = u64::from(first) + u64::from(second);
            let near = [sum.wrapping_sub(1), sum, sum + 1, sum % (1 << 32)];
            let fitting = near.iter().filter_map(|bound| u32::try_from(*bound).ok());
            calls.extend(fitting.map(|bound| rounds_on(&sum_under(first, second, Some(bound)))));
        }
    }
    calls
}

fn sum_under(first: u32, second: u32, bound: Bound) -> Vec<u8> {
    let edges: [known::Edge; 3] = [(1, &[(first, 2)]), (2, &[(second, 3)]), (3, &[])];
    message::graph(&graph(4, &edges, &[(0, bound, 1)])).bytes
}

/// A graph with records of every shape, two of them from one source in each list.
pub fn base() -> Message {
    let edges: [known::Edge; 4] = [(0, &[(2, 1), (0, 2)]), (1, &[]), (1, &[(7, 2)]), (3, &[])];
    let covers = [(0, Some(5), 1), (2, None, 0), (2, Some(1), 3)];
    message::graph(&graph(4, &edges, &covers))
}

/// Every field, every two faults, every cut, every byte and every record of a graph.
fn refusals() -> Vec<Call> {
    let base = base();
    let judged = |bytes: &[u8]| bytes::graph(bytes).err();
    let mut messages = sweep::fields(&base, &judged);
    let mut calls: Vec<Call> = messages.iter().map(|message| rounds_on(message)).collect();
    let lengths = sweep::lengths(&base);
    calls.extend(lengths.iter().step_by(5).map(|message| rounds_on(message)));
    let records = sweep::records(&base);
    calls.extend(records.iter().map(|message| rounds_on(message)));
    messages.extend(lengths);
    messages.extend(sweep::bytes(&base));
    messages.extend(records);
    messages.extend(sweep::pairs(&base, &judged));
    calls.extend(messages.iter().map(|message| Call::graph(message)));
    calls
}

/// "For rounds on a graph: the graph, value room, BUDGET." Each with and without the others.
fn room_before_budget() -> Vec<Call> {
    let good = message::graph(&known::graph_g());
    let bad = good.with(good.fields[1], 2);
    let mut calls = vec![];
    for message in [&good.bytes, &bad] {
        for room in [8, 7] {
            for budget in [4, 3] {
                calls.push(Call::rounds(budget, room, message));
            }
        }
    }
    calls
}

/// Messages at the limits of the table, as far as 65,536 bytes can hold them.
fn large() -> Vec<Call> {
    let mut calls = vec![];
    for nodes in [4_095, 4_096, 4_097] {
        let last = nodes - 1;
        let small = graph(nodes, &[(0, &[(6, last)]), (last, &[])], &[(1, Some(6), 0)]);
        let message = message::graph(&small).bytes;
        calls.push(Call::graph(&message));
        for room in [
            MOST_VALUES,
            MOST_VALUES - 1,
            MOST_VALUES - 2,
            MOST_VALUES - 3,
        ] {
            calls.push(Call::rounds(9, room, &message));
        }
    }
    calls.push(Call::rounds(
        5,
        MOST_VALUES,
        &message::graph(&chain(4_096, u32::MAX)).bytes,
    ));
    calls.push(rounds_on(&message::graph(&chain(300, u32::MAX)).bytes));
    calls.push(rounds_on(&message::graph(&covered(4_096)).bytes));
    calls.push(Call::graph(&message::graph(&covered(4_097)).bytes));
    calls.push(Call::graph(&message::graph(&wide(10_919)).bytes));
    let full = message::graph(&full());
    calls.push(rounds_on(&full.bytes));
    calls.push(Call::graph(&damage::cut(&full, full.bytes.len() - 1, true)));
    calls
}

/// More than 4,096 targets, where an implementation may give up a chain for each node: hyperedges with
/// very many targets before, behind, among and far from short ones; lost at their first target in every
/// round, or never; one node changes in a round, or all do; 63 and 64 targets, of 128 and 129 nodes.
fn many_targets() -> Vec<Call> {
    let mut graphs = vec![];
    for (lost, heavy) in [(true, false), (false, true)] {
        let first = ranged(150, &[(0, 30)], 150, lost, heavy);
        let among: Vec<(usize, usize)> = (1..148).step_by(3).map(|source| (source, 1)).collect();
        graphs.push(reversed(&first));
        graphs.push(first);
        graphs.push(ranged(150, &among, 90, lost, heavy));
        graphs.push(ranged(1_200, &[(2, 3), (1_150, 3)], 700, lost, heavy));
    }
    for nodes in [128, 129] {
        graphs.push(ranged(nodes, &[(1, 35), (nodes - 5, 35)], 64, true, false));
        graphs.push(ranged(nodes, &[(1, 35), (nodes - 5, 35)], 63, false, true));
    }
    let budgets = |graph: &Graph| [u32::MAX, 5, needs(graph).1 - 1];
    let calls = |graph: &Graph| {
        let message = message::graph(graph).bytes;
        let room = 2 * graph.nodes;
        budgets(graph).map(|budget| Call::rounds(budget, room, &message))
    };
    graphs.iter().flat_map(calls).collect()
}

/// More than 4,096 targets again, where a layer of nodes changes in a round and then, if there is a tail,
/// one node in each: an implementation may take in every record as long as many nodes change, so it
/// settles there or goes on otherwise. The budget ends among the ones, among the others, or not at all.
fn many_changes() -> Vec<Call> {
    let graphs = [
        layered(8, 64, 10, 0),
        layered(8, 64, 10, 25),
        reversed(&layered(8, 64, 10, 25)),
        layered(3, 70, 40, 1),
    ];
    let calls = |graph: &Graph| {
        let message = message::graph(graph).bytes;
        let (room, count) = needs(graph);
        let budgets = [1, 2, count / 2, count - 1, count, u32::MAX];
        budgets.map(|budget| Call::rounds(budget, room, &message))
    };
    graphs.iter().flat_map(calls).collect()
}

/// Layers of nodes, each with a hyperedge to some of the next layer, whose last one has 0; a chain of so many nodes
/// leads to the first of them. Cover edges lead from the first layer to the last and to the one before.
fn layered(layers: usize, width: usize, fan: usize, tail: usize) -> Graph {
    let nodes = tail + layers * width;
    let targets = |source: usize| {
        let end = tail + (layers - 1) * width;
        let one = |k: usize| Target {
            weight: ((source * 5 + k * 3) % 9) as u32,
            node: match source {
                _ if source < tail => source + 1,
                _ => (source - tail) / width * width + tail + width + (source * 7 + k) % width,
            },
        };
        let many = match source {
            _ if source < tail => 1,
            _ if source < end => fan,
            _ => 0,
        };
        (0..many).map(one).collect()
    };
    let hyperedge = |source: usize| Hyperedge {
        source,
        targets: targets(source),
    };
    let cover = |j: usize| Cover {
        source: tail + j,
        bound: Some(j as u32 % 4),
        target: nodes - 1 - j * 9,
    };
    Graph {
        nodes,
        hyperedges: (0..nodes).map(hyperedge).collect(),
        covers: (0..12).map(cover).collect(),
    }
}

/// A hyperedge for each length, with so many targets, and cover edges behind them or none: an
/// implementation may look at several targets at once, or at a target and what stands behind it.
pub fn lengths(lengths: &[usize], weight: u32, covers: usize) -> Graph {
    let nodes = 5;
    let hyperedge = |(source, length): (usize, &usize)| {
        let target = |j: usize| Target {
            weight: weight * j as u32,
            node: (source + j) % nodes,
        };
        let targets = (0..*length).map(target).collect();
        Hyperedge { source, targets }
    };
    let cover = |source: usize| Cover {
        source,
        bound: Some(source as u32),
        target: nodes - 1 - source,
    };
    Graph {
        nodes,
        hyperedges: lengths.iter().enumerate().map(hyperedge).collect(),
        covers: (0..covers).map(cover).collect(),
    }
}

/// Every field of such graphs across its borders.
fn several_at_once() -> Vec<Call> {
    let judged = |bytes: &[u8]| bytes::graph(bytes).err();
    let graphs = [
        lengths(&[3, 4, 5], 65_537, 0),
        lengths(&[7, 8, 9], 65_537, 1),
        lengths(&[5, 0, 4], 1 << 24, 4),
    ];
    let changed = graphs.map(|graph| sweep::fields(&message::graph(&graph), &judged));
    let messages = changed.concat();
    messages
        .iter()
        .map(|message| Call::graph(message))
        .collect()
}

/// A chain with cover edges, and at some nodes so many hyperedges of `length` targets, the first of them
/// the last node. Lost: that one has no value. Heavy: every node has a value at once, which then falls.
fn ranged(nodes: usize, at: &[(usize, usize)], length: usize, lost: bool, heavy: bool) -> Graph {
    let last = nodes - 1;
    let ground = if lost { last - 1 } else { last };
    let mut hyperedges = vec![];
    for source in 0..nodes {
        let many = at.iter().find(|at| at.0 == source).map_or(0, |at| at.1);
        for index in 0..many {
            let target = |j: usize| Target {
                weight: ((index * 31 + j * 17) % 11) as u32,
                node: if j == 0 {
                    last
                } else {
                    (source + 7 * j) % nodes
                },
            };
            let targets = (0..length).map(target).collect();
            hyperedges.push(Hyperedge { source, targets });
        }
        let one = |weight: usize, node: usize| {
            let weight = weight as u32;
            vec![Target { weight, node }]
        };
        if heavy && source < ground {
            let targets = one(1_000 * (nodes - source), ground);
            hyperedges.push(Hyperedge { source, targets });
        }
        let targets = match source {
            _ if source == ground => vec![],
            _ if source == last => one(0, last),
            _ => one(1 + source % 3, source + 1),
        };
        hyperedges.push(Hyperedge { source, targets });
    }
    let cover = |source: usize| Cover {
        source,
        bound: Some(source as u32 % 40),
        target: (source + 11) % nodes,
    };
    let covers = (0..nodes).step_by(13).map(cover).collect();
    Graph {
        nodes,
        hyperedges,
        covers,
    }
}

/// The same graph with its nodes numbered from the other end.
fn reversed(graph: &Graph) -> Graph {
    let other = |node: usize| graph.nodes - 1 - node;
    let target = |target: &Target| Target {
        weight: target.weight,
        node: other(target.node),
    };
    let hyper = |hyper: &Hyperedge| Hyperedge {
        source: other(hyper.source),
        targets: hyper.targets.iter().map(target).collect(),
    };
    let cover = |cover: &Cover| Cover {
        source: other(cover.source),
        bound: cover.bound,
        target: other(cover.target),
    };
    Graph {
        nodes: graph.nodes,
        hyperedges: graph.hyperedges.iter().rev().map(hyper).collect(),
        covers: graph.covers.iter().rev().map(cover).collect(),
    }
}

/// So many cover edges.
fn covered(count: usize) -> Graph {
    let nodes = 100;
    let cover = |index: usize| {
        let source = index * nodes / count;
        Cover {
            source,
            bound: Some(index as u32 % 3),
            target: (source + 1 + index % 7) % nodes,
        }
    };
    let mut graph = chain(nodes, 1);
    graph.covers = (0..count).map(cover).collect();
    graph
}

/// One hyperedge with so many targets.
fn wide(count: usize) -> Graph {
    let targets = (0..count)
        .map(|weight| Target {
            weight: weight as u32,
            node: 0,
        })
        .collect();
    Graph {
        nodes: 1,
        hyperedges: vec![Hyperedge { source: 0, targets }],
        covers: vec![],
    }
}

/// A graph of exactly 65,536 bytes: 16,379 hyperedges, the last with one target.
pub fn full() -> Graph {
    let mut hyperedges: Vec<Hyperedge> = (0..16_379)
        .map(|index| Hyperedge {
            source: index / 1_100,
            targets: vec![],
        })
        .collect();
    hyperedges.push(Hyperedge {
        source: 15,
        targets: vec![Target { weight: 3, node: 0 }],
    });
    hyperedges.remove(0);
    Graph {
        nodes: 16,
        hyperedges,
        covers: vec![],
    }
}
