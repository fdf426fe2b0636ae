//! The systematic part for searches: S.

use super::{generate, graphs, sweep};
use crate::answer::{Call, MOST_WORDS};
use crate::bytes::{self, Cover, Graph, Hyperedge, Target};
use crate::known;
use crate::message::{self, Message};
use crate::random::Random;
use crate::search;

pub fn calls() -> Vec<Call> {
    let parts = [
        special_graphs(),
        refusals(),
        several_at_once(),
        order_of_refusals(),
        roots_and_rooms(),
        small_graphs(),
        large(),
    ];
    parts.into_iter().flatten().collect()
}

/// A graph without weights from hyperedges (source, targets).
fn plain(nodes: usize, hyperedges: &[(usize, &[usize])]) -> Graph {
    let target = |node: &usize| Target {
        weight: 0,
        node: *node,
    };
    let hyperedge = |&(source, targets): &(usize, &[usize])| Hyperedge {
        source,
        targets: targets.iter().map(target).collect(),
    };
    Graph {
        nodes,
        hyperedges: hyperedges.iter().map(hyperedge).collect(),
        covers: vec![],
    }
}

/// Document 000, Figure 3: what is taken first there is the last record here, and what is picked first
/// the first target. Its improved algorithm takes 6 edges.
pub fn figure() -> Graph {
    plain(
        6,
        &[
            (0, &[1]),
            (1, &[]),
            (1, &[2]),
            (2, &[1, 3, 4]),
            (3, &[5]),
            (5, &[]),
        ],
    )
}

/// The words that a search of any message needs.
pub fn needed(message: &[u8]) -> usize {
    bytes::graph(message).map_or(40, |graph| search::needs(&graph))
}

/// A search of any message, with exact room where it is a graph.
pub fn search_of(root: u32, message: &[u8]) -> Call {
    Call::search(root, needed(message), message)
}

/// A search from each node.
fn from_each(graph: &Graph) -> Vec<Call> {
    let message = message::graph(graph).bytes;
    (0..graph.nodes as u32)
        .map(|root| search_of(root, &message))
        .collect()
}

/// Graphs in which one line of the algorithm or one choice matters.
fn special_graphs() -> Vec<Call> {
    let graphs = [
        figure(),
        known::graph(1, &[], &[]),
        // an edge without targets: alone, first, last, twice
        plain(1, &[(0, &[])]),
        plain(2, &[(0, &[]), (0, &[1])]),
        plain(2, &[(0, &[1]), (0, &[])]),
        plain(2, &[(0, &[1]), (0, &[1]), (1, &[]), (1, &[])]),
        // cycles with and without a way out, of the root and past it
        plain(1, &[(0, &[0])]),
        plain(2, &[(0, &[0, 1]), (1, &[])]),
        plain(2, &[(0, &[1, 0]), (1, &[0]), (1, &[])]),
        plain(3, &[(0, &[1]), (1, &[2]), (2, &[1])]),
        plain(3, &[(0, &[1]), (1, &[2]), (2, &[0]), (2, &[])]),
        plain(
            3,
            &[(0, &[2]), (0, &[1, 2]), (1, &[1]), (2, &[1]), (2, &[])],
        ),
        // which target is picked: the first that isn't final, and repeated ones
        plain(4, &[(0, &[1, 2, 3]), (1, &[]), (2, &[]), (3, &[])]),
        plain(4, &[(0, &[3, 2, 1]), (1, &[]), (3, &[])]),
        plain(3, &[(0, &[1, 1, 2, 1]), (1, &[]), (2, &[2]), (2, &[])]),
        plain(3, &[(0, &[2, 2]), (0, &[2, 1, 2]), (1, &[2]), (2, &[0, 2])]),
        // certain zero: one of several edges, the last one, and an edge that is struck and still a dependent
        plain(4, &[(0, &[1]), (0, &[3]), (1, &[2]), (3, &[])]),
        plain(4, &[(0, &[1]), (1, &[2]), (1, &[3]), (3, &[2])]),
        plain(
            5,
            &[(0, &[1]), (1, &[2, 3]), (1, &[4]), (2, &[1]), (4, &[3])],
        ),
        // many dependents of one node, found in another order than the records'
        plain(
            5,
            &[
                (0, &[1, 2, 3]),
                (1, &[4]),
                (2, &[4]),
                (3, &[4]),
                (4, &[]),
                (4, &[4]),
            ],
        ),
        plain(
            5,
            &[
                (0, &[3, 2, 1]),
                (1, &[4]),
                (2, &[4]),
                (3, &[4]),
                (4, &[3]),
                (4, &[]),
            ],
        ),
        plain(
            5,
            &[
                (0, &[3, 1, 2]),
                (0, &[2, 4]),
                (1, &[4]),
                (2, &[4, 1]),
                (3, &[4]),
                (4, &[1]),
            ],
        ),
        // a region that is detached, and one that is found again
        plain(
            5,
            &[
                (0, &[1]),
                (1, &[]),
                (1, &[2]),
                (2, &[3]),
                (3, &[2]),
                (3, &[4]),
            ],
        ),
        plain(
            6,
            &[
                (0, &[1, 2]),
                (1, &[]),
                (1, &[3]),
                (2, &[3]),
                (3, &[4]),
                (4, &[5]),
                (5, &[]),
            ],
        ),
        plain(
            6,
            &[
                (0, &[1, 3]),
                (1, &[]),
                (1, &[2]),
                (2, &[3]),
                (3, &[4]),
                (3, &[1]),
                (4, &[2]),
                (5, &[0]),
            ],
        ),
        plain(
            7,
            &[
                (0, &[1, 2, 4]),
                (1, &[]),
                (1, &[3, 4]),
                (2, &[]),
                (2, &[4]),
                (3, &[5]),
                (4, &[5]),
                (5, &[4]),
                (5, &[6]),
            ],
        ),
        // a dependent that waits on the forward stack stays there
        plain(
            4,
            &[
                (0, &[2, 0]),
                (1, &[]),
                (1, &[2, 3, 1]),
                (1, &[3]),
                (2, &[1, 2]),
                (2, &[1, 3]),
                (3, &[2]),
                (3, &[1]),
            ],
        ),
        plain(
            5,
            &[
                (0, &[1]),
                (1, &[2, 4]),
                (2, &[3]),
                (2, &[4, 1, 2]),
                (2, &[0, 2]),
                (3, &[]),
                (4, &[3, 2, 0]),
                (4, &[1, 4]),
                (4, &[2]),
            ],
        ),
        // an edge of a node found again that waits on the other stack stays there
        plain(
            4,
            &[
                (0, &[]),
                (0, &[2, 1, 0]),
                (0, &[0, 1]),
                (1, &[3]),
                (1, &[2]),
                (2, &[3]),
                (3, &[]),
                (3, &[1]),
                (3, &[2, 1]),
            ],
        ),
        plain(
            7,
            &[
                (0, &[3, 5]),
                (1, &[]),
                (1, &[1, 2]),
                (2, &[6, 0, 0]),
                (2, &[5, 2]),
                (3, &[5, 2]),
                (4, &[]),
                (4, &[2, 4]),
                (5, &[4]),
                (6, &[5]),
            ],
        ),
        // a node found again has lost an edge
        plain(
            4,
            &[
                (0, &[2, 1, 1]),
                (1, &[2, 0]),
                (1, &[3, 1]),
                (1, &[0, 0, 3]),
                (2, &[]),
                (2, &[1, 2, 2]),
            ],
        ),
        plain(
            4,
            &[
                (0, &[2, 1]),
                (1, &[2, 1, 0]),
                (1, &[0, 0]),
                (1, &[3]),
                (2, &[2, 2]),
                (2, &[]),
                (2, &[1, 3, 2]),
                (2, &[1]),
            ],
        ),
        // a dependent that was lost is pushed and counted
        plain(
            7,
            &[
                (0, &[6]),
                (2, &[4, 1]),
                (3, &[4, 4]),
                (3, &[4, 2]),
                (3, &[6, 1, 4]),
                (4, &[6, 5]),
                (4, &[5]),
                (4, &[3, 3, 0]),
                (5, &[1, 5]),
                (5, &[]),
                (5, &[4, 4]),
                (6, &[3, 5]),
                (6, &[2, 0]),
                (6, &[6, 6]),
            ],
        ),
    ];
    graphs.iter().flat_map(from_each).collect()
}

/// A small plain graph with records of every shape.
fn base() -> Message {
    let edges: [(usize, &[usize]); 5] =
        [(0, &[1, 2]), (1, &[]), (1, &[2]), (2, &[0, 2]), (2, &[1])];
    message::graph(&plain(3, &edges))
}

/// Every field and every record of a plain graph, and each rule that a graph can break.
fn refusals() -> Vec<Call> {
    let base = base();
    let judged = |bytes: &[u8]| bytes::graph(bytes).err();
    let mut messages = sweep::fields(&base, &judged);
    messages.extend(sweep::records(&base));
    let lengths = sweep::lengths(&base);
    messages.extend(lengths.into_iter().step_by(5));
    let other = graphs::base();
    let changed = [
        sweep::fields(&other, &judged),
        sweep::lengths(&other),
        sweep::records(&other),
    ];
    messages.extend(sweep::one_for_each_rule(&changed.concat(), &judged));
    messages
        .iter()
        .map(|message| search_of(0, message))
        .collect()
}

/// Targets that may be looked at with what stands behind them: every field across its borders, and a
/// weight of one bit in each byte of each weight.
fn several_at_once() -> Vec<Call> {
    let judged = |bytes: &[u8]| bytes::graph(bytes).err();
    let mut messages = vec![];
    for lengths in [[1, 2, 0], [3, 0, 1], [4, 5, 3]] {
        let message = message::graph(&graphs::lengths(&lengths, 0, 0));
        messages.push(message.bytes.clone());
        messages.extend(sweep::fields(&message, &judged));
        for field in message
            .fields
            .iter()
            .skip(1)
            .filter(|field| field.width == 4)
        {
            messages.extend([0, 8, 16, 24].map(|bit| message.with(*field, 1 << bit)));
        }
    }
    messages
        .iter()
        .map(|message| search_of(0, message))
        .collect()
}

/// "PROFILE, after the graph's own checks, then NAME for the root, then ROOM": every choice among a
/// graph's fault, a weight, a cover edge, no root and a word less.
fn order_of_refusals() -> Vec<Call> {
    let mut calls = vec![];
    for choice in 0..1 << 5 {
        let chosen = |bit: u32| choice >> bit & 1 == 1;
        let mut graph = bytes::graph(&base().bytes).expect("a graph");
        graph.hyperedges[4].targets[0].weight = u32::from(chosen(0));
        if chosen(1) {
            graph.covers.push(Cover {
                source: 0,
                bound: None,
                target: 1,
            });
        }
        let room = search::needs(&graph) - usize::from(chosen(3));
        let root = if chosen(2) { 3 } else { 2 };
        let message = message::graph(&graph);
        let bytes = if chosen(4) {
            message.with(message.fields[1], 2)
        } else {
            message.bytes
        };
        calls.push(Call::search(root, room, &bytes));
    }
    calls
}

/// Roots around n, and numbers whose low bytes name a node; rooms around what is needed.
fn roots_and_rooms() -> Vec<Call> {
    let message = base().bytes;
    let needed = needed(&message);
    let roots = [
        0,
        1,
        2,
        3,
        4,
        255,
        256,
        65_535,
        65_536,
        65_538,
        1 << 31,
        u32::MAX,
    ];
    let mut calls: Vec<Call> = roots
        .iter()
        .map(|root| search_of(*root, &message))
        .collect();
    for room in [
        0,
        1,
        needed - 1,
        needed,
        needed + 1,
        needed + 300,
        MOST_WORDS,
    ] {
        calls.push(Call::search(1, room, &message));
        calls.push(Call::search(3, room, &message));
    }
    let heavy = message::graph(&known::graph_g()).bytes;
    calls.extend([0, 71, 72, 73].map(|room| Call::search(0, room, &heavy)));
    calls
}

/// Small graphs, the same for each seed, from each of their nodes.
fn small_graphs() -> Vec<Call> {
    let mut random = Random::new(2);
    let mut calls = vec![];
    for _ in 0..120 {
        calls.extend(from_each(&generate::plain_graph(&mut random, 6)));
    }
    calls
}

/// Long chains, wide edges, many edges of one node, and rooms of their size.
fn large() -> Vec<Call> {
    let chain = |nodes: usize, ends: bool| {
        let mut graph = graphs::chain(nodes, 0);
        if !ends {
            graph.hyperedges.pop();
        }
        message::graph(&graph).bytes
    };
    let mut calls = vec![];
    for (message, root) in [
        (chain(4_096, true), 0),
        (chain(4_096, false), 0),
        (chain(4_096, true), 4_095),
        (chain(1_000, true), 17),
    ] {
        calls.push(search_of(root, &message));
        calls.push(Call::search(root, needed(&message) - 1, &message));
    }
    calls.push(search_of(
        0,
        &message::graph(&plain(1, &[(0, &vec![0; 10_919])])).bytes,
    ));
    calls.push(search_of(0, &message::graph(&fan(900)).bytes));
    calls.push(search_of(15, &message::graph(&graphs::full()).bytes));
    let mut random = Random::new(3);
    for most in [60, 60, 300, 900] {
        let message = message::graph(&generate::plain_graph(&mut random, most)).bytes;
        calls.push(search_of(0, &message));
    }
    calls
}

/// A root over all other nodes, which wait for the last one; it has a loop and an end.
fn fan(nodes: usize) -> Graph {
    let last = nodes - 1;
    let all: Vec<usize> = (1..last).collect();
    let one = [last];
    let mut edges: Vec<(usize, &[usize])> = vec![(0, &all)];
    edges.extend((1..last).map(|node| (node, &one[..])));
    edges.extend([(last, &[][..]), (last, &one[..])]);
    plain(nodes, &edges)
}
