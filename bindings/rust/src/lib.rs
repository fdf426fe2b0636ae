//! A proved checker for weighted CTL with upper bounds.
//!
//! Messages are bytes: a graph, a model or a formula. Any bytes may be handed in; a message that is not well-formed is refused, and
//! the [`Fault`] says what is wrong first, and where. A refusal leaves every lent slice as it came, and nothing is allocated but by
//! [`settled`], [`text_of`], [`satisfies`] and [`satisfying`].
//!
//! ```
//! // A state without propositions, and a transition to itself of weight 5 and action 7.
//! let model = [0, 0, 0, 27, 2, 2, 0, 1, 0, 0, 0, 0, 1, 0, 0, 0, 0, 0, 0, 0, 0, 0, 5, 0, 7, 0, 0];
//! let formula = [0, 0, 0, 23, 1, 3, 2, 0, 0, 0, 0, 0, 0, 0, 0, 6, 0, 0, 0, 0, 0, 0, 5]; // EX<=5 true
//! assert_eq!(otzarvim::satisfies(&model, &formula, 0), Ok(true));
//! assert_eq!(otzarvim::satisfies(&model, &formula, 1), Err(otzarvim::Refusal::Name.at(0)));
//! ```

use std::error::Error;
use std::fmt;

mod foreign {
    #[link(name = "otzarvim", kind = "static")]
    extern "C" {
        pub fn otzarvim_graph_check(message: *const u8, message_length: usize, counts: *mut u32, offset: *mut usize) -> u8;
        pub fn otzarvim_model_check(message: *const u8, message_length: usize, counts: *mut u32, offset: *mut usize) -> u8;
        pub fn otzarvim_formula_check(message: *const u8, message_length: usize, p: u32, rows: *mut u32, offset: *mut usize) -> u8;
        pub fn otzarvim_rounds_solve(
            message: *const u8,
            message_length: usize,
            budget: u32,
            room: *mut u64,
            room_length: usize,
            count: *mut u32,
            offset: *mut usize,
        ) -> u8;
        pub fn otzarvim_search(
            message: *const u8,
            message_length: usize,
            root: u32,
            words: *mut u32,
            words_length: usize,
            verdict: *mut u8,
            count: *mut u64,
            offset: *mut usize,
        ) -> u8;
        pub fn otzarvim_claims_check(
            message: *const u8,
            message_length: usize,
            claims: *const u8,
            claims_length: usize,
            verdict: *mut u8,
            offset: *mut usize,
        ) -> u8;
        pub fn otzarvim_claims_write(
            message: *const u8,
            message_length: usize,
            claims: *mut u8,
            claims_length: usize,
            words: *mut u64,
            words_length: usize,
            offset: *mut usize,
        ) -> u8;
        pub fn otzarvim_formula_text(
            message: *const u8,
            message_length: usize,
            p: u32,
            room: *mut u8,
            room_length: usize,
            length: *mut usize,
            offset: *mut usize,
        ) -> u8;
        pub fn otzarvim_verdict(
            model: *const u8,
            model_length: usize,
            formula: *const u8,
            formula_length: usize,
            state: u32,
            budget: u32,
            bytes: *mut u8,
            bytes_length: usize,
            values: *mut u64,
            values_length: usize,
            verdict: *mut u8,
            count: *mut u32,
            length: *mut usize,
            offset: *mut usize,
        ) -> u8;
        pub fn otzarvim_graph(
            model: *const u8,
            model_length: usize,
            formula: *const u8,
            formula_length: usize,
            bytes: *mut u8,
            bytes_length: usize,
            length: *mut usize,
            offset: *mut usize,
        ) -> u8;
        pub fn otzarvim_settle(
            model: *const u8,
            model_length: usize,
            formula: *const u8,
            formula_length: usize,
            budget: u32,
            bytes: *mut u8,
            bytes_length: usize,
            values: *mut u64,
            values_length: usize,
            count: *mut u32,
            length: *mut usize,
            states: *mut u32,
            offset: *mut usize,
        ) -> u8;
        pub fn otzarvim_tally_enter(tally: *mut super::Tally, number: u8, verdict: u8, rounds: u32) -> u8;
        pub fn otzarvim_tally_report(tally: *const super::Tally, room: *mut u8, room_length: usize, length: *mut usize) -> u8;
    }
}

/// The stored value of a node that no finite number bounds.
pub const INFINITE: u64 = u64::MAX;

/// The bound, in a message, that means no bound.
pub const NO_BOUND: u32 = u32::MAX;

/// The version byte of a model message; version 1 had no actions, and is refused. Graphs and formulas have version 1.
pub const MODEL_VERSION: u8 = 2;

/// How many bytes the claim of a node has: its value (8), then its rank (8), big-endian.
pub const CLAIM: usize = 16;

/// How many words [`write_claims`] is lent for a node.
pub const CLAIM_WORDS: usize = 8;

/// So many bytes hold the text of any formula.
pub const MOST_TEXT: usize = 2048;

/// So many bytes hold the message of any graph.
pub const MOST_GRAPH: usize = 14 + 65_535 * 4 + 262_144 * 6 + 4_096 * 8;

/// So many numbers hold two rounds of any graph.
pub const MOST_VALUES: usize = 2 * 4_096;

/// A budget with which every question settles: no graph has more nodes, and none that is built needs more rounds than it has nodes.
pub const MOST_ROUNDS: u32 = 4_096;

/// What is wrong, where a call is refused. Each case has the number that C sees; that of a spent budget, 1, is [`Rounds::Spent`], [`Answer::Spent`]
/// and [`Answers::Spent`].
#[derive(Clone, Copy, Debug, PartialEq, Eq, Hash)]
pub enum Refusal {
    /// Too few bytes for the header or a record, a wrong length field, or bytes left over.
    Length,
    /// A wrong version or kind byte.
    Version,
    /// A count outside its limits, or more than 32 propositions.
    Limit,
    /// A source (or `from`) below the one before it in the same list.
    Order,
    /// A node, state, proposition or operand that doesn't exist.
    Name,
    /// A state with no transition. It is no longer given: a run that comes to such a state ends there.
    Dead,
    /// The graph to be built would pass a limit.
    Size,
    /// A lent room is too small.
    Room,
    /// A formula or label that breaks the rules.
    Form,
    /// A graph that has what the function doesn't take.
    Profile,
}

impl Refusal {
    const ALL: [Refusal; 10] = [
        Refusal::Length,
        Refusal::Version,
        Refusal::Limit,
        Refusal::Order,
        Refusal::Name,
        Refusal::Dead,
        Refusal::Size,
        Refusal::Room,
        Refusal::Form,
        Refusal::Profile,
    ];

    /// The number of the refusal.
    ///
    /// ```
    /// assert_eq!(otzarvim::Refusal::Length.number(), 2);
    /// assert_eq!(otzarvim::Refusal::Form.number(), 10);
    /// ```
    pub fn number(self) -> u8 {
        self as u8 + 2
    }

    /// The refusal with a number.
    ///
    /// ```
    /// assert_eq!(otzarvim::Refusal::from_number(9), Some(otzarvim::Refusal::Room));
    /// assert_eq!(otzarvim::Refusal::from_number(1), None);
    /// ```
    pub fn from_number(number: u8) -> Option<Refusal> {
        Refusal::ALL.into_iter().find(|refusal| refusal.number() == number)
    }

    /// The fault with this refusal at an offset; 0 where no field is wrong.
    ///
    /// ```
    /// let fault = otzarvim::Refusal::Name.at(21);
    /// assert_eq!((fault.refusal.number(), fault.offset), (6, 21));
    /// ```
    pub fn at(self, offset: usize) -> Fault {
        Fault { refusal: self, offset }
    }
}

impl fmt::Display for Refusal {
    fn fmt(&self, f: &mut fmt::Formatter) -> fmt::Result {
        f.write_str(match self {
            Refusal::Length => "too few bytes, a wrong length field, or bytes left over",
            Refusal::Version => "a wrong version or kind byte",
            Refusal::Limit => "a count outside its limits",
            Refusal::Order => "a source (or from) below the one before it",
            Refusal::Name => "a node, state, proposition or operand that doesn't exist",
            Refusal::Dead => "a state with no transition",
            Refusal::Size => "the graph to be built would pass a limit",
            Refusal::Room => "a lent room is too small",
            Refusal::Form => "a formula or label that breaks the rules",
            Refusal::Profile => "a graph that has what the function doesn't take",
        })
    }
}

impl Error for Refusal {}

/// Why a call is refused: what is wrong, and where.
///
/// ```
/// // A state without propositions, and a transition of weight 5 and action 7 to state 1.
/// let model = [0, 0, 0, 27, 2, 2, 0, 1, 0, 0, 0, 0, 1, 0, 0, 0, 0, 0, 0, 0, 0, 0, 5, 0, 7, 0, 1];
/// let fault = otzarvim::check_model(&model).unwrap_err();
/// assert_eq!((fault.refusal, fault.offset), (otzarvim::Refusal::Name, 25));
/// assert_eq!(fault.to_string(), "a node, state, proposition or operand that doesn't exist, at byte 25");
///
/// // Every function says it: here of that model, of a row with no operator, and of a hyperedge whose source doesn't exist.
/// let formula = [0, 0, 0, 15, 1, 3, 1, 77, 0, 0, 0, 0, 0, 0, 0];
/// let graph = [0, 0, 0, 18, 1, 1, 0, 1, 0, 0, 0, 1, 0, 0, 0, 1, 0, 0];
/// let (mut bytes, mut values, mut words) = ([0; 9], [0; 9], [0; 9]);
/// assert_eq!(otzarvim::verdict(&model, &formula, 0, 9, &mut bytes, &mut values), Err(fault));
/// assert_eq!(otzarvim::settle(&model, &formula, 9, &mut bytes, &mut values), Err(fault));
/// assert_eq!(otzarvim::graph(&model, &formula, &mut bytes), Err(fault));
/// assert_eq!(otzarvim::text(&formula, 0, &mut bytes), Err(otzarvim::Refusal::Form.at(7)));
/// assert_eq!(otzarvim::solve(&graph, 9, &mut values), Err(otzarvim::Refusal::Name.at(14)));
/// assert_eq!(otzarvim::search(&graph, 0, &mut words), Err(otzarvim::Refusal::Name.at(14)));
/// ```
#[derive(Clone, Copy, Debug, PartialEq, Eq, Hash)]
pub struct Fault {
    /// What is wrong.
    pub refusal: Refusal,
    /// Where the first byte of the field stands that was found wrong, counted from the start of the message at fault: of two
    /// messages the model, where [`check_model`] refuses it, else the formula.
    ///
    /// It is 0 where no field is: for [`Refusal::Length`], [`Refusal::Size`], [`Refusal::Room`] and [`Refusal::Profile`], for a number
    /// handed in beside a message (the propositions, the state, the root), and for a formula a row of which is not used exactly once.
    pub offset: usize,
}

impl Fault {
    /// The fault of a number that a function of the library returned, which is proved to be one of the paper's.
    fn of(number: u8, offset: usize) -> Fault {
        Refusal::from_number(number).unwrap_or_else(|| unreachable!("the library returned {number}")).at(offset)
    }
}

impl fmt::Display for Fault {
    fn fmt(&self, f: &mut fmt::Formatter) -> fmt::Result {
        match self.offset {
            0 => write!(f, "{}", self.refusal),
            offset => write!(f, "{}, at byte {offset}", self.refusal),
        }
    }
}

impl Error for Fault {}

/// The counts of an accepted graph message.
#[derive(Clone, Copy, Debug, PartialEq, Eq, Hash)]
pub struct Graph {
    /// How many nodes; a room for values has twice as many numbers.
    pub nodes: u32,
    /// How many hyperedges.
    pub hyperedges: u32,
    /// How many cover edges.
    pub covers: u32,
}

impl Graph {
    /// A budget with which the rounds always settle. Where no cycle passes through a cover edge, `nodes` is one too.
    ///
    /// ```
    /// let graph = otzarvim::Graph { nodes: 4, hyperedges: 4, covers: 1 };
    /// assert_eq!(graph.enough(), 8);
    /// ```
    pub fn enough(self) -> u32 {
        self.nodes.saturating_mul(self.covers.saturating_add(1))
    }
}

/// The counts of an accepted model message.
#[derive(Clone, Copy, Debug, PartialEq, Eq, Hash)]
pub struct Model {
    /// How many states.
    pub states: u32,
    /// How many propositions.
    pub propositions: u32,
    /// How many transitions.
    pub transitions: u32,
}

/// How the rounds on a graph ended. The first n numbers of the room hold round `count`, the next n the round after it.
#[derive(Clone, Copy, Debug, PartialEq, Eq, Hash)]
pub enum Rounds {
    /// A round changed nothing: the values are settled, the largest that obey the graph's rules.
    Settled {
        /// The first round that the next one repeats.
        count: u32,
    },
    /// The budget was spent before that.
    Spent {
        /// The budget.
        count: u32,
    },
}

/// Whether a state satisfies a formula.
#[derive(Clone, Copy, Debug, PartialEq, Eq, Hash)]
pub enum Verdict {
    /// It does, by its maximal runs: those that are endless, and those that end in a state without transitions.
    Yes,
    /// It doesn't.
    No,
}

/// How the question about one state ended. The graph's message stands in the first `length` bytes of its room; with n nodes, the
/// first n values hold round `count`, the next n the round after it.
#[derive(Clone, Copy, Debug, PartialEq, Eq, Hash)]
pub enum Answer {
    /// A round changed nothing: there is a verdict.
    Decided {
        /// Whether the state satisfies the formula.
        verdict: Verdict,
        /// The first round that the next one repeats.
        count: u32,
        /// How many bytes the graph has.
        length: usize,
    },
    /// The budget was spent before that.
    Spent {
        /// The budget.
        count: u32,
        /// How many bytes the graph has.
        length: usize,
    },
}

/// How the question about all states ended. The rooms are left as with [`Answer`].
#[derive(Clone, Copy, Debug, PartialEq, Eq, Hash)]
pub enum Answers<'a> {
    /// A round changed nothing: there is an answer for each state.
    Settled {
        /// A number for each state: it satisfies the formula exactly when its number is 0.
        states: &'a [u64],
        /// The first round that the next one repeats.
        count: u32,
        /// How many bytes the graph has.
        length: usize,
    },
    /// The budget was spent before that.
    Spent {
        /// The budget.
        count: u32,
        /// How many bytes the graph has.
        length: usize,
    },
}

/// Checks a graph message.
///
/// ```
/// use otzarvim::{Graph, Refusal};
///
/// let graph = [0, 0, 0, 18, 1, 1, 0, 1, 0, 0, 0, 1, 0, 0, 0, 0, 0, 0];
/// assert_eq!(otzarvim::check_graph(&graph), Ok(Graph { nodes: 1, hyperedges: 1, covers: 0 }));
/// assert_eq!(otzarvim::check_graph(&graph[..17]), Err(Refusal::Length.at(0)));
/// assert_eq!(otzarvim::check_graph(&[]), Err(Refusal::Length.at(0)));
/// ```
pub fn check_graph(message: &[u8]) -> Result<Graph, Fault> {
    let (mut counts, mut offset) = ([0; 3], 0);
    // SAFETY: the message is a slice, and there is room for three counts and an offset. The function is proved to read and write only
    // these.
    match unsafe { foreign::otzarvim_graph_check(message.as_ptr(), message.len(), counts.as_mut_ptr(), &mut offset) } {
        0 => {
            let [nodes, hyperedges, covers] = counts;
            Ok(Graph { nodes, hyperedges, covers })
        }
        number => Err(Fault::of(number, offset)),
    }
}

/// Checks a model message: version 2, and 13 + 4s + 10t bytes for s states and t transitions. A transition is from (2 bytes), weight (4),
/// action (2) and to (2); any action is taken.
///
/// ```
/// use otzarvim::{Model, Refusal};
///
/// // A state without propositions, and a transition to itself of weight 5 and action 7.
/// let mut model = [0, 0, 0, 27, 2, 2, 0, 1, 0, 0, 0, 0, 1, 0, 0, 0, 0, 0, 0, 0, 0, 0, 5, 0, 7, 0, 0];
/// assert_eq!(otzarvim::check_model(&model), Ok(Model { states: 1, propositions: 0, transitions: 1 }));
/// model[26] = 1; // to state 1
/// assert_eq!(otzarvim::check_model(&model), Err(Refusal::Name.at(25)));
/// model[4] = 1; // a version without actions
/// assert_eq!(otzarvim::check_model(&model), Err(Refusal::Version.at(4)));
/// // The same state without a transition: runs end there.
/// let model = [0, 0, 0, 17, 2, 2, 0, 1, 0, 0, 0, 0, 0, 0, 0, 0, 0];
/// assert_eq!(otzarvim::check_model(&model), Ok(Model { states: 1, propositions: 0, transitions: 0 }));
/// ```
pub fn check_model(message: &[u8]) -> Result<Model, Fault> {
    let (mut counts, mut offset) = ([0; 3], 0);
    // SAFETY: as for check_graph.
    match unsafe { foreign::otzarvim_model_check(message.as_ptr(), message.len(), counts.as_mut_ptr(), &mut offset) } {
        0 => {
            let [states, propositions, transitions] = counts;
            Ok(Model { states, propositions, transitions })
        }
        number => Err(Fault::of(number, offset)),
    }
}

/// Checks a formula message, whose propositions must be below a number of them; returns how many rows it has. Operators 10 and 11 are EX
/// and AX that look only at transitions of the action in the row's right field.
///
/// ```
/// use otzarvim::Refusal;
///
/// let formula = [0, 0, 0, 15, 1, 3, 1, 2, 7, 0, 0, 0, 0, 0, 0]; // p7
/// assert_eq!(otzarvim::check_formula(&formula, 8), Ok(1));
/// assert_eq!(otzarvim::check_formula(&formula, 7), Err(Refusal::Name.at(8)));
/// assert_eq!(otzarvim::check_formula(&formula, 33), Err(Refusal::Limit.at(0)));
/// ```
pub fn check_formula(message: &[u8], propositions: u32) -> Result<u32, Fault> {
    let (mut rows, mut offset) = (0, 0);
    // SAFETY: the message is a slice, and rows and offset are numbers of its own. The function is proved to read and write only these.
    match unsafe { foreign::otzarvim_formula_check(message.as_ptr(), message.len(), propositions, &mut rows, &mut offset) } {
        0 => Ok(rows),
        number => Err(Fault::of(number, offset)),
    }
}

/// Runs the rounds on a graph message of n nodes, until one changes nothing or the budget is spent. The room must have 2n numbers;
/// those beyond stay.
///
/// ```
/// use otzarvim::{Refusal, Rounds, INFINITE};
///
/// let graph = [0, 0, 0, 18, 1, 1, 0, 1, 0, 0, 0, 1, 0, 0, 0, 0, 0, 0];
/// let mut room = [7; 3];
/// assert_eq!(otzarvim::solve(&graph, 1, &mut room[..1]), Err(Refusal::Room.at(0)));
/// assert_eq!(room, [7, 7, 7]);
/// assert_eq!(otzarvim::solve(&graph, 0, &mut room), Ok(Rounds::Spent { count: 0 }));
/// assert_eq!(room, [INFINITE, 0, 7]);
/// assert_eq!(otzarvim::solve(&graph, 1, &mut room), Ok(Rounds::Settled { count: 1 }));
/// assert_eq!(room, [0, 0, 7]);
/// ```
pub fn solve(message: &[u8], budget: u32, room: &mut [u64]) -> Result<Rounds, Fault> {
    let (mut count, mut offset) = (0, 0);
    // SAFETY: two slices, of which the room is lent to this function alone, and numbers of its own. The function is proved to read
    // and write only these.
    let number = unsafe {
        foreign::otzarvim_rounds_solve(
            message.as_ptr(),
            message.len(),
            budget,
            room.as_mut_ptr(),
            room.len(),
            &mut count,
            &mut offset,
        )
    };
    match number {
        0 => Ok(Rounds::Settled { count }),
        1 => Ok(Rounds::Spent { count }),
        number => Err(Fault::of(number, offset)),
    }
}

/// How a search from one node ended.
#[derive(Clone, Copy, Debug, PartialEq, Eq, Hash)]
pub struct Found {
    /// Whether the root's settled value is 0.
    pub verdict: Verdict,
    /// How many edges were taken off the search's stacks: at most the root's number of hyperedges, plus, over every target place of
    /// every hyperedge, one more than the number of hyperedges of that target node.
    pub count: u64,
}

/// Searches from one node of a graph message whose weights are all 0 and that has no cover edge. With n nodes, h hyperedges and t
/// targets in all the first 4n + 8h + 4t words are used, and 0 afterwards.
///
/// ```
/// // Node 0 has a hyperedge without targets.
/// let graph = [0, 0, 0, 18, 1, 1, 0, 1, 0, 0, 0, 1, 0, 0, 0, 0, 0, 0];
/// let mut words = [7; 13];
/// let found = otzarvim::search(&graph, 0, &mut words);
/// assert_eq!(found, Ok(otzarvim::Found { verdict: otzarvim::Verdict::Yes, count: 1 }));
/// assert_eq!(words, [0, 0, 0, 0, 0, 0, 0, 0, 0, 0, 0, 0, 7]);
/// assert_eq!(otzarvim::search(&graph, 1, &mut words), Err(otzarvim::Refusal::Name.at(0)));
/// assert_eq!(otzarvim::search(&graph, 0, &mut words[..11]), Err(otzarvim::Refusal::Room.at(0)));
/// ```
pub fn search(message: &[u8], root: u32, words: &mut [u32]) -> Result<Found, Fault> {
    let (mut verdict, mut count, mut offset) = (0, 0, 0);
    // SAFETY: two slices, of which the words are lent to this function alone, and numbers of its own. The function is proved to
    // read and write only these.
    let number = unsafe {
        foreign::otzarvim_search(
            message.as_ptr(),
            message.len(),
            root,
            words.as_mut_ptr(),
            words.len(),
            &mut verdict,
            &mut count,
            &mut offset,
        )
    };
    match (number, verdict) {
        (0, 1) => Ok(Found { verdict: Verdict::Yes, count }),
        (0, _) => Ok(Found { verdict: Verdict::No, count }),
        (number, _) => Err(Fault::of(number, offset)),
    }
}

/// The settled values of a graph message, `None` for infinity: checks it, and lends [`solve`] a room and a budget that suffice.
///
/// ```
/// // Node 0 has a hyperedge to node 1 of weight 4294967295; node 1 one without targets; node 2 none.
/// let graph = [
///     0, 0, 0, 28, 1, 1, 0, 3, 0, 0, 0, 2, 0, 0, //
///     0, 0, 0, 1, 255, 255, 255, 255, 0, 1, 0, 1, 0, 0,
/// ];
/// assert_eq!(otzarvim::settled(&graph), Ok(vec![Some(4294967295), Some(0), None]));
/// ```
pub fn settled(message: &[u8]) -> Result<Vec<Option<u64>>, Fault> {
    let graph = check_graph(message)?;
    let nodes = graph.nodes as usize;
    let mut room = vec![0; 2 * nodes];
    solve(message, graph.enough(), &mut room)?;
    Ok(room[..nodes].iter().map(|&stored| (stored != INFINITE).then_some(stored)).collect())
}

/// Checks claims about a graph message of n nodes: [`CLAIM`] bytes for each node, node 0 first. They are accepted exactly when they
/// obey the graph's rules and each finite node has a support: a hyperedge of it that gives exactly its value, or a cover edge of it
/// that holds, all of whose targets have a smaller rank. What is accepted is the settled values, on every graph.
///
/// ```
/// use otzarvim::Refusal;
///
/// // One node with a hyperedge without targets, so of value 0.
/// let graph = [0, 0, 0, 18, 1, 1, 0, 1, 0, 0, 0, 1, 0, 0, 0, 0, 0, 0];
/// let mut claims = [0; 16];
/// assert_eq!(otzarvim::check_claims(&graph, &claims), Ok(true));
/// claims[7] = 1;
/// assert_eq!(otzarvim::check_claims(&graph, &claims), Ok(false));
/// assert_eq!(otzarvim::check_claims(&graph, &claims[1..]), Err(Refusal::Length.at(0)));
/// ```
pub fn check_claims(message: &[u8], claims: &[u8]) -> Result<bool, Fault> {
    let (mut verdict, mut offset) = (0, 0);
    // SAFETY: two slices, and numbers of its own. The function is proved to read and write only these.
    let number = unsafe {
        foreign::otzarvim_claims_check(message.as_ptr(), message.len(), claims.as_ptr(), claims.len(), &mut verdict, &mut offset)
    };
    match number {
        0 => Ok(verdict == 1),
        number => Err(Fault::of(number, offset)),
    }
}

/// Writes claims about a graph message of n nodes where no cycle passes through a cover edge: its settled values, with ranks that
/// [`check_claims`] accepts. The room must have [`CLAIM`] bytes and the words [`CLAIM_WORDS`] numbers for each node; those words are
/// 0 afterwards, and the rest of both stays.
///
/// ```
/// use otzarvim::Refusal;
///
/// let graph = [0, 0, 0, 18, 1, 1, 0, 1, 0, 0, 0, 1, 0, 0, 0, 0, 0, 0];
/// let (mut claims, mut words) = ([7; 17], [7; 9]);
/// assert_eq!(otzarvim::write_claims(&graph, &mut claims, &mut words[..7]), Err(Refusal::Room.at(0)));
/// assert_eq!(otzarvim::write_claims(&graph, &mut claims, &mut words), Ok(()));
/// assert_eq!(otzarvim::check_claims(&graph, &claims[..16]), Ok(true));
/// assert_eq!((claims[16], words), (7, [0, 0, 0, 0, 0, 0, 0, 0, 7]));
/// ```
pub fn write_claims(message: &[u8], claims: &mut [u8], words: &mut [u64]) -> Result<(), Fault> {
    let mut offset = 0;
    // SAFETY: three slices, of which two are lent to this function alone, and a number of its own. The function is proved to read and write only these.
    let number = unsafe {
        foreign::otzarvim_claims_write(
            message.as_ptr(),
            message.len(),
            claims.as_mut_ptr(),
            claims.len(),
            words.as_mut_ptr(),
            words.len(),
            &mut offset,
        )
    };
    match number {
        0 => Ok(()),
        number => Err(Fault::of(number, offset)),
    }
}

/// Writes the text of a formula message, whose propositions must be below a number of them, to the front of a room; [`MOST_TEXT`]
/// bytes always suffice, and those past the text stay.
///
/// ```
/// use otzarvim::Refusal;
///
/// let formula = [0, 0, 0, 15, 1, 3, 1, 3, 7, 0, 0, 0, 0, 0, 0];
/// let mut room = [0; 3];
/// assert_eq!(otzarvim::text(&formula, 32, &mut room[..2]), Err(Refusal::Room.at(0)));
/// assert_eq!(otzarvim::text(&formula, 32, &mut room), Ok("!p7"));
///
/// let formula = [0, 0, 0, 23, 1, 3, 2, 0, 0, 0, 0, 0, 0, 0, 0, 11, 0, 255, 0, 0, 0, 0, 3];
/// assert_eq!(otzarvim::text_of(&formula, 0).as_deref(), Ok("AX#255<=3 true"));
/// ```
pub fn text<'a>(message: &[u8], propositions: u32, room: &'a mut [u8]) -> Result<&'a str, Fault> {
    let (mut length, mut offset) = (0, 0);
    // SAFETY: as for solve.
    let number = unsafe {
        foreign::otzarvim_formula_text(
            message.as_ptr(),
            message.len(),
            propositions,
            room.as_mut_ptr(),
            room.len(),
            &mut length,
            &mut offset,
        )
    };
    match number {
        0 => Ok(std::str::from_utf8(&room[..length]).expect("the library writes ASCII")),
        number => Err(Fault::of(number, offset)),
    }
}

/// The text of a formula message, as [`text`] writes it.
///
/// ```
/// // p0, p1, E[row 0 U<=2 row 1]
/// let formula = [
///     0, 0, 0, 31, 1, 3, 3, //
///     2, 0, 0, 0, 0, 0, 0, 0, //
///     2, 1, 0, 0, 0, 0, 0, 0, //
///     8, 0, 1, 0, 0, 0, 0, 2,
/// ];
/// assert_eq!(otzarvim::text_of(&formula, 2).as_deref(), Ok("E[p0 U<=2 p1]"));
/// ```
pub fn text_of(message: &[u8], propositions: u32) -> Result<String, Fault> {
    text(message, propositions, &mut [0; MOST_TEXT]).map(str::to_owned)
}

/// Decides whether a state of a model satisfies a formula: checks the model, then the formula with the model's propositions, builds
/// their graph in `bytes` and runs its rounds in `values`. [`MOST_GRAPH`] bytes and [`MOST_VALUES`] numbers always suffice, and so
/// does a budget of as many rounds as the graph has nodes, or of [`MOST_ROUNDS`].
///
/// ```
/// use otzarvim::{Answer, Refusal, Verdict};
///
/// // State 0 has p0 and goes to itself with weight 3 and to state 1 with weight 2; state 1 has p1 and goes to itself.
/// let model = [
///     0, 0, 0, 51, 2, 2, 0, 2, 2, 0, 0, 0, 3, //
///     0, 0, 0, 1, 0, 0, 0, 2, //
///     0, 0, 0, 0, 0, 3, 0, 0, 0, 0, //
///     0, 0, 0, 0, 0, 2, 0, 0, 0, 1, //
///     0, 1, 0, 0, 0, 0, 0, 0, 0, 1,
/// ];
/// // E[p0 U<=2 p1]
/// let mut formula = [
///     0, 0, 0, 31, 1, 3, 3, //
///     2, 0, 0, 0, 0, 0, 0, 0, //
///     2, 1, 0, 0, 0, 0, 0, 0, //
///     8, 0, 1, 0, 0, 0, 0, 2,
/// ];
/// let (mut bytes, mut values) = ([7; 106], [7; 16]);
/// assert_eq!(otzarvim::verdict(&model, &formula, 2, 9, &mut bytes, &mut values), Err(Refusal::Name.at(0)));
/// assert_eq!(otzarvim::verdict(&model, &formula, 0, 9, &mut bytes[1..], &mut values), Err(Refusal::Room.at(0)));
/// assert_eq!((bytes, values), ([7; 106], [7; 16]));
///
/// let yes = Answer::Decided { verdict: Verdict::Yes, count: 4, length: 106 };
/// assert_eq!(otzarvim::verdict(&model, &formula, 0, 9, &mut bytes, &mut values), Ok(yes));
/// assert_eq!(otzarvim::check_graph(&bytes).map(|graph| graph.nodes), Ok(8));
///
/// let spent = Answer::Spent { count: 3, length: 106 };
/// assert_eq!(otzarvim::verdict(&model, &formula, 0, 3, &mut bytes, &mut values), Ok(spent));
///
/// formula[30] = 1; // E[p0 U<=1 p1]
/// let Ok(Answer::Decided { verdict, .. }) = otzarvim::verdict(&model, &formula, 0, 9, &mut bytes, &mut values) else { panic!() };
/// assert_eq!(verdict, Verdict::No);
/// ```
pub fn verdict(
    model: &[u8],
    formula: &[u8],
    state: u32,
    budget: u32,
    bytes: &mut [u8],
    values: &mut [u64],
) -> Result<Answer, Fault> {
    let (mut verdict, mut count, mut length, mut offset) = (0, 0, 0, 0);
    // SAFETY: four slices, of which the two rooms are lent to this function alone, and numbers of its own. The function is proved to
    // read and write only these.
    let number = unsafe {
        foreign::otzarvim_verdict(
            model.as_ptr(),
            model.len(),
            formula.as_ptr(),
            formula.len(),
            state,
            budget,
            bytes.as_mut_ptr(),
            bytes.len(),
            values.as_mut_ptr(),
            values.len(),
            &mut verdict,
            &mut count,
            &mut length,
            &mut offset,
        )
    };
    match (number, verdict) {
        (0, 1) => Ok(Answer::Decided { verdict: Verdict::Yes, count, length }),
        (0, 2) => Ok(Answer::Decided { verdict: Verdict::No, count, length }),
        (1, _) => Ok(Answer::Spent { count, length }),
        (number, _) => Err(Fault::of(number, offset)),
    }
}

/// Builds the graph of a model and a formula alone, as [`verdict`] does, in `bytes`; gives its message.
///
/// ```
/// use otzarvim::{Graph, Refusal};
///
/// let model = [0, 0, 0, 27, 2, 2, 0, 1, 0, 0, 0, 0, 1, 0, 0, 0, 0, 0, 0, 0, 0, 0, 5, 0, 7, 0, 0];
/// let formula = [0, 0, 0, 23, 1, 3, 2, 0, 0, 0, 0, 0, 0, 0, 0, 6, 0, 0, 0, 0, 0, 0, 5]; // EX<=5 true
/// let mut bytes = [7; 30];
/// assert_eq!(otzarvim::graph(&model, &formula, &mut bytes[..27]), Err(Refusal::Room.at(0)));
/// assert_eq!(bytes, [7; 30]);
///
/// let graph = otzarvim::graph(&model, &formula, &mut bytes).unwrap();
/// assert_eq!(otzarvim::check_graph(graph), Ok(Graph { nodes: 2, hyperedges: 2, covers: 0 }));
/// assert_eq!(graph.len(), 28);
/// ```
pub fn graph<'a>(model: &[u8], formula: &[u8], bytes: &'a mut [u8]) -> Result<&'a [u8], Fault> {
    let (mut length, mut offset) = (0, 0);
    // SAFETY: as for verdict.
    let number = unsafe {
        foreign::otzarvim_graph(
            model.as_ptr(),
            model.len(),
            formula.as_ptr(),
            formula.len(),
            bytes.as_mut_ptr(),
            bytes.len(),
            &mut length,
            &mut offset,
        )
    };
    match number {
        0 => Ok(&bytes[..length]),
        number => Err(Fault::of(number, offset)),
    }
}

/// The same as [`verdict`] for all states of a model at once: one graph and one run of the rounds answer for all.
///
/// ```
/// use otzarvim::Answers;
///
/// let model = [
///     0, 0, 0, 51, 2, 2, 0, 2, 2, 0, 0, 0, 3, //
///     0, 0, 0, 1, 0, 0, 0, 2, //
///     0, 0, 0, 0, 0, 3, 0, 0, 0, 0, //
///     0, 0, 0, 0, 0, 2, 0, 0, 0, 1, //
///     0, 1, 0, 0, 0, 0, 0, 0, 0, 1,
/// ];
/// let formula = [0, 0, 0, 15, 1, 3, 1, 2, 1, 0, 0, 0, 0, 0, 0]; // p1
/// let (mut bytes, mut values) = (vec![0; otzarvim::MOST_GRAPH], vec![0; otzarvim::MOST_VALUES]);
/// let Ok(Answers::Settled { states, count, length }) = otzarvim::settle(&model, &formula, 9, &mut bytes, &mut values) else { panic!() };
/// assert_eq!((count, length), (1, 18));
/// assert_eq!(states, [otzarvim::INFINITE, 0]);
///
/// let spent = Answers::Spent { count: 0, length: 18 };
/// assert_eq!(otzarvim::settle(&model, &formula, 0, &mut bytes, &mut values), Ok(spent));
/// assert_eq!(otzarvim::settle(&model, &[], 9, &mut bytes, &mut values), Err(otzarvim::Refusal::Length.at(0)));
/// ```
pub fn settle<'a>(
    model: &[u8],
    formula: &[u8],
    budget: u32,
    bytes: &mut [u8],
    values: &'a mut [u64],
) -> Result<Answers<'a>, Fault> {
    let (mut count, mut length, mut states, mut offset) = (0, 0, [0; 2], 0);
    // SAFETY: as for verdict.
    let number = unsafe {
        foreign::otzarvim_settle(
            model.as_ptr(),
            model.len(),
            formula.as_ptr(),
            formula.len(),
            budget,
            bytes.as_mut_ptr(),
            bytes.len(),
            values.as_mut_ptr(),
            values.len(),
            &mut count,
            &mut length,
            states.as_mut_ptr(),
            &mut offset,
        )
    };
    match number {
        0 => {
            let [first, many] = states.map(|number| number as usize);
            Ok(Answers::Settled { states: &values[first..first + many], count, length })
        }
        1 => Ok(Answers::Spent { count, length }),
        number => Err(Fault::of(number, offset)),
    }
}

/// Whether a state of a model satisfies a formula: lends [`verdict`] rooms and a budget that suffice.
///
/// ```
/// use otzarvim::Refusal;
///
/// let model = [0, 0, 0, 27, 2, 2, 0, 1, 0, 0, 0, 0, 1, 0, 0, 0, 0, 0, 0, 0, 0, 0, 5, 0, 7, 0, 0];
/// let formula = [0, 0, 0, 23, 1, 3, 2, 0, 0, 0, 0, 0, 0, 0, 0, 6, 0, 0, 0, 0, 0, 0, 4]; // EX<=4 true
/// assert_eq!(otzarvim::satisfies(&model, &formula, 0), Ok(false));
/// assert_eq!(otzarvim::satisfies(&model, &formula, 1), Err(Refusal::Name.at(0)));
///
/// // EX#7<=5 true and EX#8<=5 true: the transition has action 7.
/// let mut formula = [0, 0, 0, 23, 1, 3, 2, 0, 0, 0, 0, 0, 0, 0, 0, 10, 0, 7, 0, 0, 0, 0, 5];
/// assert_eq!(otzarvim::satisfies(&model, &formula, 0), Ok(true));
/// formula[17] = 8;
/// assert_eq!(otzarvim::satisfies(&model, &formula, 0), Ok(false));
/// assert_eq!(otzarvim::satisfies(&model[..26], &formula, 0), Err(Refusal::Length.at(0)));
/// ```
pub fn satisfies(model: &[u8], formula: &[u8], state: u32) -> Result<bool, Fault> {
    let (mut bytes, mut values) = rooms();
    match verdict(model, formula, state, MOST_ROUNDS, &mut bytes, &mut values)? {
        Answer::Decided { verdict, .. } => Ok(verdict == Verdict::Yes),
        Answer::Spent { .. } => unreachable!("no question needs so many rounds"),
    }
}

/// Whether each state of a model satisfies a formula.
///
/// ```
/// // State 0 goes to itself with weight 1, state 1 to state 0 with weight 2.
/// let model = [
///     0, 0, 0, 41, 2, 2, 0, 2, 0, 0, 0, 0, 2, //
///     0, 0, 0, 0, 0, 0, 0, 0, //
///     0, 0, 0, 0, 0, 1, 0, 0, 0, 0, //
///     0, 1, 0, 0, 0, 2, 0, 0, 0, 0,
/// ];
/// let formula = [0, 0, 0, 23, 1, 3, 2, 0, 0, 0, 0, 0, 0, 0, 0, 6, 0, 0, 0, 0, 0, 0, 1]; // EX<=1 true
/// assert_eq!(otzarvim::satisfying(&model, &formula), Ok(vec![true, false]));
/// ```
pub fn satisfying(model: &[u8], formula: &[u8]) -> Result<Vec<bool>, Fault> {
    let (mut bytes, mut values) = rooms();
    match settle(model, formula, MOST_ROUNDS, &mut bytes, &mut values)? {
        Answers::Settled { states, .. } => Ok(states.iter().map(|&number| number == 0).collect()),
        Answers::Spent { .. } => unreachable!("no question needs so many rounds"),
    }
}

/// Rooms that always suffice.
fn rooms() -> (Vec<u8>, Vec<u64>) {
    (vec![0; MOST_GRAPH], vec![0; MOST_VALUES])
}

/// What is entered into a [`Tally`]: how a question ended, and its count of rounds.
///
/// ```
/// use otzarvim::{Answer, Entry, Refusal, Verdict};
///
/// assert_eq!(Entry::from(Answer::Decided { verdict: Verdict::Yes, count: 4, length: 140 }), Entry::Yes { rounds: 4 });
/// assert_eq!(Entry::from(Answer::Spent { count: 3, length: 140 }), Entry::Refused { number: 1, rounds: 3 });
/// assert_eq!(Entry::from(Refusal::Order), Entry::Refused { number: 5, rounds: 0 });
/// ```
#[derive(Clone, Copy, Debug, PartialEq, Eq, Hash)]
pub enum Entry {
    /// The state satisfies the formula.
    Yes {
        /// The count of rounds.
        rounds: u32,
    },
    /// It doesn't.
    No {
        /// The count of rounds.
        rounds: u32,
    },
    /// There is no verdict.
    Refused {
        /// The refusal's number, 1 for a spent budget.
        number: u8,
        /// The count of rounds; only a spent budget's counts.
        rounds: u32,
    },
}

impl From<Answer> for Entry {
    fn from(answer: Answer) -> Entry {
        match answer {
            Answer::Decided { verdict: Verdict::Yes, count, .. } => Entry::Yes { rounds: count },
            Answer::Decided { verdict: Verdict::No, count, .. } => Entry::No { rounds: count },
            Answer::Spent { count, .. } => Entry::Refused { number: 1, rounds: count },
        }
    }
}

impl From<Refusal> for Entry {
    fn from(refusal: Refusal) -> Entry {
        Entry::Refused { number: refusal.number(), rounds: 0 }
    }
}

/// The nightly sheet: one running tally that each verdict is entered into. It starts with all numbers 0, and any numbers are safe.
/// Shown, it is its report: the numbers below in their order, one on a line.
///
/// ```
/// use otzarvim::{Entry, Refusal, Tally};
///
/// let mut tally = Tally::default();
/// assert_eq!(tally.enter(Entry::Yes { rounds: 4 }), Ok(()));
/// assert_eq!(tally.enter(Entry::Refused { number: 1, rounds: 9 }), Ok(()));
/// assert_eq!(tally.enter(Entry::Refused { number: 7, rounds: 100 }), Ok(()));
/// assert_eq!(tally.enter(Entry::Refused { number: 0, rounds: 1 }), Err(Refusal::Name));
/// assert_eq!(tally.enter(Entry::Refused { number: 12, rounds: 1 }), Err(Refusal::Name));
/// assert_eq!(tally.to_string(), "1\n0\n1\n0\n0\n0\n0\n0\n1\n0\n0\n0\n0\n13\n9\n");
///
/// // At its end: 4,294,967,295 are accepted and no more.
/// let mut tally = Tally { no: 4_294_967_294, ..Tally::default() };
/// assert_eq!(tally.enter(Entry::No { rounds: u32::MAX }), Ok(()));
/// assert_eq!(tally.enter(Entry::No { rounds: 0 }), Err(Refusal::Limit));
/// assert_eq!(tally.enter(Entry::Refused { number: 0, rounds: 0 }), Err(Refusal::Name));
/// assert_eq!((tally.no, tally.sum, tally.largest), (4_294_967_295, 4_294_967_295, 4_294_967_295));
///
/// // A sum that didn't begin at 0 can be at its end too.
/// let mut tally = Tally { sum: u64::MAX - 2, ..Tally::default() };
/// assert_eq!(tally.enter(Entry::Yes { rounds: 3 }), Err(Refusal::Limit));
/// assert_eq!(tally.enter(Entry::Yes { rounds: 2 }), Ok(()));
/// assert_eq!(tally.sum, u64::MAX);
/// ```
#[repr(C)]
#[derive(Clone, Copy, Debug, Default, PartialEq, Eq, Hash)]
pub struct Tally {
    /// How many were yes.
    pub yes: u64,
    /// How many were no.
    pub no: u64,
    /// How many had each refusal number, number 1 first.
    pub refused: [u64; 11],
    /// The exact sum of the rounds.
    pub sum: u64,
    /// The largest of the rounds.
    pub largest: u64,
}

/// So many bytes hold the report of any tally.
pub const MOST_REPORT: usize = 15 * 21;

impl Tally {
    /// Enters how a question ended. Refused are a number that the table of refusals doesn't have ([`Refusal::Name`]), and any entry
    /// after 4,294,967,295 accepted, or one with which the sum would pass 64 bits ([`Refusal::Limit`]); both change nothing.
    pub fn enter(&mut self, entry: Entry) -> Result<(), Refusal> {
        let (number, verdict, rounds) = match entry {
            Entry::Yes { rounds } => (0, 1, rounds),
            Entry::No { rounds } => (0, 2, rounds),
            Entry::Refused { number, rounds } => (number, 0, rounds),
        };
        // SAFETY: the tally is lent to this function alone. The function is proved to read and write only it.
        match unsafe { foreign::otzarvim_tally_enter(self, number, verdict, rounds) } {
            0 => Ok(()),
            number => Err(Fault::of(number, 0).refusal),
        }
    }
}

impl fmt::Display for Tally {
    fn fmt(&self, f: &mut fmt::Formatter) -> fmt::Result {
        let (mut room, mut length) = ([0; MOST_REPORT], 0);
        // SAFETY: the tally is only read, the room and the length are this function's own. The function is proved to read and write
        // only these.
        let number = unsafe { foreign::otzarvim_tally_report(self, room.as_mut_ptr(), room.len(), &mut length) };
        assert_eq!(number, 0, "the room holds any report");
        f.write_str(std::str::from_utf8(&room[..length]).expect("digits and line feeds"))
    }
}
