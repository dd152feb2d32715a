//! The library and the oracle on the same inputs.
//!
//! Both sides start from tables and lists that hold other things. After every call the replies,
//! the counts and the stage, and every entry of every table and list are compared, written or not.

pub mod files;
pub mod full;
pub mod inputs;
pub mod islands;
pub mod random;

mod library;
mod lists;
mod slices;

pub use library::{answer, answer_file, front, Library};
pub use lists::{lend_lists, LentLists};
pub use slices::{Packed, Slice};

use oracle::calls::{self, Line};
use oracle::state::{Call, Hole, Lent, Reply, Side, State};
use oracle::{line_ids, rules, Oracle};
use std::fmt::Write;

/// How many call lists and calls were compared; how many calls were refused, and how many
/// extractions had rings of equal key and area.
#[derive(Clone, Copy, Debug, Default)]
pub struct Tally {
    pub lists: usize,
    pub calls: usize,
    pub refused: usize,
    pub tied: usize,
}

/// Both sides, run on one call list after another.
pub struct Comparison {
    library: Library,
    oracle: Oracle,
    pub tally: Tally,
}

impl Default for Comparison {
    fn default() -> Self {
        Comparison::over(filled())
    }
}

impl Comparison {
    /// Both sides over the same tables and lists.
    pub fn over(state: State) -> Self {
        Comparison {
            library: Library::over(state.clone()),
            oracle: Oracle::over(state),
            tally: Tally::default(),
        }
    }

    /// The counts of nodes and edges.
    pub fn counts(&self) -> [usize; 2] {
        let state = self.oracle.state();
        [state.nodes.into(), state.edges.into()]
    }

    /// The library's state and the oracle's.
    pub fn states(&self) -> [&State; 2] {
        [self.library.state(), self.oracle.state()]
    }

    /// Runs a call list on both sides. Where they differ, it ends the test and prints the list as
    /// far as it was run.
    pub fn run(&mut self, lines: &[Line]) {
        self.tally.lists += 1;
        let mut lent = Lent::FULL;
        for (at, line) in lines.iter().enumerate() {
            if let Err(why) = self.run_line(line, &mut lent) {
                let mut list = String::new();
                for line in &lines[..=at] {
                    let _ = writeln!(list, "{line}");
                }
                panic!("{why}\n\n{list}");
            }
        }
    }

    fn run_line(&mut self, line: &Line, lent: &mut Lent) -> Result<(), String> {
        if let Line::Call(call) = line {
            self.call(call, lent)?;
            lent.short = None;
            return Ok(());
        }
        calls::prepare(line, &mut self.library, lent)?;
        calls::prepare(line, &mut self.oracle, lent)
    }

    /// Makes a call on both sides; the reply, or what differs after it.
    pub fn call(&mut self, call: &Call, lent: &Lent) -> Result<Reply, String> {
        let library = self.library.call(call, lent);
        let oracle = self.oracle.call(call, lent);
        self.tally.calls += 1;
        self.tally.refused += usize::from(matches!(oracle, Reply::Refused(_)));
        let ringed = matches!(oracle, Reply::Rings { .. });
        self.tally.tied += usize::from(ringed && rules::has_ties(self.oracle.named()));
        match difference([library, oracle], &self.library, &self.oracle) {
            Some(why) => Err(why),
            None => Ok(oracle),
        }
    }

    /// Makes a call that has to leave every entry on both sides, refused or not; the reply.
    pub fn call_in_vain(&mut self, call: &Call) -> Reply {
        self.lend_in_vain(call, &Lent::FULL)
    }

    /// The same of a call that is lent its tables and lists so.
    pub fn lend_in_vain(&mut self, call: &Call, lent: &Lent) -> Reply {
        let before = self.states().map(State::clone);
        let reply = self.call(call, lent).expect("no difference");
        for (state, before) in self.states().into_iter().zip(before) {
            assert_eq!(state.difference(&before), None, "{call:?} {reply:?}");
        }
        reply
    }
}

/// What the sides differ in after a call.
fn difference(replies: [Reply; 2], library: &Library, oracle: &Oracle) -> Option<String> {
    let [library_reply, oracle_reply] = replies;
    if library_reply != oracle_reply {
        return Some(format!(
            "the library answered {library_reply:?}, the oracle {oracle_reply:?}"
        ));
    }
    if let Some(why) = library.state().difference(oracle.state()) {
        return Some(format!("the library's and the oracle's {why}"));
    }
    // A refused call may have left the original's graph behind what was written into the tables.
    if matches!(oracle_reply, Reply::Refused(_)) {
        return None;
    }
    star_difference(library, oracle).or_else(|| line_id_difference(library, oracle))
}

/// Whether the library's stars are those of the original, which has no table of them.
fn star_difference(library: &Library, oracle: &Oracle) -> Option<String> {
    let stars = library.state().stars();
    let same = stars.len() == oracle.stars().len()
        && stars.iter().zip(oracle.stars()).all(|(star, original)| {
            star.iter()
                .map(|&half| usize::from(half))
                .eq(original.iter().copied())
        });
    (!same).then(|| format!("stars {stars:?} and {:?}", oracle.stars()))
}

/// Whether the library's lists of line ids are what each edge must have, wherever their pairs stand.
fn line_id_difference(library: &Library, oracle: &Oracle) -> Option<String> {
    let state = library.state();
    (0..usize::from(state.edges)).find_map(|edge| {
        let must = &oracle.line_ids()[edge];
        let same = line_ids::ids(edge, &state.tables).eq(must.iter().copied());
        (!same).then(|| format!("edge {edge} has not the line ids {must:?}"))
    })
}

/// Tables and lists that hold other things in every entry, none of them a sound value.
pub fn filled() -> State {
    let mut state = State::default();
    let float = |place: usize| f64::from_bits(0x7ff0_0000_0000_0001 + place as u64);
    let floats = |table: &mut Vec<f64>| {
        let places = table.iter_mut().enumerate();
        places.for_each(|(place, entry)| *entry = float(place));
    };
    let tables = &mut state.tables;
    floats(&mut tables.nodes_x);
    floats(&mut tables.nodes_y);
    floats(&mut tables.nodes_z);
    tables.nodes_degree.fill(0xdddd);
    tables.nodes_marked.fill(true);
    floats(&mut tables.edges_line);
    tables.edges_line_id.fill(0xdddd_dddd);
    tables.dir_edges_src.fill(0xdddd);
    tables.dir_edges_dst.fill(0xdddd);
    tables.dir_edges_marked.fill(true);
    tables.nodes_outgoing.fill(0xdddd);
    tables.edges_list_place.fill(0xdddd);
    tables.pairs_id.fill(0xdddd_dddd);
    tables.pairs_next.fill(0xdddd);
    let lists = &mut state.lists;
    lists.edges.fill(0xeeee);
    lists.half_edges.fill(0xeeee);
    lists.ring_first.fill(0xeeee);
    lists.ring_length.fill(0xeeee);
    lists.ring_face.fill(0xeeee);
    lists.ring_side.fill(0xee);
    floats(&mut lists.ring_area);
    lists.holes.fill(Hole {
        ring: 0xeeee,
        holder: 0xeeee,
        doubled: i64::from_ne_bytes([0xee; 8]),
    });
    state
}
