//! The library as one side of the comparison.

use crate::lists::{lend_lists, LentLists};
use crate::slices::{flag, Packed};
use oracle::state::{Call, Census, Lent, Reply, Side, State};
use tukmiheb::entries::{
    self, Slices, ADDED_LENGTH, CENSUS_LENGTH, COUNT_LENGTH, FILE_LENGTH, RINGS_LENGTH,
    STATE_LENGTH,
};
use tukmiheb::Refusal;

/// The library, with tables and lists that the comparison can look into. For each call the tables
/// are packed into slices, and back.
pub struct Library {
    state: State,
}

impl Library {
    pub fn over(state: State) -> Self {
        Library { state }
    }
}

impl Side for Library {
    fn state(&self) -> &State {
        &self.state
    }

    fn state_mut(&mut self) -> &mut State {
        &mut self.state
    }

    fn call(&mut self, call: &Call, lent: &Lent) -> Reply {
        let State {
            nodes,
            edges,
            stage,
            tables,
            lists,
        } = &mut self.state;
        let mut small = [*nodes, *edges, *stage];
        let mut packed = Packed::of(tables);
        let answered = lend_lists(lists, lent, |lists| {
            answer(call, &mut small, &mut packed.lend(lent), lists)
        });
        packed.unpack(tables);
        [*nodes, *edges, *stage] = small;
        answered.unwrap_or_else(|refusal| Reply::Refused(refusal.number()))
    }
}

/// Room for the longest reply and an entry past it, which has to stay.
type Numbers = [u16; RINGS_LENGTH + 1];

/// What the library never answers.
const UNWRITTEN: Numbers = [u16::MAX; RINGS_LENGTH + 1];

/// Makes a call on what is lent to it.
pub fn answer(
    call: &Call,
    state: &mut [u16; STATE_LENGTH],
    slices: &mut Slices,
    lists: LentLists,
) -> Result<Reply, Refusal> {
    let mut reply = UNWRITTEN;
    let answered = made(call, state, slices, lists, &mut reply);
    let written = answered.map_or(0, |()| reply_length(call));
    assert_eq!(reply[written..], UNWRITTEN[written..], "{call:?}");
    answered.map(|()| granted(call, reply))
}

fn made(
    call: &Call,
    state: &mut [u16; STATE_LENGTH],
    slices: &mut Slices,
    mut lists: LentLists,
    reply: &mut Numbers,
) -> Result<(), Refusal> {
    let LentLists {
        edges,
        rings,
        holes,
    } = &mut lists;
    match call {
        Call::Create => entries::create(state, slices),
        Call::Add(line) => {
            let (a, b) = (line.start, line.end);
            let values = [a.x, a.y, a.z, b.x, b.y, b.z];
            entries::add_line(state, &values, line.line_id, slices, front(reply))
        }
        Call::Sort => entries::sort_edges(state, slices),
        Call::Prune => entries::prune_dangles(state, slices, edges, front(reply)),
        Call::Cut => entries::delete_cut_edges(state, slices, edges, front(reply)),
        Call::Rings => entries::extract_rings(holes, state, slices, rings, front(reply)),
        Call::Reset => entries::reset(state, slices),
    }
}

/// The first entries of what has room for a reply, as many as the reply has.
pub fn front<T, const LENGTH: usize>(reply: &mut [T]) -> &mut [T; LENGTH] {
    reply.first_chunk_mut().expect("room for every reply")
}

/// How many numbers the library answers.
fn reply_length(call: &Call) -> usize {
    match call {
        Call::Create | Call::Sort | Call::Reset => 0,
        Call::Prune => COUNT_LENGTH,
        Call::Add(_) => ADDED_LENGTH,
        Call::Cut => CENSUS_LENGTH,
        Call::Rings => RINGS_LENGTH,
    }
}

/// The reply to a call that was not refused, by its numbers.
fn granted(call: &Call, reply: Numbers) -> Reply {
    let [count, counts @ .., comparisons, half_edges, holes, _] = reply;
    match call {
        Call::Create => Reply::Created,
        Call::Add(_) => Reply::Edge {
            edge: count,
            new: flag(counts[0]),
        },
        Call::Sort | Call::Reset => Reply::Done,
        Call::Prune => Reply::Dangles(count),
        Call::Cut => Reply::Cuts(count, census(counts)),
        Call::Rings => Reply::Rings {
            count,
            census: census(counts),
            comparisons,
            half_edges,
            holes,
        },
    }
}

fn census([vertices, edges, cycles, pieces, verdict]: [u16; 5]) -> Census {
    Census {
        vertices,
        edges,
        cycles,
        pieces,
        verdict: flag(verdict),
    }
}

/// Adds the records of a file: how many were taken, and the number of what ended it.
pub fn answer_file(
    bytes: &[u8],
    state: &mut [u16; STATE_LENGTH],
    slices: &mut Slices,
) -> Result<[u64; FILE_LENGTH], Refusal> {
    const UNWRITTEN: [u64; FILE_LENGTH + 1] = [u64::MAX; FILE_LENGTH + 1];
    let mut reply = UNWRITTEN;
    let answered = entries::add_records(state, bytes, slices, front(&mut reply));
    let written = answered.map_or(0, |()| FILE_LENGTH);
    assert_eq!(reply[written..], UNWRITTEN[written..], "a file");
    let [taken, number, _] = reply;
    answered.map(|()| [taken, number])
}
