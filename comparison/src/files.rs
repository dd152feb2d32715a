//! A segment file in one call of the library, beside the oracle that adds its records one by one: how
//! many were taken, what ended it, the counts and the stage, and every entry of every table.

use crate::{answer_file, filled, Packed};
use oracle::original::Line3D;
use oracle::state::{Call, Lent, Reply, Side, State};
use oracle::Oracle;
use oracle::{listing, records};
use tukmiheb::entries::FILE_LENGTH;

/// How many records were taken and the number of what ended it, or the refusal of the call.
pub type Answer = Result<[u64; FILE_LENGTH], u32>;

fn add_file(state: &mut State, bytes: &[u8], lent: &Lent) -> Answer {
    let mut small = [state.nodes, state.edges, state.stage];
    let mut packed = Packed::of(&state.tables);
    let answered = answer_file(bytes, &mut small, &mut packed.lend(lent));
    packed.unpack(&mut state.tables);
    [state.nodes, state.edges, state.stage] = small;
    answered.map_err(|refusal| refusal.number())
}

fn add_lines(oracle: &mut Oracle, bytes: &[u8], lent: &Lent) -> Answer {
    // Sorting makes the same tests of the state: 6, 7 and 5, with stage 0.
    let mut sorting = Oracle::over(oracle.state().clone());
    if let Reply::Refused(number) = sorting.call(&Call::Sort, lent) {
        return Err(number);
    }
    let mut taken = 0;
    for line in listing::segments(bytes) {
        let reply = line.map(|line| Some(oracle.call(&Call::Add(line?), lent)));
        let refused = match reply {
            Err(refusal) => refusal.number(),
            Ok(Some(Reply::Refused(number))) => number,
            // added, or passed over
            Ok(_) => {
                taken += 1;
                continue;
            }
        };
        return Ok([taken, refused.into()]);
    }
    Ok([taken, 0])
}

/// The answer of both sides to a file, and the state that they leave.
pub fn compare(state: &State, bytes: &[u8], lent: &Lent) -> (Answer, State) {
    let mut library = state.clone();
    let mut oracle = Oracle::over(state.clone());
    let answer = add_file(&mut library, bytes, lent);
    assert_eq!(answer, add_lines(&mut oracle, bytes, lent), "{bytes:?}");
    assert_eq!(library.difference(oracle.state()), None, "{bytes:?}");
    if answer.is_err() {
        assert_eq!(library.difference(state), None, "{bytes:?}");
    }
    (answer, library)
}

/// An empty graph over tables that hold other things.
pub fn empty() -> State {
    let mut state = filled();
    [state.nodes, state.edges, state.stage] = [0; 3];
    state
}

/// The bytes of a file with these lines.
pub fn records(lines: impl IntoIterator<Item = Line3D>) -> Vec<u8> {
    lines
        .into_iter()
        .flat_map(|line| records::segment(&line))
        .collect()
}
