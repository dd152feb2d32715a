//! The slices that are lent to a call: their lengths, and marks as bytes.

use comparison::inputs::{self, Segment, STEPS};
use comparison::random::Random;
use comparison::{answer, answer_file, lend_lists, Packed, Slice};
use oracle::calls::{self, Line};
use oracle::state::{Call, Lent, Lists, Reply, Side, State, LISTS, TABLES};
use oracle::{records, Oracle};
use std::ops::RangeInclusive;
use tukmiheb::entries::{FILE_LENGTH, STATE_LENGTH};
use tukmiheb::layout::{HALF_EDGE_MARKS, NODE_MARKS};

/// The bytes that are no mark.
const NO_MARKS: RangeInclusive<u8> = 2..=255;

/// A call that the oracle makes too, or the records of a file.
#[derive(Debug)]
enum Asked {
    Call(Call),
    File(Vec<u8>),
}

impl Asked {
    /// Creating reads no slice but for its length.
    fn reads_marks(&self) -> bool {
        !matches!(self, Asked::Call(Call::Create))
    }
}

/// All calls, with a line to be added and a file.
fn all_calls(segment: Segment, file: &[u8]) -> Vec<Asked> {
    let line = inputs::segment_line(segment, 9);
    let calls = [Call::Create, Call::Add(line), Call::Reset];
    let calls = calls.into_iter().chain(STEPS).map(Asked::Call);
    calls.chain([Asked::File(file.to_vec())]).collect()
}

/// All that is lent to a call.
#[derive(Clone)]
struct Held {
    small: [u16; STATE_LENGTH],
    packed: Packed,
    lists: Lists,
}

impl Held {
    fn of(state: &State) -> Self {
        Held {
            small: [state.nodes, state.edges, state.stage],
            packed: Packed::of(&state.tables),
            lists: state.lists.clone(),
        }
    }

    fn call(&mut self, call: &Call, lent: &Lent) -> Reply {
        let slices = &mut self.packed.lend(lent);
        let small = &mut self.small;
        let answered = lend_lists(&mut self.lists, lent, |lists| {
            answer(call, small, slices, lists)
        });
        answered.unwrap_or_else(|refusal| Reply::Refused(refusal.number()))
    }

    fn add_file(&mut self, bytes: &[u8], lent: &Lent) -> Result<[u64; FILE_LENGTH], u32> {
        let slices = &mut self.packed.lend(lent);
        let answered = answer_file(bytes, &mut self.small, slices);
        answered.map_err(|refusal| refusal.number())
    }

    /// The number of the refusal, if the call is refused.
    fn refusal(&mut self, asked: &Asked, lent: &Lent) -> Option<u32> {
        match asked {
            Asked::Call(call) => match self.call(call, lent) {
                Reply::Refused(number) => Some(number),
                _ => None,
            },
            Asked::File(bytes) => self.add_file(bytes, lent).err(),
        }
    }

    fn is(&self, other: &Held) -> bool {
        self.small == other.small
            && self.packed == other.packed
            && self.lists.difference(&other.lists, [0; LISTS]).is_none()
    }

    /// The places of the bytes in use.
    fn places_in_use(&self) -> impl Iterator<Item = usize> {
        let [nodes, edges, _] = self.small.map(usize::from);
        let halves = HALF_EDGE_MARKS..HALF_EDGE_MARKS + 2 * edges;
        (NODE_MARKS..NODE_MARKS + nodes).chain(halves)
    }
}

/// A square with a loose end, over tables that hold other things: in each stage. Pruning marks.
fn in_each_stage() -> Vec<Held> {
    let mut map = inputs::square([0, 0], 2);
    map.push([[2, 2], [3, 3]]);
    let mut oracle = Oracle::over(comparison::filled());
    for line in inputs::traced(&map) {
        if let Line::Call(call) = line {
            oracle.call(&call, &Lent::FULL);
        }
    }
    let mut stages = vec![Held::of(oracle.state())];
    for step in STEPS {
        oracle.call(&step, &Lent::FULL);
        stages.push(Held::of(oracle.state()));
    }
    stages
}

fn good_calls() -> Vec<Asked> {
    let segment = [[5, 0], [6, 1]];
    all_calls(
        segment,
        &records::segment(&inputs::segment_line(segment, 9)),
    )
}

/// A line with both ends at one node, and a file that ends within a record.
fn bad_calls() -> Vec<Asked> {
    all_calls([[7, 7], [7, 7]], &[54, 0, 0])
}

fn resize(packed: &mut Packed, slice: Slice, length: usize) {
    match slice {
        Slice::Floats => packed.floats.resize(length, f64::NAN),
        Slice::Numbers => packed.numbers.resize(length, 0xdddd),
        Slice::Stars => packed.stars.resize(length, 0xdddd),
        Slice::Marks => packed.marks.resize(length, 0xdd),
        Slice::Ids => packed.ids.resize(length, 0xdddd_dddd),
    }
}

/// Each slice alone shorter than the limits need: every call refuses it, in every stage.
#[test]
fn short_slices() {
    for stage in in_each_stage() {
        for slice in Slice::ALL {
            let least = slice.least_length();
            for length in [0, 1, least / 2, least - 1] {
                let mut held = stage.clone();
                resize(&mut held.packed, slice, length);
                let before = held.clone();
                for asked in good_calls() {
                    let refusal = held.refusal(&asked, &Lent::FULL);
                    assert_eq!(refusal, Some(6), "{asked:?}, {slice:?} of {length}");
                }
                assert!(held.is(&before), "{slice:?} of {length}");
            }
        }
    }
}

/// Each slice alone longer than the limits need: every call does the same, and what lies past the
/// limits stays.
#[test]
fn long_slices() {
    for stage in in_each_stage() {
        for slice in Slice::ALL {
            let length = slice.least_length() + 9;
            for asked in good_calls() {
                let [mut exact, mut longer] = [stage.clone(), stage.clone()];
                resize(&mut longer.packed, slice, length);
                let refusal = longer.refusal(&asked, &Lent::FULL);
                assert_eq!(refusal, exact.refusal(&asked, &Lent::FULL));
                resize(&mut exact.packed, slice, length);
                assert!(longer.is(&exact), "{asked:?}, {slice:?} of {length}");
            }
        }
    }
}

/// Every byte in use with everything but a mark in it: every call that reads marks refuses it, in
/// its own stage as in another.
#[test]
fn bytes_in_use_are_marks() {
    let mut calls = good_calls();
    calls.retain(Asked::reads_marks);
    for stage in in_each_stage() {
        for place in stage.places_in_use() {
            let mut held = stage.clone();
            for byte in NO_MARKS {
                held.packed.marks[place] = byte;
                let before = held.clone();
                for asked in &calls {
                    let refusal = held.refusal(asked, &Lent::FULL);
                    assert_eq!(refusal, Some(7), "{asked:?}, byte {byte} at {place}");
                }
                assert!(held.is(&before), "byte {byte} at {place}");
            }
        }
    }
}

/// Creating reads no marks: the bytes that were in use stay.
#[test]
fn creating_keeps_bytes() {
    for stage in in_each_stage() {
        let mut held = stage.clone();
        for (place, byte) in stage.places_in_use().zip(NO_MARKS) {
            held.packed.marks[place] = byte;
        }
        let mut expected = held.clone();
        expected.small = [0; STATE_LENGTH];
        assert_eq!(held.call(&Call::Create, &Lent::FULL), Reply::Created);
        assert!(held.is(&expected));
    }
}

/// A short slice comes before a byte that is no mark, and that before the stage, a bad line or
/// record, and short lists.
#[test]
fn order_of_refusals() {
    for stage in in_each_stage() {
        let mut held = stage.clone();
        let last = stage.places_in_use().last().expect("a half-edge");
        held.packed.marks[last] = 2;
        let before = held.clone();
        let lists = Lent::of_length(0).with_holes(0);
        for asked in bad_calls() {
            for table in 0..TABLES {
                let short = Some(table);
                let refusal = held.refusal(&asked, &Lent { short, ..lists });
                assert_eq!(refusal, Some(6), "{asked:?}, short {table}");
            }
            if asked.reads_marks() {
                assert_eq!(held.refusal(&asked, &lists), Some(7), "{asked:?}");
            }
        }
        assert!(held.is(&before));
    }
}

/// A graph over bytes that are no marks, none of them in use yet, beside the oracle. There they
/// stand for marks, so that both sides hold the same.
struct OverBytes {
    held: Held,
    oracle: Oracle,
}

impl OverBytes {
    fn new(random: &mut Random) -> Self {
        let state = comparison::filled();
        let mut held = Held::of(&state);
        assert!(held.packed.marks.iter().all(|&byte| byte == 1));
        let no_marks: Vec<u8> = NO_MARKS.collect();
        held.packed.marks.fill_with(|| random.pick(&no_marks));
        let oracle = Oracle::over(state);
        OverBytes { held, oracle }
    }

    fn call(&mut self, call: &Call, lent: &Lent) {
        let bytes = self.held.packed.marks.clone();
        let reply = self.held.call(call, lent);
        assert_eq!(reply, self.oracle.call(call, lent));
        self.check(&bytes);
    }

    /// Both sides hold the same, and a byte was written exactly where its mark changed.
    fn check(&self, bytes_before: &[u8]) {
        let mut expected = Held::of(self.oracle.state());
        for (mark, &byte) in expected.packed.marks.iter_mut().zip(bytes_before) {
            if (*mark != 0) == (byte != 0) {
                *mark = byte;
            }
        }
        assert!(self.held.is(&expected));
    }
}

/// Any calls: bytes out of use stay, and do no harm where they come into use.
#[test]
fn bytes_out_of_use_stay() {
    let mut random = Random::new(18);
    for _ in 0..300 {
        let mut both = OverBytes::new(&mut random);
        let mut lent = Lent::FULL;
        for line in inputs::any_calls(40, &mut random) {
            if let Line::Call(call) = line {
                both.call(&call, &lent);
                lent.short = None;
            } else {
                calls::prepare(&line, &mut both.oracle, &mut lent).expect("a length");
            }
        }
    }
}

/// The same of files: the first half of a map, and after all steps and a reset the whole of it.
#[test]
fn bytes_out_of_use_stay_with_files() {
    let mut random = Random::new(19);
    for edges in 2..60 {
        let mut both = OverBytes::new(&mut random);
        let map = inputs::grid(5, 5, 1);
        for count in [edges / 2, edges] {
            let lines: Vec<_> = (0..)
                .zip(&map[..count])
                .map(|(id, &segment)| inputs::segment_line(segment, id))
                .collect();
            let file: Vec<u8> = lines.iter().flat_map(records::segment).collect();
            let bytes = both.held.packed.marks.clone();
            let answered = both.held.add_file(&file, &Lent::FULL);
            assert_eq!(answered, Ok([count as u64, 0]));
            for line in lines {
                both.oracle.call(&Call::Add(line), &Lent::FULL);
            }
            both.check(&bytes);
            for call in STEPS.into_iter().chain([Call::Reset]) {
                both.call(&call, &Lent::FULL);
            }
        }
    }
}
