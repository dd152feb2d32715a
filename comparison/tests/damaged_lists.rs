//! Damaged lists of line ids: every kind, in every stage, refused by every call but creating, with
//! every entry as it was; and damage at random.

use comparison::files::{self, compare};
use comparison::inputs::{self, set, LINE_IDS, LINKS, LIST_PLACES, PAIR_IDS, STEPS};
use comparison::random::Random;
use comparison::Comparison;
use oracle::calls::Line;
use oracle::state::{Call, Lent, Reply, LIST_END, PAIR_LIMIT, TABLES};

/// A triangle whose lists are 3 4 5 at places 1, 2 and 0; 7 9 at places 4 and 3; 6 at place 5.
fn three_lists() -> Vec<Line> {
    let map = inputs::loop_through(&[[0, 0], [4, 0], [0, 3]]);
    let passes = [(0, 5), (0, 3), (0, 4), (1, 9), (1, 7), (2, 6)];
    inputs::from_new(passes.map(|(side, id)| inputs::addition(map[side], id)))
}

/// Damage by what it breaks.
type Damage = (&'static str, Vec<Line>);

/// Lists that do not end. They do not rise either: places that come again bring their ids again.
fn cycles() -> Vec<Damage> {
    vec![
        ("one pair", vec![set(LINKS, 5, 5)]),
        ("all pairs of a list", vec![set(LINKS, 0, 1)]),
        ("the last two of three", vec![set(LINKS, 0, 2)]),
        ("two lists", vec![set(LINKS, 3, 5), set(LINKS, 5, 4)]),
    ]
}

/// Lists that share places and are sound alone.
fn shared_places() -> Vec<Damage> {
    let as_second = vec![set(LIST_PLACES, 2, 4), set(LINE_IDS, 2, 7)];
    let as_its_end = vec![set(LIST_PLACES, 2, 3), set(LINE_IDS, 2, 9)];
    vec![
        ("two lists are one", as_second),
        ("a list is another's end", as_its_end),
        ("a list ends as another does", vec![set(LINKS, 5, 3)]),
        ("a list goes on as another", vec![set(LINKS, 0, 5)]),
    ]
}

/// Lists with a wrong id, all with their own places and an end.
fn wrong_ids() -> Vec<Damage> {
    vec![
        ("an id twice", vec![set(PAIR_IDS, 0, 4)]),
        ("the first id twice", vec![set(PAIR_IDS, 2, 3)]),
        ("a lower id second", vec![set(PAIR_IDS, 2, 2)]),
        ("a lower id last", vec![set(PAIR_IDS, 3, 6)]),
        ("the line id is second", vec![set(LINE_IDS, 0, 4)]),
        ("the line id is below the first", vec![set(LINE_IDS, 1, 6)]),
        ("the line id is another edge's", vec![set(LINE_IDS, 2, 7)]),
        ("the first id is below it", vec![set(PAIR_IDS, 1, 2)]),
        ("the first pair is left out", vec![set(LIST_PLACES, 0, 2)]),
    ]
}

/// Lists that are none, or leave the table.
fn no_places() -> Vec<Damage> {
    let end = usize::from(LIST_END);
    let mut damages = vec![
        ("no list", vec![set(LIST_PLACES, 1, end)]),
        ("no list of the last edge", vec![set(LIST_PLACES, 2, end)]),
    ];
    for past in [PAIR_LIMIT, PAIR_LIMIT + 1, end / 2 + 1, end - 1] {
        damages.push(("a first place past it", vec![set(LIST_PLACES, 2, past)]));
        damages.push(("a next place past it", vec![set(LINKS, 3, past)]));
        damages.push(("past it in the middle", vec![set(LINKS, 2, past)]));
    }
    damages
}

#[test]
fn every_kind() {
    let mut both = Comparison::default();
    for damages in [cycles(), shared_places(), wrong_ids(), no_places()] {
        for (name, damage) in damages {
            for stage in 0..=STEPS.len() {
                let mut lines = three_lists();
                lines.extend(STEPS[..stage].iter().map(|&step| Line::Call(step)));
                lines.extend(damage.clone());
                both.run(&lines);
                refused(&mut both, name);
            }
            let created = both.call(&Call::Create, &Lent::FULL);
            assert_eq!(created, Ok(Reply::Created));
        }
    }
}

/// Every call that tests the state is refused, a known id and a file of it too; short tables come
/// first.
fn refused(both: &mut Comparison, name: &str) {
    let segment = [[4, 0], [0, 0]];
    let known = inputs::addition(segment, 3);
    for call in STEPS.into_iter().chain([known, Call::Reset]) {
        let reply = both.call_in_vain(&call);
        assert_eq!(reply, Reply::Refused(7), "{name}: {call:?}");
    }
    let file = files::records([inputs::segment_line(segment, 3)]);
    let (answer, _) = compare(both.states()[0], &file, &Lent::FULL);
    assert_eq!(answer, Err(7), "{name}");
    for table in 0..TABLES {
        let short = Some(table);
        let reply = both.call(
            &known,
            &Lent {
                short,
                ..Lent::FULL
            },
        );
        assert_eq!(reply, Ok(Reply::Refused(6)), "{name}");
    }
}

/// A place past the limit is none, also where a longer table is lent and a good pair stands there.
#[test]
fn places_past_the_limit() {
    for damage in [
        vec![set(LINKS, 3, PAIR_LIMIT)],
        vec![set(LIST_PLACES, 2, PAIR_LIMIT), set(LINE_IDS, 2, 11)],
    ] {
        let mut state = comparison::filled();
        state.tables.pairs_id.extend([11; 9]);
        state.tables.pairs_next.extend([LIST_END; 9]);
        let mut both = Comparison::over(state);
        both.run(&three_lists());
        both.run(&damage);
        for call in STEPS.into_iter().chain([Call::Reset]) {
            assert_eq!(both.call_in_vain(&call), Reply::Refused(7));
        }
    }
}

/// What is in no list, and the list place of an edge that there is not, may hold anything.
#[test]
fn free_places() {
    let end = usize::from(LIST_END);
    for contents in [
        vec![set(LINKS, 6, 6), set(LINKS, 7, 0), set(LINKS, 8, end - 1)],
        vec![set(PAIR_IDS, 6, 3), set(LINKS, 6, 1)],
        vec![set(LIST_PLACES, 3, 1), set(LINE_IDS, 3, 9)],
        vec![set(LIST_PLACES, 3, end - 1), set(LIST_PLACES, 4, end)],
    ] {
        let mut both = Comparison::default();
        both.run(&three_lists());
        both.run(&contents);
        both.run(&STEPS.map(Line::Call));
        both.run(&[Line::Call(Call::Reset)]);
        let chord = inputs::addition([[4, 0], [9, 9]], 2);
        both.run(&[chord, inputs::addition([[0, 3], [0, 0]], 2)].map(Line::Call));
        assert_eq!(both.tally.refused, 0);
    }
}

/// One or two entries at random: both sides find the same, and many lists are still sound.
#[test]
fn at_random() {
    let mut both = Comparison::default();
    let mut random = Random::new(36);
    let mut intact = 0;
    for number in 0..4000 {
        let map = inputs::random_map(1 + number % 12, 2 + random.below(5), 2, &mut random);
        let passes = inputs::any_passes(3 + number % 15, &map, 9, &mut random);
        both.run(&inputs::from_new(passes.into_iter().map(Call::Add)));
        let [_, edges] = both.counts();
        let damages = 1 + random.below(2);
        let damages = (0..damages).map(|_| inputs::any_list_damage(edges, &mut random));
        both.run(&damages.collect::<Vec<_>>());
        let sorted = both.call(&Call::Sort, &Lent::FULL);
        intact += usize::from(sorted == Ok(Reply::Done));
        both.run(&[Line::Call(Call::Reset)]);
        for pass in inputs::any_passes(3, &map, 9, &mut random) {
            both.run(&[Line::Call(Call::Add(pass))]);
        }
    }
    println!("{:?}, {intact} still sound", both.tally);
    assert!(intact > 500 && intact < 3500);
}
