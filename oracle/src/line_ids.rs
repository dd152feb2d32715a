//! Request §1's lists in the tables: the line ids of the additions behind each edge, as pairs of an id
//! and the next place in one table that all edges share.

use crate::state::{Tables, LIST_END, PAIR_LIMIT};

/// Where the pairs of an edge's list stand, in its order. A list that leaves the table, or does not
/// end within it, ends there.
pub fn places(edge: usize, tables: &Tables) -> impl Iterator<Item = usize> + '_ {
    let first = tables.edges_list_place.get(edge).copied();
    let next = |&place: &u16| tables.pairs_next.get(usize::from(place)).copied();
    let places = std::iter::successors(first, next).map(usize::from);
    places
        .take_while(|&place| place < PAIR_LIMIT)
        .take(PAIR_LIMIT)
}

/// The ids of an edge's list, in its order.
pub fn ids(edge: usize, tables: &Tables) -> impl Iterator<Item = u32> + '_ {
    places(edge, tables).map(|place| tables.pairs_id[place])
}

/// The lowest place that is in the list of none of so many edges, if there is one.
pub fn lowest_free(edges: usize, tables: &Tables) -> Option<usize> {
    let mut used = [false; PAIR_LIMIT];
    for place in (0..edges).flat_map(|edge| places(edge, tables)) {
        used[place] = true;
    }
    used.iter().position(|used| !used)
}

/// Puts an id that an edge lacks into its list, which goes on rising. So many edges were there
/// before; a new one has no list yet.
pub fn enter(edge: usize, id: u32, old_edges: usize, tables: &mut Tables) {
    let free = lowest_free(old_edges, tables).expect("number 12 was tested");
    let mut list = Vec::new();
    if edge < old_edges {
        list.extend(places(edge, tables));
    }
    let lower = list.partition_point(|&place| tables.pairs_id[place] < id);
    list.insert(lower, free);
    tables.pairs_id[free] = id;
    let link = |place: Option<&usize>| place.map_or(LIST_END, |&place| place as u16);
    tables.edges_list_place[edge] = link(list.first());
    for (at, &place) in list.iter().enumerate() {
        tables.pairs_next[place] = link(list.get(at + 1));
    }
}

/// Whether each of so many edges has a list that starts with its line id, rises strictly and ends,
/// and no two lists share a place.
pub fn are_sound(edges: usize, tables: &Tables) -> bool {
    let mut passed = [false; PAIR_LIMIT];
    (0..edges).all(|edge| is_sound(edge, tables, &mut passed))
}

/// The same of one edge's list, where those before it passed these places.
fn is_sound(edge: usize, tables: &Tables, passed: &mut [bool; PAIR_LIMIT]) -> bool {
    let mut place = tables.edges_list_place[edge];
    let mut last = None;
    while place != LIST_END {
        match passed.get_mut(usize::from(place)) {
            Some(passed) if !*passed => *passed = true,
            _ => return false,
        }
        let id = tables.pairs_id[usize::from(place)];
        let follows = match last {
            None => id == tables.edges_line_id[edge],
            Some(last) => last < id,
        };
        if !follows {
            return false;
        }
        last = Some(id);
        place = tables.pairs_next[usize::from(place)];
    }
    last.is_some()
}
