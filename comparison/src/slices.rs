//! The oracle's fourteen tables as the five slices that the library is lent.
//!
//! The last region of a slice takes its table whole, so that a longer table makes a longer slice. Of
//! the other tables so many entries are lent as their region has; those past it stay where they are.

use oracle::state::{Lent, Tables};
use tukmiheb::entries::Slices;
use tukmiheb::layout::{
    DEGREES, EDGE_LIMIT, FLOATS, HALF_EDGE_LIMIT, HALF_EDGE_MARKS, IDS, LINE_IDS, LINKS,
    LIST_PLACES, MARKS, NODES_X, NODES_Y, NODES_Z, NODE_LIMIT, NODE_MARKS, NUMBERS, OUTGOING,
    PAIR_IDS, SEGMENTS, SOURCES, STARS, TARGETS,
};

/// The five slices, by name.
#[derive(Clone, Copy, Debug, PartialEq, Eq)]
pub enum Slice {
    Floats,
    Numbers,
    Stars,
    Marks,
    Ids,
}

impl Slice {
    pub const ALL: [Slice; 5] = [
        Slice::Floats,
        Slice::Numbers,
        Slice::Stars,
        Slice::Marks,
        Slice::Ids,
    ];

    /// The slice that holds a table, by the table's number.
    pub fn of_table(table: usize) -> Slice {
        match table {
            0 | 1 | 2 | 5 => Slice::Floats,
            3 | 10 => Slice::Stars,
            4 | 9 => Slice::Marks,
            6 | 12 => Slice::Ids,
            7 | 8 | 11 | 13 => Slice::Numbers,
            _ => panic!("there is no table {table}"),
        }
    }

    /// How many entries the limits need.
    pub fn least_length(self) -> usize {
        match self {
            Slice::Floats => FLOATS,
            Slice::Numbers => NUMBERS,
            Slice::Stars => STARS,
            Slice::Marks => MARKS,
            Slice::Ids => IDS,
        }
    }
}

/// The tables as slices, marks as bytes.
#[derive(Clone, Debug)]
pub struct Packed {
    pub floats: Vec<f64>,
    pub numbers: Vec<u16>,
    pub stars: Vec<u16>,
    pub marks: Vec<u8>,
    pub ids: Vec<u32>,
}

impl PartialEq for Packed {
    /// Floats are compared by their bits.
    fn eq(&self, other: &Self) -> bool {
        let bits = |packed: &Packed| -> Vec<u64> {
            let floats = packed.floats.iter();
            floats.map(|float| float.to_bits()).collect()
        };
        bits(self) == bits(other)
            && self.numbers == other.numbers
            && self.stars == other.stars
            && self.marks == other.marks
            && self.ids == other.ids
    }
}

impl Packed {
    pub fn of(tables: &Tables) -> Self {
        let marks = [&tables.nodes_marked[..NODE_LIMIT], &tables.dir_edges_marked];
        Packed {
            floats: [
                &tables.nodes_x[..NODE_LIMIT],
                &tables.nodes_y[..NODE_LIMIT],
                &tables.nodes_z[..NODE_LIMIT],
                &tables.edges_line,
            ]
            .concat(),
            numbers: [
                &tables.dir_edges_src[..HALF_EDGE_LIMIT],
                &tables.dir_edges_dst[..HALF_EDGE_LIMIT],
                &tables.edges_list_place[..EDGE_LIMIT],
                &tables.pairs_next,
            ]
            .concat(),
            stars: [
                &tables.nodes_outgoing[..HALF_EDGE_LIMIT],
                &tables.nodes_degree,
            ]
            .concat(),
            marks: marks.concat().into_iter().map(u8::from).collect(),
            ids: [&tables.edges_line_id[..EDGE_LIMIT], &tables.pairs_id].concat(),
        }
    }

    /// Copies the slices back into the tables that they were made of. Every byte of the marks has to
    /// be 0 or 1, since the tables gave no other.
    pub fn unpack(&self, tables: &mut Tables) {
        let (floats, numbers, stars) = (&self.floats, &self.numbers, &self.stars);
        let ids = &self.ids;
        let marks: Vec<bool> = self.marks.iter().map(|&byte| flag(byte.into())).collect();
        tables.nodes_x[..NODE_LIMIT].copy_from_slice(&floats[NODES_X..NODES_Y]);
        tables.nodes_y[..NODE_LIMIT].copy_from_slice(&floats[NODES_Y..NODES_Z]);
        tables.nodes_z[..NODE_LIMIT].copy_from_slice(&floats[NODES_Z..SEGMENTS]);
        tables.edges_line.copy_from_slice(&floats[SEGMENTS..]);
        tables.dir_edges_src[..HALF_EDGE_LIMIT].copy_from_slice(&numbers[SOURCES..TARGETS]);
        tables.dir_edges_dst[..HALF_EDGE_LIMIT].copy_from_slice(&numbers[TARGETS..LIST_PLACES]);
        tables.edges_list_place[..EDGE_LIMIT].copy_from_slice(&numbers[LIST_PLACES..LINKS]);
        tables.pairs_next.copy_from_slice(&numbers[LINKS..]);
        tables.nodes_outgoing[..HALF_EDGE_LIMIT].copy_from_slice(&stars[OUTGOING..DEGREES]);
        tables.nodes_degree.copy_from_slice(&stars[DEGREES..]);
        tables.nodes_marked[..NODE_LIMIT].copy_from_slice(&marks[NODE_MARKS..HALF_EDGE_MARKS]);
        tables
            .dir_edges_marked
            .copy_from_slice(&marks[HALF_EDGE_MARKS..]);
        tables.edges_line_id[..EDGE_LIMIT].copy_from_slice(&ids[LINE_IDS..PAIR_IDS]);
        tables.pairs_id.copy_from_slice(&ids[PAIR_IDS..]);
    }

    /// The slices as they are lent: whole, but for the one that holds a short table.
    pub fn lend(&mut self, lent: &Lent) -> Slices<'_> {
        let short = lent.short.map(Slice::of_table);
        Slices {
            floats: shortened(&mut self.floats, Slice::Floats, short),
            numbers: shortened(&mut self.numbers, Slice::Numbers, short),
            stars: shortened(&mut self.stars, Slice::Stars, short),
            marks: shortened(&mut self.marks, Slice::Marks, short),
            ids: shortened(&mut self.ids, Slice::Ids, short),
        }
    }
}

/// The entries of a slice, or one fewer than the limits need where it is the short one.
fn shortened<T>(entries: &mut [T], slice: Slice, short: Option<Slice>) -> &mut [T] {
    if short == Some(slice) {
        &mut entries[..slice.least_length() - 1]
    } else {
        entries
    }
}

/// Yes or no as the library answers it.
pub fn flag(number: u16) -> bool {
    assert!(number < 2, "the library answered {number} for yes or no");
    number == 1
}
