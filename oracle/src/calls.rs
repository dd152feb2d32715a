//! Call lists as text: one call a line, and a line printed for each.
//!
//! ```text
//! create                       a new graph over the tables as they stand
//! add X1 Y1 Z1 X2 Y2 Z2 ID     adds a line
//! sort, prune, cut, rings      the stage steps
//! reset                        resets
//! show                         prints the state; calls nothing
//! graph NODES EDGES STAGE      sets the counts and the stage (damage)
//! set TABLE PLACE VALUE        sets an entry of a table, 0 to 13 in their order (damage)
//! short TABLE                  the next call is lent the slice with this table one entry short
//! list LENGTH                  from now on the result lists are lent with this many entries
//! holes LENGTH                 from now on the hole list is lent with this many records
//! ```
//!
//! A float is a whole number (`-0` is -0.0) or `x` and the 16 hexadecimal digits of its bits. A
//! line that starts with `#` is printed as it is.

use crate::line_ids;
use crate::original::{Coord3D, Line3D};
use crate::state::{
    Call, Census, Hole, Lent, Reply, Side, State, Tables, HOLES, HOLE_LIST_LENGTH, LIST_LENGTH,
    TABLES,
};
use std::fmt::{self, Display, Formatter, Write};
use std::str::FromStr;

/// Up to here every whole number is a float, and call lists have floats as whole numbers.
const WHOLE_BOUND: f64 = 9_007_199_254_740_992.0;

/// Above the other bound every float is whole; below this one `show` prints it as such.
const SHOWN_BOUND: f64 = 18_446_744_073_709_551_616.0;

/// A line of a call list.
#[derive(Clone, Debug)]
pub enum Line {
    Comment(String),
    Call(Call),
    Show,
    Graph([u16; 3]),
    Set(usize, usize, f64),
    Short(usize),
    List(usize),
    Holes(usize),
}

/// Runs a call list on one side; what it prints.
pub fn run(text: &str, side: &mut impl Side) -> Result<String, String> {
    let mut out = String::new();
    let mut lent = Lent::FULL;
    for (number, line) in text.lines().enumerate() {
        if !line.is_empty() {
            let printed = line
                .parse()
                .and_then(|line| run_line(&line, side, &mut lent));
            let printed = printed.map_err(|why| format!("line {}: {why}", number + 1))?;
            out.push_str(&printed);
        }
    }
    Ok(out)
}

/// Runs a line; what it prints. `lent` says how the next call is lent its tables and lists.
fn run_line(line: &Line, side: &mut impl Side, lent: &mut Lent) -> Result<String, String> {
    match line {
        Line::Comment(text) => Ok(format!("{text}\n")),
        Line::Show => Ok(shown(side.state())),
        Line::Call(call) => {
            let printed = made(call, side, lent);
            lent.short = None;
            Ok(printed)
        }
        _ => prepare(line, side, lent).map(|()| String::new()),
    }
}

/// Does what a line without a call asks for.
pub fn prepare(line: &Line, side: &mut impl Side, lent: &mut Lent) -> Result<(), String> {
    match *line {
        Line::Graph([nodes, edges, stage]) => {
            let state = side.state_mut();
            (state.nodes, state.edges, state.stage) = (nodes, edges, stage);
        }
        Line::Set(table, place, value) => {
            set_entry(&mut side.state_mut().tables, table, place, value)
                .ok_or("no such entry, or not a value of its table")?;
        }
        Line::Short(table) => lent.short = Some(table),
        Line::List(length) => lent.lists[..HOLES].fill(length),
        Line::Holes(length) => lent.lists[HOLES] = length,
        Line::Comment(_) | Line::Show | Line::Call(_) => {}
    }
    Ok(())
}

/// Makes a call and says what it answered, and whether it changed what has to stay.
fn made(call: &Call, side: &mut impl Side, lent: &Lent) -> String {
    let before = side.state().clone();
    let reply = side.call(call, lent);
    let after = side.state();
    let mut lines = answered(&reply, after);
    let changed = match reply {
        Reply::Refused(_) => before.difference(after),
        _ => before.lists.difference(&after.lists, reply.written()),
    };
    if changed.is_some() {
        let first_line = lines.find('\n').unwrap_or(lines.len());
        lines.insert_str(first_line, " CHANGED");
    }
    lines
}

/// Sets an entry, if the table has one and takes the value.
fn set_entry(tables: &mut Tables, table: usize, place: usize, value: f64) -> Option<()> {
    let number = (value == value.trunc() && (0.0..=f64::from(u32::MAX)).contains(&value))
        .then_some(value as u32);
    let short = number.and_then(|number| u16::try_from(number).ok());
    let flag = number
        .filter(|&number| number < 2)
        .map(|number| number == 1);
    match table {
        0 => *tables.nodes_x.get_mut(place)? = value,
        1 => *tables.nodes_y.get_mut(place)? = value,
        2 => *tables.nodes_z.get_mut(place)? = value,
        3 => *tables.nodes_degree.get_mut(place)? = short?,
        4 => *tables.nodes_marked.get_mut(place)? = flag?,
        5 => *tables.edges_line.get_mut(place)? = value,
        6 => *tables.edges_line_id.get_mut(place)? = number?,
        7 => *tables.dir_edges_src.get_mut(place)? = short?,
        8 => *tables.dir_edges_dst.get_mut(place)? = short?,
        9 => *tables.dir_edges_marked.get_mut(place)? = flag?,
        10 => *tables.nodes_outgoing.get_mut(place)? = short?,
        11 => *tables.edges_list_place.get_mut(place)? = short?,
        12 => *tables.pairs_id.get_mut(place)? = number?,
        13 => *tables.pairs_next.get_mut(place)? = short?,
        _ => return None,
    }
    Some(())
}

/// What a reply prints.
fn answered(reply: &Reply, state: &State) -> String {
    match *reply {
        Reply::Refused(number) => format!("refused {number}\n"),
        Reply::Created => "created\n".to_string(),
        Reply::Edge { edge, new } => format!("edge {edge} {}\n", if new { "new" } else { "old" }),
        Reply::Done => "done\n".to_string(),
        Reply::Dangles(count) => format!("dangles {count}{}\n", listed(count, state)),
        Reply::Cuts(count, census) => {
            format!("cuts {count}{} {census}\n", listed(count, state))
        }
        Reply::Rings {
            count,
            census,
            comparisons,
            half_edges,
            holes,
        } => {
            let written = format!("halves {half_edges} holes {holes}");
            let rings = (0..usize::from(count)).map(|ring| ring_line(ring, state));
            let records = state.lists.holes[..usize::from(holes)].iter();
            let lines: String = rings.chain(records.map(hole_line)).collect();
            format!("rings {count} {census} comparisons {comparisons} {written}\n{lines}")
        }
    }
}

/// The first edges of the list.
fn listed(count: u16, state: &State) -> String {
    spaced(&state.lists.edges[..usize::from(count)])
}

fn spaced(numbers: &[u16]) -> String {
    numbers.iter().map(|number| format!(" {number}")).collect()
}

fn ring_line(ring: usize, state: &State) -> String {
    let lists = &state.lists;
    let first = usize::from(lists.ring_first[ring]);
    let length = usize::from(lists.ring_length[ring]);
    let side = ["flat", "enclosed", "open"][usize::from(lists.ring_side[ring])];
    format!(
        "ring {ring} face {} side {side} doubled {} halves{}\n",
        lists.ring_face[ring],
        2.0 * lists.ring_area[ring],
        spaced(&lists.half_edges[first..first + length])
    )
}

fn hole_line(hole: &Hole) -> String {
    let Hole {
        ring,
        holder,
        doubled,
    } = hole;
    format!("hole {ring} holder {holder} doubled {doubled}\n")
}

/// What `show` prints. Counts past the tables' ends show what the tables have.
fn shown(state: &State) -> String {
    let tables = &state.tables;
    let mut out = format!("graph {} {} {}\n", state.nodes, state.edges, state.stage);
    for (node, star) in state.stars().iter().enumerate() {
        let point = [
            tables.nodes_x[node],
            tables.nodes_y[node],
            tables.nodes_z[node],
        ];
        let degree = tables.nodes_degree[node];
        let marked = u8::from(tables.nodes_marked[node]);
        let (point, star) = (floats(&point), spaced(star));
        let _ = writeln!(
            out,
            "node {node}{point} degree {degree} marked {marked} star{star}"
        );
    }
    for edge in 0..usize::from(state.edges).min(tables.edges_line_id.len()) {
        let line = floats(&tables.edges_line[6 * edge..6 * edge + 6]);
        let ends = [
            tables.dir_edges_src[2 * edge],
            tables.dir_edges_dst[2 * edge],
        ];
        let marked = [2 * edge, 2 * edge + 1].map(|half| tables.dir_edges_marked[half].into());
        let id = tables.edges_line_id[edge];
        let (ends, marked) = (spaced(&ends), spaced(&marked));
        let ids: String = line_ids::ids(edge, tables)
            .map(|id| format!(" {id}"))
            .collect();
        let _ = writeln!(
            out,
            "edge {edge} line{line} id {id} ends{ends} marked{marked} ids{ids}"
        );
    }
    out
}

/// Floats as `show` prints them: a whole number of up to 64 bits stands as it is.
fn floats(values: &[f64]) -> String {
    let word = |&value: &f64| {
        if value.is_nan() {
            " nan".to_string()
        } else if value.abs() > WHOLE_BOUND && value.abs() < SHOWN_BOUND {
            format!(" {}", value as i128)
        } else {
            format!(" {}", Word(value))
        }
    };
    values.iter().map(word).collect()
}

/// A float as a word of a call list.
struct Word(f64);

impl Display for Word {
    fn fmt(&self, out: &mut Formatter<'_>) -> fmt::Result {
        let value = self.0;
        if value.trunc() == value && value.abs() <= WHOLE_BOUND {
            write!(out, "{value}")
        } else {
            write!(out, "x{:016x}", value.to_bits())
        }
    }
}

impl FromStr for Word {
    type Err = String;

    fn from_str(word: &str) -> Result<Self, String> {
        let digits = word.strip_prefix('-').unwrap_or(word);
        let value = match word.strip_prefix('x') {
            Some(bits) if bits.len() == 16 => {
                u64::from_str_radix(bits, 16).ok().map(f64::from_bits)
            }
            _ if digits.bytes().all(|byte| byte.is_ascii_digit()) => word.parse().ok(),
            _ => None,
        };
        value.map(Word).ok_or(format!("no number: {word}"))
    }
}

impl Display for Census {
    fn fmt(&self, out: &mut Formatter<'_>) -> fmt::Result {
        let verdict = if self.verdict { "yes" } else { "no" };
        let (v, e, cycles, c) = (self.vertices, self.edges, self.cycles, self.pieces);
        write!(out, "census {v} {e} {cycles} {c} {verdict}")
    }
}

impl Display for Line {
    fn fmt(&self, out: &mut Formatter<'_>) -> fmt::Result {
        match self {
            Line::Comment(text) => write!(out, "{text}"),
            Line::Call(Call::Create) => write!(out, "create"),
            Line::Call(Call::Add(line)) => {
                write!(out, "add")?;
                for value in [line.start, line.end]
                    .map(|end| [end.x, end.y, end.z])
                    .concat()
                {
                    write!(out, " {}", Word(value))?;
                }
                write!(out, " {}", line.line_id)
            }
            Line::Call(Call::Sort) => write!(out, "sort"),
            Line::Call(Call::Prune) => write!(out, "prune"),
            Line::Call(Call::Cut) => write!(out, "cut"),
            Line::Call(Call::Rings) => write!(out, "rings"),
            Line::Call(Call::Reset) => write!(out, "reset"),
            Line::Show => write!(out, "show"),
            Line::Graph([nodes, edges, stage]) => write!(out, "graph {nodes} {edges} {stage}"),
            Line::Set(table, place, value) => write!(out, "set {table} {place} {}", Word(*value)),
            Line::Short(table) => write!(out, "short {table}"),
            Line::List(length) => write!(out, "list {length}"),
            Line::Holes(length) => write!(out, "holes {length}"),
        }
    }
}

impl FromStr for Line {
    type Err = String;

    fn from_str(line: &str) -> Result<Self, String> {
        if line.starts_with('#') {
            return Ok(Line::Comment(line.to_string()));
        }
        let words: Vec<&str> = line.split(' ').collect();
        Ok(match words[..] {
            ["create"] => Line::Call(Call::Create),
            ["add", ref ends @ .., id] if ends.len() == 6 => {
                Line::Call(Call::Add(segment(ends, id)?))
            }
            ["sort"] => Line::Call(Call::Sort),
            ["prune"] => Line::Call(Call::Prune),
            ["cut"] => Line::Call(Call::Cut),
            ["rings"] => Line::Call(Call::Rings),
            ["reset"] => Line::Call(Call::Reset),
            ["show"] => Line::Show,
            ["graph", nodes, edges, stage] => {
                Line::Graph([whole(nodes)?, whole(edges)?, whole(stage)?])
            }
            ["set", table, place, value] => {
                Line::Set(whole(table)?, whole(place)?, value.parse::<Word>()?.0)
            }
            ["short", table] => Line::Short(below(TABLES, whole(table)?)?),
            ["list", length] => Line::List(below(LIST_LENGTH + 1, whole(length)?)?),
            ["holes", length] => Line::Holes(below(HOLE_LIST_LENGTH + 1, whole(length)?)?),
            _ => return Err(format!("no call: {line}")),
        })
    }
}

fn segment(ends: &[&str], id: &str) -> Result<Line3D, String> {
    let mut values = [0.0; 6];
    for (value, word) in values.iter_mut().zip(ends) {
        *value = word.parse::<Word>()?.0;
    }
    let [x1, y1, z1, x2, y2, z2] = values;
    Ok(Line3D {
        start: Coord3D::new(x1, y1, z1),
        end: Coord3D::new(x2, y2, z2),
        line_id: whole(id)?,
    })
}

fn whole<T: FromStr>(word: &str) -> Result<T, String> {
    word.parse().map_err(|_| format!("no such number: {word}"))
}

fn below(limit: usize, number: usize) -> Result<usize, String> {
    if number < limit {
        Ok(number)
    } else {
        Err(format!("{number} is not below {limit}"))
    }
}
