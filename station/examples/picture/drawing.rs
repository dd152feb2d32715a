//! The picture: compartments filled, the other rings and the marked edges in strokes of their own, nodes,
//! face numbers and areas, and a key below.

use crate::frame::{Frame, Place};
use crate::label::roomiest;
use std::fmt::Write;
use tukmiheb::{Compartment, EdgeId, NodeId, Ring, RingSide, TissueMap};

/// Colours for a light page and for a dark one. Compartments take the six fills by face number.
const STYLE: &str = "\
.paper { fill: #ffffff } .f0 { fill: #dbeafe } .f1 { fill: #dcfce7 } .f2 { fill: #fee2e2 }
.f3 { fill: #f3e8ff } .f4 { fill: #fef3c7 } .f5 { fill: #ccfbf1 }
.enclosed { stroke: #64748b; stroke-width: 1.5; fill-rule: evenodd; stroke-linejoin: round }
.open, .hole, .flat, .dangle, .cut { fill: none; stroke-linecap: round; stroke-linejoin: round }
.open { stroke: #0f172a; stroke-width: 3 } .hole { stroke: #1d4ed8; stroke-width: 3 }
.flat { stroke: #64748b; stroke-width: 2 }
.dangle { stroke: #dc2626; stroke-width: 2.5; stroke-dasharray: 7 5 }
.cut { stroke: #9333ea; stroke-width: 2.5; stroke-dasharray: 1 6 }
.node { fill: #0f172a } text { fill: #0f172a; font: 13px system-ui, sans-serif }
.face { font-size: 18px; font-weight: 600 } .middle { text-anchor: middle }
@media (prefers-color-scheme: dark) {
.paper { fill: #0f172a } .f0 { fill: #1e3a5f } .f1 { fill: #14532d } .f2 { fill: #5f1d25 }
.f3 { fill: #432462 } .f4 { fill: #57400f } .f5 { fill: #134e4a }
.enclosed, .flat { stroke: #94a3b8 } .open { stroke: #f1f5f9 } .hole { stroke: #60a5fa }
.dangle { stroke: #f87171 } .cut { stroke: #d8b4fe } .node, text { fill: #f1f5f9 }
}
";

const FILLS: u16 = 6;

/// The height of the key below the map.
const KEY: f64 = 40.0;

/// The SVG of a map.
pub fn picture(map: &TissueMap) -> String {
    let graph = map.graph();
    let nodes = (0..graph.node_count()).map(|number| NodeId(number as u16));
    let points = nodes.filter_map(|node| graph.node(node));
    let frame = Frame::around(points.clone());
    let (width, height) = (frame.width, frame.height + KEY);
    let mut svg = format!(
        "<svg xmlns=\"http://www.w3.org/2000/svg\" viewBox=\"0 0 {width:.0} {height:.0}\">\n\
         <style>\n{STYLE}</style>\n\
         <rect class=\"paper\" width=\"100%\" height=\"100%\" rx=\"8\"/>\n"
    );
    for compartment in map.compartments() {
        svg += &filled(compartment, &frame);
    }
    for ring in map.rings() {
        svg += &stroked(ring, map, &frame);
    }
    let dangles = lines(map.dangles(), map, &frame);
    let cuts = lines(&map.cuts().edges, map, &frame);
    svg += &marked(&dangles, &cuts);
    for point in points {
        let (x, y) = frame.place(point);
        let _ = writeln!(
            svg,
            "<circle class=\"node\" cx=\"{x:.1}\" cy=\"{y:.1}\" r=\"3\"/>"
        );
    }
    let loose = [dangles, cuts].concat();
    for compartment in map.compartments() {
        svg += &labelled(compartment, &loose, &frame);
    }
    svg += &key(frame.height + KEY / 2.0 - MIDDLE);
    svg + "</svg>\n"
}

/// The corners of a ring in the picture.
fn corners(ring: Ring, frame: &Frame) -> Vec<Place> {
    ring.points().map(|point| frame.place(point)).collect()
}

/// A compartment's borders: its outline, and those of its holes.
fn borders(compartment: Compartment, frame: &Frame) -> Vec<Vec<Place>> {
    let rings = [compartment.ring()].into_iter().chain(compartment.holes());
    rings.map(|ring| corners(ring, frame)).collect()
}

/// A closed path.
fn path(corners: &[Place]) -> String {
    let corners: Vec<String> = corners
        .iter()
        .map(|(x, y)| format!("{x:.1} {y:.1}"))
        .collect();
    format!("M{}Z", corners.join("L"))
}

fn filled(compartment: Compartment, frame: &Frame) -> String {
    let fill = compartment.ring().face().0 % FILLS;
    let borders = borders(compartment, frame);
    let paths = borders.iter().map(|border| path(border));
    let paths: String = paths.collect();
    format!("<path class=\"enclosed f{fill}\" d=\"{paths}\"/>\n")
}

/// A ring that is no compartment's outline, with the face number of an open one above its top.
fn stroked(ring: Ring, map: &TissueMap, frame: &Frame) -> String {
    let mut holes = map.rings().holes();
    let held = holes.any(|hole| hole.ring.number() == ring.number() && hole.holder.is_some());
    let class = match ring.side() {
        RingSide::Enclosed(_) => return String::new(),
        RingSide::Open(_) if held => "hole",
        RingSide::Open(_) => "open",
        RingSide::Flat => "flat",
    };
    let corners = corners(ring, frame);
    let stroke = format!("<path class=\"{class}\" d=\"{}\"/>\n", path(&corners));
    if class == "flat" {
        return stroke;
    }
    let top = corners.into_iter();
    let top = top.min_by(|(_, y), (_, other)| y.total_cmp(other));
    let (x, y) = top.expect("a ring has corners");
    let (y, face) = (y - 8.0, ring.face().0);
    stroke + &format!("<text class=\"middle\" x=\"{x:.1}\" y=\"{y:.1}\">face {face}</text>\n")
}

/// Where edges start and end in the picture.
fn lines(edges: &[EdgeId], map: &TissueMap, frame: &Frame) -> Vec<(Place, Place)> {
    let lines = edges.iter().filter_map(|&edge| map.graph().line(edge));
    let places = lines.map(|line| (frame.place(line.start), frame.place(line.end)));
    places.collect()
}

/// Dangles and cut edges.
fn marked(dangles: &[(Place, Place)], cuts: &[(Place, Place)]) -> String {
    let drawn = |class: &str, lines: &[(Place, Place)]| -> String {
        let drawn = lines.iter().map(|((x1, y1), (x2, y2))| {
            format!("<path class=\"{class}\" d=\"M{x1:.1} {y1:.1}L{x2:.1} {y2:.1}\"/>\n")
        });
        drawn.collect()
    };
    drawn("dangle", dangles) + &drawn("cut", cuts)
}

/// The least space for a face number, and for an area below it.
const FACE_SPACE: f64 = 9.0;
const AREA_SPACE: f64 = 22.0;

/// What a line of text reaches below its middle.
const MIDDLE: f64 = 5.0;

/// A compartment's face number, and its area without its islands where there is space for it.
fn labelled(compartment: Compartment, loose: &[(Place, Place)], frame: &Frame) -> String {
    let Some(((x, y), space)) = roomiest(&borders(compartment, frame), loose) else {
        return String::new();
    };
    let face = compartment.ring().face().0;
    let number =
        |y: f64| format!("<text class=\"face middle\" x=\"{x:.1}\" y=\"{y:.1}\">{face}</text>\n");
    if space < FACE_SPACE {
        String::new()
    } else if space < AREA_SPACE {
        number(y + MIDDLE)
    } else {
        let (below, area) = (y + 16.0, grouped(compartment.net_area()));
        number(y) + &format!("<text class=\"middle\" x=\"{x:.1}\" y=\"{below:.1}\">{area}</text>\n")
    }
}

/// A number with a comma before each three digits.
fn grouped(number: f64) -> String {
    let text = number.abs().to_string();
    let whole = text.find('.').unwrap_or(text.len());
    let mut out = String::from(if number < 0.0 { "-" } else { "" });
    for (place, digit) in text.char_indices() {
        if place > 0 && place < whole && (whole - place).is_multiple_of(3) {
            out.push(',');
        }
        out.push(digit);
    }
    out
}

/// What each stroke means, on a line of its own.
fn key(y: f64) -> String {
    let strokes = [
        ("open", "outside"),
        ("hole", "hole"),
        ("dangle", "dangle"),
        ("cut", "cut edge"),
    ];
    let mut svg = String::new();
    let mut x = 36.0;
    for (class, text) in strokes {
        let (end, word) = (x + 34.0, x + 42.0);
        let _ = writeln!(svg, "<path class=\"{class}\" d=\"M{x} {y}H{end}\"/>");
        let _ = writeln!(svg, "<text x=\"{word}\" y=\"{}\">{text}</text>", y + MIDDLE);
        x += 125.0;
    }
    let text = "compartment: face, area";
    let _ = writeln!(svg, "<text x=\"{x}\" y=\"{}\">{text}</text>", y + MIDDLE);
    svg
}
