//! Messages and acknowledgements, as lines that go on from band to band.

use crate::draw::marks::wire_class;
use crate::draw::page::{Levels, Page};
use crate::draw::scene::{Wire, WireKind};
use crate::draw::svg::{Place, Svg};

pub fn draw(svg: &mut Svg, page: &Page) {
    for wire in &page.scene.wires {
        match wire.to {
            Some(to) => whole(svg, page, wire, to),
            None => stub(svg, page, wire),
        }
    }
}

/// The heights at which a line begins and ends in a band: messages go down, acknowledgements up.
fn ends(kind: WireKind, levels: &Levels) -> (i64, i64) {
    match kind {
        WireKind::Acknowledgement => (levels.wires_bottom, levels.wires_top),
        _ => (levels.wires_top, levels.wires_bottom),
    }
}

/// A straight line along the run, cut where the bands end. Its slanted part stays between the
/// strips with the names.
fn whole(svg: &mut Svg, page: &Page, wire: &Wire, to: usize) {
    let (start, end) = (page.centre(wire.from), page.centre(to));
    let class = wire_class(wire.kind);
    for band in &page.bands[page.band_of(wire.from)..=page.band_of(to)] {
        let (first, last) = ends(wire.kind, &band.levels);
        let height = |along: i64| first + (last - first) * (along - start) / (end - start);
        let from = start.max(page.edge(band.columns.start));
        let until = end.min(page.edge(band.columns.end));
        let mut way = format!("M{}", place((band.x(from), height(from))));
        way.push_str(&format!("L{}", place((band.x(until), height(until)))));
        if until < end {
            svg.path(class, &way);
            continue;
        }
        if wire.kind == WireKind::Acknowledgement {
            way.push_str(&format!("V{}", band.levels.p_bottom + 1));
        }
        svg.arrow(class, &way);
    }
}

/// What is still in flight at the end, or never arrives: a short line to a small circle.
fn stub(svg: &mut Svg, page: &Page, wire: &Wire) {
    let band = &page.bands[page.band_of(wire.from)];
    let (first, _) = ends(wire.kind, &band.levels);
    stub_at(svg, wire.kind, (band.x(page.centre(wire.from)), first));
}

pub fn stub_at(svg: &mut Svg, kind: WireKind, (x, y): Place) {
    let way = if kind == WireKind::Acknowledgement { -1 } else { 1 };
    let end = (x + 5, y + way * 13);
    svg.path(wire_class(kind), &format!("M{}L{}", place((x, y)), place(end)));
    svg.circle(wire_class(kind), (end.0, end.1 + way * 3), 2);
}

fn place((x, y): Place) -> String {
    format!("{x} {y}")
}
