//! Where everything stands: columns as wide as their words need, broken into bands as wide as the
//! page, and the heights of the lanes in each band.

use std::ops::Range;

use crate::draw::scene::{Cell, Column, Scene, Wire};
use crate::draw::svg::Font;
use crate::guest::RecordEntry;

pub const PAGE_WIDTH: i64 = 1_000;
/// The bands' left and right ends; the names of the lanes stand left of them.
pub const LEFT: i64 = 84;
pub const RIGHT: i64 = 984;
/// From one line of words to the next.
pub const LINE: i64 = 11;
/// The strip of a lane with the number of the epoch, and the one with the marks.
pub const LABEL_STRIP: i64 = 15;
pub const MARK_STRIP: i64 = 18;

const NARROWEST: i64 = 11;
const PADDING: i64 = 6;
const NUMBERS: i64 = 14;
/// The strip for the names of messages at either card, and the room between for their lines.
const NAME_STRIP: i64 = 16;
const FLIGHT: i64 = 44;
const BETWEEN_BANDS: i64 = 26;

/// The lines of one band from top to bottom.
#[derive(Clone, Copy, Debug, PartialEq, Eq)]
pub struct Levels {
    pub top: i64,
    pub p_top: i64,
    pub p_bottom: i64,
    pub wires_top: i64,
    pub wires_bottom: i64,
    pub b_top: i64,
    pub b_bottom: i64,
    pub shown_top: i64,
    pub shown_bottom: i64,
}

pub struct Band {
    pub columns: Range<usize>,
    pub levels: Levels,
    /// From a place along the run to a place on the page.
    shift: i64,
}

impl Band {
    pub fn x(&self, along: i64) -> i64 {
        along + self.shift
    }
}

pub struct Page<'a> {
    pub scene: &'a Scene,
    /// Where each column begins along the run, and where the last one ends.
    edges: Vec<i64>,
    pub bands: Vec<Band>,
    pub bottom: i64,
}

impl<'a> Page<'a> {
    pub fn lay(scene: &'a Scene, top: i64) -> Page<'a> {
        let mut edges = vec![0];
        for (place, column) in scene.columns.iter().enumerate() {
            let previous = place.checked_sub(1).map(|previous| &scene.columns[previous]);
            edges.push(edges[place] + width(column, previous));
        }
        let mut page = Page { scene, edges, bands: Vec::new(), bottom: top };
        let ranges = page.break_into_bands();
        let wired = wired(&ranges, &scene.wires);
        for (columns, wired) in ranges.into_iter().zip(wired) {
            let levels = levels(page.bottom, &scene.columns[columns.clone()], wired);
            let shift = LEFT - page.edges[columns.start];
            page.bottom = levels.shown_bottom + BETWEEN_BANDS;
            page.bands.push(Band { columns, levels, shift });
        }
        page
    }

    fn break_into_bands(&self) -> Vec<Range<usize>> {
        let mut ranges = Vec::new();
        let mut start = 0;
        for column in 0..self.scene.columns.len() {
            if self.edges[column + 1] - self.edges[start] > RIGHT - LEFT {
                ranges.push(start..column);
                start = column;
            }
        }
        ranges.push(start..self.scene.columns.len());
        ranges
    }

    pub fn edge(&self, column: usize) -> i64 {
        self.edges[column]
    }

    pub fn centre(&self, column: usize) -> i64 {
        (self.edges[column] + self.edges[column + 1]) / 2
    }

    pub fn band_of(&self, column: usize) -> usize {
        self.bands.partition_point(|band| band.columns.end <= column)
    }
}

/// No word reaches beyond its column, so no word of one column can lie over one of another.
fn width(column: &Column, previous: Option<&Column>) -> i64 {
    let cells = column.p.lines.iter().chain(&column.b.lines);
    let names = column.sent.iter().chain(&column.arrived);
    let shown = column.shown.iter().flat_map(shown_lines).collect::<Vec<String>>();
    let words = cells.chain(names).chain(&shown).map(|words| Font::Cell.width(words));
    let enters_p = previous.is_none_or(|previous| previous.stay_p != column.stay_p);
    let enters_b = previous.is_none_or(|previous| previous.stay_b != column.stay_b);
    let number_p = column.stay_p.filter(|_| enters_p).map(|stay| stay.epoch);
    let number_b = Some(column.stay_b.epoch).filter(|_| enters_b);
    let numbers = number_p.iter().chain(&number_b).map(|e| Font::Label.width(&e.0.to_string()));
    words.chain(numbers).map(|width| width + PADDING).max().unwrap_or(0).max(NARROWEST)
}

/// "operation, device, word"
pub fn shown_lines(entry: &RecordEntry) -> Vec<String> {
    vec![
        format!("op {}", entry.operation.0),
        format!("device {}", entry.device.number()),
        format!("word {}", entry.word),
    ]
}

/// Which bands a message or an acknowledgement passes through.
fn wired(bands: &[Range<usize>], wires: &[Wire]) -> Vec<bool> {
    let mut wired = vec![false; bands.len()];
    for wire in wires {
        let last = wire.to.unwrap_or(wire.from);
        let first_band = bands.partition_point(|band| band.end <= wire.from);
        let last_band = bands.partition_point(|band| band.end <= last);
        wired[first_band..=last_band].fill(true);
    }
    wired
}

fn levels(top: i64, columns: &[Column], wired: bool) -> Levels {
    let p_is_there = columns.iter().any(|column| column.stay_p.is_some());
    let p_height = if p_is_there { lane(columns, |column| &column.p) } else { LABEL_STRIP };
    let shows = columns.iter().any(|column| column.shown.is_some());
    let (names, flight) = if wired { (NAME_STRIP, FLIGHT) } else { (4, 0) };
    let p_top = top + NUMBERS;
    let p_bottom = p_top + p_height;
    let wires_top = p_bottom + names;
    let wires_bottom = wires_top + flight;
    let b_top = wires_bottom + names;
    let b_bottom = b_top + lane(columns, |column| &column.b);
    let shown_top = b_bottom + 8;
    let shown_bottom = shown_top + if shows { 3 * LINE + 7 } else { LABEL_STRIP };
    Levels {
        top,
        p_top,
        p_bottom,
        wires_top,
        wires_bottom,
        b_top,
        b_bottom,
        shown_top,
        shown_bottom,
    }
}

fn lane(columns: &[Column], cell: impl Fn(&Column) -> &Cell) -> i64 {
    let lines = columns.iter().map(|column| cell(column).lines.len()).max().unwrap_or(0);
    LABEL_STRIP + lines as i64 * LINE + MARK_STRIP
}
