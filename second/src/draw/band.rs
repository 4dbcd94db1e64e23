//! One band: the numbers of its events, the lanes of the cards, and the lane of the devices.

use crate::draw::marks::{block, mark};
use crate::draw::page::{shown_lines, Band, Page, LABEL_STRIP, LEFT, LINE, MARK_STRIP};
use crate::draw::scene::{Cell, Column, Role, Stay};
use crate::draw::svg::{Font, Svg};

/// Every fifth event has its number, and the first of each band.
const NUMBERED: usize = 5;
const LANE_NAMES: i64 = 12;

/// A lane of one card in one band.
struct Lane<'a> {
    band: &'a Band,
    page: &'a Page<'a>,
    top: i64,
    bottom: i64,
}

pub fn draw(svg: &mut Svg, page: &Page, band: &Band) {
    let levels = &band.levels;
    names(svg, band);
    numbers(svg, page, band);
    shown(svg, page, band);
    let lane_p = Lane { band, page, top: levels.p_top, bottom: levels.p_bottom };
    lane_p.blocks(svg, |column| column.stay_p);
    lane_p.cells(svg, |column| &column.p);
    let lane_b = Lane { band, page, top: levels.b_top, bottom: levels.b_bottom };
    lane_b.blocks(svg, |column| Some(column.stay_b));
    lane_b.cells(svg, |column| &column.b);
    for place in band.columns.clone() {
        let column = &page.scene.columns[place];
        let x = band.x(page.centre(place));
        if let Some(name) = &column.sent {
            svg.centred(Font::Cell, (x, levels.wires_top - 3), name);
        }
        if let Some(name) = &column.arrived {
            svg.centred(Font::Cell, (x, levels.b_top - 4), name);
        }
    }
}

/// A bar behind the last event: the next one was refused.
pub fn draw_refusal(svg: &mut Svg, page: &Page) {
    if let Some(band) = page.bands.last() {
        let x = band.x(page.edge(band.columns.end)) + 4;
        svg.path("stop", &format!("M{x} {}V{}", band.levels.p_top, band.levels.shown_bottom));
    }
}

fn names(svg: &mut Svg, band: &Band) {
    let levels = &band.levels;
    for (name, card, top, bottom) in [
        ("P", "first card", levels.p_top, levels.p_bottom),
        ("B", "second card", levels.b_top, levels.b_bottom),
    ] {
        let roomy = bottom - top > 2 * LABEL_STRIP;
        svg.text(Font::Label, (LANE_NAMES, top + LABEL_STRIP - 3), name);
        if roomy {
            svg.text(Font::Cell, (LANE_NAMES, top + LABEL_STRIP - 3 + LINE), card);
        }
    }
    svg.text(Font::Cell, (LANE_NAMES, levels.shown_top + LINE), "devices");
}

fn numbers(svg: &mut Svg, page: &Page, band: &Band) {
    let mut free_from = 0;
    for place in band.columns.clone() {
        let number = (place + 1).to_string();
        let wanted = place == band.columns.start || (place + 1) % NUMBERED == 0;
        let x = band.x(page.centre(place));
        let half = Font::Number.width(&number) / 2 + 2;
        if wanted && x - half >= free_from {
            svg.centred(Font::Number, (x, band.levels.top + 10), &number);
            free_from = x + half;
        }
    }
}

/// The devices' lane, and dotted lines from the STARTs down to it, behind the lane of B.
fn shown(svg: &mut Svg, page: &Page, band: &Band) {
    let levels = &band.levels;
    let height = levels.shown_bottom - levels.shown_top;
    let end = band.x(page.edge(band.columns.end));
    svg.rect("lane", (LEFT, levels.shown_top), end - LEFT, height);
    for place in band.columns.clone() {
        let column = &page.scene.columns[place];
        let Some(entry) = &column.shown else {
            continue;
        };
        let x = band.x(page.centre(place));
        let from = if column.p.mark.is_some() { levels.p_bottom } else { levels.b_bottom };
        svg.path("drop", &format!("M{x} {from}V{}", levels.shown_top));
        let (left, right) = (band.x(page.edge(place)), band.x(page.edge(place + 1)));
        svg.rect("shown", (left + 1, levels.shown_top), right - left - 2, height);
        for (line, words) in (1..).zip(shown_lines(entry)) {
            svg.centred(Font::Cell, (x, levels.shown_top + line * LINE), &words);
        }
    }
}

impl Lane<'_> {
    /// The epochs as blocks, each with its number where it has room.
    fn blocks(&self, svg: &mut Svg, stay: impl Fn(&Column) -> Option<Stay>) {
        let columns = &self.page.scene.columns;
        let mut start = self.band.columns.start;
        while start < self.band.columns.end {
            let here = stay(&columns[start]);
            let differs = |place: &usize| stay(&columns[*place]) != here;
            let end = (start..self.band.columns.end).find(differs);
            let end = end.unwrap_or(self.band.columns.end);
            self.block(svg, here, start, end);
            start = end;
        }
    }

    fn block(&self, svg: &mut Svg, stay: Option<Stay>, start: usize, end: usize) {
        let left = self.band.x(self.page.edge(start));
        let width = self.band.x(self.page.edge(end)) - left;
        if let Some(stay) = stay {
            block(svg, stay, (left, self.top), width, self.bottom - self.top);
        }
        let fits = |words: &&String| Font::Label.width(words) + 4 <= width;
        if let Some(words) = block_words(stay).iter().find(fits) {
            svg.text(Font::Label, (left + 3, self.top + LABEL_STRIP - 4), words);
        }
    }

    fn cells(&self, svg: &mut Svg, cell: impl Fn(&Column) -> &Cell) {
        for place in self.band.columns.clone() {
            let Cell { mark: sign, lines } = cell(&self.page.scene.columns[place]);
            let x = self.band.x(self.page.centre(place));
            if let Some(sign) = sign {
                mark(svg, *sign, (x, self.bottom - MARK_STRIP / 2));
            }
            let first = self.bottom - MARK_STRIP - lines.len() as i64 * LINE;
            for (line, words) in (1..).zip(lines) {
                svg.centred(Font::Cell, (x, first + line * LINE - 2), words);
            }
        }
    }
}

/// What a block may be called, the fullest first.
fn block_words(stay: Option<Stay>) -> Vec<String> {
    let Some(Stay { epoch, role }) = stay else {
        return vec!["stopped".to_string()];
    };
    let number = epoch.0;
    let name = match role {
        Role::Failover => " failover",
        Role::Drives | Role::Follows | Role::Outside => "",
    };
    vec![
        format!("epoch {number}{name}"),
        format!("{number}{name}"),
        format!("epoch {number}"),
        number.to_string(),
    ]
}
