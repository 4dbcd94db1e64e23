//! The signs of the lanes, drawn around a place.

use crate::draw::page::MARK_STRIP;
use crate::draw::scene::{Mark, Role, Stay, WireKind};
use crate::draw::svg::{Place, Svg};

/// From one stripe of the failover epoch to the next.
const STRIPE: usize = 9;

pub fn mark(svg: &mut Svg, mark: Mark, (x, y): Place) {
    match mark {
        Mark::Instruction => svg.path("k", &format!("M{x} {}v8", y - 4)),
        Mark::Start => svg.path("kf", &triangle((x, y))),
        Mark::HiddenStart => svg.path("kh", &triangle((x, y))),
        Mark::Time => {
            svg.circle("kh", (x, y), 5);
            svg.path("k", &format!("M{x} {}v3h2", y - 3));
        }
        Mark::Interrupt => svg.path("kf", &from_below((x, y))),
        Mark::IgnoredInterrupt => svg.path("kh", &from_below((x, y))),
        Mark::Wait => svg.path("k", &format!("M{} {}v8m4 0v-8", x - 2, y - 4)),
        Mark::Boundary => svg.path("kf", &format!("M{x} {}l5 5l-5 5l-5-5z", y - 5)),
        Mark::Stop => svg.path("stop", &format!("M{} {}l12 12m0-12l-12 12", x - 6, y - 6)),
        Mark::Detect => {
            svg.circle("kh", (x, y), 6);
            svg.path("k", &format!("M{x} {}v5m0 2v1", y - 4));
        }
    }
}

/// Pointing down, to the devices.
fn triangle((x, y): Place) -> String {
    format!("M{} {}h10l-5 9z", x - 5, y - 4)
}

/// Pointing up, with its foot below the lane.
fn from_below((x, y): Place) -> String {
    let foot = y + MARK_STRIP / 2 + 3;
    format!("M{} {foot}V{y}h-4l5-7l5 7h-4V{foot}z", x - 1)
}

pub fn wire_class(kind: WireKind) -> &'static str {
    match kind {
        WireKind::Val => "val",
        WireKind::Int => "int",
        WireKind::Tme => "tme",
        WireKind::End => "end",
        WireKind::Acknowledgement => "ack",
    }
}

/// The block of an epoch. Stripes are lines of their own: patterns are not drawn alike everywhere.
pub fn block(svg: &mut Svg, stay: Stay, place: Place, width: i64, height: i64) {
    svg.rect(stay_class(stay), place, width, height);
    if stay.role == Role::Failover {
        svg.path("stripes", &stripes(place, width, height));
    }
}

/// Slanted lines, cut at the block's edges.
fn stripes((x, y): Place, width: i64, height: i64) -> String {
    let line = |along: i64| {
        let (left, bottom) = ((along - height).max(0), along.min(height));
        let (right, top) = (along.min(width), (along - width).max(0));
        format!("M{} {}L{} {}", x + left, y + bottom, x + right, y + top)
    };
    (1..width + height).step_by(STRIPE).map(line).collect()
}

/// Epochs side by side differ in shade.
fn stay_class(stay: Stay) -> &'static str {
    match (stay.role, stay.epoch.0 % 2) {
        (Role::Drives, 0) => "drives0",
        (Role::Drives, _) => "drives1",
        (Role::Follows, 0) => "follows0",
        (Role::Follows, _) => "follows1",
        (Role::Failover, _) => "failover",
        (Role::Outside, _) => "outside",
    }
}
