//! What the signs mean.

use crate::draw::marks::{block, mark, wire_class};
use crate::draw::page::{LEFT, RIGHT};
use crate::draw::scene::{Mark, Role, Scene, Stay, WireKind};
use crate::draw::svg::{Font, Place, Svg};
use crate::draw::wires::stub_at;
use crate::numbers::Epoch;

enum Sample {
    Block(Role),
    Sign(Mark),
    Line(WireKind),
    Stub,
}

const SAMPLES: &[(Sample, &str)] = &[
    (Sample::Block(Role::Drives), "epoch, driving the devices"),
    (Sample::Block(Role::Follows), "epoch, following"),
    (Sample::Block(Role::Failover), "failover epoch"),
    (Sample::Block(Role::Outside), "not yet in an epoch"),
    (Sample::Sign(Mark::Instruction), "instruction"),
    (Sample::Sign(Mark::Start), "START, shown to its device"),
    (Sample::Sign(Mark::HiddenStart), "START, shown to no device"),
    (Sample::Sign(Mark::Time), "TIME, with the clock reading"),
    (Sample::Sign(Mark::Interrupt), "interrupt from a device"),
    (Sample::Sign(Mark::IgnoredInterrupt), "interrupt, ignored before promotion"),
    (Sample::Sign(Mark::Wait), "P waits to end its epoch"),
    (Sample::Sign(Mark::Boundary), "end of an epoch; what the guest is told"),
    (Sample::Sign(Mark::Stop), "P stops"),
    (Sample::Sign(Mark::Detect), "B learns of the stop"),
    (Sample::Line(WireKind::Val), "Val: a clock reading"),
    (Sample::Line(WireKind::Int), "Int: an interrupt"),
    (Sample::Line(WireKind::Tme), "Tme: the clock at the end of an epoch"),
    (Sample::Line(WireKind::End), "end: P has finished an epoch"),
    (Sample::Line(WireKind::Acknowledgement), "acknowledgement"),
    (Sample::Stub, "in flight when the run ends"),
];

const IN_A_ROW: usize = 3;
const ROW: i64 = 22;
const SAMPLE_WIDTH: i64 = 26;

/// Draws the samples that occur in the run from a height on, and gives the height below them.
pub fn draw(svg: &mut Svg, scene: &Scene, top: i64) -> i64 {
    let used: Vec<_> = SAMPLES.iter().filter(|(sample, _)| occurs(sample, scene)).collect();
    for (place, (sample, words)) in used.iter().enumerate() {
        let x = LEFT + (place % IN_A_ROW) as i64 * (RIGHT - LEFT) / IN_A_ROW as i64;
        let y = top + (place / IN_A_ROW) as i64 * ROW;
        draw_sample(svg, sample, (x, y), scene);
        svg.text(Font::Cell, (x + SAMPLE_WIDTH + 8, y + 4), words);
    }
    top + used.len().div_ceil(IN_A_ROW) as i64 * ROW
}

fn occurs(sample: &Sample, scene: &Scene) -> bool {
    let (columns, wires) = (&scene.columns, &scene.wires);
    match sample {
        Sample::Block(role) => columns.iter().any(|column| {
            column.stay_b.role == *role || column.stay_p.is_some_and(|stay| stay.role == *role)
        }),
        Sample::Sign(sign) => columns
            .iter()
            .any(|column| column.p.mark == Some(*sign) || column.b.mark == Some(*sign)),
        Sample::Line(kind) => wires.iter().any(|wire| wire.kind == *kind),
        Sample::Stub => first_in_flight(scene).is_some(),
    }
}

fn first_in_flight(scene: &Scene) -> Option<WireKind> {
    scene.wires.iter().find(|wire| wire.to.is_none()).map(|wire| wire.kind)
}

/// A sample with its middle at the height given.
fn draw_sample(svg: &mut Svg, sample: &Sample, (x, y): Place, scene: &Scene) {
    match sample {
        Sample::Block(role) => {
            let stay = Stay { epoch: Epoch(1), role: *role };
            block(svg, stay, (x, y - 6), SAMPLE_WIDTH, 12);
        }
        Sample::Sign(sign) => mark(svg, *sign, (x + SAMPLE_WIDTH / 2, y)),
        Sample::Line(kind) => {
            svg.arrow(wire_class(*kind), &format!("M{x} {y}h{SAMPLE_WIDTH}"));
        }
        Sample::Stub => {
            let kind = first_in_flight(scene).unwrap_or(WireKind::Val);
            let foot = if kind == WireKind::Acknowledgement { y + 8 } else { y - 8 };
            stub_at(svg, kind, (x + SAMPLE_WIDTH / 2 - 2, foot));
        }
    }
}
