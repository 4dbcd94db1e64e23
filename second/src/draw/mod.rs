//! A run as a picture: two lanes for the cards, one for the devices, a column for each event.
//!
//! `scene` says what there is to draw, `cells` how an event is put in words, `page` where
//! everything stands; `band`, `wires`, `marks` and `legend` draw it with the shapes of `svg`.

mod band;
mod cells;
mod legend;
mod marks;
mod page;
mod scene;
mod svg;
mod wires;
mod words;

use crate::draw::page::{Page, LEFT, PAGE_WIDTH};
use crate::draw::scene::Scene;
use crate::draw::svg::{Font, Svg};
use crate::instruction::{Instruction, INSTRUCTION_BYTES};
use crate::pair::LONGEST_EPOCH;
use crate::retell::{retell, Ending};
use crate::runfile::{self, RunFile};
use crate::text;

/// The drawing of a run file, or of the text of one; or what is wrong with it.
pub fn draw(content: &[u8]) -> Result<String, String> {
    if let Some(text) = as_text(content) {
        let packed = text::pack(text).map_err(|error| error.to_string())?;
        return draw_file(&packed);
    }
    draw_file(content)
}

/// A run file begins with byte 1 and has zeros in it; a text has neither.
fn as_text(content: &[u8]) -> Option<&str> {
    let control = |byte: &u8| byte.is_ascii_control() && !byte.is_ascii_whitespace();
    if content.is_empty() || content.iter().any(control) {
        return None;
    }
    std::str::from_utf8(content).ok()
}

fn draw_file(file: &[u8]) -> Result<String, String> {
    let file = runfile::judge(file).map_err(|reason| format!("bad run file: {reason}"))?;
    judge_setting(&file)?;
    let mut scene = Scene::default();
    let ending = retell::<String>(&file, |moment| {
        scene.add(moment, file.program);
        Ok(())
    })?;
    Ok(picture(&scene, &ending))
}

/// Why no pair is made with this L and this program, if none is.
fn judge_setting(file: &RunFile) -> Result<(), String> {
    if file.l == 0 || file.l > LONGEST_EPOCH {
        return Err(format!("L is {}, and must be 1 to {LONGEST_EPOCH}", file.l));
    }
    let n = (file.program.len() / INSTRUCTION_BYTES) as u16;
    match (0..n).find(|place| Instruction::at(file.program, *place, n).is_none()) {
        Some(place) => Err(format!("instruction {place} of the program is not well formed")),
        None => Ok(()),
    }
}

fn picture(scene: &Scene, ending: &Ending) -> String {
    let mut svg = Svg::default();
    let title = words::title(ending);
    let shown = scene.columns.iter().filter(|column| column.shown.is_some()).count();
    svg.text(Font::Title, (LEFT, 30), &title);
    svg.text(Font::Text, (LEFT, 50), &words::subtitle(ending, shown));
    let page = Page::lay(scene, 66);
    for band in &page.bands {
        band::draw(&mut svg, &page, band);
    }
    wires::draw(&mut svg, &page);
    if ending.refused.is_some() {
        band::draw_refusal(&mut svg, &page);
    }
    svg.text(Font::Text, (LEFT, page.bottom), &words::ending(ending));
    let bottom = legend::draw(&mut svg, scene, page.bottom + 28);
    svg.file(PAGE_WIDTH, bottom, &title)
}
