//! A run told again, event by event.

use crate::event::{Event, EVENT_BYTES};
use crate::guest::RecordEntry;
use crate::pair::Pair;
use crate::refusal::Refusal;
use crate::runfile::{EventReader, RunFile};
use crate::step::step;

/// An event that was taken: the pair as it was and as it then is, and what the devices were shown.
pub struct Moment<'a> {
    pub event: Event,
    pub before: &'a Pair,
    pub after: &'a Pair,
    pub shown: Option<RecordEntry>,
}

/// How a run ended: the events taken, and the one that was refused, if any.
#[derive(Clone, Debug, PartialEq, Eq)]
pub struct Ending {
    pub taken: usize,
    pub refused: Option<([u8; EVENT_BYTES], Refusal)>,
    pub pair: Pair,
}

/// Hands out each event that is taken, up to the first refusal or the end. 8 where no pair can be
/// made; `each` may end the telling with an error of its own.
pub fn retell<E: From<Refusal>>(
    file: &RunFile,
    mut each: impl FnMut(&Moment) -> Result<(), E>,
) -> Result<Ending, E> {
    let mut pair = Pair::fresh(file.program, file.l)?;
    let mut taken = 0;
    for bytes in EventReader::new(file) {
        let before = pair.clone();
        match step(&mut pair, file.program, bytes) {
            Ok(shown) => {
                let event = Event::read(bytes).expect("an event that was taken is well formed");
                each(&Moment { event, before: &before, after: &pair, shown })?;
                taken += 1;
            }
            Err(refusal) => {
                let mut event = [0; EVENT_BYTES];
                event.copy_from_slice(bytes);
                return Ok(Ending { taken, refused: Some((event, refusal)), pair });
            }
        }
    }
    Ok(Ending { taken, refused: None, pair })
}
