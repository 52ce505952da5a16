//! Texts that are laid out whole, with a place where one is refused.

use crate::area::{fill_or_take, text_of};
use crate::sys::{Answer, Place};
use std::num::NonZeroUsize;

/// What a call said in place of a layout: its status, what it wrote, and the place that it named.
pub(crate) struct Refused {
    pub(crate) status: u32,
    pub(crate) place: Place,
    written: Vec<u8>,
}

impl Refused {
    /// The name of what was expected at the place.
    pub(crate) fn expected(self) -> String {
        String::from_utf8_lossy(&self.written).into_owned()
    }
}

/// The room that the layout of a text gets at first. What was expected fits in it too.
fn first_room(text: &[u8], limit: Option<NonZeroUsize>) -> usize {
    let limit = limit.map_or(usize::MAX, NonZeroUsize::get);
    text.len().saturating_mul(2).min(limit).max(256)
}

/// The layout of a text in this style, which a call of the library writes.
pub(crate) fn format<S>(
    text: &[u8],
    style: &S,
    limit: Option<NonZeroUsize>,
    call: fn(&[u8], &S, &mut [u8], &mut Place) -> Answer,
) -> Result<String, Refused> {
    let mut layout = Vec::new();
    let mut place = Place::default();
    fill_or_take(&mut layout, first_room(text, limit), |out| {
        call(text, style, out, &mut place)
    })
    .map_err(|(status, written)| Refused { status, place, written })?;
    Ok(text_of(layout))
}
