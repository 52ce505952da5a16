//! The area of memory that a call writes a layout into.

use crate::sys::{Answer, FAILS, MEMORY, OK, TOO_SMALL};

/// Makes a buffer so long, by zeros at its end, or says that memory is refused.
fn grow(out: &mut Vec<u8>, length: usize) -> bool {
    let more = length.saturating_sub(out.len());
    let has_room = out.try_reserve(more).is_ok();
    if has_room {
        out.resize(length, 0);
    }
    has_room
}

/// The length of the area that an answer asks for, if a longer one is needed.
fn wanted(answer: Answer, room: usize) -> Option<usize> {
    match answer.status {
        TOO_SMALL => Some(answer.written),
        // What comes before the node that fails may go on past the area.
        FAILS if answer.written >= room => Some(room.saturating_mul(2)),
        _ => None,
    }
    .filter(|&length| length > room)
}

/// Has a call write after the bytes of `out`, with `room` bytes at first and more where it asks for more.
///
/// Answers the call's status. Then `out` has what it had, and after that what the call has written.
pub(crate) fn fill(out: &mut Vec<u8>, room: usize, mut call: impl FnMut(&mut [u8]) -> Answer) -> u32 {
    let start = out.len();
    let mut room = room.max(1);
    if !grow(out, start.saturating_add(room)) {
        return MEMORY;
    }
    loop {
        let answer = call(&mut out[start..]);
        let more = wanted(answer, room);
        if let Some(length) = more {
            if grow(out, start.saturating_add(length)) {
                room = length;
                continue;
            }
        }
        out.truncate(start + answer.written.min(room));
        let refused = answer.status == TOO_SMALL && more.is_some();
        return if refused { MEMORY } else { answer.status };
    }
}

/// The same, and where the status is not `OK`, what was written is taken out of `out` again.
pub(crate) fn fill_or_take(
    out: &mut Vec<u8>,
    room: usize,
    call: impl FnMut(&mut [u8]) -> Answer,
) -> Result<(), (u32, Vec<u8>)> {
    let start = out.len();
    match fill(out, room, call) {
        OK => Ok(()),
        status => Err((status, out.split_off(start))),
    }
}

/// The text that a layout is. All texts of a document are UTF-8, and so is its layout.
pub(crate) fn text_of(layout: Vec<u8>) -> String {
    let mut text = String::from_utf8(layout).expect("a layout of UTF-8 texts is UTF-8");
    text.shrink_to_fit();
    text
}

#[cfg(test)]
mod tests {
    use super::{fill, fill_or_take};
    use crate::sys::{Answer, FAILS, MEMORY, OK, PAST_LIMIT, TOO_SMALL};

    /// A call that has these bytes to write, and then this status.
    fn call(bytes: &[u8], status: u32) -> impl FnMut(&mut [u8]) -> Answer + '_ {
        move |out| {
            let length = bytes.len().min(out.len());
            out[..length].copy_from_slice(&bytes[..length]);
            match status {
                OK if length < bytes.len() => Answer {
                    status: TOO_SMALL,
                    written: bytes.len(),
                },
                _ => Answer {
                    status,
                    written: length,
                },
            }
        }
    }

    #[test]
    fn a_layout_comes_after_what_is_there() {
        for room in [0, 1, 5, 6, 7, 100] {
            let mut out = b"> ".to_vec();
            assert_eq!(fill(&mut out, room, call(b"layout", OK)), OK);
            assert_eq!(out, b"> layout");
        }
    }

    #[test]
    fn a_layout_that_fits_is_made_once() {
        let mut calls = 0;
        let mut once = call(b"layout", OK);
        let counted = |out: &mut [u8]| {
            calls += 1;
            once(out)
        };
        assert_eq!(fill(&mut Vec::new(), 6, counted), OK);
        assert_eq!(calls, 1);
    }

    #[test]
    fn all_comes_that_is_before_a_failure() {
        for room in [0, 1, 5, 6, 7, 100] {
            let mut out = b"> ".to_vec();
            let failed = fill_or_take(&mut out, room, call(b"layout", FAILS));
            assert_eq!(failed, Err((FAILS, b"layout".to_vec())));
            assert_eq!(out, b"> ");
        }
    }

    #[test]
    fn a_beginning_comes_of_other_statuses() {
        for status in [MEMORY, PAST_LIMIT, 99] {
            let failed = fill_or_take(&mut Vec::new(), 4, call(b"layout", status));
            assert_eq!(failed, Err((status, b"layo".to_vec())));
        }
    }

    #[test]
    fn a_layout_that_memory_has_no_room_for() {
        for written in [usize::MAX, usize::MAX / 2] {
            let status = TOO_SMALL;
            let mut out = b"> ".to_vec();
            let failed = fill_or_take(&mut out, 4, |_| Answer { status, written });
            assert_eq!(failed, Err((MEMORY, vec![0; 4])));
            assert_eq!(out, b"> ");
        }
    }

    #[test]
    fn an_answer_that_makes_no_sense_ends() {
        let status = TOO_SMALL;
        assert_eq!(fill(&mut Vec::new(), 4, |_| Answer { status, written: 4 }), TOO_SMALL);
        let (status, written) = (PAST_LIMIT, usize::MAX);
        assert_eq!(fill(&mut Vec::new(), 4, |_| Answer { status, written }), PAST_LIMIT);
    }
}
