//! The three calls of the library. All `unsafe` of the crate is here.
#![allow(unsafe_code)]

use crate::json::JsonStyle;
use crate::options::{IndentationPolicy, LineEnding, RenderOptions};
use crate::toml::TomlStyle;
use std::num::NonZeroUsize;

#[cfg(not(target_pointer_width = "64"))]
compile_error!("the library is for machines with addresses of 64 bits");

pub(crate) const OK: u32 = 0;
pub(crate) const TOO_SMALL: u32 = 1;
pub(crate) const MEMORY: u32 = 2;
pub(crate) const FAILS: u32 = 3;
pub(crate) const PAST_LIMIT: u32 = 4;
pub(crate) const NOT_JSON: u32 = 5;
pub(crate) const NOT_TOML: u32 = 6;
pub(crate) const INSTRUCTION: u32 = 16;
pub(crate) const OPERAND: u32 = 17;
pub(crate) const TEXT: u32 = 18;
pub(crate) const DOCUMENT: u32 = 19;
pub(crate) const UNOPENED: u32 = 20;
pub(crate) const UNCLOSED: u32 = 21;

extern "C" {
    fn prettyless_layout(
        program: *const u8,
        length: usize,
        width: usize,
        crlf: bool,
        deferred: bool,
        limit: usize,
        out: *mut u8,
        capacity: usize,
        written: *mut usize,
    ) -> u32;

    fn prettyless_layout_json(
        text: *const u8,
        length: usize,
        width: usize,
        indent: u32,
        fill: bool,
        keep_blank_lines: bool,
        limit: usize,
        out: *mut u8,
        capacity: usize,
        written: *mut usize,
        line: *mut usize,
        column: *mut usize,
    ) -> u32;

    fn prettyless_layout_toml(
        text: *const u8,
        length: usize,
        width: usize,
        indent: u32,
        limit: usize,
        out: *mut u8,
        capacity: usize,
        written: *mut usize,
        line: *mut usize,
        column: *mut usize,
    ) -> u32;
}

/// What a call answers: its status, and how many bytes it says that it has written.
#[derive(Clone, Copy)]
pub(crate) struct Answer {
    pub(crate) status: u32,
    pub(crate) written: usize,
}

/// The place in a text that a call names: a line and a column, both from 1.
#[derive(Clone, Copy, Default)]
pub(crate) struct Place {
    pub(crate) line: usize,
    pub(crate) column: usize,
}

/// A limit as the calls take it: 0 for none.
fn limit_of(limit: Option<NonZeroUsize>) -> usize {
    limit.map_or(0, NonZeroUsize::get)
}

/// The answer of a call, which writes how many bytes it has written.
fn answer(call: impl FnOnce(&mut usize) -> u32) -> Answer {
    let mut written = 0;
    let status = call(&mut written);
    Answer { status, written }
}

/// Lays out the document that a program writes.
pub(crate) fn layout(program: &[u8], options: &RenderOptions, out: &mut [u8]) -> Answer {
    // SAFETY: The call reads `length` bytes from `program`, writes at most `capacity` bytes from `out` on and one
    // number to `written`, and keeps no pointer. All three come from references to initialised memory of these lengths,
    // so they are valid, aligned, and not null for length 0 either. `out` and `written` are borrowed mutably, so no two
    // of the areas overlap. Any number of threads may call at once. Any bytes may be handed in as a program.
    answer(|written| unsafe {
        prettyless_layout(
            program.as_ptr(),
            program.len(),
            options.width,
            options.line_ending == LineEnding::Crlf,
            options.indentation_policy == IndentationPolicy::Deferred,
            limit_of(options.limit),
            out.as_mut_ptr(),
            out.len(),
            written,
        )
    })
}

/// Lays out a JSON text. The place is where the text is refused, if it is.
pub(crate) fn layout_json(text: &[u8], style: &JsonStyle, out: &mut [u8], place: &mut Place) -> Answer {
    // SAFETY: As in `layout`: the call reads `length` bytes from `text`, writes at most `capacity` bytes from `out` on
    // and one number each to `written`, `line` and `column`, and keeps no pointer. These come from references, all but
    // the first mutable and to different places. Any bytes may be handed in as a text.
    answer(|written| unsafe {
        prettyless_layout_json(
            text.as_ptr(),
            text.len(),
            style.width,
            style.indent,
            style.fill,
            style.keep_blank_lines,
            limit_of(style.limit),
            out.as_mut_ptr(),
            out.len(),
            written,
            &mut place.line,
            &mut place.column,
        )
    })
}

/// Lays out a TOML text. The place is where the text is refused, if it is.
pub(crate) fn layout_toml(text: &[u8], style: &TomlStyle, out: &mut [u8], place: &mut Place) -> Answer {
    // SAFETY: As in `layout_json`.
    answer(|written| unsafe {
        prettyless_layout_toml(
            text.as_ptr(),
            text.len(),
            style.width,
            style.indent,
            limit_of(style.limit),
            out.as_mut_ptr(),
            out.len(),
            written,
            &mut place.line,
            &mut place.column,
        )
    })
}
