//! The instructions of a program: their codes and their operands.

pub(crate) const NIL: u8 = 0;
pub(crate) const FAIL: u8 = 1;
pub(crate) const WEAK_SPACE: u8 = 2;
pub(crate) const HARD_LINE: u8 = 3;
pub(crate) const WEAK_LINE: u8 = 4;
pub(crate) const EXPAND_PARENT: u8 = 5;
pub(crate) const LINE: u8 = 6;
pub(crate) const LINE_OR_NIL: u8 = 7;

pub(crate) const TEXT: u8 = 16;
pub(crate) const ASCII_TEXT: u8 = 17;
pub(crate) const TEXT_WITH_WIDTH: u8 = 18;
pub(crate) const MULTILINE_TEXT: u8 = 19;

pub(crate) const GROUP: u8 = 32;
pub(crate) const FLATTEN: u8 = 33;
pub(crate) const ALIGN: u8 = 34;
pub(crate) const DEDENT_TO_ROOT: u8 = 35;
pub(crate) const LINE_SUFFIX: u8 = 36;
pub(crate) const NEST: u8 = 37;

pub(crate) const APPEND: u8 = 48;
pub(crate) const FLAT_ALT: u8 = 49;
pub(crate) const UNION: u8 = 50;
pub(crate) const PARTIAL_UNION: u8 = 51;
pub(crate) const COLUMN_AT_MOST: u8 = 52;
pub(crate) const COLUMN_AT_LEAST: u8 = 53;
pub(crate) const COLUMN_IS_NESTING: u8 = 54;
pub(crate) const NESTING_AT_MOST: u8 = 55;
pub(crate) const NESTING_AT_LEAST: u8 = 56;

pub(crate) const OPEN: u8 = 64;
pub(crate) const CLOSE: u8 = 65;

/// The length of a text in bytes, as an operand.
pub(crate) fn length(bytes: usize) -> [u8; 4] {
    match u32::try_from(bytes) {
        Ok(length) => length.to_le_bytes(),
        Err(_) => panic!("a text of a document has fewer than 2^32 bytes, and this one has {bytes}"),
    }
}

/// The code of an instruction, and the length in bytes of the text that comes after it.
pub(crate) fn before_text(code: u8, bytes: usize) -> [u8; 5] {
    let [a, b, c, d] = length(bytes);
    [code, a, b, c, d]
}

/// The code of an instruction and its number.
pub(crate) fn with_number(code: u8, number: u64) -> [u8; 9] {
    let [a, b, c, d, e, f, g, h] = number.to_le_bytes();
    [code, a, b, c, d, e, f, g, h]
}

/// A number of columns that may be negative, as the operand of `NEST`.
pub(crate) fn offset(columns: isize) -> u64 {
    columns as i64 as u64
}

/// The offset that moves an indent to the right by so many columns.
pub(crate) fn to_the_right(columns: usize) -> isize {
    isize::try_from(columns).expect("an indent is moved by at most isize::MAX columns")
}

/// The instruction of a text that may have several lines.
pub(crate) fn of_lines(text: &str) -> u8 {
    if text.bytes().any(|byte| matches!(byte, b'\n' | b'\r')) {
        MULTILINE_TEXT
    } else {
        TEXT
    }
}
