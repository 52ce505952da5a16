//! Programs as people read them, an instruction at a time.

use crate::code;
use std::fmt;
use std::iter;

/// What `{:?}` shows of a program: its instructions, in order.
pub(crate) struct Listing<'p>(pub(crate) &'p [u8]);

/// An instruction with its operands.
enum Instruction<'p> {
    Plain(&'static str),
    Text(&'static str, &'p str),
    TextWithWidth(u64, &'p str),
    Number(&'static str, u64),
    Nest(i64),
    /// The rest of bytes that are no program.
    Rest(&'p [u8]),
}

impl fmt::Debug for Instruction<'_> {
    fn fmt(&self, f: &mut fmt::Formatter<'_>) -> fmt::Result {
        match self {
            Instruction::Plain(name) => f.write_str(name),
            Instruction::Text(name, text) => write!(f, "{name}({text:?})"),
            Instruction::TextWithWidth(width, text) => write!(f, "text_with_width({text:?}, {width})"),
            Instruction::Number(name, number) => write!(f, "{name}({number})"),
            Instruction::Nest(offset) => write!(f, "nest({offset})"),
            Instruction::Rest(bytes) => write!(f, "{bytes:?}"),
        }
    }
}

/// The name of an instruction that has no operands.
fn plain(code: u8) -> Option<&'static str> {
    Some(match code {
        code::NIL => "nil",
        code::FAIL => "fail",
        code::WEAK_SPACE => "weak_space",
        code::HARD_LINE => "hard_line",
        code::WEAK_LINE => "weak_line",
        code::EXPAND_PARENT => "expand_parent",
        code::LINE => "line",
        code::LINE_OR_NIL => "line_",
        code::GROUP => "group",
        code::FLATTEN => "flatten",
        code::ALIGN => "align",
        code::DEDENT_TO_ROOT => "dedent_to_root",
        code::LINE_SUFFIX => "line_suffix",
        code::APPEND => "append",
        code::FLAT_ALT => "flat_alt",
        code::UNION => "union",
        code::PARTIAL_UNION => "partial_union",
        code::COLUMN_IS_NESTING => "if_column(IsNesting)",
        code::OPEN => "open",
        code::CLOSE => "close",
        _ => return None,
    })
}

/// Takes so many bytes from the front.
fn take<'p>(rest: &mut &'p [u8], length: usize) -> Option<&'p [u8]> {
    let taken = rest.get(..length)?;
    *rest = &rest[length..];
    Some(taken)
}

fn number(rest: &mut &[u8]) -> Option<u64> {
    Some(u64::from_le_bytes(take(rest, 8)?.try_into().ok()?))
}

fn text<'p>(rest: &mut &'p [u8]) -> Option<&'p str> {
    let length = u32::from_le_bytes(take(rest, 4)?.try_into().ok()?);
    std::str::from_utf8(take(rest, length as usize)?).ok()
}

/// Takes an instruction from the front, if the bytes begin with one.
fn instruction<'p>(rest: &mut &'p [u8]) -> Option<Instruction<'p>> {
    let code = take(rest, 1)?[0];
    if let Some(name) = plain(code) {
        return Some(Instruction::Plain(name));
    }
    Some(match code {
        code::TEXT => Instruction::Text("text", text(rest)?),
        code::ASCII_TEXT => Instruction::Text("ascii_text", text(rest)?),
        code::MULTILINE_TEXT => Instruction::Text("multiline_text", text(rest)?),
        code::TEXT_WITH_WIDTH => Instruction::TextWithWidth(number(rest)?, text(rest)?),
        code::NEST => Instruction::Nest(number(rest)? as i64),
        code::COLUMN_AT_MOST => Instruction::Number("if_column_at_most", number(rest)?),
        code::COLUMN_AT_LEAST => Instruction::Number("if_column_at_least", number(rest)?),
        code::NESTING_AT_MOST => Instruction::Number("if_nesting_at_most", number(rest)?),
        code::NESTING_AT_LEAST => Instruction::Number("if_nesting_at_least", number(rest)?),
        _ => return None,
    })
}

/// Takes the next instruction, or all that is left where no instruction comes next.
fn next<'p>(rest: &mut &'p [u8]) -> Option<Instruction<'p>> {
    let all = *rest;
    if all.is_empty() {
        return None;
    }
    let next = instruction(rest);
    if next.is_none() {
        *rest = &[];
    }
    next.or(Some(Instruction::Rest(all)))
}

impl fmt::Debug for Listing<'_> {
    fn fmt(&self, f: &mut fmt::Formatter<'_>) -> fmt::Result {
        let mut rest = self.0;
        f.debug_list().entries(iter::from_fn(|| next(&mut rest))).finish()
    }
}

#[cfg(test)]
mod tests {
    use super::Listing;

    #[track_caller]
    fn shows(program: &[u8], listing: &str) {
        assert_eq!(format!("{:?}", Listing(program)), listing);
    }

    #[test]
    fn programs() {
        shows(&[], "[]");
        shows(&[0, 1, 48], "[nil, fail, append]");
        shows(
            &[16, 1, 0, 0, 0, b'"', 17, 0, 0, 0, 0],
            r#"[text("\""), ascii_text("")]"#,
        );
        shows(
            &[18, 3, 0, 0, 0, 0, 0, 0, 0, 1, 0, 0, 0, b'a'],
            r#"[text_with_width("a", 3)]"#,
        );
        shows(&[6, 37, 254, 255, 255, 255, 255, 255, 255, 255], "[line, nest(-2)]");
        shows(&[52, 7, 0, 0, 0, 0, 0, 0, 0], "[if_column_at_most(7)]");
    }

    #[test]
    fn bytes_that_are_no_program() {
        shows(&[0, 8, 0], "[nil, [8, 0]]");
        shows(&[3, 16, 2, 0, 0, 0, b'a'], "[hard_line, [16, 2, 0, 0, 0, 97]]");
        shows(&[16, 1, 0, 0, 0, 255], "[[16, 1, 0, 0, 0, 255]]");
    }
}
