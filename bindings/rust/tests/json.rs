//! The layout of JSON texts.

use yezhgulo::{format_json, JsonError, JsonStyle};

const TEXT: &str = r#"{"name":"Ada","list":[1,22,333],"empty":{}}"#;

/// Checks at which place a text is refused, and what was expected there.
#[track_caller]
fn refuses(text: impl AsRef<[u8]>, line: usize, column: usize, expected: &str) {
    let expected = expected.to_string();
    let error = JsonError::NotJson { line, column, expected };
    assert_eq!(format_json(text, &JsonStyle::default()), Err(error));
}

#[test]
fn a_text_is_laid_out_within_the_width() {
    let layout = "{\n  \"name\": \"Ada\",\n  \"list\": [1, 22, 333],\n  \"empty\": {}\n}\n";
    assert_eq!(format_json(TEXT, &JsonStyle::new(24)).as_deref(), Ok(layout));
    let narrow = "[\n 1,\n 2\n]\n";
    assert_eq!(
        format_json("[1, 2]", &JsonStyle::new(5).with_indent(1)).as_deref(),
        Ok(narrow)
    );
}

#[test]
fn the_default_style() {
    assert_eq!(JsonStyle::default(), JsonStyle::new(80));
    assert_eq!(format_json(" 1 ", &JsonStyle::default()).as_deref(), Ok("1\n"));
}

#[test]
fn an_array_of_numbers_fills_its_lines() {
    let style = JsonStyle::new(7).with_fill(true);
    assert_eq!(format_json("[1,2,3]", &style).as_deref(), Ok("[\n  1, 2,\n  3\n]\n"));
}

#[test]
fn blank_lines_stay_between_members_of_broken_lists() {
    let text = "{\"a\":\n\n1,\n\n\n\"b\": [2,\n\n3]\n\n}";
    let style = JsonStyle::new(13);
    let kept = style.with_keep_blank_lines(true);
    assert_eq!(
        format_json(text, &style).as_deref(),
        Ok("{\n  \"a\": 1,\n  \"b\": [2, 3]\n}\n")
    );
    assert_eq!(
        format_json(text, &kept).as_deref(),
        Ok("{\n  \"a\": 1,\n\n  \"b\": [2, 3]\n}\n")
    );
}

#[test]
fn a_layout_may_be_far_longer_than_its_text() {
    let style = JsonStyle::new(0).with_indent(1000);
    let layout = format_json("[[1]]", &style).unwrap();
    let line = |level: usize, text: &str| format!("{}{text}\n", " ".repeat(1000 * level));
    let lines = [line(0, "["), line(1, "["), line(2, "1"), line(1, "]"), line(0, "]")];
    assert_eq!(layout, lines.concat());
}

#[test]
fn the_place_where_the_wrong_token_begins() {
    refuses("", 1, 1, "a value");
    refuses("[1,", 1, 4, "a value");
    refuses("[\n]]", 2, 2, "the end of the text");
    refuses("[,", 1, 2, "a value or `]`");
    refuses("[tru]", 1, 2, "a value or `]`");
    refuses(b"[1 2 \xff]", 1, 6, "UTF-8");
    refuses("{\"é\" 1}", 1, 6, "`:`");
    refuses([b'"', 0xff, b'"'], 1, 2, "UTF-8");
    let deep = "[".repeat(100_001) + &"]".repeat(100_001);
    refuses(deep, 1, 100_001, "at most 100,000 levels of nesting");
}

#[test]
fn a_layout_is_as_long_as_the_limit_at_most() {
    let style = JsonStyle::new(80);
    assert_eq!(format_json("[1,2]", &style.with_limit(7)).as_deref(), Ok("[1, 2]\n"));
    assert_eq!(format_json("[1,2]", &style.with_limit(6)), Err(JsonError::PastLimit));
    assert_eq!(JsonError::PastLimit.to_string(), "the layout is longer than its limit");
}
