//! The layout of TOML texts.

use yezhgulo::{format_toml, TomlError, TomlStyle};

const TEXT: &str = "# first\nname=\"Ada\"\nlist=[1,22,333]#last\n[ empty ]\n";

/// Checks at which place a text is refused, and what was expected there.
#[track_caller]
fn refuses(text: impl AsRef<[u8]>, line: usize, column: usize, expected: &str) {
    let expected = expected.to_string();
    let error = TomlError::NotToml { line, column, expected };
    assert_eq!(format_toml(text, &TomlStyle::default()), Err(error));
}

#[test]
fn a_text_is_laid_out_within_the_width() {
    let layout = "# first\nname = \"Ada\"\nlist = [\n  1, 22, 333,\n] #last\n[empty]\n";
    assert_eq!(format_toml(TEXT, &TomlStyle::new(16)).as_deref(), Ok(layout));
    let narrow = "a = [\n 1,\n 2,\n]\n";
    assert_eq!(
        format_toml("a=[1, 2]", &TomlStyle::new(5).with_indent(1)).as_deref(),
        Ok(narrow)
    );
}

#[test]
fn the_default_style() {
    assert_eq!(TomlStyle::default(), TomlStyle::new(80));
    let layout = "# first\nname = \"Ada\"\nlist = [1, 22, 333] #last\n[empty]\n";
    assert_eq!(format_toml(TEXT, &TomlStyle::default()).as_deref(), Ok(layout));
}

#[test]
fn lines_end_as_the_first_line_does() {
    let style = TomlStyle::default();
    assert_eq!(format_toml("a=1\r\nb=2", &style).as_deref(), Ok("a = 1\r\nb = 2\r\n"));
    assert_eq!(format_toml("a=1\nb=2\r\n", &style).as_deref(), Ok("a = 1\nb = 2\n"));
    assert_eq!(format_toml("", &style).as_deref(), Ok(""));
}

#[test]
fn a_layout_may_be_far_longer_than_its_text() {
    let style = TomlStyle::new(0).with_indent(1000);
    let layout = format_toml("a=[[1]]", &style).unwrap();
    let line = |level: usize, text: &str| format!("{}{text}\n", " ".repeat(1000 * level));
    let lines = [
        line(0, "a = ["),
        line(1, "["),
        line(2, "1,"),
        line(1, "],"),
        line(0, "]"),
    ];
    assert_eq!(layout, lines.concat());
}

#[test]
fn the_place_where_the_wrong_token_begins() {
    refuses("a", 1, 2, "`.` or `=`");
    refuses("a = 1\nb =", 2, 4, "a value");
    refuses("a = {", 1, 6, "a key or `}`");
    refuses("a = 1 2", 1, 7, "the end of the line");
    refuses("[a\n", 1, 3, "`.` or `]`");
    refuses("\"é\" = [1 2]", 1, 10, "`,` or `]`");
    refuses(b"a = 1\n# \xff", 2, 3, "UTF-8");
    let deep = "a = ".to_string() + &"[".repeat(129) + &"]".repeat(129);
    refuses(deep, 1, 133, "at most 128 levels of nesting");
}

#[test]
fn a_layout_is_as_long_as_the_limit_at_most() {
    let style = TomlStyle::new(80);
    assert_eq!(format_toml("a=1", &style.with_limit(6)).as_deref(), Ok("a = 1\n"));
    assert_eq!(format_toml("a=1", &style.with_limit(5)), Err(TomlError::PastLimit));
    assert_eq!(TomlError::PastLimit.to_string(), "the layout is longer than its limit");
}
