//! Line ends, indents at once or later, and the default.

use yezhgulo::{Doc, IndentationPolicy, LineEnding, RenderOptions};

#[test]
fn indents_at_once_or_later() {
    let lines = (Doc::text("a") + Doc::hard_line() + Doc::hard_line() + "b").nest(2);
    let eager = RenderOptions::new(80);
    let deferred = eager.with_indentation_policy(IndentationPolicy::Deferred);
    let crlf = deferred.with_line_ending(LineEnding::Crlf);
    assert_eq!(lines.layout(&eager).as_deref(), Ok("a\n  \n  b"));
    assert_eq!(lines.layout(&deferred).as_deref(), Ok("a\n\n  b"));
    assert_eq!(lines.layout(&crlf).as_deref(), Ok("a\r\n\r\n  b"));
    assert_eq!(lines.print_with(&crlf).to_string(), "a\r\n\r\n  b");
}

#[test]
fn a_payload_keeps_its_line_ends() {
    let lines = Doc::multiline_text("a\nb") + Doc::hard_line() + "c";
    let crlf = RenderOptions::new(80).with_line_ending(LineEnding::Crlf);
    assert_eq!(lines.layout(&crlf).as_deref(), Ok("a\nb\r\nc"));
}

#[test]
fn the_default() {
    let default = RenderOptions::default();
    assert_eq!(default, RenderOptions::new(80));
    assert_eq!(default.line_ending, LineEnding::default());
    assert_eq!(default.indentation_policy, IndentationPolicy::default());
    let pair = (Doc::text("a").repeat(78) + Doc::line() + "b").group();
    assert_eq!(pair.layout(&default).unwrap().lines().count(), 1);
    assert_eq!((Doc::text("a") + pair).layout(&default).unwrap().lines().count(), 2);
}

#[test]
fn all_options_together() {
    let options = RenderOptions::default()
        .with_width(3)
        .with_line_ending(LineEnding::Crlf)
        .with_indentation_policy(IndentationPolicy::Deferred)
        .with_limit(7);
    // Six bytes: `ab`, CR, LF, and `cd`.
    let pair = (Doc::text("ab") + Doc::line() + "cd").group();
    assert_eq!(pair.layout(&options).as_deref(), Ok("ab\r\ncd"));
    assert!((pair + "ef").layout(&options).is_err());
}
