//! Each construct, by the examples of the guide and by layouts that are worked by hand.

use std::borrow::Cow;
use std::rc::Rc;
use std::sync::Arc;
use yezhgulo::{ColumnTest, Doc, NestingTest};

#[track_caller]
fn shows(doc: &Doc, layouts: &[(usize, &str)]) {
    for &(width, layout) in layouts {
        assert_eq!(doc.pretty(width).as_deref(), Ok(layout), "{width} columns");
    }
}

fn pair(first: &str, last: &str) -> Doc {
    Doc::text(first) + Doc::line() + last
}

fn call(argument: impl Into<Doc>) -> Doc {
    (Doc::text("f(") + Doc::line_() + argument + Doc::line_() + ")").group()
}

#[test]
fn texts() {
    let row = (Doc::as_string(42) + Doc::line() + "你好").group();
    shows(&row, &[(7, "42 你好"), (6, "42\n你好")]);
    let row = (pair("a", "b") + Doc::spaces(3) + "c").group();
    shows(&row, &[(7, "a b   c"), (6, "a\nb   c")]);
    // In UTF-8, `é` has two bytes. It has one column.
    shows(&pair("é", "b").group(), &[(3, "é b"), (2, "é\nb")]);
    let counted = (Doc::text_with_width("x", 5) + Doc::line() + "b").group();
    shows(&counted, &[(7, "x b"), (6, "x\nb")]);
    shows(&Doc::spaces(250), &[(0, " ".repeat(250).as_str())]);
}

#[test]
fn an_empty_text_shows_nothing() {
    let empty_texts = [
        Doc::text(""),
        Doc::ascii_text(""),
        Doc::text_with_width("", 5),
        Doc::as_string(""),
    ];
    for empty in empty_texts {
        shows(&empty, &[(0, "")]);
        shows(&(empty + Doc::weak_line() + "x").group(), &[(1, "x")]);
    }
    // A text that has characters of no width is content.
    let mark = Doc::text_with_width("\u{300}", 0);
    shows(&(mark + Doc::weak_line() + "x"), &[(80, "\u{300}\nx")]);
}

#[test]
fn groups() {
    shows(
        &pair("first", "second").group(),
        &[(12, "first second"), (11, "first\nsecond")],
    );
    shows(&pair("first", "second"), &[(80, "first\nsecond")]);
    shows(&call("x"), &[(4, "f(x)"), (3, "f(\nx\n)")]);
    shows(
        &call(pair("a,", "b").group()),
        &[(6, "f(\na, b\n)"), (3, "f(\na,\nb\n)")],
    );
    shows(&(pair("a", "b").group() + ";"), &[(4, "a b;"), (3, "a\nb;")]);
    let lines = (pair("a", "b") + Doc::hard_line() + "c").group();
    shows(&lines, &[(80, "a\nb\nc"), (1, "a\nb\nc")]);
    let at_most = (Doc::text("test") + Doc::line() + "test").group();
    shows(
        &at_most,
        &[(usize::MAX, "test test"), (9, "test test"), (8, "test\ntest")],
    );
}

#[test]
fn lists_between_brackets() {
    let none: [Doc; 0] = [];
    assert!(Doc::punctuated(none, ",").is_empty());
    let inner = Doc::bracketed("[", Doc::punctuated(["2", "3"], ","), "]", 2);
    let list = Doc::bracketed("[", Doc::punctuated([Doc::text("1"), inner], ","), "]", 2);
    shows(&list, &[(11, "[1, [2, 3]]"), (10, "[\n  1,\n  [2, 3]\n]")]);
    shows(
        &Doc::bracketed("(", ["a", "b"], ")", 4),
        &[(5, "(a b)"), (4, "(\n    a\n    b\n)")],
    );
    shows(&Doc::bracketed("{", [Doc::nil()], "}", 2), &[(2, "{}"), (1, "{\n\n}")]);
}

#[test]
fn a_document_is_shared() {
    let word = (Doc::text("a long") + Doc::line() + "document").group();
    let place = word.program().as_ptr();
    assert_eq!(word.clone().program().as_ptr(), place);
    assert_eq!(Doc::from(&word).program().as_ptr(), place);
    assert_eq!(Doc::from(Rc::new(word.clone())).program().as_ptr(), place);
    assert_eq!(Doc::from(Arc::new(word.clone())).program().as_ptr(), place);
    shows(
        &(Doc::text("(") + &word + " or " + &word + ")").flatten(),
        &[(0, "(a long document or a long document)")],
    );
    // What is made of a clone leaves the document as it was.
    assert_eq!(word.program().as_ptr(), place);
    shows(&word, &[(15, "a long document"), (14, "a long\ndocument")]);
}

#[test]
fn groups_that_must_break_and_documents_that_must_not() {
    shows(&(pair("a", "b") + Doc::expand_parent()).group(), &[(80, "a\nb")]);
    shows(&pair("a", "b").flatten(), &[(80, "a b"), (1, "a b")]);
    assert!((Doc::text("a") + Doc::hard_line()).flatten().pretty(80).is_err());
    assert!(Doc::hard_line().flatten().pretty(80).is_err());
    assert!(Doc::multiline_text("a\nb").flatten().pretty(80).is_err());
}

#[test]
fn indents() {
    let block = (pair("begin", "body").nest(2) + Doc::line() + "end").group();
    shows(&block, &[(14, "begin body end"), (13, "begin\n  body\nend")]);
    let label = (Doc::line() + "b:").dedent(2);
    let block = (pair("{", "a;") + label + Doc::line() + "c;").indent(4).group();
    shows(&block, &[(10, "{ a; b: c;"), (9, "{\n    a;\n  b:\n    c;")]);
    shows(
        &(Doc::text("a") + Doc::hard_line() + Doc::text("b").nest(2)),
        &[(80, "a\nb")],
    );
    // No indent goes below 0, and an inner nest counts from there.
    let left = (Doc::hard_line() + "a").nest(2).nest(-2);
    shows(&left, &[(80, "\n  a")]);
    shows(&(Doc::hard_line() + "a").nest(isize::MIN), &[(80, "\na")]);
    let sum = Doc::text("sum = ") + pair("one", "+ two").group().align();
    shows(&sum, &[(15, "sum = one + two"), (14, "sum = one\n      + two")]);
    let directive = (Doc::hard_line() + "#if").dedent_to_root();
    let block = (pair("{", "a;") + directive + Doc::line() + "c;").indent(4);
    shows(&block, &[(80, "{\n    a;\n#if\n    c;")]);
}

#[test]
fn the_indent_of_a_line_is_that_of_the_document_that_comes_next() {
    let line = || Doc::hard_line().nest(2);
    shows(&line(), &[(80, "\n  ")]);
    shows(&(line() + Doc::nil()), &[(80, "\n  ")]);
    shows(&(line() + "a"), &[(80, "\na")]);
    // Two copies of nothing are a document that shows nothing.
    shows(&(line() + Doc::nil().repeat(2)), &[(80, "\n")]);
}

#[test]
fn filled_lines() {
    let words = Doc::text("aa") + Doc::softline() + "bb" + Doc::softline() + "cc";
    shows(&words, &[(7, "aa bb\ncc"), (4, "aa\nbb\ncc")]);
    shows(&Doc::reflow("aa bb\tcc"), &[(7, "aa bb\ncc"), (4, "aa\nbb\ncc")]);
    shows(
        &(Doc::text("=") + Doc::softline_()).repeat(3),
        &[(3, "==="), (2, "==\n=")],
    );
    // Each whitespace character has its line, also at the ends.
    shows(&Doc::reflow(" a  b "), &[(80, " a  b ")]);
}

#[test]
fn several_documents() {
    shows(&pair("a", "b").group().parens(), &[(5, "(a b)"), (4, "(a\nb)")]);
    shows(&Doc::text("x").double_quotes().enclose("f(", ")"), &[(80, "f(\"x\")")]);
    let enclosed = Doc::text("x").single_quotes().angles().braces().brackets();
    shows(&enclosed, &[(80, "[{<'x'>}]")]);
    shows(&Doc::concat(["a", "b", "c"]), &[(80, "abc")]);
    let items = Doc::intersperse(["1", "2", "3"], Doc::line()).group();
    shows(&items, &[(5, "1 2 3"), (4, "1\n2\n3")]);
    shows(&Doc::intersperse(["1"], ", "), &[(80, "1")]);
    assert!(Doc::intersperse([] as [Doc; 0], ", ").is_nil());
    assert!(Doc::concat([] as [Doc; 0]).is_nil());
    assert!(Doc::text("a").repeat(0).is_nil());
}

#[test]
fn alternatives_by_the_mode_of_lines() {
    let comma = call(pair("a,", "b") + Doc::text(",").flat_alt(Doc::nil()));
    shows(&comma, &[(7, "f(a, b)"), (6, "f(\na,\nb,\n)")]);
    let ends = (pair("a", "b") + Doc::if_group_flat(";") + Doc::if_group_break(",")).group();
    shows(&ends, &[(4, "a b;"), (3, "a\nb,")]);
    let ends = (pair("a", "b") + Doc::text(";").when_group_flat() + Doc::text(",").when_group_break()).group();
    shows(&ends, &[(4, "a b;"), (3, "a\nb,")]);
}

#[test]
fn payloads() {
    let binding = (Doc::text("s =") + (Doc::line() + Doc::multiline_text("'one\ntwo'")).nest(2)).group();
    shows(&binding, &[(80, "s =\n  'one\ntwo'"), (0, "s =\n  'one\ntwo'")]);
    // A text without a line end is no payload: its group may be flat.
    shows(&(Doc::line() + Doc::multiline_text("one")).group(), &[(80, " one")]);
    shows(
        &(Doc::multiline_text("a\r") + Doc::line() + "b").group(),
        &[(80, "a\r\nb")],
    );
}

#[test]
fn spaces_and_lines_that_vanish() {
    let statement = Doc::text("a") + Doc::weak_space() + "b;" + Doc::weak_space();
    shows(&statement, &[(80, "a b;")]);
    shows(
        &(Doc::text("b;") + Doc::hard_line() + Doc::weak_line() + "c;"),
        &[(80, "b;\nc;")],
    );
    shows(&(pair("a", "b") + Doc::weak_line() + "c").group(), &[(80, "a\nb\nc")]);
}

#[test]
fn suffixes() {
    let start = Doc::text("a") + Doc::line_suffix(" // why");
    shows(
        &(start + pair(",", "b")).group(),
        &[(4, "a, b // why"), (3, "a, // why\nb")],
    );
    let comment = (Doc::text(" // ") + Doc::as_string(1)).as_line_suffix();
    shows(&(Doc::text("a;") + comment), &[(80, "a; // 1")]);
    shows(
        &(Doc::text("a;") + Doc::weak_space() + Doc::line_suffix("// why")),
        &[(80, "a; // why")],
    );
    // A suffix of nothing is pending; nothing as a suffix is nothing.
    shows(
        &(Doc::text("a") + Doc::weak_space() + Doc::line_suffix(Doc::nil())),
        &[(2, "a ")],
    );
    shows(
        &(Doc::text("a") + Doc::weak_space() + Doc::nil().as_line_suffix()),
        &[(2, "a")],
    );
    assert_eq!(
        Doc::line_suffix("a").as_line_suffix().program(),
        Doc::line_suffix("a").program()
    );
}

#[test]
fn alternatives_by_what_fits() {
    let with_body = |body: &str| Doc::text("head") + Doc::hard_line() + body;
    let either = with_body("long body").union(with_body("body"));
    shows(&either, &[(9, "head\nlong body"), (8, "head\nbody")]);
    let either = with_body("long body").partial_union(with_body("body"));
    shows(&either, &[(4, "head\nlong body"), (3, "head\nbody")]);
    let long = Doc::text("long") + Doc::line_suffix(" // why");
    shows(
        &(Doc::text("a ") + long.union("b")),
        &[(6, "a long // why"), (5, "a b")],
    );
    let flat_only = (pair("a", "b") + Doc::fail().flat_alt(Doc::nil())).group();
    shows(&flat_only.union("c"), &[(3, "a b"), (2, "c")]);
}

#[test]
fn choices_by_column_and_nesting() {
    let value = Doc::if_column(ColumnTest::IsNesting, "  f(x)", "f(x)");
    let binding = Doc::text("let y =") + Doc::softline() + value;
    shows(&binding, &[(12, "let y = f(x)"), (11, "let y =\n  f(x)")]);
    let comma = Doc::if_column(ColumnTest::AtMost(3), ",", "");
    shows(&call(pair("a,", "b") + comma), &[(7, "f(a, b)"), (6, "f(\na,\nb,\n)")]);
    let far = Doc::text("ab") + Doc::if_column(ColumnTest::AtLeast(2), "far", "near");
    shows(&far, &[(80, "abfar")]);
    let far = Doc::text("ab") + Doc::if_column(ColumnTest::AtLeast(3), "far", "near");
    shows(&far, &[(80, "abnear")]);
    let inside = |most| Doc::if_nesting(NestingTest::AtMost(most), "yes", "no").nest(2);
    shows(&inside(2), &[(80, "yes")]);
    shows(&inside(1), &[(80, "no")]);
    let inside = |least| Doc::if_nesting(NestingTest::AtLeast(least), "yes", "no").nest(2);
    shows(&inside(2), &[(80, "yes")]);
    shows(&inside(3), &[(80, "no")]);
}

#[test]
fn what_changes_nothing_adds_nothing() {
    let same = |doc: Doc, other: Doc| assert_eq!(doc.program(), other.program(), "{doc:?} {other:?}");
    same(Doc::nil() + "a", Doc::text("a"));
    same(Doc::text("a") + Doc::nil(), Doc::text("a"));
    same(Doc::text("a").group(), Doc::text("a"));
    same(Doc::line().group().group(), Doc::softline());
    same(Doc::line().nest(0), Doc::line());
    for wrap in [Doc::flatten, Doc::align, Doc::dedent_to_root, Doc::as_line_suffix] {
        same(wrap(Doc::nil()), Doc::nil());
        same(wrap(wrap(Doc::line())), wrap(Doc::line()));
    }
}

#[test]
fn what_becomes_a_document() {
    let text = String::from("b");
    let sum = Doc::text("a") + &text + text.clone() + Cow::Borrowed("c") + Some("d") + None::<&str>;
    shows(&sum, &[(80, "abbcd")]);
    let mut sum: Doc = ["a", "b"].into_iter().collect();
    sum += "c";
    sum.extend(vec![Doc::hard_line(), Doc::text("d")]);
    shows(&sum, &[(80, "abc\nd")]);
    assert!(Doc::default().is_nil());
}

#[test]
#[should_panic(expected = "an indent is moved by at most isize::MAX columns")]
fn an_indent_is_not_moved_too_far() {
    drop(Doc::hard_line().indent(usize::MAX));
}

#[test]
fn a_clone_is_a_document_of_its_own() {
    let short = Doc::text("a");
    let long = Doc::text("a").repeat(100);
    let both = short.clone() + long.clone() + short.clone();
    shows(&both, &[(80, "a".repeat(102).as_str())]);
    shows(&long, &[(80, "a".repeat(100).as_str())]);
    shows(&short, &[(80, "a")]);
}
