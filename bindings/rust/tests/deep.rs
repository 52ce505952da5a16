//! Documents that are large or deep. Where a call took time in proportion to the document, these would take hours;
//! where one called itself for each level, they would run out of stack.

use yezhgulo::{Doc, Writer};

const MANY: usize = 1_000_000;

#[test]
fn a_million_groups_in_one_another() {
    let mut doc = Doc::text("x");
    for _ in 0..MANY {
        doc = doc.parens().group();
    }
    let layout = doc.pretty(80).unwrap();
    assert_eq!(layout, format!("{}x{}", "(".repeat(MANY), ")".repeat(MANY)));
    drop(doc);
}

#[test]
fn a_million_nests_in_one_another() {
    let mut doc = Doc::hard_line() + "x";
    for _ in 0..MANY {
        doc = doc.nest(1);
    }
    assert_eq!(doc.pretty(80).unwrap(), format!("\n{}x", " ".repeat(MANY)));
}

#[test]
fn a_million_documents_one_after_the_other() {
    let mut doc = Doc::nil();
    for _ in 0..MANY {
        doc += "ab";
    }
    assert_eq!(doc.pretty(80).unwrap(), "ab".repeat(MANY));
    assert_eq!(
        Doc::concat((0..MANY).map(|_| "ab")).pretty(80).unwrap(),
        "ab".repeat(MANY)
    );
}

#[test]
fn a_million_documents_in_front_of_one_another() {
    let mut doc = Doc::nil();
    for _ in 0..MANY {
        doc = Doc::text("ab") + doc;
    }
    assert_eq!(doc.pretty(80).unwrap(), "ab".repeat(MANY));
}

#[test]
fn a_million_alternatives_in_one_another() {
    let mut doc = Doc::text("x");
    for _ in 0..MANY {
        doc = doc.when_group_break();
    }
    assert_eq!(doc.pretty(80).unwrap(), "x");
}

#[test]
fn a_million_unions_in_one_another() {
    let mut doc = Doc::text("x");
    for _ in 0..MANY {
        doc = (doc + Doc::softline_()).union("y");
    }
    assert_eq!(doc.pretty(80).unwrap(), "x");
}

#[test]
fn a_large_document_in_another() {
    let large = Doc::text("ab").repeat(MANY);
    let both = (large.clone() + large.group()).nest(2);
    assert_eq!(both.pretty(80).unwrap(), "ab".repeat(2 * MANY));
}

#[test]
fn a_writer_of_a_million_texts() {
    let mut writer = Writer::new();
    for number in 0..MANY {
        writer.as_string(number % 10);
    }
    assert_eq!(writer.pretty(80).unwrap(), "0123456789".repeat(MANY / 10));
}
