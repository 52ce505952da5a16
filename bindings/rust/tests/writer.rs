//! A writer makes the documents that `Doc` makes.

use std::fmt;
use std::panic::{catch_unwind, AssertUnwindSafe};
use yezhgulo::{ColumnTest, Doc, Error, Fault, IndentationPolicy, NestingTest, RenderOptions, Writer};

/// A document that is built in both ways.
enum Tree {
    Leaf(usize),
    Wrap(usize, Box<Tree>),
    Both(usize, Box<[Tree; 2]>),
    All(Vec<Tree>),
}

const LEAVES: usize = 19;
const WRAPPERS: usize = 9;
const JOINS: usize = 7;

fn leaf(kind: usize) -> Doc {
    match kind {
        0 => Doc::nil(),
        1 => Doc::fail(),
        2 => Doc::weak_space(),
        3 => Doc::hard_line(),
        4 => Doc::weak_line(),
        5 => Doc::expand_parent(),
        6 => Doc::line(),
        7 => Doc::line_(),
        8 => Doc::softline(),
        9 => Doc::softline_(),
        10 => Doc::text(""),
        11 => Doc::text("é"),
        12 => Doc::ascii_text("abc"),
        13 => Doc::text_with_width("d", 3),
        14 => Doc::multiline_text("e\nf"),
        15 => Doc::as_string(1234),
        16 => Doc::spaces(2),
        17 => Doc::reflow(" a b"),
        _ => Doc::space(),
    }
}

fn write_leaf(w: &mut Writer, kind: usize) {
    match kind {
        0 => w.nil(),
        1 => w.fail(),
        2 => w.weak_space(),
        3 => w.hard_line(),
        4 => w.weak_line(),
        5 => w.expand_parent(),
        6 => w.line(),
        7 => w.line_(),
        8 => w.softline(),
        9 => w.softline_(),
        10 => w.text(""),
        11 => w.text("é"),
        12 => w.ascii_text("abc"),
        13 => w.text_with_width("d", 3),
        14 => w.multiline_text("e\nf"),
        15 => w.as_string(1234),
        16 => w.spaces(2),
        17 => w.reflow(" a b"),
        _ => w.space(),
    };
}

fn wrap(kind: usize, doc: Doc) -> Doc {
    match kind {
        0 => doc.group(),
        1 => doc.flatten(),
        2 => doc.align(),
        3 => doc.dedent_to_root(),
        4 => Doc::line_suffix(doc),
        5 => doc.indent(2),
        6 => doc.dedent(1),
        7 => doc.when_group_flat(),
        _ => doc.when_group_break(),
    }
}

fn write_wrapped(w: &mut Writer, kind: usize, content: impl FnOnce(&mut Writer)) {
    match kind {
        0 => w.group(content),
        1 => w.flatten(content),
        2 => w.align(content),
        3 => w.dedent_to_root(content),
        4 => w.line_suffix(content),
        5 => w.indent(2, content),
        6 => w.dedent(1, content),
        7 => w.if_group_flat(content),
        _ => w.if_group_break(content),
    };
}

fn join(kind: usize, first: Doc, second: Doc) -> Doc {
    match kind {
        0 => first.flat_alt(second),
        1 => first.union(second),
        2 => first.partial_union(second),
        3 => Doc::if_column(ColumnTest::AtMost(2), first, second),
        4 => Doc::if_column(ColumnTest::IsNesting, first, second),
        5 => Doc::if_nesting(NestingTest::AtMost(1), first, second),
        _ => Doc::if_nesting(NestingTest::AtLeast(2), first, second),
    }
}

fn write_both(w: &mut Writer, kind: usize, first: impl FnOnce(&mut Writer), second: impl FnOnce(&mut Writer)) {
    match kind {
        0 => w.flat_alt(first, second),
        1 => w.union(first, second),
        2 => w.partial_union(first, second),
        3 => w.if_column(ColumnTest::AtMost(2), first, second),
        4 => w.if_column(ColumnTest::IsNesting, first, second),
        5 => w.if_nesting(NestingTest::AtMost(1), first, second),
        _ => w.if_nesting(NestingTest::AtLeast(2), first, second),
    };
}

fn doc(tree: &Tree) -> Doc {
    match tree {
        Tree::Leaf(kind) => leaf(*kind),
        Tree::Wrap(kind, content) => wrap(*kind, doc(content)),
        Tree::Both(kind, both) => join(*kind, doc(&both[0]), doc(&both[1])),
        Tree::All(trees) => trees.iter().map(doc).collect(),
    }
}

fn write(w: &mut Writer, tree: &Tree) {
    match tree {
        Tree::Leaf(kind) => write_leaf(w, *kind),
        Tree::Wrap(kind, content) => write_wrapped(w, *kind, |w| write(w, content)),
        Tree::Both(kind, both) => write_both(w, *kind, |w| write(w, &both[0]), |w| write(w, &both[1])),
        Tree::All(trees) => trees.iter().for_each(|tree| write(w, tree)),
    }
}

/// Numbers that look random, the same in each run (xorshift).
struct Numbers(u64);

impl Numbers {
    fn below(&mut self, end: usize) -> usize {
        self.0 ^= self.0 << 13;
        self.0 ^= self.0 >> 7;
        self.0 ^= self.0 << 17;
        (self.0 >> 33) as usize % end
    }

    fn tree(&mut self, depth: usize) -> Tree {
        match self.below(if depth == 0 { 1 } else { 4 }) {
            0 => Tree::Leaf(self.below(LEAVES)),
            1 => Tree::Wrap(self.below(WRAPPERS), Box::new(self.tree(depth - 1))),
            2 => Tree::Both(
                self.below(JOINS),
                Box::new([self.tree(depth - 1), self.tree(depth - 1)]),
            ),
            _ => Tree::All((0..self.below(5)).map(|_| self.tree(depth - 1)).collect()),
        }
    }
}

#[test]
fn a_writer_makes_the_documents_that_values_make() {
    let mut numbers = Numbers(0x9e37_79b9_7f4a_7c15);
    let mut writer = Writer::new();
    for _ in 0..5000 {
        let tree = numbers.tree(6);
        let value = doc(&tree);
        writer.clear();
        write(&mut writer, &tree);
        for width in [0, 3, 6, 80] {
            let options = RenderOptions::new(width).with_indentation_policy(IndentationPolicy::Deferred);
            assert_eq!(writer.pretty(width), value.pretty(width), "{value:?} {writer:?}");
            assert_eq!(writer.layout(&options), value.layout(&options), "{value:?} {writer:?}");
        }
    }
}

#[test]
fn what_writes_nothing_adds_no_document() {
    let mut w = Writer::new();
    w.nil().text("").multiline_text("").spaces(0).doc(&Doc::nil());
    w.group(|_| ()).nest(2, |_| ()).align(|w| {
        w.group(|_| ());
    });
    w.intersperse([""; 0], |_| (), |_, _| ()).reflow("");
    assert!(w.program().is_empty());
    w.line_suffix(|_| ());
    assert_eq!(format!("{w:?}"), "Writer[open, close, line_suffix]");
}

#[test]
fn a_writer_is_used_again() {
    let mut w = Writer::new();
    for name in ["a", "b"] {
        w.clear();
        w.text(name).text(";");
        assert_eq!(w.pretty(80), Ok(format!("{name};")));
    }
    assert_eq!(format!("{w:?}"), r#"Writer[text("b"), text(";")]"#);
}

#[test]
fn a_document_is_left_open_where_a_closure_panics() {
    let mut w = Writer::new();
    let panic = catch_unwind(AssertUnwindSafe(|| {
        w.text("a").group(|_| panic!("on purpose"));
    }));
    assert!(panic.is_err());
    assert_eq!(w.pretty(80), Err(Error::NotAProgram(Fault::Unclosed)));
    w.clear();
    w.text("b");
    assert_eq!(w.pretty(80).as_deref(), Ok("b"));
}

/// Checks that a panic leaves a document open, with whatever is written after it.
#[track_caller]
fn leaves_a_document_open(write: impl FnOnce(&mut Writer)) {
    let mut w = Writer::new();
    assert!(catch_unwind(AssertUnwindSafe(|| write(w.text("a")))).is_err());
    assert_eq!(w.text("b").pretty(80), Err(Error::NotAProgram(Fault::Unclosed)));
}

#[test]
fn a_list_is_left_open_where_a_closure_or_the_iterator_panics() {
    fn comma(w: &mut Writer) {
        w.text(",");
    }
    fn number(w: &mut Writer, item: i32) {
        w.as_string(item);
    }
    leaves_a_document_open(|w| {
        w.intersperse([1, 2], comma, |_, _| panic!("on purpose"));
    });
    leaves_a_document_open(|w| {
        w.intersperse([1, 2], |_| panic!("on purpose"), number);
    });
    leaves_a_document_open(|w| {
        let items = (1..).map(|item| if item < 3 { item } else { panic!("on purpose") });
        w.intersperse(items, comma, number);
    });
}

/// Shows some of itself, and then fails.
struct Failing;

impl fmt::Display for Failing {
    fn fmt(&self, f: &mut fmt::Formatter<'_>) -> fmt::Result {
        f.write_str("some")?;
        Err(fmt::Error)
    }
}

#[test]
fn a_value_that_is_not_shown_leaves_nothing() {
    let mut w = Writer::new();
    let panic = catch_unwind(AssertUnwindSafe(|| {
        w.text("a").as_string(Failing);
    }));
    assert!(panic.is_err());
    assert_eq!(w.text("b").pretty(80).as_deref(), Ok("ab"));
}
