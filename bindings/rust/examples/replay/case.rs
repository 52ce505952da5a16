//! A case: a document, and what is asked of its layout.

use std::fmt::Write;
use yezhgulo::{ColumnTest, Doc, Error, IndentationPolicy, LineEnding, NestingTest, RenderOptions};

/// A node with its words, without the documents that it holds.
enum Node {
    /// A node that holds no other.
    Leaf(Doc),
    /// What makes a node of a document.
    Wrap(fn(Doc) -> Doc),
    Nest(isize),
    /// What makes a node of two documents.
    Join(fn(Doc, Doc) -> Doc),
    OnColumn(ColumnTest),
    OnNesting(NestingTest),
}

impl Node {
    /// How many documents it holds.
    fn documents(&self) -> usize {
        match self {
            Node::Leaf(_) => 0,
            Node::Wrap(_) | Node::Nest(_) => 1,
            Node::Join(_) | Node::OnColumn(_) | Node::OnNesting(_) => 2,
        }
    }
}

/// A number in decimal digits alone.
fn number(word: &str) -> Option<usize> {
    let digits = word.bytes().all(|byte| byte.is_ascii_digit());
    word.parse().ok().filter(|_| digits)
}

/// A number that may have a minus in front.
fn offset(word: &str) -> Option<isize> {
    number(word.strip_prefix('-').unwrap_or(word))?;
    word.parse().ok()
}

fn digit(byte: u8) -> Option<u8> {
    match byte {
        b'0'..=b'9' => Some(byte - b'0'),
        b'a'..=b'f' => Some(byte - b'a' + 10),
        _ => None,
    }
}

/// A text in hexadecimal, or `-`.
fn text(word: &str) -> Option<String> {
    let pairs = match word {
        "" => return None,
        "-" => [].chunks_exact(2),
        _ => word.as_bytes().chunks_exact(2),
    };
    if !pairs.remainder().is_empty() {
        return None;
    }
    let bytes: Option<Vec<u8>> = pairs.map(|pair| Some(digit(pair[0])? * 16 + digit(pair[1])?)).collect();
    String::from_utf8(bytes?).ok()
}

/// A text that has LF or CR.
fn payload(word: &str) -> Option<Doc> {
    let text = text(word)?;
    text.contains(['\n', '\r']).then(|| Doc::multiline_text(text))
}

fn column_test<'l>(words: &mut impl Iterator<Item = &'l str>) -> Option<ColumnTest> {
    Some(match words.next()? {
        "atmost" => ColumnTest::AtMost(number(words.next()?)?),
        "atleast" => ColumnTest::AtLeast(number(words.next()?)?),
        "nesting" => ColumnTest::IsNesting,
        _ => return None,
    })
}

fn nesting_test<'l>(words: &mut impl Iterator<Item = &'l str>) -> Option<NestingTest> {
    Some(match words.next()? {
        "atmost" => NestingTest::AtMost(number(words.next()?)?),
        "atleast" => NestingTest::AtLeast(number(words.next()?)?),
        _ => return None,
    })
}

/// Nothing, as a document that [`Doc::append`] does not drop. A line break before it has the indent of this document.
fn nothing() -> Doc {
    Doc::nil().repeat(2)
}

/// The node that comes next.
fn node<'l>(words: &mut impl Iterator<Item = &'l str>) -> Option<Node> {
    Some(match words.next()? {
        "nil" => Node::Leaf(nothing()),
        "fail" => Node::Leaf(Doc::fail()),
        "ws" => Node::Leaf(Doc::weak_space()),
        "hl" => Node::Leaf(Doc::hard_line()),
        "wl" => Node::Leaf(Doc::weak_line()),
        "exp" => Node::Leaf(Doc::expand_parent()),
        "t" => Node::Leaf(Doc::ascii_text(text(words.next()?)?)),
        "w" => {
            let width = number(words.next()?)?;
            Node::Leaf(Doc::text_with_width(text(words.next()?)?, width))
        }
        "m" => Node::Leaf(payload(words.next()?)?),
        "sfx" => Node::Wrap(Doc::line_suffix),
        "root" => Node::Wrap(Doc::dedent_to_root),
        "align" => Node::Wrap(Doc::align),
        "flat" => Node::Wrap(Doc::flatten),
        "grp" => Node::Wrap(Doc::group),
        "nest" => Node::Nest(offset(words.next()?)?),
        "app" => Node::Join(Doc::append),
        "bof" => Node::Join(Doc::flat_alt),
        "uni" => Node::Join(Doc::union),
        "puni" => Node::Join(Doc::partial_union),
        "oncol" => Node::OnColumn(column_test(words)?),
        "onnest" => Node::OnNesting(nesting_test(words)?),
        _ => return None,
    })
}

/// The nodes of one document, in order, each before those of the documents that it holds.
fn nodes<'l>(words: &mut impl Iterator<Item = &'l str>) -> Option<Vec<Node>> {
    let mut nodes = Vec::new();
    let mut missing = 1;
    while missing > 0 {
        let node = node(words)?;
        missing = missing - 1 + node.documents();
        nodes.push(node);
    }
    Some(nodes)
}

/// The document of these nodes. From the last to the first, each node finds its documents at the end of `made`.
fn document(nodes: Vec<Node>) -> Option<Doc> {
    let mut made: Vec<Doc> = Vec::new();
    for node in nodes.into_iter().rev() {
        let doc = match node {
            Node::Leaf(doc) => doc,
            Node::Wrap(wrap) => wrap(made.pop()?),
            Node::Nest(columns) => made.pop()?.nest(columns),
            Node::Join(join) => join(made.pop()?, made.pop()?),
            Node::OnColumn(test) => Doc::if_column(test, made.pop()?, made.pop()?),
            Node::OnNesting(test) => Doc::if_nesting(test, made.pop()?, made.pop()?),
        };
        made.push(doc);
    }
    made.pop()
}

fn options<'l>(words: &mut impl Iterator<Item = &'l str>) -> Option<RenderOptions> {
    let width = number(words.next()?)?;
    let line_ending = match words.next()? {
        "lf" => LineEnding::Lf,
        "crlf" => LineEnding::Crlf,
        _ => return None,
    };
    let indentation_policy = match words.next()? {
        "eager" => IndentationPolicy::Eager,
        "deferred" => IndentationPolicy::Deferred,
        _ => return None,
    };
    Some(
        RenderOptions::new(width)
            .with_line_ending(line_ending)
            .with_indentation_policy(indentation_policy),
    )
}

/// The case that a line writes, up to the word `=>`.
fn case(line: &[u8]) -> Option<(RenderOptions, Doc)> {
    let before = line.windows(4).position(|bytes| bytes == b" => ");
    let before = before.or_else(|| line.ends_with(b" =>").then(|| line.len() - 3));
    let line = std::str::from_utf8(&line[..before.unwrap_or(line.len())]).ok()?;
    let mut words = line.split(' ');
    let options = options(&mut words)?;
    let nodes = nodes(&mut words)?;
    match words.next() {
        Some(_) => None,
        None => Some((options, document(nodes)?)),
    }
}

/// The bytes as a word: hexadecimal, or `-` for none.
fn hexadecimal(bytes: &[u8]) -> String {
    if bytes.is_empty() {
        return "-".to_string();
    }
    bytes.iter().fold(String::new(), |mut word, byte| {
        let _ = write!(word, "{byte:02x}");
        word
    })
}

/// The answer to a line, unless it is empty or a comment.
pub fn answer(line: &[u8]) -> Option<String> {
    if matches!(line, [] | [b'#', ..]) {
        return None;
    }
    Some(match case(line).map(|(options, doc)| doc.layout(&options)) {
        None => "error".to_string(),
        Some(Ok(layout)) => format!("ok {}", hexadecimal(layout.as_bytes())),
        Some(Err(Error::Fails { written })) => format!("fail {}", hexadecimal(&written)),
        Some(Err(error)) => format!("error {error}"),
    })
}
