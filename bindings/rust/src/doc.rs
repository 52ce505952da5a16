//! Documents as values.

mod constructors;
mod conversions;
mod methods;

use crate::bytes::Bytes;
use crate::code;
use crate::listing::Listing;
use std::fmt;

/// A document.
///
/// The constructors are functions of this type, such as [`Doc::text`] and [`Doc::line`]. Each method takes the document
/// and gives a larger one, as [`group`](Doc::group) and [`nest`](Doc::nest) do. `+` and [`append`](Doc::append) put one
/// document after another. A sum begins with a `Doc`; its right operands may be texts as they are. A document is moved
/// into the larger one: clone it to use it twice, or add it by reference, as `+ &doc`.
///
/// ```
/// use yezhgulo::Doc;
///
/// let call = (Doc::text("f(") + (Doc::line_() + "x").nest(2) + Doc::line_() + ")").group();
/// assert_eq!(call.pretty(4)?, "f(x)");
/// assert_eq!(call.pretty(3)?, "f(\n  x\n)");
/// # Ok::<(), yezhgulo::Error>(())
/// ```
///
/// # What it costs
///
/// A document is kept as its [program](Doc::program), in one piece of memory. A short one, such as a word, is kept in
/// the value itself.
///
/// - A method of one document adds at most nine bytes, in amortised constant time, however large the document is.
/// - Where two documents become one, the shorter program is copied to the longer one, at its end or in front of it. So
///   a loop that adds to a document takes linear time, at either end. In whatever order documents are put together,
///   each byte is copied at most some `log n` times for a program of `n` bytes.
/// - A clone shares the memory of the program, in constant time, as an `Rc` does; it may be sent to another thread. The
///   program is copied once for each larger document that a clone becomes a part of, as by [`repeat`](Doc::repeat).
/// - No call of this crate calls itself for each level of a document, and a drop frees one piece of memory.
///
/// A [`Writer`](crate::Writer) is faster: it copies nothing.
#[derive(Clone)]
#[must_use]
pub struct Doc {
    /// One document, and nothing after it.
    program: Bytes,
    /// The code of the last instruction, which makes the whole document.
    root: u8,
}

impl Doc {
    /// A document of one instruction without operands.
    fn leaf(code: u8) -> Doc {
        let mut program = Bytes::new();
        program.push_back(&[code]);
        Doc { program, root: code }
    }

    /// Adds an instruction that takes this document.
    fn then(mut self, instruction: &[u8]) -> Doc {
        self.program.push_back(instruction);
        self.root = instruction[0];
        self
    }

    /// Puts a document after this one, and then an instruction that takes both.
    fn with(mut self, second: Doc, instruction: &[u8]) -> Doc {
        self.program.append(second.program);
        self.then(instruction)
    }

    /// The same, unless this document is made by one of these instructions already.
    fn then_unless(self, code: u8, but_not: &[u8]) -> Doc {
        if but_not.contains(&self.root) {
            self
        } else {
            self.then(&[code])
        }
    }

    /// Whether the document is nothing.
    ///
    /// So are [`Doc::nil`], an empty text, and a sum, a group or a `nest` of nothing.
    ///
    /// ```
    /// use yezhgulo::Doc;
    ///
    /// assert!((Doc::nil() + "").group().is_nil());
    /// assert!(!Doc::hard_line().is_nil());
    /// ```
    #[must_use]
    pub fn is_nil(&self) -> bool {
        self.root == code::NIL
    }

    /// The program: one instruction for each node, after those of the documents below it.
    ///
    /// [`layout`](crate::layout) takes it. The bytes may be stored: no later version of the library reads them
    /// otherwise.
    ///
    /// ```
    /// use yezhgulo::Doc;
    ///
    /// assert_eq!(Doc::text("a").program(), [16, 1, 0, 0, 0, b'a']);
    /// ```
    #[must_use]
    pub fn program(&self) -> &[u8] {
        self.program.as_slice()
    }

    /// The program, without a copy where that is possible.
    ///
    /// ```
    /// use yezhgulo::Doc;
    ///
    /// assert_eq!(Doc::hard_line().into_program(), vec![3]);
    /// ```
    #[must_use]
    pub fn into_program(self) -> Vec<u8> {
        self.program.into_vec()
    }
}

/// Nothing.
impl Default for Doc {
    fn default() -> Doc {
        Doc::nil()
    }
}

/// Shows the program, an instruction at a time.
///
/// ```
/// use yezhgulo::Doc;
///
/// let pair = (Doc::text("a") + Doc::line() + "b").group();
/// assert_eq!(format!("{pair:?}"), r#"Doc[text("a"), line, append, text("b"), append, group]"#);
/// ```
impl fmt::Debug for Doc {
    fn fmt(&self, f: &mut fmt::Formatter<'_>) -> fmt::Result {
        write!(f, "Doc{:?}", Listing(self.program()))
    }
}
