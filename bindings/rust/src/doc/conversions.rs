//! What becomes a document, and sums of documents.

use super::Doc;
use std::borrow::Cow;
use std::mem;
use std::ops::{Add, AddAssign};
use std::rc::Rc;
use std::sync::Arc;

/// The text as [`Doc::text`] makes it.
impl From<&str> for Doc {
    fn from(text: &str) -> Doc {
        Doc::text(text)
    }
}

/// The text as [`Doc::text`] makes it.
impl From<String> for Doc {
    fn from(text: String) -> Doc {
        Doc::text(text)
    }
}

/// The text as [`Doc::text`] makes it.
impl From<&String> for Doc {
    fn from(text: &String) -> Doc {
        Doc::text(text)
    }
}

/// The text as [`Doc::text`] makes it.
impl From<Cow<'_, str>> for Doc {
    fn from(text: Cow<'_, str>) -> Doc {
        Doc::text(text)
    }
}

/// A clone, which shares the document's memory.
///
/// ```
/// use yezhgulo::Doc;
///
/// let word = Doc::text("word");
/// assert_eq!((Doc::text("a ") + &word + ", a " + &word).pretty(80)?, "a word, a word");
/// # Ok::<(), yezhgulo::Error>(())
/// ```
impl From<&Doc> for Doc {
    fn from(doc: &Doc) -> Doc {
        doc.clone()
    }
}

/// The document, which shares its memory with what else refers to it.
impl From<Rc<Doc>> for Doc {
    fn from(doc: Rc<Doc>) -> Doc {
        Rc::try_unwrap(doc).unwrap_or_else(|shared| Doc::clone(&shared))
    }
}

/// The document, which shares its memory with what else refers to it.
impl From<Arc<Doc>> for Doc {
    fn from(doc: Arc<Doc>) -> Doc {
        Arc::try_unwrap(doc).unwrap_or_else(|shared| Doc::clone(&shared))
    }
}

/// The document, or nothing.
///
/// ```
/// use yezhgulo::Doc;
///
/// let statement = Doc::from(Some("let x;")) + None::<Doc>;
/// assert_eq!(statement.pretty(80)?, "let x;");
/// # Ok::<(), yezhgulo::Error>(())
/// ```
impl<D: Into<Doc>> From<Option<D>> for Doc {
    fn from(doc: Option<D>) -> Doc {
        doc.map_or_else(Doc::nil, Into::into)
    }
}

/// The documents, one after the other, as [`Doc::concat`] makes them.
///
/// ```
/// use yezhgulo::Doc;
///
/// let digits: Doc = (1..=3).map(Doc::as_string).collect();
/// assert_eq!(digits.pretty(80)?, "123");
/// # Ok::<(), yezhgulo::Error>(())
/// ```
impl<D: Into<Doc>> FromIterator<D> for Doc {
    fn from_iter<I: IntoIterator<Item = D>>(docs: I) -> Doc {
        Doc::concat(docs)
    }
}

/// Appends the documents in order.
///
/// ```
/// use yezhgulo::Doc;
///
/// let mut lines = Doc::text("a");
/// lines.extend(["b", "c"]);
/// assert_eq!(lines.pretty(80)?, "abc");
/// # Ok::<(), yezhgulo::Error>(())
/// ```
impl<D: Into<Doc>> Extend<D> for Doc {
    fn extend<I: IntoIterator<Item = D>>(&mut self, docs: I) {
        docs.into_iter().for_each(|doc| *self += doc);
    }
}

/// The sum is [`Doc::append`].
impl<D: Into<Doc>> Add<D> for Doc {
    type Output = Doc;

    fn add(self, after: D) -> Doc {
        self.append(after)
    }
}

/// Appends a document.
///
/// ```
/// use yezhgulo::Doc;
///
/// let mut doc = Doc::text("a");
/// doc += "b";
/// assert_eq!(doc.pretty(80)?, "ab");
/// # Ok::<(), yezhgulo::Error>(())
/// ```
impl<D: Into<Doc>> AddAssign<D> for Doc {
    fn add_assign(&mut self, after: D) {
        *self = mem::take(self).append(after);
    }
}
