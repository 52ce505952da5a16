//! Bytes that grow at both ends, and that copies share.

use std::sync::Arc;

/// How many bytes are kept in the value itself, without memory of its own.
const FEW: usize = 23;

/// The least room that memory is taken for.
const LEAST: usize = 64;

/// Bytes that grow at both ends, in amortised constant time a byte.
///
/// A clone shares the buffer. The first of the two that grows copies it.
#[derive(Clone)]
pub(crate) enum Bytes {
    Few {
        length: u8,
        bytes: [u8; FEW],
    },
    /// The bytes are `buffer[start..]`. What is before `start` is room for bytes that are put in front.
    Many {
        buffer: Arc<Vec<u8>>,
        start: usize,
    },
}

impl Bytes {
    pub(crate) const fn new() -> Bytes {
        Bytes::Few {
            length: 0,
            bytes: [0; FEW],
        }
    }

    pub(crate) fn as_slice(&self) -> &[u8] {
        match self {
            Bytes::Few { length, bytes } => &bytes[..usize::from(*length)],
            Bytes::Many { buffer, start } => &buffer[*start..],
        }
    }

    /// The bytes in a buffer, with free room of at least `front` bytes before them and `back` bytes after them.
    fn moved(&self, front: usize, back: usize) -> Vec<u8> {
        let bytes = self.as_slice();
        let mut buffer = Vec::with_capacity(front + bytes.len() + back);
        buffer.resize(front, 0);
        buffer.extend_from_slice(bytes);
        buffer
    }

    /// Adds bytes at the end.
    pub(crate) fn push_back(&mut self, more: &[u8]) {
        match self {
            Bytes::Few { length, bytes } => {
                let from = usize::from(*length);
                let to = from + more.len();
                if let Some(place) = bytes.get_mut(from..to) {
                    place.copy_from_slice(more);
                    *length = to as u8;
                    return;
                }
                self.move_and_push_back(more);
            }
            Bytes::Many { buffer, .. } => match Arc::get_mut(buffer) {
                Some(buffer) => buffer.extend_from_slice(more),
                None => self.move_and_push_back(more),
            },
        }
    }

    /// Adds bytes at the end, in a buffer of their own.
    #[cold]
    fn move_and_push_back(&mut self, more: &[u8]) {
        let mut buffer = self.moved(0, more.len() + LEAST);
        buffer.extend_from_slice(more);
        *self = Bytes::Many {
            buffer: Arc::new(buffer),
            start: 0,
        };
    }

    /// Adds bytes at the beginning.
    pub(crate) fn push_front(&mut self, more: &[u8]) {
        match self {
            Bytes::Few { length, bytes } if usize::from(*length) + more.len() <= FEW => {
                bytes.copy_within(..usize::from(*length), more.len());
                bytes[..more.len()].copy_from_slice(more);
                *length += more.len() as u8;
            }
            Bytes::Many { buffer, start } if more.len() <= *start => match Arc::get_mut(buffer) {
                Some(buffer) => {
                    let from = *start - more.len();
                    buffer[from..*start].copy_from_slice(more);
                    *start = from;
                }
                None => self.move_and_push_front(more),
            },
            _ => self.move_and_push_front(more),
        }
    }

    /// Adds bytes at the beginning, in a buffer of their own. Its free room is as long as the bytes, so these are moved
    /// only once they are twice as many.
    #[cold]
    fn move_and_push_front(&mut self, more: &[u8]) {
        let length = self.as_slice().len();
        let front = more.len() + length;
        let mut buffer = self.moved(front, LEAST);
        buffer[length..front].copy_from_slice(more);
        *self = Bytes::Many {
            buffer: Arc::new(buffer),
            start: length,
        };
    }

    /// Adds the bytes of another value at the end. The fewer bytes are copied to the others.
    pub(crate) fn append(&mut self, mut after: Bytes) {
        if after.as_slice().len() <= self.as_slice().len() {
            self.push_back(after.as_slice());
        } else {
            after.push_front(self.as_slice());
            *self = after;
        }
    }

    pub(crate) fn into_vec(self) -> Vec<u8> {
        match self {
            Bytes::Few { .. } => self.as_slice().to_vec(),
            Bytes::Many { buffer, start } => match Arc::try_unwrap(buffer) {
                Ok(mut buffer) => {
                    buffer.drain(..start);
                    buffer
                }
                Err(shared) => shared[start..].to_vec(),
            },
        }
    }
}

#[cfg(test)]
mod tests {
    use super::{Bytes, FEW};

    /// Checks that bytes are those of a model, which is copied at each step.
    struct Checked {
        bytes: Bytes,
        model: Vec<u8>,
    }

    impl Checked {
        fn new() -> Checked {
            Checked {
                bytes: Bytes::new(),
                model: Vec::new(),
            }
        }

        fn push_back(&mut self, more: &[u8]) {
            self.bytes.push_back(more);
            self.model.extend_from_slice(more);
            assert_eq!(self.bytes.as_slice(), self.model);
        }

        fn push_front(&mut self, more: &[u8]) {
            self.bytes.push_front(more);
            self.model.splice(..0, more.iter().copied());
            assert_eq!(self.bytes.as_slice(), self.model);
        }

        fn append(&mut self, after: &Checked) {
            self.bytes.append(after.bytes.clone());
            self.model.extend_from_slice(&after.model);
            assert_eq!(self.bytes.as_slice(), self.model);
        }
    }

    /// So many bytes that differ from their neighbours.
    fn some(length: usize) -> Vec<u8> {
        (0..length).map(|place| place as u8).collect()
    }

    #[test]
    fn bytes_are_added_at_both_ends() {
        for length in [0, 1, FEW - 1, FEW, FEW + 1, 1000] {
            let mut checked = Checked::new();
            for _ in 0..10 {
                checked.push_back(&some(length));
                checked.push_front(&some(3));
                checked.push_front(&some(length));
                checked.push_back(&some(3));
            }
            assert_eq!(checked.bytes.into_vec(), checked.model);
        }
    }

    #[test]
    fn values_are_appended() {
        for length in [0, 1, FEW - 1, FEW, FEW + 1, 1000] {
            let mut short = Checked::new();
            short.push_back(&some(length));
            let mut both = Checked::new();
            for _ in 0..10 {
                both.append(&short);
                let mut first = Checked::new();
                first.push_front(&some(length / 2));
                first.append(&both);
                both = first;
            }
            assert_eq!(both.bytes.into_vec(), both.model);
        }
    }

    #[test]
    fn a_clone_shares_the_bytes_until_one_grows() {
        let mut bytes = Bytes::new();
        bytes.push_back(&some(1000));
        bytes.push_front(&some(3));
        let place = bytes.as_slice().as_ptr();
        let mut others = [bytes.clone(), bytes.clone(), bytes.clone()];
        assert!(others.iter().all(|it| it.as_slice().as_ptr() == place));
        others[0].push_back(&[7]);
        others[1].push_front(&[7]);
        let [back, front, same] = others;
        assert_eq!(back.as_slice(), [bytes.as_slice(), &[7]].concat());
        assert_eq!(front.as_slice(), [&[7], bytes.as_slice()].concat());
        assert_eq!(same.into_vec(), bytes.as_slice());
        assert_eq!(bytes.as_slice().as_ptr(), place);
        assert_eq!(bytes.into_vec(), [some(3), some(1000)].concat());
    }

    #[test]
    fn a_loop_moves_the_bytes_as_often_as_their_number_doubles() {
        let mut bytes = Bytes::new();
        let mut moves = 0;
        for _ in 0..100_000 {
            let before = bytes.as_slice().as_ptr();
            bytes.push_front(&[1, 2, 3]);
            moves += usize::from(bytes.as_slice().as_ptr() != before.wrapping_sub(3));
        }
        // In the value itself each step moves them.
        assert!(moves <= FEW / 3 + 20, "{moves}");
    }
}
