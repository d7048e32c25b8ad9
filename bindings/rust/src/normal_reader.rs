//! A reader of normal text.

use crate::{Error, Options, Reader};
use std::io::{self, Read};

const PIECE: usize = 1 << 16;

/// Reads a capture from another reader, and returns its normal text. After the normal text before a fault each read returns an
/// [`io::Error`] of the kind `InvalidData`, whose `get_ref` is an [`Error`]. An error of the other reader is passed on, and
/// the next read continues after it.
///
/// ```
/// use std::io::Read;
///
/// // The body of an NLMSG_NOOP means nothing.
/// let noop = b"\x14\0\0\0\x01\0\0\0\x01\0\0\0\0\0\0\0\xaa\xbb\xcc\xdd";
/// let mut text = Vec::new();
/// linkcap::NormalReader::new(&noop[..], linkcap::Options::new())?.read_to_end(&mut text)?;
/// assert_eq!(text, b"\x10\0\0\0\x01\0\0\0\x01\0\0\0\0\0\0\0");
/// # Ok::<(), Box<dyn std::error::Error>>(())
/// ```
#[derive(Debug)]
pub struct NormalReader<R> {
    source: R,
    /// None after the end of the capture, or after an error.
    reader: Option<Reader>,
    outcome: Result<(), Error>,
    piece: Vec<u8>,
    texts: Vec<u8>,
    /// The number of bytes of `texts` that were returned.
    position: usize,
}

impl<R: Read> NormalReader<R> {
    /// Returns a reader of the normal text of the capture that `source` yields. It uses the limit.
    ///
    /// # Errors
    ///
    /// [`Error::Limit`] and [`Error::UnusedOption`].
    pub fn new(source: R, options: Options<'_>) -> Result<NormalReader<R>, Error> {
        let reader = Some(Reader::new(options)?);
        Ok(NormalReader { source, reader, outcome: Ok(()), piece: vec![0; PIECE], texts: Vec::new(), position: 0 })
    }

    /// Reads once from the source, and writes the texts of the messages that are whole. The capture ends at the end of the
    /// source.
    fn read_piece(&mut self) -> io::Result<()> {
        let count = self.source.read(&mut self.piece)?;
        self.texts.clear();
        self.position = 0;
        self.outcome = match (&mut self.reader, count) {
            (None, _) => Ok(()),
            (reader, 0) => reader.take().map_or(Ok(()), |reader| reader.finish(&mut self.texts)),
            (Some(reader), _) => reader.feed(&self.piece[..count], &mut self.texts),
        };
        if self.outcome.is_err() {
            self.reader = None;
        }
        Ok(())
    }
}

impl<R: Read> Read for NormalReader<R> {
    fn read(&mut self, to: &mut [u8]) -> io::Result<usize> {
        if to.is_empty() {
            return Ok(0);
        }
        while self.position == self.texts.len() {
            if self.reader.is_none() {
                return self.outcome.clone().map(|()| 0).map_err(io::Error::from);
            }
            self.read_piece()?;
        }
        let count = to.len().min(self.texts.len() - self.position);
        to[..count].copy_from_slice(&self.texts[self.position..self.position + count]);
        self.position += count;
        Ok(count)
    }
}
