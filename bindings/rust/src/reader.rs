//! Captures in pieces.

use crate::options::CallOptions;
use crate::writing::{reserve, write, Piece};
use crate::{Error, Options};

/// Between pieces, the bytes of the message that is cut.
#[derive(Debug)]
struct Pieces {
    options: CallOptions<'static>,
    rest: Vec<u8>,
    start: u64,
    has_failed: bool,
    /// The first fault, if messages after it are written too.
    kept: Option<Error>,
}

impl Pieces {
    fn new(options: CallOptions<'_>) -> Pieces {
        Pieces { options: options.into_owned(), rest: Vec::new(), start: 0, has_failed: false, kept: None }
    }

    fn feed(&mut self, bytes: &[u8], out: &mut Vec<u8>) -> Result<(), Error> {
        if self.has_failed {
            return Err(Error::Failed);
        }
        self.has_failed = true;
        let used = if self.rest.is_empty() {
            let used = self.write(bytes, false, out)?;
            self.keep(&bytes[used..])?;
            used
        } else {
            self.keep(bytes)?;
            let mut rest = std::mem::take(&mut self.rest);
            let used = self.write(&rest, false, out)?;
            rest.drain(..used);
            self.rest = rest;
            used
        };
        self.start += used as u64;
        self.has_failed = false;
        Ok(())
    }

    fn finish(mut self, out: &mut Vec<u8>) -> Result<(), Error> {
        if self.has_failed {
            return Err(Error::Failed);
        }
        let rest = std::mem::take(&mut self.rest);
        self.write(&rest, true, out)?;
        self.kept.map_or(Ok(()), Err)
    }

    fn keep(&mut self, bytes: &[u8]) -> Result<(), Error> {
        reserve(&mut self.rest, bytes.len())?;
        self.rest.extend_from_slice(bytes);
        Ok(())
    }

    /// Writes the messages that are whole, and returns the number of bytes used.
    fn write(&mut self, bytes: &[u8], is_last: bool, out: &mut Vec<u8>) -> Result<usize, Error> {
        write(&self.options, Piece { bytes, offset: self.start, is_last }, out, &mut self.kept)
    }
}

/// Normalises a capture that comes in pieces of any sizes. Between pieces it keeps the bytes of the message that is cut.
///
/// ```
/// use linkcap::{Options, Reader};
///
/// let noop = b"\x14\0\0\0\x01\0\0\0\x01\0\0\0\0\0\0\0\xaa\xbb\xcc\xdd";
/// let mut text = Vec::new();
/// let mut reader = Reader::new(Options::new())?;
/// reader.feed(&noop[..7], &mut text)?;
/// assert!(text.is_empty());
/// reader.feed(&noop[7..], &mut text)?;
/// reader.finish(&mut text)?;
/// assert_eq!(text, b"\x10\0\0\0\x01\0\0\0\x01\0\0\0\0\0\0\0");
/// # Ok::<(), linkcap::Error>(())
/// ```
#[derive(Debug)]
pub struct Reader {
    pieces: Pieces,
}

impl Reader {
    /// Returns a reader at the start of a capture. It uses the limit.
    ///
    /// # Errors
    ///
    /// [`Error::Limit`] and [`Error::UnusedOption`].
    pub fn new(options: Options<'_>) -> Result<Reader, Error> {
        Ok(Reader { pieces: Pieces::new(options.for_call(&[])?) })
    }

    /// Takes the next piece. The normal text of the messages that are whole now, with their padding, is appended to `out`.
    ///
    /// # Errors
    ///
    /// [`Error::Fault`] with the capture's first fault, whose `written` is empty: the normal text before it is in `out`; or
    /// [`Error::Memory`]. After an error each later call returns [`Error::Failed`].
    pub fn feed(&mut self, piece: &[u8], out: &mut Vec<u8>) -> Result<(), Error> {
        self.pieces.feed(piece, out)
    }

    /// The capture ends here: the normal text of a last message that lacks padding is appended to `out`.
    ///
    /// # Errors
    ///
    /// Those of [`Reader::feed`].
    pub fn finish(self, out: &mut Vec<u8>) -> Result<(), Error> {
        self.pieces.finish(out)
    }
}

/// Shows a capture that comes in pieces, as [`Reader`] normalises one: what [`Options::lines`] returns is appended, in ASCII. It
/// allocates memory for a piece, its lines and the message that is cut.
///
/// ```
/// use linkcap::{LineReader, Options};
///
/// let noop = b"\x10\0\0\0\x01\0\0\0\x01\0\0\0\0\0\0\0";
/// let mut lines = Vec::new();
/// let mut reader = LineReader::new(Options::new().numbers(false).offsets(true))?;
/// reader.feed(&noop[..7], &mut lines)?;
/// reader.feed(&noop[7..], &mut lines)?;
/// reader.feed(noop, &mut lines)?;
/// reader.finish(&mut lines)?;
/// assert_eq!(lines, b"NLMSG_NOOP flags 0x0 offset 0\nNLMSG_NOOP flags 0x0 offset 16\n");
/// # Ok::<(), linkcap::Error>(())
/// ```
#[derive(Debug)]
pub struct LineReader {
    pieces: Pieces,
}

impl LineReader {
    /// Returns a reader at the start of a capture, which shows the lines that the options select.
    ///
    /// # Errors
    ///
    /// Those of options that aren't valid: [`Error::Limit`], [`Error::UnknownName`] and [`Error::TooMany`].
    pub fn new(options: Options<'_>) -> Result<LineReader, Error> {
        Ok(LineReader { pieces: Pieces::new(options.for_lines(Options::OF_LINES)?) })
    }

    /// Takes the next piece. The lines of the messages that are whole now, with their padding, are appended to `out`.
    ///
    /// # Errors
    ///
    /// Those of [`Reader::feed`]; but with [`Options::keep_going`] a fault of a message's body is kept, and the first one
    /// is returned at a fault of another kind, or by [`LineReader::finish`].
    pub fn feed(&mut self, piece: &[u8], out: &mut Vec<u8>) -> Result<(), Error> {
        self.pieces.feed(piece, out)
    }

    /// The capture ends here: the lines of a last message that lacks padding are appended to `out`.
    ///
    /// # Errors
    ///
    /// Those of [`LineReader::feed`], and the fault that was kept.
    pub fn finish(self, out: &mut Vec<u8>) -> Result<(), Error> {
        self.pieces.finish(out)
    }
}
