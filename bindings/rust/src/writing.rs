//! Calls that write normal text, lines and words.

use crate::error::Fault;
use crate::options::CallOptions;
use crate::{ffi, Error, Options};

/// Reserves capacity for `additional` bytes after those of a vector.
pub(crate) fn reserve(out: &mut Vec<u8>, additional: usize) -> Result<(), Error> {
    out.try_reserve(additional).map_err(|_| Error::Memory)
}

/// Returns a number of bytes as a length in memory.
pub(crate) fn to_length(number: u64) -> Result<usize, Error> {
    usize::try_from(number).map_err(|_| Error::Memory)
}

/// Returns text of the library, which is ASCII, as a string.
pub(crate) fn into_string(text: Vec<u8>) -> String {
    String::from_utf8(text).unwrap_or_default()
}

/// Returns the words of a fault or a quirk.
pub(crate) fn words_of(finding: &ffi::Finding) -> String {
    let (mut words, mut length) = ([0u8; ffi::WORDS_ROOM], 0u64);
    // Safety: the buffer has the capacity that is given.
    if unsafe { ffi::linkcap_words(finding, words.as_mut_ptr(), words.len(), &mut length) } != ffi::OK {
        return String::new();
    }
    let words = usize::try_from(length).ok().and_then(|length| words.get(..length)).unwrap_or_default();
    into_string(words.to_vec())
}

/// A piece of a capture.
#[derive(Clone, Copy, Debug)]
pub(crate) struct Piece<'a> {
    pub bytes: &'a [u8],
    /// Its offset in the capture.
    pub offset: u64,
    pub is_last: bool,
}

impl<'a> Piece<'a> {
    /// Returns a whole capture.
    pub fn whole(bytes: &'a [u8]) -> Piece<'a> {
        Piece { bytes, offset: 0, is_last: true }
    }

    /// Returns the piece from a number of bytes on.
    pub fn skip(self, used: usize) -> Piece<'a> {
        Piece { bytes: &self.bytes[used..], offset: self.offset + used as u64, ..self }
    }

    /// Returns the piece for the library.
    fn to_ffi(self) -> ffi::Piece {
        ffi::Piece {
            bytes: self.bytes.as_ptr(),
            length: self.bytes.len(),
            offset: self.offset,
            last: self.is_last.into(),
            reserved: 0,
        }
    }
}

/// Appends the output for the whole messages of a piece, and returns the number of its bytes that were used. `kept` gets the
/// first fault, if messages after it are written too.
pub(crate) fn write(options: &CallOptions<'_>, piece: Piece<'_>, out: &mut Vec<u8>, kept: &mut Option<Error>) -> Result<usize, Error> {
    let mut used = 0;
    let mut wanted = 0;
    loop {
        let rest = piece.skip(used);
        let (mut progress, mut fault) = (ffi::Progress::default(), ffi::Finding::default());
        reserve(out, rest.bytes.len().saturating_mul(options.expansion()).max(wanted))?;
        let free = out.spare_capacity_mut();
        let (to, capacity) = (free.as_mut_ptr().cast(), free.len());
        // Safety: the pointers have the lengths that are given, and `out` doesn't overlap the others.
        let status = unsafe { ffi::linkcap_write(&options.as_ffi(), &rest.to_ffi(), to, capacity, &mut progress, &mut fault) };
        // Safety: this many bytes after the vector's are written.
        unsafe { out.set_len(out.len() + to_length(progress.written)?) };
        used += to_length(progress.used)?;
        match status {
            ffi::OK => return Ok(used),
            ffi::NO_ROOM => wanted = to_length(progress.wanted)?,
            ffi::FAULT => {
                let first = kept.take().unwrap_or_else(|| Error::Fault(Fault::found(&fault, rest, options)));
                if fault.offset == rest.offset + progress.used {
                    return Err(first);
                }
                // The message with the fault is written, and those after it are to be.
                *kept = Some(first);
            }
            _ => return Err(Error::Memory),
        }
    }
}

/// Returns the output for a whole capture.
pub(crate) fn write_all(options: &CallOptions<'_>, capture: &[u8]) -> Result<Vec<u8>, Error> {
    let (mut out, mut kept) = (Vec::new(), None);
    let outcome = write(options, Piece::whole(capture), &mut out, &mut kept);
    match kept.map_or(outcome.map(|_| ()), Err) {
        Ok(()) => Ok(out),
        Err(Error::Fault(fault)) => Err(Error::Fault(Fault { written: out, ..fault })),
        Err(error) => Err(error),
    }
}

/// Returns the normal text of a legal capture.
///
/// # Errors
///
/// [`Error::Fault`] with the capture's first fault, whose `written` is the normal text before it; or [`Error::Memory`].
///
/// ```
/// // The body of an NLMSG_NOOP means nothing.
/// let noop = b"\x14\0\0\0\x01\0\0\0\x01\0\0\0\0\0\0\0\xaa\xbb\xcc\xdd";
/// assert_eq!(linkcap::normalize(noop)?, b"\x10\0\0\0\x01\0\0\0\x01\0\0\0\0\0\0\0");
/// # Ok::<(), linkcap::Error>(())
/// ```
pub fn normalize(capture: &[u8]) -> Result<Vec<u8>, Error> {
    Options::new().normalize(capture)
}

/// Returns the lines of a legal capture, as `linkshow` writes them.
///
/// # Errors
///
/// [`Error::Fault`] with the capture's first fault, whose `written` are the lines before it; or [`Error::Memory`].
///
/// ```
/// let noop = b"\x10\0\0\0\x01\0\0\0\x01\0\0\0\0\0\0\0";
/// assert_eq!(linkcap::lines(noop)?, "NLMSG_NOOP flags 0x0 seq 1 port 0\n");
/// # Ok::<(), linkcap::Error>(())
/// ```
pub fn lines(capture: &[u8]) -> Result<String, Error> {
    Options::new().lines(capture)
}

impl Options<'_> {
    /// Does what [`normalize`](crate::normalize()) does, with the limit.
    ///
    /// # Errors
    ///
    /// Those of [`normalize`](crate::normalize()), [`Error::Limit`] and [`Error::UnusedOption`].
    pub fn normalize(self, capture: &[u8]) -> Result<Vec<u8>, Error> {
        write_all(&self.for_call(&[])?, capture)
    }

    /// Returns the lines of a legal capture that these options select, or the lines of JSON.
    ///
    /// # Errors
    ///
    /// Those of [`lines`](crate::lines()), and of options that aren't valid: [`Error::Limit`], [`Error::UnknownName`] and
    /// [`Error::TooMany`]. With [`keep_going`](Options::keep_going) the `written` of a fault are all lines up to a fault of a
    /// header.
    ///
    /// ```
    /// use linkcap::Options;
    ///
    /// let noop = b"\x10\0\0\0\x01\0\0\0\x01\0\0\0\0\0\0\0";
    /// let json = r#"{"type": "NLMSG_NOOP", "flags": {"value": 0, "flags": []}, "attributes": []}"#;
    /// assert_eq!(Options::new().numbers(false).json(true).lines(noop)?.trim_end(), json);
    /// assert_eq!(Options::new().only("newlink,dellink").lines(noop)?, "");
    /// # Ok::<(), linkcap::Error>(())
    /// ```
    pub fn lines(self, capture: &[u8]) -> Result<String, Error> {
        write_all(&self.for_lines(Self::OF_LINES)?, capture).map(into_string)
    }

    /// Does what [`why`](crate::why()) does, with the limit.
    ///
    /// # Errors
    ///
    /// [`Error::Memory`], [`Error::Limit`] and [`Error::UnusedOption`].
    pub fn why(self, capture: &[u8]) -> Result<Option<Refusal>, Error> {
        why_in(&self.for_call(&[])?, Piece::whole(capture))
    }
}

/// Why a body is refused. It is displayed as its words.
#[derive(Clone, Debug, PartialEq, Eq)]
#[non_exhaustive]
pub struct Refusal {
    /// The attribute's names from outside in, the reason, and the offset.
    pub words: String,
    /// The start of the attribute, in bytes from the capture's start. `NLMSG_ERROR` and `NLMSG_DONE` have none.
    pub offset: Option<u64>,
}

impl std::fmt::Display for Refusal {
    fn fmt(&self, f: &mut std::fmt::Formatter<'_>) -> std::fmt::Result {
        f.pad(&self.words)
    }
}

/// Returns why a body is refused, if that is the first fault of a piece; else `None`.
pub(crate) fn why_in(options: &CallOptions<'_>, piece: Piece<'_>) -> Result<Option<Refusal>, Error> {
    let mut words = Vec::new();
    let mut capacity = 256;
    loop {
        let (mut written, mut offset) = (0, 0);
        reserve(&mut words, capacity)?;
        let free = words.spare_capacity_mut();
        let (to, room) = (free.as_mut_ptr().cast(), free.len());
        // Safety: the pointers have the lengths that are given, and don't overlap.
        match unsafe { ffi::linkcap_why(&options.as_ffi(), &piece.to_ffi(), to, room, &mut written, &mut offset) } {
            ffi::NO_ROOM => capacity = to_length(written)?,
            ffi::NONE => return Ok(None),
            ffi::OK => {
                // Safety: the call has written this many bytes.
                unsafe { words.set_len(to_length(written)?) };
                return Ok(Some(Refusal { words: into_string(words), offset: (offset != u64::MAX).then_some(offset) }));
            }
            _ => return Err(Error::Memory),
        }
    }
}

/// Returns why a body is refused, if a capture's first fault is [`Kind::Refused`](crate::Kind::Refused); else `None`.
///
/// # Errors
///
/// [`Error::Memory`].
///
/// ```
/// // An IFLA_MTU of 3 bytes.
/// let request = b"\x28\0\0\0\x10\0\0\0\0\0\0\0\0\0\0\0\0\0\0\0\0\0\0\0\0\0\0\0\0\0\0\0\x07\0\x04\0\x01\x02\x03\0";
/// let refusal = linkcap::why(request)?.expect("a refused body");
/// assert_eq!(refusal.to_string(), "IFLA_MTU: a payload of 3 bytes at 32");
/// assert_eq!(refusal.offset, Some(32));
/// # Ok::<(), linkcap::Error>(())
/// ```
pub fn why(capture: &[u8]) -> Result<Option<Refusal>, Error> {
    Options::new().why(capture)
}
