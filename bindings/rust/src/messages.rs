//! The messages of a capture.

use crate::options::CallOptions;
use crate::writing::to_length;
use crate::{ffi, Error, Options};

/// A legal message of a capture, and its header.
#[derive(Clone, Copy, Debug, PartialEq, Eq)]
#[non_exhaustive]
pub struct Message<'a> {
    /// Its start, in bytes from the capture's start.
    pub offset: usize,
    /// The message without its padding, which is a capture, too.
    pub bytes: &'a [u8],
    /// For example 16 for `RTM_NEWLINK`.
    pub message_type: u16,
    pub flags: u16,
    pub sequence_number: u32,
    /// The netlink port ID.
    pub port_number: u32,
}

/// The messages of a capture, in order: each as an `Ok`, and then the first fault, if there is one, as an `Err`.
#[derive(Clone, Debug)]
pub struct Messages<'a> {
    capture: &'a [u8],
    options: CallOptions<'static>,
    /// The start of the next message; the capture's length after the last one and after a fault.
    offset: usize,
}

/// Returns the messages of a capture, which are read one after the other. Each item is an `Ok` with a message, or an `Err` with
/// the capture's first fault, which is the last item. It allocates nothing, unless a body isn't valid.
///
/// ```
/// let capture = b"\x11\0\0\0\x14\0\0\0\x02\0\0\0\0\0\0\0a\0\0\0\x10\0\0\0\x01\0\0\0\x01\0\0\0\0\0\0\0";
/// let mut found = Vec::new();
/// for message in linkcap::messages(capture) {
///     let message = message?;
///     found.push((message.offset, message.bytes.len(), message.message_type));
/// }
/// assert_eq!(found, [(0, 17, 20), (20, 16, 1)]);
/// # Ok::<(), linkcap::Error>(())
/// ```
#[must_use]
pub fn messages(capture: &[u8]) -> Messages<'_> {
    Messages::new(capture, CallOptions::default())
}

impl Options<'_> {
    /// Does what [`messages`](crate::messages()) does, with the limit.
    ///
    /// # Errors
    ///
    /// [`Error::Limit`] and [`Error::UnusedOption`].
    pub fn messages(self, capture: &[u8]) -> Result<Messages<'_>, Error> {
        Ok(Messages::new(capture, self.for_call(&[])?.into_owned()))
    }
}

/// Returns the number in two bytes of a header, little-endian.
fn read_u16(header: &[u8], at: usize) -> u16 {
    u16::from_le_bytes([header[at], header[at + 1]])
}

/// Returns the number in four bytes of a header, little-endian.
fn read_u32(header: &[u8], at: usize) -> u32 {
    u32::from(read_u16(header, at)) | u32::from(read_u16(header, at + 2)) << 16
}

impl<'a> Messages<'a> {
    pub(crate) fn new(capture: &'a [u8], options: CallOptions<'static>) -> Messages<'a> {
        Messages { capture, options, offset: 0 }
    }

    /// Ends them: there is no next message.
    pub(crate) fn end(&mut self) {
        self.offset = self.capture.len();
    }

    /// Reads the next message; `None` if there is none.
    fn read(&mut self) -> Result<Option<Message<'a>>, Error> {
        let (mut found, mut fault) = (ffi::Message::default(), ffi::Finding::default());
        let (at, length, offset) = (self.capture.as_ptr(), self.capture.len(), self.offset);
        // Safety: the pointer has the length that is given.
        match unsafe { ffi::linkcap_next_message(at, length, &self.options.as_ffi(), offset as u64, &mut found, &mut fault) } {
            ffi::OK => {}
            ffi::NONE => return Ok(None),
            status => return Err(Error::from_status(status, &fault, self.capture, &self.options)),
        }
        self.offset = to_length(found.next)?;
        let bytes = &self.capture[offset..][..found.length as usize];
        Ok(Some(Message {
            offset,
            bytes,
            message_type: read_u16(bytes, 4),
            flags: read_u16(bytes, 6),
            sequence_number: read_u32(bytes, 8),
            port_number: read_u32(bytes, 12),
        }))
    }
}

impl<'a> Iterator for Messages<'a> {
    type Item = Result<Message<'a>, Error>;

    fn next(&mut self) -> Option<Result<Message<'a>, Error>> {
        let item = self.read().transpose();
        if matches!(item, Some(Err(_))) {
            self.end();
        }
        item
    }
}

impl std::iter::FusedIterator for Messages<'_> {}
