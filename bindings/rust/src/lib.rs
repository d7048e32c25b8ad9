//! Captures of Linux netlink link messages: checked, measured, normalised, compared and shown.
//!
//! A capture is a byte string of netlink messages, each at a multiple of 4. It is legal if it has no [`Fault`]. Its normal text is
//! its canonical form: two legal captures mean the same if and only if their normal texts are equal.
//!
//! The functions of the crate take the default options; the methods of [`Options`] are the same calls with others.
//!
//! The calls are those of the C library `liblinkcap`, which are proved. This crate passes slices to it. Calls may run in threads
//! at once. They must not run in a signal handler, nor in the forked child of a process with threads.
//!
//! The build finds the library in the folder that `LINKCAP_LIB_DIR` names, or by pkg-config. Another crate uses this one from
//! a folder: `linkcap = { path = "FOLDER" }`.
//!
//! ```
//! use linkcap::{lines, normalize, same};
//!
//! // An RTM_GETLINK that ends after its header of a link; the second one has other padding bytes.
//! let capture = b"\x28\0\0\0\x12\0\x01\0\x01\0\0\0\0\0\0\0\0\0\0\0\0\0\0\0\0\0\0\0\0\0\0\0\x07\0\x03\0lo\0\0";
//! let mut other = capture.to_vec();
//! other[39] = 0xff;
//! assert!(same(capture, &other)?);
//! assert_eq!(normalize(&other)?, capture);
//! assert_eq!(lines(capture)?.lines().last(), Some("  IFLA_IFNAME \"lo\""));
//! # Ok::<(), linkcap::Error>(())
//! ```

mod attributes;
mod diff;
mod error;
mod ffi;
mod golden;
mod golden_command;
mod link_attributes;
mod messages;
mod normal_reader;
mod options;
mod quirks;
mod reader;
mod writing;

pub use attributes::{attributes, Attribute, Attributes};
pub use error::{Error, Fault, Kind, Side};
pub use golden::golden;
pub use golden_command::golden_command;
pub use link_attributes::LinkAttribute;
pub use messages::{messages, Message, Messages};
pub use normal_reader::NormalReader;
pub use options::Options;
pub use quirks::{quirks, Quirk, QuirkKind};
pub use reader::{LineReader, Reader};
pub use writing::{lines, normalize, why, Refusal};

use options::CallOptions;

/// The limit that the program takes if none is given: 1 MiB.
pub const DEFAULT_LIMIT: u32 = ffi::DEFAULT_LIMIT;

/// The sizes of a legal capture.
#[derive(Clone, Copy, Debug, PartialEq, Eq)]
#[non_exhaustive]
pub struct Measure {
    /// Its messages.
    pub frames: u64,
    /// The attribute headers in the bodies of its link messages, at all depths.
    pub attributes: u64,
    /// The length of its normal text in bytes.
    pub text_len: u128,
}

/// Returns whether the library has the version that this crate was written for.
#[must_use]
pub fn is_known_version() -> bool {
    // Safety: it has no parameters.
    unsafe { ffi::linkcap_version() == ffi::VERSION }
}

/// Returns the format version of normal texts and lines, as linkcap's `CHANGELOG.md` has it.
#[must_use]
pub fn format() -> u32 {
    // Safety: it has no parameters.
    unsafe { ffi::linkcap_format() }
}

/// Returns `Ok` if a capture is legal. It allocates nothing, unless a body isn't valid.
///
/// # Errors
///
/// [`Error::Fault`] with the capture's first fault.
///
/// ```
/// let error = linkcap::check(b"\x14\0\0\0\x03\0").unwrap_err();
/// assert_eq!(error.to_string(), "cut frame at 0");
/// assert_eq!(error.kind(), Some(linkcap::Kind::Cut));
/// ```
pub fn check(capture: &[u8]) -> Result<(), Error> {
    Options::new().check(capture)
}

/// Returns the sizes of a legal capture. It allocates nothing, unless a body isn't valid.
///
/// # Errors
///
/// [`Error::Fault`] with the capture's first fault.
///
/// ```
/// // An NLMSG_DONE of 16 bytes, whose normal text has the error number 0 after its header.
/// let sizes = linkcap::measure(b"\x10\0\0\0\x03\0\x02\0\0\0\0\0\0\0\0\0")?;
/// assert_eq!((sizes.frames, sizes.attributes, sizes.text_len), (1, 0, 20));
/// # Ok::<(), linkcap::Error>(())
/// ```
pub fn measure(capture: &[u8]) -> Result<Measure, Error> {
    Options::new().measure(capture)
}

/// Returns whether two legal captures mean the same, which is if and only if their normal texts are equal. It allocates
/// nothing.
///
/// # Errors
///
/// [`Error::Fault`] with the first fault of the first one, or of the second if the first is legal.
///
/// ```
/// // The body of an NLMSG_NOOP means nothing.
/// let noop = b"\x14\0\0\0\x01\0\0\0\x01\0\0\0\0\0\0\0\xaa\xbb\xcc\xdd";
/// assert!(linkcap::same(noop, b"\x10\0\0\0\x01\0\0\0\x01\0\0\0\0\0\0\0")?);
/// assert_eq!(linkcap::same(noop, b"\x14").unwrap_err().to_string(), "second: cut frame at 0");
/// # Ok::<(), linkcap::Error>(())
/// ```
pub fn same(first: &[u8], second: &[u8]) -> Result<bool, Error> {
    Options::new().same(first, second)
}

impl Options<'_> {
    /// Does what [`check`](crate::check()) does, with the limit.
    ///
    /// # Errors
    ///
    /// Those of [`measure`](Options::measure).
    pub fn check(self, capture: &[u8]) -> Result<(), Error> {
        self.measure(capture).map(|_| ())
    }

    /// Does what [`measure`](crate::measure()) does, with the limit.
    ///
    /// # Errors
    ///
    /// Those of [`measure`](crate::measure()), [`Error::Limit`] and [`Error::UnusedOption`].
    pub fn measure(self, capture: &[u8]) -> Result<Measure, Error> {
        let options = self.for_call(&[])?;
        let (mut sizes, mut fault) = (ffi::Sizes::default(), ffi::Finding::default());
        let (at, length) = (capture.as_ptr(), capture.len());
        // Safety: the pointer has the length that is given.
        match unsafe { ffi::linkcap_check(at, length, &options.as_ffi(), &mut sizes, &mut fault) } {
            ffi::OK => Ok(Measure {
                frames: sizes.frames,
                attributes: sizes.attributes,
                text_len: u128::from(sizes.text_low) | u128::from(sizes.text_high) << 64,
            }),
            status => Err(Error::from_status(status, &fault, capture, &options)),
        }
    }

    /// Does what [`same`](crate::same()) does, with the limit. With [`numbers(false)`](Options::numbers), the sequence
    /// number and the netlink port ID of each message, and those of the request's header that an `NLMSG_ERROR` repeats, are zeroed
    /// first.
    ///
    /// # Errors
    ///
    /// Those of [`same`](crate::same()), [`Error::Limit`] and [`Error::UnusedOption`].
    ///
    /// ```
    /// let (first, second) = (b"\x10\0\0\0\x01\0\0\0\x01\0\0\0\0\0\0\0", b"\x10\0\0\0\x01\0\0\0\x02\0\0\0\0\0\0\0");
    /// assert!(!linkcap::same(first, second)?);
    /// assert!(linkcap::Options::new().numbers(false).same(first, second)?);
    /// # Ok::<(), linkcap::Error>(())
    /// ```
    pub fn same(self, first: &[u8], second: &[u8]) -> Result<bool, Error> {
        compare(&self.for_call(&["numbers"])?, first, second)
    }
}

fn compare(options: &CallOptions<'_>, first: &[u8], second: &[u8]) -> Result<bool, Error> {
    let mut fault = ffi::Finding::default();
    let (at, length, other, other_length) = (first.as_ptr(), first.len(), second.as_ptr(), second.len());
    // Safety: the pointers have the lengths that are given.
    match unsafe { ffi::linkcap_same(at, length, other, other_length, &options.as_ffi(), &mut fault) } {
        ffi::OK => Ok(true),
        ffi::DIFFERENT => Ok(false),
        status => Err(Error::from_status(status, &fault, if fault.side == 2 { second } else { first }, options)),
    }
}
