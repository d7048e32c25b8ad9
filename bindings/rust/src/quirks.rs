//! Encodings that some kernels treat differently from their normal texts.

use crate::options::CallOptions;
use crate::writing::{to_length, words_of};
use crate::{ffi, Error, Options};
use std::fmt;

/// The rows of linkcap's `docs/kernels.md`, numbered as in linkcap.h.
#[derive(Clone, Copy, Debug, PartialEq, Eq, Hash)]
#[non_exhaustive]
pub enum QuirkKind {
    /// `IFLA_PROTINFO` with the nested bit, under `AF_BRIDGE`.
    NestedPortSettings = 101,
    /// `IFLA_INET_CONF` not of 132 bytes.
    ResizedSettings,
    /// `IFLA_GRE_PMTUDISC` over 1.
    PathDiscoveryOverOne,
    /// The peer of `veth` or `vxcan` after another attribute.
    LaterPeer,
    /// `IFLA_IFALIAS` of 255 bytes without a NUL.
    LongAlias,
    /// A name without a NUL.
    NameWithoutNul,
    /// A flag with a payload.
    FlagWithPayload,
    /// A boolean over 1 that kernels check.
    BooleanOverOne,
    /// The nested bit on a kind that isn't nested.
    StrayNestedBit,
    /// An entry of another kind in `IFLA_VFINFO_LIST`.
    ForeignFunction,
    /// The second byte of the header of `RTM_GETLINK` isn't 0.
    HeaderByte,
    /// `IFLA_MAP` under 32 bytes.
    ShortMap,
}

/// An encoding that some kernels treat differently from its normal text. It is displayed as its words and its offset, for
/// example `flag with a payload at 76`.
#[derive(Clone, Copy, Debug, PartialEq, Eq, Hash)]
#[non_exhaustive]
pub struct Quirk {
    pub kind: QuirkKind,
    /// The start of the attribute that has it, or the header's byte, in bytes from the capture's start.
    pub offset: u64,
}

fn decode_kind(number: u32) -> QuirkKind {
    match number {
        101 => QuirkKind::NestedPortSettings,
        102 => QuirkKind::ResizedSettings,
        103 => QuirkKind::PathDiscoveryOverOne,
        104 => QuirkKind::LaterPeer,
        105 => QuirkKind::LongAlias,
        106 => QuirkKind::NameWithoutNul,
        107 => QuirkKind::FlagWithPayload,
        108 => QuirkKind::BooleanOverOne,
        109 => QuirkKind::StrayNestedBit,
        110 => QuirkKind::ForeignFunction,
        111 => QuirkKind::HeaderByte,
        // There is no other one.
        _ => QuirkKind::ShortMap,
    }
}

impl fmt::Display for Quirk {
    fn fmt(&self, f: &mut fmt::Formatter<'_>) -> fmt::Result {
        f.pad(&words_of(&ffi::Finding { kind: self.kind as u32, side: 0, offset: self.offset }))
    }
}

/// Returns each encoding of a legal capture that some kernels treat differently from its normal text, in the order of the
/// bytes. A normal text has none.
///
/// # Errors
///
/// [`Error::Fault`] with the capture's first fault, or [`Error::Memory`].
///
/// ```
/// use linkcap::{quirks, QuirkKind};
///
/// // An RTM_GETLINK whose header of a link has 1 in its second byte.
/// let request = b"\x20\0\0\0\x12\0\x01\0\x01\0\0\0\0\0\0\0\0\x01\0\0\0\0\0\0\0\0\0\0\0\0\0\0";
/// let found = quirks(request)?;
/// assert_eq!((found[0].kind, found[0].offset), (QuirkKind::HeaderByte, 17));
/// assert_eq!(found[0].to_string(), "second byte of the header of RTM_GETLINK at 17");
/// # Ok::<(), linkcap::Error>(())
/// ```
pub fn quirks(capture: &[u8]) -> Result<Vec<Quirk>, Error> {
    Options::new().quirks(capture)
}

impl Options<'_> {
    /// Does what [`quirks`](crate::quirks()) does, with the limit.
    ///
    /// # Errors
    ///
    /// Those of [`quirks`](crate::quirks()), [`Error::Limit`] and [`Error::UnusedOption`].
    pub fn quirks(self, capture: &[u8]) -> Result<Vec<Quirk>, Error> {
        find_quirks(&self.for_call(&[])?, capture)
    }
}

fn find_quirks(options: &CallOptions<'_>, capture: &[u8]) -> Result<Vec<Quirk>, Error> {
    let mut array: Vec<ffi::Finding> = Vec::new();
    let mut required = 16;
    loop {
        let (mut number, mut fault) = (0, ffi::Finding::default());
        array.try_reserve(required).map_err(|_| Error::Memory)?;
        array.resize(required, ffi::Finding::default());
        let (from, length, to, capacity) = (capture.as_ptr(), capture.len(), array.as_mut_ptr(), array.len());
        // Safety: both pointers have the lengths that are given, and don't overlap.
        match unsafe { ffi::linkcap_quirks(from, length, &options.as_ffi(), to, capacity, &mut number, &mut fault) } {
            ffi::OK => {
                let quirk = |row: &ffi::Finding| Quirk { kind: decode_kind(row.kind), offset: row.offset };
                return Ok(array.iter().take(to_length(number)?).map(quirk).collect());
            }
            ffi::NO_ROOM => required = to_length(number)?,
            status => return Err(Error::from_status(status, &fault, capture, options)),
        }
    }
}
