//! Faults of captures, and other errors.

use crate::options::CallOptions;
use crate::writing::{why_in, words_of, Piece};
use crate::{ffi, Refusal};
use std::{fmt, io};

/// A kind of fault, numbered as in linkcap.h.
#[derive(Clone, Copy, Debug, PartialEq, Eq, Hash)]
#[non_exhaustive]
pub enum Kind {
    /// Fewer bytes are left than a header has, or than its length says.
    Cut = 1,
    /// The header's length is under 16.
    ShortLength,
    /// The header's length is over the limit.
    OverLimit,
    /// The body isn't accepted.
    Refused,
    /// An accepted `IFLA_VF_PORTS` keeps no entry.
    EmptyPorts,
    /// An attribute of the text would be longer than 65535 bytes.
    Unfit,
    /// The length of the message's text would be over the limit.
    TextOverLimit,
}

/// One of two captures.
#[derive(Clone, Copy, Debug, PartialEq, Eq, Hash)]
pub enum Side {
    First = 1,
    Second,
}

/// A capture's first fault. It is displayed as its words, for example `cut frame at 48` or `second: cut frame at 48`, followed by
/// the reason if a body is refused: `refused body at 48: IFLA_MTU: a payload of 3 bytes at 80`.
#[derive(Clone, Debug, PartialEq, Eq)]
#[non_exhaustive]
pub struct Fault {
    pub kind: Kind,
    /// The capture that has it, of two.
    pub side: Option<Side>,
    /// The start of the message that has it, in bytes from the capture's start.
    pub offset: u64,
    /// The output of the call before it: normal text, or lines in ASCII.
    pub written: Vec<u8>,
    /// The attribute that isn't accepted and the reason, if the kind is [`Kind::Refused`] and there is memory for the words.
    pub why: Option<Refusal>,
}

/// The error of a call.
#[derive(Clone, Debug, PartialEq, Eq)]
#[non_exhaustive]
pub enum Error {
    Fault(Fault),
    /// An allocation failed, or the result doesn't fit in memory.
    Memory,
    /// The limit is under 16.
    Limit,
    /// No type of messages, no attribute and no group has this name, which options have.
    UnknownName(String),
    /// Options have more than 32 types or names.
    TooMany,
    /// The call doesn't use this option, which is set.
    UnusedOption(&'static str),
    /// The reader has returned an error before.
    Failed,
}

impl Error {
    /// Returns the error of a call for a whole capture, which had a fault or no memory.
    pub(crate) fn from_status(status: u32, fault: &ffi::Finding, capture: &[u8], options: &CallOptions<'_>) -> Error {
        match status {
            ffi::FAULT => Error::Fault(Fault::found(fault, Piece::whole(capture), options)),
            _ => Error::Memory,
        }
    }

    /// Returns the fault, if it is one.
    #[must_use]
    pub fn fault(&self) -> Option<&Fault> {
        match self {
            Error::Fault(fault) => Some(fault),
            _ => None,
        }
    }

    /// Returns the kind of the fault, if it is one.
    #[must_use]
    pub fn kind(&self) -> Option<Kind> {
        self.fault().map(|fault| fault.kind)
    }

    /// Returns the start of the message with the fault, in bytes from the capture's start, if it is one.
    #[must_use]
    pub fn offset(&self) -> Option<u64> {
        self.fault().map(|fault| fault.offset)
    }

    /// Returns which of two captures has the fault, if it is one of two.
    #[must_use]
    pub fn side(&self) -> Option<Side> {
        self.fault().and_then(|fault| fault.side)
    }

    /// Returns the attribute that isn't accepted, and why, if the fault is one of the kind [`Kind::Refused`].
    ///
    /// ```
    /// use linkcap::{check, Error, Kind};
    ///
    /// // An IFLA_MTU of 3 bytes.
    /// let request = b"\x28\0\0\0\x10\0\0\0\0\0\0\0\0\0\0\0\0\0\0\0\0\0\0\0\0\0\0\0\0\0\0\0\x07\0\x04\0\x01\x02\x03\0";
    /// let error = check(request).unwrap_err();
    /// assert_eq!((error.kind(), error.offset(), error.side()), (Some(Kind::Refused), Some(0), None));
    /// assert_eq!(error.reason().map(|reason| reason.words.as_str()), Some("IFLA_MTU: a payload of 3 bytes at 32"));
    /// assert_eq!(Error::Limit.kind(), None);
    /// ```
    #[must_use]
    pub fn reason(&self) -> Option<&Refusal> {
        self.fault().and_then(|fault| fault.why.as_ref())
    }
}

fn decode_kind(number: u32) -> Kind {
    match number {
        1 => Kind::Cut,
        2 => Kind::ShortLength,
        3 => Kind::OverLimit,
        4 => Kind::Refused,
        5 => Kind::EmptyPorts,
        6 => Kind::Unfit,
        // Captures in memory have no other one.
        _ => Kind::TextOverLimit,
    }
}

impl Fault {
    /// Returns the first fault of a piece, with its reason.
    pub(crate) fn found(fault: &ffi::Finding, piece: Piece<'_>, options: &CallOptions<'_>) -> Fault {
        let kind = decode_kind(fault.kind);
        let why = || why_in(options, piece.skip(usize::try_from(fault.offset - piece.offset).ok()?)).ok()?;
        Fault {
            kind,
            side: [None, Some(Side::First), Some(Side::Second)][fault.side as usize],
            offset: fault.offset,
            written: Vec::new(),
            why: if kind == Kind::Refused { why() } else { None },
        }
    }

    /// Returns its words without the reason, for example `refused body at 48`.
    #[must_use]
    pub fn words(&self) -> String {
        words_of(&ffi::Finding {
            kind: self.kind as u32,
            side: self.side.map_or(0, |side| side as u32),
            offset: self.offset,
        })
    }
}

impl fmt::Display for Fault {
    fn fmt(&self, f: &mut fmt::Formatter<'_>) -> fmt::Result {
        match &self.why {
            Some(why) => f.pad(&format!("{}: {why}", self.words())),
            None => f.pad(&self.words()),
        }
    }
}

impl fmt::Display for Error {
    fn fmt(&self, f: &mut fmt::Formatter<'_>) -> fmt::Result {
        match self {
            Error::Fault(fault) => fault.fmt(f),
            Error::Memory => f.pad("no memory"),
            Error::Limit => f.pad("limit under 16"),
            Error::UnknownName(name) => f.pad(&format!("no type, attribute or group is called {name:?}")),
            Error::TooMany => f.pad("more than 32 types or names"),
            Error::UnusedOption(name) => f.pad(&format!("the call doesn't use the option {name:?}")),
            Error::Failed => f.pad("failed before"),
        }
    }
}

impl std::error::Error for Fault {}

impl std::error::Error for Error {}

impl From<Fault> for Error {
    fn from(fault: Fault) -> Error {
        Error::Fault(fault)
    }
}

impl From<Error> for io::Error {
    fn from(error: Error) -> io::Error {
        let kind = match error {
            Error::Fault(_) => io::ErrorKind::InvalidData,
            Error::Memory => io::ErrorKind::OutOfMemory,
            Error::Limit | Error::UnknownName(_) | Error::TooMany | Error::UnusedOption(_) => io::ErrorKind::InvalidInput,
            Error::Failed => io::ErrorKind::Other,
        };
        io::Error::new(kind, error)
    }
}
