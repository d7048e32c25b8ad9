//! Options of calls.

use crate::writing::{into_string, reserve, to_length};
use crate::{ffi, Error};
use std::borrow::Cow;

/// The options of a call, which is one of their methods. They are those of the program `linkshow`. The functions of the crate take
/// [`Options::new`].
///
/// Each call uses the [`limit`](Options::limit). A call returns [`Error::UnusedOption`] for an option that it doesn't use, so none
/// is ignored.
///
/// ```
/// let noop = b"\x10\0\0\0\x01\0\0\0\x01\0\0\0\0\0\0\0";
/// assert_eq!(linkcap::lines(noop)?, "NLMSG_NOOP flags 0x0 seq 1 port 0\n");
///
/// let options = linkcap::Options::new().numbers(false).offsets(true);
/// assert_eq!(options.lines(noop)?, "NLMSG_NOOP flags 0x0 offset 0\n");
/// # Ok::<(), linkcap::Error>(())
/// ```
#[derive(Clone, Copy, Debug, PartialEq, Eq)]
pub struct Options<'a> {
    pub(crate) limit: u32,
    only: &'a str,
    link: &'a str,
    pub(crate) without: &'a str,
    /// None: as the call does by default.
    numbers: Option<bool>,
    offsets: bool,
    keep_going: bool,
    json: bool,
}

impl<'a> Options<'a> {
    /// Returns the default options: all messages and attributes, in lines up to the first fault.
    #[must_use]
    pub const fn new() -> Options<'a> {
        Options {
            limit: crate::DEFAULT_LIMIT,
            only: "",
            link: "",
            without: "",
            numbers: None,
            offsets: false,
            keep_going: false,
            json: false,
        }
    }

    /// The greatest length in bytes that a message, read or written, may have: from 16 on.
    #[must_use]
    pub const fn limit(self, limit: u32) -> Self {
        Options { limit, ..self }
    }

    /// Only messages of these types, at most 32 with commas between them: names, for example `newlink`, or numbers; all if it
    /// is empty.
    #[must_use]
    pub const fn only(self, only: &'a str) -> Self {
        Options { only, ..self }
    }

    /// Only messages about this link, by name, alternative name or index; about any if it is empty.
    #[must_use]
    pub const fn link(self, link: &'a str) -> Self {
        Options { link, ..self }
    }

    /// No attributes with these names, with all that they nest: the kernel's names, at most 32, and groups of linkshow(1), as
    /// `counters`, with commas between them. The case of ASCII letters doesn't count.
    #[must_use]
    pub const fn without(self, without: &'a str) -> Self {
        Options { without, ..self }
    }

    /// Whether sequence numbers and netlink port IDs, which change from run to run, are shown or compared. By default they are,
    /// except in golden files.
    #[must_use]
    pub const fn numbers(self, numbers: bool) -> Self {
        Options { numbers: Some(numbers), ..self }
    }

    /// Whether each message's first line ends with its offset in the capture, in bytes.
    #[must_use]
    pub const fn offsets(self, offsets: bool) -> Self {
        Options { offsets, ..self }
    }

    /// Whether messages with a fault in their body are shown too, in hex, and those after them.
    #[must_use]
    pub const fn keep_going(self, keep_going: bool) -> Self {
        Options { keep_going, ..self }
    }

    /// Whether each message is an object of JSON, on a line of its own, in place of lines for people.
    #[must_use]
    pub const fn json(self, json: bool) -> Self {
        Options { json, ..self }
    }

    /// The options that calls that write lines use, beside the limit.
    pub(crate) const OF_LINES: &'static [&'static str] = &["only", "link", "without", "numbers", "offsets", "keep_going", "json"];

    /// Returns the options of a call that uses the limit and these.
    pub(crate) fn for_call(self, used: &[&str]) -> Result<CallOptions<'a>, Error> {
        self.check_use(used)?;
        let flag = |is_set, flag| if is_set { flag } else { 0 };
        let options = CallOptions {
            limit: self.limit,
            form: ffi::TEXT,
            flags: flag(self.numbers == Some(false), ffi::WITHOUT_NUMBERS)
                | flag(self.offsets, ffi::OFFSETS)
                | flag(self.keep_going, ffi::KEEP_GOING),
            only: Cow::Borrowed(self.only),
            link: Cow::Borrowed(self.link),
            without: Cow::Borrowed(self.without),
        };
        options.check_words()?;
        Ok(options)
    }

    /// Returns the options of a call that writes lines, and uses the limit and these.
    pub(crate) fn for_lines(self, used: &[&str]) -> Result<CallOptions<'a>, Error> {
        Ok(CallOptions { form: if self.json { ffi::JSON } else { ffi::LINES }, ..self.for_call(used)? })
    }

    /// Returns the same options, by which sequence numbers and netlink port IDs are left out by default.
    pub(crate) fn without_numbers_by_default(self) -> Self {
        Options { numbers: self.numbers.or(Some(false)), ..self }
    }

    /// Returns Ok if the limit is valid, and of the other options only these are set.
    fn check_use(&self, used: &[&str]) -> Result<(), Error> {
        let options = [
            ("only", !self.only.is_empty()),
            ("link", !self.link.is_empty()),
            ("without", !self.without.is_empty()),
            ("numbers", self.numbers.is_some()),
            ("offsets", self.offsets),
            ("keep_going", self.keep_going),
            ("json", self.json),
        ];
        if self.limit < ffi::MIN_LIMIT {
            return Err(Error::Limit);
        }
        match options.iter().find(|(name, is_set)| *is_set && !used.contains(name)) {
            Some((name, _)) => Err(Error::UnusedOption(name)),
            None => Ok(()),
        }
    }
}

impl Default for Options<'_> {
    fn default() -> Self {
        Options::new()
    }
}

/// The options of one call, as the library reads them. They are valid.
#[derive(Clone, Debug)]
pub(crate) struct CallOptions<'a> {
    limit: u32,
    form: u32,
    flags: u32,
    only: Cow<'a, str>,
    link: Cow<'a, str>,
    without: Cow<'a, str>,
}

fn to_ffi(text: &str) -> ffi::Text {
    ffi::Text { bytes: text.as_ptr().cast(), length: text.len() }
}

impl Default for CallOptions<'_> {
    /// The options of a call that reads, with the default limit.
    fn default() -> Self {
        let [only, link, without] = [""; 3].map(Cow::Borrowed);
        CallOptions { limit: ffi::DEFAULT_LIMIT, form: ffi::TEXT, flags: 0, only, link, without }
    }
}

impl CallOptions<'_> {
    /// Returns the options by which lines of a legal message are written, whatever its length.
    pub fn of_lines() -> CallOptions<'static> {
        CallOptions { limit: u32::MAX, form: ffi::LINES, flags: ffi::WITHOUT_NUMBERS, ..CallOptions::default() }
    }

    /// Returns the same options with copies of the texts.
    pub fn into_owned(self) -> CallOptions<'static> {
        let [only, link, without] = [self.only, self.link, self.without].map(|text| Cow::Owned(text.into_owned()));
        CallOptions { limit: self.limit, form: self.form, flags: self.flags, only, link, without }
    }

    /// Returns how many times as long as its capture an output mostly is, at most.
    pub fn expansion(&self) -> usize {
        if self.form == ffi::TEXT {
            1
        } else {
            4
        }
    }

    /// Returns the options for the library, with pointers into these.
    pub fn as_ffi(&self) -> ffi::Options {
        ffi::Options {
            only: to_ffi(&self.only),
            link: to_ffi(&self.link),
            without: to_ffi(&self.without),
            limit: self.limit,
            flags: self.flags,
            form: self.form,
            reserved: 0,
        }
    }

    /// Returns Ok if each word of the lists is known.
    fn check_words(&self) -> Result<(), Error> {
        if self.only.is_empty() && self.without.is_empty() {
            return Ok(());
        }
        let mut word = Vec::new();
        reserve(&mut word, self.only.len().max(self.without.len()))?;
        let (free, mut written) = (word.spare_capacity_mut(), 0);
        // Safety: the pointers have the lengths that are given, and don't overlap.
        let status = unsafe {
            let (at, capacity) = (free.as_mut_ptr().cast(), free.len());
            ffi::linkcap_unknown_word(&self.as_ffi(), at, capacity, &mut written)
        };
        match status {
            ffi::NONE => Ok(()),
            ffi::OK => {
                // Safety: the call has written this many bytes.
                unsafe { word.set_len(to_length(written)?) };
                Err(Error::UnknownName(into_string(word)))
            }
            _ => Err(Error::TooMany),
        }
    }
}
