//! The attributes of messages, read from their lines.

use crate::messages::{Message, Messages};
use crate::options::CallOptions;
use crate::writing::{into_string, write_all};
use crate::{Error, Options};
use std::vec;

/// What is between the names of a path.
const SEPARATOR: &str = " > ";

/// How the line of an attribute without a name begins, whose type follows.
const UNNAMED: &str = "kind ";

/// An attribute of a message, or a struct in an attribute, for example a next hop.
#[derive(Clone, Debug, PartialEq, Eq)]
#[non_exhaustive]
pub struct Attribute<'a> {
    /// The message that has it.
    pub message: Message<'a>,
    /// The kernel's names from outside in, for example `IFLA_LINKINFO > IFLA_INFO_DATA > IFLA_VXLAN_ID`. An attribute without a
    /// name has its type, for example `kind 0x3fff`.
    pub path: String,
    /// What follows the name in its line, for example `10`, `"vx0"` with its quotes, or `0x9 (Vf | SkipStats)`. It is empty for an
    /// attribute with others in it.
    pub value: String,
}

/// The attributes of a capture's messages, in order: each as an `Ok`, and then the first fault, if there is one, as an `Err`.
#[derive(Clone, Debug)]
pub struct Attributes<'a> {
    messages: Messages<'a>,
    options: CallOptions<'static>,
    /// Those of the last message that was read.
    found: vec::IntoIter<Attribute<'a>>,
}

/// Returns the attributes of a capture's messages, at all depths, each before those in it. Each item is an `Ok` with an
/// attribute, or an `Err` with the capture's first fault, which is the last item. It takes memory for one message.
///
/// An attribute in a peer has the peer's name in its path: the other end's name is
/// `IFLA_LINKINFO > IFLA_INFO_DATA > VETH_INFO_PEER > IFLA_IFNAME`.
///
/// ```
/// // An RTM_GETLINK of the link lo.
/// let request = b"\x28\0\0\0\x12\0\x01\0\x01\0\0\0\0\0\0\0\0\0\0\0\0\0\0\0\0\0\0\0\0\0\0\0\x07\0\x03\0lo\0\0";
/// for attribute in linkcap::attributes(request) {
///     let attribute = attribute?;
///     assert_eq!((attribute.path.as_str(), attribute.value.as_str()), ("IFLA_IFNAME", "\"lo\""));
///     assert_eq!((attribute.message.offset, attribute.message.message_type), (0, 18));
/// }
/// # Ok::<(), linkcap::Error>(())
/// ```
#[must_use]
pub fn attributes(capture: &[u8]) -> Attributes<'_> {
    Attributes::new(Messages::new(capture, CallOptions::default()), CallOptions::of_lines())
}

impl Options<'_> {
    /// Does what [`attributes`](crate::attributes()) does, with the limit, and what [`only`](Options::only),
    /// [`link`](Options::link) and [`without`](Options::without) select.
    ///
    /// # Errors
    ///
    /// Those of options that aren't valid: [`Error::Limit`], [`Error::UnknownName`], [`Error::TooMany`] and
    /// [`Error::UnusedOption`].
    pub fn attributes(self, capture: &[u8]) -> Result<Attributes<'_>, Error> {
        let options = self.for_lines(&["only", "link", "without"])?.into_owned();
        Ok(Attributes::new(Options::new().limit(self.limit).messages(capture)?, options))
    }
}

impl<'a> Message<'a> {
    /// Returns its attributes, at all depths, each before those in it.
    ///
    /// # Errors
    ///
    /// [`Error::Memory`].
    pub fn attributes(&self) -> Result<Vec<Attribute<'a>>, Error> {
        read(*self, &CallOptions::of_lines())
    }
}

impl<'a> Attributes<'a> {
    fn new(messages: Messages<'a>, options: CallOptions<'static>) -> Attributes<'a> {
        Attributes { messages, options, found: Vec::new().into_iter() }
    }
}

impl<'a> Iterator for Attributes<'a> {
    type Item = Result<Attribute<'a>, Error>;

    fn next(&mut self) -> Option<Result<Attribute<'a>, Error>> {
        loop {
            if let Some(attribute) = self.found.next() {
                return Some(Ok(attribute));
            }
            match self.messages.next()?.and_then(|message| read(message, &self.options)) {
                Ok(found) => self.found = found.into_iter(),
                Err(error) => {
                    self.messages.end();
                    return Some(Err(error));
                }
            }
        }
    }
}

impl std::iter::FusedIterator for Attributes<'_> {}

/// Returns the attributes of a message that options select.
fn read<'a>(message: Message<'a>, options: &CallOptions<'_>) -> Result<Vec<Attribute<'a>>, Error> {
    Ok(parse(message, &into_string(write_all(options, message.bytes)?)))
}

/// Returns the attributes in the lines of a message. The levels of a line's path end at `ends`.
fn parse<'a>(message: Message<'a>, lines: &str) -> Vec<Attribute<'a>> {
    let (mut found, mut path, mut ends) = (Vec::new(), String::new(), Vec::new());
    for line in lines.lines().skip(1) {
        let text = line.trim_start_matches(' ');
        let level = (line.len() - text.len()) / 2;
        let (name, value) = split_name(text);
        ends.truncate(level.saturating_sub(1));
        path.truncate(ends.last().copied().unwrap_or(0));
        if !path.is_empty() {
            path += SEPARATOR;
        }
        path += name;
        ends.push(path.len());
        if level > 1 || is_attribute(name) {
            found.push(Attribute { message, path: path.clone(), value: value.to_string() });
        }
    }
    found
}

/// Returns whether the name of a line at the first level is that of an attribute: others are the header, `body` or `code`.
fn is_attribute(name: &str) -> bool {
    name.starts_with(UNNAMED) || !name.starts_with(|first: char| first.is_ascii_lowercase())
}

/// Returns the name at the start of a line, and what follows it.
fn split_name(text: &str) -> (&str, &str) {
    let start = if text.starts_with(UNNAMED) { UNNAMED.len() } else { 0 };
    match text[start..].find(' ') {
        Some(at) => (&text[..start + at], &text[start + at + 1..]),
        None => (text, ""),
    }
}
