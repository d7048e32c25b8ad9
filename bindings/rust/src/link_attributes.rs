//! The attributes of link messages, with their bytes.

use crate::options::CallOptions;
use crate::{ffi, Message};
use std::os::raw::c_char;

/// An attribute of a link message, as its bytes are.
#[derive(Clone, Debug, PartialEq, Eq)]
#[non_exhaustive]
pub struct LinkAttribute<'a> {
    /// The start of its header, in bytes from the capture's start.
    pub offset: usize,
    /// Its type, without flag bits.
    pub attribute_type: u16,
    /// `NLA_F_NESTED` and `NLA_F_NET_BYTEORDER` of its type.
    pub flags: u16,
    pub payload: &'a [u8],
    /// How many attributes it is inside.
    pub depth: usize,
    /// For example `IFLA_VXLAN_ID`; empty if its list has no name for its type.
    pub name: String,
    /// The link kind, or the kind of port, whose data it holds or is in, for example `vxlan`; empty elsewhere.
    pub link_kind: String,
}

impl<'a> Message<'a> {
    /// Returns the attributes of a link message with their bytes, at all depths, each before those in it. Messages of other types
    /// have none here, and what is in raw attributes isn't among them.
    ///
    /// ```
    /// // An RTM_GETLINK of the link lo.
    /// let request = b"\x28\0\0\0\x12\0\x01\0\x01\0\0\0\0\0\0\0\0\0\0\0\0\0\0\0\0\0\0\0\0\0\0\0\x07\0\x03\0lo\0\0";
    /// for message in linkcap::messages(request) {
    ///     for attribute in message?.link_attributes() {
    ///         assert_eq!((attribute.offset, attribute.name.as_str(), attribute.payload), (32, "IFLA_IFNAME", &b"lo\0"[..]));
    ///     }
    /// }
    /// # Ok::<(), linkcap::Error>(())
    /// ```
    #[must_use]
    pub fn link_attributes(&self) -> Vec<LinkAttribute<'a>> {
        let (mut found, mut position) = (Vec::new(), 0);
        while let Some(attribute) = self.link_attribute_from(position) {
            position = attribute.offset - self.offset + 4;
            found.push(attribute);
        }
        found
    }

    /// Returns the first attribute at a position or after it, in bytes from the message's start.
    fn link_attribute_from(&self, position: usize) -> Option<LinkAttribute<'a>> {
        let none = [0; ffi::NAME_ROOM];
        let mut found =
            ffi::Attribute { offset: 0, payload: 0, length: 0, r#type: 0, flags: 0, depth: 0, name: none, link_kind: none };
        let (options, mut fault) = (CallOptions::of_lines(), ffi::Finding::default());
        let (at, length) = (self.bytes.as_ptr(), self.bytes.len());
        // Safety: the pointer has the length that is given.
        let status = unsafe {
            ffi::linkcap_next_attribute(at, length, &options.as_ffi(), 0, position as u64, &mut found, &mut fault)
        };
        if status != ffi::OK {
            return None;
        }
        Some(LinkAttribute {
            offset: self.offset + found.offset as usize,
            attribute_type: found.r#type as u16,
            flags: found.flags as u16,
            payload: &self.bytes[found.payload as usize..][..found.length as usize],
            depth: found.depth as usize,
            name: to_text(&found.name),
            link_kind: to_text(&found.link_kind),
        })
    }
}

/// Returns the text before the null bytes.
fn to_text(name: &[c_char]) -> String {
    let bytes: Vec<u8> = name.iter().take_while(|byte| **byte != 0).map(|byte| *byte as u8).collect();
    String::from_utf8_lossy(&bytes).into_owned()
}
