//! What tests share.

/// Returns an attribute, with its padding.
pub fn attribute(kind: u16, payload: &[u8]) -> Vec<u8> {
    let length = u16::try_from(4 + payload.len()).expect("a short payload");
    let mut bytes = [length.to_le_bytes(), kind.to_le_bytes()].concat();
    bytes.extend_from_slice(payload);
    bytes.resize((bytes.len() + 3) & !3, 0);
    bytes
}
