//! Fields as they are written, and the frame around them.

use crate::message::END;

/// Tag and value, whatever they hold.
pub type Field = (String, Vec<u8>);

pub fn field(tag: &str, value: impl AsRef<[u8]>) -> Field {
    (tag.to_string(), value.as_ref().to_vec())
}

pub fn field_bytes(tag: &str, value: impl AsRef<[u8]>) -> Vec<u8> {
    written(&[field(tag, value)])
}

pub fn written(fields: &[Field]) -> Vec<u8> {
    let mut bytes = Vec::new();
    for (tag, value) in fields {
        let parts = [tag.as_bytes(), b"=", value, &[END]];
        parts.iter().for_each(|part| bytes.extend(*part));
    }
    bytes
}

pub fn is_of_group(field: &Field) -> bool {
    ["600", "623", "624"].contains(&field.0.as_str())
}

/// The message with some body, which may hold anything.
pub fn framed(body: &[u8]) -> Vec<u8> {
    let mut message = b"8=FIX.4.4\x019=\x0135=AB\x01".to_vec();
    message.extend(body);
    message.extend(b"10=\x01");
    mended(&message)
}

/// The message with the right length and the right sum, as far as it has places for them.
pub fn mended(message: &[u8]) -> Vec<u8> {
    with_sum(&with_length(message))
}

/// The second field becomes the number of bytes after it and before the last field.
pub fn with_length(message: &[u8]) -> Vec<u8> {
    let mut fields = split(message);
    let [_, _, middle @ .., _] = &fields[..] else {
        return message.to_vec();
    };
    let length: usize = middle.iter().map(|field| field.len()).sum();
    let length = field_bytes("9", length.to_string());
    fields[1] = &length;
    fields.concat()
}

/// The last field becomes the sum of the bytes before it.
pub fn with_sum(message: &[u8]) -> Vec<u8> {
    let last = split(message).pop().map_or(0, <[u8]>::len);
    let earlier = &message[..message.len() - last];
    let sum = earlier
        .iter()
        .fold(0, |sum: u8, &byte| sum.wrapping_add(byte));
    let sum = field_bytes("10", format!("{sum:03}"));
    [earlier, &sum].concat()
}

/// Each part ends with its byte 1, the last perhaps without.
pub fn split(message: &[u8]) -> Vec<&[u8]> {
    message.split_inclusive(|&byte| byte == END).collect()
}
