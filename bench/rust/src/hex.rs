//! Hexadecimal digits to octets and back.

const CAPITALS: &[u8; 16] = b"0123456789ABCDEF";

fn value(character: u8) -> Option<u8> {
    match character {
        b'0'..=b'9' => Some(character - b'0'),
        b'A'..=b'F' => Some(character - b'A' + 10),
        b'a'..=b'f' => Some(character - b'a' + 10),
        _ => None,
    }
}

/// The octets of an even number of digits, at the start of the output; none where a character is no digit or the output too short.
pub fn decode<'a>(text: &[u8], output: &'a mut [u8]) -> Option<&'a [u8]> {
    if text.len() % 2 != 0 {
        return None;
    }
    let octets = output.get_mut(..text.len() / 2)?;
    for (octet, pair) in octets.iter_mut().zip(text.chunks_exact(2)) {
        *octet = value(pair[0])? << 4 | value(pair[1])?;
    }
    Some(octets)
}

/// Adds the digits of octets, in capitals, to a text.
pub fn encode(octets: &[u8], text: &mut Vec<u8>) {
    text.extend(octets.iter().flat_map(|&octet| {
        [
            CAPITALS[usize::from(octet >> 4)],
            CAPITALS[usize::from(octet & 15)],
        ]
    }));
}
