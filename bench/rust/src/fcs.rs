//! The check octet of 3GPP TS 27.010, bit by bit.

fn add_octet(remainder: u8, octet: u8) -> u8 {
    (0..8).fold(remainder ^ octet, |r, _| {
        if r & 1 == 1 {
            r >> 1 ^ 0xE0
        } else {
            r >> 1
        }
    })
}

/// The FCS of a message.
pub fn fcs(message: &[u8]) -> u8 {
    !message
        .iter()
        .fold(0xFF, |remainder, &octet| add_octet(remainder, octet))
}

#[cfg(test)]
mod tests {
    use super::fcs;

    #[test]
    fn figures_of_document_01() {
        assert_eq!(fcs(&[0x00]), 0x30);
        assert_eq!(fcs(&[0x00, 0x00]), 0x14);
        assert_eq!(fcs(&[0x00, 0x05]), 0x82);
        assert_eq!(fcs(&[0x04]), 0x37);
        assert_eq!(fcs(&[0x08]), 0x3E);
    }
}
