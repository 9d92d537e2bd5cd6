//! Where the segments of a message stand: 20 octets in segment 0, 23 in each other, all full but the last.
use std::ops::Range;

pub const LONGEST_MESSAGE: usize = 1469;

pub fn is_message_length(length: usize) -> bool {
    (1..=LONGEST_MESSAGE).contains(&length)
}

/// SegN, the least number with `length` at most 20 + 23 SegN.
pub fn seg_n(length: usize) -> usize {
    length.saturating_sub(20).div_ceil(23)
}

/// The place of a segment in the message.
pub fn segment_place(index: usize) -> usize {
    match index {
        0 => 0,
        _ => 20 + 23 * (index - 1),
    }
}

/// The places of a segment's octets in a message of `length` octets, where the message has that segment.
pub fn segment_range(length: usize, index: usize) -> Option<Range<usize>> {
    if index > seg_n(length) {
        return None;
    }
    let end = length.min(20 + 23 * index);
    Some(segment_place(index)..end)
}

#[cfg(test)]
mod tests {
    use super::{seg_n, segment_range};

    #[test]
    fn figures_of_document_01() {
        let figures = [(20, 0), (21, 1), (43, 1), (44, 2), (65, 2), (1469, 63)];
        for (length, last) in figures {
            assert_eq!(seg_n(length), last);
        }
        assert_eq!(segment_range(1469, 2), Some(43..66));
        assert_eq!(segment_range(1469, 63), Some(1446..1469));
        assert_eq!(segment_range(1469, 64), None);
    }
}
