//! PB-ADV frames, written: the segments of a message, and the Ack.
use crate::fcs::fcs;
use crate::frame::TransactionNumber;
use crate::segments::{is_message_length, seg_n, segment_range};

/// No frame is longer.
pub const LONGEST_FRAME: usize = 29;

/// Refusal 11.
#[derive(Clone, Copy, Debug, PartialEq, Eq)]
pub struct WrongArgument;

/// Writes a frame whose octets after the first six are given in two parts; its length.
fn put_frame(
    output: &mut [u8],
    link_id: u32,
    number: u8,
    kind: u8,
    fields: &[u8],
    octets: &[u8],
) -> Result<usize, WrongArgument> {
    let count = 6 + fields.len() + octets.len();
    let frame = output.get_mut(..count).ok_or(WrongArgument)?;
    let (head, rest) = frame.split_at_mut(6);
    head[..4].copy_from_slice(&link_id.to_be_bytes());
    head[4] = number;
    head[5] = kind;
    let (first, second) = rest.split_at_mut(fields.len());
    first.copy_from_slice(fields);
    second.copy_from_slice(octets);
    Ok(count)
}

pub fn write_ack(link_id: u32, output: &mut [u8]) -> Result<usize, WrongArgument> {
    put_frame(output, link_id, 0, 1 << 2 | 3, &[], &[])
}

/// Writes the frame of one segment of a message; its length.
pub fn write_segment(
    link_id: u32,
    number: TransactionNumber,
    message: &[u8],
    index: usize,
    output: &mut [u8],
) -> Result<usize, WrongArgument> {
    if !is_message_length(message.len()) {
        return Err(WrongArgument);
    }
    let range = segment_range(message.len(), index).ok_or(WrongArgument)?;
    let octets = &message[range];
    if index > 0 {
        return put_frame(
            output,
            link_id,
            number.0,
            (index << 2 | 2) as u8,
            &[],
            octets,
        );
    }
    let [high, low] = (message.len() as u16).to_be_bytes();
    let kind = (seg_n(message.len()) << 2) as u8;
    put_frame(
        output,
        link_id,
        number.0,
        kind,
        &[high, low, fcs(message)],
        octets,
    )
}
