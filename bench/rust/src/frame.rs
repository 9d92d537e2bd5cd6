//! PB-ADV frames, read.
use crate::segments::{is_message_length, seg_n};

/// 0x00 to 0x7F from the provisioner, 0x80 to 0xFF from the device.
#[derive(Clone, Copy, Debug, PartialEq, Eq)]
pub struct TransactionNumber(pub u8);

impl TransactionNumber {
    /// The number after this one in its half.
    pub fn next(self) -> Self {
        Self(self.0 & 0x80 | self.0.wrapping_add(1) & 0x7F)
    }

    pub fn is_from_device(self) -> bool {
        self.0 >= 0x80
    }
}

#[derive(Clone, Copy, Debug, PartialEq, Eq)]
pub enum FrameError {
    /// Refusal 1.
    Malformed,
    /// Refusal 2.
    UnknownOpcode,
}

/// A segment of a message, with what stands before it in the frame.
#[derive(Clone, Copy, Debug, PartialEq, Eq)]
pub enum Segment<'a> {
    Start {
        length: u16,
        fcs: u8,
        octets: &'a [u8],
    },
    Continuation {
        index: u8,
        octets: &'a [u8],
    },
}

#[derive(Clone, Copy, Debug, PartialEq, Eq)]
pub enum Body<'a> {
    Segment(Segment<'a>),
    Acknowledgement,
    Open { uuid: &'a [u8] },
    Ack,
    Close { reason: u8 },
}

#[derive(Clone, Copy, Debug, PartialEq, Eq)]
pub struct Frame<'a> {
    pub link_id: u32,
    pub number: TransactionNumber,
    pub body: Body<'a>,
}

fn parse_start(last: u8, rest: &[u8]) -> Result<Body<'_>, FrameError> {
    let [high, low, fcs, octets @ ..] = rest else {
        return Err(FrameError::Malformed);
    };
    let length = u16::from_be_bytes([*high, *low]);
    let count = usize::from(length);
    if !is_message_length(count)
        || usize::from(last) != seg_n(count)
        || octets.len() != count.min(20)
    {
        return Err(FrameError::Malformed);
    }
    Ok(Body::Segment(Segment::Start {
        length,
        fcs: *fcs,
        octets,
    }))
}

fn parse_acknowledgement(padding: u8, rest: &[u8]) -> Result<Body<'_>, FrameError> {
    if padding != 0 || !rest.is_empty() {
        return Err(FrameError::Malformed);
    }
    Ok(Body::Acknowledgement)
}

fn parse_continuation(index: u8, octets: &[u8]) -> Result<Body<'_>, FrameError> {
    if index == 0 || octets.is_empty() {
        return Err(FrameError::Malformed);
    }
    Ok(Body::Segment(Segment::Continuation { index, octets }))
}

fn parse_control(opcode: u8, rest: &[u8]) -> Result<Body<'_>, FrameError> {
    match (opcode, rest) {
        (0, uuid) if uuid.len() == 16 => Ok(Body::Open { uuid }),
        (1, []) => Ok(Body::Ack),
        (2, [reason]) => Ok(Body::Close { reason: *reason }),
        (0..=2, _) => Err(FrameError::Malformed),
        _ => Err(FrameError::UnknownOpcode),
    }
}

/// What any octets say as a frame, or refusal 1 or 2.
pub fn parse(octets: &[u8]) -> Result<Frame<'_>, FrameError> {
    let [a, b, c, d, number, kind, rest @ ..] = octets else {
        return Err(FrameError::Malformed);
    };
    if octets.len() > 29 {
        return Err(FrameError::Malformed);
    }
    let body = match kind & 3 {
        0 => parse_start(kind >> 2, rest),
        1 => parse_acknowledgement(kind >> 2, rest),
        2 => parse_continuation(kind >> 2, rest),
        _ => parse_control(kind >> 2, rest),
    }?;
    Ok(Frame {
        link_id: u32::from_be_bytes([*a, *b, *c, *d]),
        number: TransactionNumber(*number),
        body,
    })
}
