//! The station: eight sockets, at most one link each, and the receiving of frames.
use crate::fcs::fcs;
use crate::frame::{parse, Body, Frame, FrameError, Segment, TransactionNumber};
use crate::link::{HalfMessage, Link, LinkState};
use crate::segments::{segment_range, LONGEST_MESSAGE};

pub const SOCKETS: usize = 8;
pub const AREA: usize = SOCKETS * LONGEST_MESSAGE;

/// A socket, counted from 1.
#[derive(Clone, Copy, Debug, PartialEq, Eq)]
pub struct Socket(pub u8);

/// Why a call is refused, with document 01's numbers.
#[derive(Clone, Copy, Debug, PartialEq, Eq)]
pub enum Refusal {
    Malformed = 1,
    UnknownOpcode = 2,
    UnknownLink = 3,
    NotOpen = 4,
    WrongDirection = 5,
    NotBegun = 6,
    Mismatch = 7,
    WrongCheck = 8,
    SocketInUse = 9,
    LinkIdInUse = 10,
    WrongArgument = 11,
    NotOutstanding = 12,
    BadState = 14,
}

#[derive(Clone, Copy, Debug, PartialEq, Eq)]
pub enum Answer {
    AcknowledgeAgain,
    Kept,
    Repeat,
    Delivered {
        length: u16,
        number: TransactionNumber,
    },
    Opened,
    Already,
    Closed {
        reason: u8,
    },
    Acknowledged,
}

impl From<FrameError> for Refusal {
    fn from(error: FrameError) -> Self {
        match error {
            FrameError::Malformed => Refusal::Malformed,
            FrameError::UnknownOpcode => Refusal::UnknownOpcode,
        }
    }
}

impl Link {
    /// After the message got a segment: delivered, refused by its FCS, or kept.
    fn complete(&mut self, message: HalfMessage, part: &[u8]) -> Result<Answer, Refusal> {
        if !message.is_complete() {
            self.half = Some(message);
            return Ok(Answer::Kept);
        }
        self.half = None;
        if fcs(&part[..usize::from(message.length)]) != message.fcs {
            return Err(Refusal::WrongCheck);
        }
        self.last = Some(message.number);
        Ok(Answer::Delivered {
            length: message.length,
            number: message.number,
        })
    }

    /// A segment of a message: entered, or compared where it is in.
    fn offer(
        &mut self,
        mut message: HalfMessage,
        index: usize,
        octets: &[u8],
        part: &mut [u8],
    ) -> Result<Answer, Refusal> {
        let range = segment_range(usize::from(message.length), index).ok_or(Refusal::Mismatch)?;
        if octets.len() != range.len() {
            return Err(Refusal::Mismatch);
        }
        let place = &mut part[range];
        if message.is_marked(index) {
            return if place == octets {
                Ok(Answer::Repeat)
            } else {
                Err(Refusal::Mismatch)
            };
        }
        place.copy_from_slice(octets);
        message.marks |= 1 << index;
        self.complete(message, part)
    }

    /// The half-received message of a number.
    fn half_of(&self, number: TransactionNumber) -> Option<HalfMessage> {
        self.half.filter(|message| message.number == number)
    }

    /// A segment at an open link; a Start of another number replaces a half-received message.
    fn receive_segment(
        &mut self,
        number: TransactionNumber,
        segment: Segment,
        part: &mut [u8],
    ) -> Result<Answer, Refusal> {
        if self.last == Some(number) {
            return Ok(Answer::AcknowledgeAgain);
        }
        match segment {
            Segment::Start {
                length,
                fcs,
                octets,
            } => {
                let begun = HalfMessage {
                    number,
                    length,
                    fcs,
                    marks: 0,
                };
                let message = self.half_of(number).unwrap_or(begun);
                if message.length != length || message.fcs != fcs {
                    return Err(Refusal::Mismatch);
                }
                self.offer(message, 0, octets, part)
            }
            Segment::Continuation { index, octets } => {
                let message = self.half_of(number).ok_or(Refusal::NotBegun)?;
                self.offer(message, usize::from(index), octets, part)
            }
        }
    }

    fn acknowledge(&mut self, number: TransactionNumber) -> Result<Answer, Refusal> {
        if !self.outstanding || self.next != number {
            return Err(Refusal::NotOutstanding);
        }
        self.outstanding = false;
        self.next = number.next();
        Ok(Answer::Acknowledged)
    }

    fn close(&mut self, reason: u8) -> Result<Answer, Refusal> {
        *self = Link::blank(LinkState::Free, 0);
        Ok(Answer::Closed { reason })
    }

    fn receive_opening(&mut self, frame: Frame) -> Result<Answer, Refusal> {
        match frame.body {
            Body::Ack => {
                self.state = LinkState::Open;
                Ok(Answer::Opened)
            }
            Body::Close { reason } => self.close(reason),
            _ => Err(Refusal::NotOpen),
        }
    }

    fn receive_open(&mut self, frame: Frame, part: &mut [u8]) -> Result<Answer, Refusal> {
        match frame.body {
            Body::Segment(segment) if frame.number.is_from_device() => {
                self.receive_segment(frame.number, segment, part)
            }
            Body::Acknowledgement if !frame.number.is_from_device() => {
                self.acknowledge(frame.number)
            }
            Body::Ack => Ok(Answer::Already),
            Body::Close { reason } => self.close(reason),
            Body::Segment(_) | Body::Acknowledgement | Body::Open { .. } => {
                Err(Refusal::WrongDirection)
            }
        }
    }
}

/// The eight link records.
#[derive(Clone, Debug, PartialEq, Eq)]
pub struct Station {
    pub links: [Link; SOCKETS],
}

impl Default for Station {
    fn default() -> Self {
        Self {
            links: [Link::blank(LinkState::Free, 0); SOCKETS],
        }
    }
}

impl Station {
    /// Whether the state is not bad.
    fn is_good(&self) -> bool {
        let links = &self.links;
        links.iter().all(Link::is_good)
            && (0..SOCKETS).all(|i| {
                links[i + 1..]
                    .iter()
                    .all(|other| links[i].is_apart_from(other))
            })
    }

    /// The place of the record in use that has a Link ID.
    fn find(&self, link_id: u32) -> Option<usize> {
        self.links
            .iter()
            .position(|link| link.is_in_use() && link.id == link_id)
    }

    /// Opens a link with a Link ID at a socket.
    pub fn open(&mut self, socket: Socket, link_id: u32) -> Result<(), Refusal> {
        if !(1..=SOCKETS as u8).contains(&socket.0) {
            return Err(Refusal::WrongArgument);
        }
        if !self.is_good() {
            return Err(Refusal::BadState);
        }
        let place = usize::from(socket.0 - 1);
        if self.links[place].is_in_use() {
            return Err(Refusal::SocketInUse);
        }
        if self.find(link_id).is_some() {
            return Err(Refusal::LinkIdInUse);
        }
        self.links[place] = Link::blank(LinkState::Opening, link_id);
        Ok(())
    }

    /// Receives a frame; the area has 1,469 octets for each socket.
    pub fn receive(&mut self, area: &mut [u8], octets: &[u8]) -> Result<Answer, Refusal> {
        if area.len() != AREA {
            return Err(Refusal::WrongArgument);
        }
        if !self.is_good() {
            return Err(Refusal::BadState);
        }
        let frame = parse(octets)?;
        let place = self.find(frame.link_id).ok_or(Refusal::UnknownLink)?;
        let part = &mut area[place * LONGEST_MESSAGE..][..LONGEST_MESSAGE];
        let link = &mut self.links[place];
        match link.state {
            LinkState::Free => Err(Refusal::UnknownLink),
            LinkState::Opening => link.receive_opening(frame),
            LinkState::Open => link.receive_open(frame, part),
        }
    }
}
