//! The record of a link, and the test for a record that is bad by itself.
use crate::frame::TransactionNumber;
use crate::segments::{is_message_length, seg_n};

#[derive(Clone, Copy, Debug, PartialEq, Eq)]
pub enum LinkState {
    Free,
    Opening,
    Open,
}

/// What is known of a half-received message: bit k of the marks says that segment k is in.
#[derive(Clone, Copy, Debug, PartialEq, Eq)]
pub struct HalfMessage {
    pub number: TransactionNumber,
    pub length: u16,
    pub fcs: u8,
    pub marks: u64,
}

#[derive(Clone, Copy, Debug, PartialEq, Eq)]
pub struct Link {
    pub state: LinkState,
    pub id: u32,
    /// The next sending number, and whether it awaits its acknowledgement.
    pub next: TransactionNumber,
    pub outstanding: bool,
    /// The last delivered number.
    pub last: Option<TransactionNumber>,
    pub half: Option<HalfMessage>,
}

impl HalfMessage {
    pub fn seg_n(&self) -> usize {
        seg_n(usize::from(self.length))
    }

    pub fn is_marked(&self, index: usize) -> bool {
        self.marks >> index & 1 == 1
    }

    /// The marks of a message that has every segment.
    fn all_marks(&self) -> u64 {
        u64::MAX >> (63 - self.seg_n())
    }

    pub fn is_complete(&self) -> bool {
        self.marks == self.all_marks()
    }

    fn is_good(&self, last: Option<TransactionNumber>) -> bool {
        self.number.is_from_device()
            && is_message_length(usize::from(self.length))
            && last != Some(self.number)
            && self.is_marked(0)
            && !self.is_complete()
            && self.marks & !self.all_marks() == 0
    }
}

impl Link {
    /// A record that is blank but for its state and its Link ID.
    pub const fn blank(state: LinkState, id: u32) -> Self {
        Self {
            state,
            id,
            next: TransactionNumber(0),
            outstanding: false,
            last: None,
            half: None,
        }
    }

    pub fn is_in_use(&self) -> bool {
        self.state != LinkState::Free
    }

    fn is_at_rest(&self) -> bool {
        self.next == TransactionNumber(0)
            && !self.outstanding
            && self.last.is_none()
            && self.half.is_none()
    }

    /// Whether the record is not bad by itself.
    pub fn is_good(&self) -> bool {
        match self.state {
            LinkState::Free => self.id == 0 && self.is_at_rest(),
            LinkState::Opening => self.is_at_rest(),
            LinkState::Open => {
                !self.next.is_from_device()
                    && self.last.is_none_or(TransactionNumber::is_from_device)
                    && self.half.is_none_or(|message| message.is_good(self.last))
            }
        }
    }

    /// Whether two records do not have one Link ID in use.
    pub fn is_apart_from(&self, other: &Link) -> bool {
        !self.is_in_use() || !other.is_in_use() || self.id != other.id
    }
}
