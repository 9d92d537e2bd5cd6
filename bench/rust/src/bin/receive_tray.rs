//! Rehearses a tray: eight links are opened, and on each come 100 messages of 1,469 octets, the frames of the eight links mixed and
//! every frame twice. It writes how often each answer was given, and whether the last messages stand in the area as they were sent.
#![forbid(unsafe_code)]
use mesh::frame::TransactionNumber;
use mesh::segments::{seg_n, LONGEST_MESSAGE};
use mesh::station::{Answer, Refusal, Socket, Station, AREA, SOCKETS};
use mesh::writing::{write_ack, write_segment, WrongArgument, LONGEST_FRAME};

const ROUNDS: usize = 100;

/// How often each answer was given.
#[derive(Default)]
struct Tally {
    opened: u32,
    kept: u32,
    repeated: u32,
    delivered: u32,
    again: u32,
    other: u32,
}

impl Tally {
    fn count(&mut self, answer: Result<Answer, Refusal>) {
        let counter = match answer {
            Ok(Answer::Opened) => &mut self.opened,
            Ok(Answer::Kept) => &mut self.kept,
            Ok(Answer::Repeat) => &mut self.repeated,
            Ok(Answer::Delivered { .. }) => &mut self.delivered,
            Ok(Answer::AcknowledgeAgain) => &mut self.again,
            _ => &mut self.other,
        };
        *counter = counter.saturating_add(1);
    }
}

/// The station, its area and the tally so far.
struct Tray {
    station: Station,
    area: [u8; AREA],
    tally: Tally,
}

fn link_id(socket: u8) -> u32 {
    0x23AF_5800 + u32::from(socket)
}

fn sockets() -> impl Iterator<Item = u8> {
    1..=SOCKETS as u8
}

impl Tray {
    fn bring(&mut self, frame: &[u8]) {
        let answer = self.station.receive(&mut self.area, frame);
        self.tally.count(answer);
    }

    /// Opens every link, and its Ack comes in.
    fn open_all(&mut self) -> Result<(), WrongArgument> {
        let mut frame = [0; LONGEST_FRAME];
        for socket in sockets() {
            if self.station.open(Socket(socket), link_id(socket)).is_ok() {
                let count = write_ack(link_id(socket), &mut frame)?;
                self.bring(&frame[..count]);
            }
        }
        Ok(())
    }

    /// One message on each socket: one segment of each in turn, every frame twice.
    fn bring_round(
        &mut self,
        messages: &[u8],
        number: TransactionNumber,
    ) -> Result<(), WrongArgument> {
        let mut frame = [0; LONGEST_FRAME];
        for index in 0..=seg_n(LONGEST_MESSAGE) {
            for (socket, message) in sockets().zip(messages.chunks_exact(LONGEST_MESSAGE)) {
                let count = write_segment(link_id(socket), number, message, index, &mut frame)?;
                self.bring(&frame[..count]);
                self.bring(&frame[..count]);
            }
        }
        Ok(())
    }
}

/// Octets that differ from place to place and from socket to socket.
fn messages() -> Vec<u8> {
    let places = LONGEST_MESSAGE..LONGEST_MESSAGE + AREA;
    places.map(|i| (i * 7 + i / 251) as u8).collect()
}

fn main() -> Result<(), WrongArgument> {
    let messages = messages();
    let mut tray = Tray {
        station: Station::default(),
        area: [0; AREA],
        tally: Tally::default(),
    };
    tray.open_all()?;
    let mut number = TransactionNumber(0x80);
    for _ in 0..ROUNDS {
        tray.bring_round(&messages, number)?;
        number = number.next();
    }
    println!("opened {}", tray.tally.opened);
    println!("kept {}", tray.tally.kept);
    println!("repeat {}", tray.tally.repeated);
    println!("delivered {}", tray.tally.delivered);
    println!("acknowledge again {}", tray.tally.again);
    println!("other {}", tray.tally.other);
    if tray.area[..] == messages[..] {
        println!("the area holds the messages");
    }
    Ok(())
}
