//! The receiving table of document 01, tried on one link.
use mesh::frame::TransactionNumber;
use mesh::link::LinkState;
use mesh::station::{Answer, Refusal, Socket, Station, AREA};
use mesh::writing::{write_ack, write_segment, LONGEST_FRAME};

const LINK_ID: u32 = 0x23AF_5850;
const NUMBER: TransactionNumber = TransactionNumber(0x80);

fn segment(number: TransactionNumber, message: &[u8], index: usize) -> Vec<u8> {
    let mut frame = [0; LONGEST_FRAME];
    let count = write_segment(LINK_ID, number, message, index, &mut frame).unwrap();
    frame[..count].to_vec()
}

fn ack() -> Vec<u8> {
    let mut frame = [0; LONGEST_FRAME];
    let count = write_ack(LINK_ID, &mut frame).unwrap();
    frame[..count].to_vec()
}

fn changed(mut frame: Vec<u8>, place: usize) -> Vec<u8> {
    frame[place] ^= 1;
    frame
}

/// A station with an open link at socket 3, and its area.
fn open_station() -> (Station, [u8; AREA]) {
    let (mut station, mut area) = (Station::default(), [0; AREA]);
    assert_eq!(station.open(Socket(3), LINK_ID), Ok(()));
    let early = station.receive(&mut area, &segment(NUMBER, &[1], 0));
    assert_eq!(early, Err(Refusal::NotOpen));
    assert_eq!(station.receive(&mut area, &ack()), Ok(Answer::Opened));
    (station, area)
}

#[test]
fn a_message_in_any_order_is_delivered() {
    let message: Vec<u8> = (0..60).collect();
    let (mut station, mut area) = open_station();
    let mut bring = |frame: &[u8]| station.receive(&mut area, frame);
    assert_eq!(bring(&segment(NUMBER, &message, 2)), Err(Refusal::NotBegun));
    assert_eq!(bring(&segment(NUMBER, &message, 0)), Ok(Answer::Kept));
    assert_eq!(bring(&segment(NUMBER, &message, 2)), Ok(Answer::Kept));
    assert_eq!(bring(&segment(NUMBER, &message, 2)), Ok(Answer::Repeat));
    let other = changed(segment(NUMBER, &message, 2), 10);
    assert_eq!(bring(&other), Err(Refusal::Mismatch));
    let delivered = Answer::Delivered {
        length: 60,
        number: NUMBER,
    };
    assert_eq!(bring(&segment(NUMBER, &message, 1)), Ok(delivered));
    assert_eq!(bring(&other), Ok(Answer::AcknowledgeAgain));
    assert_eq!(&area[2 * 1469..2 * 1469 + 60], &message[..]);
}

#[test]
fn refusals() {
    let (mut station, mut area) = open_station();
    let start = segment(NUMBER, &[1, 2, 3], 0);
    assert_eq!(
        station.receive(&mut area[1..], &start),
        Err(Refusal::WrongArgument)
    );
    assert_eq!(
        station.receive(&mut area, &start[..5]),
        Err(Refusal::Malformed)
    );
    assert_eq!(
        station.receive(&mut area, &[0, 0, 0, 0, 0, 15]),
        Err(Refusal::UnknownOpcode)
    );
    assert_eq!(
        station.receive(&mut area, &changed(start.clone(), 3)),
        Err(Refusal::UnknownLink)
    );
    let ours = segment(TransactionNumber(0x7F), &[1], 0);
    assert_eq!(
        station.receive(&mut area, &ours),
        Err(Refusal::WrongDirection)
    );
    assert_eq!(
        station.receive(&mut area, &changed(start.clone(), 8)),
        Err(Refusal::WrongCheck)
    );
    let acknowledgement = [0x23, 0xAF, 0x58, 0x50, 0, 1];
    assert_eq!(
        station.receive(&mut area, &acknowledgement),
        Err(Refusal::NotOutstanding)
    );
    assert_eq!(station.open(Socket(3), 1), Err(Refusal::SocketInUse));
    assert_eq!(station.open(Socket(4), LINK_ID), Err(Refusal::LinkIdInUse));
    station.links[0].state = LinkState::Open;
    station.links[0].id = LINK_ID;
    assert_eq!(station.receive(&mut area, &start), Err(Refusal::BadState));
}
