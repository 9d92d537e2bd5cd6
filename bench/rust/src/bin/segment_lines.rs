//! Reads a message a line in hexadecimal from standard input, and writes the frames of its cut, one a line, to standard output.
#![forbid(unsafe_code)]
use mesh::frame::TransactionNumber;
use mesh::hex;
use mesh::segments::{seg_n, LONGEST_MESSAGE};
use mesh::writing::{write_segment, WrongArgument, LONGEST_FRAME};
use std::io::{self, BufRead, BufReader, BufWriter, Read, Write};

const LINK_ID: u32 = 1;
const BUFFER: usize = 65536;

/// One character more than the longest message has digits.
const LONGEST_LINE: usize = 2 * LONGEST_MESSAGE + 1;

/// Adds the frames of a message to the text, one a line.
fn cut(number: TransactionNumber, message: &[u8], text: &mut Vec<u8>) -> Result<(), WrongArgument> {
    let mut frame = [0; LONGEST_FRAME];
    for index in 0..=seg_n(message.len()) {
        let count = write_segment(LINK_ID, number, message, index, &mut frame)?;
        hex::encode(&frame[..count], text);
        text.push(b'\n');
    }
    Ok(())
}

/// The text of a line, and the number of the next message.
fn answer(number: TransactionNumber, line: &[u8], text: &mut Vec<u8>) -> TransactionNumber {
    let mut octets = [0; LONGEST_MESSAGE];
    text.clear();
    let done = hex::decode(line, &mut octets)
        .ok_or(WrongArgument)
        .and_then(|message| cut(number, message, text));
    match done {
        Ok(()) => number.next(),
        Err(WrongArgument) => {
            text.extend_from_slice(b"!11\n");
            number
        }
    }
}

/// Reads a line without its newline, no more of it than LONGEST_LINE characters; false at the end of input.
fn read_line(input: &mut impl BufRead, line: &mut Vec<u8>) -> io::Result<bool> {
    line.clear();
    input
        .by_ref()
        .take(LONGEST_LINE as u64)
        .read_until(b'\n', line)?;
    if line.last() == Some(&b'\n') {
        line.pop();
        return Ok(true);
    }
    if line.len() == LONGEST_LINE {
        input.skip_until(b'\n')?;
    }
    Ok(!line.is_empty())
}

fn main() -> io::Result<()> {
    let mut input = BufReader::with_capacity(BUFFER, io::stdin().lock());
    let mut output = BufWriter::with_capacity(BUFFER, io::stdout().lock());
    let (mut line, mut text) = (Vec::new(), Vec::new());
    let mut number = TransactionNumber(0);
    loop {
        // What waits is written out before more input is awaited.
        if !input.buffer().contains(&b'\n') {
            output.flush()?;
        }
        if !read_line(&mut input, &mut line)? {
            return output.flush();
        }
        number = answer(number, &line, &mut text);
        output.write_all(&text)?;
    }
}
