//! A hand-written program that does the work of `fixpgw journal`, with no proof: reads both files, looks at each record, and
//! prints the lines through a buffer. It is what the program's time is compared with, and no part of the product.
use std::fs::File;
use std::io::{BufWriter, Write};

const HEADER: &[u8; 16] = b"FIXPJRN2\0\0\0\0\0\0\0\0";
const DIGITS: &[u8; 16] = b"0123456789abcdef";

fn number(bytes: &[u8]) -> u64 {
    u64::from_le_bytes(bytes[..8].try_into().unwrap())
}

/// The record at the front of these bytes, where the format has it: its kind, its moment and its body.
fn record(bytes: &[u8]) -> Option<(u8, u64, &[u8])> {
    let moment = number(bytes.get(1..9)?);
    let length = u32::from_le_bytes(bytes.get(9..13)?.try_into().ok()?) as usize;
    let body = bytes.get(13..13 + length)?;
    let legal = moment < 1 << 44 && match bytes[0] {
        1 => {
            (20..=16396).contains(&length)
                && (1..=16).contains(&u16::from_le_bytes([body[0], body[1]]))
                && number(&body[2..]) != 0
        }
        2 => (18..=16394).contains(&length) && number(body) != 0,
        3 => length == 16 && number(body) != 0 && number(&body[8..]) != 0,
        4 | 6 => length == 0,
        5 => length == 8,
        _ => false,
    };
    legal.then_some((bytes[0], moment, body))
}

/// What a box keeps of its records, to see which may follow.
#[derive(Default)]
struct Seen {
    of_sender: [u64; 17],
    closed: bool,
    next: u64,
    negotiated: bool,
    finished: bool,
}

impl Seen {
    fn admits(&mut self, is_outbox: bool, kind: u8, body: &[u8]) -> bool {
        match (is_outbox, kind) {
            (true, 1) => {
                let count = &mut self.of_sender[body[0] as usize];
                *count += 1;
                let payload = &body[10..];
                let schema = match payload[..2] {
                    [0xEB, 0x50] => u16::from_le_bytes([payload[6], payload[7]]),
                    [0x5B, 0xE0] => u16::from_be_bytes([payload[6], payload[7]]),
                    _ => 0xF011,
                };
                !self.closed && number(&body[2..]) == *count && schema != 0xF011
            }
            (true, 6) => !std::mem::replace(&mut self.closed, true),
            (false, 2) => {
                self.next += 1;
                number(body) == self.next
            }
            (false, 3) => {
                let fits = number(body) == self.next + 1;
                self.next += number(&body[8..]);
                fits
            }
            (false, 4) => !std::mem::replace(&mut self.negotiated, true),
            (false, 5) => !std::mem::replace(&mut self.finished, true),
            _ => false,
        }
    }
}

/// The records of a file, each looked at; none where the file is no journal of this box.
fn opened(path: &str, is_outbox: bool, bytes: &mut Vec<u8>) -> std::io::Result<bool> {
    *bytes = std::fs::read(path)?;
    if bytes.get(..16) != Some(HEADER) {
        return Ok(false);
    }
    let (mut at, mut seen) = (16, Seen::default());
    while bytes.get(at) == Some(&1) {
        match record(&bytes[at + 1..]) {
            Some((kind, _, body)) if seen.admits(is_outbox, kind, body) => at += 14 + body.len(),
            _ => return Ok(false),
        }
    }
    Ok(at < bytes.len())
}

/// A payload in hexadecimal, and the end of its line.
fn spell<'a>(payload: &[u8], hex: &'a mut Vec<u8>) -> &'a [u8] {
    hex.clear();
    for byte in payload {
        hex.extend_from_slice(&[DIGITS[(byte >> 4) as usize], DIGITS[(byte & 15) as usize]]);
    }
    hex.push(b'\n');
    hex
}

fn print(name: &str, bytes: &[u8], out: &mut impl Write) -> std::io::Result<()> {
    writeln!(out, "{name}")?;
    let mut hex = Vec::with_capacity(2 * 16386);
    let (mut at, mut place) = (16, 0u64);
    while bytes[at] == 1 {
        let (kind, moment, body) = record(&bytes[at + 1..]).unwrap();
        place += 1;
        write!(out, "at {moment} ")?;
        match kind {
            1 => {
                let sender = u16::from_le_bytes([body[0], body[1]]);
                write!(out, "entry {place} sender {sender} k {} ", number(&body[2..]))?;
                out.write_all(spell(&body[10..], &mut hex))?;
            }
            2 => {
                write!(out, "apply {} ", number(body))?;
                out.write_all(spell(&body[8..], &mut hex))?;
            }
            3 => writeln!(out, "skip {} {}", number(body), number(&body[8..]))?,
            4 => writeln!(out, "negotiated")?,
            5 => writeln!(out, "peer-finished {}", number(body))?,
            _ => writeln!(out, "finish")?,
        }
        at += 14 + body.len();
    }
    Ok(())
}

fn main() -> std::io::Result<()> {
    let args: Vec<String> = std::env::args().collect();
    let (mut outbox, mut inbox) = (Vec::new(), Vec::new());
    if !opened(&args[1], true, &mut outbox)? || !opened(&args[2], false, &mut inbox)? {
        std::process::exit(6);
    }
    let mut out = BufWriter::with_capacity(64 * 1024, File::create(&args[3])?);
    print("outbox", &outbox, &mut out)?;
    print("inbox", &inbox, &mut out)?;
    out.flush()
}
