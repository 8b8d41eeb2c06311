//! Hand-written flyweights of the session messages, with no proof: an encoder and a decoder over bytes for each template.
//! What `cases_bench bench` does with messages is compared with this; it is no part of the product.
use std::env;

const DATA: &[u8] = b"password";
const MOST: usize = 2100;
const ROOM: usize = 65_536;
const HEADERS: usize = 14;

struct Encoder<'a> {
    out: &'a mut [u8],
    at: usize,
}

impl<'a> Encoder<'a> {
    fn wrap(out: &'a mut [u8], size: usize, block: u16, template: u16) -> Encoder<'a> {
        out[0..4].copy_from_slice(&(size as u32).to_be_bytes());
        out[4..6].copy_from_slice(&0xEB50u16.to_be_bytes());
        out[6..8].copy_from_slice(&block.to_le_bytes());
        out[8..10].copy_from_slice(&template.to_le_bytes());
        out[10..12].copy_from_slice(&0xF011u16.to_le_bytes());
        out[12..14].copy_from_slice(&0u16.to_le_bytes());
        Encoder { out, at: HEADERS }
    }

    fn bytes(mut self, bytes: &[u8]) -> Encoder<'a> {
        self.out[self.at..self.at + bytes.len()].copy_from_slice(bytes);
        self.at += bytes.len();
        self
    }

    fn u8(self, n: u8) -> Encoder<'a> {
        self.bytes(&[n])
    }

    fn u32(self, n: u32) -> Encoder<'a> {
        self.bytes(&n.to_le_bytes())
    }

    fn u64(self, n: u64) -> Encoder<'a> {
        self.bytes(&n.to_le_bytes())
    }

    fn optional(self, n: Option<u64>) -> Encoder<'a> {
        self.u64(n.unwrap_or(u64::MAX))
    }

    fn data(self, data: &[u8]) -> Encoder<'a> {
        self.bytes(&(data.len() as u16).to_le_bytes()).bytes(data)
    }
}

#[derive(Clone, Copy)]
struct Decoder<'a> {
    block: &'a [u8],
    behind: &'a [u8],
}

impl<'a> Decoder<'a> {
    fn wrap(message: &'a [u8], needed: usize) -> Option<Decoder<'a>> {
        let length = u16::from_le_bytes([message[0], message[1]]) as usize;
        if length < needed || message.len() - 8 < length {
            return None;
        }
        let (block, behind) = message[8..].split_at(length);
        Some(Decoder { block, behind })
    }

    fn session(self) -> &'a [u8] {
        &self.block[0..16]
    }

    fn u8(self, at: usize) -> u8 {
        self.block[at]
    }

    fn u32(self, at: usize) -> u32 {
        u32::from_le_bytes(self.block[at..at + 4].try_into().unwrap())
    }

    fn u64(self, at: usize) -> u64 {
        u64::from_le_bytes(self.block[at..at + 8].try_into().unwrap())
    }

    fn optional(self, at: usize) -> Option<u64> {
        Some(self.u64(at)).filter(|n| *n != u64::MAX)
    }

    fn data(self) -> Option<&'a [u8]> {
        let length = u16::from_le_bytes(self.behind.get(0..2)?.try_into().unwrap()) as usize;
        self.behind.get(2..2 + length)
    }
}

fn ends(id: &[u8]) -> u64 {
    u64::from(id[0]) + u64::from(id[15])
}

/// Writes the message of a template with this number in each field, and answers the frame's size.
fn put(template: u16, id: &[u8; 16], n: u64, out: &mut [u8]) -> usize {
    match template {
        1 => {
            let size = HEADERS + 25 + 2 + DATA.len();
            Encoder::wrap(out, size, 25, 1)
                .bytes(id)
                .u64(n)
                .u8(n as u8)
                .data(DATA);
            size
        }
        2 => {
            let size = HEADERS + 25 + 2 + DATA.len();
            Encoder::wrap(out, size, 25, 2)
                .bytes(id)
                .u64(n)
                .u8(n as u8)
                .data(DATA);
            size
        }
        3 => {
            let size = HEADERS + 25 + 2 + DATA.len();
            Encoder::wrap(out, size, 25, 3)
                .bytes(id)
                .u64(n)
                .u8(n as u8)
                .data(DATA);
            size
        }
        4 => {
            let size = HEADERS + 36 + 2 + DATA.len();
            Encoder::wrap(out, size, 36, 4)
                .bytes(id)
                .u64(n)
                .u32(n as u32)
                .optional(Some(n))
                .data(DATA);
            size
        }
        5 => {
            let size = HEADERS + 36;
            Encoder::wrap(out, size, 36, 5)
                .bytes(id)
                .u64(n)
                .u32(n as u32)
                .optional(Some(n));
            size
        }
        6 => {
            let size = HEADERS + 25 + 2 + DATA.len();
            Encoder::wrap(out, size, 25, 6)
                .bytes(id)
                .u64(n)
                .u8(n as u8)
                .data(DATA);
            size
        }
        7 => {
            let size = HEADERS + 8;
            Encoder::wrap(out, size, 8, 7).u64(n);
            size
        }
        8 => {
            let size = HEADERS + 0;
            Encoder::wrap(out, size, 0, 8);
            size
        }
        9 => {
            let size = HEADERS + 36;
            Encoder::wrap(out, size, 36, 9)
                .bytes(id)
                .u64(n)
                .u64(n)
                .u32(n as u32);
            size
        }
        10 => {
            let size = HEADERS + 36;
            Encoder::wrap(out, size, 36, 10)
                .bytes(id)
                .u64(n)
                .u64(n)
                .u32(n as u32);
            size
        }
        11 => {
            let size = HEADERS + 25 + 2 + DATA.len();
            Encoder::wrap(out, size, 25, 11)
                .bytes(id)
                .u64(n)
                .u8(n as u8)
                .data(DATA);
            size
        }
        12 => {
            let size = HEADERS + 12;
            Encoder::wrap(out, size, 12, 12).u64(n).u32(n as u32);
            size
        }
        13 => {
            let size = HEADERS + 12;
            Encoder::wrap(out, size, 12, 13).u64(n).u32(n as u32);
            size
        }
        14 => {
            let size = HEADERS + 24;
            Encoder::wrap(out, size, 24, 14).bytes(id).optional(Some(n));
            size
        }
        15 => {
            let size = HEADERS + 16;
            Encoder::wrap(out, size, 16, 15).bytes(id);
            size
        }
        16 => {
            let size = HEADERS + 17 + 2 + DATA.len();
            Encoder::wrap(out, size, 17, 16)
                .bytes(id)
                .u8(n as u8)
                .data(DATA);
            size
        }
        _ => 0,
    }
}

/// The sum of what a message says: its fields, the first and the last byte of the session, and the length of its data.
fn sum_of(message: &[u8]) -> Option<u64> {
    let sum = match u16::from_le_bytes([message[2], message[3]]) {
        1 => {
            let d = Decoder::wrap(message, 25)?;
            ends(d.session())
                .wrapping_add(d.u64(16))
                .wrapping_add(u64::from(d.u8(24)))
                .wrapping_add(d.data()?.len() as u64)
        }
        2 => {
            let d = Decoder::wrap(message, 25)?;
            ends(d.session())
                .wrapping_add(d.u64(16))
                .wrapping_add(u64::from(d.u8(24)))
                .wrapping_add(d.data()?.len() as u64)
        }
        3 => {
            let d = Decoder::wrap(message, 25)?;
            ends(d.session())
                .wrapping_add(d.u64(16))
                .wrapping_add(u64::from(d.u8(24)))
                .wrapping_add(d.data()?.len() as u64)
        }
        4 => {
            let d = Decoder::wrap(message, 36)?;
            ends(d.session())
                .wrapping_add(d.u64(16))
                .wrapping_add(u64::from(d.u32(24)))
                .wrapping_add(d.optional(28).unwrap_or(0))
                .wrapping_add(d.data()?.len() as u64)
        }
        5 => {
            let d = Decoder::wrap(message, 36)?;
            ends(d.session())
                .wrapping_add(d.u64(16))
                .wrapping_add(u64::from(d.u32(24)))
                .wrapping_add(d.optional(28).unwrap_or(0))
        }
        6 => {
            let d = Decoder::wrap(message, 25)?;
            ends(d.session())
                .wrapping_add(d.u64(16))
                .wrapping_add(u64::from(d.u8(24)))
                .wrapping_add(d.data()?.len() as u64)
        }
        7 => {
            let d = Decoder::wrap(message, 8)?;
            d.u64(0)
        }
        8 => {
            Decoder::wrap(message, 0)?;
            0
        }
        9 => {
            let d = Decoder::wrap(message, 36)?;
            ends(d.session())
                .wrapping_add(d.u64(16))
                .wrapping_add(d.u64(24))
                .wrapping_add(u64::from(d.u32(32)))
        }
        10 => {
            let d = Decoder::wrap(message, 36)?;
            ends(d.session())
                .wrapping_add(d.u64(16))
                .wrapping_add(d.u64(24))
                .wrapping_add(u64::from(d.u32(32)))
        }
        11 => {
            let d = Decoder::wrap(message, 25)?;
            ends(d.session())
                .wrapping_add(d.u64(16))
                .wrapping_add(u64::from(d.u8(24)))
                .wrapping_add(d.data()?.len() as u64)
        }
        12 => {
            let d = Decoder::wrap(message, 12)?;
            d.u64(0).wrapping_add(u64::from(d.u32(8)))
        }
        13 => {
            let d = Decoder::wrap(message, 12)?;
            d.u64(0).wrapping_add(u64::from(d.u32(8)))
        }
        14 => {
            let d = Decoder::wrap(message, 24)?;
            ends(d.session()).wrapping_add(d.optional(16).unwrap_or(0))
        }
        15 => {
            let d = Decoder::wrap(message, 16)?;
            ends(d.session())
        }
        16 => {
            let d = Decoder::wrap(message, 17)?;
            ends(d.session())
                .wrapping_add(u64::from(d.u8(16)))
                .wrapping_add(d.data()?.len() as u64)
        }
        _ => return None,
    };
    Some(sum)
}

fn write_many(template: u16, id: &[u8; 16], count: u64, buffer: &mut [u8]) -> u64 {
    let (mut at, mut sum) = (0, 0u64);
    for n in 0..count {
        if buffer.len() - at < MOST {
            at = 0;
        }
        let written = put(template, id, n, &mut buffer[at..]);
        at += written;
        sum = sum.wrapping_add(written as u64);
    }
    sum
}

fn read_many(frame: usize, count: u64, buffer: &[u8]) -> u64 {
    let (mut rest, mut sum) = (buffer, 0u64);
    for _ in 0..count {
        if rest.len() < frame {
            rest = buffer;
        }
        let (first, others) = rest.split_at(frame);
        let message = &first[6..];
        if message.len() >= 8 && u16::from_le_bytes([message[4], message[5]]) == 0xF011 {
            sum = sum.wrapping_add(sum_of(message).unwrap_or(0));
        }
        rest = others;
    }
    sum
}

fn main() {
    let words: Vec<String> = env::args().skip(1).collect();
    let template: u16 = words[1].parse().unwrap();
    let count: u64 = words[2].parse().unwrap();
    let id = [(count % 256) as u8; 16];
    let mut buffer = vec![0u8; ROOM];
    if words[0] == "write" {
        let sizes = write_many(template, &id, count, &mut buffer);
        let bytes = buffer
            .iter()
            .fold(0u64, |sum, byte| sum.wrapping_add(u64::from(*byte)));
        println!("{sizes} {bytes}");
    } else {
        let frame = put(template, &id, 0, &mut buffer);
        let held = (ROOM / frame).min(400);
        write_many(template, &id, held as u64, &mut buffer);
        println!("{}", read_many(frame, count, &buffer[..held * frame]));
    }
}
