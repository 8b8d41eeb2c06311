//! Datagrams by hand and with no proof: ten messages of 62 bytes are packed behind a Sequence, the datagram is opened, which looks at each
//! of its frames, and a receiver takes its messages by their numbers. What the section `datagrams_speed` of `cases_bench` does is compared
//! with this; it is no part of the product. Usage: datagrams COUNT
use std::env;

const MOST_BYTES: usize = 65_000;
const MOST_ASKED: u64 = 256;
const SESSION_SCHEMA: u16 = 0xF011;
const SEQUENCE: u16 = 7;
const PER: u8 = 10;
const PAYLOAD: usize = 62;
const ROOM: usize = 2048;

#[derive(Clone, Copy, PartialEq)]
enum Order {
    Little,
    Big,
}

impl Order {
    fn u16(self, bytes: [u8; 2]) -> u16 {
        match self {
            Order::Little => u16::from_le_bytes(bytes),
            Order::Big => u16::from_be_bytes(bytes),
        }
    }
}

struct Frame<'a> {
    order: Order,
    message: &'a [u8],
    size: usize,
}

/// The whole frame at the front, if one stands there.
fn first_frame(bytes: &[u8]) -> Option<Frame<'_>> {
    let (head, _) = bytes.split_first_chunk::<6>()?;
    let size = u32::from_be_bytes([head[0], head[1], head[2], head[3]]) as usize;
    if !(14..=16_390).contains(&size) {
        return None;
    }
    let order = match u16::from_be_bytes([head[4], head[5]]) {
        0xEB50 => Order::Little,
        0x5BE0 => Order::Big,
        _ => return None,
    };
    let message = bytes.get(6..size)?;
    Some(Frame {
        order,
        message,
        size,
    })
}

impl Frame<'_> {
    fn is_session(&self) -> bool {
        self.order.u16([self.message[4], self.message[5]]) == SESSION_SCHEMA
    }

    /// The number of a Sequence.
    fn sequence(&self) -> Option<u64> {
        let field = |at: usize| u16::from_le_bytes([self.message[at], self.message[at + 1]]);
        if self.order == Order::Big || !self.is_session() || field(2) != SEQUENCE {
            return None;
        }
        let length = usize::from(field(0));
        let block = self.message[8..].get(..length)?;
        Some(u64::from_le_bytes(block.get(..8)?.try_into().ok()?))
    }
}

#[derive(Debug)]
enum DgFault {
    NoSequence,
    BadFrame {
        #[allow(dead_code)]
        at: u64,
    },
    TooLong,
}

struct Datagram<'a> {
    first: u64,
    rest: &'a [u8],
}

/// Looks at each frame, so that nothing of a datagram is taken of which a part is wrong.
fn open_datagram(bytes: &[u8]) -> Result<Datagram<'_>, DgFault> {
    if bytes.len() > MOST_BYTES {
        return Err(DgFault::TooLong);
    }
    let head = first_frame(bytes).ok_or(DgFault::NoSequence)?;
    let first = head.sequence().ok_or(DgFault::NoSequence)?;
    let rest = &bytes[head.size..];
    let mut at = head.size;
    while at < bytes.len() {
        match first_frame(&bytes[at..]) {
            Some(frame) if !frame.is_session() => at += frame.size,
            _ => return Err(DgFault::BadFrame { at: at as u64 }),
        }
    }
    Ok(Datagram { first, rest })
}

impl<'a> Iterator for Datagram<'a> {
    type Item = &'a [u8];

    /// The next payload. Its frame was looked at when the datagram was opened.
    fn next(&mut self) -> Option<&'a [u8]> {
        let (head, _) = self.rest.split_first_chunk::<4>()?;
        let (frame, rest) = self.rest.split_at(u32::from_be_bytes(*head) as usize);
        self.rest = rest;
        Some(&frame[4..])
    }
}

/// Writes a Sequence and as many payloads as fit, and gives the bytes written and the payloads taken.
fn pack(first: u64, payloads: &[Vec<u8>], from: usize, out: &mut [u8]) -> (usize, usize) {
    let room = out.len().min(MOST_BYTES);
    out[..4].copy_from_slice(&22u32.to_be_bytes());
    out[4..6].copy_from_slice(&0xEB50u16.to_be_bytes());
    out[6..8].copy_from_slice(&8u16.to_le_bytes());
    out[8..10].copy_from_slice(&SEQUENCE.to_le_bytes());
    out[10..12].copy_from_slice(&SESSION_SCHEMA.to_le_bytes());
    out[12..14].copy_from_slice(&0u16.to_le_bytes());
    out[14..22].copy_from_slice(&first.to_le_bytes());
    let (mut at, mut taken) = (22, 0);
    for payload in &payloads[from..] {
        let size = payload.len() + 4;
        if size > room - at {
            break;
        }
        out[at..at + 4].copy_from_slice(&(size as u32).to_be_bytes());
        out[at + 4..at + size].copy_from_slice(payload);
        at += size;
        taken += 1;
    }
    (at, taken)
}

#[derive(Clone, Copy, PartialEq)]
enum Flow {
    Recoverable,
    Idempotent,
}

struct Range {
    #[allow(dead_code)]
    from: u64,
    count: u64,
}

enum Start {
    Plain,
    Missing(Range),
    TooLarge,
}

enum DgSeen {
    Deliver(u64),
    Late(u64),
    Gap(u64),
    TooLarge(u64),
}

struct DgReceiver {
    flow: Flow,
    next: u64,
    most: u64,
    known: u64,
    counting: u64,
}

impl DgReceiver {
    fn new(flow: Flow, next: u64, most: u64) -> DgReceiver {
        DgReceiver {
            flow,
            next,
            most,
            known: 0,
            counting: 0,
        }
    }

    fn on_start(&mut self, n: u64) -> Start {
        if n == 0 || n > self.most + 1 {
            return Start::TooLarge;
        }
        self.known = self.known.max(n);
        self.counting = n;
        if self.flow == Flow::Idempotent && n > self.next {
            let from = self.next;
            self.next = n;
            return Start::Missing(Range {
                from,
                count: n - from,
            });
        }
        Start::Plain
    }

    fn on_app(&mut self) -> DgSeen {
        let number = self.counting;
        if number > self.most {
            return DgSeen::TooLarge(number);
        }
        self.counting = number + 1;
        self.known = self.known.max(number + 1);
        if number == self.next {
            self.next = number + 1;
            DgSeen::Deliver(number)
        } else if number < self.next {
            DgSeen::Late(number)
        } else {
            DgSeen::Gap(number)
        }
    }

    fn ask(&self) -> Option<Range> {
        (self.flow == Flow::Recoverable && self.next < self.known).then(|| Range {
            from: self.next,
            count: (self.known - self.next).min(MOST_ASKED),
        })
    }
}

/// The payload of the k-th message of each datagram: an application message of schema 100, template 7.
fn payload(k: u8) -> Vec<u8> {
    let mut bytes = vec![0x2A + k; PAYLOAD];
    bytes[..10].copy_from_slice(&[0xEB, 0x50, 0x34, 0, 7, 0, 0x64, 0, 1, 0]);
    bytes
}

/// What a message adds to the sum: its number and its last byte where it is delivered.
fn sum_of(seen: DgSeen, payload: &[u8]) -> u64 {
    match seen {
        DgSeen::Deliver(n) => n.wrapping_add(payload.last().map_or(0, |byte| u64::from(*byte))),
        DgSeen::Late(n) | DgSeen::Gap(n) | DgSeen::TooLarge(n) => n.wrapping_mul(1000),
    }
}

/// What a datagram adds to the sum: its length, what its messages add, and how many are asked for behind it.
fn received(receiver: &mut DgReceiver, bytes: &[u8]) -> u64 {
    let mut sum = bytes.len() as u64;
    let Ok(datagram) = open_datagram(bytes) else {
        return 0;
    };
    match receiver.on_start(datagram.first) {
        Start::TooLarge => return 0,
        Start::Missing(range) => sum = sum.wrapping_add(range.count),
        Start::Plain => {}
    }
    for payload in datagram {
        sum = sum.wrapping_add(sum_of(receiver.on_app(), payload));
    }
    sum.wrapping_add(receiver.ask().map_or(0, |range| range.count))
}

fn main() {
    let words: Vec<String> = env::args().collect();
    let count: u64 = words[1].parse().unwrap();
    // the flow is not known when this is compiled
    let flow = if words.len() > 2 {
        Flow::Idempotent
    } else {
        Flow::Recoverable
    };
    let payloads: Vec<Vec<u8>> = (0..PER).map(payload).collect();
    let mut out = [0u8; ROOM];
    let mut receiver = DgReceiver::new(flow, 1, u64::MAX - 1);
    let (mut first, mut sum) = (1u64, 0u64);
    for _ in 0..count {
        let (size, taken) = pack(first, &payloads, 0, &mut out);
        sum = sum.wrapping_add(received(&mut receiver, &out[..size]));
        first += taken as u64;
    }
    println!("{sum} {}", receiver.next);
}
