//! A venue that answers orders by desks, by hand and with no proof: one thread takes frames of orders from a socket, 256 at a time; adds them to an
//! inbox and the reports to an outbox, each batch with two writes and two syncs, on files in the form of the journals; writes a line for each order;
//! and sends the reports. There is no session: no handshake, no heartbeat and no retransmission. `desks_session.rs` is the same with a session. What
//! `fixpgw accept` does is compared with both. They are no part of the product. Usage:
//!   desks venue FOLDER DESKS REFERENCE         prints its port, takes one connection, and then prints of each desk how many reports it sent, and a sum of them
//!   desks broker PORT PLANS                    sends the payloads of a text of plans, and takes what is answered
//!   desks session FOLDER PORT DESKS REFERENCE  takes one connection of `fixpgw connect`, on the journals that stand in the folder
//!   desks threads COUNT                        starts so many threads that do nothing, each joined before the next
mod desks_session;

use std::env;
use std::fs::{self, File};
use std::io::{Read, Write};
use std::net::{Shutdown, TcpListener, TcpStream};
use std::os::unix::fs::FileExt;
use std::path::{Path, PathBuf};
use std::thread;

/// How many frames a turn takes.
const FRAMES: usize = 256;
const ACCEPTED: u8 = 1;
const FILLED: u8 = 2;
const EXPIRED: u8 = 3;
const REJECTED: u8 = 4;
const DIGITS: &[u8; 16] = b"0123456789abcdef";

struct Journal {
    file: File,
    end: u64,
}

impl Journal {
    fn formatted(path: PathBuf) -> Journal {
        let file = File::create(path).expect("a journal");
        file.write_all_at(b"FIXPJRN2\0\0\0\0\0\0\0\0\0", 0).expect("a header");
        Journal { file, end: 16 }
    }

    /// Opens a journal that has no records yet.
    fn opened(path: PathBuf) -> Journal {
        let file = File::options().read(true).write(true).open(path).expect("a journal");
        let mut bytes = Vec::new();
        file.sync_data().expect("a sync");
        (&file).read_to_end(&mut bytes).expect("a journal");
        assert_eq!(bytes, b"FIXPJRN2\0\0\0\0\0\0\0\0\0", "a journal without records");
        Journal { file, end: 16 }
    }

    /// Appends records, each with the gate of the next behind it: closes the gate behind the last, and then opens the one before them.
    fn append(&mut self, records: &mut [u8]) {
        *records.last_mut().expect("a record") = 0;
        self.file.write_all_at(records, self.end + 1).expect("records");
        self.file.sync_data().expect("a sync");
        self.file.write_all_at(&[1], self.end).expect("a gate");
        self.file.sync_data().expect("a sync");
        self.end += records.len() as u64;
    }
}

/// Adds the front of a record: its kind, its moment and the size of its body.
fn begin(records: &mut Vec<u8>, kind: u8, moment: u64, body: usize) {
    records.push(kind);
    records.extend_from_slice(&moment.to_le_bytes());
    records.extend_from_slice(&(body as u32).to_le_bytes());
}

/// The first frame's payload and size, where a frame is whole.
fn first(bytes: &[u8]) -> Option<(&[u8], usize)> {
    let size = u32::from_be_bytes(*bytes.first_chunk::<4>()?) as usize;
    assert!((14..=16390).contains(&size), "a length that no frame has");
    let payload = &bytes.get(..size)?[4..];
    assert_eq!(payload[..2], [0xEB, 0x50], "an encoding that no frame has");
    Some((payload, size))
}

fn number<const N: usize>(bytes: &[u8], at: usize) -> u64 {
    let mut number = [0; 8];
    number[..N].copy_from_slice(&bytes[at..at + N]);
    u64::from_le_bytes(number)
}

/// Adds the record of a message that was applied, and its line.
fn apply(records: &mut Vec<u8>, lines: &mut Vec<u8>, moment: u64, number: u64, payload: &[u8]) {
    begin(records, 2, moment, 8 + payload.len());
    records.extend_from_slice(&number.to_le_bytes());
    records.extend_from_slice(payload);
    records.push(1);
    write!(lines, "deliver {number} ").expect("a line");
    lines.extend(payload.iter().flat_map(|byte| [DIGITS[usize::from(byte >> 4)], DIGITS[usize::from(byte & 15)]]));
    lines.push(b'\n');
}

/// A desk: what it sent so far, and a sum of that.
#[derive(Clone, Default)]
struct Desk {
    sent: u64,
    sum: u64,
}

struct Venue {
    desks: Vec<Desk>,
    reference: i64,
    /// That of its records, in milliseconds.
    moment: u64,
    applied: u64,
    entries: Vec<u8>,
    frames: Vec<u8>,
}

impl Venue {
    fn new(desks: usize, reference: i64) -> Venue {
        Venue { desks: vec![Desk::default(); desks], reference, moment: 0, applied: 0, entries: Vec::new(), frames: Vec::new() }
    }

    fn tell(&mut self, at: usize, cl_id: u64, kind: u8, code: u8, quantity: u32, price: i64) {
        let mut report = [0; 33];
        report[..10].copy_from_slice(&[0xEB, 0x50, 23, 0, 3, 0, 100, 0, 1, 0]);
        report[10..18].copy_from_slice(&cl_id.to_le_bytes());
        report[18..21].copy_from_slice(&[kind, code, at as u8 + 1]);
        report[21..25].copy_from_slice(&quantity.to_le_bytes());
        report[25..].copy_from_slice(&price.to_le_bytes());
        let desk = &mut self.desks[at];
        desk.sent += 1;
        desk.sum = desk.sum.wrapping_add(desk.sent.wrapping_mul(report.iter().map(|byte| u64::from(*byte)).sum()));
        begin(&mut self.entries, 1, self.moment, 10 + report.len());
        self.entries.extend_from_slice(&(at as u16 + 1).to_le_bytes());
        self.entries.extend_from_slice(&desk.sent.to_le_bytes());
        self.entries.extend_from_slice(&report);
        self.entries.push(1);
        self.frames.extend_from_slice(&(report.len() as u32 + 4).to_be_bytes());
        self.frames.extend_from_slice(&report);
    }

    fn answer(&mut self, payload: &[u8]) {
        let at = self.applied as usize % self.desks.len();
        self.applied += 1;
        let (block, template, schema) = (number::<2>(payload, 2), number::<2>(payload, 4), number::<2>(payload, 6));
        if schema != 100 || payload.len() < 10 + block as usize {
            self.tell(at, 0, REJECTED, 4, 0, 0);
        } else if template == 2 && block >= 16 {
            self.tell(at, number::<8>(payload, 10), REJECTED, 3, 0, 0);
        } else if template == 1 && block >= 29 {
            let (cl_id, side) = (number::<8>(payload, 10), payload[18]);
            let (quantity, price) = (number::<4>(payload, 27) as u32, number::<8>(payload, 31) as i64);
            let code = if !(1..=1_000_000).contains(&quantity) {
                1
            } else if price <= 0 {
                2
            } else if side != 1 && side != 2 {
                5
            } else {
                0
            };
            if code != 0 {
                return self.tell(at, cl_id, REJECTED, code, 0, 0);
            }
            let crosses = if side == 1 { price >= self.reference } else { price <= self.reference };
            self.tell(at, cl_id, ACCEPTED, 0, quantity, price);
            self.tell(at, cl_id, if crosses { FILLED } else { EXPIRED }, 0, quantity, price);
        } else {
            self.tell(at, 0, REJECTED, 4, 0, 0);
        }
    }
}

fn serve(folder: &Path, desks: usize, reference: i64) {
    let listener = TcpListener::bind("127.0.0.1:0").expect("a port");
    println!("{}", listener.local_addr().expect("its own address").port());
    let (mut stream, _) = listener.accept().expect("a connection");
    stream.set_nodelay(true).expect("no delay");
    let (mut inbox, mut outbox) = (Journal::formatted(folder.join("in.jrn")), Journal::formatted(folder.join("out.jrn")));
    let mut out = File::create(folder.join("out.txt")).expect("OUT");
    let mut venue = Venue::new(desks, reference);
    let (mut held, mut piece, mut records, mut lines) = (Vec::new(), vec![0; 65536], Vec::new(), Vec::new());
    loop {
        let got = stream.read(&mut piece).expect("bytes");
        if got == 0 {
            break;
        }
        held.extend_from_slice(&piece[..got]);
        let mut taken = 0;
        loop {
            let from = taken;
            let mut number = venue.applied;
            for _ in 0..FRAMES {
                let Some((payload, size)) = first(&held[taken..]) else { break };
                number += 1;
                apply(&mut records, &mut lines, 0, number, payload);
                taken += size;
            }
            if taken == from {
                break;
            }
            inbox.append(&mut records);
            records.clear();
            out.write_all(&lines).expect("lines");
            lines.clear();
            let mut at = from;
            while at < taken {
                let (payload, size) = first(&held[at..taken]).expect("a frame");
                venue.answer(payload);
                at += size;
            }
            outbox.append(&mut venue.entries);
            venue.entries.clear();
            stream.write_all(&venue.frames).expect("reports");
            venue.frames.clear();
        }
        held.drain(..taken);
    }
    for (at, desk) in venue.desks.iter().enumerate() {
        println!("{} {} {}", at + 1, desk.sent, desk.sum);
    }
}

fn send(port: u16, plans: &Path) {
    let text = fs::read_to_string(plans).expect("plans");
    let mut frames = Vec::new();
    for line in text.lines() {
        let digits = line.split(' ').nth(1).expect("a payload");
        frames.extend_from_slice(&(digits.len() as u32 / 2 + 4).to_be_bytes());
        frames.extend((0..digits.len()).step_by(2).map(|at| u8::from_str_radix(&digits[at..at + 2], 16).expect("digits")));
    }
    let mut stream = TcpStream::connect(("127.0.0.1", port)).expect("the venue");
    stream.set_nodelay(true).expect("no delay");
    let mut answers = stream.try_clone().expect("the stream");
    let reading = thread::spawn(move || std::io::copy(&mut answers, &mut std::io::sink()).expect("reports"));
    stream.write_all(&frames).expect("orders");
    stream.shutdown(Shutdown::Write).expect("the end");
    reading.join().expect("the reader");
}

fn main() {
    let words: Vec<String> = env::args().skip(1).collect();
    match words[0].as_str() {
        "venue" => serve(Path::new(&words[1]), words[2].parse().expect("desks"), words[3].parse().expect("a price")),
        "broker" => send(words[1].parse().expect("a port"), Path::new(&words[2])),
        "session" => desks_session::serve(
            Path::new(&words[1]),
            words[2].parse().expect("a port"),
            words[3].parse().expect("desks"),
            words[4].parse().expect("a price"),
        ),
        _ => (0..words[1].parse().expect("a count")).for_each(|_| thread::spawn(|| ()).join().expect("a thread")),
    }
}
