//! The venue of `desks.rs` with a session around it, by hand and with no proof: what a session asks of an end that listens, in one thread. It opens the
//! journals that `fixpgw format` made; takes frames, 256 at a time; negotiates and establishes, by version 1 and with two recoverable flows; gives
//! each message its number, holds those past a gap, and asks for what is missing; adds what it applies to the inbox and the reports to the outbox, at
//! their moments; keeps where each report stands, and sends a range again that is asked for; sends heartbeats; and tells and answers the finishes and
//! the end. It takes one connection of a new session, and stops where the peer breaks a rule.
use std::collections::BTreeMap;
use std::fs::File;
use std::io::{ErrorKind, Read, Write};
use std::net::{TcpListener, TcpStream};
use std::ops::Range;
use std::os::unix::fs::FileExt;
use std::path::Path;
use std::time::{Duration, Instant};

use crate::{FRAMES, Journal, Venue, apply, begin, first, number};

const SESSION: [u8; 16] = [0x00, 0x11, 0x22, 0x33, 0x44, 0x55, 0x66, 0x77, 0x88, 0x99, 0xaa, 0xbb, 0xcc, 0xdd, 0xee, 0xff];
const SCHEMA: u16 = 0xF011;
const RECOVERABLE: u8 = 1;
/// The own heartbeat interval, how long a read waits, and how long a handshake may take, in milliseconds.
const KEEPALIVE: u64 = 1000;
const WAIT: u64 = 10;
const HANDSHAKE: u64 = 10_000;
/// The greatest number of a message, and the most bytes of a journal.
const MOST: u64 = 1 << 26;
const BYTES: u64 = 1 << 33;
/// How far past the number that is awaited a message is held, and how many are asked for at once.
const WINDOW: u64 = 256;
/// Of each template the length of its block, and whether data stands behind it.
const FORMS: [(usize, bool); 17] = [
    (0, false),
    (25, true),
    (25, true),
    (25, true),
    (36, true),
    (36, false),
    (25, true),
    (8, false),
    (0, false),
    (36, false),
    (36, false),
    (25, true),
    (12, false),
    (12, false),
    (24, false),
    (16, false),
    (17, true),
];

/// A session message, which is whole.
struct Message<'a> {
    template: usize,
    version: u64,
    block: &'a [u8],
    data: &'a [u8],
}

fn message(payload: &[u8]) -> Message<'_> {
    let (size, template, version) = (number::<2>(payload, 2) as usize, number::<2>(payload, 4) as usize, number::<2>(payload, 8));
    assert!((1..FORMS.len()).contains(&template), "a template that no session message has");
    let (mut least, has_data) = FORMS[template];
    if version > 0 && (template == 4 || template == 5) {
        least += 8;
    }
    let behind = 10 + size;
    assert!(size >= least && payload.len() >= behind, "a block that is not whole");
    let data = if has_data {
        let end = behind + 2 + number::<2>(payload, behind) as usize;
        &payload[behind + 2..end]
    } else {
        &payload[..0]
    };
    Message { template, version, block: &payload[10..behind], data }
}

/// The payload of the entry of an outbox at a place.
fn entry(outbox: &Journal, place: u64) -> Vec<u8> {
    let mut front = [0; 13];
    outbox.file.read_exact_at(&mut front, place).expect("a record");
    let mut body = vec![0; number::<4>(&front, 9) as usize];
    outbox.file.read_exact_at(&mut body, place + 13).expect("a record");
    body.split_off(10)
}

struct Session {
    stream: TcpStream,
    began: Instant,
    /// The moment of the turn, that of the last bytes that were sent, and that of the last that came, in milliseconds.
    now: u64,
    wrote: u64,
    came: u64,
    inbox: Journal,
    outbox: Journal,
    out: File,
    venue: Venue,
    /// Where each entry of the outbox stands.
    places: Vec<u64>,
    is_negotiated: bool,
    is_established: bool,
    is_over: bool,
    /// The peer's heartbeat interval.
    interval: u64,
    /// The number that the inbox awaits, and that of the next live message.
    next: u64,
    live: u64,
    /// Whether the peer may still announce less than it did.
    is_soft: bool,
    held: BTreeMap<u64, Vec<u8>>,
    /// The numbers that were asked for, and of those that are sent again the ones that are still to come.
    asked: Option<Range<u64>>,
    coming: Option<Range<u64>>,
    /// The last number of the peer, once it has told it, and whether that is recorded.
    last: Option<u64>,
    has_peer_finished: bool,
    has_finished: bool,
    /// How many reports were sent.
    sent: u64,
    /// What the turn gathered for the inbox, for OUT and for the peer.
    records: Vec<u8>,
    lines: Vec<u8>,
    unsent: Vec<u8>,
}

impl Session {
    /// Has a session message sent: of these parts of its block, and with no bytes of data where it may have some.
    fn write(&mut self, template: u16, version: u16, block: &[&[u8]]) {
        let has_data = FORMS[usize::from(template)].1;
        let size: usize = block.iter().map(|part| part.len()).sum();
        self.unsent.extend_from_slice(&(14 + size as u32 + 2 * u32::from(has_data)).to_be_bytes());
        self.unsent.extend_from_slice(&[0xEB, 0x50]);
        for word in [size as u16, template, SCHEMA, version] {
            self.unsent.extend_from_slice(&word.to_le_bytes());
        }
        for part in block {
            self.unsent.extend_from_slice(part);
        }
        if has_data {
            self.unsent.extend_from_slice(&[0, 0]);
        }
    }

    /// Makes stable what was gathered, the messages and then the reports on them, which are sent behind that.
    fn settle(&mut self) {
        if self.records.is_empty() {
            return;
        }
        assert!(self.inbox.end + (self.records.len() as u64) < BYTES, "an inbox that is full");
        self.inbox.append(&mut self.records);
        self.records.clear();
        self.out.write_all(&self.lines).expect("lines");
        self.lines.clear();
        let mut at = 0;
        while at < self.venue.entries.len() {
            self.places.push(self.outbox.end + 1 + at as u64);
            at += 14 + number::<4>(&self.venue.entries, at + 9) as usize;
        }
        self.sent = self.places.len() as u64;
        assert!(self.sent <= MOST && self.outbox.end + (at as u64) < BYTES, "an outbox that is full");
        if at > 0 {
            self.outbox.append(&mut self.venue.entries);
            self.venue.entries.clear();
            self.unsent.append(&mut self.venue.frames);
        }
    }

    /// Makes a record stable that is no message, behind what was gathered.
    fn record(&mut self, kind: u8, body: &[u8]) {
        self.settle();
        begin(&mut self.records, kind, self.now, body.len());
        self.records.extend_from_slice(body);
        self.records.push(1);
        self.settle();
    }

    /// Applies the message under the number that is awaited.
    fn apply(&mut self, payload: &[u8]) {
        apply(&mut self.records, &mut self.lines, self.now, self.next, payload);
        self.venue.answer(payload);
        self.next += 1;
    }

    fn take_message(&mut self, payload: &[u8]) {
        assert!(self.is_established, "a message before the handshake");
        let number = match &mut self.coming {
            Some(left) => left.next().expect("a message of those that are sent again"),
            None => {
                assert!(self.last.is_none(), "a message behind the finish");
                self.live += 1;
                self.live - 1
            }
        };
        assert!(number <= MOST, "a number that is too large");
        self.is_soft = false;
        if number == self.next {
            self.apply(payload);
            while let Some(held) = self.held.remove(&self.next) {
                self.apply(&held);
            }
        } else if number > self.next && number <= self.next + WINDOW {
            self.held.entry(number).or_insert_with(|| payload.to_vec());
        }
    }

    /// Asks for what is missing, where nothing is asked for.
    fn ask(&mut self) {
        if self.next < self.live && self.asked.is_none() && !self.is_soft {
            let end = self.held.keys().next().map_or(self.live, |least| *least);
            let count = (end - self.next).min(WINDOW);
            self.asked = Some(self.next..self.next + count);
            let (moment, from) = ((self.now * 1_000_000).to_le_bytes(), self.next.to_le_bytes());
            self.write(9, 0, &[&SESSION, &moment, &from, &(count as u32).to_le_bytes()]);
        }
    }

    /// Takes the number that the peer announces of its next live message.
    fn announce(&mut self, next: u64) {
        assert!(next <= MOST + 1, "a number that is too large");
        let least = if self.is_soft { self.next } else { self.next.max(self.live) };
        assert!(next >= least, "a number that went back");
        (self.live, self.is_soft) = (next, false);
    }

    fn negotiate(&mut self, m: &Message<'_>) {
        assert!(!self.is_negotiated && m.block[24] == RECOVERABLE && m.data.is_empty(), "a Negotiate that is rejected");
        self.is_negotiated = true;
        self.record(4, &[]);
        self.write(2, 0, &[&SESSION, &m.block[16..24], &[RECOVERABLE]]);
    }

    fn establish(&mut self, m: &Message<'_>) {
        self.interval = number::<4>(m.block, 24);
        let is_fit = (100..=60_000).contains(&self.interval) && m.data.is_empty();
        assert!(self.is_negotiated && !self.is_established && is_fit, "an Establish that is rejected");
        self.announce(number::<8>(m.block, 28));
        let (keepalive, own, next) = ((KEEPALIVE as u32).to_le_bytes(), (self.sent + 1).to_le_bytes(), self.next.to_le_bytes());
        let block: [&[u8]; 5] = [&SESSION, &m.block[16..24], &keepalive, &own, &next];
        if m.version > 0 {
            self.is_soft = true;
            self.write(5, 1, &block);
        } else {
            self.write(5, 0, &block[..4]);
        }
        self.is_established = true;
    }

    /// Records the peer's finish, where it is not, and answers it; where messages are missing before it, it waits for them.
    fn take_finish(&mut self) {
        let Some(last) = self.last else { return };
        if self.next == self.live {
            if !self.has_peer_finished {
                self.has_peer_finished = true;
                self.record(5, &last.to_le_bytes());
            }
            self.write(15, 0, &[&SESSION]);
        }
    }

    fn sequence(&mut self, next: u64) {
        if let Some(left) = self.coming.take() {
            assert!(left.is_empty(), "a Sequence before all that is sent again");
            self.asked = None;
        }
        assert!(self.last.is_none_or(|last| last + 1 == next), "a number behind the finish");
        self.announce(next);
        if !self.has_peer_finished {
            self.take_finish();
        }
    }

    fn send_again(&mut self, block: &[u8]) {
        let (from, count) = (number::<8>(block, 24), number::<4>(block, 32));
        let is_fit = (1..=WINDOW).contains(&count) && (1..=self.sent).contains(&from) && from + count <= self.sent + 1;
        assert!(is_fit, "a RetransmitRequest that is rejected");
        self.write(10, 0, &[&SESSION, &block[24..32], &block[16..24], &block[32..36]]);
        for number in from..from + count {
            let payload = entry(&self.outbox, self.places[number as usize - 1]);
            self.unsent.extend_from_slice(&(payload.len() as u32 + 4).to_be_bytes());
            self.unsent.extend_from_slice(&payload);
        }
        self.write(7, 0, &[&(self.sent + 1).to_le_bytes()]);
    }

    fn take_session_message(&mut self, payload: &[u8]) {
        let m = message(payload);
        assert!(matches!(m.template, 7 | 8 | 12 | 13) || m.block[..16] == SESSION, "another session");
        assert!(self.is_established || matches!(m.template, 1 | 4 | 8 | 12 | 13 | 16), "a message that is not awaited yet");
        match m.template {
            1 => self.negotiate(&m),
            4 => self.establish(&m),
            7 => self.sequence(number::<8>(m.block, 0)),
            9 => self.send_again(m.block),
            10 => {
                let (from, count) = (number::<8>(m.block, 16), number::<4>(m.block, 32));
                let asked = self.asked.as_ref().expect("what was asked for");
                let is_fit = self.coming.is_none() && from == asked.start && count > 0 && from + count <= asked.end;
                assert!(is_fit, "a Retransmission of something else");
                self.coming = Some(from..from + count);
            }
            14 => {
                let last = number::<8>(m.block, 16);
                assert!(last == self.live - 1 && self.last.is_none_or(|known| known == last), "a finish with another number");
                self.last = Some(last);
                self.take_finish();
            }
            15 => assert!(self.has_finished, "an answer to no finish"),
            16 => {
                self.write(16, 0, &[&SESSION, &[1]]);
                self.is_over = true;
            }
            8 | 12 | 13 => {}
            _ => panic!("a message that is not awaited"),
        }
    }

    /// Ends a turn: what was gathered is stable, and then sent; behind the peer's finish so is the own one, and behind a silence a heartbeat.
    fn end_turn(&mut self) {
        self.settle();
        if self.has_peer_finished && !self.has_finished {
            self.has_finished = true;
            let mut mark = Vec::new();
            begin(&mut mark, 6, self.now, 0);
            mark.push(1);
            self.outbox.append(&mut mark);
            self.write(14, 0, &[&SESSION, &self.sent.to_le_bytes()]);
        }
        if self.is_established && self.unsent.is_empty() && self.now >= self.wrote + KEEPALIVE {
            self.write(7, 0, &[&(self.sent + 1).to_le_bytes()]);
        }
        let patience = if self.is_established { 3 * self.interval } else { HANDSHAKE };
        assert!(self.now < self.came + patience, "a silence that is too long");
        if !self.unsent.is_empty() {
            self.stream.write_all(&self.unsent).expect("what is sent");
            self.unsent.clear();
            self.wrote = self.now;
        }
    }

    fn run(&mut self) {
        let (mut held, mut piece) = (Vec::new(), vec![0; 65536]);
        while !self.is_over {
            let read = self.stream.read(&mut piece);
            self.now = self.began.elapsed().as_millis() as u64;
            self.venue.moment = self.now;
            match read {
                Ok(0) => panic!("a link that ended before the session"),
                Ok(got) => {
                    held.extend_from_slice(&piece[..got]);
                    self.came = self.now;
                }
                Err(fault) => assert!(matches!(fault.kind(), ErrorKind::WouldBlock | ErrorKind::TimedOut), "{fault}"),
            }
            let (mut taken, mut frames) = (0, FRAMES);
            while frames == FRAMES && !self.is_over {
                frames = 0;
                while frames < FRAMES {
                    let Some((payload, size)) = first(&held[taken..]) else { break };
                    if number::<2>(payload, 6) == u64::from(SCHEMA) {
                        self.take_session_message(payload);
                    } else {
                        self.take_message(payload);
                    }
                    self.ask();
                    taken += size;
                    frames += 1;
                }
                self.end_turn();
            }
            held.drain(..taken);
        }
    }
}

pub fn serve(folder: &Path, port: u16, desks: usize, reference: i64) {
    let listener = TcpListener::bind(("127.0.0.1", port)).expect("the port");
    let (stream, _) = listener.accept().expect("a connection");
    stream.set_nodelay(true).expect("no delay");
    stream.set_read_timeout(Some(Duration::from_millis(WAIT))).expect("a wait");
    let mut session = Session {
        stream,
        began: Instant::now(),
        now: 0,
        wrote: 0,
        came: 0,
        inbox: Journal::opened(folder.join("in.jrn")),
        outbox: Journal::opened(folder.join("out.jrn")),
        out: File::create(folder.join("out.txt")).expect("OUT"),
        venue: Venue::new(desks, reference),
        places: Vec::new(),
        is_negotiated: false,
        is_established: false,
        is_over: false,
        interval: 0,
        next: 1,
        live: 1,
        is_soft: false,
        held: BTreeMap::new(),
        asked: None,
        coming: None,
        last: None,
        has_peer_finished: false,
        has_finished: false,
        sent: 0,
        records: Vec::new(),
        lines: Vec::new(),
        unsent: Vec::new(),
    };
    session.run();
}
