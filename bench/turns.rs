//! The work of two ends over their turns, by hand and with no proof: a sender's messages are appended to an outbox, framed, moved over
//! a link in memory, taken out of their frames and appended to an inbox, on disks in memory, with the journals' two writes and two syncs a
//! record of the outbox, and for all that a turn appends to the inbox. What `cases_bench bench turns` does is compared with this. It is no
//! part of the product. Usage: turns COUNT SIZE
mod memory_disk;

use memory_disk::Disk;
use std::env;

/// How many messages a turn submits, and sends.
const LIVE: usize = 16;

/// The front of a record: its kind, its moment and the size of its body.
fn record(kind: u8, body: usize) -> Vec<u8> {
    let mut record = Vec::with_capacity(14 + body);
    record.push(kind);
    record.extend_from_slice(&0u64.to_le_bytes());
    record.extend_from_slice(&(body as u32).to_le_bytes());
    record
}

struct Entry {
    #[allow(dead_code)]
    sender: u16,
    #[allow(dead_code)]
    number: u64,
    payload: Vec<u8>,
}

struct Outbox {
    disk: Disk,
    entries: Vec<Entry>,
}

impl Outbox {
    fn accept(&mut self, sender: u16, payload: &[u8]) {
        let number = self.entries.len() as u64 + 1;
        let mut record = record(1, 10 + payload.len());
        record.extend_from_slice(&sender.to_le_bytes());
        record.extend_from_slice(&number.to_le_bytes());
        record.extend_from_slice(payload);
        record.push(0);
        self.disk.append(&record);
        self.entries.push(Entry {
            sender,
            number,
            payload: payload.to_vec(),
        });
    }
}

struct Inbox {
    disk: Disk,
    applied: Vec<Vec<u8>>,
}

impl Inbox {
    /// Appends the payloads of a turn behind one another, and answers the number of the first.
    fn apply_all(&mut self, payloads: &[Vec<u8>]) -> u64 {
        let first = self.applied.len() as u64 + 1;
        if payloads.is_empty() {
            return first;
        }
        let mut batch = Vec::new();
        for (number, payload) in (first..).zip(payloads) {
            if number > first {
                batch.push(1);
            }
            batch.extend_from_slice(&record(3, 8 + payload.len()));
            batch.extend_from_slice(&number.to_le_bytes());
            batch.extend_from_slice(payload);
            self.applied.push(payload.clone());
        }
        batch.push(0);
        self.disk.append(&batch);
        first
    }
}

/// The first frame's payload and size, where a frame is whole.
fn first(bytes: &[u8]) -> Option<(&[u8], usize)> {
    let length = bytes.first_chunk::<4>()?;
    let size = u32::from_be_bytes(*length) as usize;
    assert!((14..=16390).contains(&size), "a length that no frame has");
    let frame = bytes.get(..size)?;
    let payload = &frame[4..];
    assert_eq!(payload[..2], [0xEB, 0x50], "an encoding that no frame has");
    Some((payload, size))
}

fn main() {
    let words: Vec<usize> = env::args().skip(1).map(|word| word.parse().expect("a number")).collect();
    let (count, size) = (words[0], words[1]);
    let mut payload = vec![0x2A; size];
    let header = [0xEB, 0x50, (size - 10) as u8, ((size - 10) >> 8) as u8, 7, 0, 0x64, 0, 1, 0];
    payload[..10].copy_from_slice(&header);
    let room = 64 + count * (size + 24);
    let mut outbox = Outbox { disk: Disk::formatted(room), entries: Vec::new() };
    let mut inbox = Inbox { disk: Disk::formatted(room), applied: Vec::new() };
    let (mut out, mut link, mut held) = (Vec::new(), Vec::new(), Vec::new());
    let (mut sent, mut sum) = (0, 0u64);
    while inbox.applied.len() < count {
        for _ in 0..LIVE.min(count - outbox.entries.len()) {
            outbox.accept(1, &payload);
        }
        let end = outbox.entries.len().min(sent + LIVE);
        for entry in &outbox.entries[sent..end] {
            out.extend_from_slice(&(entry.payload.len() as u32 + 4).to_be_bytes());
            out.extend_from_slice(&entry.payload);
        }
        sent = end;
        link.append(&mut out);
        held.append(&mut link);
        let mut taken = 0;
        let mut news = Vec::new();
        while let Some((payload, size)) = first(&held[taken..]) {
            news.push(payload.to_vec());
            taken += size;
        }
        held.drain(..taken);
        for (number, payload) in (inbox.apply_all(&news)..).zip(news) {
            sum += number + payload.iter().map(|byte| u64::from(*byte)).sum::<u64>();
        }
    }
    println!("{} {sum}", inbox.applied.len());
}
