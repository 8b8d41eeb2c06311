//! Threads that append the messages of their plans behind a Mutex, in the form of the journal and with its two writes and two
//! syncs a message, on a disk in memory, hand-written and with no proof: what `cases_bench bench senders` does is compared
//! with this. It is no part of the product.
mod memory_disk;

use memory_disk::Disk;
use std::env;
use std::sync::Mutex;
use std::thread;

const PAYLOAD: usize = 62;
const ENTRY: usize = 86;

#[allow(dead_code)]
struct Entry {
    sender: u16,
    number: u64,
    payload: Vec<u8>,
}

/// An outbox: the entries, and the journal of them.
struct Outbox {
    disk: Disk,
    entries: Vec<Entry>,
    counts: [u64; 17],
    most: usize,
}

impl Outbox {
    fn accept(&mut self, sender: u16, payload: &[u8]) -> Option<u64> {
        if self.entries.len() >= self.most {
            return None;
        }
        let number = self.counts[sender as usize] + 1;
        let mut record = Vec::with_capacity(25 + payload.len());
        record.push(1);
        record.extend_from_slice(&0u64.to_le_bytes());
        record.extend_from_slice(&(10 + payload.len() as u32).to_le_bytes());
        record.extend_from_slice(&sender.to_le_bytes());
        record.extend_from_slice(&number.to_le_bytes());
        record.extend_from_slice(payload);
        record.push(0);
        self.disk.append(&record);
        self.entries.push(Entry {
            sender,
            number,
            payload: payload.to_vec(),
        });
        self.counts[sender as usize] = number;
        Some(self.entries.len() as u64)
    }
}

fn main() {
    let words: Vec<String> = env::args().skip(1).collect();
    let threads: u16 = words[0].parse().unwrap();
    let count: usize = words[1].parse().unwrap();
    let most = threads as usize * count;
    let disk = Disk::formatted(64 + most * ENTRY);
    let outbox = Mutex::new(Outbox {
        disk,
        entries: Vec::new(),
        counts: [0; 17],
        most,
    });
    let mut payload = [0x2A; PAYLOAD];
    payload[..10].copy_from_slice(&[0xEB, 0x50, 0x34, 0, 7, 0, 0x64, 0, 1, 0]);
    let plans: Vec<Vec<Vec<u8>>> = (0..threads)
        .map(|_| (0..count).map(|_| payload.to_vec()).collect())
        .collect();
    // with a third word the plans and the outbox are made, and nothing is appended
    let run = words.len() < 3;
    thread::scope(|scope| {
        for (plan, sender) in plans.iter().zip(1..).filter(|_| run) {
            let outbox = &outbox;
            scope.spawn(move || {
                for payload in plan {
                    outbox.lock().unwrap().accept(sender, payload);
                }
            });
        }
    });
    println!("{}", outbox.lock().unwrap().entries.len());
}
