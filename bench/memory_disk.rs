//! A disk in memory as the hand-written programs beside this use it: what is written, and what a sync has made last.

pub struct Disk {
    content: Vec<u8>,
    synced: Vec<u8>,
    pending: std::ops::Range<usize>,
}

impl Disk {
    /// A disk with an empty journal, and room for so many bytes.
    pub fn formatted(room: usize) -> Disk {
        let mut disk = Disk {
            content: Vec::with_capacity(room),
            synced: Vec::with_capacity(room),
            pending: 0..0,
        };
        disk.write_at(0, b"FIXPJRN2\0\0\0\0\0\0\0\0\0");
        disk.sync();
        disk
    }

    fn write_at(&mut self, at: usize, bytes: &[u8]) {
        let end = at + bytes.len();
        if end > self.content.len() {
            self.content.resize(end, 0);
        }
        self.content[at..end].copy_from_slice(bytes);
        let pending = &self.pending;
        self.pending = if pending.is_empty() {
            at..end
        } else {
            pending.start.min(at)..pending.end.max(end)
        };
    }

    fn sync(&mut self) {
        if self.content.len() > self.synced.len() {
            self.synced.resize(self.content.len(), 0);
        }
        let pending = self.pending.clone();
        self.synced[pending.clone()].copy_from_slice(&self.content[pending]);
        self.pending = 0..0;
    }

    /// Appends a record and the gate behind it, and then opens the gate before it: two writes and two syncs.
    pub fn append(&mut self, record: &[u8]) {
        let end = self.content.len() - 1;
        self.write_at(end + 1, record);
        self.sync();
        self.write_at(end, &[1]);
        self.sync();
    }
}
