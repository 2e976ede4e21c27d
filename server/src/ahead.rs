//! Answers ahead: what a client that asks for it (`SPEC`) was sent before it was decided, until it has waited for all.
use std::collections::VecDeque;

/// What goes out in the place of an answer that was undone; no command is answered so.
pub const REFUSAL: &[u8] = b"-IOERR the write did not reach the disk, nothing of it was done\r\n";

/// What a client was sent ahead, before it was decided, since it began or was last answered `WAITALL`.
#[derive(Default)]
pub struct Ahead {
    /// How many answers, and those that have not gone out yet.
    told: u64,
    pub waiting: VecDeque<Box<[u8]>>,
    /// How many bytes these have.
    pub bytes: usize,
    /// A part of the next that goes out, and the numbers of those that were undone.
    coming: Vec<u8>,
    pub undone: Vec<u64>,
}

impl Ahead {
    /// What is sent for an answer that may be undone: it, and its number.
    pub fn sent(&mut self, text: &[u8]) -> Vec<u8> {
        self.told += 1;
        self.waiting.push_back(text.into());
        self.bytes += text.len();
        [format!("*2\r\n:{}\r\n", self.told).as_bytes(), text].concat()
    }

    /// What is sent of what goes out of the channel: of what was sent ahead it is only seen whether it stands.
    pub fn put_out(&mut self, bytes: &[u8]) -> Vec<u8> {
        self.coming.extend_from_slice(bytes);
        let mut rest = self.coming.as_slice();
        while let Some(text) = self.waiting.front() {
            if let Some(behind) = rest.strip_prefix(REFUSAL) {
                self.undone.push(self.told + 1 - self.waiting.len() as u64);
                rest = behind;
            } else if let Some(behind) = rest.strip_prefix(&**text) {
                rest = behind;
            } else {
                break;
            }
            self.bytes -= text.len();
            self.waiting.pop_front();
        }
        let rest = rest.to_vec();
        let (coming, sent) = if self.waiting.is_empty() { (Vec::new(), rest) } else { (rest, Vec::new()) };
        self.coming = coming;
        sent
    }

    /// Whether what went out may still be as is promised: the next answer that was sent ahead, or that it was undone.
    pub fn is_right(&self) -> bool {
        self.waiting.front().is_none_or(|text| self.coming.len() < text.len().max(REFUSAL.len()))
    }
}
