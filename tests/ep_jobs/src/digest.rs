//! What was answered, as one number.

use ep_base::{Answer, Errno, Name, Space};

/// The word of eight bytes or fewer.
fn word_of(bytes: &[u8]) -> u64 {
    if let [a, b, c, d, e, f, g, h] = bytes {
        return u64::from_le_bytes([*a, *b, *c, *d, *e, *f, *g, *h]);
    }
    let mut word = 1u64;
    for byte in bytes {
        word = word.wrapping_mul(256).wrapping_add(u64::from(*byte));
    }
    word
}

/// What was answered, as one number: each word is mixed into what came before it.
#[derive(Clone, Copy)]
pub(crate) struct Digest {
    value: u64,
}

impl Digest {
    /// Nothing was answered yet.
    pub(crate) fn new() -> Digest {
        Digest {
            value: 0xcbf2_9ce4_8422_2325,
        }
    }

    /// The number.
    pub(crate) fn value(self) -> u64 {
        self.value
    }

    /// Notes a word.
    pub(crate) fn note(&mut self, word: u64) {
        let mixed = (self.value ^ word).wrapping_mul(0x0000_0100_0000_01b3);
        self.value = mixed ^ (mixed >> 29);
    }

    /// Notes bytes and how many there are.
    pub(crate) fn note_bytes(&mut self, bytes: &[u8]) {
        self.note(bytes.len() as u64);
        for chunk in bytes.chunks(8) {
            self.note(word_of(chunk));
        }
    }

    /// Notes an answer.
    pub(crate) fn note_answer(&mut self, answer: &Answer) {
        match answer {
            Answer::Done => self.note(1),
            Answer::Num(number) => self.note(number.wrapping_add(16)),
            Answer::Two(first, second) => {
                self.note(2);
                self.note(u64::from(first.0.unsigned_abs()));
                self.note(u64::from(second.0.unsigned_abs()));
            }
            Answer::Bytes(bytes) => {
                self.note(3);
                self.note_bytes(bytes.as_slice());
            }
            Answer::Events(reports) => {
                self.note(4);
                for report in reports.as_slice() {
                    self.note(u64::from(report.bits.0));
                    self.note(report.tag);
                }
            }
            Answer::Time { value, interval } => {
                self.note(5);
                self.note(value.0);
                self.note(interval.0);
            }
            Answer::Parked => self.note(6),
            Answer::Still => self.note(7),
            Answer::Refused(errno) => self.note_error(8, *errno),
            Answer::Connecting => self.note(9),
            Answer::Failed(errno) => self.note_error(10, *errno),
            Answer::Named(name) => self.note_name(*name),
        }
    }

    /// Notes an error, and by a word what it is an answer to.
    fn note_error(&mut self, kind: u64, errno: Errno) {
        self.note(kind);
        self.note(u64::from(errno.number()));
    }

    /// Notes the name of a socket, or that it has none.
    fn note_name(&mut self, name: Option<Name>) {
        let Some(name) = name else {
            return self.note(11);
        };
        self.note(match name.space {
            Space::V4 => 12,
            Space::V6 => 13,
            Space::Local => 14,
        });
        self.note(u64::from(name.number));
    }
}
