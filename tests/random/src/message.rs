//! The messages between end-points, in bytes.

use crate::record::{Record, WORDS};
use crate::view::{Set, View, MEMBERS};

#[derive(Clone)]
pub enum Message {
    View(View),
    Word(u64),
    Sync(Record),
    Forward { sender: usize, index: usize, view: View, word: u64 },
}

impl Message {
    pub fn write(&self) -> Vec<u8> {
        let mut bytes = Vec::new();
        match self {
            Message::View(view) => {
                bytes.push(1);
                write_view(&mut bytes, view);
            }
            Message::Word(word) => {
                bytes.push(2);
                bytes.extend(word.to_le_bytes());
            }
            Message::Sync(record) => {
                bytes.push(3);
                bytes.extend(record.number.to_le_bytes());
                write_view(&mut bytes, &record.view);
                bytes.extend(record.cut);
            }
            Message::Forward { sender, index, view, word } => {
                bytes.extend([4, *sender as u8, *index as u8]);
                write_view(&mut bytes, view);
                bytes.extend(word.to_le_bytes());
            }
        }
        bytes
    }

    /// Kinds 5 and 6 never travel between end-points, so they are malformed here.
    pub fn read(bytes: &[u8]) -> Option<Message> {
        let message = match (bytes.first()?, bytes.len()) {
            (1, 38) => Message::View(read_view(&bytes[1..])),
            (2, 9) => Message::Word(read_long(&bytes[1..])),
            (3, 50) => Message::Sync(Record {
                number: read_number(&bytes[1..]),
                view: read_view(&bytes[5..]),
                cut: bytes[42..].try_into().unwrap(),
            }),
            (4, 48) => Message::Forward {
                sender: bytes[1] as usize,
                index: bytes[2] as usize,
                view: read_view(&bytes[3..]),
                word: read_long(&bytes[40..]),
            },
            _ => return None,
        };
        message.well_formed().then_some(message)
    }

    fn well_formed(&self) -> bool {
        match self {
            Message::View(view) => view.well_formed(),
            Message::Word(_) => true,
            Message::Sync(record) => record.well_formed(),
            Message::Forward { sender, index, view, .. } => {
                *sender < MEMBERS && (1..=WORDS).contains(index) && view.well_formed()
            }
        }
    }
}

pub fn write_view(bytes: &mut Vec<u8>, view: &View) {
    bytes.extend(view.id.to_le_bytes());
    bytes.push(view.set.0);
    for start in view.starts {
        bytes.extend(start.to_le_bytes());
    }
}

fn read_view(bytes: &[u8]) -> View {
    let starts = std::array::from_fn(|m| read_number(&bytes[5 + 4 * m..]));
    View { id: read_number(bytes), set: Set(bytes[4]), starts }
}

fn read_number(bytes: &[u8]) -> u32 {
    u32::from_le_bytes(bytes[..4].try_into().unwrap())
}

fn read_long(bytes: &[u8]) -> u64 {
    u64::from_le_bytes(bytes[..8].try_into().unwrap())
}
