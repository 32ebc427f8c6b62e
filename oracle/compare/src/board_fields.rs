//! The fields of a board by name: those of its three records, and its own.

use crate::fields::{field, Field, FIELDS};
use original::pit::board::{record_at, Board, DEFER, DIVISOR, MODEL, OWED, REMAINDER, WARP};

/// What a board holds beside its records.
pub const OWN: [Field; 6] = [
    field("model", MODEL, 1, 1),
    field("divisor", DIVISOR, 4, 0xFFFF_FFFF),
    field("remainder", REMAINDER, 4, 0xFFFF_FFFF),
    field("warp", WARP, 4, 0xFFFF_FFFF),
    field("defer", DEFER, 1, 1),
    field("owed", OWED, 4, 0xFFFF_FFFF),
];

/// A field of a channel's record, or of the board itself.
#[derive(Clone, Copy)]
pub struct BoardField {
    channel: Option<usize>,
    pub field: &'static Field,
}

/// All fields of a board, in the order of their places.
pub fn all() -> impl Iterator<Item = BoardField> {
    let of_channels = (0..3).flat_map(|c| FIELDS.iter().map(move |field| BoardField { channel: Some(c), field }));
    of_channels.chain(OWN.iter().map(|field| BoardField { channel: None, field }))
}

impl BoardField {
    /// A field by its name; that of a channel has the channel's number behind a colon.
    pub fn named(name: &str) -> Option<BoardField> {
        all().find(|field| field.name() == name)
    }

    pub fn name(&self) -> String {
        match self.channel {
            Some(c) => format!("{}:{c}", self.field.name),
            None => self.field.name.to_string(),
        }
    }

    /// Where the record of the field's channel begins; the board's own fields count from its front.
    fn from(&self) -> usize {
        record_at(self.channel.unwrap_or(0))
    }

    pub fn get(&self, board: &Board) -> u32 {
        self.field.get(&board[self.from()..])
    }

    pub fn put(&self, board: &mut Board, value: u32) {
        self.field.put(&mut board[self.from()..], value);
    }
}

/// The fields in which two boards differ, each with what it is in the first.
pub fn differing(shown: &Board, other: &Board) -> String {
    let words: Vec<String> = all()
        .filter(|field| field.get(shown) != field.get(other))
        .map(|field| format!("{}={}", field.name(), field.field.show(field.get(shown))))
        .collect();
    if words.is_empty() {
        "no field".to_string()
    } else {
        words.join(" ")
    }
}
