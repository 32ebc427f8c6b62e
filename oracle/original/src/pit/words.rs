//! What a read says beside its byte: request L3 of document 02, each rule under its sentence, from the original's own channel as it is before the read. The original itself says
//! no such thing. What is compared with this rests on the document and on the fields that the original's `read_byte` goes by.

use super::*;

/// The half of a count that a byte is, with its number in docs/ENCODING.md.
#[derive(Clone, Copy, Debug, PartialEq)]
pub enum Half {
    Neither = 0,
    Low = 1,
    High = 2,
}

#[derive(Clone, Copy, Debug, PartialEq)]
pub struct Words {
    pub half: Half,
    pub held: bool,
}

/// "the command port: neither", and "the command port prints `read 00 none live`", whatever is latched.
pub const COMMAND_PORT: Words = Words { half: Half::Neither, held: false };

/// The words of the byte that the channel's next read gives.
pub fn words(channel: &Channel) -> Words {
    let half = match (&channel.read_state, &*channel.rw_mode) {
        // 01: "in any access a half-read word gives its high byte next"
        (ReadState::ReadLsb, _) => Half::High,
        // 01: "Reads come from the output latch: low, high, or low then high"
        (ReadState::NoRead, RwMode::Lsb) => Half::Low,
        (ReadState::NoRead, RwMode::Msb) => Half::High,
        (ReadState::NoRead, RwMode::LsbMsb) => Half::Low,
    };
    // "whether the channel was latched just before"
    Words { half, held: channel.count_is_latched }
}

impl Words {
    /// As they are printed, by their numbers: the half, and "not latched is `live`".
    pub const HALVES: [&'static str; 3] = ["none", "low", "high"];
    pub const MARKS: [&'static str; 2] = ["live", "held"];

    /// The numbers of docs/ENCODING.md.
    pub fn numbers(self) -> [u8; 2] {
        [self.half as u8, self.held.into()]
    }

    /// Whether a byte is that half of what stood in the output latch before the read; the command port's is 0.
    pub fn fit(self, byte: u8, latch: u16) -> bool {
        let [low, high] = latch.to_le_bytes();
        byte == [0, low, high][self.half as usize]
    }
}

/// A fault where the original's byte is not the half that the words say.
pub(super) const OTHER_HALF: &str = "the byte that the original reads is not the half that the words say";
