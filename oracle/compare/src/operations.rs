//! The operations by code: their names, and which numbers and settings docs/ENCODING.md allows.

use original::pit::operation::Operation;

pub const NAMES: [(u8, &str); 11] = [
    (1, "write_byte"),
    (2, "read_byte"),
    (3, "set_gate"),
    (4, "count"),
    (5, "load_cycle"),
    (8, "reset"),
    (16, "control byte"),
    (17, "get_output_state"),
    (18, "get_channel_count"),
    (19, "does_channel_retrigger"),
    (20, "is_dirty"),
];

pub const QUERIES: [u8; 4] = [17, 18, 19, 20];

pub const fn operation(code: u8, number: u8, setting: u8) -> Operation {
    Operation { code, number, setting }
}

/// The place of a code in the table.
pub fn place(code: u8) -> Option<usize> {
    NAMES.iter().position(|(known, _)| *known == code)
}

pub fn allowed(op: Operation) -> bool {
    match op.code {
        1 | 16 => op.setting <= 1,
        3 => op.number <= 1 && op.setting == 0,
        code => place(code).is_some() && op.number == 0 && op.setting == 0,
    }
}

pub fn show(op: Operation) -> String {
    let name = place(op.code).map_or("unknown", |at| NAMES[at].1);
    format!("{name} (code {}, number 0x{:02X}, setting {})", op.code, op.number, op.setting)
}
