//! The operations on a board by code: their names, and which targets and numbers docs/ENCODING.md allows.

use original::pit::board_operation::BoardOperation;

pub const NAMES: [(u8, &str); 14] = [
    (1, "write_port"),
    (2, "read_port"),
    (3, "set_channel_gate"),
    (4, "counts"),
    (5, "load_cycle"),
    (6, "catch_up"),
    (7, "run"),
    (8, "reset"),
    (9, "work_off"),
    (17, "get_output_state"),
    (18, "get_channel_count"),
    (19, "does_channel_retrigger"),
    (20, "is_dirty"),
    (21, "get_timer_accum"),
];

/// An operation that has no event bytes.
pub const fn operation(code: u8, target: u16, number: u32) -> BoardOperation {
    BoardOperation { code, target, number, place: 0 }
}

/// The place of a code in the table.
pub fn place(code: u8) -> Option<usize> {
    NAMES.iter().position(|(known, _)| *known == code)
}

pub fn allowed(op: BoardOperation) -> bool {
    match op.code {
        1 => op.number <= 255,
        3 => op.number <= 1,
        2 | 5 | 17..=20 => op.number == 0,
        4 => true,
        6 | 7 | 9 => op.target == 0,
        8 | 21 => op.target == 0 && op.number == 0,
        _ => false,
    }
}

pub fn show(op: BoardOperation) -> String {
    let name = place(op.code).map_or("unknown", |at| NAMES[at].1);
    format!("{name} (code {}, target 0x{:02X}, number {}, event place {})", op.code, op.target, op.number, op.place)
}
