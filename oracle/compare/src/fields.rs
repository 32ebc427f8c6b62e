//! The fields of a record by name, place, width and limit: the table of docs/ENCODING.md.

use original::pit::record::Record;

pub struct Field {
    pub name: &'static str,
    pub place: usize,
    pub width: usize,
    /// The highest value; of a number every value is allowed.
    pub limit: u32,
}

pub const fn field(name: &'static str, place: usize, width: usize, limit: u32) -> Field {
    Field { name, place, width, limit }
}

pub const MODE: &Field = &FIELDS[0];
pub const ACCESS: &Field = &FIELDS[1];
pub const BCD: &Field = &FIELDS[2];
pub const OUTPUT_ON_RELOAD: &Field = &FIELDS[3];
pub const RELOAD_ON_TRIGGER: &Field = &FIELDS[4];
pub const MASK: &Field = &FIELDS[5];
pub const REGISTER: &Field = &FIELDS[6];
pub const RELOAD: &Field = &FIELDS[7];
pub const LOAD_STATE: &Field = &FIELDS[8];
pub const LOAD_TYPE: &Field = &FIELDS[9];
pub const ARMED: &Field = &FIELDS[10];
pub const STATE: &Field = &FIELDS[11];
pub const CYCLES: &Field = &FIELDS[12];
pub const ELEMENT: &Field = &FIELDS[13];
pub const TICKED: &Field = &FIELDS[14];
pub const LATCH: &Field = &FIELDS[15];
pub const LATCHED: &Field = &FIELDS[16];
pub const READ_STATE: &Field = &FIELDS[17];
pub const GATE: &Field = &FIELDS[18];
pub const OUTPUT: &Field = &FIELDS[19];
pub const DIRTY: &Field = &FIELDS[20];
pub const STATUS_LATCH: &Field = &FIELDS[21];
pub const NULL_COUNT: &Field = &FIELDS[22];

pub const FIELDS: [Field; 23] = [
    field("mode", 0, 1, 5),
    field("rw_mode", 1, 1, 2),
    field("bcd_mode", 2, 1, 1),
    field("output_on_reload", 3, 1, 1),
    field("reload_on_trigger", 4, 1, 1),
    field("load_mask", 5, 2, 0xFFFF),
    field("count_register", 7, 2, 0xFFFF),
    field("reload_value", 9, 2, 0xFFFF),
    field("load_state", 11, 1, 1),
    field("load_type", 12, 1, 1),
    field("armed", 13, 1, 1),
    field("channel_state", 14, 1, 6),
    field("cycles_in_state", 15, 4, 0xFFFF_FFFF),
    field("counting_element", 19, 2, 0xFFFF),
    field("ticked", 21, 1, 1),
    field("output_latch", 22, 2, 0xFFFF),
    field("count_is_latched", 24, 1, 1),
    field("read_state", 25, 1, 1),
    field("gate", 26, 1, 1),
    field("output", 27, 1, 1),
    field("dirty", 28, 1, 1),
    field("status_latch", 29, 1, 255),
    field("null_count", 30, 1, 1),
];

const STATES: [&str; 7] = [
    "WaitingForReload",
    "WaitingForGate",
    "DeferLoadCycle",
    "WaitingForLoadCycle",
    "WaitingForLoadTrigger",
    "Counting(Normal)",
    "Counting(ReloadNextCycle)",
];

impl Field {
    /// Whether some byte is above the limit.
    pub fn limited(&self) -> bool {
        self.width == 1 && self.limit < 255
    }

    pub fn named(name: &str) -> Option<&'static Field> {
        FIELDS.iter().find(|field| field.name == name)
    }

    /// The field of a record, or of whatever has a record at its front.
    pub fn get(&self, record: &[u8]) -> u32 {
        let mut bytes = [0; 4];
        bytes[..self.width].copy_from_slice(&record[self.place..self.place + self.width]);
        u32::from_le_bytes(bytes)
    }

    pub fn put(&self, record: &mut [u8], value: u32) {
        record[self.place..self.place + self.width].copy_from_slice(&value.to_le_bytes()[..self.width]);
    }

    /// A value as it is written: a state by its name, a 16-bit number and a status in hex, all others in decimal.
    pub fn show(&self, value: u32) -> String {
        match (self.name, self.width) {
            ("channel_state", _) => STATES.get(value as usize).map_or(value.to_string(), |name| name.to_string()),
            (_, 2) => format!("0x{value:04X}"),
            ("status_latch", _) => format!("0x{value:02X}"),
            _ => value.to_string(),
        }
    }

    /// The value that a word stands for: a state's name, a hex number after 0x, or a decimal one.
    pub fn parse(&self, word: &str) -> Option<u32> {
        let value = match (STATES.iter().position(|state| *state == word), word.strip_prefix("0x")) {
            (Some(state), _) if self.name == "channel_state" => state as u32,
            (_, Some(hex)) => u32::from_str_radix(hex, 16).ok()?,
            (_, None) => word.parse().ok()?,
        };
        (value <= self.limit).then_some(value)
    }
}

/// The fields in which two records differ, each with what it is in the first.
pub fn differing(shown: &Record, other: &Record) -> String {
    let words: Vec<String> = FIELDS
        .iter()
        .filter(|field| field.get(shown) != field.get(other))
        .map(|field| format!("{}={}", field.name, field.show(field.get(shown))))
        .collect();
    if words.is_empty() {
        "no field".to_string()
    } else {
        words.join(" ")
    }
}

/// Calls `with` on the base record with each combination of the values chosen for some fields.
pub fn each_combination(base: &Record, chosen: &[(&Field, &[u32])], with: &mut dyn FnMut(&Record)) {
    let Some(((field, values), rest)) = chosen.split_first() else { return with(base) };
    let mut record = *base;
    for value in values.iter() {
        field.put(&mut record, *value);
        each_combination(&record, rest, with);
    }
}
