//! A channel of the original as the 31 bytes of docs/ENCODING.md, in both directions.
//!
//! The last two, the status latch and the null-count mark, are request L5's: the original has neither. A load does not look at them, and a dump has 0 there; whoever
//! asks keeps them beside the original's record (compare/src/read_back.rs).
//!
//! The fields that document 01 leaves behind (`clocks`, `ce_undefined`, `incomplete_reload`, `defer_reload_flag`) are as in the original's default
//! after a load, and are in no dump. `c` and `ptype` are the caller's.

use super::*;

/// Bytes of a record, and where those end that the original has.
pub const RECORD_BYTES: usize = 31;
pub const OF_THE_ORIGINAL: usize = 29;

pub type Record = [u8; RECORD_BYTES];

pub fn load(record: &Record, c: usize, ptype: PitType) -> Channel {
    let flag = |place: usize| record[place] == 1;
    let number = |place: usize| u16::from_le_bytes([record[place], record[place + 1]]);
    Channel {
        c,
        ptype,
        mode: Updatable::new(value(MODES, record[0])),
        rw_mode: Updatable::new(value(ACCESSES, record[1])),
        bcd_mode: flag(2),
        output_on_reload: flag(3),
        reload_on_trigger: flag(4),
        load_mask: number(5),
        count_register: Updatable::new(number(7)),
        reload_value: Updatable::new(number(9)),
        load_state: if flag(11) { LoadState::WaitingForMsb } else { LoadState::WaitingForLsb },
        load_type: if flag(12) { LoadType::SubsequentLoad } else { LoadType::InitialLoad },
        armed: flag(13),
        channel_state: value(STATES, record[14]),
        cycles_in_state: u32::from_le_bytes([record[15], record[16], record[17], record[18]]),
        counting_element: Updatable::new(number(19)),
        ticked: flag(21),
        output_latch: Updatable::new(number(22)),
        count_is_latched: flag(24),
        read_state: if flag(25) { ReadState::ReadLsb } else { ReadState::NoRead },
        gate: Updatable::new(flag(26)),
        output: Updatable::new(flag(27)),
        dirty: flag(28),
        clocks: 0,
        ce_undefined: false,
        incomplete_reload: false,
        defer_reload_flag: false,
    }
}

pub fn dump(channel: &Channel) -> Record {
    let mut record = [0; RECORD_BYTES];
    record[0] = number_of(MODES, &channel.mode);
    record[1] = number_of(ACCESSES, &channel.rw_mode);
    record[2] = channel.bcd_mode.into();
    record[3] = channel.output_on_reload.into();
    record[4] = channel.reload_on_trigger.into();
    record[5..7].copy_from_slice(&channel.load_mask.to_le_bytes());
    record[7..9].copy_from_slice(&channel.count_register.to_le_bytes());
    record[9..11].copy_from_slice(&channel.reload_value.to_le_bytes());
    record[11] = (channel.load_state == LoadState::WaitingForMsb).into();
    record[12] = (channel.load_type == LoadType::SubsequentLoad).into();
    record[13] = channel.armed.into();
    record[14] = number_of(STATES, &channel.channel_state);
    record[15..19].copy_from_slice(&channel.cycles_in_state.to_le_bytes());
    record[19..21].copy_from_slice(&channel.counting_element.to_le_bytes());
    record[21] = channel.ticked.into();
    record[22..24].copy_from_slice(&channel.output_latch.to_le_bytes());
    record[24] = channel.count_is_latched.into();
    record[25] = (channel.read_state == ReadState::ReadLsb).into();
    record[26] = (*channel.gate).into();
    record[27] = (*channel.output).into();
    record[28] = channel.dirty.into();
    record
}

/// The values of each enum in the order of their numbers.
const MODES: [ChannelMode; 6] = [
    ChannelMode::InterruptOnTerminalCount,
    ChannelMode::HardwareRetriggerableOneShot,
    ChannelMode::RateGenerator,
    ChannelMode::SquareWaveGenerator,
    ChannelMode::SoftwareTriggeredStrobe,
    ChannelMode::HardwareTriggeredStrobe,
];
const ACCESSES: [RwMode; 3] = [RwMode::Lsb, RwMode::Msb, RwMode::LsbMsb];
const STATES: [ChannelState; 7] = [
    ChannelState::WaitingForReload,
    ChannelState::WaitingForGate,
    ChannelState::DeferLoadCycle,
    ChannelState::WaitingForLoadCycle,
    ChannelState::WaitingForLoadTrigger,
    ChannelState::Counting(ReloadFlag::Normal),
    ChannelState::Counting(ReloadFlag::ReloadNextCycle),
];

/// The value with a number. The original's enums are not `Copy`, so the table is taken apart.
fn value<T, const N: usize>(table: [T; N], number: u8) -> T {
    table.into_iter().nth(number.into()).expect("a number of the table")
}

fn number_of<T: PartialEq, const N: usize>(table: [T; N], value: &T) -> u8 {
    table.iter().position(|known| known == value).expect("every value is in the table") as u8
}
