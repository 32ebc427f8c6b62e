//! What document 01 adds and the original's text does not have, or has otherwise. Each line stands under the sentence of document 01 that
//! it comes from; what a load moves is document 02's (L2). What is compared with these functions rests on the documents and not on the original.

use super::*;

/// "*Added* fresh channel". Its number and its model are the caller's.
pub fn fresh(c: usize, ptype: PitType) -> Channel {
    Channel {
        c,
        ptype,
        // "mode 0"
        mode: Updatable::new(ChannelMode::InterruptOnTerminalCount),
        // "low-then-high access"
        rw_mode: Updatable::new(RwMode::LsbMsb),
        // "`WaitingForReload`"
        channel_state: ChannelState::WaitingForReload,
        // "gate high"
        gate: Updatable::new(true),
        // "output low"
        output: Updatable::new(false),
        // "load mask 0xFFFF"
        load_mask: 0xFFFF,
        // "numbers 0"
        cycles_in_state: 0,
        count_register: Updatable::new(0),
        reload_value: Updatable::new(0),
        counting_element: Updatable::new(0),
        output_latch: Updatable::new(0),
        // "flags false"
        armed: false,
        count_is_latched: false,
        output_on_reload: false,
        reload_on_trigger: false,
        bcd_mode: false,
        dirty: false,
        ticked: false,
        // "first load, waiting for the low byte, no read"
        load_type: LoadType::InitialLoad,
        load_state: LoadState::WaitingForLsb,
        read_state: ReadState::NoRead,
        // `clocks`, `ce_undefined`, `incomplete_reload`, `defer_reload_flag`: "Left behind", and in no record.
        ..Channel::default()
    }
}

/// What a load moves. L2: "Document 01's load cycle applies a mask that an earlier mode left behind. From now on it masks only in mode 3."
pub fn load_value(channel: &Channel) -> u16 {
    match *channel.mode {
        ChannelMode::SquareWaveGenerator => *channel.reload_value & channel.load_mask,
        _ => *channel.reload_value,
    }
}

/// "*Added* load cycle, until the whole tick exists".
pub fn load_cycle(channel: &mut Channel) {
    match channel.channel_state {
        // "`DeferLoadCycle` becomes `WaitingForLoadCycle`"; the original's own function enters the state, and so sets cycles in state to 0.
        ChannelState::DeferLoadCycle => channel.change_channel_state(ChannelState::WaitingForLoadCycle),
        ChannelState::WaitingForLoadCycle => {
            // "`WaitingForLoadCycle` moves the reload value .. to the counting element"
            let value = load_value(channel);
            channel.counting_element.update(value);
            // "copies it to the output latch unless latched"
            if !channel.count_is_latched {
                channel.output_latch.update(value);
            }
            // "and becomes `Counting(Normal)`, which sets dirty": the original's own function does both.
            channel.change_channel_state(ChannelState::Counting(ReloadFlag::Normal));
        }
        // "Other states: no change."
        _ => {}
    }
    // "Output never moves."
}

/// What a reset leaves to do after the original's own `reset`, which keeps model and gate.
pub fn after_reset(channel: &mut Channel) {
    // "`reset` restores three fresh channels": the original's default has access low byte, 01's fresh channel has "low-then-high access".
    channel.rw_mode.update(RwMode::LsbMsb);
}
