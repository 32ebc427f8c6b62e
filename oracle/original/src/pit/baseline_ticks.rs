//! Ticks in the baseline of ./bench. Those that a trace works off are the added tick (added_tick.rs), so that the bytes of both sides are the same; `run_with_ticks` is the
//! original's own `run`, which makes its own.

use super::baseline::{Baseline, Reply, Worked};
use super::*;

/// "15 for a stated number above 65,536"
const MOST_TICKS: u32 = 65_536;
/// Bytes that the events of one tick can take.
const ONE_TICK: usize = 6;

/// What a tick can change of a channel, kept to be put back.
struct Kept {
    state: ChannelState,
    cycles: u32,
    element: u16,
    latch: u16,
    output: bool,
    flags: [bool; 3],
}

fn kept(channel: &Channel) -> Kept {
    let state = match channel.channel_state {
        ChannelState::WaitingForReload => ChannelState::WaitingForReload,
        ChannelState::WaitingForGate => ChannelState::WaitingForGate,
        ChannelState::DeferLoadCycle => ChannelState::DeferLoadCycle,
        ChannelState::WaitingForLoadCycle => ChannelState::WaitingForLoadCycle,
        ChannelState::WaitingForLoadTrigger => ChannelState::WaitingForLoadTrigger,
        ChannelState::Counting(flag) => ChannelState::Counting(flag),
    };
    Kept {
        state,
        cycles: channel.cycles_in_state,
        element: *channel.counting_element,
        latch: *channel.output_latch,
        output: *channel.output,
        flags: [channel.armed, channel.dirty, channel.ticked],
    }
}

fn put_back(channel: &mut Channel, kept: Kept) {
    channel.channel_state = kept.state;
    channel.cycles_in_state = kept.cycles;
    channel.counting_element.update(kept.element);
    channel.output_latch.update(kept.latch);
    channel.output.update(kept.output);
    [channel.armed, channel.dirty, channel.ticked] = kept.flags;
}

impl Baseline {
    /// At most so many of the owed ticks, each with all of its events or not at all.
    pub(super) fn work_off(&mut self, stated: u32) -> Reply {
        if stated > MOST_TICKS {
            return Reply::Refused(15);
        }
        let mut worked = Worked { made: 0, events: [0; ONE_TICK], written: 0 };
        while worked.made < stated && self.owed > 0 {
            // All of a tick's events fit where none is written yet.
            let before = (worked.written > 0).then(|| [0, 1, 2].map(|c| kept(&self.timer.channels[c])));
            if !self.one_tick(&mut worked) {
                for (channel, kept) in self.timer.channels.iter_mut().zip(before.into_iter().flatten()) {
                    put_back(channel, kept);
                }
                break;
            }
            worked.made += 1;
            self.owed -= 1;
        }
        Reply::Worked(worked)
    }

    /// One tick of each channel, with its events; whether they fit. Where they do not no byte is written.
    fn one_tick(&mut self, worked: &mut Worked) -> bool {
        let (mut events, mut written) = (worked.events, worked.written);
        for c in 0..3 {
            let channel = &mut self.timer.channels[c];
            let level = *channel.output;
            channel.added_tick(&mut self.bus);
            if *channel.output != level {
                if written == ONE_TICK {
                    return false;
                }
                (events[written], events[written + 1]) = (c as u8, (!level).into());
                written += 2;
            }
        }
        (worked.events, worked.written) = (events, written);
        true
    }

    /// The original's own `run` with its ticks; how many bus calls there were in all.
    pub fn run_with_ticks(&mut self, system_ticks: u32) -> u64 {
        self.timer.run(&mut self.bus, DeviceRunTimeUnit::SystemTicks(system_ticks), None);
        self.bus.counted().0
    }

    /// Begins to count bus calls anew.
    pub fn forget_calls(&mut self) {
        self.bus = BusInterface::counting();
    }

    /// A channel's counting element and output.
    pub fn shown(&self, c: usize) -> (u16, bool) {
        (self.timer.get_channel_count(c).1, self.timer.get_output_state(c))
    }
}
