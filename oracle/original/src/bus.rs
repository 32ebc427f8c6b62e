//! Stands for MartyPC's `bus`: the devices that the original calls when an output changes, which here write down the calls, and the types of
//! its interface to devices. Left out: everything else a bus does. The three devices are always there. The PPI says that the
//! speaker is on, and that channel 2's gate is high unless it is told otherwise: the timer's tick asks for both (row A21 of docs/DIFFERENCES.md).

use crate::cpu_common::LogicAnalyzer;

/// A call that the original made.
#[derive(Clone, Copy, Debug, PartialEq)]
pub enum Call {
    InterruptRequested(u8),
    InterruptCleared(u8),
    DmaServiceRequested(usize),
    PpiOutputBit(bool),
}

/// The calls of one device: all of them, or, where only time is measured, how many and the last, which costs the same for each.
#[derive(Default)]
struct Calls {
    counted_only: bool,
    made: u64,
    last: Option<Call>,
    all: Vec<Call>,
}

impl Calls {
    fn push(&mut self, call: Call) {
        self.made += 1;
        self.last = Some(call);
        if !self.counted_only {
            self.all.push(call);
        }
    }
}

#[derive(Default)]
pub struct Pic {
    calls: Calls,
}

impl Pic {
    pub fn request_interrupt(&mut self, number: u8) {
        self.calls.push(Call::InterruptRequested(number));
    }

    pub fn clear_interrupt(&mut self, number: u8) {
        self.calls.push(Call::InterruptCleared(number));
    }
}

#[derive(Default)]
pub struct Dma {
    calls: Calls,
}

impl Dma {
    pub fn request_service(&mut self, channel: usize) {
        self.calls.push(Call::DmaServiceRequested(channel));
    }
}

pub struct Ppi {
    calls: Calls,
    channel2_gate: bool,
}

impl Default for Ppi {
    fn default() -> Self {
        Self { calls: Calls::default(), channel2_gate: true }
    }
}

impl Ppi {
    pub fn set_pit_output_bit(&mut self, level: bool) {
        self.calls.push(Call::PpiOutputBit(level));
    }

    pub fn get_pb1_state(&self) -> bool {
        true
    }

    pub fn get_pit_channel2_gate(&self) -> bool {
        self.channel2_gate
    }
}

pub struct BusInterface {
    pic: Option<Pic>,
    dma: Option<Dma>,
    ppi: Option<Ppi>,
}

impl Default for BusInterface {
    fn default() -> Self {
        Self { pic: Some(Pic::default()), dma: Some(Dma::default()), ppi: Some(Ppi::default()) }
    }
}

impl BusInterface {
    /// A bus that counts its calls and does not keep them.
    pub fn counting() -> Self {
        let calls = || Calls { counted_only: true, ..Calls::default() };
        Self {
            pic: Some(Pic { calls: calls() }),
            dma: Some(Dma { calls: calls() }),
            ppi: Some(Ppi { calls: calls(), channel2_gate: true }),
        }
    }

    /// How many calls were made, and the last of each device: asked for once a trace, so that none can be left out.
    pub fn counted(&self) -> (u64, [Option<Call>; 3]) {
        let made = [&self.pic.as_ref().map(|d| &d.calls), &self.dma.as_ref().map(|d| &d.calls), &self.ppi.as_ref().map(|d| &d.calls)];
        let of = |at: usize| made[at].map_or((0, None), |calls| (calls.made, calls.last));
        (of(0).0 + of(1).0 + of(2).0, [of(0).1, of(1).1, of(2).1])
    }

    pub fn pic_mut(&mut self) -> &mut Option<Pic> {
        &mut self.pic
    }

    pub fn dma_mut(&mut self) -> &mut Option<Dma> {
        &mut self.dma
    }

    pub fn ppi_mut(&mut self) -> &mut Option<Ppi> {
        &mut self.ppi
    }

    /// What the PPI is to say of channel 2's gate.
    pub fn set_channel2_gate(&mut self, level: bool) {
        self.ppi.iter_mut().for_each(|device| device.channel2_gate = level);
    }

    /// The calls made since they were last forgotten, device by device.
    pub fn calls(&self) -> impl Iterator<Item = Call> + '_ {
        let pic = self.pic.iter().flat_map(|device| &device.calls.all);
        let dma = self.dma.iter().flat_map(|device| &device.calls.all);
        let ppi = self.ppi.iter().flat_map(|device| &device.calls.all);
        pic.chain(dma).chain(ppi).copied()
    }

    pub fn forget_calls(&mut self) {
        self.pic.iter_mut().for_each(|device| device.calls.all.clear());
        self.dma.iter_mut().for_each(|device| device.calls.all.clear());
        self.ppi.iter_mut().for_each(|device| device.calls.all.clear());
    }
}

#[derive(Clone, Copy, Debug)]
pub enum DeviceRunTimeUnit {
    SystemTicks(u32),
    Microseconds(f64),
}

pub trait IoDevice {
    fn read_u8(&mut self, port: u16, delta: DeviceRunTimeUnit) -> u8;
    fn write_u8(
        &mut self,
        port: u16,
        data: u8,
        bus: Option<&mut BusInterface>,
        delta: DeviceRunTimeUnit,
        analyzer: Option<&mut LogicAnalyzer>,
    );
    fn port_list(&self) -> Vec<(String, u16)>;
}
