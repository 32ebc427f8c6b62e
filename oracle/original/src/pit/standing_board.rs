//! The original's timer as it stands: its own new timer, `write_u8`, `run` with its ticks, and what document 01 leaves behind. Only the rows A of
//! docs/DIFFERENCES.md that are about the board are run on this. A call answers a text, or the message of its panic.

use super::board::{self, Board};
use super::operation::model;
use super::*;
use crate::cpu_common::AnalyzerEntry;
use crate::panics::caught;
use crossbeam_channel::Receiver;

pub struct StandingBoard {
    timer: ProgrammableIntervalTimer,
    bus: BusInterface,
    /// The samples that the speaker was sent.
    samples: Receiver<f32>,
}

impl StandingBoard {
    pub fn new(model_number: u8, divisor: u32) -> Self {
        let (sender, samples) = crossbeam_channel::unbounded();
        let timer = Pit::new(model(model_number), 0.0, divisor, Some(sender));
        Self { timer, bus: BusInterface::default(), samples }
    }

    /// The board's bytes; nothing where the warp is in microseconds, for which there are none.
    pub fn bytes(&self) -> Option<Board> {
        match self.timer.timewarp {
            DeviceRunTimeUnit::SystemTicks(_) => Some(board::dump(&self.timer, 0)),
            DeviceRunTimeUnit::Microseconds(_) => None,
        }
    }

    /// Takes over what a board holds beside its channels and its model.
    pub fn put_time(&mut self, board: &Board) {
        board::load_time(board, &mut self.timer);
    }

    /// The ticks that a call is made at: those of the warp, so that no time passes.
    fn now(&self) -> DeviceRunTimeUnit {
        self.timer.timewarp
    }

    pub fn write(&mut self, port: u16, byte: u8) -> Result<String, String> {
        let now = self.now();
        caught(|| self.timer.write_u8(port, byte, Some(&mut self.bus), now, None)).map(|()| String::new())
    }

    pub fn read(&mut self, port: u16) -> Result<String, String> {
        let now = self.now();
        caught(|| self.timer.read_u8(port, now)).map(|byte| byte.to_string())
    }

    pub fn gate(&mut self, channel: u16, level: bool) -> Result<String, String> {
        caught(|| self.timer.set_channel_gate(channel.into(), level, &mut self.bus)).map(|()| String::new())
    }

    pub fn catch_up(&mut self, ticks: u32) -> Result<String, String> {
        caught(|| self.timer.catch_up(&mut self.bus, DeviceRunTimeUnit::SystemTicks(ticks), None)).map(|()| String::new())
    }

    pub fn run(&mut self, ticks: u32) -> Result<String, String> {
        caught(|| self.timer.run(&mut self.bus, DeviceRunTimeUnit::SystemTicks(ticks), None)).map(|()| String::new())
    }

    /// A run with a logic analyzer of eight entries: how many of them its ticks visit.
    pub fn run_analyzed(&mut self, ticks: u32) -> Result<String, String> {
        let entry = |cycle| AnalyzerEntry { cycle, clk0: false, out0: false, out1: false, io: false, io_visits: 0 };
        let mut analyzer = LogicAnalyzer { entries: (0..8).map(entry).collect() };
        caught(|| self.timer.run(&mut self.bus, DeviceRunTimeUnit::SystemTicks(ticks), Some(&mut analyzer)))?;
        Ok(analyzer.entries.iter().filter(|entry| entry.io_visits > 0).count().to_string())
    }

    pub fn run_microseconds(&mut self, microseconds: f64) -> Result<String, String> {
        caught(|| self.timer.run(&mut self.bus, DeviceRunTimeUnit::Microseconds(microseconds), None)).map(|()| String::new())
    }

    /// The timer ticks of a number of microseconds, both given and warped.
    pub fn ticks_of_microseconds(&mut self, microseconds: f64) -> Result<String, String> {
        let (given, warp) = (DeviceRunTimeUnit::Microseconds(microseconds), DeviceRunTimeUnit::Microseconds(0.0));
        caught(|| self.timer.ticks_from_time(given, warp)).map(|(ticks, _)| ticks.to_string())
    }

    pub fn time_from_ticks(&mut self, ticks: u32) -> Result<String, String> {
        caught(|| self.timer.time_from_ticks(ticks)).map(|time| format!("{time:?}"))
    }

    pub fn output_state(&mut self, channel: u16) -> Result<String, String> {
        caught(|| self.timer.get_output_state(channel.into())).map(|level| u8::from(level).to_string())
    }

    pub fn clock_source(&mut self, channel: usize, source: usize) -> Result<String, String> {
        caught(|| self.timer.set_clock_source(channel, Some(source))).map(|()| String::new())
    }

    /// The bus calls made since the last call.
    pub fn calls(&mut self) -> String {
        let calls = self.bus.calls().map(|call| format!("{call:?}")).collect::<Vec<_>>().join(" ");
        self.bus.forget_calls();
        calls
    }

    pub fn cycles(&self) -> String {
        self.timer.get_cycles().to_string()
    }

    /// The samples sent since the last call.
    pub fn samples(&self) -> String {
        self.samples.try_iter().map(|sample| sample.to_string()).collect::<Vec<_>>().join(" ")
    }

    pub fn ports(&self) -> String {
        self.timer.port_list().iter().map(|(_, port)| format!("{port:02X}")).collect::<Vec<_>>().join(" ")
    }

    /// A line of the display's state of channel 0.
    pub fn display(&mut self, line: &str) -> Option<String> {
        match self.timer.get_display_state(false)[0].get(line) {
            Some(SyntaxToken::StateString(text, _, _)) => Some(text.clone()),
            _ => None,
        }
    }
}
