//! Stands for MartyPC's `cpu_common`: the logic analyzer that the timer's tick fills. Only one row of docs/DIFFERENCES.md runs it. Left
//! out: all but the members that the text names.

use std::collections::VecDeque;

pub struct AnalyzerEntry {
    pub cycle: u64,
    pub clk0: bool,
    pub out0: bool,
    pub out1: bool,
    pub io: bool,
    pub io_visits: u32,
}

pub struct LogicAnalyzer {
    pub entries: VecDeque<AnalyzerEntry>,
}
