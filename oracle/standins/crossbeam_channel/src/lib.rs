//! Stands for the crate `crossbeam-channel`, of which the original's speaker takes a sender: the standard library's channel under the names of that crate.
//! Only one row of docs/DIFFERENCES.md makes a sender. Left out: all else.

pub use std::sync::mpsc::{channel as unbounded, Receiver, Sender};
