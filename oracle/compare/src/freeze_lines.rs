//! What the program trace_files must print, by the original's answers: each trace of traces/ under its name, with its lines. Ours is not asked.

use crate::reference::Reference;
use crate::samples::ROOT;
use crate::trace_replay::replay;
use std::fs;
use std::path::Path;

const PROGRAM: &str = "crates/trace_files";

pub fn answered() -> Result<Vec<u8>, String> {
    let folder = Path::new(ROOT).join(PROGRAM);
    let names = fs::read_to_string(folder.join("args")).map_err(|error| format!("{PROGRAM}/args: {error}"))?;
    let (mut reference, mut text) = (Reference::default(), String::new());
    for name in names.lines() {
        let trace = fs::read(folder.join("data").join(name)).map_err(|error| format!("{name}: {error}"))?;
        let replayed = replay(&mut reference, &trace);
        if let Some(fault) = replayed.fault {
            return Err(format!("{name}: {fault}"));
        }
        text += &format!("{name}\n{}", replayed.text);
    }
    Ok(text.into_bytes())
}
