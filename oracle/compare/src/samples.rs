//! What the repository holds of the original's answers: the frozen samples of channels, of boards and of traces, and the lines of the traces of traces/. Each sample is made from
//! a fixed seed, so the same text of the original gives the same bytes.

use crate::{freeze, freeze_boards, freeze_lines, freeze_traces};
use std::fs;
use std::path::Path;

pub const ROOT: &str = concat!(env!("CARGO_MANIFEST_DIR"), "/../..");

/// The name of a sample, its file, and what makes its bytes.
type Sample = (&'static str, &'static str, fn() -> Result<Vec<u8>, String>);

const SAMPLES: [Sample; 4] = [
    ("channels", "crates/frozen/data/channels", freeze::answered),
    ("boards", "crates/frozen/data/boards", freeze_boards::answered),
    ("traces", "crates/frozen/data/traces", freeze_traces::answered),
    ("lines", "crates/trace_files/stdout", freeze_lines::answered),
];

/// Writes one sample to a file.
pub fn write(name: &str, path: &str) -> Result<(), String> {
    let (_, _, make) = SAMPLES.iter().find(|(known, _, _)| *known == name).expect("the name of a sample");
    let bytes = make()?;
    fs::write(path, &bytes).map_err(|error| format!("{path}: {error}"))?;
    println!("{} bytes", bytes.len());
    Ok(())
}

/// How many of the repository's samples are not what the original answers today. One that is not there counts.
pub fn stand() -> Result<u64, String> {
    let mut differ = 0;
    for (_, file, make) in SAMPLES {
        let path = Path::new(ROOT).join(file);
        if !path.exists() {
            println!("{file} IS NOT THERE");
            differ += 1;
            continue;
        }
        let held = fs::read(&path).map_err(|error| format!("{file}: {error}"))?;
        let says = match make() {
            Ok(bytes) if bytes == held => "has the original's answers".to_string(),
            Ok(_) => "HAS NOT the original's answers".to_string(),
            Err(fault) => format!("CANNOT BE MADE: {fault}"),
        };
        println!("{file} {says}");
        differ += u64::from(!says.starts_with("has"));
    }
    Ok(differ)
}
