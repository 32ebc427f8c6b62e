//! Finds the original's text, holds its SHA-256 against the pinned one and hands its path to the compiler, which includes it unchanged.
//!
//! `PIT_RS` names another copy of the text. A text with another digest is refused unless `PIT_RS_ALTERED=1` says that this is meant: that is how
//! slips in the original's text are tried.

use std::path::PathBuf;
use std::{env, fs};

#[path = "sha256.rs"]
mod sha256;

const DEFAULT: &str = "../shared/docs/src--crates--lib--marty_core--src--devices--pit.rs.txt";
const PINNED: &str = include_str!("pit.rs.sha256");

fn main() {
    println!("cargo:rerun-if-env-changed=PIT_RS");
    println!("cargo:rerun-if-env-changed=PIT_RS_ALTERED");
    println!("cargo:rerun-if-changed=build.rs");
    println!("cargo:rerun-if-changed=sha256.rs");
    println!("cargo:rerun-if-changed=pit.rs.sha256");

    let root = PathBuf::from(env::var("CARGO_MANIFEST_DIR").unwrap()).join("../..");
    let path = root.join(env::var("PIT_RS").unwrap_or_else(|_| DEFAULT.to_string()));
    println!("cargo:rerun-if-changed={}", path.display());
    let text = match fs::read(&path) {
        Ok(text) => text,
        Err(error) => stop(&format!("the original's text cannot be read at {}: {error}", path.display())),
    };

    let digest = sha256::hex(&text);
    let altered = digest != PINNED.trim();
    if altered && env::var("PIT_RS_ALTERED").as_deref() != Ok("1") {
        stop(&format!(
            "{} is not the pinned pit.rs: its SHA-256 is {digest}, and original/pit.rs.sha256 has {}. PIT_RS_ALTERED=1 lets it through.",
            path.display(),
            PINNED.trim()
        ));
    }
    let path = path.canonicalize().expect("a path that was just read");
    println!("cargo:rustc-env=PIT_RS_TEXT={}", path.display());
    println!("cargo:rustc-env=PIT_RS_IS={}", if altered { "altered" } else { "pinned" });
}

fn stop(why: &str) -> ! {
    eprintln!("{why}");
    std::process::exit(1);
}
