//! Links our static library where it is compiled for the processor that this program is built for. Where it is not, or is not there at
//! all, the program is built without it: then it asks a worker process (ours.rs), or runs what does not need ours.

use std::path::PathBuf;
use std::{env, fs};

fn main() {
    println!("cargo:rustc-check-cfg=cfg(linked)");
    println!("cargo:rerun-if-env-changed=PIT_LIB_DIR");
    // The archive's checksum: cargo itself goes by the time of the file, and an older archive can take the place of a newer one.
    println!("cargo:rerun-if-env-changed=PIT_LIB_SUM");
    let root = PathBuf::from(env::var("CARGO_MANIFEST_DIR").unwrap()).join("../..");
    let folder = root.join(env::var("PIT_LIB_DIR").unwrap_or_else(|_| "target/native".to_string()));
    println!("cargo:rerun-if-changed={}", folder.join("libpit.a").display());

    let target = match env::var("CARGO_CFG_TARGET_ARCH").as_deref() {
        Ok("x86_64") => 0x3E,
        Ok("aarch64") => 0xB7,
        _ => 0,
    };
    if fs::read(folder.join("libpit.a")).ok().and_then(|archive| machine(&archive)) == Some(target) {
        println!("cargo:rustc-cfg=linked");
        println!("cargo:rustc-link-search=native={}", folder.display());
        println!("cargo:rustc-link-lib=static=pit");
    }
}

/// The processor of the archive's first ELF object: the number at place 18 of its header.
fn machine(archive: &[u8]) -> Option<u16> {
    let at = archive.windows(4).position(|bytes| bytes == b"\x7FELF")?;
    let number = archive.get(at + 18..at + 20)?;
    Some(u16::from_le_bytes([number[0], number[1]]))
}
