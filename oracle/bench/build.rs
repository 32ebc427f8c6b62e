//! Links two of our static libraries: today's, and an old one whose functions have other names. There is no other way to run them here:
//! a time under an emulator says nothing.

use std::env;
use std::path::PathBuf;

fn main() {
    // The checksum of both: cargo itself goes by the time of a file, and an older archive can take the place of a newer one.
    println!("cargo:rerun-if-env-changed=PIT_LIB_SUM");
    for (variable, name) in [("PIT_LIB_DIR", "pit"), ("PIT_OLD_DIR", "pit_old")] {
        println!("cargo:rerun-if-env-changed={variable}");
        let folder = PathBuf::from(env::var(variable).unwrap_or_else(|_| panic!("{variable} is not set; ./bench sets it")));
        println!("cargo:rerun-if-changed={}", folder.join(format!("lib{name}.a")).display());
        println!("cargo:rustc-link-search=native={}", folder.display());
        println!("cargo:rustc-link-lib=static={name}");
    }
}
