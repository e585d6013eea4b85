//! Links the archives of capi, of drawn and of paged: `../target/native/libcapi.a`, `libdrawn.a` and `libpaged.a` beside it, or those
//! that the environment variables `OESTERWROK_CAPI`, `OESTERWROK_DRAWN` and `OESTERWROK_PAGED` name.

use std::path::{Path, PathBuf};
use std::{env, fs, process};

/// Each archive's crate, and the variable that names another archive, by its whole path or by one that starts at `rust/`.
const ARCHIVES: [(&str, &str); 3] = [
    ("capi", "OESTERWROK_CAPI"),
    ("drawn", "OESTERWROK_DRAWN"),
    ("paged", "OESTERWROK_PAGED"),
];

fn main() {
    println!("cargo:rerun-if-changed=build.rs");
    for (name, variable) in ARCHIVES {
        println!("cargo:rerun-if-env-changed={variable}");
        // Where `tools/native` leaves the archive for the machine at hand, as seen from `rust/`.
        let usual = format!("../target/native/lib{name}.a");
        let archive = PathBuf::from(env::var(variable).unwrap_or(usual));
        println!("cargo:rerun-if-changed={}", archive.display());
        if !archive.is_file() {
            stop(&format!(
                "no archive of {name} at {}: run `tools/native {name}` at the repository's root first, or name one by {variable}",
                archive.display()
            ));
        }
        link(name, &archive);
    }
}

/// Links a copy under cargo's own folder, so that an archive of any name will do.
fn link(name: &str, archive: &Path) {
    let folder = PathBuf::from(env::var("OUT_DIR").expect("cargo sets OUT_DIR"));
    if let Err(why) = fs::copy(archive, folder.join(format!("lib{name}.a"))) {
        stop(&format!("{} cannot be copied: {why}", archive.display()));
    }
    println!("cargo:rustc-link-search=native={}", folder.display());
    println!("cargo:rustc-link-lib=static={name}");
}

/// Ends the build with a message and no backtrace.
fn stop(message: &str) -> ! {
    eprintln!("{message}");
    process::exit(1);
}
