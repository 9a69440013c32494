//! Links `libtapunerow.a`, which `./make-archive` of the project's folder makes in `target/staticlib`. TAPUNEROW_LIB names another folder.
//!
//! Where it cannot be linked, the cfg `tapunerow_linked` is not set and TAPUNEROW_WHY says why in one line. What needs the library
//! then stops with that line (src/linked.rs), what needs the model alone is built as ever, and a crate that depends on this one is not
//! built.

use std::path::{Path, PathBuf};
use std::{env, fs};

/// What to do about an archive that is missing or is none.
const MAKE_IT: &str = "run `./make-archive` in the project's folder first";

/// ELF's numbers of processors, and cargo's names of them.
const PROCESSORS: [(u16, &str); 2] = [(62, "x86_64"), (183, "aarch64")];

/// The processor of the first object in an archive, by ELF's number. A member has a head of 60 bytes, with its length in digits from
/// byte 48 on, and starts at an even place.
fn processor(archive: &[u8]) -> Option<u16> {
    let mut rest = archive.strip_prefix(b"!<arch>\n")?;
    loop {
        let (head, members) = (rest.get(..60)?, rest.get(60..)?);
        let len: usize = std::str::from_utf8(&head[48..58]).ok()?.trim().parse().ok()?;
        let member = members.get(..len)?;
        if member.starts_with(b"\x7fELF") {
            return Some(u16::from_le_bytes([*member.get(18)?, *member.get(19)?]));
        }
        rest = members.get(len + len % 2..)?;
    }
}

/// Why the archive cannot be linked for this target, in one line, or nothing if it can.
fn why_not(archive: &Path) -> Option<String> {
    let Ok(bytes) = fs::read(archive) else {
        return Some(format!("{} is missing: {MAKE_IT}", archive.display()));
    };
    let Some(number) = processor(&bytes) else {
        return Some(format!("{} is no archive of ELF objects: {MAKE_IT}", archive.display()));
    };
    let of_target = |name| env::var(name).unwrap_or_default();
    let (arch, os, target) = (of_target("CARGO_CFG_TARGET_ARCH"), of_target("CARGO_CFG_TARGET_OS"), of_target("TARGET"));
    let made_for = PROCESSORS.iter().find(|known| known.0 == number).map_or("another processor", |known| known.1);
    if os == "linux" && arch == made_for {
        return None;
    }
    let other = "TAPUNEROW_LIB may name the folder of another archive";
    Some(format!("{} is for Linux on {made_for}, and the target is {target}: it cannot be linked; {other}", archive.display()))
}

fn main() {
    println!("cargo:rerun-if-changed=build.rs");
    println!("cargo:rerun-if-env-changed=TAPUNEROW_LIB");
    println!("cargo:rustc-check-cfg=cfg(tapunerow_linked)");
    let here = PathBuf::from(env::var_os("CARGO_MANIFEST_DIR").unwrap());
    let folder = env::var_os("TAPUNEROW_LIB").map_or_else(|| here.join("../../target/staticlib"), PathBuf::from);
    let archive = folder.join("libtapunerow.a");
    println!("cargo:rerun-if-changed={}", archive.display());
    match why_not(&archive) {
        None => {
            println!("cargo:rustc-cfg=tapunerow_linked");
            println!("cargo:rustc-link-search=native={}", folder.display());
            println!("cargo:rustc-link-lib=static=tapunerow");
        }
        // Cargo sets this for the packages that it is asked for, and not for those that they depend on.
        Some(why) if option_env!("CARGO_PRIMARY_PACKAGE").is_none() => println!("cargo::error={why}"),
        Some(why) => println!("cargo:rustc-env=TAPUNEROW_WHY={why}"),
    }
}
