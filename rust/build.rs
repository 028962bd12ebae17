//! Names the folder of `libpelohuaki_c.a` to the linker: that of the environment variable
//! PELOHUAKI_ARCHIVE, and otherwise the one that the archive is written to.

use std::path::PathBuf;

fn main() {
    println!("cargo:rerun-if-env-changed=PELOHUAKI_ARCHIVE");
    println!("cargo:rerun-if-changed=build.rs");
    let here = PathBuf::from(std::env::var_os("CARGO_MANIFEST_DIR").expect("cargo names it"));
    let folder = match std::env::var_os("PELOHUAKI_ARCHIVE") {
        Some(folder) => PathBuf::from(folder),
        None => here.join("../target/staticlib"),
    };
    let archive = folder.join("libpelohuaki_c.a");
    let hint = "write it with `tools/run archive`, or name its folder in PELOHUAKI_ARCHIVE";
    let Ok(bytes) = std::fs::read(&archive) else {
        panic!("there is no {}: {hint}", archive.display());
    };
    // An archive for aarch64 is written on another machine, beside the one for that machine.
    let target = std::env::var("CARGO_CFG_TARGET_ARCH").expect("cargo names it");
    if let Some(machine) = machine_of(&bytes).filter(|machine| *machine != target) {
        panic!(
            "{} is for {machine} and not for {target}: {hint}",
            archive.display()
        );
    }
    println!("cargo:rerun-if-changed={}", archive.display());
    println!("cargo:rustc-link-search=native={}", folder.display());
    println!("cargo:rustc-link-lib=static=pelohuaki_c");
}

/// The machine that the header of an archive's first ELF object names.
fn machine_of(archive: &[u8]) -> Option<&'static str> {
    let header = archive
        .windows(20)
        .find(|bytes| bytes.starts_with(b"\x7fELF"))?;
    match header[18..] {
        [62, 0] => Some("x86_64"),
        [183, 0] => Some("aarch64"),
        _ => None,
    }
}
