//! Finds the proved library for C, and links it.
//!
//! If the environment variable `SECCOMPILER_LIB` is set, the library is in the folder that it names. Otherwise these
//! folders are searched, in this order:
//!
//! 1. `lib` of the package or the installation that this crate is part of, and the folder there that Debian has for the
//!    architecture;
//! 2. the folder into which `rt lib` writes, if this crate is part of the repository;
//! 3. the folder that pkg-config prints for `seccompiler`.
//!
//! A package has `libseccompiler.a`, which is whole, for x86_64 or for aarch64; one for another architecture than that of
//! the target is passed over. `rt lib` makes `libseccompiler_c.a` for x86_64, which also needs an archive of the kit, by
//! which it asks for memory. That is in the folder that `RATTLE_KIT` names, or in the kit of `rt`.
//!
//! If the library isn't found, a warning says what to do. Then only linking fails: `cargo check`, `doc` and `clippy`
//! work.

use std::env;
use std::fs;
use std::path::{Path, PathBuf};
use std::process::Command;

/// The archive of a package, and that of the repository.
const WHOLE: &str = "libseccompiler.a";
const BARE: &str = "libseccompiler_c.a";

const INSTALLED: &str = "../../../../lib";
const OF_DEBIAN: &str = "-linux-gnu";
const BUILT: &str = "../../crates/seccompiler_c/out";

const ADVICE: &str = "\
This crate uses the proved library for C, which isn't found. Either
  - set SECCOMPILER_LIB to the folder of a package that has libseccompiler.a, such as /usr/local/lib;
  - or set PKG_CONFIG_PATH so that `pkg-config --variable=libdir seccompiler` prints that folder;
  - or, with the Rattle kit, run `rt lib` in crates/seccompiler_c of the repository.";

/// Returns the line that a command prints, if it can be run and succeeds.
fn printed(command: &str, words: &[&str]) -> Option<String> {
    let ran = Command::new(command).args(words).output().ok()?;
    let line = String::from_utf8(ran.stdout).ok()?.trim().to_string();
    (ran.status.success() && !line.is_empty()).then_some(line)
}

/// Returns the folder of the kit's archive: `rt doc` prints the path of a page at the kit's top.
fn kit() -> Option<PathBuf> {
    let top = match env::var_os("RATTLE_KIT") {
        Some(top) => PathBuf::from(top),
        None => Path::new(&printed("rt", &["doc"])?).parent()?.to_path_buf(),
    };
    Some(top.join("c")).filter(|folder| folder.join("liblibc_c.a").exists())
}

/// Returns whether an archive's first object is for the machine of this number, `e_machine` of `elf(5)`.
fn is_for(archive: &Path, machine: u16) -> bool {
    let bytes = fs::read(archive).unwrap_or_default();
    let object = bytes.windows(20).find(|it| it.starts_with(b"\x7fELF"));
    object.map_or(false, |it| it[18..] == machine.to_le_bytes())
}

/// Returns the folders in which the library for an architecture may be, in the order in which they are searched.
fn places(architecture: &str) -> Vec<PathBuf> {
    if let Some(named) = env::var_os("SECCOMPILER_LIB") {
        return vec![PathBuf::from(named)];
    }
    let own = PathBuf::from(env::var_os("CARGO_MANIFEST_DIR").expect("cargo sets it"));
    let told = printed("pkg-config", &["--variable=libdir", "seccompiler"]);
    let installed = own.join(INSTALLED);
    let of_debian = installed.join(format!("{architecture}{OF_DEBIAN}"));
    let places = [installed, of_debian, own.join(BUILT)];
    places.into_iter().chain(told.map(PathBuf::from)).collect()
}

/// Links the archive of this name in a folder.
fn link(folder: &Path, archive: &str) {
    let name = archive.strip_prefix("lib").unwrap_or(archive);
    let name = name.strip_suffix(".a").unwrap_or(name);
    println!("cargo:rustc-link-search=native={}", folder.display());
    println!("cargo:rustc-link-lib=static={name}");
    println!("cargo:rerun-if-changed={}", folder.join(archive).display());
}

/// Links the library, or says what to do.
fn link_library() -> Result<(), String> {
    let target = |part| env::var(part).unwrap_or_default();
    let (system, architecture) = (
        target("CARGO_CFG_TARGET_OS"),
        target("CARGO_CFG_TARGET_ARCH"),
    );
    let machine = match (system.as_str(), architecture.as_str()) {
        ("linux", "x86_64") => 62,
        ("linux", "aarch64") => 183,
        _ => {
            return Err("The proved library runs only on Linux on x86_64 and aarch64.".to_string())
        }
    };
    let places = places(&architecture);
    for folder in &places {
        if is_for(&folder.join(WHOLE), machine) {
            link(folder, WHOLE);
            return Ok(());
        }
        if is_for(&folder.join(BARE), machine) {
            let kit = kit().ok_or(
                "The archive of `rt lib` needs liblibc_c.a of the Rattle kit: put `rt` on the path, or set \
                 RATTLE_KIT to the kit's folder.",
            )?;
            link(folder, BARE);
            link(&kit, "liblibc_c.a");
            return Ok(());
        }
    }
    let tried: String = places
        .iter()
        .map(|it| format!("\n  {}", it.display()))
        .collect();
    Err(format!(
        "{ADVICE}\nNeither {WHOLE} nor {BARE} for {architecture} is in any of{tried}"
    ))
}

fn main() {
    for variable in ["SECCOMPILER_LIB", "RATTLE_KIT", "PKG_CONFIG_PATH"] {
        println!("cargo:rerun-if-env-changed={variable}");
    }
    if let Err(text) = link_library() {
        for line in text.lines() {
            println!("cargo:warning={line}");
        }
        // rustc searches for it when it makes more than metadata.
        println!("cargo:rustc-link-lib=static=seccompiler");
    }
}
