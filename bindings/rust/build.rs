//! Finds the archive `libelf_c.a`: beside Cargo.toml, as a release has it; in the folder that XMAS_ELF_ARCHIVE names; or
//! built by `rt lib`, in a clone of the repository.

use std::env::var_os;
use std::path::{Path, PathBuf};
use std::process::{exit, Command};

const ARCHIVE: &str = "libelf_c.a";
const BESIDE: &str = "lib/x86_64-unknown-linux-gnu";

fn main() {
    println!("cargo:rerun-if-env-changed=XMAS_ELF_ARCHIVE");
    println!("cargo:rerun-if-env-changed=DOCS_RS");
    println!("cargo:rerun-if-changed={BESIDE}");
    // The pages need no archive.
    if var_os("DOCS_RS").is_some() {
        return;
    }
    test_target();
    let package = PathBuf::from(var_os("CARGO_MANIFEST_DIR").expect("cargo says where the package is"));
    let folder = folder_of_archive(&package);
    let archive = folder.join(ARCHIVE);
    if !archive.exists() {
        stop(&format!("{} is missing", archive.display()));
    }
    println!("cargo:rerun-if-changed={}", archive.display());
    println!("cargo:rustc-link-search=native={}", folder.display());
    println!("cargo:rustc-link-lib=static=elf_c");
}

fn test_target() {
    let is = |key: &str, wanted: &str| var_os(key).is_some_and(|value| value == *wanted);
    let fits = is("CARGO_CFG_TARGET_ARCH", "x86_64") && is("CARGO_CFG_TARGET_OS", "linux") && is("CARGO_CFG_TARGET_POINTER_WIDTH", "64");
    if !fits {
        let target = std::env::var("TARGET").unwrap_or_default();
        eprintln!("error: xmas-elf-proved: {ARCHIVE} is for x86-64 Linux, and the target is {target}");
        exit(1);
    }
}

fn folder_of_archive(package: &Path) -> PathBuf {
    let beside = package.join(BESIDE);
    if beside.join(ARCHIVE).exists() {
        return beside;
    }
    match var_os("XMAS_ELF_ARCHIVE") {
        Some(folder) => PathBuf::from(folder),
        None => built(package),
    }
}

fn built(package: &Path) -> PathBuf {
    let sources = package.join("../../crates/elf_c");
    if !sources.is_dir() {
        stop(&format!("{BESIDE}/{ARCHIVE} is missing in {}", package.display()));
    }
    match Command::new("rt").arg("lib").current_dir(&sources).status() {
        Ok(status) if status.success() => sources.join("out"),
        Ok(_) => stop(&format!("`rt lib` failed in {}", sources.display())),
        Err(_) => stop("`rt` of the Rattle kit, which builds it from the sources, is not on the PATH"),
    }
}

fn stop(reason: &str) -> ! {
    eprintln!("error: xmas-elf-proved needs the static library {ARCHIVE}: {reason}");
    eprintln!("  Either take the archive of a release: put it into {BESIDE}/ beside Cargo.toml, or set XMAS_ELF_ARCHIVE to its folder;");
    eprintln!("  or build it in a clone of the repository: install the Rattle kit, and run `rt lib` in crates/elf_c.");
    exit(1);
}
