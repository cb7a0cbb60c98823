//! Builds the loops in C and the passes of libelf, and links the library.
use std::{env, process::Command};

fn run(command: &mut Command) {
    let status = command.status().expect("the compiler starts");
    assert!(status.success(), "{command:?}");
}

fn main() {
    let out = env::var("OUT_DIR").unwrap();
    let mut archive = Command::new("ar");
    archive.args(["rcs", &format!("{out}/libpeers.a")]);
    for name in ["loops", "libelf"] {
        println!("cargo:rerun-if-changed=src/{name}.c");
        let object = format!("{out}/{name}.o");
        run(Command::new("gcc").args(["-O2", "-march=x86-64-v2", "-fPIC", "-Wall", "-c", "-o", &object, &format!("src/{name}.c")]));
        archive.arg(object);
    }
    run(&mut archive);
    println!("cargo:rustc-link-search=native={out}");
    println!("cargo:rustc-link-lib=static=peers");
    println!("cargo:rustc-link-lib=dylib=elf");
    let library = env::var("HERE").expect("HERE is the folder with libhere.a");
    println!("cargo:rerun-if-env-changed=HERE");
    println!("cargo:rerun-if-changed={library}/libhere.a");
    println!("cargo:rustc-link-search=native={library}");
    println!("cargo:rustc-link-lib=static=here");
}
