//! Links the static libraries of the proved engine, this tree's or those of the folder STATICLIB, and CaDiCaL behind a shim compiled by g++.
use std::env;
use std::path::{Path, PathBuf};
use std::process::Command;

fn run(command: &mut Command) {
    let status = command.status().expect("the command starts");
    assert!(status.success(), "{command:?} failed");
}

fn said(command: &mut Command) -> String {
    let output = command.output().expect("the command starts");
    String::from_utf8_lossy(&output.stdout).trim().to_string()
}

fn main() {
    let out = env::var("OUT_DIR").expect("cargo sets OUT_DIR");
    let root = env::var("CARGO_MANIFEST_DIR").expect("cargo sets CARGO_MANIFEST_DIR");
    let here = Path::new(&root).join("../target/staticlib");
    let staticlib = env::var_os("STATICLIB").map_or(here, PathBuf::from);
    let object = format!("{out}/cadical.o");
    let archive = format!("{out}/libshim.a");
    run(Command::new("g++").args(["-O2", "-c", "shim/cadical.cpp", "-o", &object]));
    run(Command::new("ar").args(["crs", &archive, &object]));
    println!("cargo:rustc-link-search=native={out}");
    println!("cargo:rustc-link-search=native={}", staticlib.display());
    println!("cargo:rustc-link-lib=static=shim");
    println!("cargo:rustc-link-lib=static=capi");
    println!("cargo:rustc-link-lib=static=steps");
    println!("cargo:rustc-link-lib=cadical");
    println!("cargo:rustc-link-lib=stdc++");
    println!("cargo:rerun-if-env-changed=STATICLIB");
    println!("cargo:rerun-if-changed=shim/cadical.cpp");
    println!("cargo:rerun-if-changed={}", staticlib.join("libcapi.a").display());
    println!("cargo:rerun-if-changed={}", staticlib.join("libsteps.a").display());
    println!(
        "cargo:rustc-env=RUSTC_VERSION={}",
        said(Command::new(env::var("RUSTC").expect("cargo sets RUSTC")).arg("--version"))
    );
}
