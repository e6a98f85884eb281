//! Links the checker's static library and the bare loop, only when the feature `linked` is set.

use std::path::{Path, PathBuf};
use std::process::Command;

fn run(command: &mut Command) {
    let done = command.status().map(|s| s.success()).unwrap_or(false);
    assert!(done, "failed: {command:?}");
}

fn main() {
    println!("cargo:rerun-if-changed=build.rs");
    println!("cargo:rerun-if-changed=bare.c");
    println!("cargo:rerun-if-env-changed=DIEUVAKHOP_STATICLIB");
    if std::env::var_os("CARGO_FEATURE_LINKED").is_none() {
        return;
    }
    let here = PathBuf::from(std::env::var_os("CARGO_MANIFEST_DIR").expect("set by cargo"));
    let out = PathBuf::from(std::env::var_os("OUT_DIR").expect("set by cargo"));

    // The folder of libchecker.a.
    let folder = std::env::var_os("DIEUVAKHOP_STATICLIB")
        .map_or_else(|| here.join("../target/staticlib"), |f| here.join(Path::new(&f)));
    println!("cargo:rerun-if-changed={}", folder.join("libchecker.a").display());
    println!("cargo:rustc-link-search=native={}", folder.display());
    println!("cargo:rustc-link-lib=static=checker");

    let object = out.join("bare.o");
    run(Command::new("cc").args(["-O3", "-c"]).arg(here.join("bare.c")).arg("-o").arg(&object));
    run(Command::new("ar").arg("crs").arg(out.join("libbare.a")).arg(&object));
    println!("cargo:rustc-link-search=native={}", out.display());
    println!("cargo:rustc-link-lib=static=bare");
}
