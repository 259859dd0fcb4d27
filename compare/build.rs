//! Links the library under test if BENCH_LIB_DIR names the folder that
//! holds libbench_c.a. Without it everything builds too, and the model is
//! compared with the plain implementation only.

use std::env;
use std::path::PathBuf;

fn main() {
    println!("cargo:rerun-if-changed=build.rs");
    println!("cargo:rerun-if-env-changed=BENCH_LIB_DIR");
    println!("cargo:rustc-check-cfg=cfg(bench_lib)");
    let dir = match env::var_os("BENCH_LIB_DIR") {
        Some(dir) if !dir.is_empty() => PathBuf::from(dir),
        _ => return,
    };
    let archive = dir.join("libbench_c.a");
    if !archive.is_file() {
        panic!(
            "BENCH_LIB_DIR is set, but there is no {} (use an absolute path)",
            archive.display()
        );
    }
    println!("cargo:rerun-if-changed={}", archive.display());
    println!("cargo:rustc-link-search=native={}", dir.display());
    println!("cargo:rustc-link-lib=static=bench_c");
    println!("cargo:rustc-cfg=bench_lib");
}
