//! Links the proved library: the one that `rt lib` writes in crates/bench, or that of the folder BENCH_LIBRARY.

fn main() {
    let written = concat!(env!("CARGO_MANIFEST_DIR"), "/../../../crates/bench/out");
    let folder = std::env::var("BENCH_LIBRARY").unwrap_or(written.into());
    println!("cargo:rustc-link-search=native={folder}");
    println!("cargo:rustc-link-lib=static=bench");
    println!("cargo:rerun-if-changed={folder}/libbench.a");
    println!("cargo:rerun-if-env-changed=BENCH_LIBRARY");
}
