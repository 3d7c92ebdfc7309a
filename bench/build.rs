//! BENCH_PAD, in bytes: see bench/placements.

fn main() {
    println!("cargo:rerun-if-env-changed=BENCH_PAD");
    let pad = std::env::var("BENCH_PAD").unwrap_or_else(|_| "0".to_owned());
    println!("cargo:rustc-env=BENCH_PAD={pad}");
}
