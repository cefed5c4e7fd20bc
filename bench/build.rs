//! Links the archives of the proved calls, which bench/run puts into the folder that it names.
fn main() {
    let folder = std::env::var("BENCH_CALLS").unwrap_or_else(|_| "../target/staticlib".into());
    println!("cargo:rustc-link-search=native={folder}");
    println!("cargo:rerun-if-env-changed=BENCH_CALLS");
    for calls in ["bench_grid", "bench_customer"] {
        println!("cargo:rustc-link-lib=static={calls}");
        println!("cargo:rerun-if-changed={folder}/lib{calls}.a");
    }
}
