//! Links the proved tables and the C code by two compilers, which `bench/tables/run` puts into the folder BENCH_LIBS.
fn main() {
    let libs = std::env::var("BENCH_LIBS").expect("run bench/tables/run: it sets BENCH_LIBS");
    println!("cargo:rerun-if-env-changed=BENCH_LIBS");
    println!("cargo:rerun-if-changed={libs}");
    println!("cargo:rustc-link-search=native={libs}");
    println!("cargo:rustc-link-lib=static=tables_probe");
    println!("cargo:rustc-link-lib=static=tables_c");
}
