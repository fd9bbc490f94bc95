//! Links the proved library, the C code in two shapes by two compilers (both put by `bench/hash/run` in the folder BENCH_LIBS) and OpenSSL.
fn main() {
    let libs = std::env::var("BENCH_LIBS").expect("run bench/hash/run: it sets BENCH_LIBS");
    println!("cargo:rerun-if-env-changed=BENCH_LIBS");
    println!("cargo:rerun-if-changed={libs}");
    println!("cargo:rustc-link-search=native={libs}");
    println!("cargo:rustc-link-lib=static=hash_probe");
    println!("cargo:rustc-link-lib=static=sha256_c");
    println!("cargo:rustc-link-lib=dylib=crypto");
}
