//! Links the proved service, which `bench/service/run` puts into the folder BENCH_LIBS.
fn main() {
    if std::env::var_os("CARGO_FEATURE_DOUBLE").is_some() {
        return;
    }
    let libs = std::env::var("BENCH_LIBS").expect("run bench/service/run: it sets BENCH_LIBS");
    println!("cargo:rerun-if-env-changed=BENCH_LIBS");
    println!("cargo:rerun-if-changed={libs}");
    println!("cargo:rustc-link-search=native={libs}");
    println!("cargo:rustc-link-lib=static=service");
}
