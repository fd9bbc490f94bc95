//! Links the proved library, which `rt lib` in crates/service puts into crates/service/out/.
fn main() {
    if std::env::var_os("CARGO_FEATURE_DOUBLE").is_some() {
        return;
    }
    let archives = concat!(env!("CARGO_MANIFEST_DIR"), "/../../crates/service/out");
    println!("cargo:rerun-if-changed={archives}/libservice.a");
    println!("cargo:rustc-link-search=native={archives}");
    println!("cargo:rustc-link-lib=static=service");
}
