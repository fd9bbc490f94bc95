//! Links the proved library, which `rt lib` in crates/hash_probe puts into crates/hash_probe/out/.
fn main() {
    let archives = concat!(env!("CARGO_MANIFEST_DIR"), "/../../crates/hash_probe/out");
    println!("cargo:rerun-if-changed={archives}/libhash_probe.a");
    println!("cargo:rustc-link-search=native={archives}");
    println!("cargo:rustc-link-lib=static=hash_probe");
}
