//! Links the proved library, which `rt lib` in crates/tables_probe puts into crates/tables_probe/out/.
fn main() {
    let archives = concat!(env!("CARGO_MANIFEST_DIR"), "/../../crates/tables_probe/out");
    println!("cargo:rerun-if-changed={archives}/libtables_probe.a");
    println!("cargo:rustc-link-search=native={archives}");
    println!("cargo:rustc-link-lib=static=tables_probe");
}
