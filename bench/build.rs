//! Links the archive that `rt lib` makes in `crates/measure`.

fn main() {
    let folder = concat!(env!("CARGO_MANIFEST_DIR"), "/../crates/measure/out");
    println!("cargo::rustc-link-search=native={folder}");
    println!("cargo::rerun-if-changed={folder}/libmeasure.a");
}
