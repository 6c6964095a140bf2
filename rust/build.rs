// Links the static library of crate `export`, which `rt lib` writes to crates/export/out.
fn main() {
    let top = concat!(env!("CARGO_MANIFEST_DIR"), "/..");
    println!("cargo:rustc-link-search=native={top}/crates/export/out");
    println!("cargo:rustc-link-lib=static=export");
    println!("cargo:rerun-if-changed={top}/crates/export/out/libexport.a");
}
