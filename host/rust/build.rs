//! Where libshore.a is: the folder in SHORE_LIB, or target/staticlib, where host/check puts it.
fn main() {
    let own = concat!(env!("CARGO_MANIFEST_DIR"), "/../../target/staticlib");
    let folder = std::env::var("SHORE_LIB").unwrap_or_else(|_| own.to_string());
    println!("cargo:rerun-if-env-changed=SHORE_LIB");
    println!("cargo:rerun-if-changed={folder}/libshore.a");
    println!("cargo:rustc-link-search=native={folder}");
}
