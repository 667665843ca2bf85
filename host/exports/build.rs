// Links the archive that `host/archive kjarnhul` makes.
fn main() {
    let root = std::env::var("CARGO_MANIFEST_DIR").expect("cargo sets it") + "/../..";
    println!("cargo:rustc-link-search=native={root}/target/staticlib");
    println!("cargo:rustc-link-lib=static=kjarnhul");
    println!("cargo:rerun-if-changed={root}/target/staticlib/libkjarnhul.a");
}
