// Links the archive that `host/archive probe` makes.
fn main() {
    let root = std::env::var("CARGO_MANIFEST_DIR").expect("cargo sets it") + "/../..";
    println!("cargo:rustc-link-search=native={root}/target/staticlib");
    println!("cargo:rustc-link-lib=static=probe");
    println!("cargo:rerun-if-changed={root}/target/staticlib/libprobe.a");
}
