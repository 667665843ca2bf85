// Links Debian's libbloom.
fn main() {
    println!("cargo:rustc-link-lib=bloom");
}
