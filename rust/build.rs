//! Links the static library that tools/library/build.sh writes; VEBROSTIN_LIB names another folder.
fn main() {
    let folder = std::env::var("VEBROSTIN_LIB").unwrap_or_else(|_| {
        let here = std::env::var("CARGO_MANIFEST_DIR").expect("cargo says where the crate is");
        format!("{here}/../target/staticlib")
    });
    println!("cargo:rustc-link-search=native={folder}");
    println!("cargo:rustc-link-lib=static=vebrostin");
    println!("cargo:rerun-if-env-changed=VEBROSTIN_LIB");
}
