//! Links the proved library, which `bin/build capi` writes.

fn main() {
    let folder = std::path::Path::new(env!("CARGO_MANIFEST_DIR")).join("../target/staticlib");
    println!("cargo:rustc-link-search=native={}", folder.display());
    println!("cargo:rustc-link-lib=static=capi");
    println!(
        "cargo:rerun-if-changed={}",
        folder.join("libcapi.a").display()
    );
}
