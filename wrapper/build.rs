//! Links the archive that `tools/staticlib` builds; it is for x86-64.

fn main() {
    let top = std::path::Path::new(env!("CARGO_MANIFEST_DIR")).join("..");
    let archive = top.join("target/staticlib");
    println!("cargo:rerun-if-changed={}", archive.join("libladlebean.a").display());
    println!("cargo:rustc-link-search=native={}", archive.display());
    println!("cargo:rustc-link-lib=static=ladlebean");
}
