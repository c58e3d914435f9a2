//! Links the proved planner's archives, which `tools/build` leaves below the repository's root.

fn main() {
    let root = std::path::Path::new(env!("CARGO_MANIFEST_DIR")).join("../..");
    let archives = root.join("target/staticlib");
    println!("cargo:rustc-link-search=native={}", archives.display());
    for name in ["probe", "planner"] {
        println!("cargo:rustc-link-lib=static={name}");
        println!("cargo:rerun-if-changed={}", archives.join(format!("lib{name}.a")).display());
    }
}
