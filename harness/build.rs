//! Links the static libraries that the features `unit` and `bench` ask for.
fn main() {
    println!("cargo:rerun-if-changed=build.rs");
    let folder = std::path::Path::new(env!("CARGO_MANIFEST_DIR")).join("../target/staticlib");
    for (feature, library) in [("CARGO_FEATURE_UNIT", "mars"), ("CARGO_FEATURE_BENCH", "netting_times")] {
        if std::env::var_os(feature).is_some() {
            println!("cargo:rerun-if-changed={}", folder.join(format!("lib{library}.a")).display());
            println!("cargo:rustc-link-search=native={}", folder.display());
            println!("cargo:rustc-link-lib=static={library}");
        }
    }
}
