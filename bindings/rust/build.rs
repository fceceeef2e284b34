//! Links the archive `libmdmp.a`, which is in the folder that `MDMP_LIB_DIR` names.
//!
//! If `MDMP_LIB_DIR` is not set, rustc needs `-L FOLDER` (in `RUSTFLAGS`): it does not look for a static library in the
//! folders of the system.
fn main() {
    println!("cargo:rerun-if-env-changed=MDMP_LIB_DIR");
    if let Ok(folder) = std::env::var("MDMP_LIB_DIR") {
        println!("cargo:rustc-link-search=native={folder}");
        println!("cargo:rerun-if-changed={folder}/libmdmp.a");
    }
    println!("cargo:rustc-link-lib=static=mdmp");
}
