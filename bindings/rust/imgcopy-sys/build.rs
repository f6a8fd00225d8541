//! Links libimgcopy.a: that in IMGCOPY_LIB_DIR, or else in the build folder of this repository, or
//! else where the linker looks.

use std::path::{Path, PathBuf};

fn main() {
    println!("cargo:rerun-if-env-changed=IMGCOPY_LIB_DIR");
    if let Some(folder) = folder_of_library() {
        println!("cargo:rustc-link-search=native={}", folder.display());
        println!(
            "cargo:rerun-if-changed={}",
            folder.join("libimgcopy.a").display()
        );
    }
    println!("cargo:rustc-link-lib=static=imgcopy");
}

fn folder_of_library() -> Option<PathBuf> {
    if let Some(told) = std::env::var_os("IMGCOPY_LIB_DIR") {
        return Some(PathBuf::from(told));
    }
    let built = Path::new(env!("CARGO_MANIFEST_DIR")).join("../../../build");
    built.join("libimgcopy.a").is_file().then_some(built)
}
