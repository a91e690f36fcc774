//! Links the archive in the folder that the environment variable
//! YILGORZA_LIB_DIR names, libyilgorza.a as it is installed or libcapi.a as it is
//! built; else libcapi.a in target/staticlib of the repository.

use std::path::PathBuf;

fn main() {
    println!("cargo:rerun-if-env-changed=YILGORZA_LIB_DIR");
    let folder = match std::env::var("YILGORZA_LIB_DIR") {
        Ok(folder) => PathBuf::from(folder),
        Err(_) => PathBuf::from(env!("CARGO_MANIFEST_DIR")).join("../../target/staticlib"),
    };
    let installed = folder.join("libyilgorza.a").exists();
    let library = if installed { "yilgorza" } else { "capi" };
    println!(
        "cargo:rerun-if-changed={}",
        folder.join(format!("lib{library}.a")).display()
    );
    println!("cargo:rustc-link-search=native={}", folder.display());
    println!("cargo:rustc-link-lib=static={library}");
}
