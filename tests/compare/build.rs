//! Links the archive under test, named by the environment variable SUBJECT_LIB.

fn main() {
    println!("cargo:rerun-if-env-changed=SUBJECT_LIB");
    let archive =
        std::env::var("SUBJECT_LIB").expect("SUBJECT_LIB has to name the archive libcapi.a");
    println!("cargo:rerun-if-changed={archive}");
    println!("cargo:rustc-link-arg-bins={archive}");
}
