//! Links libfoamsickle.a, which `tools/build foamsickle` writes: from the folder that FOAMSICKLE_LIB_DIR names, else from the
//! repository's target/staticlib.

use std::path::PathBuf;

fn main() {
    println!("cargo:rerun-if-changed=build.rs");
    println!("cargo:rerun-if-env-changed=FOAMSICKLE_LIB_DIR");
    let here = PathBuf::from(std::env::var("CARGO_MANIFEST_DIR").expect("cargo names the crate's folder"));
    let folder = match std::env::var("FOAMSICKLE_LIB_DIR") {
        Ok(folder) => PathBuf::from(folder),
        Err(_) => here.join("../../target/staticlib"),
    };
    let library = folder.join("libfoamsickle.a");
    println!("cargo:rerun-if-changed={}", library.display());
    if !library.exists() {
        eprintln!(
            "{} is not there: `tools/build foamsickle` in the repository writes target/staticlib/libfoamsickle.a;",
            library.display()
        );
        eprintln!("where Foamsickle is installed, set FOAMSICKLE_LIB_DIR to the folder lib below its prefix");
        std::process::exit(1);
    }
    println!("cargo:rustc-link-search=native={}", folder.display());
    println!("cargo:rustc-link-lib=static=foamsickle");
}
