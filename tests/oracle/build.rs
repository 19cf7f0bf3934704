// Links libtrussember.a, which tools/library writes: from target/staticlib at the repository's top,
// or from the folder that TRUSSEMBER_LIB names.
use std::env;
use std::path::PathBuf;

fn main() {
    println!("cargo:rerun-if-env-changed=TRUSSEMBER_LIB");
    let top = PathBuf::from(env::var("CARGO_MANIFEST_DIR").unwrap()).join("../..");
    let folder = match env::var("TRUSSEMBER_LIB") {
        Ok(f) => PathBuf::from(f),
        Err(_) => top.join("target/staticlib"),
    };
    let archive = folder.join("libtrussember.a");
    println!("cargo:rerun-if-changed={}", archive.display());
    if !archive.is_file() {
        let name = archive.display();
        eprintln!("oracle: {name} is not there: write it with tools/library");
        std::process::exit(1);
    }
    println!("cargo:rustc-link-search=native={}", folder.display());
    println!("cargo:rustc-link-lib=static:+verbatim=libtrussember.a");
}
