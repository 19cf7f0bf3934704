// Takes the texts of bit_ops.rs, node.rs and branch_ops.rs, unchanged, from ../shared/docs beside
// the repository, or from the folder that TRUSSEMBER_TEXTS names. Sets `text` where they are there.
use std::env;
use std::fs;
use std::path::PathBuf;

fn main() {
    println!("cargo:rerun-if-env-changed=TRUSSEMBER_TEXTS");
    let here = PathBuf::from(env::var("CARGO_MANIFEST_DIR").unwrap());
    let folder = match env::var("TRUSSEMBER_TEXTS") {
        Ok(f) => PathBuf::from(f),
        Err(_) => here.join("../../../../shared/docs"),
    };
    let out = PathBuf::from(env::var("OUT_DIR").unwrap());
    let mut found = 0;
    for (text, name) in [
        ("src--nomt--src--beatree--ops--bit_ops.rs.txt", "bit_ops.rs"),
        ("src--nomt--src--beatree--branch--node.rs.txt", "node.rs"),
        (
            "src--nomt--src--beatree--ops--update--branch_ops.rs.txt",
            "branch_ops.rs",
        ),
    ] {
        let from = folder.join(text);
        println!("cargo:rerun-if-changed={}", from.display());
        if let Ok(bytes) = fs::read(&from) {
            fs::write(out.join(name), bytes).unwrap();
            found += 1;
        }
    }
    if found == 3 {
        println!("cargo:rustc-cfg=text");
    }
}
