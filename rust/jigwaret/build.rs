//! Links the archive of the proved library. Without it, only what calls none of its functions can be
//! linked.

use std::env;
use std::path::PathBuf;

fn main() {
    let package = PathBuf::from(env::var("CARGO_MANIFEST_DIR").expect("cargo sets this"));
    let archive = package.join("../../target/staticlib/libjigwaret.a");
    println!("cargo:rerun-if-changed={}", archive.display());
    match archive.canonicalize() {
        Ok(found) => {
            let folder = found.parent().expect("a file lies in a folder");
            println!("cargo:rustc-link-search=native={}", folder.display());
            println!("cargo:rustc-link-lib=static=jigwaret");
        }
        Err(_) => println!("cargo:warning=no libjigwaret.a: make it with `tools/build`"),
    }
}
