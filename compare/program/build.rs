//! Links the static library of the proved calls, which `compare/library` writes, to the program;
//! the tests of the reference need no library.

use std::path::Path;

fn main() {
    let library = Path::new(env!("CARGO_MANIFEST_DIR")).join("../../target/staticlib/libcapi.a");
    println!("cargo:rerun-if-changed={}", library.display());
    println!("cargo:rustc-link-arg-bins={}", library.display());
}
