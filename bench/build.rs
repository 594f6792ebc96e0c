//! Links the static library of the proved calls, which `compare/library` writes, and libxml2 where
//! it is installed.

use std::path::{Path, PathBuf};
use std::process::Command;

/// A program that tells of libxml2.
struct Teller {
    program: &'static str,
    /// What it is asked for the linker's flags.
    flags: &'static [&'static str],
    /// What it is asked for a folder of the installation, and a file there.
    folder: &'static [&'static str],
    file: &'static str,
}

const TELLERS: [Teller; 2] = [
    Teller {
        program: "xml2-config",
        flags: &["--libs"],
        folder: &["--prefix"],
        file: "bin/xml2-config",
    },
    Teller {
        program: "pkg-config",
        flags: &["--libs", "libxml-2.0"],
        folder: &["--variable=pcfiledir", "libxml-2.0"],
        file: "libxml-2.0.pc",
    },
];

/// No file has this name. Cargo runs this program again at each build while it watches for it: a
/// file that a package brings may be older than the last build, so that watching for it is no help.
const NO_FILE: &str = "libxml2-is-not-installed";

fn main() {
    let library = Path::new(env!("CARGO_MANIFEST_DIR")).join("../target/staticlib/libcapi.a");
    println!("cargo:rerun-if-changed={}", library.display());
    println!("cargo:rustc-link-arg-bins={}", library.display());
    println!("cargo:rerun-if-changed=build.rs");
    println!("cargo:rustc-check-cfg=cfg(libxml2)");
    let Some((flags, file)) = TELLERS.iter().find_map(Teller::installed) else {
        println!("cargo:rerun-if-changed={NO_FILE}");
        return;
    };
    println!("cargo:rerun-if-changed={}", file.display());
    println!("cargo:rustc-cfg=libxml2");
    for flag in flags.split_whitespace() {
        println!("cargo:rustc-link-arg-bins={flag}");
    }
}

impl Teller {
    /// The linker's flags and a file that is there as long as libxml2 is installed.
    fn installed(&self) -> Option<(String, PathBuf)> {
        let flags = told(self.program, self.flags)?;
        let folder = told(self.program, self.folder)?;
        Some((flags, Path::new(folder.trim_end()).join(self.file)))
    }
}

/// What a program writes, if it is there and ends well.
fn told(program: &str, arguments: &[&str]) -> Option<String> {
    let output = Command::new(program).args(arguments).output().ok()?;
    let written = String::from_utf8(output.stdout).ok()?;
    output.status.success().then_some(written)
}
