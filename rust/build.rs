//! Links the archive that `tools/archive` makes: the one that `YUZUKNOLL_LIB` names, or else the repository's.

use std::{env, fs, path::PathBuf};

const DEFAULT: &str = "../target/staticlib/libyuzuknoll.a";

fn main() {
    println!("cargo:rerun-if-env-changed=YUZUKNOLL_LIB");
    let path = env::var_os("YUZUKNOLL_LIB").map_or_else(|| DEFAULT.into(), PathBuf::from);
    let path = fs::canonicalize(&path).unwrap_or_else(|e| {
        panic!(
            "no archive at {}: {e}; make it by `tools/archive`",
            path.display()
        )
    });
    let name = path
        .file_name()
        .and_then(|n| n.to_str())
        .expect("a file's name");
    println!("cargo:rerun-if-changed={}", path.display());
    println!(
        "cargo:rustc-link-search=native={}",
        path.parent().expect("a folder").display()
    );
    println!("cargo:rustc-link-lib=static:+verbatim={name}");
}
