//! Finds the static library: the file that `TOASTLAGOON_LIB` names, or that of the package beside this folder (`lib`), or that of
//! the repository (`target/staticlib`).

use std::env;
use std::path::{Path, PathBuf};

const LIBRARY: &str = "libtoastlagoon.a";

fn library() -> Result<PathBuf, String> {
    println!("cargo:rerun-if-env-changed=TOASTLAGOON_LIB");
    let top = Path::new(env!("CARGO_MANIFEST_DIR")).join("../../..");
    let places = match env::var_os("TOASTLAGOON_LIB") {
        Some(named) => vec![PathBuf::from(named)],
        None => vec![top.join("lib").join(LIBRARY), top.join("target/staticlib").join(LIBRARY)],
    };
    let found = places.iter().find(|place| place.is_file());
    let found = found
        .ok_or_else(|| format!("no static library at {places:?} (run './build library', or name one in TOASTLAGOON_LIB)"))?;
    found.canonicalize().map_err(|error| format!("{}: {error}", found.display()))
}

fn main() -> Result<(), String> {
    let library = library()?;
    let folder = library.parent().ok_or("the library is in no folder")?;
    if library.file_name() != Some(LIBRARY.as_ref()) {
        return Err(format!("{} is not named {LIBRARY}", library.display()));
    }
    println!("cargo:rerun-if-changed={}", library.display());
    println!("cargo:rustc-link-search=native={}", folder.display());
    println!("cargo:rustc-link-lib=static=toastlagoon");
    Ok(())
}
