//! Links the archive of the proved library, and the kit's glue to the C library beside it.

use std::env;
use std::path::{Path, PathBuf};
use std::process::Command;

const ARCHIVE: &str = "../crates/capi/out/libcapi.a";
const GLUE: &str = "c/liblibc_c.a";

fn main() {
    if let Err(message) = link() {
        eprintln!("{message}");
        std::process::exit(1);
    }
}

fn link() -> Result<(), String> {
    println!("cargo:rerun-if-changed=build.rs");
    let archive = from_environment("FALLDATE_ARCHIVE").unwrap_or_else(|| ARCHIVE.into());
    link_archive(&archive, "run `rt lib` in crates/capi first")?;
    let glue = kit()?.join(GLUE);
    link_archive(&glue, "set KIT to the folder of the Rattle kit")
}

fn from_environment(name: &str) -> Option<PathBuf> {
    println!("cargo:rerun-if-env-changed={name}");
    env::var_os(name).map(PathBuf::from)
}

/// The folder of the kit: `KIT`, or the one whose `bin/rt` is on the path.
fn kit() -> Result<PathBuf, String> {
    if let Some(kit) = from_environment("KIT") {
        return Ok(kit);
    }
    let answer = Command::new("sh").args(["-c", "readlink -f \"$(command -v rt)\""]).output();
    let found = answer.map_err(|error| format!("sh: {error}"))?.stdout;
    let rt = PathBuf::from(String::from_utf8_lossy(&found).trim());
    let kit = rt.parent().and_then(Path::parent).map(Path::to_path_buf);
    kit.ok_or_else(|| "rt is not on the path: set KIT to the folder of the Rattle kit".into())
}

/// Has cargo link the archive `libNAME.a`, wherever it stands.
fn link_archive(archive: &Path, remedy: &str) -> Result<(), String> {
    let path = archive
        .canonicalize()
        .map_err(|error| format!("{}: {error}: {remedy}", archive.display()))?;
    let stem = path.file_stem().and_then(|stem| stem.to_str());
    let name = stem.and_then(|stem| stem.strip_prefix("lib"));
    let (Some(name), Some(folder)) = (name, path.parent()) else {
        return Err(format!("{}: not of the form libNAME.a", archive.display()));
    };
    println!("cargo:rerun-if-changed={}", path.display());
    println!("cargo:rustc-link-search=native={}", folder.display());
    println!("cargo:rustc-link-lib=static={name}");
    Ok(())
}
