//! Links libdaly.a, and with the feature `board` also libwriters.a, from DALY_LIB_DIR or, where that is not set, from
//! ../target/staticlib.

use std::env;
use std::path::{Path, PathBuf};
use std::process::ExitCode;

const FOLDER: &str = "DALY_LIB_DIR";

/// What the target has to be, as cargo tells it.
const TARGET: [(&str, &str); 3] = [
    ("CARGO_CFG_TARGET_OS", "linux"),
    ("CARGO_CFG_TARGET_ARCH", "x86_64"),
    ("CARGO_CFG_TARGET_POINTER_WIDTH", "64"),
];

fn main() -> ExitCode {
    match check_target().and_then(|()| link()) {
        Ok(()) => ExitCode::SUCCESS,
        Err(text) => {
            eprintln!("{text}");
            ExitCode::FAILURE
        }
    }
}

fn check_target() -> Result<(), String> {
    for (name, wanted) in TARGET {
        let found = env::var(name).unwrap_or_default();
        if found != wanted {
            return Err(format!(
                "libdaly.a is for x86-64 Linux, and this target is not ({name} is {found}). \
                 Build with `--target x86_64-unknown-linux-gnu`."
            ));
        }
    }
    Ok(())
}

fn link() -> Result<(), String> {
    println!("cargo:rerun-if-env-changed={FOLDER}");
    let folder = folder()?;
    link_archive(&folder, "daly")?;
    match env::var_os("CARGO_FEATURE_BOARD") {
        Some(_) => link_archive(&folder, "writers"),
        None => Ok(()),
    }
}

fn link_archive(folder: &Path, name: &str) -> Result<(), String> {
    let archive = folder.join(format!("lib{name}.a"));
    println!("cargo:rerun-if-changed={}", archive.display());
    // Whole: the linker runs in another folder.
    let Some(whole) = archive.canonicalize().ok() else {
        return Err(format!(
            "{} is missing. `tools/build {name}`, at the top of the repository, makes it; \
             an archive in another folder is found by {FOLDER}.",
            archive.display()
        ));
    };
    let place = whole.parent().unwrap_or(folder);
    println!("cargo:rustc-link-search=native={}", place.display());
    println!("cargo:rustc-link-lib=static={name}");
    Ok(())
}

fn folder() -> Result<PathBuf, String> {
    let Some(folder) = env::var_os(FOLDER).map(PathBuf::from) else {
        return Ok(Path::new("..").join("target").join("staticlib"));
    };
    if folder.is_absolute() {
        return Ok(folder);
    }
    println!("cargo:rerun-if-env-changed=PWD");
    let here = here().ok_or(format!("{FOLDER} needs a whole path here"))?;
    Ok(here.join(folder))
}

/// Where one stands. Cargo stands there too, though it runs this in the crate's folder.
fn here() -> Option<PathBuf> {
    folder_of_cargo().or_else(|| env::var_os("PWD").map(PathBuf::from))
}

#[cfg(unix)]
fn folder_of_cargo() -> Option<PathBuf> {
    let cargo = std::os::unix::process::parent_id();
    std::fs::read_link(format!("/proc/{cargo}/cwd")).ok()
}

#[cfg(not(unix))]
fn folder_of_cargo() -> Option<PathBuf> {
    None
}
