//! Finds the archive that the calls are linked with, or has it made from the proved library.
use std::env;
use std::path::{Path, PathBuf};
use std::process::{exit, Command};

const ARCHIVE: &str = "libboard.a";
const NAMED_BY: &str = "CHICKADOOR_ARCHIVE";

fn main() {
    println!("cargo:rerun-if-env-changed={}", NAMED_BY);
    if env::var_os("CARGO_FEATURE_ARCHIVE").is_none() {
        return;
    }
    match folder_for_target() {
        Ok(folder) => {
            println!("cargo:rerun-if-changed={}", folder.join(ARCHIVE).display());
            println!("cargo:rustc-link-search=native={}", folder.display());
            println!("cargo:rustc-link-lib=static=board");
        }
        Err(message) => {
            eprintln!("{}", message);
            exit(1);
        }
    }
}

fn folder_for_target() -> Result<PathBuf, String> {
    let machine = env::var("CARGO_CFG_TARGET_ARCH").unwrap_or_default();
    if machine != "x86_64" {
        return Err(format!(
            "The archive {} links only into x86-64 programs, and this build is for {}.\n\
             `--target x86_64-unknown-linux-gnu` builds for x86-64; `--no-default-features` builds what needs no archive.",
            ARCHIVE, machine
        ));
    }
    match env::var_os(NAMED_BY) {
        Some(folder) => named(PathBuf::from(folder)),
        None => made(),
    }
}

/// The folder that the user names. One without an archive is a mistake in the name, so nothing is made there.
fn named(folder: PathBuf) -> Result<PathBuf, String> {
    match folder.canonicalize() {
        Ok(folder) if folder.join(ARCHIVE).is_file() => Ok(folder),
        _ => Err(format!("{} names {}, and there is no {} in it.", NAMED_BY, folder.display(), ARCHIVE)),
    }
}

/// The folder that the script `archive` writes to. The script is run if the archive is not there.
fn made() -> Result<PathBuf, String> {
    let package = PathBuf::from(env::var_os("CARGO_MANIFEST_DIR").unwrap_or_default());
    let root = package.parent().unwrap_or(&package);
    let folder = root.join("target").join("staticlib");
    if !folder.join(ARCHIVE).is_file() {
        make(root).map_err(|why| missing(&folder, &why))?;
    }
    if folder.join(ARCHIVE).is_file() {
        return Ok(folder);
    }
    Err(missing(&folder, "`./archive` ended without it"))
}

fn make(root: &Path) -> Result<(), String> {
    // What is printed is kept from cargo, which would read it for orders.
    let ran = Command::new(root.join("archive")).output();
    let output = ran.map_err(|error| format!("the script archive does not start: {}", error))?;
    if output.status.success() {
        return Ok(());
    }
    let said = [output.stdout, output.stderr].concat();
    Err(format!("`./archive` failed: {}", String::from_utf8_lossy(&said).trim()))
}

fn missing(folder: &Path, why: &str) -> String {
    format!(
        "The archive {} is missing in {} ({}).\n\
         `./archive` makes it with Rattle's toolchain, at the root of the project; {} can name another folder that has it. It is for x86-64.",
        ARCHIVE,
        folder.display(),
        why,
        NAMED_BY
    )
}
