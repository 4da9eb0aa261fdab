//! Finds the folder of the library, or has it built, and tells cargo where it is.

use std::env;
use std::path::{Path, PathBuf};
use std::process::Command;

const ARCHIVE: &str = "liboverbrindle.a";
/// The environment variable that names the folder of the archive.
const NAMED: &str = "OVERBRINDLE_LIBRARY";

fn main() {
    println!("cargo::rerun-if-env-changed={NAMED}");
    let found = match env::var_os(NAMED) {
        Some(folder) => named(PathBuf::from(folder)),
        None => own(),
    };
    match found {
        Ok(folder) => {
            let archive = folder.join(ARCHIVE);
            println!("cargo::rerun-if-changed={}", archive.display());
            println!("cargo::rustc-link-search=native={}", folder.display());
        }
        Err(why) => println!("cargo::error={why}"),
    }
}

/// The folder that the environment names.
fn named(folder: PathBuf) -> Result<PathBuf, String> {
    match folder.is_absolute() && folder.join(ARCHIVE).is_file() {
        true => Ok(folder),
        false => Err(format!(
            "{NAMED} has to be the whole path of a folder with {ARCHIVE}, and is '{}'",
            folder.display()
        )),
    }
}

/// The repository's own, which tools/library writes. One that is there is taken as it is.
fn own() -> Result<PathBuf, String> {
    let package = env::var_os("CARGO_MANIFEST_DIR").expect("cargo names the package's folder");
    let repository = Path::new(&package).join("../..");
    let folder = repository.join("target/library");
    if !folder.join(ARCHIVE).is_file() {
        build(&repository.join("tools/library"))?;
    }
    Ok(folder)
}

fn build(script: &Path) -> Result<(), String> {
    let why = match Command::new(script).output() {
        Ok(done) if done.status.success() => return Ok(()),
        Ok(done) => last_line(&done.stderr),
        Err(error) => error.to_string(),
    };
    Err(format!(
        "no {ARCHIVE}: tools/library of the repository makes it, and said '{why}'; see to that, \
         or set {NAMED} to the whole path of a folder that has the archive"
    ))
}

fn last_line(said: &[u8]) -> String {
    let said = String::from_utf8_lossy(said);
    said.lines().last().unwrap_or("nothing").to_string()
}
