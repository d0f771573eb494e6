//! Finds the proved archive and links it: `KOSHIRGA_ARCHIVE`, or else the one that `tools/archive`
//! makes at the repository's root. Without `rt` an archive that is already there is taken.

use std::io::ErrorKind;
use std::path::{Path, PathBuf};
use std::process::{exit, Command};
use std::{env, fs};

fn main() {
    let package = PathBuf::from(env::var_os("CARGO_MANIFEST_DIR").unwrap());
    let out = PathBuf::from(env::var_os("OUT_DIR").unwrap());
    let root = package.parent().unwrap();
    println!("cargo:rerun-if-changed=build.rs");
    println!("cargo:rerun-if-env-changed=KOSHIRGA_ARCHIVE");
    let archive = match env::var_os("KOSHIRGA_ARCHIVE") {
        Some(path) if !path.is_empty() => as_it_is(root.join(path)),
        _ => proved_archive(root),
    };
    // A copy, so that this build outlives the removal of the root's target/.
    if let Err(e) = fs::copy(&archive, out.join("libc_api.a")) {
        fail(&format!("no archive at {}: {e}", archive.display()));
    }
    println!("cargo:rustc-link-search=native={}", out.display());
    println!("cargo:rustc-link-lib=static=c_api");
}

/// An archive that was made before: a newer one is taken when it comes.
fn as_it_is(archive: PathBuf) -> PathBuf {
    println!("cargo:rerun-if-changed={}", archive.display());
    archive
}

/// The archive of the crates as they are now, which decide alone when it is made again.
fn proved_archive(root: &Path) -> PathBuf {
    println!("cargo:rerun-if-changed={}", root.join("crates.txt").display());
    println!("cargo:rerun-if-changed={}", root.join("tools/archive").display());
    for part in sources(&root.join("crates")) {
        println!("cargo:rerun-if-changed={}", part.display());
    }
    let archive = root.join("target/staticlib/libc_api.a");
    match Command::new("rt").arg("version").output() {
        Ok(_) => {}
        Err(e) if e.kind() == ErrorKind::NotFound && archive.is_file() => {
            println!(
                "cargo:warning=no `rt` here: linking {} as it is",
                archive.display()
            );
            return as_it_is(archive);
        }
        Err(e) => fail(&format!(
            "`rt` can't be run: {e}\n\
             set KOSHIRGA_ARCHIVE to an archive that `tools/archive` made elsewhere"
        )),
    }
    match Command::new(root.join("tools/archive")).output() {
        Ok(run) if run.status.success() => archive,
        Ok(run) => fail(&format!(
            "`tools/archive` failed at {}\n{}{}",
            root.display(),
            String::from_utf8_lossy(&run.stdout),
            String::from_utf8_lossy(&run.stderr)
        )),
        Err(e) => fail(&format!("`tools/archive` can't be run: {e}")),
    }
}

/// What the archive is made of: each crate's folder but for `out`, which a check writes.
fn sources(crates: &Path) -> Vec<PathBuf> {
    let folders = fs::read_dir(crates).unwrap_or_else(|e| fail(&format!("no crates: {e}")));
    folders
        .flatten()
        .flat_map(|folder| ["src", "specs", "proofs"].map(|part| folder.path().join(part)))
        .filter(|part| part.is_dir())
        .collect()
}

fn fail(message: &str) -> ! {
    eprintln!("koshirga: {message}");
    exit(1)
}
