//! Brings the compared Rust into the build, as generated files in cargo's output folder:
//! `lattice.rs` whole, and the named items of `flat.rs`. Nothing is written elsewhere.

use std::path::{Path, PathBuf};
use std::process::{exit, Command};
use std::{env, fs};

const LATTICE: &str = "src/subdivision/lattice.rs";
const FLAT: &str = "src/flat.rs";

/// The items taken from `flat.rs`, each by its head line's beginning.
const FLAT_ITEMS: [&str; 9] = [
    "pub(crate) fn cube_project(",
    "fn cube_face_project(",
    "pub(crate) fn extract_faces(",
    "struct CachedFace {",
    "pub(crate) struct FaceGrid {",
    "impl FaceGrid {",
    "pub(crate) fn bfs_vertex_permutation(",
    "pub(crate) fn apply_vertex_permutation<",
    "pub(crate) fn projected_barycentric(",
];

/// The one line of `lattice.rs` that is changed, so that the constants can stand in its place.
const POINTS_HEAD: &str = "fn icosahedron_points() -> Vec<Vector3> {";
const POINTS_HEAD_RENAMED: &str = "fn computed_icosahedron_points() -> Vec<Vector3> {";

fn main() {
    let package = PathBuf::from(env::var_os("CARGO_MANIFEST_DIR").unwrap());
    let out = PathBuf::from(env::var_os("OUT_DIR").unwrap());
    let sums = package.join("sources.sha256");
    let source = source_folder(&package);
    println!("cargo:rerun-if-env-changed=ICOTABLE_SRC");
    println!("cargo:rerun-if-changed=build.rs");
    println!("cargo:rerun-if-changed={}", sums.display());
    for file in [LATTICE, FLAT] {
        let path = source.join(file);
        println!("cargo:rerun-if-changed={}", path.display());
        if !path.is_file() {
            fail(&format!(
                "the Rust source is missing: no file {file} in the folder {}\n\
                 set ICOTABLE_SRC to the folder that holds {LATTICE} and {FLAT}",
                source.display()
            ));
        }
    }
    check_sums(&source, &sums);

    let access = package.join("src/access");
    let lattice = lattice_module(&read(&source.join(LATTICE)), &access.join("lattice.rs"));
    let flat = flat_module(&read(&source.join(FLAT)), &access.join("flat.rs"));
    write_module(&out, "lattice", &lattice);
    write_module(&out, "flat", &flat);
}

/// `ICOTABLE_SRC`, or `../shared/docs/src`; a relative path starts at the repository's root.
fn source_folder(package: &Path) -> PathBuf {
    let root = package.join("../..");
    let root = root.canonicalize().unwrap_or(root);
    match env::var_os("ICOTABLE_SRC") {
        Some(folder) if !folder.is_empty() => root.join(folder),
        _ => root.parent().unwrap_or(&root).join("shared/docs/src"),
    }
}

/// Stops where a source file is not the one that the comparison was written for.
fn check_sums(source: &Path, sums: &Path) {
    let check = Command::new("sha256sum")
        .args(["--check", "--strict", "--quiet"])
        .arg(sums)
        .current_dir(source)
        .output()
        .unwrap_or_else(|e| fail(&format!("sha256sum can't be run: {e}")));
    if !check.status.success() {
        fail(&format!(
            "the Rust source in {} has changed: it doesn't match {}\n{}{}",
            source.display(),
            sums.display(),
            String::from_utf8_lossy(&check.stdout),
            String::from_utf8_lossy(&check.stderr)
        ));
    }
}

/// `lattice.rs` with one head line renamed and two lines added: the constants, and the child
/// module that reads its private items.
fn lattice_module(text: &str, access: &Path) -> String {
    let mut renamed = 0;
    let mut module = String::new();
    for line in text.lines() {
        let head = line == POINTS_HEAD;
        renamed += usize::from(head);
        module.push_str(if head { POINTS_HEAD_RENAMED } else { line });
        module.push('\n');
    }
    if renamed != 1 {
        fail(&format!(
            "`{POINTS_HEAD}` occurs {renamed} times in {LATTICE}"
        ));
    }
    module.push_str("use crate::points::icosahedron_points;\n");
    module.push_str(&child_module(access));
    module
}

/// The named items of `flat.rs`, unchanged, with the imports that they need.
fn flat_module(text: &str, access: &Path) -> String {
    let lines: Vec<&str> = text.lines().collect();
    let mut module = String::from(
        "use crate::ico::Face;\nuse crate::Vector3;\nuse std::collections::VecDeque;\n",
    );
    for head in FLAT_ITEMS {
        module.push('\n');
        for line in item(&lines, head) {
            module.push_str(line);
            module.push('\n');
        }
    }
    module.push_str(&child_module(access));
    module
}

/// One item: from the `///` and `#[` lines above its head to the first line that is exactly `}`.
fn item<'a>(lines: &'a [&'a str], head: &str) -> &'a [&'a str] {
    let heads: Vec<usize> = (0..lines.len())
        .filter(|&i| lines[i].starts_with(head))
        .collect();
    let [at] = heads[..] else {
        fail(&format!("`{head}` occurs {} times in {FLAT}", heads.len()));
    };
    let above = |line: &&&str| line.starts_with("///") || line.starts_with("#[");
    let start = at - lines[..at].iter().rev().take_while(above).count();
    match lines[at..].iter().position(|line| *line == "}") {
        Some(length) => &lines[start..=at + length],
        None => fail(&format!("`{head}` has no end in {FLAT}")),
    }
}

/// A child module sees its parent's private items, so nothing is edited to open them.
fn child_module(path: &Path) -> String {
    format!("\n#[path = {:?}]\npub(crate) mod access;\n", text_of(path))
}

/// Writes NAME.rs, and NAME_module.rs that declares it, for `include!` in the library.
fn write_module(out: &Path, name: &str, text: &str) {
    let file = out.join(format!("{name}.rs"));
    let declared = format!(
        "#[allow(dead_code)]\n#[path = {:?}]\npub(crate) mod {name};\n",
        text_of(&file)
    );
    write(&file, text);
    write(&out.join(format!("{name}_module.rs")), &declared);
}

fn text_of(path: &Path) -> &str {
    path.to_str()
        .unwrap_or_else(|| fail(&format!("{} isn't UTF-8", path.display())))
}

fn read(path: &Path) -> String {
    fs::read_to_string(path).unwrap_or_else(|e| fail(&format!("{}: {e}", path.display())))
}

fn write(path: &Path, text: &str) {
    fs::write(path, text).unwrap_or_else(|e| fail(&format!("{}: {e}", path.display())))
}

fn fail(message: &str) -> ! {
    eprintln!("oracle: {message}");
    exit(1)
}
