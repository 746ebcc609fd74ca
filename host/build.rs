//! Proves the crates of the boundary and all below them, and links their archives: `rt lib` writes one only of a proved crate.
use std::{
    env, fs,
    path::{Path, PathBuf},
    process::{Command, exit},
};

/// A board fitted and the checked event; the quick calls, line changes apart; page tables, views and pokes; the same of two buffers; the
/// check on a card's list; state files and sessions; the probe of the layout.
const LIBRARIES: [&str; 8] = [
    "molbitak_board",
    "molbitak_step",
    "molbitak_lines",
    "molbitak_views",
    "molbitak_split",
    "molbitak_cards",
    "molbitak_session",
    "molbitak_probe",
];

fn fail(what: &str) -> ! {
    eprintln!("molbitak: {what}");
    exit(1)
}

/// The folder with crates.txt: this package lies in it.
fn repository() -> PathBuf {
    let here = PathBuf::from(env::var_os("CARGO_MANIFEST_DIR").expect("cargo sets it"));
    match here.parent() {
        Some(root) if root.join("crates.txt").is_file() => root.to_path_buf(),
        _ => fail("the folder above this package is not the repository: it has no crates.txt"),
    }
}

/// `rt lib` leaves the archive in the crate's folder, from where a later `rt ci` removes it: cargo gets a copy.
fn build_library(crates: &Path, name: &str, to: &Path) {
    let folder = crates.join(name);
    let out = match Command::new("rt").arg("lib").current_dir(&folder).output() {
        Ok(out) => out,
        Err(e) => fail(&format!(
            "cannot run `rt`, the Rattle toolchain, which proves and builds the board ({e}). Put the folder that holds `rt` on the PATH."
        )),
    };
    if !out.status.success() {
        fail(&format!(
            "`rt lib` failed in {} ({}):\n{}{}",
            folder.display(),
            out.status,
            String::from_utf8_lossy(&out.stdout),
            String::from_utf8_lossy(&out.stderr)
        ));
    }
    let archive = format!("lib{name}.a");
    let made = folder.join("out").join(&archive);
    if let Err(e) = fs::copy(&made, to.join(archive)) {
        fail(&format!("`rt lib` left no archive that can be copied: {} ({e})", made.display()));
    }
}

/// What a check of any crate reads. The crates' own folders stand for none of it: `rt` writes into their out/.
fn inputs(root: &Path) -> Vec<PathBuf> {
    let mut found = vec![root.join("crates.txt")];
    match fs::read_dir(root.join("crates")) {
        Ok(crates) => {
            for folder in crates.flatten() {
                let parts = ["src", "specs", "proofs"].map(|part| folder.path().join(part));
                found.extend(parts.into_iter().filter(|part| part.is_dir()));
            }
        }
        Err(e) => fail(&format!("cannot list {} ({e})", root.join("crates").display())),
    }
    found
}

fn main() {
    println!("cargo:rerun-if-changed=build.rs");
    let root = repository();
    for input in inputs(&root) {
        println!("cargo:rerun-if-changed={}", input.display());
    }
    let (arch, os) = (env::var("CARGO_CFG_TARGET_ARCH"), env::var("CARGO_CFG_TARGET_OS"));
    if arch.as_deref() != Ok("x86_64") || os.as_deref() != Ok("linux") {
        fail("`rt lib` compiles for x86-64 Linux only");
    }
    let archives = PathBuf::from(env::var_os("OUT_DIR").expect("cargo sets it"));
    println!("cargo:rustc-link-search=native={}", archives.display());
    for name in LIBRARIES {
        build_library(&root.join("crates"), name, &archives);
        println!("cargo:rustc-link-lib=static={name}");
    }
}
