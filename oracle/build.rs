//! Finds the published files through TETANES_CORE_SRC and writes the two modules that the library includes:
//! the published files by path, or where the variable is not set stand-ins of the same shape that only say so.
//! A folder without the two files stops the build.
use std::{
    env, fs,
    path::{Path, PathBuf},
    process::exit,
};

fn fail(folder: &Path, file: &Path) -> ! {
    eprintln!(
        "oracle: TETANES_CORE_SRC is {}, and there is no file {}. Set it to the absolute path of the folder that holds \
         src/mapper/bandai_fcg.rs and src/memory.rs of tetanes-core 0.17.0; without it the comparisons are passed over.",
        folder.display(),
        file.display()
    );
    exit(1)
}

fn main() {
    println!("cargo:rerun-if-env-changed=TETANES_CORE_SRC");
    println!("cargo:rustc-check-cfg=cfg(published)");
    let own = PathBuf::from(env::var("CARGO_MANIFEST_DIR").unwrap()).join("src/absent");
    let mut files = [own.join("bandai_fcg.rs"), own.join("memory.rs")];
    if let Some(folder) = env::var_os("TETANES_CORE_SRC").filter(|folder| !folder.is_empty()) {
        let folder = PathBuf::from(folder);
        let src = folder.join("src");
        let published = [src.join("mapper/bandai_fcg.rs"), src.join("memory.rs")];
        for file in &published {
            println!("cargo:rerun-if-changed={}", file.display());
        }
        if let Some(absent) = published.iter().find(|file| !file.is_file()) {
            fail(&folder, absent);
        }
        println!("cargo:rustc-cfg=published");
        files = published.map(|file| file.canonicalize().unwrap());
    }
    let modules = format!(
        "#[path = {:?}]\npub mod bandai_fcg;\n#[path = {:?}]\npub mod memory;\n",
        files[0].to_str().unwrap(),
        files[1].to_str().unwrap()
    );
    fs::write(PathBuf::from(env::var("OUT_DIR").unwrap()).join("published.rs"), modules).unwrap();
}
