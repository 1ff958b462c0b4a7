//! Finds the archive of the proved crate `kiosk`: in the folder that NICKELGROVE_ARCHIVE names, or where the checkout has it. Then it must be no older than
//! the files that it is made of.
//!
//! `rt lib` in crates/kiosk leaves it in that crate's out/, for x86-64 alone; `tools/native kiosk` leaves one for this machine in target/native.

use std::path::{Path, PathBuf};
use std::time::SystemTime;
use std::{env, fs, process};

const FOLDER: &str = "NICKELGROVE_ARCHIVE";
const ARCHIVE: &str = "libkiosk.a";

fn main() {
    println!("cargo:rerun-if-env-changed={FOLDER}");
    let root = Path::new(&env::var_os("CARGO_MANIFEST_DIR").expect("set by cargo")).join("..");
    let named = env::var_os(FOLDER).map(|folder| vec![PathBuf::from(folder)]);
    let in_checkout = named.is_none();
    let folders = named.unwrap_or_else(|| folders_of(&root));
    for folder in &folders {
        println!("cargo:rerun-if-changed={}", folder.join(ARCHIVE).display());
    }
    let Some(folder) = folders.iter().find(|folder| folder.join(ARCHIVE).is_file()) else {
        stop(&format!("no {ARCHIVE} in {folders:?}: run `tools/native kiosk`, or name its folder in {FOLDER}"));
    };
    if in_checkout {
        let made = time_of(&folder.join(ARCHIVE));
        if let Some(newer) = sources(&root).into_iter().find(|source| time_of(source) > made) {
            stop(&format!("{ARCHIVE} is older than {}: run `tools/native kiosk`", newer.display()));
        }
    }
    println!("cargo:rustc-link-search=native={}", folder.display());
    println!("cargo:rustc-link-lib=static=kiosk");
}

/// Says what to do, and no more.
fn stop(message: &str) -> ! {
    eprintln!("{message}");
    process::exit(1)
}

/// The folders of the checkout that may have an archive for the machine that is compiled for.
fn folders_of(root: &Path) -> Vec<PathBuf> {
    let mut folders = vec![root.join("target/native")];
    if env::var("CARGO_CFG_TARGET_ARCH").is_ok_and(|machine| machine == "x86_64") {
        folders.push(root.join("crates/kiosk/out"));
    }
    folders
}

/// The files that the archive is made of: crates.txt, and the Rattle and antt files of the crate `kiosk` and of those that it rests on.
fn sources(root: &Path) -> Vec<PathBuf> {
    let list = root.join("crates.txt");
    let text = fs::read_to_string(&list).expect("crates.txt of the checkout");
    let lines: Vec<&str> = text.lines().map(|line| line.split('#').next().unwrap_or_default()).collect();
    let mut names = vec!["kiosk"];
    let mut at = 0;
    while at < names.len() {
        // a crate of the kit has no line
        let below = lines.iter().find_map(|line| below(line, names[at])).unwrap_or_default();
        for name in below.split_whitespace() {
            if !names.contains(&name) {
                names.push(name);
            }
        }
        at += 1;
    }
    println!("cargo:rerun-if-changed={}", list.display());
    let mut files = vec![list];
    for name in names {
        for folder in ["src", "specs", "proofs"].map(|folder| root.join("crates").join(name).join(folder)) {
            if folder.is_dir() {
                println!("cargo:rerun-if-changed={}", folder.display());
                collect(&folder, &mut files);
            }
        }
    }
    files
}

/// What a line of crates.txt, `NAME: LIBRARY ..` or `NAME staticlib: LIBRARY ..`, says that this crate rests on, if it is this crate's.
fn below<'a>(line: &'a str, name: &str) -> Option<&'a str> {
    let (crate_and_kind, libraries) = line.split_once(':')?;
    (crate_and_kind.split_whitespace().next() == Some(name)).then_some(libraries)
}

/// The Rattle and antt files of a folder and of those in it.
fn collect(folder: &Path, files: &mut Vec<PathBuf>) {
    for entry in fs::read_dir(folder).expect("a folder of the checkout") {
        let path = entry.expect("an entry of the checkout").path();
        if path.is_dir() {
            collect(&path, files);
        } else if path.extension().is_some_and(|ending| ending == "rt" || ending == "antt") {
            files.push(path);
        }
    }
}

fn time_of(file: &Path) -> SystemTime {
    fs::metadata(file).and_then(|data| data.modified()).expect("the time of a file")
}
