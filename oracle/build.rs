//! Writes the module tree through which the Rust's files are compiled where they stand.
//!
//! `SHA256SUMS` lists the Rust's files. A file that has a stub of the same path under `src/stubs` is replaced by it, every other
//! one is compiled as it is, and a stub without a namesake fills in for a file that we were not given.

use std::collections::BTreeMap;
use std::env;
use std::fs;
use std::path::{Path, PathBuf};

/// A module is a file, or the modules below it.
#[derive(Default)]
struct Module {
    file: Option<PathBuf>,
    inner: BTreeMap<String, Module>,
}

impl Module {
    /// Puts `file` at the place that `path`, such as `core/entities/node.rs`, names.
    fn place(&mut self, path: &Path, file: PathBuf) {
        let mut module = self;
        for name in path.with_extension("").iter() {
            let name = name.to_str().expect("a module name in UTF-8").to_string();
            module = module.inner.entry(name).or_default();
        }
        module.file = Some(file);
    }

    /// Writes the declarations of the modules below this one.
    fn declare(&self, text: &mut String) {
        for (name, module) in &self.inner {
            match &module.file {
                Some(file) => text.push_str(&format!("#[path = {file:?}] pub mod {name};\n")),
                None => {
                    text.push_str(&format!("#[allow(warnings)] pub mod {name} {{\n"));
                    module.declare(text);
                    text.push_str("}\n");
                }
            }
        }
    }
}

/// The paths that `SHA256SUMS` lists, below the Rust's own `src`.
fn listed(sums: &Path) -> Vec<PathBuf> {
    let text = fs::read_to_string(sums).expect("SHA256SUMS is readable");
    text.lines()
        .map(|line| line.split_whitespace().nth(1).expect("a sum and a path on each line"))
        .map(|path| PathBuf::from(path.strip_prefix("src/").expect("paths begin with src/")))
        .collect()
}

/// The files below `folder`, by their path within it.
fn files_below(folder: &Path) -> Vec<PathBuf> {
    let mut found = Vec::new();
    let mut folders = vec![folder.to_path_buf()];
    while let Some(next) = folders.pop() {
        for entry in fs::read_dir(&next).expect("the folder of stubs is readable") {
            let path = entry.expect("an entry").path();
            if path.is_dir() {
                folders.push(path);
            } else {
                found.push(path.strip_prefix(folder).expect("below the folder").to_path_buf());
            }
        }
    }
    found
}

fn main() {
    let here = PathBuf::from(env::var_os("CARGO_MANIFEST_DIR").expect("set by cargo"));
    let rust = env::var_os("ORACLE_RUST").map_or_else(|| here.join("../../shared/docs/src"), PathBuf::from);
    let stubs = here.join("src/stubs");

    let mut root = Module::default();
    for path in listed(&here.join("SHA256SUMS")) {
        let file = rust.join("src").join(&path);
        println!("cargo:rerun-if-changed={}", file.display());
        root.place(&path, file);
    }
    for path in files_below(&stubs) {
        root.place(&path, stubs.join(&path));
    }

    let mut text = String::new();
    root.declare(&mut text);
    let out = PathBuf::from(env::var_os("OUT_DIR").expect("set by cargo")).join("rust.rs");
    fs::write(out, text).expect("the module tree is writable");

    println!("cargo:rerun-if-env-changed=ORACLE_RUST");
    println!("cargo:rerun-if-changed=SHA256SUMS");
    println!("cargo:rerun-if-changed=src/stubs");
}
