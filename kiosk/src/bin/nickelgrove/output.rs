//! What is written, to standard output or to a file.

use std::fs::{self, File};
use std::io;
use std::path::Path;
use std::process;

use crate::counter;

/// Writes all of it. A file is there with all of it or as it was before: the text is written beside it, and then takes its name.
pub fn write(file: Option<&Path>, text: &[u8]) -> Result<(), String> {
    match file {
        None => counter::write(&mut io::stdout().lock(), text).map_err(|error| format!("writing: {error}")),
        Some(file) => replace(file, text).map_err(|error| format!("writing {}: {error}", file.display())),
    }
}

fn replace(file: &Path, text: &[u8]) -> io::Result<()> {
    // a link stays, and what it names is replaced; a device or a folder is not
    let file = match fs::metadata(file) {
        Ok(there) if !there.is_file() => return Err(io::Error::new(io::ErrorKind::InvalidInput, "it is there, and no file")),
        Ok(_) => fs::canonicalize(file)?,
        Err(_) => file.to_path_buf(),
    };
    let mut name = file.file_name().ok_or(io::ErrorKind::InvalidInput)?.to_os_string();
    name.push(format!(".{}.part", process::id()));
    let beside = file.with_file_name(name);
    let mut made = File::create_new(&beside)?;
    let written = counter::write(&mut made, text).and_then(|()| made.sync_all()).and_then(|()| fs::rename(&beside, &file));
    if written.is_err() {
        // what failed is told; what is left over goes
        let _ = fs::remove_file(&beside);
    }
    written
}

/// Says it on standard error.
pub fn say(what: &str) -> io::Result<()> {
    counter::write(&mut io::stderr().lock(), what.as_bytes())
}
