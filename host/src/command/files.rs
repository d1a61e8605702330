//! Files that the command writes: all of them or none, each beside its place first and then renamed into it.

use std::ffi::OsString;
use std::fs::{self, File};
use std::io::{self, Write};
use std::path::{Path, PathBuf};
use std::process;

use super::Failure;
use super::diagnostic::{Diagnostic, Place};
use super::options::{Options, file_text, is_dash};

/// What is wrong with where the outputs are to go, before anything is read.
pub fn check(options: &Options) -> Result<(), Failure> {
    let outputs = options.outputs();
    let named: Vec<(&str, &Path)> = outputs
        .into_iter()
        .filter_map(|(option, path)| Some((option, path?)))
        .collect();
    let unusable =
        |sentence| Failure::unusable(Diagnostic::error(format!("{sentence}; nothing is written")));
    for (i, (option, path)) in named.iter().enumerate() {
        let file = file_text(path.as_os_str());
        let mut sheets = options.files.iter().filter(|sheet| !is_dash(sheet));
        if sheets.any(|sheet| is_same(path, Path::new(sheet))) {
            return Err(unusable(format!(
                "{option} names {file}, which is the sheet itself"
            )));
        }
        let mut others = named[..i].iter();
        if let Some((other, _)) = others.find(|(_, other)| is_same(other, path)) {
            return Err(unusable(format!("{other} and {option} both name {file}")));
        }
    }
    Ok(())
}

/// Whether two names stand for one file.
fn is_same(a: &Path, b: &Path) -> bool {
    if a == b {
        return true;
    }
    if is_dash(a.as_os_str()) || is_dash(b.as_os_str()) {
        return false;
    }
    is_one_file(a, b) || settled(a).is_some_and(|a| settled(b).is_some_and(|b| a == b))
}

#[cfg(unix)]
fn is_one_file(a: &Path, b: &Path) -> bool {
    use std::os::unix::fs::MetadataExt;
    let id = |path| fs::metadata(path).map(|found| (found.dev(), found.ino(), found.is_file()));
    match (id(a), id(b)) {
        (Ok(a), Ok(b)) => a.2 && a == b,
        _ => false,
    }
}

#[cfg(not(unix))]
fn is_one_file(_: &Path, _: &Path) -> bool {
    false
}

/// A path with every link followed, whether its file is there or not.
fn settled(path: &Path) -> Option<PathBuf> {
    if let Ok(found) = fs::canonicalize(path) {
        return Some(found);
    }
    let folder = match path.parent() {
        Some(folder) if !folder.as_os_str().is_empty() => folder,
        _ => Path::new("."),
    };
    Some(fs::canonicalize(folder).ok()?.join(path.file_name()?))
}

/// Writes what the options ask for: code, object, sheet and page, in this order. Nothing takes its place before all are written.
pub fn write(options: &Options, contents: [&[u8]; 4]) -> Result<(), Failure> {
    let outputs = options.outputs().into_iter().zip(contents);
    let files: Vec<(&Path, &[u8])> = outputs
        .filter_map(|((_, path), bytes)| Some((path?, bytes)))
        .collect();
    let mut prepared = Vec::new();
    for (path, bytes) in &files {
        prepared.push(Prepared::new(path, bytes).map_err(|error| unwritable(path, &error))?);
    }
    for ((path, bytes), prepared) in files.iter().zip(prepared) {
        prepared
            .place(bytes)
            .map_err(|error| unwritable(path, &error))?;
    }
    Ok(())
}

fn unwritable(path: &Path, error: &io::Error) -> Failure {
    let file = file_text(path.as_os_str());
    let message = Diagnostic::error(format!("can't be written: {error}"));
    Failure::unusable(message.at(Place::file(&file)))
}

/// A file about to be written.
enum Prepared {
    /// Written beside its place.
    Beside(Beside),
    /// No plain file, such as a pipe or a terminal: what is written to it can't be renamed.
    Direct(PathBuf),
    StandardOutput,
}

impl Prepared {
    fn new(path: &Path, bytes: &[u8]) -> io::Result<Self> {
        if is_dash(path.as_os_str()) {
            return Ok(Self::StandardOutput);
        }
        match fs::metadata(path) {
            Ok(found) if found.is_dir() => Err(io::ErrorKind::IsADirectory.into()),
            Ok(found) if !found.is_file() => Ok(Self::Direct(path.into())),
            Ok(found) if found.permissions().readonly() => {
                Err(io::ErrorKind::PermissionDenied.into())
            }
            found => {
                let place = settled(path).ok_or(io::ErrorKind::NotFound)?;
                let beside = Beside::write(place, bytes)?;
                if let Ok(found) = found {
                    fs::set_permissions(&beside.draft, found.permissions())?;
                }
                Ok(Self::Beside(beside))
            }
        }
    }

    fn place(self, bytes: &[u8]) -> io::Result<()> {
        match self {
            Self::Beside(beside) => fs::rename(&beside.draft, &beside.place),
            Self::Direct(path) => fs::write(path, bytes),
            Self::StandardOutput => super::print(bytes),
        }
    }
}

/// A draft beside the place that it is for, removed unless it is renamed.
struct Beside {
    draft: PathBuf,
    place: PathBuf,
}

impl Beside {
    fn write(place: PathBuf, bytes: &[u8]) -> io::Result<Self> {
        let mut name = OsString::from(".");
        name.push(place.file_name().ok_or(io::ErrorKind::NotFound)?);
        name.push(format!(".{}.draft", process::id()));
        let draft = place.with_file_name(name);
        let mut file = File::create_new(&draft)?;
        let beside = Self { draft, place };
        file.write_all(bytes)?;
        file.sync_all()?;
        Ok(beside)
    }
}

impl Drop for Beside {
    fn drop(&mut self) {
        // Where it was renamed there is nothing left to remove.
        let _ = fs::remove_file(&self.draft);
    }
}
