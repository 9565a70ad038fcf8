//! Files that are written: looked at before a run, and written in place when all is made, so that a file keeps its owner and mode
//! and a link stays a link. On an error each has again what was in it.

use std::fs::{self, OpenOptions};
use std::io::{self, ErrorKind, Write};
use std::os::unix::fs::MetadataExt;
use std::path::{Path, PathBuf};

use crate::file::{why, Errors, STANDARD};
use crate::shown;
use crate::standard;

/// A file that is to be written, or standard output.
pub struct Target {
    /// Its name in messages.
    pub name: String,
    /// The file; none for standard output.
    path: Option<PathBuf>,
}

/// Which file a path leads to: by its number on its disk, or by its folder and name if it is not there yet.
#[derive(PartialEq)]
enum Same {
    Number(u64, u64),
    Name(PathBuf),
    Standard,
}

/// The targets of a command, each of which can be written. None is a file that is read, and none is another one.
pub fn targets(paths: &[&str], inputs: &[&str]) -> Result<Vec<Target>, Errors> {
    let named = inputs.iter().filter(|path| **path != STANDARD).map(Path::new);
    let mut taken: Vec<Same> = named.chain(standard::output_file()).map(same).collect();
    let mut targets = Vec::new();
    for path in paths {
        let target = Target::new(path)?;
        let place = target.path.as_deref().map_or(Same::Standard, same);
        if taken.contains(&place) && !target.is_special() {
            return Err(vec![target.says("would be written over another file of this command: give it another name")]);
        }
        taken.push(place);
        targets.push(target);
    }
    Ok(targets)
}

/// Writes all of them, or none.
pub fn write(files: &[(Target, Vec<u8>)]) -> Result<(), Errors> {
    let mut written: Vec<Before> = Vec::new();
    for (target, bytes) in files {
        let before = Before::of(target);
        let done = target.open().and_then(|mut output| output.write_all(bytes).and_then(|()| output.flush()));
        written.push(before);
        if let Err(error) = done {
            written.iter().rev().for_each(Before::restore);
            return Err(vec![target.says(&why(&error))]);
        }
    }
    Ok(())
}

impl Target {
    fn new(path: &str) -> Result<Target, Errors> {
        let target = match path {
            STANDARD => Target { name: standard::OUTPUT.to_string(), path: None },
            _ => Target { name: shown::name(path), path: Some(behind(path)) },
        };
        target.check().map_err(|words| vec![target.says(&words)])?;
        Ok(target)
    }

    pub fn is_standard(&self) -> bool {
        self.path.is_none()
    }

    pub fn says(&self, words: &str) -> String {
        format!("{}: {words}", self.name)
    }

    /// A pipe, a terminal, /dev/null.
    fn is_special(&self) -> bool {
        self.path.as_ref().is_some_and(|path| fs::metadata(path).is_ok_and(|data| !data.is_file() && !data.is_dir()))
    }

    /// Whether it can be written. A file that is not there is made and removed again, and one that is there is left as it is.
    fn check(&self) -> Result<(), String> {
        let Some(path) = &self.path else { return Ok(()) };
        match fs::metadata(path) {
            Ok(data) if data.is_dir() => Err("is a folder: name a file in it".to_string()),
            Ok(data) if !data.is_file() => Ok(()),
            Ok(data) if data.permissions().readonly() => {
                Err("is protected against writing: give another name, or its owner lifts that".to_string())
            }
            Ok(_) => OpenOptions::new().write(true).open(path).map(drop).map_err(|error| why(&error)),
            Err(error) if error.kind() == ErrorKind::NotFound => try_new(path).map_err(|error| why(&error)),
            Err(error) => Err(why(&error)),
        }
    }

    /// Empty, to be written from its beginning.
    pub fn open(&self) -> io::Result<Box<dyn Write>> {
        match &self.path {
            None => Ok(Box::new(io::stdout().lock())),
            Some(path) if self.is_special() => Ok(Box::new(OpenOptions::new().write(true).open(path)?)),
            Some(path) => Ok(Box::new(fs::File::create(path)?)),
        }
    }

    /// A file on a disk, which can be written anywhere.
    pub fn is_plain(&self) -> bool {
        self.path.is_some() && !self.is_special()
    }

    /// Writes the first byte of a file that is there.
    pub fn write_first(&self, byte: u8) -> io::Result<()> {
        self.path.as_ref().map_or(Ok(()), |path| OpenOptions::new().write(true).open(path)?.write_all(&[byte]))
    }

    /// Removes a file that was begun and not finished, where it was not there before.
    pub fn give_up(&self, was_there: bool) {
        if let Some(path) = self.path.as_ref().filter(|_| !was_there && !self.is_special()) {
            drop(fs::remove_file(path));
        }
    }

    /// Whether there is such a file now.
    pub fn is_there(&self) -> bool {
        self.path.as_ref().is_some_and(|path| path.exists())
    }
}

fn try_new(path: &Path) -> io::Result<()> {
    OpenOptions::new().write(true).create_new(true).open(path)?;
    fs::remove_file(path)
}

/// The file that a path names: behind its links where that is not there yet, so that it can be made and removed.
fn behind(path: &str) -> PathBuf {
    const MOST_LINKS: usize = 40;
    let mut place = PathBuf::from(path);
    for _ in 0..MOST_LINKS {
        if place.exists() {
            break;
        }
        match fs::read_link(&place) {
            Ok(next) => place = place.parent().unwrap_or(Path::new("")).join(next),
            Err(_) => break,
        }
    }
    place
}

fn same(path: &Path) -> Same {
    if let Ok(data) = fs::metadata(path) {
        return Same::Number(data.dev(), data.ino());
    }
    let folder = path.parent().filter(|folder| !folder.as_os_str().is_empty()).unwrap_or(Path::new("."));
    let folder = fs::canonicalize(folder).unwrap_or_else(|_| folder.to_path_buf());
    Same::Name(folder.join(path.file_name().unwrap_or_default()))
}

/// What was in a file.
enum Before {
    Nothing(PathBuf),
    Bytes(PathBuf, Vec<u8>),
    /// Standard output and devices, whose past cannot be had again.
    Unknown,
}

impl Before {
    fn of(target: &Target) -> Before {
        match &target.path {
            Some(path) if !target.is_special() => match fs::read(path) {
                Ok(bytes) => Before::Bytes(path.clone(), bytes),
                Err(_) if !path.exists() => Before::Nothing(path.clone()),
                Err(_) => Before::Unknown,
            },
            _ => Before::Unknown,
        }
    }

    fn restore(&self) {
        match self {
            Before::Nothing(path) => drop(fs::remove_file(path)),
            Before::Bytes(path, bytes) => drop(fs::write(path, bytes)),
            Before::Unknown => (),
        }
    }
}
