//! Files that are written whole or not at all: beside their place first, and then renamed.

use std::fs::{self, File, OpenOptions};
use std::io::{self, ErrorKind, Write};
use std::path::{Path, PathBuf};
use std::sync::{Mutex, MutexGuard, PoisonError};
use std::{process, thread};

use signal_hook::consts::{SIGHUP, SIGINT, SIGTERM};
use signal_hook::iterator::Signals;
use signal_hook::low_level::emulate_default_handler;
use tempfile::TempPath;

use crate::failure::Failure;

/// The parts that are there now, for a signal to remove.
static PARTS: Mutex<Vec<PathBuf>> = Mutex::new(Vec::new());

/// A file that is written, but not yet under its name. Dropping it removes it.
#[derive(Debug)]
pub struct Part {
    beside: TempPath,
    target: PathBuf,
    _listed: Listed,
}

/// Keeps a path among the parts for as long as it lives.
#[derive(Debug)]
struct Listed(PathBuf);

impl Drop for Listed {
    fn drop(&mut self) {
        parts().retain(|part| *part != self.0);
    }
}

impl Part {
    /// Writes all bytes beside `target`, down to the disk.
    pub fn write(target: &Path, bytes: &[u8]) -> Result<Self, Failure> {
        let target = place_for(target)?;
        let created = create_beside(&target);
        let (listed, mut file) = created.map_err(|error| unwritable(&target, &error))?;
        let part = Self {
            beside: TempPath::from_path(listed.0.clone()),
            target,
            _listed: listed,
        };
        // A file that is written over keeps its permissions.
        let kept = match fs::metadata(&part.target) {
            Ok(old) => file.set_permissions(old.permissions()),
            Err(_) => Ok(()),
        };
        kept.and_then(|()| file.write_all(bytes))
            .and_then(|()| file.sync_all())
            .map_err(|error| unwritable(&part.target, &error))?;
        Ok(part)
    }

    /// Gives the file its name.
    pub fn put(self) -> Result<(), Failure> {
        let done = self
            .beside
            .persist(&self.target)
            .map_err(|error| error.error);
        done.and_then(|()| File::open(folder_of(&self.target))?.sync_all())
            .map_err(|error| unwritable(&self.target, &error))
    }
}

/// Where a file would go: through links, but never over a folder, a device or a pipe.
fn place_for(target: &Path) -> Result<PathBuf, Failure> {
    let wrong = |why: &str| Failure::File(format!("{} can't be written: {why}", target.display()));
    match fs::metadata(target) {
        Ok(there) if there.is_dir() => Err(wrong("it is a folder")),
        Ok(there) if !there.is_file() => Err(wrong("it is no plain file")),
        Ok(_) => fs::canonicalize(target).map_err(|error| unwritable(target, &error)),
        Err(_) if target.file_name().is_none() => Err(wrong("it names no file")),
        Err(_) => Ok(target.to_path_buf()),
    }
}

/// Removes what is half written when the user or the system ends the program, or closes its terminal.
pub fn remove_parts_on_signals() -> io::Result<()> {
    let ignored = ignored_signals();
    let ending = [SIGHUP, SIGINT, SIGTERM].into_iter();
    let mut signals = Signals::new(ending.filter(|signal| ignored >> (signal - 1) & 1 == 0))?;
    thread::spawn(move || {
        for signal in signals.forever() {
            // The lock is kept, so that no new part begins.
            let parts = parts();
            for part in parts.iter() {
                let _ = fs::remove_file(part);
            }
            let _ = emulate_default_handler(signal);
        }
    });
    Ok(())
}

/// The signals that the program was started to live through, as nohup does, a bit for each. Where the
/// system does not say, none.
fn ignored_signals() -> u64 {
    let status = fs::read_to_string("/proc/self/status").unwrap_or_default();
    let mut lines = status.lines();
    let mask = lines.find_map(|line| line.strip_prefix("SigIgn:"));
    mask.and_then(|mask| u64::from_str_radix(mask.trim(), 16).ok())
        .unwrap_or(0)
}

fn parts() -> MutexGuard<'static, Vec<PathBuf>> {
    PARTS.lock().unwrap_or_else(PoisonError::into_inner)
}

/// Creates a file of a new name in the folder of `target`, with the usual permissions.
fn create_beside(target: &Path) -> io::Result<(Listed, File)> {
    let mut parts = parts();
    for number in 0..=u16::MAX {
        let name = format!(".sheet-{}-{number}.part", process::id());
        let part = folder_of(target).join(name);
        match OpenOptions::new().write(true).create_new(true).open(&part) {
            Ok(file) => {
                parts.push(part.clone());
                return Ok((Listed(part), file));
            }
            Err(error) if error.kind() == ErrorKind::AlreadyExists => (),
            Err(error) => return Err(error),
        }
    }
    Err(ErrorKind::AlreadyExists.into())
}

/// The folder that a file is in, or would be.
pub fn folder_of(target: &Path) -> &Path {
    match target.parent() {
        Some(folder) if folder != Path::new("") => folder,
        _ => Path::new("."),
    }
}

/// A path by which two names of one file are seen to be one.
pub fn identity(path: &Path) -> PathBuf {
    let folder = folder_of(path);
    let of_a_new_file = || {
        let folder = fs::canonicalize(folder).unwrap_or_else(|_| folder.to_path_buf());
        folder.join(path.file_name().unwrap_or_default())
    };
    fs::canonicalize(path).unwrap_or_else(|_| of_a_new_file())
}

fn unwritable(target: &Path, error: &io::Error) -> Failure {
    let why = match error.kind() {
        ErrorKind::NotFound => format!("there is no folder {}", folder_of(target).display()),
        ErrorKind::PermissionDenied => {
            format!("you may not write in {}", folder_of(target).display())
        }
        _ => error.to_string(),
    };
    Failure::File(format!("{} can't be written: {why}", target.display()))
}

#[cfg(test)]
mod tests {
    use super::*;

    fn names(folder: &Path) -> Vec<String> {
        let mut names: Vec<String> = fs::read_dir(folder)
            .unwrap()
            .map(|entry| entry.unwrap().file_name().to_string_lossy().into_owned())
            .collect();
        names.sort();
        names
    }

    #[test]
    fn a_file_is_there_only_when_it_is_put() {
        let folder = tempfile::tempdir().unwrap();
        let target = folder.path().join("sheet.png");
        let part = Part::write(&target, b"new").unwrap();
        assert!(!target.exists());
        assert_eq!(names(folder.path()).len(), 1);
        part.put().unwrap();
        assert_eq!(names(folder.path()), ["sheet.png"]);
        drop(Part::write(&target, b"newer").unwrap());
        assert_eq!(names(folder.path()), ["sheet.png"]);
        assert_eq!(fs::read(&target).unwrap(), b"new");
        assert!(!parts().iter().any(|part| part.starts_with(folder.path())));
    }

    #[test]
    fn folders_and_devices_are_not_written_over() {
        let folder = tempfile::tempdir().unwrap();
        let refused = |target: &Path, word: &str| {
            let error = Part::write(target, b"").unwrap_err().to_string();
            assert!(error.contains(word), "{error}");
        };
        refused(folder.path(), "it is a folder");
        refused(Path::new("/dev/null"), "no plain file");
        refused(
            &folder.path().join("absent/sheet.png"),
            "there is no folder",
        );
        refused(Path::new("absent/.."), "it names no file");
        assert_eq!(names(folder.path()).len(), 0);
    }

    #[test]
    fn a_link_is_written_through() {
        let folder = tempfile::tempdir().unwrap();
        let [target, link] = ["target.png", "link.png"].map(|name| folder.path().join(name));
        fs::write(&target, b"old").unwrap();
        std::os::unix::fs::symlink(&target, &link).unwrap();
        Part::write(&link, b"new").unwrap().put().unwrap();
        assert_eq!(fs::read(&target).unwrap(), b"new");
        assert!(fs::symlink_metadata(&link).unwrap().is_symlink());
    }
}
