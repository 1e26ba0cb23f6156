//! The campus file on disk: one host has it, and it is always whole, the old or the new.

use crate::args::Failure;
use banshorra_host::FILE_ROOM;
use std::fs::{self, File, Metadata, OpenOptions, TryLockError};
use std::io::{self, Read, Write};
use std::os::unix::fs::{fchown, MetadataExt, OpenOptionsExt};
use std::path::{Path, PathBuf};

/// Reads a campus file; of one that is too long only so much that it is refused.
pub fn read(path: &Path) -> io::Result<Vec<u8>> {
    let mut octets = vec![];
    File::open(path)?
        .take(FILE_ROOM as u64 + 1)
        .read_to_end(&mut octets)?;
    Ok(octets)
}

/// That a file could not be had, with its name.
pub fn failed(path: &Path, error: io::Error) -> Failure {
    Failure::Machine(format!("{}: {error}", path.display()))
}

/// A campus file that this process alone writes.
pub struct Store {
    path: PathBuf,
    new: PathBuf,
    folder: File,
    /// What the file was at first: whoever writes it, it stays its owner's and as open to others as it was.
    was: Option<Metadata>,
    flush: bool,
    /// The octets that are known to be on disk.
    on_disk: Option<Vec<u8>>,
    /// Holds the lock as long as it is open. The campus file itself can't, as each write puts another in its place.
    _lock: File,
}

impl Store {
    /// Takes a campus file that may not be there yet. Without `flush` nothing waits for the disk: for comparison alone.
    pub fn take(path: &Path, flush: bool) -> Result<Store, Failure> {
        // A link is followed now: a rename would replace the link.
        let path = match fs::canonicalize(path) {
            Ok(path) => path,
            Err(error) if error.kind() == io::ErrorKind::NotFound => beside(path)?,
            Err(error) => return Err(failed(path, error)),
        };
        refuse_others(&path)?;
        let parent = path.parent().expect("a file is in a folder");
        let folder = File::open(parent).map_err(|error| failed(parent, error))?;
        let lock = lock(&path)?;
        let was = fs::metadata(&path).ok();
        let (new, on_disk) = (with(&path, ".new"), None);
        Ok(Store {
            path,
            new,
            folder,
            was,
            flush,
            on_disk,
            _lock: lock,
        })
    }

    pub fn path(&self) -> &Path {
        &self.path
    }

    /// The file's octets. They count as not on disk yet: a host that was killed before may have renamed the file and not flushed the folder.
    pub fn read(&self) -> Result<Vec<u8>, Failure> {
        read(&self.path).map_err(|error| failed(&self.path, error))
    }

    /// Has these octets on disk when it returns; an error leaves a whole file there, the old one or this. Gives whether it had to write.
    pub fn keep(&mut self, octets: &[u8]) -> io::Result<bool> {
        if self.on_disk.as_deref() == Some(octets) {
            return Ok(false);
        }
        // Until all has gone well nobody knows which of the two is there.
        self.on_disk = None;
        if let Err(error) = self.replace(octets) {
            let _ = fs::remove_file(&self.new);
            return Err(error);
        }
        self.on_disk = Some(octets.to_vec());
        Ok(true)
    }

    /// The new file beside the old, flushed, renamed over it, the folder flushed.
    fn replace(&self, octets: &[u8]) -> io::Result<()> {
        let mut file = match create(&self.new, self.was.as_ref()) {
            // A host that was killed may have left one.
            Err(error) if error.kind() == io::ErrorKind::AlreadyExists => {
                fs::remove_file(&self.new)?;
                create(&self.new, self.was.as_ref())
            }
            other => other,
        }?;
        file.write_all(octets)?;
        if let Some(was) = &self.was {
            let is = file.metadata()?;
            if (is.uid(), is.gid()) != (was.uid(), was.gid()) {
                // Only root can, and only root needs to.
                let _ = fchown(&file, Some(was.uid()), Some(was.gid()));
            }
            if is.permissions() != was.permissions() {
                file.set_permissions(was.permissions())?;
            }
        }
        if self.flush {
            file.sync_all()?;
        }
        fs::rename(&self.new, &self.path)?;
        if self.flush {
            self.folder.sync_all()?;
        }
        Ok(())
    }
}

/// A new file that from the first nobody may open who may not open the old one.
fn create(path: &Path, was: Option<&Metadata>) -> io::Result<File> {
    OpenOptions::new()
        .write(true)
        .create_new(true)
        .mode(was.map_or(0o666, |was| was.mode() & 0o777))
        .open(path)
}

/// A path with something behind its name.
fn with(path: &Path, behind: &str) -> PathBuf {
    let mut path = path.as_os_str().to_owned();
    path.push(behind);
    path.into()
}

/// What is there and no file can't be replaced by one: a folder, a device. It is refused before a lock is left beside it.
fn refuse_others(path: &Path) -> Result<(), Failure> {
    let what = match fs::metadata(path) {
        Ok(is) if is.is_dir() => "is a folder, not a campus file",
        Ok(is) if !is.is_file() => "is no file",
        _ => return Ok(()),
    };
    Err(Failure::Machine(format!("{} {what}", path.display())))
}

/// The whole path of a file that isn't there, in a folder that is.
fn beside(path: &Path) -> Result<PathBuf, Failure> {
    let folder = match path.parent() {
        Some(folder) if folder.as_os_str().is_empty() => Path::new("."),
        Some(folder) => folder,
        None => Path::new("."),
    };
    let folder = fs::canonicalize(folder).map_err(|error| failed(folder, error))?;
    match path.file_name() {
        Some(name) => Ok(folder.join(name)),
        None => Err(Failure::Machine(format!(
            "{}: no file's name",
            path.display()
        ))),
    }
}

/// The lock beside a campus file. It goes with the process, however that ends; the file stays, with the number of the last process that had it.
fn lock(path: &Path) -> Result<File, Failure> {
    let beside = with(path, ".lock");
    let mut options = OpenOptions::new();
    options.read(true).write(true).create(true).truncate(false);
    let opened = match options.open(&beside) {
        // One that somebody else made can be locked as well.
        Err(error) if error.kind() == io::ErrorKind::PermissionDenied => File::open(&beside),
        other => other,
    };
    let mut file = opened.map_err(|error| failed(&beside, error))?;
    match file.try_lock() {
        Ok(()) => {
            let number = format!("{}\n", std::process::id());
            let noted = file
                .set_len(0)
                .and_then(|()| file.write_all(number.as_bytes()));
            // On a full disk the lock holds as well.
            let _ = noted;
            Ok(file)
        }
        Err(TryLockError::WouldBlock) => {
            let mut number = String::new();
            let _ = file.read_to_string(&mut number);
            let (path, number) = (path.display(), number.trim());
            Err(Failure::Machine(format!(
                "{path}: another host has this campus file (process {number}); end that one first"
            )))
        }
        Err(TryLockError::Error(error)) => Err(failed(&beside, error)),
    }
}
