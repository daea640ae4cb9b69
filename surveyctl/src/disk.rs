//! Files put in their place whole. A file is written beside, brought to the disk, and only then given its name, so that a crash at
//! any moment leaves the old file or the new one. What a program that came to a sudden end has left beside is found and removed.

use std::ffi::{OsStr, OsString};
use std::fs::{self, File, OpenOptions, Permissions};
use std::io::{self, ErrorKind, Read, Write};
use std::os::unix::fs::{MetadataExt, OpenOptionsExt};
use std::path::{Path, PathBuf};

/// Between the name of a file and the number of the program that writes beside it.
const BESIDE: &str = ".new-";

/// The bytes of a file, but no more than so many: a device may have no end.
pub fn read(name: &Path, most: usize) -> io::Result<Vec<u8>> {
    let mut bytes = Vec::new();
    File::open(name)?.take(most as u64).read_to_end(&mut bytes)?;
    Ok(bytes)
}

/// Whether both names are there and name one file.
pub fn same_file(one: &str, other: &str) -> bool {
    let file = |name: &str| fs::metadata(name).ok().map(|found| (found.dev(), found.ino()));
    file(one).is_some_and(|found| file(other) == Some(found))
}

/// Opens the file and locks it, so that one program at a time looks whether it has been changed and replaces it.
pub fn locked(name: &Path) -> io::Result<File> {
    loop {
        let file = File::open(name)?;
        lock(&file)?;
        // Who had the lock before may have replaced the file; then this lock is on one that has no name any more.
        if is_named(&file, name)? {
            return Ok(file);
        }
    }
}

/// Puts a new file in the place of another.
pub fn replace(name: &Path, bytes: &[u8], permissions: Permissions) -> io::Result<()> {
    let beside = Beside::write(name, bytes, Some(permissions))?;
    fs::rename(&beside.path, name)?;
    sync_folder(name)
}

/// Puts a file where none is; one that is there is left as it is.
pub fn place(name: &Path, bytes: &[u8]) -> io::Result<()> {
    refuse_taken(name)?;
    let beside = Beside::write(name, bytes, None)?;
    // Unlike a new name, a second one never takes the place of a file that has come there meanwhile.
    match fs::hard_link(&beside.path, name) {
        Err(error) if error.kind() == ErrorKind::AlreadyExists => return Err(error),
        Err(_) => {
            // This file system has no second names.
            refuse_taken(name)?;
            fs::rename(&beside.path, name)?;
        }
        Ok(()) => {}
    }
    drop(beside);
    sync_folder(name)
}

/// Refuses a name that is taken. What was left beside it is removed in either case.
pub fn refuse_taken(name: &Path) -> io::Result<()> {
    remove_left(name);
    match name.symlink_metadata() {
        Ok(_) => Err(ErrorKind::AlreadyExists.into()),
        Err(error) if error.kind() == ErrorKind::NotFound => Ok(()),
        Err(error) => Err(error),
    }
}

/// A file that is being written beside another. It is locked as long as its program lives, and goes where it was not renamed.
struct Beside {
    path: PathBuf,
    file: File,
}

impl Beside {
    /// Writes the bytes beside the name and has them on the disk, with these permissions or those of a new file.
    fn write(name: &Path, bytes: &[u8], permissions: Option<Permissions>) -> io::Result<Beside> {
        // One that is left may have the number of this program.
        remove_left(name);
        let mut path = OsString::from(name);
        path.push(format!("{BESIDE}{}", std::process::id()));
        // Until it has the permissions of the old file, nobody else may read it.
        let mode = if permissions.is_some() { 0o600 } else { 0o666 };
        let made = Beside::make(path.into(), mode).and_then(|mut beside| {
            beside.file.write_all(bytes)?;
            permissions.map_or(Ok(()), |permissions| beside.file.set_permissions(permissions))?;
            beside.file.sync_all()?;
            Ok(beside)
        });
        made.map_err(|error| {
            let words = format!("the new file beside it can't be written: {error}");
            io::Error::new(error.kind(), words)
        })
    }

    fn make(path: PathBuf, mode: u32) -> io::Result<Beside> {
        loop {
            let file = OpenOptions::new().write(true).create_new(true).mode(mode).open(&path)?;
            lock(&file)?;
            // Another program may have taken it for left before it was locked, and removed it.
            if file.metadata()?.nlink() > 0 {
                return Ok(Beside { path, file });
            }
        }
    }
}

impl Drop for Beside {
    fn drop(&mut self) {
        // A file that was renamed is not there any more.
        let _ = fs::remove_file(&self.path);
    }
}

/// Removes what programs that came to a sudden end have left beside a file. One that is still being written is locked, and stays;
/// so does what can't be removed, which is no reason to stop.
pub fn remove_left(name: &Path) {
    let (Some(own), Ok(found)) = (name.file_name(), fs::read_dir(folder_of(name))) else { return };
    for entry in found.flatten() {
        let is_file = entry.file_type().is_ok_and(|kind| kind.is_file());
        if is_file && is_beside(&entry.file_name(), own) {
            let _ = remove_unlocked(&entry.path());
        }
    }
}

/// Whether this is a name that `Beside` gives to a file beside the one with that name.
fn is_beside(name: &OsStr, of: &OsStr) -> bool {
    let rest = name.as_encoded_bytes().strip_prefix(of.as_encoded_bytes());
    let number = rest.and_then(|rest| rest.strip_prefix(BESIDE.as_bytes()));
    number.is_some_and(|digits| match digits {
        [b'1'..=b'9', others @ ..] => others.len() < 10 && others.iter().all(u8::is_ascii_digit),
        _ => false,
    })
}

fn remove_unlocked(path: &Path) -> io::Result<()> {
    let file = File::open(path)?;
    if file.try_lock().is_ok() && is_named(&file, path)? {
        fs::remove_file(path)?;
    }
    Ok(())
}

/// Waits for the lock, where the file system has locks.
fn lock(file: &File) -> io::Result<()> {
    match file.lock() {
        Err(error) if error.kind() != ErrorKind::Unsupported => Err(error),
        _ => Ok(()),
    }
}

/// Whether the open file is still the one that has this name.
fn is_named(file: &File, name: &Path) -> io::Result<bool> {
    let (held, named) = (file.metadata()?, fs::metadata(name)?);
    Ok((held.dev(), held.ino()) == (named.dev(), named.ino()))
}

fn folder_of(name: &Path) -> &Path {
    let folder = name.parent().filter(|folder| !folder.as_os_str().is_empty());
    folder.unwrap_or(Path::new("."))
}

/// Has the name of a file on the disk too, where the file system can.
fn sync_folder(name: &Path) -> io::Result<()> {
    match File::open(folder_of(name)).and_then(|folder| folder.sync_all()) {
        Err(error) if matches!(error.kind(), ErrorKind::InvalidInput | ErrorKind::Unsupported) => {
            Ok(())
        }
        done => done,
    }
}
