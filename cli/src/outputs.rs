//! Files and folders that are made. Nothing is overwritten, and nothing half made has a final name.
//!
//!   must_be_free  nothing has a name yet
//!   place_of      a path as its folder and its last name
//!   give_name     a file or folder given its final name
//!   sync_folder   the names in a folder are on the disk
//!   same_place    two paths name one place
//!   NewFile       a file under a temporary name
//!   NewFolder     a folder under a temporary name
//!   made_all_the_same
//!                 a fault after which an output is there
//!   warn_of_left_overs
//!                 names what runs that were killed left

use crate::fault::{no_file, warn, Done, Fault};
use crate::sys;
use crate::text::shown;
use std::ffi::{OsStr, OsString};
use std::fs::{self, DirBuilder, File, OpenOptions};
use std::io::{self, ErrorKind, Write};
use std::os::unix::ffi::OsStrExt;
use std::os::unix::fs::{DirBuilderExt, OpenOptionsExt};
use std::path::{Path, PathBuf};

/// A link in the place of the new file is not followed.
const O_NOFOLLOW: i32 = 0o400000;

/// What the system says where a folder may not be read.
const EACCES: i32 = 13;

/// What the system says where a file system has no renaming without replacing, or no syncing.
const EINVAL: i32 = 22;

/// What the system says where it has no such call.
const ENOSYS: i32 = 38;

/// What stands in a temporary name.
const UNFINISHED: &str = ".mukerihe-unfinished";

/// How many temporary names are tried.
const NAMES_TRIED: u32 = 100;

/// The fault of a path.
fn failed(path: &Path, error: &io::Error) -> Fault {
    no_file(format!("{}: {error}", shown(path)))
}

/// The fault of a name that something has already.
fn there_already(path: &Path) -> Fault {
    let name = shown(path);
    no_file(format!("{name} is there already; nothing is overwritten"))
}

/// Nothing has this name yet, not even a link that leads nowhere.
pub fn must_be_free(path: &Path) -> Done<()> {
    match fs::symlink_metadata(path) {
        Ok(_) => Err(there_already(path)),
        Err(error) if error.kind() == ErrorKind::NotFound => Ok(()),
        Err(error) => Err(failed(path, &error)),
    }
}

/// A path as its folder and its last name.
pub fn place_of(path: &Path) -> Done<(PathBuf, &OsStr)> {
    let no_name = || no_file(format!("{}: no name for a file or folder", shown(path)));
    let name = path.file_name().ok_or_else(no_name)?;
    let folder = path.parent().unwrap_or_else(|| Path::new(""));
    if folder.as_os_str().is_empty() {
        return Ok((PathBuf::from("."), name));
    }
    Ok((folder.to_path_buf(), name))
}

/// The fault of a name that could not be given.
fn not_named(new: &Path, error: &io::Error) -> Fault {
    match error.kind() {
        ErrorKind::AlreadyExists => there_already(new),
        _ => failed(new, error),
    }
}

/// Renames where the file system has no call that never replaces: a folder replaces nothing but an
/// empty folder that came meanwhile, and a file gets its new name as a second one.
fn rename_in_steps(old: &Path, new: &Path) -> Done<()> {
    let about = fs::symlink_metadata(old).map_err(|error| failed(old, &error))?;
    if about.is_dir() {
        return fs::rename(old, new).map_err(|error| not_named(new, &error));
    }
    fs::hard_link(old, new).map_err(|error| not_named(new, &error))?;
    fs::remove_file(old).map_err(|error| made_all_the_same(failed(old, &error), new))
}

/// Gives a file or folder its final name; one that has it already is not replaced.
pub fn give_name(old: &Path, new: &Path) -> Done<()> {
    sys::rename(old, new).or_else(|error| match error.raw_os_error() {
        Some(EINVAL | ENOSYS) => rename_in_steps(old, new),
        _ => Err(not_named(new, &error)),
    })
}

/// The names in a folder are on the disk. A file system that cannot sync a folder is let pass, and
/// so is a folder that may be written and not read.
pub fn sync_folder(folder: &Path) -> Done<()> {
    match File::open(folder).and_then(|opened| opened.sync_all()) {
        Ok(()) => Ok(()),
        Err(error) => match error.raw_os_error() {
            Some(EACCES | EINVAL) => Ok(()),
            _ => Err(failed(folder, &error)),
        },
    }
}

/// Makes a file that is not there yet, which nobody else may read.
fn create(path: &Path) -> io::Result<File> {
    OpenOptions::new()
        .write(true)
        .create_new(true)
        .mode(0o600)
        .custom_flags(O_NOFOLLOW)
        .open(path)
}

/// Makes a folder that is not there yet, which nobody else may enter.
fn create_folder(path: &Path) -> io::Result<()> {
    DirBuilder::new().mode(0o700).create(path)
}

/// Writes bytes to a new file and sees that they are on the disk.
fn write_synced(mut file: File, bytes: &[u8]) -> io::Result<()> {
    file.write_all(bytes)?;
    file.sync_all()
}

/// A file under a temporary name in its folder; it is removed unless it gets its final name.
pub struct NewFile {
    temporary: PathBuf,
    path: PathBuf,
    folder: PathBuf,
    named: bool,
}

impl NewFile {
    /// Writes a file under a temporary name.
    pub fn write(path: &Path, bytes: &[u8]) -> Done<NewFile> {
        must_be_free(path)?;
        let (folder, name) = place_of(path)?;
        let (file, temporary) = temporary_file(&folder, name)?;
        let new = NewFile {
            temporary,
            path: folder.join(name),
            folder,
            named: false,
        };
        write_synced(file, bytes).map_err(|error| failed(&new.temporary, &error))?;
        Ok(new)
    }

    /// Gives the file its name. From then on nothing of it has the temporary name, which another run
    /// may take.
    pub fn name(mut self) -> Done<()> {
        give_name(&self.temporary, &self.path)?;
        self.named = true;
        sync_folder(&self.folder).map_err(|fault| made_all_the_same(fault, &self.path))
    }
}

impl Drop for NewFile {
    /// Removes the file where it still has its temporary name. What goes wrong here is told by the
    /// fault that led here.
    fn drop(&mut self) {
        if !self.named {
            fs::remove_file(&self.temporary).unwrap_or_default();
        }
    }
}

/// A fault after which an output is there, whole.
pub fn made_all_the_same(fault: Fault, path: &Path) -> Fault {
    fault.and(&format!("{} is made all the same", shown(path)))
}

/// A new file under a temporary name in a folder: `.NAME.mukerihe-unfinished-..`.
fn temporary_file(folder: &Path, name: &OsStr) -> Done<(File, PathBuf)> {
    let process = std::process::id();
    for turn in 0..NAMES_TRIED {
        let mut hidden = hidden(name);
        hidden.push(format!("-{process}-{turn}"));
        let path = folder.join(hidden);
        match create(&path) {
            Ok(file) => return Ok((file, path)),
            Err(error) if error.kind() == ErrorKind::AlreadyExists => {}
            Err(error) => return Err(failed(&path, &error)),
        }
    }
    let name = shown(folder.join(hidden(name)));
    Err(no_file(format!("{name}-..: too many of these are there")))
}

/// A folder under a temporary name beside its final one: `.NAME.mukerihe-unfinished`.
pub struct NewFolder {
    temporary: PathBuf,
    path: PathBuf,
    beside: PathBuf,
}

impl NewFolder {
    /// Nothing has the folder's name, nor its temporary one: that was left by a run that was killed,
    /// or another run is at work.
    pub fn must_be_free(path: &Path) -> Done<()> {
        must_be_free(path)?;
        let (beside, name) = place_of(path)?;
        let temporary = beside.join(hidden(name));
        must_be_free(&temporary).map_err(|_| no_file(left_over(&temporary)))
    }

    /// Makes the folder under its temporary name.
    pub fn make(path: &Path) -> Done<NewFolder> {
        must_be_free(path)?;
        let (beside, name) = place_of(path)?;
        let temporary = beside.join(hidden(name));
        create_folder(&temporary).map_err(|error| match error.kind() {
            ErrorKind::AlreadyExists => no_file(left_over(&temporary)),
            _ => failed(&temporary, &error),
        })?;
        Ok(NewFolder {
            temporary,
            path: beside.join(name),
            beside,
        })
    }

    /// Makes a folder inside it.
    pub fn folder(&self, name: &str) -> Done<()> {
        let path = self.temporary.join(name);
        create_folder(&path).map_err(|error| failed(&path, &error))
    }

    /// Writes a file inside it. The whole folder has a temporary name, so the file needs none.
    pub fn file(&self, name: &str, bytes: &[u8]) -> Done<()> {
        let path = self.temporary.join(name);
        create(&path)
            .and_then(|file| write_synced(file, bytes))
            .map_err(|error| failed(&path, &error))
    }

    /// The names in a folder inside it are on the disk; "" is the folder itself.
    pub fn sync(&self, name: &str) -> Done<()> {
        sync_folder(&self.temporary.join(name))
    }

    /// Gives the folder its name.
    pub fn name(&self) -> Done<()> {
        give_name(&self.temporary, &self.path)
    }

    /// The name is on the disk.
    pub fn named(&self) -> Done<()> {
        sync_folder(&self.beside)
    }

    /// Removes the folder after a fault; where that fails, the fault says so, too.
    pub fn removed(&self, fault: Fault) -> Fault {
        match fs::remove_dir_all(&self.temporary) {
            Ok(()) => fault,
            Err(error) => {
                let name = shown(&self.temporary);
                fault.and(&format!("{name} is secret, and was not removed: {error}"))
            }
        }
    }
}

/// The temporary name of a folder, and the front of a file's.
fn hidden(name: &OsStr) -> OsString {
    let mut hidden = OsString::from(".");
    hidden.push(name);
    hidden.push(UNFINISHED);
    hidden
}

/// What is said of a folder that another run left.
fn left_over(path: &Path) -> String {
    let name = shown(path);
    format!(
        "{name} is there: a run that was killed left it, or another is at work. \
         It is secret: when no other is at work, remove it"
    )
}

/// Warns of what runs that were killed, or are at work, have beside a path.
pub fn warn_of_left_overs(path: &Path) -> Done<()> {
    let (beside, _) = place_of(path)?;
    let entries = fs::read_dir(beside).into_iter().flatten().flatten();
    let unfinished = |name: &OsStr| contains(name, UNFINISHED);
    for entry in entries.filter(|entry| unfinished(&entry.file_name())) {
        warn(&left_over(&entry.path()))?;
    }
    Ok(())
}

/// A text stands in a name.
fn contains(name: &OsStr, text: &str) -> bool {
    let mut windows = name.as_bytes().windows(text.len());
    windows.any(|window| window == text.as_bytes())
}

/// Two paths name one place: the same name in the same folder.
pub fn same_place(one: &Path, other: &Path) -> Done<bool> {
    let ((one_folder, one_name), (other_folder, other_name)) = (place_of(one)?, place_of(other)?);
    let real = |folder: PathBuf| fs::canonicalize(&folder).map_err(|error| failed(&folder, &error));
    Ok(one_name == other_name && real(one_folder)? == real(other_folder)?)
}
