//! The files that a command writes: all of them, or none.
//!
//! 1. Each is written down to the disk beside its target: the target's name with .new behind it. Where such a file is there
//!    already, as a killed run leaves it, it stays and the command ends.
//! 2. When all are complete and all was told, each is renamed to its target. What is there already is replaced only where that
//!    was asked for; a file that was read never is, by whatever name. What is replaced keeps its bytes under the target's name
//!    with .old behind it until all are in place.
//!
//! Where a step fails, what was made is removed, what was replaced is put back, and everything is as it was.

use crate::common::{failed, joined, say, wrong, Failure};
use crate::input::Identity;
use crate::names::plain;
use std::ffi::{CString, OsStr, OsString};
use std::fs::{self, File, OpenOptions, Permissions};
use std::io::{self, ErrorKind, Write};
use std::os::unix::ffi::OsStrExt;
use std::os::unix::fs::{MetadataExt, PermissionsExt};
use std::path::{Path, PathBuf};

/// Where something is to be written: the new file that becomes it, and where an older one is kept meanwhile.
struct Target {
    path: PathBuf,
    new_path: PathBuf,
    old_path: PathBuf,
    /// The permissions of what is replaced, which the new file gets.
    replaces: Option<Permissions>,
}

/// Where files are to be written, which may be done.
pub struct Outputs {
    targets: Vec<Target>,
}

/// Files that are complete on the disk, beside their targets. Dropped before they are put in place, they are removed.
#[must_use = "nothing is written before it is put in place"]
pub struct Written {
    targets: Vec<Target>,
    /// What takes back each step that was done.
    steps: Vec<Step>,
}

enum Step {
    Remove(PathBuf),
    PutBack { old_path: PathBuf, path: PathBuf },
    Nothing,
}

impl Outputs {
    /// Asks that files may be written at these paths, beside what is read: that they are different ones, that nothing is
    /// there, or where it may be replaced, a regular file that is not read.
    pub fn plan(paths: &[&Path], read: &[Identity], is_forced: bool) -> Result<Outputs, Failure> {
        let targets = paths.iter().map(|path| Target::new(path, read, is_forced)).collect::<Result<Vec<_>, _>>()?;
        are_different(&targets)?;
        Ok(Outputs { targets })
    }

    /// Writes the contents, in the order of the paths, beside the targets.
    pub fn write(self, contents: &[&[u8]]) -> Result<Written, Failure> {
        let mut written = Written { targets: self.targets, steps: Vec::new() };
        for (target, bytes) in written.targets.iter().zip(contents) {
            write_new(&target.new_path, bytes, target.replaces.as_ref())?;
            written.steps.push(Step::Remove(target.new_path.clone()));
        }
        Ok(written)
    }
}

impl Written {
    /// Puts all files in place, in the order of the paths.
    pub fn put_in_place(mut self) -> Result<(), Failure> {
        for i in 0..self.targets.len() {
            self.steps[i] = if self.targets[i].replaces.is_some() { self.replace(i)? } else { self.place(i)? };
        }
        self.steps.clear();
        remove_old(&self.targets)?;
        self.targets.iter().try_for_each(|target| sync_folder(&target.path))
    }

    /// Gives a new file its target's name, which nothing has; and what takes that back.
    fn place(&self, i: usize) -> Result<Step, Failure> {
        let Target { path, new_path, .. } = &self.targets[i];
        rename_free(new_path, path).map_err(|error| match error.kind() {
            ErrorKind::AlreadyExists => taken(path),
            _ => failed(path, &error),
        })?;
        Ok(Step::Remove(path.clone()))
    }

    /// Gives a new file the name of what it replaces, in one step; from then on the older one is what is put back.
    fn replace(&mut self, i: usize) -> Result<Step, Failure> {
        let Target { path, new_path, old_path, .. } = &self.targets[i];
        keep(path, old_path).map_err(|error| failed(path, &error))?;
        self.steps.push(Step::PutBack { old_path: old_path.clone(), path: path.clone() });
        fs::rename(new_path, path).map_err(|error| failed(path, &error))?;
        Ok(Step::Nothing)
    }
}

impl Drop for Written {
    /// Takes back what was done, the last step first. What failed before is what is told.
    fn drop(&mut self) {
        for step in self.steps.drain(..).rev() {
            match step {
                Step::Remove(path) => drop(fs::remove_file(path)),
                Step::PutBack { old_path, path } => put_back(&old_path, &path),
                Step::Nothing => {}
            }
        }
    }
}

impl Target {
    fn new(path: &Path, read: &[Identity], is_forced: bool) -> Result<Target, Failure> {
        if path.as_os_str() == "-" {
            return Err(wrong(path, "is standard input; a file of that name is ./-"));
        }
        let [new_path, old_path] = [".new", ".old"].map(|end| PathBuf::from(joined(&[&path, &end])));
        let replaces = replaceable(path, read, is_forced)?;
        is_free(
            &new_path,
            read,
            "is there already: another run is at work, or was ended; if none is at work, remove it",
        )?;
        is_free(
            &old_path,
            read,
            "is there already: a run that was ended left it, which was replacing it; move it away",
        )?;
        Ok(Target { path: path.into(), new_path, old_path, replaces })
    }
}

/// The permissions of what stands at a path and may be replaced. Where it may not, that is the failure.
fn replaceable(path: &Path, read: &[Identity], is_forced: bool) -> Result<Option<Permissions>, Failure> {
    let metadata = match fs::symlink_metadata(path) {
        Ok(metadata) => metadata,
        Err(error) if error.kind() == ErrorKind::NotFound => return Ok(None),
        Err(error) => return Err(failed(path, &error)),
    };
    match is_forced {
        _ if is_among(path, read) => Err(wrong(path, "is a file that is read, and is never written over")),
        _ if !metadata.is_file() => Err(wrong(path, "is no regular file, and is not written over")),
        false => Err(taken(path)),
        true => Ok(Some(Permissions::from_mode(metadata.permissions().mode() & 0o777))),
    }
}

/// Whether a path leads to one of these files.
fn is_among(path: &Path, read: &[Identity]) -> bool {
    fs::metadata(path).map_or(false, |metadata| read.contains(&Identity::of(&metadata)))
}

/// What is wrong with a path at which something stands.
fn taken(path: &Path) -> Failure {
    wrong(path, "is there already, and is not written over without --force")
}

/// Asks that nothing stands at a path, not even a link that leads nowhere.
fn is_free(path: &Path, read: &[Identity], why: &str) -> Result<(), Failure> {
    match fs::symlink_metadata(path) {
        Ok(_) if is_among(path, read) => Err(wrong(path, "is a file that is read, and is never written over")),
        Ok(_) => Err(wrong(path, why)),
        Err(error) if error.kind() == ErrorKind::NotFound => Ok(()),
        Err(error) => Err(failed(path, &error)),
    }
}

/// Asks that no two files that are made have one place.
fn are_different(targets: &[Target]) -> Result<(), Failure> {
    let mut before: Vec<(&Path, Location)> = Vec::new();
    for path in targets.iter().flat_map(|target| [&target.path, &target.new_path, &target.old_path]) {
        let location = locate(path)?;
        if let Some((other, _)) = before.iter().find(|(_, found)| *found == location) {
            return Err(joined(&[other, &" and ", path, &" are the same file"]));
        }
        before.push((path, location));
    }
    Ok(())
}

/// Where a new file is to be: its folder, and its name there.
#[derive(PartialEq)]
struct Location {
    folder: (u64, u64),
    name: OsString,
}

fn locate(path: &Path) -> Result<Location, Failure> {
    let (folder, name) = split(path);
    let metadata = fs::metadata(folder).map_err(|error| failed(path, &error))?;
    Ok(Location { folder: (metadata.dev(), metadata.ino()), name: name.to_owned() })
}

/// The folder in which a path's last name stands, and that name. The empty path is in no folder.
fn split(path: &Path) -> (&Path, &OsStr) {
    let bytes = path.as_os_str().as_bytes();
    let start = bytes.iter().rposition(|&byte| byte == b'/').map_or(0, |slash| slash + 1);
    let (folder, name) = bytes.split_at(start);
    let folder = if folder.is_empty() && !name.is_empty() { b"." } else { folder };
    (Path::new(OsStr::from_bytes(folder)), OsStr::from_bytes(name))
}

/// Writes a new file, down to the disk, with these permissions. Where that fails nothing of it is left.
fn write_new(path: &Path, bytes: &[u8], permissions: Option<&Permissions>) -> Result<(), Failure> {
    let file = OpenOptions::new().write(true).create_new(true).open(path);
    let mut file = file.map_err(|error| failed(path, &error))?;
    let permitted = permissions.map_or(Ok(()), |permissions| file.set_permissions(permissions.clone()));
    permitted.and_then(|()| file.write_all(bytes)).and_then(|()| file.sync_all()).map_err(|error| {
        let _ = fs::remove_file(path); // what failed first is what is told
        failed(path, &error)
    })
}

/// Renames a file to a name that nothing has. A file system that does not know this step gives it by a link.
fn rename_free(from: &Path, to: &Path) -> io::Result<()> {
    let [from_text, to_text] = [from, to].map(|path| CString::new(path.as_os_str().as_bytes()));
    let (from_text, to_text) = (from_text?, to_text?);
    // SAFETY: both are texts with their end, which live as long as the call.
    let renamed = unsafe {
        libc::renameat2(libc::AT_FDCWD, from_text.as_ptr(), libc::AT_FDCWD, to_text.as_ptr(), libc::RENAME_NOREPLACE)
    };
    match io::Error::last_os_error() {
        _ if renamed == 0 => Ok(()),
        error if matches!(error.raw_os_error(), Some(libc::EINVAL | libc::ENOSYS)) => {
            fs::hard_link(from, to)?;
            fs::remove_file(from).map_err(|error| {
                let _ = fs::remove_file(to); // what failed first is what is told
                error
            })
        }
        error => Err(error),
    }
}

/// Gives what is replaced a second name; on a file system without links, another name.
fn keep(path: &Path, old_path: &Path) -> io::Result<()> {
    match fs::hard_link(path, old_path) {
        Err(error) if matches!(error.raw_os_error(), Some(libc::EPERM | libc::EOPNOTSUPP | libc::ENOSYS)) => {
            rename_free(path, old_path)
        }
        done => done,
    }
}

/// Removes what was replaced, when all is in place; names all of it that is still there.
fn remove_old(targets: &[Target]) -> Result<(), Failure> {
    let replaced = targets.iter().filter(|target| target.replaces.is_some());
    let left = replaced.filter_map(|target| fs::remove_file(&target.old_path).err().map(|error| (target, error)));
    let left: Vec<Failure> = left.map(|(target, error)| failed(&target.old_path, &error)).collect();
    match left.is_empty() {
        true => Ok(()),
        false => {
            Err(joined(&[&"all is written, but what was replaced is still there: ", &left.join(OsStr::new("; "))]))
        }
    }
}

/// Gives what was replaced its name again, if it has lost it. Where that fails it stays, and is told.
fn put_back(old_path: &Path, path: &Path) {
    let identity = |path: &Path| fs::symlink_metadata(path).map(|metadata| Identity::of(&metadata)).ok();
    if identity(old_path) == identity(path) {
        let _ = fs::remove_file(old_path); // what failed before is what is told
        return;
    }
    if let Err(error) = fs::rename(old_path, path) {
        let why = failed(old_path, &error);
        say(plain(joined(&[&"kaaravizhe: what was replaced is kept, but not under its name: ", &why])).into());
    }
}

/// Syncs the folder of a path, where its file system offers that.
fn sync_folder(path: &Path) -> Result<(), Failure> {
    match File::open(split(path).0).and_then(|folder| folder.sync_all()) {
        Err(error) if error.kind() != ErrorKind::InvalidInput => {
            Err(joined(&[&"all is written, but a power cut may undo it: ", &failed(path, &error)]))
        }
        _ => Ok(()),
    }
}
