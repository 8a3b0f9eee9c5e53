//! The folder of a run, to which this run alone writes: one text file a segment. No segment is changed or cut.
use crate::audit::Counts;
use crate::error::Error;
use crate::run::reading::{NO_FOLLOW, is_name, names, read};
use crate::run::trail::{Request, Trail, damaged};
use crate::sys::effective_user;
use std::collections::VecDeque;
use std::ffi::{OsStr, OsString};
use std::fs::{self, DirBuilder, File, Metadata, TryLockError};
use std::io::{self, Write};
use std::os::unix::ffi::OsStrExt;
use std::os::unix::fs::{DirBuilderExt, MetadataExt, OpenOptionsExt};
use std::path::{Path, PathBuf};

const NEW: &str = "new";
const LOCK: &str = "lock";

/// Which file it is, and how many bytes it has.
#[derive(Clone, Copy, PartialEq, Eq)]
struct FileId {
    device: u64,
    inode: u64,
    length: u64,
}

impl FileId {
    fn of(it: &Metadata) -> FileId {
        FileId { device: it.dev(), inode: it.ino(), length: it.len() }
    }

    fn is_same_file(self, other: FileId) -> bool {
        (self.device, self.inode) == (other.device, other.inode)
    }
}

/// A folder that no other run has.
pub(crate) struct RunFolder {
    path: PathBuf,
    folder: File,
    lock: File,
    trail: Trail,
    /// How many calls the segments have.
    calls: u64,
    /// How many segments stay, if older ones are dropped, and then the names of those that are there.
    keep: Option<(u64, VecDeque<OsString>)>,
    /// The file that becomes the next segment, while it is written.
    new: Option<File>,
    /// The file of the last segment, once there is one.
    last: Option<(PathBuf, FileId)>,
}

impl RunFolder {
    /// A folder with an opening segment; the path leads to an empty one or to nothing.
    pub(crate) fn create(path: &Path, opening: &[u8]) -> Result<RunFolder, Error> {
        let real = unlinked(path).map_err(|error| at(path, &error))?;
        match DirBuilder::new().mode(0o700).create(&real) {
            Err(error) if error.kind() == io::ErrorKind::AlreadyExists => expect_empty(&real)?,
            made => made.map_err(|error| at(path, &error))?,
        }
        let mut folder = RunFolder::open(real)?;
        expect_empty(&folder.path)?;
        folder.trail.begin()?;
        folder.save(opening, Counts::default())?;
        Ok(folder)
    }

    /// The folder of an earlier run, with the names in it, which are to be read before more are saved.
    pub(crate) fn reopen(path: &Path) -> Result<(RunFolder, Vec<OsString>), Error> {
        if path.is_file() {
            let why = "a run is a folder, and this is a file";
            return Err(at(path, &io::Error::new(io::ErrorKind::NotADirectory, why)));
        }
        let real = unlinked(path).map_err(|error| at(path, &error))?;
        names(&real).map_err(|error| with_path(path, error))?; // nothing is made in a folder without a run
        let mut folder = RunFolder::open(real)?;
        let all = names(&folder.path)?;
        if let Some(last) = all.last() {
            let file = folder.path.join(last);
            let known = FileId::of(&fs::symlink_metadata(&file)?);
            folder.last = Some((file, known));
        }
        folder.remove_new()?;
        Ok((folder, all))
    }

    /// Reads these names with their texts, after those before them without; returns the state that they leave.
    pub(crate) fn read(&mut self, before: &[OsString], names: &[OsString]) -> Result<Vec<u8>, Error> {
        before.iter().try_for_each(|it| self.trail.skip(it))?;
        read(&self.path, names, &mut self.trail)?;
        let state = self.trail.state_text()?;
        self.trail.begin()?;
        self.calls = self.trail.calls();
        Ok(state)
    }

    fn open(path: PathBuf) -> Result<RunFolder, Error> {
        let folder = File::open(&path).map_err(|error| at(&path, &error))?;
        if folder.metadata()?.uid() != effective_user() {
            let why = "the folder belongs to another user";
            return Err(at(&path, &io::Error::new(io::ErrorKind::PermissionDenied, why)));
        }
        let mut options = File::options();
        let lock = options.read(true).write(true).create(true).truncate(false).mode(0o600).custom_flags(NO_FOLLOW);
        let lock = lock.open(path.join(LOCK)).map_err(|error| at(&path, &error))?;
        match lock.try_lock() {
            Ok(()) => {}
            Err(TryLockError::WouldBlock) => return Err(Error::InUse),
            Err(TryLockError::Error(error)) => return Err(at(&path, &error)),
        }
        let mut opened =
            RunFolder { path, folder, lock, trail: Trail::new()?, calls: 0, keep: None, new: None, last: None };
        opened.expect_there()?;
        // What an earlier, killed run has renamed is flushed before it is read.
        let first = opened.trail.request()?;
        opened.make(first, OsStr::new(""), &[])?;
        if let Some(above) = opened.path.parent() {
            sync_folder(above)?;
        }
        Ok(opened)
    }

    /// Has so many of the last segments stay from now on, of which these are there.
    pub(crate) fn set_keep(&mut self, most: u64, there: Vec<OsString>) {
        self.keep = Some((most, there.into()));
    }

    /// Returns the path without symbolic links.
    pub(crate) fn path(&self) -> &Path {
        &self.path
    }

    /// How much is on the disk, or was until it was dropped.
    pub(crate) fn counts(&self) -> Counts {
        let saved = self.trail.saved();
        Counts { parts: saved.segments, calls: self.calls, moves: saved.moves, ..Counts::default() }
    }

    /// Saves the next segment, with so many moves and calls: it is on the disk then. After an error nothing more may be saved.
    pub(crate) fn save(&mut self, text: &[u8], more: Counts) -> Result<(), Error> {
        self.expect_there()?;
        let name = self.trail.hand(more, text)?;
        self.work(&name, text)?;
        self.calls = self.calls.wrapping_add(more.calls);
        if let Some((_, there)) = &mut self.keep {
            there.push_back(name);
        }
        self.expect_there()
    }

    /// Drops the oldest segments, one after the other, until no more are there than stay. After an error nothing more is done.
    pub(crate) fn drop_oldest(&mut self) -> Result<(), Error> {
        while let Some(name) = self.keep.as_mut().and_then(next_dropped) {
            self.expect_there()?; // no other folder is at the path
            self.trail.drop_oldest()?;
            self.work(&name, &[])?;
        }
        Ok(())
    }

    /// Makes each call of the system that the library asks for, for the segment with this name; after an error it makes none.
    fn work(&mut self, name: &OsStr, text: &[u8]) -> Result<(), Error> {
        loop {
            let request = self.trail.request()?;
            if request == Request::Rest {
                return Ok(());
            }
            if let Err(error) = self.make(request, name, text) {
                self.trail.failed();
                self.new = None;
                let _ = self.remove_new(); // the disk may be full of it
                return Err(error.into());
            }
            self.trail.done()?;
        }
    }

    fn make(&mut self, request: Request, name: &OsStr, text: &[u8]) -> io::Result<()> {
        let new = || self.path.join(NEW);
        let file = self.new.as_mut().ok_or(io::ErrorKind::NotFound);
        match request {
            Request::Rest => {}
            Request::RemoveNew => self.remove_new()?,
            Request::CreateNew => {
                self.new = Some(File::options().write(true).create_new(true).mode(0o600).open(new())?);
            }
            Request::WriteNew => file?.write_all(text)?,
            Request::FlushNew => {
                let file = file?;
                file.sync_all()?;
                self.last = Some((self.path.join(name), FileId::of(&file.metadata()?)));
                self.new = None;
            }
            Request::RenameNew => fs::rename(new(), self.path.join(name))?,
            Request::FlushFolder => self.folder.sync_all()?,
            Request::RemoveOldest => fs::remove_file(self.path.join(name))?,
        }
        Ok(())
    }

    fn remove_new(&self) -> io::Result<()> {
        match fs::remove_file(self.path.join(NEW)) {
            Err(error) if error.kind() != io::ErrorKind::NotFound => Err(error),
            _ => Ok(()),
        }
    }

    /// Checks that the path leads to this folder, with the lock and the last segment.
    fn expect_there(&self) -> Result<(), Error> {
        let next = self.trail.saved().segments;
        let missing = |error: io::Error| match error.kind() {
            io::ErrorKind::NotFound => {
                damaged(next, format!("{}: what the run has written was removed", self.path.display()))
            }
            _ => error.into(),
        };
        let at_path = FileId::of(&fs::metadata(&self.path).map_err(missing)?);
        if !at_path.is_same_file(FileId::of(&self.folder.metadata()?)) {
            return Err(damaged(next, format!("{} was moved or replaced", self.path.display())));
        }
        let lock = FileId::of(&fs::symlink_metadata(self.path.join(LOCK)).map_err(missing)?);
        if !lock.is_same_file(FileId::of(&self.lock.metadata()?)) {
            return Err(damaged(next, format!("the lock in {} was replaced", self.path.display())));
        }
        match &self.last {
            Some((path, known)) if FileId::of(&fs::symlink_metadata(path).map_err(missing)?) != *known => {
                Err(damaged(next.saturating_sub(1), "its file was replaced, or has another size".to_owned()))
            }
            _ => Ok(()),
        }
    }
}

impl Drop for RunFolder {
    fn drop(&mut self) {
        // A process that is just begun may have a copy for a moment, by which the folder would still be locked.
        let _ = self.lock.unlock();
    }
}

/// Takes away the name of the oldest segment, if more are there than stay.
fn next_dropped((most, there): &mut (u64, VecDeque<OsString>)) -> Option<OsString> {
    if there.len() as u64 > *most { there.pop_front() } else { None }
}

/// Flushes the names in a folder.
fn sync_folder(folder: &Path) -> io::Result<()> {
    File::open(folder)?.sync_all()
}

/// Returns where a path leads to, whether something is there or not.
fn real(path: &Path) -> io::Result<PathBuf> {
    if path.exists() {
        return path.canonicalize();
    }
    let name = path.file_name().ok_or(io::ErrorKind::InvalidFilename)?;
    let above = path.parent().filter(|it| !it.as_os_str().is_empty()).unwrap_or(Path::new("."));
    Ok(above.canonicalize()?.join(name))
}

/// Returns the path without links above it of a folder in which a run is written, which is no link itself.
fn unlinked(path: &Path) -> io::Result<PathBuf> {
    if fs::symlink_metadata(path).is_ok_and(|it| it.is_symlink()) {
        return Err(io::Error::other("a link leads to the folder: name the folder itself"));
    }
    real(path)
}

/// Expects a folder without anything but what a run leaves that was killed while it was created.
fn expect_empty(path: &Path) -> Result<(), Error> {
    let exists = |why: &str| Err(at(path, &io::Error::new(io::ErrorKind::AlreadyExists, why)));
    if !fs::metadata(path).is_ok_and(|it| it.is_dir()) {
        return exists("there is a file");
    }
    let mut is_empty = true;
    for entry in fs::read_dir(path)? {
        let name = entry?.file_name();
        if is_name(name.as_bytes()) {
            return exists("there is a run, which Run::resume continues");
        }
        is_empty = is_empty && (name == NEW || name == LOCK);
    }
    if is_empty { Ok(()) } else { exists("the folder isn't empty") }
}

/// The error with the path that it is of.
fn at(path: &Path, error: &io::Error) -> Error {
    Error::File { kind: error.kind(), why: format!("{}: {error}", path.display()) }
}

fn with_path(path: &Path, error: Error) -> Error {
    match error {
        Error::File { kind, why } => Error::File { kind, why: format!("{}: {why}", path.display()) },
        error => error,
    }
}
