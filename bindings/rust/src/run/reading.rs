//! Reads the folders of runs: each name, and each byte of a text once.
use crate::audit::Counts;
use crate::error::Error;
use crate::run::trail::{MISSING, Trail, damaged};
use std::ffi::{OsStr, OsString};
use std::fs::{self, File};
use std::io::{self, Read};
use std::os::unix::ffi::OsStrExt;
use std::os::unix::fs::OpenOptionsExt;
use std::path::Path;

/// The flag of Linux on x86-64 by which a symbolic link isn't followed.
pub(crate) const NO_FOLLOW: i32 = 0o400_000;
/// The flags by which neither a pipe's writer is waited for nor a terminal is taken.
const NO_WAIT: i32 = 0o4_000 | 0o400;
/// The error of the system for a link that isn't followed.
const IS_A_LINK: i32 = 40;
const SUFFIX: &[u8] = b".journal";
const NO_FILE: &str = "its file is no regular file";
const PIECE: usize = 1 << 16;

/// Whether a file with this name would be a segment.
pub(crate) fn is_name(name: &[u8]) -> bool {
    name.ends_with(SUFFIX)
}

/// Returns the names in the folder that end as those of segments do, in their order.
fn list(folder: &Path) -> io::Result<Vec<OsString>> {
    let all = fs::read_dir(folder)?.map(|it| it.map(|it| it.file_name())).collect::<io::Result<Vec<_>>>()?;
    let mut names: Vec<_> = all.into_iter().filter(|it| is_name(it.as_bytes())).collect();
    names.sort();
    Ok(names)
}

/// Returns the names that are there now, also if they aren't those of a run: the first fault is found as they are taken.
pub(crate) fn names(folder: &Path) -> Result<Vec<OsString>, Error> {
    loop {
        let names = list(folder)?;
        if names.is_empty() {
            return Err(io::Error::new(io::ErrorKind::NotFound, "the folder has no run").into());
        }
        // Its run may have saved and dropped some while they were listed.
        if are_of_run(&names)? || list(folder)? == names {
            return Ok(names);
        }
    }
}

fn are_of_run(names: &[OsString]) -> Result<bool, Error> {
    let mut trail = Trail::new()?;
    match names.iter().try_for_each(|it| trail.skip(it)) {
        Err(Error::Damaged { .. }) => Ok(false),
        result => result.map(|()| true),
    }
}

/// Has the trail take the next names, each with its text; returns the counts of all texts that it took.
pub(crate) fn read(folder: &Path, names: &[OsString], trail: &mut Trail) -> Result<Counts, Error> {
    let (mut piece, mut counts) = (vec![0; PIECE], Counts::default());
    for name in names {
        let mut file = open_segment(folder, name)?;
        trail.name(name, file.metadata()?.len())?;
        loop {
            let length = file.read(&mut piece)?;
            if length == 0 {
                break;
            }
            trail.text(&piece[..length])?;
        }
        counts = trail.end()?;
    }
    Ok(counts)
}

/// Opens a regular file to read, which waits for no writer of a pipe and follows no link.
fn open_segment(folder: &Path, name: &OsStr) -> Result<File, Error> {
    let error = match File::options().read(true).custom_flags(NO_WAIT | NO_FOLLOW).open(folder.join(name)) {
        Ok(file) if file.metadata()?.is_file() => return Ok(file),
        Ok(_) => NO_FILE,
        Err(error) if error.raw_os_error() == Some(IS_A_LINK) => NO_FILE,
        Err(error) if error.kind() == io::ErrorKind::NotFound => MISSING,
        Err(error) => return Err(error.into()),
    };
    Err(damaged(number_of(name)?, error.to_owned()))
}

/// Returns the number in a name.
fn number_of(name: &OsStr) -> Result<u64, Error> {
    Ok(Trail::new()?.name(name, 0)?.number)
}

/// Audits the run in a folder, also while it goes on; returns how much is there.
///
/// If its first segments were dropped, the counts say where it begins.
///
/// # Errors
///
/// - [`Error::Damaged`]: a segment is missing, or isn't the one that was saved.
/// - [`Error::Audit`]: a segment isn't legal.
/// - [`Error::File`]: there is no run, or it can't be read.
pub fn audit_run(folder: impl AsRef<Path>) -> Result<Counts, Error> {
    let folder = folder.as_ref();
    loop {
        match read(folder, &names(folder)?, &mut Trail::new()?) {
            // Its run has dropped that meanwhile, so this begins again.
            Err(Error::Damaged { segment, .. }) if is_dropped(folder, segment) => {}
            result => return result,
        }
    }
}

/// Whether the run now begins after the segment.
fn is_dropped(folder: &Path, number: u64) -> bool {
    names(folder).and_then(|all| number_of(&all[0])).is_ok_and(|first| first > number)
}
