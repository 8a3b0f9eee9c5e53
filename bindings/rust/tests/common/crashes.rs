//! What a power failure may leave of a run's folder: states that are built from the notes of the calls by which it was written.
use crate::common::Draw;
use std::collections::BTreeMap;
use std::fs;
use std::path::Path;

/// A file of which so many bytes were flushed, and these written since.
#[derive(Clone, Copy, Default)]
struct File {
    flushed: usize,
    written: usize,
}

/// A change of the folder's names.
enum Change {
    Create(String, usize),
    Rename(String, String),
    Unlink(String),
}

/// How much a state has: how many segments were reported as saved, and the files, which are none if the folder is none.
pub struct AfterCrash {
    pub answered: u64,
    pub files: Option<Vec<(String, Vec<u8>)>>,
}

#[derive(Default)]
struct Disk {
    files: Vec<File>,
    /// The names as the process sees them, and as they were flushed.
    now: BTreeMap<String, usize>,
    names: BTreeMap<String, usize>,
    pending: Vec<Change>,
    is_made: bool,
    is_named: bool,
    answered: u64,
}

impl Disk {
    fn note(&mut self, line: &str, notes_folder: bool) {
        let words: Vec<_> = line.split(' ').collect();
        let name = words[1].to_owned();
        match (words[0], words[1]) {
            ("told", number) => self.answered = number.parse().unwrap(),
            ("mkdir", _) => self.is_made = true,
            ("create", _) => {
                self.now.insert(name.clone(), self.files.len());
                self.pending.push(Change::Create(name, self.files.len()));
                self.files.push(File::default());
            }
            ("write", _) => self.files[self.now[&name]].written += words[2].parse::<usize>().unwrap(),
            ("flush", ".") if notes_folder => {
                for change in std::mem::take(&mut self.pending) {
                    apply(&mut self.names, &change);
                }
            }
            ("flush", ".") => {}
            ("flush", "..") => self.is_named = self.is_made,
            ("flush", _) => {
                let file = &mut self.files[self.now[&name]];
                file.flushed = file.written;
            }
            ("rename", _) => {
                let file = self.now.remove(&name).unwrap();
                self.now.insert(words[2].to_owned(), file);
                self.pending.push(Change::Rename(name, words[2].to_owned()));
            }
            ("unlink", _) => {
                self.now.remove(&name);
                self.pending.push(Change::Unlink(name));
            }
            other => panic!("{other:?}"),
        }
    }
}

fn apply(names: &mut BTreeMap<String, usize>, change: &Change) {
    match change {
        Change::Create(name, file) => {
            names.insert(name.clone(), *file);
        }
        Change::Rename(name, to) => {
            if let Some(file) = names.remove(name) {
                names.insert(to.clone(), file);
            }
        }
        Change::Unlink(name) => {
            names.remove(name);
        }
    }
}

/// What is left of a file: what was flushed, and of the rest nothing, all, a beginning, blocks or zeros.
fn left(text: &[u8], file: File, draw: &mut Draw) -> Vec<u8> {
    let mut left = text[..file.flushed].to_vec();
    let rest = &text[file.flushed..file.written];
    match draw.below(5) {
        0 => {}
        1 => left.extend_from_slice(rest),
        2 => left.extend_from_slice(&rest[..draw.below(rest.len() as u64 + 1) as usize]),
        3 => left.resize(file.written, 0),
        _ => rest.chunks(64).for_each(|it| match draw.below(2) {
            0 => left.extend_from_slice(it),
            _ => left.resize(left.len() + it.len(), 0),
        }),
    }
    left
}

/// A state that these calls may leave. The texts are those of the folder in which the calls were made, or of the copies.
pub fn crashed(calls: &[&str], folders: [&Path; 2], notes_folder: bool, draw: &mut Draw) -> AfterCrash {
    let mut disk = Disk::default();
    calls.iter().for_each(|it| disk.note(it, notes_folder));
    let answered = disk.answered;
    if !disk.is_named && draw.below(2) == 0 {
        return AfterCrash { answered, files: None };
    }
    let some = draw.below(disk.pending.len() as u64 + 1) as usize;
    let count = [0, disk.pending.len(), some][draw.below(3) as usize];
    disk.pending[..count].iter().for_each(|it| apply(&mut disk.names, it));
    let files = disk.names.iter().map(|(name, number)| {
        let file = disk.files[*number];
        // What has no name of a segment is no part of the run, whatever it has.
        let text = folders.iter().find_map(|it| fs::read(it.join(name)).ok()).unwrap_or_default();
        let text = if text.len() < file.written { vec![b'x'; file.written] } else { text };
        (name.clone(), left(&text, file, draw))
    });
    AfterCrash { answered, files: Some(files.collect()) }
}
