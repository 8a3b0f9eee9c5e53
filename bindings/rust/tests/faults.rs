//! What happens to a run and its folder: kills, power failures, damage, a full disk. Each for a moment; with `--ignored` for long.
#![allow(clippy::cast_possible_truncation, reason = "no test has so many")]
mod common;
#[path = "common/crashes.rs"]
mod crashes;

use common::{Draw, Room, add_one, count, numbers, open};
use folugben::{Check, EndCause, Error, Run, RunOptions, Value, audit_run};
use std::env;
use std::fs;
use std::io::{BufRead, BufReader, ErrorKind};
use std::path::{Path, PathBuf};
use std::process::{Command, Stdio};
use std::sync::OnceLock;
use std::thread;
use std::time::Duration;

/// The name of the variable by which a test passes its child the task, and the folder.
const TASK: &str = "FOLUGBEN_TEST_TASK";

/// The library that notes calls and has them fail.
fn shim() -> &'static Path {
    static MADE: OnceLock<PathBuf> = OnceLock::new();
    MADE.get_or_init(|| {
        let (source, made) = (concat!(env!("CARGO_MANIFEST_DIR"), "/tests/common/shim.c"), env!("CARGO_TARGET_TMPDIR"));
        let made = Path::new(made).join("shim.so");
        let output =
            Command::new("cc").args(["-shared", "-fPIC", "-O1", "-o"]).arg(&made).args([source, "-ldl"]).status();
        assert!(output.unwrap().success());
        made
    })
}

/// This program again, to do a task in a folder.
fn child(task: &str, folder: &Path) -> Command {
    let mut command = Command::new(env::current_exe().unwrap());
    command.args(["--exact", "is_child", "--nocapture"]).env(TASK, format!("{task}:{}", folder.display()));
    command
}

fn with_shim(mut command: Command, folder: &Path, log: &Path) -> Command {
    command.env("LD_PRELOAD", shim()).env("SHIM_ROOT", folder).env("SHIM_LOG", log).stdout(Stdio::null());
    command
}

/// What the child of another test does.
#[test]
fn is_child() {
    let Ok(task) = env::var(TASK) else { return };
    let (task, path) = task.split_once(':').unwrap();
    match task {
        "plays" => plays(Path::new(path), MANY),
        "plays_kept" => plays(Path::new(path), KEPT),
        "notes" => notes(Path::new(path), MANY),
        "notes_kept" => notes(Path::new(path), KEPT),
        "fails" => fails(Path::new(path)),
        "fails_at_once" => {
            let error = Run::open([], path, 100).unwrap_err();
            assert!(error.to_string().contains("os error 5"), "{error}");
        }
        "fills" => fills(Path::new(path)),
        other => panic!("{other}"),
    }
}

/// How many segments stay.
const KEPT: u64 = 2;
const MANY: u64 = 1_000_000;

fn opened(path: &Path, keep: u64) -> Run {
    let options = RunOptions::new().moves(50).keep(keep);
    options.resume(path, Check::Last).or_else(|_| options.open([(count(), 0.into())], path)).unwrap()
}

/// Plays until it is killed, and prints each number of moves that is saved.
fn plays(path: &Path, keep: u64) {
    let run = opened(path, keep);
    println!("saved {}", run.saved().moves);
    thread::scope(|threads| {
        for mut agent in run.agents(3).unwrap() {
            let run = &run;
            threads.spawn(move || {
                while let Ok(number) = add_one(&mut agent) {
                    if number % 7 == 0 {
                        println!("saved {}", run.flush().unwrap().moves);
                    }
                }
            });
        }
    });
}

/// Kills a process so often, and goes on with its run; returns the number of moves in the end.
fn kill(times: u64, task: &str) -> u64 {
    let room = Room::new(&format!("killed-{task}"));
    let (mut draw, mut moves) = (Draw(77), 0);
    for round in 0..times {
        let mut child = child(task, room.path()).stdout(Stdio::piped()).spawn().unwrap();
        let lines = BufReader::new(child.stdout.take().unwrap()).lines();
        let mut reports = lines.filter_map(|it| it.ok()?.strip_prefix("saved ")?.parse::<u64>().ok());
        // Some are killed before their run is there.
        let first = if round % 4 == 3 { 0 } else { reports.next().unwrap() };
        let killer = thread::spawn({
            let wait = Duration::from_micros(2_000 + draw.below(60_000));
            move || {
                thread::sleep(wait);
                child.kill().unwrap();
                child.wait().unwrap();
            }
        });
        let saved = reports.max().unwrap_or(first);
        killer.join().unwrap();
        let check = if round % 2 == 0 { Check::All } else { Check::Last };
        match Run::resume(room.path(), check) {
            Ok(run) => {
                assert!(run.saved().moves >= saved.max(moves), "{saved} were saved, and {}", run.saved());
                moves = run.saved().moves;
                assert!(!room.path().join("new").exists());
            }
            Err(Error::File { kind: ErrorKind::NotFound, .. }) => assert_eq!((moves, saved), (0, 0)),
            Err(error) => panic!("{error}"),
        }
    }
    assert_eq!(room.state(), [(count(), Value::from(i64::try_from(moves).unwrap()))]);
    let counts = audit_run(room.path()).unwrap();
    assert_eq!(counts.moves_before + counts.moves, moves);
    assert_eq!(counts.first_part > 0, task == "plays_kept");
    moves
}

#[test]
fn a_run_that_is_killed_is_resumed() {
    kill(10, "plays");
}

#[test]
fn a_run_that_drops_segments_and_is_killed_is_resumed() {
    kill(10, "plays_kept");
}

#[test]
#[ignore = "it takes minutes"]
fn a_run_that_is_killed_300_times_is_resumed() {
    println!("{} and {} moves", kill(300, "plays"), kill(300, "plays_kept"));
}

/// Saves some segments, and notes how many are reported as saved. A copy of each stays beside the folder.
fn notes(path: &Path, keep: u64) {
    let report = |parts: u64| {
        use std::io::Write;
        for it in fs::read_dir(path).unwrap().map(|it| it.unwrap()).filter(|it| it.file_name() != "lock") {
            let _ = fs::hard_link(it.path(), path.with_extension("copies").join(it.file_name()));
        }
        let mut log = fs::File::options().append(true).create(true).open(env::var("SHIM_LOG").unwrap()).unwrap();
        log.write_all(format!("told {parts} \n").as_bytes()).unwrap();
    };
    let run = opened(path, keep);
    report(run.saved().parts);
    let mut agent = run.agent(0).unwrap();
    for _ in 0..6 {
        for _ in 0..3 {
            add_one(&mut agent).unwrap();
        }
        report(run.flush().unwrap().parts);
    }
    report(run.close().unwrap().parts);
}

/// Resumes from so many states that a power failure may leave; returns how many of them lost what was reported as saved.
fn fail(task: &str, times: u64, notes_folder: bool) -> u64 {
    let (mut draw, mut lost, mut tried) = (Draw(4), 0, 0);
    while tried < times {
        let [room, log, copy] = ["", "-log", "-copy"].map(|it| Room::new(&format!("failure-{task}{it}")));
        let copies = room.path().with_extension("copies");
        fs::create_dir_all(&copies).unwrap();
        for life in 0..3 {
            let mut command = with_shim(child(task, room.path()), room.path(), log.path());
            if life < 2 {
                command.env("SHIM_DIE", (1 + draw.below(30)).to_string());
            }
            let _ = command.stderr(Stdio::null()).status().unwrap();
        }
        let log = fs::read_to_string(log.path()).unwrap();
        let calls: Vec<_> = log.lines().collect();
        assert!(calls.last().unwrap().starts_with("told "), "{log}");
        for _ in 0..30 {
            let at = draw.below(calls.len() as u64 + 1) as usize;
            let left = crashes::crashed(&calls[..at], [room.path(), &copies], notes_folder, &mut draw);
            lost += u64::from(!is_complete(&left, copy.path()));
            tried += 1;
        }
        fs::remove_dir_all(copies).unwrap();
    }
    lost
}

/// Whether a run goes on with all that was reported as saved.
fn is_complete(left: &crashes::AfterCrash, path: &Path) -> bool {
    let _ = fs::remove_dir_all(path);
    if let Some(files) = &left.files {
        fs::create_dir(path).unwrap();
        files.iter().for_each(|(name, text)| fs::write(path.join(name), text).unwrap());
    }
    let resumed = Run::resume(path, Check::All);
    let is_none = matches!(&resumed, Err(Error::File { kind: ErrorKind::NotFound, .. }));
    if is_none && left.answered == 0 {
        return Run::open([], path, 5).is_ok();
    }
    resumed.is_ok_and(|run| {
        let parts = run.saved().parts;
        let fired = add_one(&mut run.agent(0).unwrap()).unwrap();
        parts >= left.answered && run.close().unwrap().moves == fired && audit_run(path).is_ok()
    })
}

#[test]
fn a_power_failure_loses_nothing_that_was_saved() {
    assert_eq!(fail("notes", 30, true), 0);
    // It would, if the folder weren't flushed.
    assert!(fail("notes", 60, false) > 0);
}

#[test]
fn a_power_failure_loses_nothing_but_what_was_dropped() {
    assert_eq!(fail("notes_kept", 60, true), 0);
}

#[test]
#[ignore = "it takes minutes"]
fn power_failures_at_300_moments_lose_nothing_that_was_saved() {
    assert_eq!((fail("notes", 300, true), fail("notes_kept", 300, true)), (0, 0));
    println!("{} of 120 are lost where no folder is flushed", fail("notes", 120, false));
}

/// The run's folder fails to be flushed.
fn fails(path: &Path) {
    let run = Run::open([(count(), 0.into())], path, 100).unwrap();
    let mut agent = run.agent(0).unwrap();
    add_one(&mut agent).unwrap();
    let saved = run.saved();
    let Err(Error::Broken(why)) = run.flush() else { panic!("not ended") };
    assert!(matches!(&why.cause, EndCause::Write { why, .. } if why.contains("os error 5")) && why.part == 1, "{why}");
    assert_eq!((run.saved(), run.close()), (saved, Err(Error::Broken(why))));
}

#[test]
fn an_unflushed_folder_is_reported() {
    let (room, log) = (Room::new("unflushed"), Room::new("unflushed-log"));
    let mut command = with_shim(child("fails", room.path()), room.path(), log.path());
    // One flush is that of its opening, and one that of its first segment.
    let result = command.env("SHIM_FAIL", "3").output().unwrap();
    assert!(result.status.success(), "{}", String::from_utf8_lossy(&result.stderr));
    let room = Room::new("unopened");
    let mut command = with_shim(child("fails_at_once", room.path()), room.path(), log.path());
    assert!(command.env("SHIM_FAIL", "1").status().unwrap().success());
    assert!(room.segments().is_empty());
}

/// No file may have more than 64 KiB.
fn fills(path: &Path) {
    let long = [(count(), "x".repeat(70_000).into())];
    let fault = Run::open(long, path, 100).unwrap_err();
    assert!(matches!(fault, Error::File { kind: ErrorKind::FileTooLarge, .. }), "{fault}");
    let run = Run::open([(count(), 0.into())], path, 2_000).unwrap();
    let mut agent = run.agent(0).unwrap();
    add_one(&mut agent).unwrap();
    run.flush().unwrap();
    let ended = loop {
        if let Err(error) = add_one(&mut agent) {
            break error;
        }
    };
    let Err(Error::Broken(why)) = run.close() else { panic!("not ended") };
    assert!(matches!(why.cause, EndCause::Write { kind: ErrorKind::FileTooLarge, .. }), "{why}");
    assert_eq!((ended, why.part, run.saved().moves), (Error::Broken(why.clone()), 2, 1));
}

#[test]
fn a_file_that_becomes_too_large_kills_nobody() {
    let room = Room::new("large");
    let mut command = Command::new("bash");
    command.args(["-c", "ulimit -f 64; exec \"$0\" --exact is_child --nocapture"]).arg(env::current_exe().unwrap());
    let output = command.env(TASK, format!("fills:{}", room.path().display())).output().unwrap();
    assert!(output.status.success(), "{}", String::from_utf8_lossy(&output.stdout));
    assert_eq!((numbers(room.audited().0), room.path().join("new").exists()), ((2, 1, 1), false));
}

/// A run of 5 segments, of which the last has 2 moves.
fn played(room: &Room) {
    let run = open(room, 4);
    let mut agent = run.agent(0).unwrap();
    for _ in 0..14 {
        add_one(&mut agent).unwrap();
    }
    assert_eq!(run.close().map(numbers), Ok((5, 14, 14)));
}

/// Each call refuses the run for this segment, and nothing in it is changed.
fn assert_refused(room: &Room, segment: u64, checks: &[Check]) {
    let all = |path: &Path| {
        let mut all: Vec<_> = fs::read_dir(path).unwrap().map(|it| it.unwrap().path()).collect();
        all.sort();
        all.into_iter().map(|it| (fs::read(&it).unwrap(), it)).collect::<Vec<_>>()
    };
    let before = all(room.path());
    let result = checks.iter().map(|check| Run::resume(room.path(), *check).err());
    for result in result.chain([audit_run(room.path()).err()]) {
        assert!(
            matches!(&result, Some(Error::Damaged { segment: at, .. }) if *at == segment),
            "{result:?}, and not {segment}"
        );
    }
    assert_eq!(all(room.path()), before);
}

/// Alters so many bits and lengths of segments.
fn flip(times: u64) {
    let room = Room::new("flipped");
    played(&room);
    let (segments, mut draw) = (room.segments(), Draw(5));
    for _ in 0..times {
        let number = draw.below(5);
        let file = &segments[number as usize];
        let complete = fs::read(file).unwrap();
        let (mut altered, length) = (complete.clone(), complete.len() as u64);
        match draw.below(10) {
            0..6 => altered[draw.below(length) as usize] ^= 1 << draw.below(8),
            6..9 => altered.truncate(draw.below(length) as usize),
            _ => altered.extend_from_slice(&complete[..=(draw.below(length) as usize)]),
        }
        fs::write(file, altered).unwrap();
        assert_refused(&room, number, if number == 4 { &[Check::All, Check::Last] } else { &[Check::All] });
        fs::write(file, complete).unwrap();
    }
    assert_eq!(audit_run(room.path()).map(numbers), Ok((5, 14, 14)));
}

#[test]
fn flipped_bits_and_cut_files_are_found() {
    flip(60);
}

#[test]
#[ignore = "it takes minutes"]
fn flipped_bits_and_cut_files_are_found_3000_times() {
    flip(3_000);
}

#[test]
fn names_of_segments_are_checked() {
    let room = Room::new("names");
    played(&room);
    let both = &[Check::All, Check::Last];
    let segments = room.segments();
    let name =
        |number: usize, from: &str, to: &str| PathBuf::from(segments[number].to_str().unwrap().replacen(from, to, 1));
    let digest = |number: usize| segments[number].file_stem().unwrap().to_str().unwrap()[80..].to_owned();
    let zeros = "0".repeat(64);
    for (from, to, segment) in [
        (2, room.path().join("gone"), 2),
        (2, room.path().join("00000009-4-4-4-00-00.journal"), 2),
        (0, name(0, "-0-0-0-", "-1-0-0-"), 0),
        (0, name(0, "-0-0-0-", "-0-1-0-"), 0),
        (0, name(0, "-0-0-0-", "-0-0-1-"), 0),
        (0, name(0, &zeros, &"1".repeat(64)), 0),
        (1, name(1, "-4-4-", "-04-4-"), 1),
        (1, name(1, "-4-4-", "-+4-4-"), 1),
        (1, name(1, "-0-4-4-", "-1-4-4-"), 1),
        (1, name(1, "-0-4-4-", "-4-4-"), 1),
        (2, name(2, "-4-4-4-", "-4-18446744073709551612-4-"), 2),
        (2, name(2, "-4-4-4-", "-4-4-18446744073709551616-"), 2),
        (2, name(2, "-4-4-4-", "-4-4-4-0"), 2),
        (2, name(2, &digest(1), &zeros), 2),
        (2, name(2, &format!("-{}", digest(1)), ""), 2),
        (3, name(3, "00000003", "00000002"), 2),
        (4, name(4, "00000004", "00000005"), 4),
    ] {
        fs::rename(&segments[from], &to).unwrap();
        assert_refused(&room, segment, both);
        fs::rename(&to, &segments[from]).unwrap();
    }
    // What only the text shows is found there, or in the next name if the text isn't read.
    for (from, to) in [(1, name(1, "-4-4-", "-3-4-")), (2, name(2, &digest(2), &zeros))] {
        fs::rename(&segments[from], &to).unwrap();
        assert_refused(&room, from as u64, &[Check::All]);
        let last = Run::resume(room.path(), Check::Last).err();
        assert!(matches!(last, Some(Error::Damaged { segment, .. }) if segment == from as u64 + 1), "{last:?}");
        fs::rename(&to, &segments[from]).unwrap();
    }
    // What a copy or an editor leaves beside them doesn't matter, nor that the last segments were removed, or the first ones.
    fs::write(room.path().join("notes"), "").unwrap();
    fs::remove_file(&segments[4]).unwrap();
    assert_eq!(audit_run(room.path()).map(numbers), Ok((4, 12, 12)));
    for (number, moves_before) in [(0, 0), (1, 4)] {
        fs::remove_file(&segments[number]).unwrap();
        let counts = audit_run(room.path()).unwrap();
        let moves = 12 - moves_before;
        assert_eq!(numbers(counts), (3 - number as u64, moves, moves));
        assert_eq!((counts.first_part, counts.moves_before), (number as u64 + 1, moves_before));
    }
}

#[test]
fn moved_removed_or_replaced_files_are_noticed() {
    type Alter = fn(&Room);
    let alters: [(&str, Alter, &str); 8] = [
        ("move", |it| fs::rename(it.path(), it.path().with_extension("moved")).unwrap(), "was removed"),
        ("remove", |it| fs::remove_dir_all(it.path()).unwrap(), "was removed"),
        (
            "replace",
            |it| {
                fs::rename(it.path(), it.path().with_extension("moved")).unwrap();
                fs::create_dir(it.path()).unwrap();
            },
            "moved or replaced",
        ),
        ("lock", |it| fs::remove_file(it.path().join("lock")).unwrap(), "was removed"),
        (
            "other-lock",
            |it| {
                fs::remove_file(it.path().join("lock")).unwrap();
                fs::write(it.path().join("lock"), "").unwrap();
            },
            "the lock in",
        ),
        ("last", |it| fs::remove_file(&it.segments()[1]).unwrap(), "was removed"),
        ("cut", |it| fs::write(&it.segments()[1], "x").unwrap(), "another size"),
        (
            "replace-last",
            |it| {
                let last = &it.segments()[1];
                fs::write(it.path().join("other"), vec![0; fs::read(last).unwrap().len()]).unwrap();
                fs::rename(it.path().join("other"), last).unwrap();
            },
            "was replaced",
        ),
    ];
    for (name, alter, said) in alters {
        let room = Room::new(&format!("at-work-{name}"));
        let run = open(&room, 4);
        let mut agent = run.agent(0).unwrap();
        for _ in 0..4 {
            add_one(&mut agent).unwrap();
        }
        assert_eq!(run.flush().unwrap().moves, 4);
        add_one(&mut agent).unwrap();
        alter(&room);
        let Err(Error::Broken(why)) = run.flush() else { panic!("{name}: not ended") };
        assert!(matches!(why.cause, EndCause::Damaged { .. }) && why.to_string().contains(said), "{name}: {why}");
        assert_eq!((why.part, run.saved().moves, add_one(&mut agent)), (2, 4, Err(Error::Broken(why.clone()))));
        let _ = fs::remove_dir_all(room.path().with_extension("moved"));
    }
}
