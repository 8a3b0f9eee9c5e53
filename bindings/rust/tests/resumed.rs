//! Runs that are resumed: after a close, and what is refused.
mod common;

use common::{Room, add_one, count, numbers, open};
use folugben::{AuditError, Check, EndCause, Error, JournalError, Run, RunOptions, Value, audit_run};
use std::ffi::OsStr;
use std::fs;
use std::io::ErrorKind;
use std::os::unix::ffi::OsStrExt;
use std::os::unix::fs::{MetadataExt, chown, symlink};
use std::process::Command;

/// A run of 3 segments, of which the last has 5 moves.
fn played(room: &Room) -> Vec<u8> {
    let run = open(room, 5);
    let mut agent = run.agent(0).unwrap();
    for _ in 0..10 {
        add_one(&mut agent).unwrap();
    }
    drop(agent);
    assert_eq!(run.close().map(numbers), Ok((3, 10, 10)));
    room.bytes()
}

#[test]
fn a_resumed_run_continues_where_it_was_closed() {
    for check in [Check::All, Check::Last] {
        let room = Room::new(&format!("resumed-{check:?}"));
        let before = played(&room);
        let run = RunOptions::new().moves(5).resume(room.path(), check).unwrap();
        assert_eq!((numbers(run.saved()), run.path()), ((3, 10, 10), room.path().canonicalize().unwrap().as_path()));
        let mut agent = run.agent(0).unwrap();
        let step = agent.step().unwrap();
        assert_eq!((step.part(), step.get(count()).unwrap()), (3, Value::from(10)));
        drop(step);
        for number in 11..=16 {
            assert_eq!(add_one(&mut agent), Ok(number));
        }
        assert_eq!(agent.step().unwrap().part(), 4);
        assert_eq!(run.close().map(numbers), Ok((5, 16, 16)));
        assert!(room.bytes().starts_with(&before));
        assert_eq!(room.audited().1, [(count(), 16.into())]);
        // If nothing is played, nothing is saved.
        let before = room.segments();
        Run::resume(room.path(), check).unwrap().close().unwrap();
        assert_eq!(room.segments(), before);
    }
}

#[test]
fn files_belong_to_their_owner_and_leftovers_are_removed() {
    let room = Room::new("owner");
    let played = played(&room);
    let modes = |name: &str| fs::metadata(room.path().join(name)).unwrap().mode() & 0o777;
    assert_eq!((modes("."), modes("lock")), (0o700, 0o600));
    assert!(room.segments().iter().all(|it| fs::metadata(it).unwrap().mode() & 0o777 == 0o600));
    fs::write(room.path().join("new"), &played[..100]).unwrap();
    Run::resume(room.path(), Check::Last).unwrap().close().unwrap();
    let mut names: Vec<_> = fs::read_dir(room.path()).unwrap().map(|it| it.unwrap().file_name()).collect();
    names.retain(|it| it != "lock");
    assert_eq!(names.len(), 3);
    assert_eq!(room.bytes(), played);
}

#[test]
fn a_folder_has_one_run_at_a_time() {
    let room = Room::new("lock");
    let run = open(&room, 5);
    let above = room.path().with_extension("above");
    symlink(room.path().parent().unwrap(), &above).unwrap();
    let link = above.join(room.path().file_name().unwrap());
    assert_eq!(Run::resume(room.path(), Check::All).err(), Some(Error::InUse));
    assert_eq!(Run::resume(&link, Check::Last).err(), Some(Error::InUse));
    let opened = Run::open([], room.path(), 5).unwrap_err();
    assert!(matches!(opened, Error::File { kind: ErrorKind::AlreadyExists, .. }), "{opened}");
    assert!(opened.to_string().contains("Run::resume"), "{opened}");
    add_one(&mut run.agent(0).unwrap()).unwrap();
    run.close().unwrap();
    assert_eq!(numbers(Run::resume(&link, Check::All).unwrap().saved()), (2, 1, 1));
    fs::remove_file(above).unwrap();
}

#[test]
fn links_and_folders_of_others_are_read_and_not_written() {
    let room = Room::new("links");
    open(&room, 5).close().unwrap();
    let link = room.path().with_extension("link");
    symlink(room.path(), &link).unwrap();
    for error in [Run::resume(&link, Check::All).err(), Run::open([], &link, 5).err()] {
        assert!(error.unwrap().to_string().contains("a link leads to the folder"));
    }
    assert!(audit_run(&link).is_ok());
    fs::remove_file(&link).unwrap();
    // Only root can give a folder to another user.
    if chown(room.path(), Some(65_534), Some(65_534)).is_ok() {
        let error = Run::resume(room.path(), Check::All).err().unwrap();
        assert!(error.to_string().contains("belongs to another user"), "{error}");
        assert!(audit_run(room.path()).is_ok());
    }
}

#[test]
fn pipes_are_not_waited_for() {
    let room = Room::new("pipes");
    open(&room, 5).close().unwrap();
    let pipe = room.path().with_extension("pipe");
    let segment = room.segments().remove(0);
    fs::remove_file(&segment).unwrap();
    for path in [&pipe, &segment] {
        assert!(Command::new("mkfifo").arg(path).status().unwrap().success());
    }
    for error in [audit_run(room.path()).err(), Run::resume(room.path(), Check::All).err()] {
        assert!(matches!(error, Some(Error::Damaged { segment: 0, .. })), "{error:?}");
    }
    for error in [audit_run(&pipe).err(), Run::resume(&pipe, Check::All).err(), Run::open([], &pipe, 5).err()] {
        assert!(matches!(error, Some(Error::File { .. })), "{error:?}");
    }
    fs::remove_file(pipe).unwrap();
}

#[test]
fn other_names_are_no_segments() {
    let room = Room::new("names");
    open(&room, 5).close().unwrap();
    fs::write(room.path().join("notes"), "x").unwrap();
    fs::write(room.path().join(OsStr::from_bytes(b"\xff\xfe")), "x").unwrap();
    assert_eq!(audit_run(room.path()).map(numbers), Ok((1, 0, 0)));
    Run::resume(room.path(), Check::All).unwrap().close().unwrap();
    for name in [&b"\xff.journal"[..], b"zzz.journal", b"00000001-0-0-0-0-0.journal"] {
        let file = room.path().join(OsStr::from_bytes(name));
        fs::write(&file, "x").unwrap();
        for error in [audit_run(room.path()).err(), Run::resume(room.path(), Check::Last).err()] {
            assert!(
                matches!(&error, Some(Error::Damaged { segment: 1, why }) if why.contains("is no name")),
                "{error:?}"
            );
        }
        fs::remove_file(file).unwrap();
    }
}

#[test]
fn a_folder_that_is_no_run_is_refused_and_unchanged() {
    let room = Room::new("none");
    let kind = |error: Option<Error>| match error {
        Some(Error::File { kind, why }) => (kind, why),
        other => panic!("{other:?}"),
    };
    let missing = kind(Run::resume("/no/such/folder/run", Check::All).err());
    assert_eq!(missing.0, ErrorKind::NotFound);
    assert!(missing.1.starts_with("/no/such/folder/run: "), "{}", missing.1);
    assert_eq!(kind(Run::resume(room.path(), Check::All).err()).0, ErrorKind::NotFound);
    fs::write(room.path(), "a file").unwrap();
    let file = kind(Run::resume(room.path(), Check::All).err());
    assert!(file.0 == ErrorKind::NotADirectory && file.1.contains("a run is a folder"), "{file:?}");
    assert_eq!(kind(Run::open([], room.path(), 5).err()).0, ErrorKind::AlreadyExists);
    fs::remove_file(room.path()).unwrap();

    fs::create_dir(room.path()).unwrap();
    assert_eq!(kind(Run::resume(room.path(), Check::All).err()).0, ErrorKind::NotFound);
    assert_eq!(fs::read_dir(room.path()).unwrap().count(), 0);
    fs::write(room.path().join("notes"), "").unwrap();
    assert_eq!(kind(Run::open([], room.path(), 5).err()).0, ErrorKind::AlreadyExists);
    fs::remove_file(room.path().join("notes")).unwrap();
    // The rest of a run that was killed as it was made is no run.
    fs::write(room.path().join("new"), "[").unwrap();
    fs::write(room.path().join("lock"), "").unwrap();
    assert_eq!(kind(Run::resume(room.path(), Check::All).err()).0, ErrorKind::NotFound);
    open(&room, 5).close().unwrap();

    assert!(matches!(Run::open([], "/no/such/folder/run", 0), Err(Error::Range(_))));
    assert_eq!(kind(Run::open([], "/no/such/folder/run", 1).err()).0, ErrorKind::NotFound);
    assert!(matches!(Run::open([(" ".into(), 1.into())], "/no/such/folder/run", 1), Err(Error::Refused(_))));
    assert!(matches!(RunOptions::new().moves(0).resume(room.path(), Check::All), Err(Error::Range(_))));
}

/// Has a text of these numbers, with a right digest, in the place of the last segment, as only a program can do it.
fn resume_with(room: &Room, text: &str, calls: u64, moves: u64) -> [Option<Error>; 2] {
    let last = room.segments().pop().unwrap();
    let name = last.file_name().unwrap().to_str().unwrap();
    let before = room.segments()[1].file_stem().unwrap().to_str().unwrap()[80..].to_owned();
    let line = format!("{before} 2 5 {moves} {calls} {}\n", text.len());
    fs::write(room.path().join("both"), line + text).unwrap();
    let output = Command::new("sha256sum").arg(room.path().join("both")).output().unwrap();
    let digest = String::from_utf8(output.stdout).unwrap()[..64].to_owned();
    fs::remove_file(&last).unwrap();
    fs::write(last.with_file_name(format!("{}5-{moves}-{calls}-{before}-{digest}.journal", &name[..9])), text).unwrap();
    [Check::All, Check::Last].map(|check| Run::resume(room.path(), check).err())
}

#[test]
fn an_illegal_segment_is_reported_with_its_number() {
    let room = Room::new("illegal");
    played(&room);
    let text = fs::read_to_string(room.segments().pop().unwrap()).unwrap();
    let illegal = Some(Error::Audit(AuditError::Illegal { part: 2, call: 1 }));
    assert_eq!(resume_with(&room, &text.replace("\"fired\":2", "\"fired\":3"), 5, 5), [illegal.clone(), illegal]);
    let shape = Some(Error::Audit(AuditError::Journal { part: 2, fault: JournalError::Shape(2) }));
    assert_eq!(resume_with(&room, &text.replacen("\"agent\":", "\"agend\":", 1), 5, 5), [shape.clone(), shape]);
    let cut = &text[..=text[..text.len() - 1].rfind('\n').unwrap()];
    let error = Some(Error::Audit(AuditError::Journal { part: 2, fault: JournalError::Cut }));
    assert_eq!(resume_with(&room, cut, 4, 4), [error.clone(), error]);
    let why = "its text has other numbers of moves or events than its name".to_owned();
    let numbers = Some(Error::Damaged { segment: 2, why });
    assert_eq!(resume_with(&room, &text, 5, 4), [numbers.clone(), numbers]);
    assert_eq!(resume_with(&room, &text, 5, 5), [None, None]);
}

#[test]
fn an_unwritable_folder_ends_the_run_and_saved_moves_stay() {
    let room = Room::new("full");
    let run = open(&room, 3);
    let mut agent = run.agent(0).unwrap();
    for _ in 0..3 {
        add_one(&mut agent).unwrap();
    }
    assert_eq!(run.flush().unwrap().moves, 3);
    // A folder is in the place where the next file is made.
    fs::create_dir(room.path().join("new")).unwrap();
    add_one(&mut agent).unwrap();
    let Err(Error::Broken(why)) = run.flush() else { panic!("not ended") };
    assert!(matches!(why.cause, EndCause::Write { .. }) && why.part == 2, "{why}");
    assert_eq!((agent.step().err(), run.close().err()), (Some(Error::Broken(why.clone())), Some(Error::Broken(why))));
    assert_eq!(numbers(run.saved()), (2, 3, 3));
    fs::remove_dir(room.path().join("new")).unwrap();
    assert_eq!(numbers(room.audited().0), (2, 3, 3));
}
