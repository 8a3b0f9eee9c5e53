//! Runs whose first segments are dropped.
mod common;

use common::{Room, add_one, count, numbers};
use folugben::{Auditor, Check, EndCause, Error, Run, RunOptions, audit_run};
use std::fs;
use std::io::Write;
use std::sync::atomic::{AtomicBool, Ordering};
use std::thread;

fn options(keep: u64) -> RunOptions {
    RunOptions::new().moves(4).keep(keep)
}

/// A run that keeps so many segments of 4 moves, in which so many moves were fired.
fn played(room: &Room, keep: u64, moves: u64) {
    let run = options(keep).open([(count(), 0.into())], room.path()).unwrap();
    let mut agent = run.agent(0).unwrap();
    for number in 1..=moves {
        assert_eq!(add_one(&mut agent), Ok(number));
    }
    assert_eq!(run.close().map(numbers), Ok((1 + moves.div_ceil(4), moves, moves)));
}

/// The numbers of the segments that are there.
fn there(room: &Room) -> Vec<u64> {
    room.segments().iter().map(|it| it.file_name().unwrap().to_str().unwrap()[..8].parse().unwrap()).collect()
}

#[test]
fn only_the_last_segments_stay() {
    for (keep, moves, left) in
        [(1, 14, 4..5), (2, 14, 3..5), (3, 14, 2..5), (5, 14, 0..5), (9, 14, 0..5), (1, 0, 0..1), (1, 1, 1..2)]
    {
        let room = Room::new(&format!("keep-{keep}-{moves}"));
        played(&room, keep, moves);
        assert_eq!(there(&room), left.clone().collect::<Vec<_>>());
        let (counts, before) = (audit_run(room.path()).unwrap(), 4 * left.start.saturating_sub(1));
        assert_eq!(numbers(counts), (left.end - left.start, moves - before, moves - before));
        assert_eq!((counts.first_part, counts.moves_before), (left.start, before));
    }
}

#[test]
fn an_audit_says_where_a_run_begins() {
    let room = Room::new("keep-says");
    played(&room, 2, 14);
    let counts = audit_run(room.path()).unwrap();
    assert_eq!(counts.to_string(), "6 calls, 6 moves, 2 parts, from part 3 on, after 8 moves");
    // What is missing within them is found.
    fs::remove_file(&room.segments()[0]).unwrap();
    assert_eq!(audit_run(room.path()).unwrap().first_part, 4);
    let last = room.segments().remove(0);
    let other = last.to_str().unwrap().replace("/00000004-12-", "/00000006-12-");
    fs::copy(&last, other).unwrap();
    for error in [audit_run(room.path()).err(), Run::resume(room.path(), Check::Last).err()] {
        assert!(matches!(error, Some(Error::Damaged { segment: 5, .. })), "{error:?}");
    }
}

#[test]
fn a_run_without_its_first_segments_is_resumed() {
    let room = Room::new("keep-resumed");
    played(&room, 2, 14);
    let mut moves = 14;
    for (check, keep, left) in [(Check::All, 9, 3), (Check::Last, 3, 3), (Check::All, 1, 1), (Check::Last, 2, 2)] {
        let run = options(keep).resume(room.path(), check).unwrap();
        assert_eq!(run.saved().moves, moves);
        moves += 1;
        assert_eq!(add_one(&mut run.agent(0).unwrap()), Ok(moves));
        assert_eq!(run.close().map(|it| it.moves), Ok(moves));
        assert_eq!(there(&room).len(), left);
    }
    let counts = audit_run(room.path()).unwrap();
    assert_eq!((counts.first_part, counts.moves_before, numbers(counts)), (7, 16, (2, 2, 2)));
    let mut auditor = Auditor::new();
    auditor.write_all(&room.bytes()).unwrap();
    assert_eq!(auditor.state(), Ok(Some(vec![(count(), 18.into())])));
}

#[test]
fn at_least_one_segment_stays() {
    let room = Room::new("keep-none");
    assert!(matches!(options(0).open([], room.path()), Err(Error::Range(it)) if (it.value, it.least) == (0, 1)));
    assert!(!room.path().exists());
    played(&room, 9, 5);
    assert!(matches!(options(0).resume(room.path(), Check::All), Err(Error::Range(_))));
    assert_eq!(there(&room), [0, 1, 2]);
}

#[test]
fn a_removal_that_fails_ends_the_run() {
    let room = Room::new("keep-fails");
    let run = options(2).open([(count(), 0.into())], room.path()).unwrap();
    let mut agent = run.agent(0).unwrap();
    add_one(&mut agent).unwrap();
    run.flush().unwrap();
    // A folder is in the place of the oldest segment.
    let oldest = room.segments().remove(0);
    fs::remove_file(&oldest).unwrap();
    fs::create_dir(&oldest).unwrap();
    add_one(&mut agent).unwrap();
    let Err(Error::Broken(why)) = run.close() else { panic!("not ended") };
    assert!(matches!(why.cause, EndCause::Write { .. }) && why.part == 3, "{why}");
    assert_eq!((numbers(run.saved()), there(&room)), ((3, 2, 2), vec![0, 1, 2]));
}

#[test]
fn readers_beside_a_run_that_drops_find_no_damage() {
    let room = Room::new("keep-readers");
    let run = options(2).open([(count(), 0.into())], room.path()).unwrap();
    let is_over = AtomicBool::new(false);
    thread::scope(|threads| {
        let reader = threads.spawn(|| {
            let mut audits = 0;
            while !is_over.load(Ordering::Relaxed) {
                let counts = audit_run(room.path()).unwrap();
                assert!((1..=3).contains(&counts.parts), "{counts}");
                audits += 1;
            }
            audits
        });
        let mut agent = run.agent(0).unwrap();
        for _ in 0..400 {
            add_one(&mut agent).unwrap();
        }
        run.close().unwrap();
        is_over.store(true, Ordering::Relaxed);
        assert!(reader.join().unwrap() > 0);
    });
    assert_eq!(there(&room), [99, 100]);
}
