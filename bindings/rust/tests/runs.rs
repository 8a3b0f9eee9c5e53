//! Runs: from part to part, at rest, closed, and ended.
#![allow(clippy::cast_possible_truncation, reason = "no test has so many")]
mod common;

use common::{PAST, Room, add_one, count, fired, numbers, open};
use folugben::{Check, Error, Location, Move, Run, RunAgent, RunOptions, Value};
use std::thread;
use std::time::{Duration, Instant};

fn account(number: i64) -> Location {
    Location::new("account").arg(number)
}

/// Waits until the run has so many parts on the disk.
fn has_parts(run: &Run, parts: u64) {
    let start = Instant::now();
    while run.saved().parts < parts {
        assert!(start.elapsed() < Duration::from_secs(60), "{} parts", run.saved().parts);
        thread::sleep(Duration::from_millis(1));
    }
}

#[test]
fn agents_and_runs_go_between_threads() {
    fn is_send<T: Send>() {}
    fn is_sync<T: Sync>() {}
    is_send::<Run>();
    is_sync::<Run>();
    is_send::<RunAgent>();
}

#[test]
fn threads_continue_from_part_to_part_as_one_run() {
    const AGENTS: u8 = 8;
    for (moves, each, is_recording) in
        [(1, 20, false), (7, 100, false), (64, 300, false), (7, 100, true), (64, 300, true)]
    {
        let room = Room::new(&format!("threads-{moves}-{is_recording}"));
        let run = RunOptions::new().moves(moves).record(is_recording).open([(count(), 0.into())], room.path()).unwrap();
        let mut all: Vec<u64> = thread::scope(|threads| {
            let works = run.agents(AGENTS.into()).unwrap().into_iter().map(|mut agent| {
                threads.spawn(move || (0..each).map(|_| add_one(&mut agent).unwrap()).collect::<Vec<_>>())
            });
            let works: Vec<_> = works.collect();
            works.into_iter().flat_map(|it| it.join().unwrap()).collect()
        });
        let totals = run.close().unwrap();
        assert_eq!(totals, run.saved());
        all.sort_unstable();
        let fired = u64::from(AGENTS) * each;
        assert!(all.iter().copied().eq(1..=fired), "each move has a number of its own");
        let (counts, state) = room.audited();
        assert_eq!(counts, totals);
        assert_eq!(counts.moves, fired);
        let bytes = room.bytes();
        let reads = String::from_utf8_lossy(&bytes).matches("\"call\":{\"read\":[[\"count\"]]}").count() as u64;
        // Each fired move has a read, and a stale one may have none.
        assert_eq!(reads >= fired, is_recording);
        assert!(counts.calls >= fired + reads);
        assert!(counts.parts > fired / u64::from(moves));
        assert_eq!(state, [(count(), Value::from(i64::try_from(fired).unwrap()))]);
    }
}

#[test]
fn a_sum_stays_in_each_state_of_a_run() {
    let room = Room::new("sum");
    let run = Run::open((0..4).map(|i| (account(i), 100.into())), room.path(), 20).unwrap();
    thread::scope(|threads| {
        for mut agent in run.agents(4).unwrap() {
            threads.spawn(move || {
                for i in 0..200 {
                    let (from, to) = (account(i % 4), account((i + 1 + i64::from(agent.number()) % 3) % 4));
                    let played = agent.play(|step| {
                        let moved = step.get(&from)?.as_num().unwrap().min(7);
                        step.push(&Move::new().inc(&from, -moved).inc(&to, moved))
                    });
                    played.unwrap();
                }
            });
        }
    });
    run.close().unwrap();
    let sum = |state: &[(Location, Value)]| state.iter().filter_map(|(_, it)| it.as_num()).sum::<i64>();
    let (mut auditor, mut moves) = (folugben::Auditor::new(), 0);
    for line in room.bytes().split_inclusive(|it| *it == b'\n') {
        std::io::Write::write_all(&mut auditor, line).unwrap();
        assert_eq!(sum(&auditor.state().unwrap().unwrap()), 400);
        moves = auditor.counts().moves;
    }
    assert_eq!(moves, 800);
}

#[test]
fn the_folder_has_each_part_complete_and_in_order() {
    let room = Room::new("parts");
    let run = open(&room, 5);
    assert_eq!(numbers(run.saved()), (1, 0, 0));
    assert_eq!(numbers(room.audited().0), (1, 0, 0));
    let mut agent = run.agent(3).unwrap();
    for number in 1..=12 {
        assert_eq!(add_one(&mut agent), Ok(number));
        assert_eq!(agent.step().unwrap().part(), number / 5 + 1);
    }
    has_parts(&run, 3);
    assert_eq!(numbers(room.audited().0), (3, 10, 10));
    drop(agent);
    assert_eq!(numbers(run.close().unwrap()), (4, 12, 12));
    assert_eq!(run.close().map(numbers), Ok((4, 12, 12)));
    let lines = String::from_utf8(room.bytes()).unwrap().lines().count();
    assert_eq!((lines, room.audited().1), (4 + 12, vec![(count(), 12.into())]));
}

#[test]
fn three_parts_are_in_memory_at_most() {
    let room = Room::new("memory");
    let run = open(&room, 20);
    let mut agent = run.agent(0).unwrap();
    for _ in 0..2_000 {
        let number = add_one(&mut agent).unwrap();
        assert!(number <= run.saved().moves + 3 * 20);
    }
}

#[test]
fn an_idle_agent_holds_no_part_up() {
    let room = Room::new("idle");
    let run = open(&room, 4);
    let (mut idle, mut busy) = (run.agent(0).unwrap(), run.agent(1).unwrap());
    assert_eq!(add_one(&mut idle), Ok(1));
    for _ in 0..39 {
        add_one(&mut busy).unwrap();
    }
    // The last move has filled the tenth part, which is over once an agent goes on.
    assert_eq!(busy.step().unwrap().part(), 11);
    has_parts(&run, 11);
    assert_eq!(idle.step().unwrap().get(count()), Ok(40.into()));
    assert_eq!(add_one(&mut idle), Ok(41));
}

#[test]
fn an_open_step_holds_no_agent_up_and_begins_again() {
    let room = Room::new("open");
    let run = open(&room, 3);
    let (mut slow, mut quick) = (run.agent(0).unwrap(), run.agent(1).unwrap());
    let mut step = slow.step().unwrap();
    for _ in 0..3 {
        add_one(&mut quick).unwrap();
    }
    assert_eq!(quick.step().unwrap().part(), 2);
    // It goes on in its part for a while, and fires nothing there.
    assert_eq!(step.put("other", 1), Ok(()));
    assert_eq!(step.commit(), Err(PAST));
    assert_eq!(slow.play(|step| step.put("other", 1)).map(fired), Ok(4));

    let step = slow.step().unwrap();
    for _ in 0..30 {
        add_one(&mut quick).unwrap();
    }
    has_parts(&run, 10);
    let error = step.get(count()).unwrap_err();
    assert!(error == PAST && error.is_retry());
    assert_eq!((step.depth(), step.commit()), (0, Err(PAST)));
    drop((slow, quick));
    assert_eq!(run.close().unwrap().moves, 34);
    assert_eq!(room.audited().1, [(count(), 33.into()), (Location::new("other"), 1.into())]);
}

#[test]
fn a_rule_that_takes_too_long_is_played_again() {
    let room = Room::new("late");
    let run = open(&room, 3);
    let (mut slow, mut quick) = (run.agent(0).unwrap(), run.agent(1).unwrap());
    let mut tries = 0;
    let played = slow.play(|step| {
        tries += 1;
        for _ in 0..if tries == 1 { 9 } else { 0 } {
            add_one(&mut quick)?;
        }
        if tries == 1 {
            has_parts(&run, 3);
        }
        step.put("other", step.get(count())?)
    });
    let played = played.unwrap();
    assert_eq!((played.retries, fired(played), tries), (1, 10, 2));
}

#[test]
fn an_agent_that_stays_in_a_step_stops_no_saving() {
    let room = Room::new("stays");
    let run = open(&room, 20);
    let (mut slow, mut quick) = (run.agent(0).unwrap(), run.agent(1).unwrap());
    let step = slow.step().unwrap();
    for _ in 0..2_000 {
        let number = add_one(&mut quick).unwrap();
        assert!(number <= run.saved().moves + 3 * 20);
    }
    assert!(run.saved().moves >= 1_940);
    assert_eq!(step.get(count()), Err(PAST));
}

/// Has each of the agents begin a step that depends on the count, then the last one raise it, and then the others fire in vain.
fn stale_tries(agents: &mut [RunAgent], last: &mut RunAgent) -> Result<u64, Error> {
    let mut steps = Vec::new();
    for agent in agents {
        let mut step = agent.step()?;
        step.get(count())?;
        step.put(count(), -1)?;
        steps.push(step);
    }
    let number = add_one(last)?;
    for step in steps {
        assert!(step.commit().unwrap_err().is_retry());
    }
    Ok(number)
}

#[test]
fn a_part_of_many_stale_tries_ends_at_rest_before_it_is_full() {
    let room = Room::new("rest");
    let run = RunOptions::new().moves(100).receipts(400).open([(count(), 0.into())], room.path()).unwrap();
    let mut agents = run.agents(9).unwrap();
    let mut last = agents.pop().unwrap();
    for round in 1..=200 {
        assert_eq!(stale_tries(&mut agents, &mut last), Ok(round));
    }
    let counts = run.close().unwrap();
    assert_eq!(counts.moves, 200);
    // A round leaves 9 receipts, and a part ends with 400 of them and some.
    assert!((5..=7).contains(&counts.parts), "{counts}");
    assert_eq!(room.audited(), (counts, vec![(count(), 200.into())]));
}

#[test]
fn parts_end_by_time_and_by_flushes() {
    let room = Room::new("time");
    let run = RunOptions::new().every(Duration::from_millis(30)).open([(count(), 0.into())], room.path()).unwrap();
    let (mut agent, mut other) = (run.agent(0).unwrap(), run.agent(1).unwrap());
    assert_eq!(numbers(run.flush().unwrap()), (1, 0, 0));
    let start = Instant::now();
    add_one(&mut agent).unwrap();
    has_parts(&run, 2);
    assert!(start.elapsed() >= Duration::from_millis(30));
    assert_eq!(numbers(run.close().unwrap()), (2, 1, 1));

    let run = Run::resume(room.path(), Check::All).unwrap();
    let mut agent = run.agent(0).unwrap();
    for number in 2..=5 {
        assert_eq!(add_one(&mut agent), Ok(number));
        assert_eq!(run.flush().unwrap().moves, number);
        assert_eq!(room.audited().0.moves, number);
    }
    assert!(other.step().is_err());
    // A step that goes on fires while the part comes to rest, and is begun again after that.
    let mut other = run.agent(1).unwrap();
    let step = agent.step().unwrap();
    add_one(&mut other).unwrap();
    assert_eq!(run.flush().unwrap().moves, 6);
    assert_eq!(step.commit(), Err(PAST));
    assert_eq!(add_one(&mut agent), Ok(7));
    assert_eq!(run.close().unwrap().moves, 7);
    assert_eq!(run.flush().err(), Some(Error::Closed));
}

#[test]
fn a_flush_of_many_threads_saves_all_that_was_answered() {
    let room = Room::new("flushes");
    let run = open(&room, 1_000);
    thread::scope(|threads| {
        for mut agent in run.agents(4).unwrap() {
            let run = &run;
            threads.spawn(move || {
                for _ in 0..25 {
                    let number = add_one(&mut agent).unwrap();
                    assert!(run.flush().unwrap().moves >= number);
                }
            });
        }
    });
    assert_eq!(run.saved().moves, 100);
    run.close().unwrap();
    assert_eq!(room.audited().1, [(count(), 100.into())]);
}
