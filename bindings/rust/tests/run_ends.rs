//! How runs end: lost agents, steps of threads that end, closes; and their agents.
#![allow(clippy::cast_possible_truncation, reason = "no test has so many")]
mod common;

use common::{Draw, Room, add_one, count, fired, numbers, open};
use folugben::{Broken, EndCause, Error, Location, Move, MoveNumber, OutOfRange, Run, RunAgent, Value};
use std::thread;
use std::time::Duration;

#[test]
fn an_abandoned_agent_is_reported_when_a_part_ends_at_rest() {
    let room = Room::new("lost-at-rest");
    let run = open(&room, 20);
    let mut abandoned = run.agent(9).unwrap();
    for _ in 0..21 {
        add_one(&mut abandoned).unwrap();
    }
    abandoned.abandon();
    let ended = run.flush().unwrap_err();
    let Error::Broken(Broken { part, cause, .. }) = &ended else { panic!("{ended}") };
    assert_eq!((*part, cause), (2, &EndCause::Missing(MoveNumber::new(1))));
    assert_eq!(run.close(), Err(ended));
    assert_eq!(numbers(room.audited().0), (2, 20, 20));
}

#[test]
fn an_abandoned_agent_ends_the_run_and_saved_moves_stay() {
    let room = Room::new("lost");
    let run = open(&room, 5);
    let agent = |number| run.agent(number).unwrap();
    let (mut abandoned, mut left, mut slow) = (agent(0), agent(1), agent(2));
    for _ in 0..6 {
        add_one(&mut left).unwrap();
    }
    assert_eq!(add_one(&mut abandoned), Ok(7));
    abandoned.abandon();
    let mut step = slow.step().unwrap();
    step.put(count(), 0).unwrap();
    for _ in 0..3 {
        add_one(&mut left).unwrap();
    }
    let ended = loop {
        match add_one(&mut left) {
            Ok(_) => thread::sleep(Duration::from_millis(1)),
            Err(error) => break error,
        }
    };
    let Error::Broken(why) = &ended else { panic!("{ended}") };
    assert_eq!((why.part, &why.cause), (2, &EndCause::Missing(MoveNumber::new(2))));
    assert_eq!(ended.to_string(), "the run ended at part 2: the agent that fired its move 2 is lost");
    assert_eq!(step.commit(), Err(ended.clone()));
    for agent in [&mut left, &mut slow] {
        assert_eq!(agent.step().err(), Some(ended.clone()));
        assert_eq!(add_one(agent), Err(ended.clone()));
    }
    assert_eq!(run.agent(9).err(), Some(ended.clone()));
    assert_eq!((run.close(), run.flush()), (Err(ended.clone()), Err(ended)));
    assert_eq!(numbers(run.saved()), (2, 5, 5));
    drop(run);
    assert_eq!(numbers(room.audited().0), (2, 5, 5));
}

#[test]
fn an_abandoned_agent_that_fired_nothing_in_its_part_is_not_missed() {
    let room = Room::new("unused");
    let run = open(&room, 2);
    let mut agent = run.agent(0).unwrap();
    add_one(&mut agent).unwrap();
    add_one(&mut agent).unwrap();
    assert_eq!(agent.step().unwrap().part(), 2);
    agent.abandon();
    let mut agent = run.agent(1).unwrap();
    add_one(&mut agent).unwrap();
    assert_eq!(run.close().map(numbers), Ok((3, 3, 3)));
}

#[test]
fn forgotten_steps_lose_nothing() {
    let room = Room::new("forgotten");
    let run = open(&room, 3);
    let (mut one, mut other) = (run.agent(0).unwrap(), run.agent(1).unwrap());
    add_one(&mut one).unwrap();
    std::mem::forget(one.step().unwrap());
    assert_eq!(add_one(&mut one), Ok(2));
    std::mem::forget(one.step().unwrap());
    for number in 3..=20 {
        assert_eq!(add_one(&mut other), Ok(number));
    }
    std::mem::forget(other.step().unwrap());
    assert_eq!(run.close().unwrap().moves, 20);
    assert_eq!(one.step().err(), Some(Error::Closed));
}

#[test]
fn a_panic_in_a_step_returns_the_agent() {
    let room = Room::new("panic");
    let run = open(&room, 10);
    let mut agent = run.agent(0).unwrap();
    add_one(&mut agent).unwrap();
    let ended = thread::spawn(move || {
        let played = agent.play(|step| {
            step.put(count(), 7)?;
            assert_ne!(step.depth(), 1, "on purpose");
            Ok::<(), Error>(())
        });
        drop((played, agent));
    });
    assert!(ended.join().is_err());
    assert_eq!(run.close().map(numbers), Ok((2, 1, 1)));
}

#[test]
fn a_number_has_one_agent_at_a_time() {
    let room = Room::new("numbers");
    let run = open(&room, 10);
    let mut agent = run.agent(7).unwrap();
    assert_eq!(run.agent(7).err(), Some(Error::NumberTaken(7.into())));
    assert!(matches!(run.agents(257), Err(Error::Range(OutOfRange { value: 257, most: 256, .. }))));
    assert_eq!(add_one(&mut agent), Ok(1));
    drop(agent);
    let mut agent = run.agent(7).unwrap();
    assert_eq!(add_one(&mut agent), Ok(2));
    assert_eq!(agent.step().unwrap().part(), 1);
    // No number is taken if one is in use.
    assert_eq!((agent.number().get(), run.agents(8).err()), (7, Some(Error::NumberTaken(7.into()))));
    assert_eq!(run.agents(7).unwrap().len(), 7);
    assert_eq!(run.close().map(numbers), Ok((2, 2, 2)));
}

#[test]
fn a_closed_run_begins_no_step() {
    let room = Room::new("closed");
    let run = open(&room, 10);
    let mut agent = run.agent(0).unwrap();
    add_one(&mut agent).unwrap();
    let mut step = agent.step().unwrap();
    step.put(count(), 5).unwrap();
    // It waits for no step, of its own thread either.
    assert_eq!(run.close().map(numbers), Ok((2, 1, 1)));
    assert_eq!((step.get(count()), step.commit()), (Err(Error::Closed), Err(Error::Closed)));
    assert_eq!(agent.step().err(), Some(Error::Closed));
    assert_eq!(add_one(&mut agent), Err(Error::Closed));
    assert_eq!((agent.follow(), agent.scan("count").err()), (Err(Error::Closed), Some(Error::Closed)));
    assert_eq!(run.agent(1).err(), Some(Error::Closed));
    drop(run);
    assert_eq!(agent.step().err(), Some(Error::Closed));
    assert_eq!(room.audited().1, [(count(), 1.into())]);
}

#[test]
fn closing_waits_for_no_step_of_another_thread() {
    let room = Room::new("waits");
    let run = open(&room, 10);
    let mut agent = run.agent(0).unwrap();
    let (start, receiver) = std::sync::mpsc::channel();
    let (closed, ended) = std::sync::mpsc::channel::<()>();
    let other = thread::spawn(move || {
        let mut step = agent.step().unwrap();
        step.put(count(), 9).unwrap();
        start.send(()).unwrap();
        ended.recv().unwrap();
        (step.commit(), agent.step().err())
    });
    receiver.recv().unwrap();
    assert_eq!(run.close().map(numbers), Ok((1, 0, 0)));
    closed.send(()).unwrap();
    assert_eq!(other.join().unwrap(), (Err(Error::Closed), Some(Error::Closed)));
}

#[test]
fn steps_that_went_to_other_threads_hang_no_close() {
    let room = Room::new("moved");
    let run = open(&room, 10);
    let mut agents = run.agents(2).unwrap();
    thread::scope(|threads| {
        let mut steps = agents.iter_mut().map(|it| it.step().unwrap());
        let (mut step, buffer) = (steps.next().unwrap(), steps.next().unwrap());
        let fired = threads.spawn(move || {
            step.put(count(), 3).unwrap();
            step.commit()
        });
        assert_eq!(fired.join().unwrap().unwrap(), 1);
        let forgotten = threads.spawn(move || std::mem::forget(buffer));
        forgotten.join().unwrap();
        assert_eq!(run.close().map(numbers), Ok((2, 1, 1)));
    });
}

#[test]
fn a_dropped_run_is_closed() {
    let room = Room::new("drop");
    let run = open(&room, 10);
    let mut agent = run.agent(0).unwrap();
    add_one(&mut agent).unwrap();
    let step = agent.step().unwrap();
    drop(run);
    assert_eq!(numbers(room.audited().0), (2, 1, 1));
    assert_eq!(step.commit(), Err(Error::Closed));
    assert_eq!(add_one(&mut agent), Err(Error::Closed));
}

#[test]
fn agents_return_their_own_state() {
    let room = Room::new("own");
    let run = open(&room, 3);
    let (mut one, mut other) = (run.agent(0).unwrap(), run.agent(1).unwrap());
    let n = MoveNumber::new;
    let peek = |one: &mut RunAgent| one.peek(&[count(), "none".into()]).map(|it| (it.number, it.values)).unwrap();
    assert_eq!(peek(&mut one), (n(0), vec![0.into(), Value::Undef]));
    add_one(&mut other).unwrap();
    assert_eq!(peek(&mut one), (n(0), vec![0.into(), Value::Undef]));
    assert_eq!((one.follow(), peek(&mut one)), (Ok(n(1)), (n(1), vec![1.into(), Value::Undef])));
    for _ in 0..7 {
        add_one(&mut other).unwrap();
    }
    // Its part has ended, so it is at the beginning of the newest one.
    assert_eq!(one.scan("count"), Ok((n(6), vec![(count(), 6.into())])));
    assert_eq!((one.follow(), one.state()), (Ok(n(8)), Ok((n(8), vec![(count(), 8.into())]))));
    add_one(&mut other).unwrap();
    assert_eq!((one.follow(), one.state()), (Ok(n(9)), Ok((n(9), vec![(count(), 9.into())]))));
    assert!(matches!(one.peek(&["no name".into()]), Err(Error::Refused(_))));
    assert_eq!(run.close().unwrap().moves, 9);
}

/// Calls of all kinds, as a thread's locals end.
struct Late(std::sync::mpsc::Sender<(Result<u64, Error>, Result<u64, Error>)>, RunAgent, Run);

impl Drop for Late {
    fn drop(&mut self) {
        let Late(sender, agent, run) = self;
        let _ = sender.send((add_one(agent), run.close().map(|it| it.moves)));
    }
}

thread_local! {
    static LATE: std::cell::RefCell<Option<Late>> = const { std::cell::RefCell::new(None) };
}

#[test]
fn runs_are_played_and_closed_where_the_locals_of_a_thread_end() {
    let room = Room::new("locals");
    let run = open(&room, 3);
    let agent = run.agent(0).unwrap();
    let (sender, ended) = std::sync::mpsc::channel();
    thread::spawn(move || LATE.set(Some(Late(sender, agent, run)))).join().unwrap();
    assert_eq!(ended.recv().unwrap(), (Ok(1), Ok(1)));
    assert_eq!(room.audited().1, [(count(), 1.into())]);
}

#[test]
fn rules_take_steps_of_runs_and_of_storages() {
    fn rule(step: &mut folugben::Step<'_>) -> Result<i64, Error> {
        let seen = step.get(count())?.as_num().unwrap_or(0);
        step.put(count(), seen + 2)?;
        Ok(seen)
    }
    let room = Room::new("rules");
    let run = open(&room, 10);
    let storage = folugben::Storage::open([], 10).unwrap();
    assert_eq!(run.agent(0).unwrap().play(rule).map(fired), Ok(1));
    assert_eq!(storage.agent(0).unwrap().play(rule).map(fired), Ok(1));
    let clash = run.agent(1).unwrap().play(|step| step.push(&Move::new().put("x", 1).put("x", 2)));
    assert!(matches!(clash, Err(Error::Clash { .. })));
    assert_eq!(run.close().map(numbers), Ok((2, 1, 1)));
}

/// Plays, abandons steps, holds them open, is dropped and made again, until the run is closed; returns the numbers of its moves.
fn come_and_go(run: &Run, mut agent: RunAgent, mut draw: Draw) -> Vec<u64> {
    let (number, mut fired) = (agent.number(), Vec::new());
    loop {
        let result = match draw.below(20) {
            0 => agent.step().map(|step| drop(step.get(count()))),
            1 => agent.step().and_then(|mut step| {
                step.put(Location::new("account").arg(number.get()), 1)?;
                thread::sleep(Duration::from_micros(draw.below(2_000)));
                step.commit().map(|number| fired.push(number.get()))
            }),
            3 => run.flush().map(drop),
            4 => agent.step().map(std::mem::forget),
            2 => {
                drop(agent);
                match run.agent(number) {
                    Ok(again) => agent = again,
                    Err(error) => {
                        assert_eq!(error, Error::Closed);
                        return fired;
                    }
                }
                Ok(())
            }
            _ => add_one(&mut agent).map(|number| fired.push(number)),
        };
        match result {
            Err(Error::Closed) => return fired,
            Err(error) => assert!(error.is_retry(), "{error}"),
            Ok(()) => {}
        }
    }
}

/// Has 4 agents in threads raise one number for 30 s, or as many as `FOLUGBEN_STRESS` says, in parts of 200 moves.
#[test]
#[ignore = "it takes 30 s"]
fn no_run_ends_under_stress() {
    let seconds = std::env::var("FOLUGBEN_STRESS").map_or(30, |it| it.parse().unwrap());
    let room = Room::new("stress");
    let run = open(&room, 200);
    let end = std::time::Instant::now() + Duration::from_secs(seconds);
    let work = |mut agent: RunAgent| {
        let mut own = Vec::new();
        while std::time::Instant::now() < end {
            own.push(add_one(&mut agent).unwrap());
        }
        own
    };
    let mut all: Vec<u64> = thread::scope(|threads| {
        let works: Vec<_> = run.agents(4).unwrap().into_iter().map(|it| threads.spawn(|| work(it))).collect();
        works.into_iter().flat_map(|it| it.join().unwrap()).collect()
    });
    let counts = run.close().unwrap();
    all.sort_unstable();
    assert!(all.iter().copied().eq(1..=counts.moves), "{counts}: {} were answered", all.len());
    assert_eq!(room.audited(), (counts, vec![(count(), i64::try_from(counts.moves).unwrap().into())]));
    println!("stress {seconds} s: {counts}");
}

#[test]
fn each_answered_move_is_saved_as_agents_come_and_go() {
    for round in 1..=6 {
        let room = Room::new(&format!("come-and-go-{round}"));
        let run = open(&room, [1, 3, 20, 150][round as usize % 4]);
        let mut all: Vec<u64> = thread::scope(|threads| {
            let run = &run;
            let work = |agent: RunAgent| {
                let draw = Draw(u64::from(agent.number()) * 7 + round);
                threads.spawn(move || come_and_go(run, agent, draw))
            };
            let works: Vec<_> = run.agents(6).unwrap().into_iter().map(work).collect();
            thread::sleep(Duration::from_millis(60 + 17 * round));
            run.close().unwrap();
            works.into_iter().flat_map(|it| it.join().unwrap()).collect()
        });
        all.sort_unstable();
        let counts = room.audited().0;
        assert_eq!(counts, run.saved());
        assert!(all.iter().copied().eq(1..=counts.moves), "{counts}: {} were answered", all.len());
    }
}
