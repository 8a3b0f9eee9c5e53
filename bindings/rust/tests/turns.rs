//! Agents that one thread plays by turns, and agents that go between threads meanwhile.
#![allow(clippy::cast_possible_truncation, clippy::cast_sign_loss, reason = "no test has so many")]
mod common;

use common::{Draw, Room, add_one, count, open};
use folugben::{Agent, Error, Location, Prepared, PreparedMove, Storage, Value};
use std::cell::RefCell;
use std::sync::Mutex;
use std::thread;
use std::time::{Duration, Instant};

fn storage(capacity: u32) -> Storage {
    Storage::open([(count(), 0.into())], capacity).unwrap()
}

fn raise(agent: &mut Agent) -> i64 {
    let played = agent.play(|step| {
        let next = step.get(count())?.as_num().unwrap() + 1;
        step.put(count(), next)?;
        Ok::<_, Error>(next)
    });
    played.unwrap().result
}

#[test]
fn agents_by_turns_see_all_moves_and_lose_none() {
    let storage = storage(2_000);
    let (mut agents, mut draw) = (storage.agents(20).unwrap(), Draw(3));
    for wanted in 1..=1_000 {
        let agent = &mut agents[draw.below(20) as usize];
        assert_eq!(raise(agent), wanted);
        if wanted % 3 == 0 {
            let (number, state) = agent.state().unwrap();
            assert_eq!(state, [(count(), i64::try_from(number.get()).unwrap().into())]);
        }
        if wanted % 7 == 0 {
            let result = agents[draw.below(20) as usize].read(&[count()]).unwrap();
            assert_eq!((result.number.get(), result.values), (wanted as u64, vec![wanted.into()]));
        }
    }
    assert_eq!(agents.iter().map(Agent::won).sum::<u32>(), 1_000);
    drop(agents);
    let journal = storage.close().unwrap();
    assert!(journal.check().unwrap().is_legal());
    assert_eq!(journal.replay().unwrap(), [(count(), Value::from(1_000))]);
}

#[test]
fn a_followed_state_stays() {
    let storage = storage(100);
    let (mut one, mut other) = (storage.agent(0).unwrap(), storage.agent(1).unwrap());
    raise(&mut one);
    assert_eq!(one.follow().unwrap(), 1);
    raise(&mut other);
    // It was in no step, but whoever peeks without a poll has the state that it saw before.
    assert_eq!(one.peek(&[count()]).unwrap().number, 1);
    assert_eq!(one.scan("count").unwrap().1, [(count(), 1.into())]);
    let result = one.read(&[count()]).unwrap();
    raise(&mut other);
    assert_eq!((result.number, one.peek(&[count()]).unwrap()), (2.into(), result));
}

#[test]
fn the_own_state_never_goes_back() {
    let storage = storage(500);
    let (mut agents, mut shown, mut draw) = (storage.agents(5).unwrap(), [0; 5], Draw(8));
    let at = Prepared::new(&count()).unwrap();
    for _ in 0..400 {
        let i = draw.below(5) as usize;
        match draw.below(5) {
            0 => shown[i] = agents[i].follow().unwrap().get(),
            1 => {
                raise(&mut agents[i]);
            }
            2 => {
                let step = agents[i].step().unwrap();
                shown[i] = step.number().get();
            }
            3 => {
                let number = agents[i].number();
                drop(agents.remove(i));
                agents.insert(i, storage.take(number).unwrap());
            }
            _ => {}
        }
        // A call that is refused polls nothing.
        let _ = agents[i].stands(&[(count(), 1_000.into())]);
        let (number, value) = agents[i].peek_at(&at).unwrap();
        assert_eq!(value, i64::try_from(number.get()).unwrap().into());
        assert!(number.get() >= shown[i], "{number} after {}", shown[i]);
        shown[i] = number.get();
    }
}

#[test]
fn an_open_step_keeps_its_state() {
    let storage = storage(100);
    let (mut one, mut other, mut third) =
        (storage.agent(0).unwrap(), storage.agent(1).unwrap(), storage.agent(2).unwrap());
    raise(&mut third);
    let mut step = one.step().unwrap();
    step.put("x", 1).unwrap();
    let mut blind = other.step().unwrap();
    raise(&mut third);
    assert_eq!((step.get(count()).unwrap(), blind.get(count()).unwrap()), (1.into(), 1.into()));
    blind.put("y", 1).unwrap();
    assert!(matches!(blind.commit(), Err(Error::Conflict(_))));
    raise(&mut other);
    assert_eq!(step.get(count()).unwrap(), 1.into());
    drop(step);
    // A step that is forgotten is still one.
    std::mem::forget(one.step().unwrap());
    assert_eq!(raise(&mut other), 4);
    assert_eq!(raise(&mut one), 5);
}

/// Agents that several threads hand one another, and play by turns those that each has.
fn hand_round(agents: Vec<Agent>, rounds: u64, drop_some: bool) -> u64 {
    let pool = Mutex::new(agents);
    thread::scope(|threads| {
        let players: Vec<_> = (0..4)
            .map(|i| {
                let pool = &pool;
                threads.spawn(move || {
                    let (mut draw, mut held, mut fired) = (Draw(91 + i), Vec::new(), 0);
                    for _ in 0..rounds {
                        match draw.below(8) {
                            0..2 => held.extend(pool.lock().unwrap().pop()),
                            2 if !held.is_empty() => {
                                let agent: Agent = held.swap_remove(draw.below(held.len() as u64) as usize);
                                pool.lock().unwrap().insert(0, agent);
                            }
                            3 if drop_some && draw.below(50) == 0 => drop(held.pop()),
                            _ if held.is_empty() => {}
                            _ => {
                                let i = draw.below(held.len() as u64) as usize;
                                raise(&mut held[i]);
                                fired += 1;
                            }
                        }
                    }
                    pool.lock().unwrap().append(&mut held);
                    fired
                })
            })
            .collect();
        players.into_iter().map(|it| it.join().unwrap()).sum()
    })
}

#[test]
fn agents_go_between_threads_by_turns() {
    let storage = storage(100_000);
    let fired = hand_round(storage.agents(12).unwrap(), 4_000, false)
        + hand_round(
            (0..12).filter_map(|i| storage.take(i).ok()).chain((12..60).map(|i| storage.agent(i).unwrap())).collect(),
            4_000,
            true,
        );
    let journal = storage.close().unwrap();
    assert!(journal.check().unwrap().is_legal());
    assert_eq!(journal.replay().unwrap(), [(count(), Value::from(i64::try_from(fired).unwrap()))]);
}

thread_local! {
    static LATE: RefCell<Vec<(Storage, Agent)>> = const { RefCell::new(Vec::new()) };
}

struct Plays(Vec<Agent>);

impl Drop for Plays {
    fn drop(&mut self) {
        for agent in &mut self.0 {
            raise(agent);
        }
    }
}

thread_local! {
    static ENDING: RefCell<Option<Plays>> = const { RefCell::new(None) };
}

#[test]
fn agents_are_played_where_the_locals_of_a_thread_end() {
    let first = storage(10);
    let agents = first.agents(3).unwrap();
    let played = thread::spawn(|| {
        // Made before and after the thread remembers an agent.
        ENDING.with(|it| *it.borrow_mut() = Some(Plays(agents)));
        let other = storage(10);
        let mut agent = other.agent(0).unwrap();
        raise(&mut agent);
        LATE.with(|it| it.borrow_mut().push((other, agent)));
    });
    // A scope doesn't wait for the locals.
    played.join().unwrap();
    assert_eq!(first.close().unwrap().replay().unwrap(), [(count(), Value::from(3))]);
}

#[test]
fn many_storages_take_turns_in_one_thread() {
    let storages: Vec<_> = (0..20).map(|_| storage(50)).collect();
    let mut agents: Vec<_> = storages.iter().map(|it| it.agents(3).unwrap()).collect();
    let mut draw = Draw(12);
    for wanted in 1..=30 {
        for agents in &mut agents {
            assert_eq!(raise(&mut agents[draw.below(3) as usize]), wanted);
        }
    }
    drop(agents.pop());
    drop(storages);
    // A storage may have the address of an earlier one.
    for _ in 0..30 {
        let again = storage(5);
        for agent in &mut again.agents(3).unwrap() {
            raise(agent);
        }
        assert_eq!(again.moves(), 3);
    }
}

/// How long so many moves take, by turns of so many agents; the shortest of three times.
fn time_of(count: usize) -> Duration {
    let places: Vec<_> = (0..32).map(|i| Prepared::new(&Location::new("x").arg(i)).unwrap()).collect();
    let rounds = (0..3).map(|_| {
        let storage = Storage::open([], 10_000).unwrap();
        let (mut agents, mut put) = (storage.agents(count).unwrap(), PreparedMove::new());
        let start = Instant::now();
        for i in 0..5_000 {
            let mut step = agents[i % count].step().unwrap();
            let at = &places[i % 32];
            let next = step.get(at).unwrap().as_num().unwrap_or(0) + 1;
            step.push_prepared(put.clear().put(at, next).unwrap()).unwrap();
            step.commit().unwrap();
        }
        start.elapsed()
    });
    rounds.min().unwrap()
}

#[test]
fn many_agents_by_turns_take_hardly_longer_than_one() {
    let (one, many) = (time_of(1), time_of(200));
    // They took 30 times as long when each followed all moves.
    assert!(many < 8 * one, "{many:?} and {one:?}");
}

#[test]
fn agents_of_a_run_go_by_turns() {
    let room = Room::new("turns");
    let run = open(&room, 40);
    let mut agents = run.agents(10).unwrap();
    for i in 0..200 {
        assert_eq!(add_one(&mut agents[i % 10]), Ok(i as u64 + 1));
        assert_eq!(agents[(i + 3) % 10].peek(&[]).map(|it| it.number.get() <= i as u64 + 1), Ok(true));
    }
    drop(agents);
    assert_eq!(run.close().unwrap().moves, 200);
    assert_eq!(room.audited().1, [(count(), Value::from(200))]);
}
