//! A bank that runs for a given time, whose journal goes to a folder; it goes on after an earlier run of the folder, also if that
//! was killed: `cargo run --example run -- FOLDER [SECONDS]`
use folugben::{Check, Error, Location, RunAgent, RunOptions, audit_run};
use std::env;
use std::path::PathBuf;
use std::thread;
use std::time::{Duration, Instant};

const ACCOUNTS: i64 = 10;
const AGENTS: usize = 4;
const MOVES: u32 = 10_000;

fn account(number: i64) -> Location {
    Location::new("account").arg(number)
}

/// Moves money until then.
fn work(agent: &mut RunAgent, end: Instant) -> Result<(), Error> {
    let all: Vec<Location> = (0..ACCOUNTS).map(account).collect();
    for i in (usize::from(agent.number())..).take_while(|_| Instant::now() < end) {
        let (from, to) = (&all[i % all.len()], &all[(i + 1 + i % 4) % all.len()]);
        agent.play(|step| {
            let moved = step.get_num(from)?.min(7);
            step.inc(from, -moved)?;
            step.inc(to, moved)
        })?;
    }
    Ok(())
}

fn main() -> Result<(), Error> {
    let mut words = env::args().skip(1);
    let path = PathBuf::from(words.next().unwrap_or_else(|| "bank.run".to_owned()));
    let seconds = words.next().and_then(|it| it.parse().ok()).unwrap_or(1);
    let options = RunOptions::new().moves(MOVES);
    let run = if path.exists() {
        options.resume(&path, Check::Last)?
    } else {
        options.open((0..ACCOUNTS).map(|i| (account(i), 100.into())), &path)?
    };
    let end = Instant::now() + Duration::from_secs(seconds);
    thread::scope(|threads| {
        let agents = run.agents(AGENTS)?.into_iter();
        let handles: Vec<_> = agents.map(|mut agent| threads.spawn(move || work(&mut agent, end))).collect();
        handles.into_iter().try_for_each(|it| it.join().expect("no thread panics"))
    })?;
    let counts = run.close()?;
    assert_eq!(audit_run(&path)?, counts);
    println!("{}: {counts}, legal", path.display());
    Ok(())
}
