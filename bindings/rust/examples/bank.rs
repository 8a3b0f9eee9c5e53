//! Eight threads move money between accounts; none is lost, and the journal has each move.
use folugben::{Error, Location, Storage};
use std::thread;

const ACCOUNTS: i64 = 10;
const TRANSFERS: i64 = 500;

fn account(number: i64) -> Location {
    Location::new("account").arg(number)
}

/// Takes at most 7 from one account to another; what was moved.
fn transfer(agent: &mut folugben::Agent, from: &Location, to: &Location) -> Result<i64, Error> {
    let played = agent.play(|step| {
        let moved = step.get_num(from)?.min(7);
        step.inc(from, -moved)?;
        step.inc(to, moved)?;
        Ok::<_, Error>(moved)
    })?;
    Ok(played.result)
}

fn main() -> Result<(), Error> {
    let storage = Storage::open((0..ACCOUNTS).map(|i| (account(i), 100.into())), 100_000)?;
    thread::scope(|threads| {
        for mut agent in storage.agents(8)? {
            threads.spawn(move || {
                for i in 0..TRANSFERS {
                    let from = (i * 3 + i64::from(agent.number())) % ACCOUNTS;
                    transfer(&mut agent, &account(from), &account((from + 1 + i % 4) % ACCOUNTS))?;
                }
                Ok::<(), Error>(())
            });
        }
        Ok::<(), Error>(())
    })?;
    let journal = storage.close()?;
    let sum: i64 = journal.replay()?.iter().filter_map(|(_, value)| value.as_num()).sum();
    println!("{} moves, legal: {}, sum {sum}", storage.moves(), journal.check()?.is_legal());
    Ok(())
}
