//! Agents that one thread plays by turns: each begins a step, gets a location, pushes one put, and commits. A line for each
//! number of agents has the median of the nanoseconds that a move took, and its ratio to that of one agent.
//!
//!     cargo run --release --example turns [-- --quick]
use folugben::{Agent, Error, Location, Prepared, PreparedMove, Storage};
use std::env;
use std::time::Instant;

const LOCATIONS: u32 = 64;
const ROUNDS: usize = 9;

fn add_one(agent: &mut Agent, at: &Prepared, put: &mut PreparedMove) -> Result<(), Error> {
    let mut step = agent.step()?;
    let next = step.get_num(at)? + 1;
    step.push_prepared(put.clear().put(at, next)?)?;
    step.commit().map(drop)
}

/// The nanoseconds that one of so many moves takes, of so many agents by turns.
fn time_of(count: usize, moves: u32) -> Result<f64, Error> {
    let storage = Storage::open([], LOCATIONS + moves)?;
    let mut agents = storage.agents(count)?;
    let places = (0..LOCATIONS).map(|i| Prepared::new(&Location::new("x").arg(i))).collect::<Result<Vec<_>, _>>()?;
    let mut put = PreparedMove::new();
    for at in &places {
        add_one(&mut agents[0], at, &mut put)?;
    }
    let start = Instant::now();
    let mut turn = 0;
    for at in places.iter().cycle().take(moves as usize) {
        turn = (turn + 1) % count;
        add_one(&mut agents[turn], at, &mut put)?;
    }
    let time = start.elapsed().as_secs_f64() * 1e9 / f64::from(moves);
    agents.into_iter().for_each(Agent::abandon);
    Ok(time)
}

fn main() -> Result<(), Error> {
    let moves = if env::args().any(|it| it == "--quick") { 20_000 } else { 100_000 };
    let mut alone = None;
    for count in [1, 8, 64, 256] {
        let mut times = (0..ROUNDS).map(|_| time_of(count, moves)).collect::<Result<Vec<_>, _>>()?;
        times.sort_by(f64::total_cmp);
        let time = times[ROUNDS / 2];
        println!("{count} agents by turns\t{time:.0}\t{:.2}", time / *alone.get_or_insert(time));
    }
    Ok(())
}
