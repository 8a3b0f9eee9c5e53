//! What would make a line that no audit reads is refused, and nothing changes.
use folugben::{Error, Location, Prepared, Run, Step, Storage, audit_run};
use std::{env, fs, process};

/// A text of a byte that a line has as six: four of them are too long.
fn fourth() -> String {
    "\u{1}".repeat(1_073_741_824 / 24)
}

fn places() -> Vec<Prepared> {
    (0..4).map(|it| Prepared::new(&Location::new(format!("a{it}"))).unwrap()).collect()
}

fn put_all(step: &mut Step<'_>, places: &[Prepared], text: &str) -> Result<(), Error> {
    places.iter().try_for_each(|at| step.push_put(at, text))
}

#[test]
fn a_run_goes_on_after_a_line_that_is_too_long() {
    let path = env::temp_dir().join(format!("folugben-lines-{}", process::id()));
    let (places, text) = (places(), fourth());
    let run = Run::open([], &path, 100).unwrap();
    let mut agent = run.agent(0).unwrap();
    assert_eq!(agent.play(|step| put_all(step, &places, &text)).err(), Some(Error::TooLong));
    agent.play(|step| step.push_put(&places[0], 1)).unwrap();
    drop(agent);
    assert_eq!(run.close().map(|it| it.moves), Ok(1));
    assert_eq!(audit_run(&path).unwrap().moves, 1);
    fs::remove_dir_all(path).unwrap();
}

#[test]
fn no_storage_opens_with_a_state_that_is_too_long() {
    let (places, text) = (places(), fourth());
    let storage = Storage::open([], 4).unwrap();
    let mut agent = storage.agent(0).unwrap();
    for at in &places {
        agent.play(|step| step.push_put(at, text.as_str())).unwrap();
    }
    agent.follow().unwrap();
    assert_eq!(agent.go_on(4).err(), Some(Error::TooLong));
}
