//! Storages: how agents come back, what is refused, and journals.
use folugben::{Agent, Element, Error, Journal, JournalError, Legality, Limit, Location, Move, MoveNumber, Storage};
use std::cell::RefCell;
use std::thread;

fn count() -> Location {
    Location::new("count")
}

fn n(number: u64) -> MoveNumber {
    MoveNumber::new(number)
}

#[test]
fn dropped_agents_are_returned_also_by_a_panic() {
    let storage = Storage::open([(count(), 0.into())], 10).unwrap();
    let mut agent = storage.agent(0).unwrap();
    agent.play(|step| step.inc(count(), 1)).unwrap();
    assert_eq!(storage.close(), Err(Error::Missing(n(1))));
    let ended = std::thread::spawn(move || {
        agent.play(|step| step.inc(count(), 1)).unwrap();
        panic!("on purpose");
        #[allow(unreachable_code)]
        drop(agent);
    });
    assert!(ended.join().is_err());
    let journal = storage.close().unwrap();
    assert_eq!(journal.check(), Ok(Legality::Legal { calls: 2, moves: 2 }));
    assert_eq!(storage.agent(0).err(), Some(Error::NumberTaken(0.into())));
}

#[test]
fn an_agent_of_another_storage_is_handed_back() {
    let (one, other) = (Storage::open([], 10).unwrap(), Storage::open([], 10).unwrap());
    let agent = one.agent(0).unwrap();
    let agent = other.give(agent).unwrap_err();
    assert!(one.give(agent).is_ok());
}

#[test]
fn refusals_say_what_is_wrong() {
    let error = Storage::open([], 0).err().unwrap();
    assert_eq!(error.to_string(), "the capacity is 0, and must be 1 to 1048576");
    let twice = Storage::open([(count(), 1.into()), (count(), 2.into())], 1).unwrap_err();
    assert!(matches!(&twice, Error::Refused(why) if !why.is_empty()), "{twice}");
    let storage = Storage::open([], 10).unwrap();
    let mut agent = storage.agent(0).unwrap();
    let named = agent.step().unwrap().get("no name").unwrap_err();
    assert!(matches!(&named, Error::Refused(why) if why.contains("name")), "{named}");
    let moved = agent.step().unwrap().push(&Move::new().put(Location::new(""), 1)).unwrap_err();
    assert!(matches!(&moved, Error::Refused(why) if !why.is_empty()), "{moved}");
    let nested = |depth| (0..depth).fold(Element::Num(1), |it, _| Element::List(vec![it]));
    for depth in [9, 10, 40, 200] {
        let error = agent.step().unwrap().put("x", nested(depth)).unwrap_err();
        assert_eq!(error, Error::Refused("lists nest at most 8 deep".to_owned()), "{depth}");
        let at = Location::new("x").arg("a { \"list\" \\").arg(nested(depth));
        assert_eq!(agent.read(&[at]).unwrap_err(), error);
    }
    agent.step().unwrap().put("x", nested(8)).unwrap();
    let error = agent.step().unwrap().put(Location::new("no name"), nested(8)).unwrap_err();
    assert!(error.to_string().contains("name"), "{error}");
    let places: Vec<Location> = (0..257).map(|i| Location::new("f").arg(i)).collect();
    assert_eq!(agent.read(&places), Err(Error::Many(Limit::Places(Some(257)))));
    assert_eq!(agent.step().unwrap().get_each(&places).err(), Some(Error::Many(Limit::Places(None))));
}

#[test]
fn journals_are_written_and_traced() {
    let journal = Storage::open([], 10).unwrap().close().unwrap();
    let mut text = Vec::new();
    journal.write_to(&mut text).unwrap();
    assert_eq!(text, journal.as_bytes());
    assert!(journal.trace().unwrap().starts_with(b"{"));
    assert_eq!(Journal::from(b"{\n".to_vec()).trace(), Err(JournalError::NotJson(1)));
}

#[test]
fn agents_are_all_made_or_none() {
    let storage = Storage::open([], 10).unwrap();
    let _third = storage.agent(2).unwrap();
    assert_eq!(storage.agents(5).unwrap_err(), Error::NumberTaken(2.into()));
    assert!(matches!(storage.agents(257), Err(Error::Range(_))));
    assert_eq!(storage.agents(2).unwrap().len(), 2);
    assert!(storage.agent(3).is_ok());
    assert_eq!(storage.agents(2).unwrap_err(), Error::NumberTaken(0.into()));
}

fn raise(agent: &mut Agent) {
    agent.play(|step| step.put(count(), step.get(count())?.as_num().unwrap_or(0) + 1)).unwrap();
}

/// Calls are made in the destructors of a thread's locals too, in whichever order these are run.
#[test]
fn calls_are_made_as_a_thread_ends() {
    struct Last(RefCell<Option<Agent>>);
    impl Drop for Last {
        fn drop(&mut self) {
            self.0.take().iter_mut().for_each(raise);
        }
    }
    thread_local! {
        static BEFORE: Last = const { Last(RefCell::new(None)) };
        static BEHIND: Last = const { Last(RefCell::new(None)) };
    }
    let storage = Storage::open([(count(), 5.into())], 10).unwrap();
    let [mut one, other] = [0, 1].map(|number| storage.agent(number).unwrap());
    let ends = thread::spawn(move || {
        BEFORE.with(|last| *last.0.borrow_mut() = Some(other));
        raise(&mut one);
        BEHIND.with(|last| *last.0.borrow_mut() = Some(one));
    });
    ends.join().unwrap();
    assert_eq!(storage.close().unwrap().replay().unwrap(), [(count(), 8.into())]);
}

/// How many reads the journal has once the agent has committed a step that gets, sees and scans.
fn recorded(storage: &Storage, mut agent: Agent) -> usize {
    let played = agent.play(|step| {
        step.see(&["x".into()])?;
        step.scan("y")?;
        step.put(count(), step.get(count())?)
    });
    assert!(played.unwrap().number.is_some());
    drop(agent);
    let text = String::from_utf8(storage.close().unwrap().into_bytes()).unwrap();
    text.matches("\"call\":{\"read\":[[\"count\"]]},\"reply\":{\"number\":").count()
}

#[test]
fn continued_storages_record_as_before() {
    let storage = Storage::open([(count(), 3.into())], 4).unwrap();
    assert_eq!(recorded(&storage, storage.agent(0).unwrap()), 0);
    storage.set_recording(true);
    let mut quiet = storage.agent(1).unwrap();
    quiet.set_recording(false);
    assert!(!quiet.is_recording() && storage.take(0).unwrap().is_recording());
    assert_eq!((recorded(&storage, storage.take(0).unwrap()), recorded(&storage, quiet)), (1, 1));
    assert_eq!(recorded(&storage, storage.agent(2).unwrap()), 2);
    let next = storage.next(1).unwrap();
    assert_eq!(recorded(&next, next.agent(0).unwrap()), 1);
    let mut agent = next.take(0).unwrap();
    agent.follow().unwrap();
    let behind = agent.go_on(2).unwrap();
    assert_eq!(recorded(&behind, behind.agent(0).unwrap()), 1);
}
