//! Steps, plays and fires of one thread and of several.
use folugben::{
    Cause, Conflict, Element, Error, Limit, Location, Move, MoveNumber, Patience, Prepared, PreparedMove, Storage,
    Value,
};
use std::collections::{BTreeMap, BTreeSet};

fn count() -> Location {
    Location::new("count")
}

fn open(state: &[(Location, Value)]) -> Storage {
    Storage::open(state.iter().cloned(), 1_000).expect("a state")
}

fn n(number: u64) -> MoveNumber {
    MoveNumber::new(number)
}

fn stale(at: Location) -> Error {
    Conflict::Stale(at).into()
}

fn is_send<T: Send>() {}
fn is_sync<T: Sync>() {}

#[test]
fn agents_go_between_threads_and_storages_are_shared() {
    is_send::<folugben::Agent>();
    is_send::<folugben::Step<'static>>();
    is_send::<Prepared>();
    is_send::<PreparedMove>();
    is_send::<Storage>();
    is_sync::<Storage>();
    is_sync::<Location>();
    is_sync::<Error>();
}

#[test]
fn a_stale_step_reports_its_location_and_is_played_again() {
    let storage = open(&[(count(), 0.into())]);
    let (mut one, mut other) = (storage.agent(0).unwrap(), storage.agent(1).unwrap());
    let mut step = one.step().unwrap();
    let seen = step.get(count()).unwrap().as_num().unwrap();
    other.play(|step| step.put(count(), 5)).unwrap();
    step.put(count(), seen + 1).unwrap();
    assert_eq!(step.commit(), Err(stale(count())));

    let mut tries = 0;
    let result = one
        .play(|step| {
            let seen = step.get(count())?.as_num().unwrap_or(0);
            tries += 1;
            if tries == 1 {
                other.play(|step| step.put(count(), 20))?;
            }
            step.put(count(), seen + 1)?;
            Ok::<_, Error>(seen)
        })
        .unwrap();
    assert_eq!((result.number, result.result, result.retries, tries), (Some(n(3)), 20, 1, 2));
}

#[test]
fn a_rule_error_ends_its_play_and_fires_nothing() {
    #[derive(Debug, PartialEq)]
    enum Fault {
        Poor,
        Storage(Error),
    }
    impl From<Error> for Fault {
        fn from(error: Error) -> Fault {
            Fault::Storage(error)
        }
    }
    let storage = open(&[]);
    let mut agent = storage.agent(0).unwrap();
    let played = agent.play(|step| {
        step.put(count(), 1)?;
        Err::<(), _>(Fault::Poor)
    });
    assert_eq!(played, Err(Fault::Poor));
    let clash =
        agent.play(|step| -> Result<(), Fault> { Ok(step.push(&Move::new().put(count(), 1).put(count(), 2))?) });
    assert_eq!(clash, Err(Fault::Storage(Error::Clash { at: count(), cause: Cause::Two })));
    assert_eq!(storage.moves(), 0);
}

#[test]
fn prepared_moves_count_and_refuse_instructions() {
    let storage = open(&[]);
    let mut agent = storage.agent(0).unwrap();
    let (text, bag) = (Prepared::new(&"t".into()).unwrap(), Prepared::new(&"b".into()).unwrap());
    let list = Element::List(vec![1.into(), Element::List(vec!["a".into()])]);
    let mut gathered = PreparedMove::new();
    gathered.put(&text, list.clone()).unwrap().put(&bag, BTreeMap::from([(list.clone(), 2)])).unwrap();
    let result = gathered.bag_add(&bag, 1, 0).err().unwrap();
    assert_eq!(result.to_string(), "the amount is 0, and must be 1 to 4294967295");
    let deep = (0..9).fold(Element::List(vec![]), |inner, _| Element::List(vec![inner]));
    assert!(matches!(gathered.put(&text, deep), Err(Error::Refused(_))));
    assert!(matches!(gathered.put(&bag, Value::Bag(BTreeMap::from([(list, 0)]))), Err(Error::Refused(_))));
    assert_eq!(gathered.len(), 2);
    // A move of no instructions is pushed and fired too.
    assert_eq!(agent.play(|step| step.push_prepared(&gathered)).unwrap().number, Some(n(1)));
    assert_eq!(agent.play(|step| step.extend_prepared(gathered.clear())).unwrap().number, Some(n(2)));
    let mut step = agent.step().unwrap();
    for depth in 1..3 {
        step.push_prepared(&gathered).unwrap();
        step.extend_prepared(&gathered).unwrap();
        assert_eq!((step.depth(), gathered.len()), (depth, 0));
    }
}

#[test]
fn numbers_beyond_32_bits_and_other_storages_are_refused() {
    let storage = open(&[(count(), 1.into())]);
    let mut one = storage.agent(0).unwrap();
    assert!(matches!(one.stands(&[(count(), n(1 << 32))]), Err(Error::Range(_))));
    assert!(matches!(one.fire_over(&Move::new(), &[], &[("count", n(1 << 32))]), Err(Error::Range(_))));
    assert_eq!(one.fire_over(&Move::new(), &[], &[("f", n(0)); 257]), Err(Error::Many(Limit::Places(Some(257)))));
    let elsewhere = open(&[]);
    assert_eq!(elsewhere.agent(0).unwrap().learn(&mut one), Err(Error::OtherStorage));
}

#[test]
fn a_rule_that_pushes_nothing_fires_nothing_and_reports_so() {
    let storage = open(&[(count(), 1.into())]);
    let mut agent = storage.agent(0).unwrap();
    let played = agent.play(|step| step.get(count())).unwrap();
    assert_eq!((played.number, played.result, played.retries), (None, 1.into(), 0));
    let played = agent.play(|step| {
        step.put(count(), 2)?;
        step.pop()
    });
    assert_eq!((played.unwrap().number, storage.moves()), (None, 0));
    assert_eq!(agent.play(|step| step.push(&Move::new())).unwrap().number, Some(n(1)));
    // A commit is done as it is asked for, as that of C.
    assert_eq!(agent.step().unwrap().commit(), Ok(n(2)));
    drop(agent);
    assert_eq!(storage.close().unwrap().check().unwrap(), folugben::Legality::Legal { calls: 2, moves: 2 });
}

#[test]
fn a_play_ends_with_its_patience() {
    let storage = open(&[(count(), 0.into())]);
    let (mut one, mut other) = (storage.agent(0).unwrap(), storage.agent(1).unwrap());
    let mut tries = 0;
    let mut hopeless = |step: &mut folugben::Step<'_>| {
        let seen = step.get(count())?;
        tries += 1;
        other.play(|step| step.inc(count(), 1))?;
        step.put("seen", seen)
    };
    assert_eq!(one.play_with(Patience::new().tries(3), &mut hopeless), Err(stale(count())));
    assert_eq!(one.play_with(Patience::new().tries(0), &mut hopeless), Err(stale(count())));
    let start = std::time::Instant::now();
    let timeout = std::time::Duration::from_millis(20);
    assert_eq!(one.play_with(Patience::new().timeout(timeout), &mut hopeless), Err(stale(count())));
    assert!(start.elapsed() >= timeout && tries > 4);
    assert_eq!(u64::from(storage.moves()), tries);
    let result = one.play_with(Patience::new().tries(1), |step| step.put("seen", step.get(count())?)).unwrap();
    assert_eq!((result.number, result.retries), (Some(n(tries + 1)), 0));
}

#[test]
fn a_manual_loop_retries_conflicts() {
    let storage = open(&[(count(), 0.into())]);
    std::thread::scope(|threads| {
        for mut agent in storage.agents(4).unwrap() {
            threads.spawn(move || {
                for _ in 0..50 {
                    loop {
                        let mut step = agent.step().unwrap();
                        let seen = step.get("count").unwrap().as_num().unwrap();
                        step.put("count", seen + 1).unwrap();
                        match step.commit() {
                            Ok(_) => break,
                            Err(error) => assert!(error.is_retry(), "{error}"),
                        }
                    }
                }
            });
        }
    });
    assert_eq!(storage.close().unwrap().replay().unwrap(), [(count(), 200.into())]);
}

#[test]
fn values_are_made_of_plain_ones_and_read() {
    let [a, b, c, d] = [Value::from(7_u8), Value::from(-7_i8), 300_u16.into(), (-300_i16).into()];
    assert_eq!([a, b, c, d].map(|it| it.as_num()), [7, -7, 300, -300].map(Some));
    assert_eq!((Value::from(None::<bool>), Element::from(Some("x"))), (Value::Undef, Element::from("x")));
    assert_eq!(Value::from(vec![Element::from(1)]).as_list(), Some(&[Element::Num(1)][..]));
    assert_eq!(Value::from(1).as_list(), None);
    let storage = open(&[]);
    let mut agent = storage.agent(0).unwrap();
    let mut step = agent.step().unwrap();
    step.put("bag", BTreeMap::from([(Element::from(1), 2)])).unwrap();
    step.bag_add("bag", "x", 3).unwrap();
    step.bag_remove("bag", 1, 2).unwrap();
    assert_eq!(step.get("bag").unwrap().as_bag(), Some(&BTreeMap::from([("x".into(), 3)])));
}

#[test]
fn errors_have_sources() {
    let error = stale(count());
    let source = std::error::Error::source(&error).unwrap();
    assert_eq!(source.downcast_ref(), Some(&Conflict::Stale(count())));
    assert!(std::error::Error::source(&Error::Full).is_none());
}

#[test]
fn values_of_one_type_are_got() {
    let state = [("n", 7.into()), ("b", true.into()), ("t", "ä".into()), ("s", Value::Set(BTreeSet::from([1.into()])))];
    let storage = Storage::open(state.map(|(name, value)| (name.into(), value)), 10).unwrap();
    let (mut one, mut other) = (storage.agent(0).unwrap(), storage.agent(1).unwrap());
    let (place, nothing) = (Location::new("n"), Prepared::new(&"u".into()).unwrap());
    let prepared = Prepared::new(&place).unwrap();
    let mut step = one.step().unwrap();
    for got in [step.get_num("n"), step.get_num(&place), step.get_num(place.clone()), step.get_num(&prepared)] {
        assert_eq!(got, Ok(7));
    }
    assert_eq!((step.get_bool("b"), step.get_text("t")), (Ok(true), Ok("ä".to_owned())));
    assert_eq!((step.get_or("n", 1), step.get_or(&nothing, 1)), (Ok(7), Ok(1)));
    assert_eq!((step.get_or("b", false), step.get_or("u", true)), (Ok(true), Ok(true)));
    assert_eq!(step.get_or("s", BTreeSet::new()), Ok(BTreeSet::from([1.into()])));
    assert_eq!(step.get_or("u", vec![Element::Undef]), Ok(vec![Element::Undef]));
    let refused = Error::OtherKind { at: "t".into(), wanted: "number", found: Value::Text("ä".to_owned()) };
    assert_eq!(refused.to_string(), r#"no number is at t: "ä""#);
    assert_eq!((step.get_num("t"), step.get_or("t", 1)), (Err(refused.clone()), Err(refused)));
    let undef = Error::OtherKind { at: "u".into(), wanted: "boolean", found: Value::Undef };
    assert_eq!(step.get_bool(&nothing), Err(undef));
    // The step depends on what was of another kind.
    step.put("n", 8).unwrap();
    other.play(|step| step.put("u", 1)).unwrap();
    assert!(matches!(step.commit(), Err(Error::Conflict(Conflict::Stale(at))) if at == "u".into()));
}

#[test]
fn additions_in_a_row_depend_on_nothing() {
    let set = Value::Set(BTreeSet::from([0.into()]));
    let bag = Value::Bag(BTreeMap::from([(Element::from(0), 1)]));
    let storage = open(&[("s".into(), set), ("b".into(), bag), ("n".into(), i64::MAX.into())]);
    let (mut one, mut other) = (storage.agent(0).unwrap(), storage.agent(1).unwrap());
    let add = |step: &mut folugben::Step<'_>, element: i64| {
        step.add("s", element)?;
        step.add("s", element + 1)?;
        step.bag_add("b", element, 2)?;
        step.bag_add("b", element, 1)?;
        step.inc("n", -2)?;
        step.inc("n", 2)
    };
    // One alone is judged at once.
    let mut step = one.step().unwrap();
    assert!(matches!(step.inc("n", 1), Err(Error::Clash { cause: Cause::Large, .. })));
    assert!(matches!(step.add("n", 1), Err(Error::Clash { cause: Cause::Kind, .. })));
    step.add("s", 1).unwrap();
    assert!(matches!(step.bag_add("b", 1, 0), Err(Error::Range(_))));
    assert_eq!((step.depth(), step.see(&["s".into()]).unwrap()[0].as_set().unwrap().len()), (1, 2));
    drop(step);
    // Several are, where the next call is another one.
    let mut step = one.step().unwrap();
    step.inc("n", -1).unwrap();
    step.inc("n", 3).unwrap();
    for _ in 0..2 {
        assert!(matches!(step.get("s"), Err(Error::Clash { cause: Cause::Large, .. })));
    }
    step.inc("n", -2).unwrap();
    assert_eq!(step.get_num("n"), Ok(i64::MAX));
    drop(step);
    let mut step = one.step().unwrap();
    add(&mut step, 1).unwrap();
    let (offered, reads) = step.offer().unwrap();
    assert_eq!((offered.len(), reads), (6, vec![]));
    other.play(|step| add(step, 7)).unwrap();
    assert_eq!(step.commit(), Ok(n(2)));
    one.follow().unwrap();
    let values = one.peek(&["s".into(), "b".into(), "n".into()]).unwrap().values;
    assert_eq!(values[0].as_set().unwrap().len(), 5);
    assert_eq!(values[1].as_bag().unwrap().values().sum::<u32>(), 7);
    assert_eq!(values[2], i64::MAX.into());
}

#[test]
fn additions_with_another_call_between_are_moves_in_turn() {
    let storage = open(&[("s".into(), Value::Set(BTreeSet::new()))]);
    let (mut one, mut other) = (storage.agent(0).unwrap(), storage.agent(1).unwrap());
    let mut step = one.step().unwrap();
    step.push(&Move::new().put("x", 1)).unwrap();
    step.add("s", 1).unwrap();
    step.add("s", 2).unwrap();
    assert_eq!(step.depth(), 1);
    step.add("t", 1).unwrap_err();
    step.add("s", 3).unwrap();
    assert_eq!(step.offer().unwrap().1, [("s".into(), n(0)), ("t".into(), n(0))]);
    assert_eq!(step.get("s").unwrap().as_set().unwrap().len(), 3);
    step.add("s", 4).unwrap();
    step.pop().unwrap();
    assert_eq!((step.depth(), step.get("s").unwrap().as_set().unwrap().len()), (0, 0));
    for depth in 1..=64 {
        step.push(&Move::new().put("x", depth)).unwrap();
    }
    step.add("s", 5).unwrap();
    step.add("s", 6).unwrap();
    assert_eq!((step.depth(), step.get("s").unwrap().as_set().unwrap().len()), (64, 2));
    other.play(|step| step.add("s", 7)).unwrap();
    assert!(matches!(step.commit(), Err(Error::Conflict(_))));
    // A value of another kind was put there meanwhile.
    let mut step = one.step().unwrap();
    step.add("s", 8).unwrap();
    step.put("s", 8).unwrap();
    assert!(matches!(step.add("s", 9), Err(Error::Clash { cause: Cause::Kind, .. })));
    assert_eq!(step.get_num("s"), Ok(8));
}
