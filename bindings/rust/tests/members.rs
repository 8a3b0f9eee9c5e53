//! Counts of elements, and sizes of sets and bags: what the types accept, and what errors say.
use folugben::{Element, Error, Location, Prepared, Storage, Value};
use std::collections::BTreeSet;

fn open() -> Storage {
    let set = BTreeSet::from([Element::from(1), Element::from("a")]);
    Storage::open([("set".into(), set.into()), ("number".into(), Value::from(7))], 100).unwrap()
}

#[test]
fn locations_are_of_any_form() {
    let storage = open();
    let mut agent = storage.agent(0).unwrap();
    let step = agent.step().unwrap();
    let (place, prepared) = (Location::new("set"), Prepared::new(&"set".into()).unwrap());
    assert!(
        step.has("set", 1).unwrap() && step.has(&place, "a").unwrap() && step.has(&prepared, true).is_ok_and(|it| !it)
    );
    assert_eq!((step.count_of(place, 1).unwrap(), step.count_of(&prepared, 2).unwrap()), (1, 0));
    assert_eq!((step.size("set").unwrap(), step.size(&prepared).unwrap()), (2, 2));
}

#[test]
fn other_values_and_elements_are_refused() {
    let storage = open();
    let mut agent = storage.agent(0).unwrap();
    let step = agent.step().unwrap();
    let other = Error::OtherKind { at: "number".into(), wanted: "set or bag", found: 7.into() };
    assert_eq!(step.has("number", 1).unwrap_err(), other);
    assert_eq!(step.count_of("number", vec![Element::from(1)]).unwrap_err(), other);
    assert_eq!(step.size("number").unwrap_err(), other);
    let long = vec![Element::from(1); 4097];
    assert!(matches!(step.has("set", long), Err(Error::Refused { .. })));
    assert!(matches!(step.size(""), Err(Error::Refused { .. })));
}
