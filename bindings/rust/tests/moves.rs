//! Moves that are made of others.
use folugben::{Cause, Element, Error, Instruction, Move, Prepared, PreparedMove, Storage, Value};
use std::collections::{BTreeMap, BTreeSet};

#[test]
fn what_is_popped_is_iterated() {
    let storage = Storage::open([("n".into(), 1.into())], 10).unwrap();
    let mut agent = storage.agent(0).unwrap();
    let mut step = agent.step().unwrap();
    step.push(&Move::new().inc("n", 2).put("other", "a")).unwrap();
    let popped = step.pop_move().unwrap();
    let mut all = popped.iter();
    assert_eq!(all.next().unwrap().unwrap(), Instruction::Inc("n".into(), 2));
    assert_eq!((all.len(), (&popped).into_iter().len()), (1, 2));
    assert_eq!(all.next().unwrap().unwrap(), Instruction::Put("other".into(), "a".into()));
    assert!(all.next().is_none());
}

#[test]
fn moves_are_united() {
    let both = Move::new().put("a", 1).unite(Move::new().inc("n", 1));
    let mut grown = Move::new();
    grown |= Move::new().put("a", 1);
    grown.extend(Move::new().inc("n", 1));
    assert_eq!((&both, both.len()), (&grown, 2));
    assert_eq!(Move::new().put("a", 1) | Move::new().inc("n", 1), both);
}

/// An instruction that is pushed at once does what one does that is gathered first.
#[test]
fn moves_of_one_instruction_are_pushed() {
    let bag = Value::Bag(BTreeMap::from([(Element::from("e"), 2)]));
    let storage = Storage::open([("bag".into(), bag), ("n".into(), 1.into())], 10).unwrap();
    let (mut one, mut other) = (storage.agent(0).unwrap(), storage.agent(1).unwrap());
    let at = ["bag", "n", "set", "text"].map(|it| Prepared::new(&it.into()).unwrap());
    let mut step = one.step().unwrap();
    step.push_put(&at[2], BTreeSet::from(["a", "b"].map(Element::from))).unwrap();
    step.push_add(&at[2], 1).unwrap();
    step.push_remove(&at[2], "b").unwrap();
    step.push_bag_add(&at[0], vec![Element::from(1)], 3).unwrap();
    step.push_bag_remove(&at[0], "e", 1).unwrap();
    step.push_inc(&at[1], -5).unwrap();
    step.push_put(&at[3], "t\u{fc}").unwrap();
    assert_eq!(step.depth(), 7);
    let mut gathered_step = other.step().unwrap();
    let mut gathered = PreparedMove::new();
    gathered.put(&at[2], BTreeSet::from([Element::from(1), Element::from("a")])).unwrap();
    gathered.bag_add(&at[0], vec![Element::from(1)], 3).unwrap().bag_remove(&at[0], "e", 1).unwrap();
    gathered_step.push_prepared(gathered.inc(&at[1], -5).unwrap().put(&at[3], "t\u{fc}").unwrap()).unwrap();
    for place in &at {
        assert_eq!(step.get(place), gathered_step.get(place));
    }
    drop(gathered_step);

    let range = step.push_bag_add(&at[0], "e", 0).unwrap_err();
    assert_eq!(range.to_string(), PreparedMove::new().bag_add(&at[0], "e", 0).unwrap_err().to_string());
    let deep = (0..9).fold(Element::from(1), |inner, _| Element::List(vec![inner]));
    let refused = step.push_put(&at[3], Value::from(deep.clone())).unwrap_err();
    assert_eq!(refused, PreparedMove::new().put(&at[3], Value::from(deep)).unwrap_err());
    assert!(matches!(step.push_inc(&at[3], 1), Err(Error::Clash { cause: Cause::Kind, .. })));
    assert_eq!(step.depth(), 7);
    step.commit().unwrap();
}
