//! The map.

use std::cell::{Cell, RefCell};
use std::slice::Iter;
use std::sync::atomic::{AtomicUsize, Ordering::Relaxed};

use p3_util_proved::linear_map::{Keys, LinearMap, Values};

use crate::common::Owner;

/// A string that is compared without regard to upper and lower case.
#[derive(Debug)]
struct Word(&'static str);

impl PartialEq for Word {
    fn eq(&self, other: &Self) -> bool {
        self.0.eq_ignore_ascii_case(other.0)
    }
}

impl Eq for Word {}

#[test]
fn a_known_key_keeps_its_place_and_spelling() {
    let pairs = [(Word("one"), 1), (Word("two"), 2), (Word("ONE"), 3)];
    let mut map: LinearMap<Word, u8> = pairs.into_iter().collect();
    assert_eq!(map.insert(Word("TWO"), 4), Some(2));
    assert_eq!(*map.get_or_insert_with(Word("Two"), || panic!("a known key")), 4);
    *map.get_mut(&Word("two")).unwrap() += 1;
    assert_eq!(map.get_mut(&Word("three")), None);
    assert_eq!(map[&Word("oNE")], 3);
    assert_eq!(format!("{map:?}"), r#"LinearMap([(Word("one"), 3), (Word("two"), 5)])"#);
}

/// A key that writes down its name and the other key's name when it is compared. Two keys are equal if their names are
/// the same letter, in upper or lower case.
struct Named<'a> {
    name: char,
    compared: &'a RefCell<String>,
}

impl PartialEq for Named<'_> {
    fn eq(&self, other: &Self) -> bool {
        self.compared.borrow_mut().extend([self.name, other.name]);
        self.name.eq_ignore_ascii_case(&other.name)
    }
}

impl Eq for Named<'_> {}

/// Each stored key in turn is compared with the given key, up to the first that equals it. A look-up that compares a
/// new key twice, or that calls `eq` on the given key, meets its contract, but fails this test.
#[test]
fn stored_keys_are_compared_with_the_given_one() {
    let compared = &RefCell::new(String::new());
    let given = Named { name: 'B', compared };
    let stored = ['a', 'b', 'c'].map(|name| (Named { name, compared }, 1));
    let mut map = LinearMap::from_iter(stored);
    assert_eq!(compared.take(), "abacbc");
    assert_eq!((map.get(&given), compared.take().as_str()), (Some(&1), "aBbB"));
    assert_eq!((map.get_mut(&given), compared.take().as_str()), (Some(&mut 1), "aBbB"));
    assert_eq!((map[&given], compared.take().as_str()), (1, "aBbB"));
    let again = Named { name: 'B', compared };
    assert_eq!((map.insert(again, 2), compared.take().as_str()), (Some(1), "aBbB"));
    assert_eq!((*map.get_or_insert_with(given, || 3), compared.take().as_str()), (2, "aBbB"));
    let [d, e] = ['d', 'e'].map(|name| Named { name, compared });
    assert_eq!((map.insert(d, 4), compared.take().as_str()), (None, "adbdcd"));
    assert_eq!((*map.get_or_insert_with(e, || 5), compared.take().as_str()), (5, "aebecede"));
}

#[test]
fn iterators_from_both_ends() {
    let map = LinearMap::from_iter([(1, 'a'), (2, 'b'), (3, 'c')]);
    let (mut pairs, mut keys, mut values) = (map.iter(), map.keys(), map.values());
    let lens = |pairs: &Iter<_>, keys: &Keys<_, _>, values: &Values<_, _>| [pairs.len(), keys.len(), values.len()];
    assert_eq!((pairs.next_back(), keys.next_back(), values.next_back()), (Some(&(3, 'c')), Some(&3), Some(&'c')));
    assert_eq!(lens(&pairs, &keys, &values), [2; 3]);
    assert_eq!((pairs.next(), keys.next(), values.next()), (Some(&(1, 'a')), Some(&1), Some(&'a')));
    assert_eq!(lens(&pairs.clone(), &keys.clone(), &values.clone()), [1; 3]);
    assert!(pairs.rev().eq(&[(2, 'b')]) && keys.rev().eq(&[2]) && values.rev().eq(&['b']));
}

/// A clone of an iterator continues from the same place. It clones neither keys nor values.
#[test]
fn iterators_over_owners_are_cloned() {
    let drops = AtomicUsize::new(0);
    let map = LinearMap::from_iter([1, 2, 3].map(|i| (Owner::new(i, &drops), Owner::new(10 * i, &drops))));
    let (mut pairs, mut keys, mut values) = (map.iter(), map.keys(), map.values());
    assert_eq!((pairs.next().map(|pair| pair.0.number), keys.len(), values.len()), (Some(1), 3, 3));
    keys.nth(1);
    values.next_back();
    assert!(pairs.clone().map(|pair| pair.1.number).eq([20, 30]) && pairs.len() == 2);
    assert!(keys.clone().map(|key| key.number).eq([3]) && keys.len() == 1);
    assert!(values.clone().map(|value| value.number).eq([10, 20]) && values.len() == 2);
    assert_eq!(drops.load(Relaxed), 0);
}

#[test]
fn empty_maps() {
    let maps = [LinearMap::new(), LinearMap::default(), LinearMap::with_capacity(0)];
    for map in maps {
        assert_eq!(map.get(&1u8), None);
        assert_eq!(format!("{map:?}"), "LinearMap([])");
        assert_eq!(map.into_iter().next(), None::<(u8, u8)>);
    }
}

/// A body that refuses a pair from some number of pairs on, even if there is memory for it, meets its contract, but
/// fails this test.
#[test]
fn maps_of_many_pairs() {
    const KEYS: usize = 5000;
    let mut map = LinearMap::new();
    for key in (0..KEYS).step_by(2) {
        assert_eq!(map.insert(key, key), None);
        assert_eq!(*map.get_or_insert_with(key + 1, || key + 1), key + 1);
    }
    assert!(map.keys().copied().eq(0..KEYS));
    let made: LinearMap<usize, usize> = map.iter().copied().collect();
    assert!(made.into_iter().eq(map));
    let mut roomy = LinearMap::with_capacity(1 << 20);
    assert_eq!(roomy.insert(7, 7), None);
}

/// The closure is called once, and only for a new key. It is dropped before the value is lent. A body that forgets the
/// closure meets its contract, but fails this test. The tests below do the same for bodies that forget a key or a pair.
#[test]
fn closures() {
    let mut map = LinearMap::new();
    for (key, given, wanted, calls) in [(10, 123, 123, 1), (10, 456, 123, 0), (20, 777, 777, 1)] {
        let (called, drops) = (Cell::new(0), AtomicUsize::new(0));
        let owner = Owner::new(given, &drops);
        let value = *map.get_or_insert_with(key, || {
            called.set(called.get() + 1);
            let owner = owner;
            owner.number
        });
        assert_eq!((value, called.get(), drops.load(Relaxed)), (wanted, calls, 1), "{key}");
    }
}

/// If the key is known, the call drops the key that it is given. The stored key is dropped with the map.
#[test]
fn known_keys_are_dropped() {
    let drops = AtomicUsize::new(0);
    let key = || Owner::new(1, &drops);
    let mut map = LinearMap::new();
    assert_eq!((map.insert(key(), 10), drops.load(Relaxed)), (None, 0));
    assert_eq!((map.insert(key(), 20), drops.load(Relaxed)), (Some(10), 1));
    assert_eq!((*map.get_or_insert_with(key(), || 30), drops.load(Relaxed)), (20, 2));
    drop(map);
    assert_eq!(drops.load(Relaxed), 3);
}

/// Among pairs with equal keys the first key and the last value stay. The others are dropped while the map is made.
#[test]
fn pairs_are_dropped() {
    let [of_keys, of_values] = [0; 2].map(AtomicUsize::new);
    let counts = || [&of_keys, &of_values].map(|drops| drops.load(Relaxed));
    let pairs = (0..12).map(|i| (Owner::new(i % 5, &of_keys), Owner::new(i, &of_values)));
    let map: LinearMap<Owner, Owner> = pairs.collect();
    assert_eq!(counts(), [7, 7]);
    assert!(map.values().map(|value| value.number).eq([10, 11, 7, 8, 9]));
    drop(map);
    assert_eq!(counts(), [12, 12]);
}
