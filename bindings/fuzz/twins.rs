//! Random calls of the crate pam, each also done to a `BTreeMap`, a `Vec` or a `BTreeSet`, and compared. `PAM_FUZZ_SEED` and
//! `PAM_FUZZ_SECONDS` say with which numbers, and for how long each test goes on; 1 and 1 if they don't.
use pam::{Fold, FromBytesError, Intervals, Map, NoMemory, Resolve, Seq, SignedMap, TextMap};
use std::collections::{BTreeMap, BTreeSet};
use std::env;
use std::ops::{Bound, RangeInclusive};
use std::time::{Duration, Instant};

type Twin = BTreeMap<u64, u64>;

fn word(name: &str) -> u64 {
    env::var(name).map_or(1, |text| text.parse().expect("a number"))
}

struct Random(u64);

impl Random {
    /// SplitMix64, by Steele, Lea and Flood, 2014.
    fn number(&mut self) -> u64 {
        self.0 = self.0.wrapping_add(0x9e37_79b9_7f4a_7c15);
        let mut z = self.0;
        z = (z ^ z >> 30).wrapping_mul(0xbf58_476d_1ce4_e5b9);
        z = (z ^ z >> 27).wrapping_mul(0x94d0_49bb_1331_11eb);
        z ^ z >> 31
    }

    fn below(&mut self, limit: u64) -> u64 {
        self.number() % limit
    }

    /// Mostly from a small range, so that numbers meet; now and then an end or any number.
    fn key(&mut self) -> u64 {
        match self.below(24) {
            0 => 0,
            1 => u64::MAX - self.below(3),
            2 => self.number(),
            _ => self.below(600) << (self.below(2) * 20),
        }
    }

    /// As `key`, with either sign.
    fn signed(&mut self) -> i64 {
        let key = self.key() as i64;
        if self.below(2) == 0 { key } else { !key }
    }

    /// Few letters, so that keys meet; now and then the key of no bytes, and a long one.
    fn word(&mut self) -> Vec<u8> {
        let most = if self.below(24) == 0 { 200 } else { 6 };
        (0..self.below(most)).map(|_| b"ab\0\xff"[self.below(4) as usize]).collect()
    }

    fn keys(&mut self, most: u64) -> Vec<u64> {
        (0..self.below(most)).map(|_| self.key()).collect()
    }
}

/// Does steps for the time that is set, from states that begin anew after some thousand.
fn steps<S>(begin: impl Fn() -> Result<S, NoMemory>, step: impl Fn(&mut S, &mut Random) -> Result<(), NoMemory>) -> Result<(), NoMemory> {
    let seed = word("PAM_FUZZ_SEED");
    let end = Instant::now() + Duration::from_secs(word("PAM_FUZZ_SECONDS"));
    let mut random = Random(seed);
    let mut count = 0u64;
    while Instant::now() < end {
        let mut state = begin()?;
        for _ in 0..2000 {
            step(&mut state, &mut random)?;
            count += 1;
        }
    }
    println!("{count} steps, seed {seed}");
    Ok(())
}

fn fold(vals: impl Iterator<Item = u64>) -> Fold {
    vals.fold(Fold::default(), |f, val| Fold { sum: f.sum.saturating_add(val), greatest: f.greatest.max(val) })
}

fn resolved(how: Resolve, a: u64, b: u64) -> u64 {
    match how {
        Resolve::First => a,
        Resolve::Second => b,
        Resolve::Sum => a.saturating_add(b),
        Resolve::Max => a.max(b),
    }
}

fn same(map: &Map, twin: &Twin) {
    assert_eq!(map.len(), twin.len());
    assert!(map.iter().eq(twin.iter().map(|(&key, &val)| (key, val))));
    assert!(map.iter().rev().eq(twin.iter().rev().map(|(&key, &val)| (key, val))));
}

fn joined(a: &(Map, Twin), b: &(Map, Twin), r: &mut Random) -> Result<(Map, Twin), NoMemory> {
    let how = [Resolve::First, Resolve::Second, Resolve::Sum, Resolve::Max][r.below(4) as usize];
    let at_both = |key: u64, val: u64| b.1.get(&key).map_or(val, |&other| resolved(how, val, other));
    Ok(match r.below(4) {
        0 => {
            let mut twin = b.1.clone();
            twin.extend(a.1.iter().map(|(&key, &val)| (key, at_both(key, val))));
            (a.0.union(&b.0, how)?, twin)
        }
        1 => {
            let both = a.1.iter().filter(|(key, _)| b.1.contains_key(key)).map(|(&key, &val)| (key, at_both(key, val)));
            (a.0.intersection(&b.0, how)?, both.collect())
        }
        2 => {
            let rest = a.1.iter().filter(|(key, _)| !b.1.contains_key(key)).map(|(&key, &val)| (key, val));
            (a.0.difference(&b.0)?, rest.collect())
        }
        _ => (Map::from_bytes(&a.0.to_bytes()?).expect("the bytes of a map"), a.1.clone()),
    })
}

fn parts(map: &mut Map, twin: &mut Twin, r: &mut Random) -> Result<(), NoMemory> {
    let (a, b) = (r.key(), r.key());
    let (lo, hi) = (a.min(b), a.max(b));
    let inside = || twin.range(lo..=hi).map(|(&key, &val)| (key, val));
    assert!(map.range(lo..=hi).eq(inside()));
    assert!(map.range(lo..hi).rev().eq(twin.range(lo..hi).rev().map(|(&key, &val)| (key, val))));
    assert_eq!(map.range(lo..=hi).len(), inside().count());
    assert_eq!(map.fold_range(lo..=hi), fold(inside().map(|(_, val)| val)));
    assert_eq!(map.fold(), fold(twin.values().copied()));
    assert_eq!((map.least(), map.least_range(lo..=hi)), (twin.values().min().copied(), inside().map(|(_, val)| val).min()));
    let count = inside().count();
    assert_eq!(map.count(lo..=hi), count as u64);
    assert_eq!(map.mean_range(lo..=hi), (count > 0).then(|| fold(inside().map(|(_, val)| val)).sum as f64 / count as f64));
    assert!(map.part(lo..=hi)?.iter().eq(inside()));
    // From both ends in turn, until they meet.
    let (mut mine, mut theirs) = (map.range(lo..), twin.range(lo..));
    for _ in 0..=twin.len() {
        let (next, wanted) = if r.below(2) == 0 { (mine.next(), theirs.next()) } else { (mine.next_back(), theirs.next_back()) };
        assert_eq!(next, wanted.map(|(&key, &val)| (key, val)));
    }
    if r.below(4) == 0 {
        let rest = map.split_off(lo)?;
        same(&rest, &twin.split_off(&lo));
        same(map, twin);
    }
    Ok(())
}

fn single(map: &mut Map, twin: &mut Twin, r: &mut Random) -> Result<(), NoMemory> {
    let (key, val) = (r.key(), r.number() >> r.below(64));
    let pair = |(key, val): (&u64, &u64)| (*key, *val);
    match r.below(9) {
        0..=2 => {
            map.insert(key, val)?;
            twin.insert(key, val);
        }
        3 => assert_eq!(map.remove(key)?, twin.remove(&key).is_some()),
        4 => assert_eq!(map.get(key), twin.get(&key).copied()),
        5 => {
            assert_eq!(map.first_key_value(), twin.first_key_value().map(pair));
            assert_eq!(map.last_key_value(), twin.last_key_value().map(pair));
        }
        6 => assert_eq!(map.rank(key), twin.range(..key).count() as u64),
        7 => {
            assert_eq!(map.prev(key), twin.range(..key).next_back().map(pair));
            let above = key.checked_add(1).and_then(|after| twin.range(after..).next()).map(pair);
            assert_eq!(map.next(key), above);
        }
        _ => {
            let place = r.below(twin.len() as u64 + 2);
            assert_eq!(map.select(place), twin.iter().nth(place as usize).map(pair));
        }
    }
    Ok(())
}

fn many(map: &mut Map, twin: &mut Twin, r: &mut Random) -> Result<(), NoMemory> {
    let keys = r.keys(300);
    match r.below(3) {
        0 => {
            let pairs: Vec<(u64, u64)> = keys.into_iter().map(|key| (key, r.number())).collect();
            map.extend(pairs.iter().copied());
            twin.extend(pairs);
        }
        1 => {
            map.remove_many(&keys)?;
            twin.retain(|key, _| !keys.contains(key));
        }
        _ => assert_eq!(map.get_many(&keys), keys.iter().map(|key| twin.get(key).copied()).collect::<Vec<_>>()),
    }
    same(map, twin);
    Ok(())
}

#[test]
fn maps_are_as_btree_maps() -> Result<(), NoMemory> {
    let begin = || Ok([(Map::new()?, Twin::new()), (Map::new()?, Twin::new()), (Map::new()?, Twin::new())]);
    steps(begin, |pairs, r| {
        let (a, b, c) = (r.below(3) as usize, r.below(3) as usize, r.below(3) as usize);
        match r.below(40) {
            0 => pairs[c] = joined(&pairs[a], &pairs[b], r)?,
            1 => pairs[c] = (pairs[a].0.clone(), pairs[a].1.clone()),
            2 => many(&mut pairs[a].0, &mut pairs[a].1, r)?,
            3 => parts(&mut pairs[a].0, &mut pairs[a].1, r)?,
            4 => assert_eq!(pairs[a].0 == pairs[b].0, pairs[a].1 == pairs[b].1),
            _ => single(&mut pairs[a].0, &mut pairs[a].1, r)?,
        }
        Ok(())
    })
}

type SignedTwin = BTreeMap<i64, u64>;

fn same_signed(map: &SignedMap, twin: &SignedTwin) {
    assert_eq!(map.len(), twin.len());
    assert!(map.iter().eq(twin.iter().map(|(&key, &val)| (key, val))));
    assert!(map.iter().rev().eq(twin.iter().rev().map(|(&key, &val)| (key, val))));
}

fn signed_parts(map: &mut SignedMap, twin: &mut SignedTwin, r: &mut Random) -> Result<(), NoMemory> {
    let (a, b) = (r.signed(), r.signed());
    let (lo, hi) = (a.min(b), a.max(b));
    let inside = || twin.range(lo..=hi).map(|(&key, &val)| (key, val));
    assert!(map.range(lo..=hi).eq(inside()) && map.part(lo..=hi)?.iter().eq(inside()));
    assert!(map.range(..hi).rev().eq(twin.range(..hi).rev().map(|(&key, &val)| (key, val))));
    assert_eq!(map.fold_range(lo..=hi), fold(inside().map(|(_, val)| val)));
    assert_eq!((map.count(lo..=hi), map.least_range(lo..=hi)), (inside().count() as u64, inside().map(|(_, val)| val).min()));
    let rest = map.split_off(lo)?;
    same_signed(&rest, &twin.split_off(&lo));
    same_signed(map, twin);
    assert_eq!(SignedMap::from_bytes(&rest.to_bytes()?).as_ref(), Ok(&rest));
    twin.extend(&rest);
    *map = map.union(&rest, Resolve::First)?;
    Ok(())
}

#[test]
fn signed_maps_are_as_btree_maps() -> Result<(), NoMemory> {
    let pair = |(key, val): (&i64, &u64)| (*key, *val);
    steps(|| Ok((SignedMap::new()?, SignedTwin::new())), |(map, twin), r| {
        let (key, val) = (r.signed(), r.number());
        match r.below(40) {
            0 => {
                let pairs: Vec<(i64, u64)> = (0..r.below(300)).map(|_| (r.signed(), r.number())).collect();
                map.extend(pairs.iter().copied());
                twin.extend(pairs);
                same_signed(map, twin);
            }
            1 => {
                let keys: Vec<i64> = (0..r.below(200)).map(|_| r.signed()).collect();
                assert_eq!(map.get_many(&keys), keys.iter().map(|key| twin.get(key).copied()).collect::<Vec<_>>());
                map.remove_many(&keys)?;
                twin.retain(|key, _| !keys.contains(key));
            }
            2 => signed_parts(map, twin, r)?,
            3..=8 => assert_eq!(map.remove(key)?, twin.remove(&key).is_some()),
            9..=12 => {
                assert_eq!((map.get(key), map.rank(key)), (twin.get(&key).copied(), twin.range(..key).count() as u64));
                assert_eq!(map.prev(key), twin.range(..key).next_back().map(pair));
                assert_eq!(map.next(key), twin.range((Bound::Excluded(key), Bound::Unbounded)).next().map(pair));
                assert_eq!((map.first_key_value(), map.last_key_value()), (twin.first_key_value().map(pair), twin.last_key_value().map(pair)));
                let place = r.below(twin.len() as u64 + 2);
                assert_eq!(map.select(place), twin.iter().nth(place as usize).map(pair));
            }
            _ => {
                map.insert(key, val)?;
                twin.insert(key, val);
            }
        }
        Ok(())
    })
}

type TextTwin = BTreeMap<Vec<u8>, u64>;

fn pair((key, val): (&Vec<u8>, &u64)) -> (Vec<u8>, u64) {
    (key.clone(), *val)
}

fn same_texts(map: &TextMap, twin: &TextTwin) {
    assert_eq!(map.len(), twin.len());
    assert!(map.iter().eq(twin.iter().map(pair)));
    assert!(map.iter().rev().eq(twin.iter().rev().map(pair)));
}

fn single_text(map: &mut TextMap, twin: &mut TextTwin, r: &mut Random) -> Result<(), NoMemory> {
    let (key, val) = (r.word(), r.number() >> r.below(64));
    match r.below(8) {
        0..=2 => {
            map.insert(&key, val)?;
            twin.insert(key, val);
        }
        3 => assert_eq!(map.remove(&key)?, twin.remove(&key).is_some()),
        4 => assert_eq!((map.get(&key), map.contains_key(&key)), (twin.get(&key).copied(), twin.contains_key(&key))),
        5 => {
            assert_eq!(map.first_key_value(), twin.first_key_value().map(pair));
            assert_eq!(map.last_key_value(), twin.last_key_value().map(pair));
        }
        6 => {
            assert_eq!(map.rank(&key), twin.range(..key.clone()).count() as u64);
            assert_eq!(map.prev(&key), twin.range(..key.clone()).next_back().map(pair));
            assert_eq!(map.next(&key), twin.range((Bound::Excluded(key), Bound::Unbounded)).next().map(pair));
        }
        _ => {
            let place = r.below(twin.len() as u64 + 2);
            assert_eq!(map.select(place), twin.iter().nth(place as usize).map(pair));
        }
    }
    Ok(())
}

fn text_parts(map: &mut TextMap, twin: &mut TextTwin, r: &mut Random) -> Result<(), NoMemory> {
    let (a, b) = (r.word(), r.word());
    let (lo, hi) = if a < b { (a, b) } else { (b, a) };
    let inside = || twin.range(lo.clone()..=hi.clone()).map(pair);
    assert!(map.range(&lo[..]..=&hi[..]).eq(inside()));
    assert!(map.range(&lo[..]..&hi[..]).rev().eq(twin.range(lo.clone()..hi.clone()).rev().map(pair)));
    assert_eq!(map.fold_range(&lo[..]..=&hi[..]), fold(inside().map(|(_, val)| val)));
    assert_eq!(map.fold(), fold(twin.values().copied()));
    // From both ends in turn, until they meet.
    let (mut mine, mut theirs) = (map.range(&lo[..]..), twin.range(lo.clone()..));
    for _ in 0..=twin.len() {
        let (next, wanted) = if r.below(2) == 0 { (mine.next(), theirs.next()) } else { (mine.next_back(), theirs.next_back()) };
        assert_eq!(next, wanted.map(pair));
    }
    if r.below(4) == 0 {
        same_texts(&map.split_off(&lo)?, &twin.split_off(&lo));
        same_texts(map, twin);
    }
    Ok(())
}

fn joined_texts(a: &(TextMap, TextTwin), b: &(TextMap, TextTwin), r: &mut Random) -> Result<(TextMap, TextTwin), NoMemory> {
    let how = [Resolve::First, Resolve::Second, Resolve::Sum, Resolve::Max][r.below(4) as usize];
    let at_both = |(key, val): (&Vec<u8>, &u64)| (key.clone(), b.1.get(key).map_or(*val, |&other| resolved(how, *val, other)));
    Ok(match r.below(3) {
        0 => {
            let mut twin = b.1.clone();
            twin.extend(a.1.iter().map(at_both));
            (a.0.union(&b.0, how)?, twin)
        }
        1 => (a.0.intersection(&b.0, how)?, a.1.iter().filter(|(key, _)| b.1.contains_key(*key)).map(at_both).collect()),
        _ => (a.0.difference(&b.0)?, a.1.iter().filter(|(key, _)| !b.1.contains_key(*key)).map(pair).collect()),
    })
}

#[test]
fn text_maps_are_as_btree_maps() -> Result<(), NoMemory> {
    let begin = || Ok([(TextMap::new()?, TextTwin::new()), (TextMap::new()?, TextTwin::new())]);
    steps(begin, |pairs, r| {
        let (a, b, c) = (r.below(2) as usize, r.below(2) as usize, r.below(2) as usize);
        match r.below(40) {
            0 => pairs[c] = joined_texts(&pairs[a], &pairs[b], r)?,
            1 => pairs[c] = (pairs[a].0.clone(), pairs[a].1.clone()),
            2 => {
                let some: Vec<(Vec<u8>, u64)> = (0..r.below(600)).map(|_| (r.word(), r.number())).collect();
                pairs[a].0.extend(some.iter().cloned());
                pairs[a].1.extend(some);
                same_texts(&pairs[a].0, &pairs[a].1);
            }
            3 => {
                let (map, twin) = &mut pairs[a];
                text_parts(map, twin, r)?;
            }
            4 => assert_eq!(pairs[a].0 == pairs[b].0, pairs[a].1 == pairs[b].1),
            _ => {
                let (map, twin) = &mut pairs[a];
                single_text(map, twin, r)?;
            }
        }
        Ok(())
    })
}

fn same_items(seq: &Seq, twin: &[u64]) {
    assert_eq!(seq.len(), twin.len());
    assert!(seq.iter().eq(twin.iter().copied()) && seq.iter().rev().eq(twin.iter().rev().copied()));
}

#[test]
fn seqs_are_as_vecs() -> Result<(), NoMemory> {
    let begin = || Ok((Seq::new()?, Vec::<u64>::new()));
    steps(begin, |(seq, twin), r| {
        let place = r.below(twin.len() as u64 + 2) as usize;
        match r.below(24) {
            0 => {
                let items = r.keys(200);
                seq.extend(items.iter().copied());
                twin.extend(items);
            }
            1 => {
                let place = place.min(twin.len());
                let rest = seq.split_off(place)?;
                same_items(&rest, &twin[place..]);
                *seq = if twin.len() < 10_000 { rest.concat(seq)? } else { rest };
                let kept = if twin.len() < 10_000 { twin[..place].to_vec() } else { Vec::new() };
                *twin = [&twin[place..], &kept].concat();
            }
            2 => {
                *seq = seq.reversed()?;
                twin.reverse();
            }
            3 => {
                let count = r.below(twin.len() as u64 + 1) as usize;
                let run = twin.iter().skip(place).take(count).copied();
                assert_eq!(seq.fold_range(place as u64..(place + count) as u64), fold(run));
                assert_eq!(seq.fold(), fold(twin.iter().copied()));
                same_items(&seq.clone(), twin);
            }
            4..=9 => {
                let item = r.key();
                assert_eq!(seq.set(place, item)?, place < twin.len());
                if let Some(old) = twin.get_mut(place) {
                    *old = item;
                }
            }
            10..=14 => assert_eq!(seq.get(place), twin.get(place).copied()),
            _ => {
                let item = r.key();
                seq.push(item)?;
                twin.push(item);
            }
        }
        Ok(())
    })
}

#[test]
fn intervals_are_as_a_set() -> Result<(), NoMemory> {
    let begin = || Ok((Intervals::new()?, BTreeSet::<(u64, u64)>::new()));
    let closed = |&(left, right): &(u64, u64)| -> RangeInclusive<u64> { left..=right };
    steps(begin, |(set, twin), r| {
        let (a, b) = (r.key(), r.key());
        let (left, right) = if r.below(3) == 0 { (a.min(b), a.max(b)) } else { (a, a.saturating_add(r.below(40))) };
        match r.below(10) {
            0..=3 => {
                set.insert(left..=right)?;
                twin.insert((left, right));
            }
            4 => assert_eq!(set.remove(left..=right)?, twin.remove(&(left, right))),
            5 => {
                if let Some(&(left, right)) = twin.range((left, right)..).next() {
                    assert!(set.contains(left..=right) && set.remove(left..=right)? && twin.remove(&(left, right)));
                }
            }
            6 => {
                let stabbed: Vec<_> = twin.iter().filter(|i| i.0 <= a && a <= i.1).map(closed).collect();
                assert_eq!((set.covers(a), set.stab(a)?), (!stabbed.is_empty(), stabbed));
            }
            7 => {
                let wanted: Vec<_> = twin.iter().filter(|i| i.0 <= right && left <= i.1).map(closed).collect();
                assert_eq!(set.overlapping(left..=right)?, wanted);
            }
            8 => assert_eq!(set.contains(left..=right), twin.contains(&(left, right))),
            _ if r.below(20) == 0 => {
                assert!(set.clone().iter().eq(twin.iter().map(closed)));
                assert_eq!((set.len(), *set == twin.iter().map(closed).collect()), (twin.len(), true));
            }
            _ => {}
        }
        Ok(())
    })
}

#[test]
fn a_share_is_used_by_another_thread() -> Result<(), NoMemory> {
    let map: Map = (0..10_000).map(|key| (key, 1)).collect();
    let mut threads = Vec::new();
    for start in 0..4 {
        let mut share = map.try_clone()?;
        threads.push(std::thread::spawn(move || {
            for key in 0..10_000 {
                share.insert(key, start).expect("memory");
            }
            share.fold().sum
        }));
    }
    for (start, thread) in (0u64..).zip(threads) {
        assert_eq!(thread.join().expect("a thread that ends"), start * 10_000);
    }
    assert_eq!(map.fold().sum, 10_000);
    Ok(())
}

#[test]
fn bytes_that_are_no_map_are_refused() -> Result<(), NoMemory> {
    let map: Map = (0..100).map(|key| (key * key, key)).collect();
    let bytes = map.to_bytes()?;
    for end in 0..bytes.len() {
        assert_eq!(Map::from_bytes(&bytes[..end]), Err(FromBytesError::NotAMap));
    }
    assert_eq!(Map::from_bytes(&bytes), Ok(map));
    Ok(())
}
