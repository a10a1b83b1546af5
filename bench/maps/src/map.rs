//! What the operations ask of a map.
use crate::texts::TextMap;
use bench_common::merged;
use im_rc::ordmap::DiffItem;
use im_rc::OrdMap;
use std::collections::BTreeMap;
use std::mem;

/// A key with the values that two versions of a map have there.
pub type Changed = (u64, Option<u64>, Option<u64>);

/// A map of which the operations on two, but for `put_all`, leave both whole.
pub trait Map: Clone + Default + FromIterator<(u64, u64)> {
    /// The map of the same kind whose keys are texts.
    type Texts: TextMap;

    fn put(&mut self, key: u64, val: u64);

    /// A copy that takes no time in the size; none where there is no such copy.
    fn shared(&self) -> Option<Self>;

    fn size(&self) -> u64;

    fn at(&self, key: u64) -> Option<u64>;

    fn entries(&self) -> impl Iterator<Item = (&u64, &u64)>;

    /// The entries with keys from `lo` to `hi`.
    fn within(&self, lo: u64, hi: u64) -> impl Iterator<Item = (&u64, &u64)>;

    /// The entries with smaller keys.
    fn below(&self, key: u64) -> impl Iterator<Item = (&u64, &u64)>;

    /// The nearest key that is greater.
    fn next_key(&self, key: u64) -> Option<u64>;

    /// The nearest key that is smaller.
    fn prev_key(&self, key: u64) -> Option<u64>;

    /// The entries of both, with the values of a key of both added.
    fn united(&self, other: &Self) -> Self;

    /// The keys of both, with their values added.
    fn intersected(&self, other: &Self) -> Self;

    /// The entries whose keys the other has not.
    fn subtracted(&self, other: &Self) -> Self;

    /// Puts the entries of another map, which is given up.
    fn put_all(&mut self, other: Self);

    /// Where a newer version has another value than this one, or one of the two has none.
    fn changes(&self, newer: &Self) -> Vec<Changed>;
}

/// What both kinds of maps do by calls of the same names.
macro_rules! same_calls {
    () => {
        fn put(&mut self, key: u64, val: u64) {
            self.insert(key, val);
        }

        fn size(&self) -> u64 {
            self.len() as u64
        }

        fn at(&self, key: u64) -> Option<u64> {
            self.get(&key).copied()
        }

        fn entries(&self) -> impl Iterator<Item = (&u64, &u64)> {
            self.iter()
        }

        fn within(&self, lo: u64, hi: u64) -> impl Iterator<Item = (&u64, &u64)> {
            self.range(lo..=hi)
        }

        fn below(&self, key: u64) -> impl Iterator<Item = (&u64, &u64)> {
            self.range(..key)
        }

        fn next_key(&self, key: u64) -> Option<u64> {
            self.range(key + 1..).next().map(|(key, _)| *key)
        }

        fn prev_key(&self, key: u64) -> Option<u64> {
            self.range(..key).next_back().map(|(key, _)| *key)
        }
    };
}

impl Map for BTreeMap<u64, u64> {
    type Texts = BTreeMap<String, u64>;

    same_calls!();

    fn shared(&self) -> Option<Self> {
        None
    }

    fn united(&self, other: &Self) -> Self {
        let sum = |v: Option<u64>, w: Option<u64>| v.unwrap_or(0).saturating_add(w.unwrap_or(0));
        let mut entries = Vec::with_capacity(self.len() + other.len());
        entries.extend(merged(self, other).map(|(key, v, w)| (key, sum(v, w))));
        entries.into_iter().collect()
    }

    fn intersected(&self, other: &Self) -> Self {
        self.iter()
            .filter_map(|(key, v)| other.get(key).map(|w| (*key, v.saturating_add(*w))))
            .collect()
    }

    fn subtracted(&self, other: &Self) -> Self {
        self.iter()
            .filter(|(key, _)| !other.contains_key(key))
            .map(|(key, val)| (*key, *val))
            .collect()
    }

    fn put_all(&mut self, mut other: Self) {
        self.append(&mut other);
    }

    fn changes(&self, newer: &Self) -> Vec<Changed> {
        merged(self, newer).filter(|(_, old, new)| old != new).collect()
    }
}

/// What a change of an `OrdMap` says.
fn changed(item: DiffItem<u64, u64>) -> Changed {
    match item {
        DiffItem::Add(key, val) => (*key, None, Some(*val)),
        DiffItem::Remove(key, val) => (*key, Some(*val), None),
        DiffItem::Update { old, new } => (*old.0, Some(*old.1), Some(*new.1)),
    }
}

impl Map for OrdMap<u64, u64> {
    type Texts = OrdMap<String, u64>;

    same_calls!();

    fn shared(&self) -> Option<Self> {
        Some(self.clone())
    }

    fn united(&self, other: &Self) -> Self {
        self.clone().union_with(other.clone(), u64::saturating_add)
    }

    fn intersected(&self, other: &Self) -> Self {
        self.clone().intersection_with(other.clone(), u64::saturating_add)
    }

    fn subtracted(&self, other: &Self) -> Self {
        self.clone().relative_complement(other.clone())
    }

    fn put_all(&mut self, other: Self) {
        *self = mem::take(self).union_with(other, |_, new| new);
    }

    fn changes(&self, newer: &Self) -> Vec<Changed> {
        self.diff(newer).map(changed).collect()
    }
}
