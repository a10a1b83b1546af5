//! Two maps by one walk over both.
use std::cmp::Ordering;
use std::collections::{btree_map, BTreeMap};
use std::iter::{self, Peekable};

type Ahead<'a> = Peekable<btree_map::Iter<'a, u64, u64>>;

/// The least key of two walks, with the value that each has there.
#[inline]
fn least(a: &mut Ahead, b: &mut Ahead) -> Option<(u64, Option<u64>, Option<u64>)> {
    let order = match (a.peek(), b.peek()) {
        (Some((k, _)), Some((l, _))) => k.cmp(l),
        (Some(_), None) => Ordering::Less,
        (None, Some(_)) => Ordering::Greater,
        (None, None) => return None,
    };
    match order {
        Ordering::Less => a.next().map(|(k, v)| (*k, Some(*v), None)),
        Ordering::Greater => b.next().map(|(k, w)| (*k, None, Some(*w))),
        Ordering::Equal => a.next().zip(b.next()).map(|((k, v), (_, w))| (*k, Some(*v), Some(*w))),
    }
}

/// The keys of two maps in order, with the value that each has there.
#[inline]
pub fn merged<'a>(
    a: &'a BTreeMap<u64, u64>,
    b: &'a BTreeMap<u64, u64>,
) -> impl Iterator<Item = (u64, Option<u64>, Option<u64>)> + 'a {
    let (mut a, mut b) = (a.iter().peekable(), b.iter().peekable());
    iter::from_fn(move || least(&mut a, &mut b))
}
