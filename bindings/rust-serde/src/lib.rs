//! Maps, sequences and interval sets of the crate `pam` in the formats of `serde`.
//!
//! Each module has the functions `serialize` and `deserialize` that a field names:
//!
//! ```text
//! #[derive(Serialize, Deserialize)]
//! struct Month {
//!     #[serde(with = "pam_serde::map")]
//!     sales: pam::Map,
//! }
//! ```
//!
//! Want of memory is an error of the format.

/// The forms of a map from numbers.
macro_rules! from_numbers {
    ($Map:ident, $entries:literal) => {
        use pam::$Map;
        use serde::de::{Deserializer, Error, MapAccess, Visitor};
        use serde::ser::{Error as _, Serializer};
        use std::fmt;

        /// O(n).
        pub fn serialize<S: Serializer>(map: &$Map, serializer: S) -> Result<S::Ok, S::Error> {
            if serializer.is_human_readable() {
                return serializer.collect_map(map.iter());
            }
            let bytes = map.to_bytes().map_err(S::Error::custom)?;
            serializer.serialize_bytes(&bytes)
        }

        /// O(n) where the keys rise, else O(n log n).
        pub fn deserialize<'de, D: Deserializer<'de>>(deserializer: D) -> Result<$Map, D::Error> {
            if deserializer.is_human_readable() {
                deserializer.deserialize_map(Entries)
            } else {
                deserializer.deserialize_bytes(Bytes)
            }
        }

        struct Entries;

        impl<'de> Visitor<'de> for Entries {
            type Value = $Map;

            fn expecting(&self, f: &mut fmt::Formatter) -> fmt::Result {
                f.write_str($entries)
            }

            fn visit_map<A: MapAccess<'de>>(self, mut access: A) -> Result<$Map, A::Error> {
                let (mut keys, mut vals) = (Vec::new(), Vec::new());
                while let Some((key, val)) = access.next_entry()? {
                    keys.push(key);
                    vals.push(val);
                }
                $Map::from_slices(&keys, &vals).map_err(A::Error::custom)
            }
        }

        struct Bytes;

        impl Visitor<'_> for Bytes {
            type Value = $Map;

            fn expecting(&self, f: &mut fmt::Formatter) -> fmt::Result {
                f.write_str("the bytes of a map")
            }

            fn visit_bytes<E: Error>(self, bytes: &[u8]) -> Result<$Map, E> {
                $Map::from_bytes(bytes).map_err(E::custom)
            }
        }
    };
}

/// A map: in formats that people read a map in the order of its keys, of which a later entry of a key wins, and in others the bytes of
/// `Map::to_bytes`, whose checksum is looked at.
pub mod map {
    from_numbers!(Map, "a map of u64 to u64");
}

/// A map with signed keys, in the forms of one with unsigned keys. The bytes of `SignedMap::to_bytes` say nothing of signs: read as a
/// `Map` they are one whose keys are moved up by 2^63.
pub mod signed_map {
    from_numbers!(SignedMap, "a map of i64 to u64");
}

pub mod text_map;

/// A sequence: the list of its items.
pub mod seq {
    use pam::Seq;
    use serde::de::{Deserialize, Deserializer, Error};
    use serde::ser::Serializer;

    /// O(n).
    pub fn serialize<S: Serializer>(seq: &Seq, serializer: S) -> Result<S::Ok, S::Error> {
        serializer.collect_seq(seq.iter())
    }

    /// O(n).
    pub fn deserialize<'de, D: Deserializer<'de>>(deserializer: D) -> Result<Seq, D::Error> {
        let items = Vec::<u64>::deserialize(deserializer)?;
        Seq::from_slice(&items).map_err(D::Error::custom)
    }
}

/// A set of closed intervals: the list of pairs of their ends, in order. A pair whose first end is greater than its second is an error.
pub mod intervals {
    use pam::Intervals;
    use serde::de::{Deserialize, Deserializer, Error};
    use serde::ser::Serializer;

    /// O(n).
    pub fn serialize<S: Serializer>(set: &Intervals, serializer: S) -> Result<S::Ok, S::Error> {
        serializer.collect_seq(set.iter().map(|interval| (*interval.start(), *interval.end())))
    }

    /// O(n log n).
    pub fn deserialize<'de, D: Deserializer<'de>>(deserializer: D) -> Result<Intervals, D::Error> {
        let ends = Vec::<(u64, u64)>::deserialize(deserializer)?;
        let mut set = Intervals::new().map_err(D::Error::custom)?;
        for (left, right) in ends {
            if left > right {
                return Err(D::Error::custom(format_args!("the interval from {left} to {right} ends before it begins")));
            }
            set.insert(left..=right).map_err(D::Error::custom)?;
        }
        Ok(set)
    }
}
