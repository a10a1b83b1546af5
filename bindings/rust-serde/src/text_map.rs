//! A map from byte strings: a map in the order of its keys, of which a later entry of a key wins. In formats that people read a key is
//! a text, and one that is no UTF-8 an error; in others it is its bytes.

use pam::TextMap;
use serde::de::{Deserialize, Deserializer, Error, MapAccess, Visitor};
use serde::ser::{Error as _, Serialize, Serializer};
use std::fmt;
use std::str;

/// O(n).
pub fn serialize<S: Serializer>(map: &TextMap, serializer: S) -> Result<S::Ok, S::Error> {
    serializer.collect_map(map.iter().map(|(key, val)| (Key(key), val)))
}

/// O(n log n).
pub fn deserialize<'de, D: Deserializer<'de>>(deserializer: D) -> Result<TextMap, D::Error> {
    deserializer.deserialize_map(Entries)
}

struct Key(Vec<u8>);

impl Serialize for Key {
    fn serialize<S: Serializer>(&self, serializer: S) -> Result<S::Ok, S::Error> {
        if serializer.is_human_readable() {
            serializer.serialize_str(str::from_utf8(&self.0).map_err(S::Error::custom)?)
        } else {
            serializer.serialize_bytes(&self.0)
        }
    }
}

impl<'de> Deserialize<'de> for Key {
    fn deserialize<D: Deserializer<'de>>(deserializer: D) -> Result<Key, D::Error> {
        if deserializer.is_human_readable() {
            deserializer.deserialize_string(KeyBytes)
        } else {
            deserializer.deserialize_byte_buf(KeyBytes)
        }
    }
}

struct KeyBytes;

impl Visitor<'_> for KeyBytes {
    type Value = Key;

    fn expecting(&self, f: &mut fmt::Formatter) -> fmt::Result {
        f.write_str("a key")
    }

    fn visit_str<E: Error>(self, key: &str) -> Result<Key, E> {
        Ok(Key(key.into()))
    }

    fn visit_string<E: Error>(self, key: String) -> Result<Key, E> {
        Ok(Key(key.into()))
    }

    fn visit_bytes<E: Error>(self, key: &[u8]) -> Result<Key, E> {
        Ok(Key(key.into()))
    }

    fn visit_byte_buf<E: Error>(self, key: Vec<u8>) -> Result<Key, E> {
        Ok(Key(key))
    }
}

struct Entries;

impl<'de> Visitor<'de> for Entries {
    type Value = TextMap;

    fn expecting(&self, f: &mut fmt::Formatter) -> fmt::Result {
        f.write_str("a map of byte strings to u64")
    }

    fn visit_map<A: MapAccess<'de>>(self, mut access: A) -> Result<TextMap, A::Error> {
        let mut pairs = Vec::new();
        while let Some((Key(key), val)) = access.next_entry()? {
            pairs.push((key, val));
        }
        TextMap::from_pairs(pairs).map_err(A::Error::custom)
    }
}
