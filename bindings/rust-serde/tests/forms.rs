//! What each type looks like in JSON, and in a format of bytes.

use pam::{Intervals, Map, Seq, SignedMap, TextMap};
use serde::de::value::{BytesDeserializer, Error as Refused, MapDeserializer};
use serde::de::{Deserializer, IntoDeserializer, Visitor};
use serde::forward_to_deserialize_any;
use serde_json::{Deserializer as FromJson, Serializer as ToJson};

fn json<T>(value: &T, serialize: impl FnOnce(&T, &mut ToJson<&mut Vec<u8>>) -> serde_json::Result<()>) -> String {
    let mut out = Vec::new();
    serialize(value, &mut ToJson::new(&mut out)).unwrap();
    String::from_utf8(out).unwrap()
}

#[test]
fn a_map_is_a_map_in_order() {
    let map = Map::from([(30, 3), (10, 1), (u64::MAX, u64::MAX)]);
    let text = json(&map, |map, out| pam_serde::map::serialize(map, out));
    assert_eq!(text, r#"{"10":1,"30":3,"18446744073709551615":18446744073709551615}"#);
    assert_eq!(pam_serde::map::deserialize(&mut FromJson::from_str(&text)).unwrap(), map);
}

#[test]
fn a_later_entry_of_a_key_wins() {
    let map = pam_serde::map::deserialize(&mut FromJson::from_str(r#"{"2":1,"1":5,"2":9}"#)).unwrap();
    assert_eq!(map, Map::from([(1, 5), (2, 9)]));
}

#[test]
fn what_is_no_map_is_refused() {
    for text in ["[1]", r#"{"a":1}"#, r#"{"1":-1}"#, r#"{"18446744073709551616":1}"#, r#"{"1":1"#] {
        assert!(pam_serde::map::deserialize(&mut FromJson::from_str(text)).is_err(), "{text}");
    }
}

/// Bytes as a format that nobody reads hands them out.
struct Packed<'a>(&'a [u8]);

impl<'de> Deserializer<'de> for Packed<'de> {
    type Error = Refused;

    fn is_human_readable(&self) -> bool {
        false
    }

    fn deserialize_any<V: Visitor<'de>>(self, visitor: V) -> Result<V::Value, Refused> {
        BytesDeserializer::new(self.0).deserialize_any(visitor)
    }

    forward_to_deserialize_any! {
        bool i8 i16 i32 i64 u8 u16 u32 u64 f32 f64 char str string bytes byte_buf option unit unit_struct newtype_struct seq tuple
        tuple_struct map struct enum identifier ignored_any
    }
}

impl<'de> IntoDeserializer<'de, Refused> for Packed<'de> {
    type Deserializer = Self;

    fn into_deserializer(self) -> Self {
        self
    }
}

#[test]
fn a_map_of_bytes_is_that_of_its_encoding() {
    let map = Map::from([(1, 10), (2, 20), (500, 7)]);
    let bytes = map.to_bytes().unwrap();
    assert_eq!(pam_serde::map::deserialize(Packed(&bytes)).unwrap(), map);
    for turned in 0..bytes.len() {
        let mut other = bytes.clone();
        other[turned] ^= 1;
        assert!(pam_serde::map::deserialize(Packed(&other)).is_err(), "{turned}");
        assert!(pam_serde::map::deserialize(Packed(&bytes[..turned])).is_err(), "{turned}");
    }
}

#[test]
fn signed_keys_are_in_their_order() {
    let map = SignedMap::from([(1, 10), (-3, 30), (i64::MIN, u64::MAX)]);
    let text = json(&map, |map, out| pam_serde::signed_map::serialize(map, out));
    assert_eq!(text, r#"{"-9223372036854775808":18446744073709551615,"-3":30,"1":10}"#);
    assert_eq!(pam_serde::signed_map::deserialize(&mut FromJson::from_str(&text)).unwrap(), map);
    assert!(pam_serde::signed_map::deserialize(&mut FromJson::from_str(r#"{"9223372036854775808":1}"#)).is_err());
    assert_eq!(pam_serde::signed_map::deserialize(Packed(&map.to_bytes().unwrap())).unwrap(), map);
}

#[test]
fn keys_of_bytes_are_texts_where_people_read() {
    let map = TextMap::from([("pear", 1), ("", 2), ("b\u{e4}r\"", 3)]);
    let text = json(&map, |map, out| pam_serde::text_map::serialize(map, out));
    assert_eq!(text, "{\"\":2,\"b\u{e4}r\\\"\":3,\"pear\":1}");
    assert_eq!(pam_serde::text_map::deserialize(&mut FromJson::from_str(&text)).unwrap(), map);
    let twice = pam_serde::text_map::deserialize(&mut FromJson::from_str(r#"{"b":1,"a":5,"b":9}"#)).unwrap();
    assert_eq!(twice, TextMap::from([("a", 5), ("b", 9)]));
    for text in ["[1]", r#"{"a":-1}"#, r#"{"a":1"#] {
        assert!(pam_serde::text_map::deserialize(&mut FromJson::from_str(text)).is_err(), "{text}");
    }
    let mut out = Vec::new();
    assert!(pam_serde::text_map::serialize(&TextMap::from([([0xff], 1)]), &mut ToJson::new(&mut out)).is_err());
}

#[test]
fn keys_of_bytes_are_bytes_elsewhere() {
    let entries = [(Packed(&[0xff]), 1u64), (Packed(b"a"), 2), (Packed(&[0xff]), 3)];
    let read = pam_serde::text_map::deserialize(MapDeserializer::new(entries.into_iter())).unwrap();
    assert_eq!(read, TextMap::from([(vec![0xff], 3), (b"a".to_vec(), 2)]));
}

#[test]
fn a_sequence_is_a_list() {
    let seq = Seq::from_slice(&[3, 1, 2]).unwrap();
    let text = json(&seq, |seq, out| pam_serde::seq::serialize(seq, out));
    assert_eq!(text, "[3,1,2]");
    let read = pam_serde::seq::deserialize(&mut FromJson::from_str(&text)).unwrap();
    assert_eq!(read.iter().collect::<Vec<_>>(), [3, 1, 2]);
}

#[test]
fn intervals_are_pairs_of_ends() {
    let mut set = Intervals::new().unwrap();
    set.insert(5..=9).unwrap();
    set.insert(1..=7).unwrap();
    let text = json(&set, |set, out| pam_serde::intervals::serialize(set, out));
    assert_eq!(text, "[[1,7],[5,9]]");
    let read = pam_serde::intervals::deserialize(&mut FromJson::from_str(&text)).unwrap();
    assert_eq!(read.iter().collect::<Vec<_>>(), [1..=7, 5..=9]);
    assert!(pam_serde::intervals::deserialize(&mut FromJson::from_str("[[9,5]]")).is_err());
}
