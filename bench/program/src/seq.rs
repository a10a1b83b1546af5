//! The tool seq over sixteen vectors.
use bench_common::{line, list, number, records, totals};

/// How many items a sequence has at most.
const LONGEST: usize = 16_777_216;
const REGISTERS: usize = 16;

type Items = Vec<u64>;

/// A place or a count, which may be beyond any sequence.
fn place(field: &[u8]) -> usize {
    usize::try_from(number(field)).unwrap_or(usize::MAX)
}

/// The first `count` items behind the first `skipped`, as far as they are there.
fn part(items: &[u64], skipped: usize, count: usize) -> &[u64] {
    let rest = &items[skipped.min(items.len())..];
    &rest[..count.min(rest.len())]
}

/// What the register that a record names first becomes, or the word that says why it stays.
fn changed(registers: &[Items], record: &[&[u8]]) -> Result<Items, &'static str> {
    let items = |at: usize| &registers[place(record[at])];
    match record[0] {
        b"push" => fitting([items(1), record[2..].iter().map(|field| number(field)).collect::<Items>().as_slice()]),
        b"append" => fitting([items(2).as_slice(), items(3)]),
        b"take" => Ok(part(items(2), 0, place(record[3])).to_vec()),
        b"skip" => Ok(part(items(2), place(record[3]), usize::MAX).to_vec()),
        b"reverse" => Ok(items(2).iter().rev().copied().collect()),
        _ => with_item(items(1), place(record[2]), number(record[3])),
    }
}

fn fitting(parts: [&[u64]; 2]) -> Result<Items, &'static str> {
    if parts[0].len() + parts[1].len() > LONGEST {
        return Err("long");
    }
    Ok(parts.concat())
}

fn with_item(items: &[u64], at: usize, item: u64) -> Result<Items, &'static str> {
    let mut items = items.to_vec();
    *items.get_mut(at).ok_or("none")? = item;
    Ok(items)
}

/// The replies to a script.
pub fn run(input: &[u8]) -> Vec<u8> {
    let mut registers = vec![Items::new(); REGISTERS];
    let mut out = Vec::new();
    for record in records(input) {
        let named = place(record[1]);
        let within = || part(&registers[named], place(record[2]), place(record[3]));
        match record[0] {
            b"size" => line(&mut out, "size", [registers[named].len() as u64]),
            b"at" => match registers[named].get(place(record[2])) {
                Some(item) => line(&mut out, "some", [*item]),
                None => line(&mut out, "none", []),
            },
            b"fold" => line(&mut out, "aug", totals(within().iter())),
            b"list" => list(&mut out, "list", within().iter().map(|item| [*item])),
            _ => match changed(&registers, &record) {
                Ok(items) => {
                    line(&mut out, "ok", [items.len() as u64]);
                    registers[named] = items;
                }
                Err(word) => line(&mut out, word, []),
            },
        }
    }
    out
}
