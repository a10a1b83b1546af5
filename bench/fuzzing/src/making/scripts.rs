//! Lawful scripts.
use super::scene::{Scene, Size};
use super::serving;
use crate::dice::Dice;
use crate::reading::{number, shapes, Kind, Record, Shape, Tool, GSERVE, SERVE};

pub fn records(dice: &mut Dice, tool: Tool) -> Vec<Record> {
    let mut scene = Scene::new(dice);
    match tool {
        Tool::Serve | Tool::Check => serving::records(dice, &mut scene, &SERVE),
        Tool::Gserve => serving::records(dice, &mut scene, &GSERVE),
        Tool::Seq => sequences(dice, &mut scene),
        _ => commands(dice, &mut scene, tool),
    }
}

/// The verbs that bring things, of which each tool's scripts have more.
const BRINGING: [&str; 8] = ["put", "mput", "build", "push", "append", "add", "doc", "union"];

fn shape(dice: &mut Dice, tool: Tool) -> &'static Shape {
    let shapes = shapes(tool);
    let place = match dice.one_in(3) {
        true => shapes.iter().position(|shape| shape.verb == dice.pick(&BRINGING)),
        false => None,
    };
    &shapes[place.unwrap_or_else(|| dice.place(shapes))]
}

fn commands(dice: &mut Dice, scene: &mut Scene, tool: Tool) -> Vec<Record> {
    let count = scene.records(dice);
    let mut records = Vec::new();
    while records.len() < count {
        let shape = shape(dice, tool);
        if shape.verb == "put" && dice.one_in(4) {
            puts(dice, scene, &mut records);
        } else {
            records.push(scene.record(dice, shape));
        }
    }
    records
}

/// A run of puts into one register.
fn puts(dice: &mut Dice, scene: &mut Scene, records: &mut Vec<Record>) {
    let register = scene.number(dice, Kind::Register).to_string().into_bytes();
    for _ in 0..scene.times(dice) {
        let mut record = vec![b"put".to_vec(), register.clone()];
        record.extend(scene.fields(dice, &[Kind::Key, Kind::Value], false));
        records.push(record);
    }
}

/// How long each register's sequence is at most.
type Lengths = [u64; 16];

fn place(field: &[u8]) -> usize {
    number(field).map_or(0, |number| number as usize)
}

/// How long the sequence becomes that a record writes.
fn length(lengths: &Lengths, record: &Record) -> u64 {
    let of = |at: usize| lengths[place(&record[at])];
    match &record[0][..] {
        b"push" => of(1) + record.len() as u64 - 2,
        b"append" => of(2) + of(3),
        b"take" => of(2).min(place(&record[3]) as u64),
        b"skip" => of(2).saturating_sub(place(&record[3]) as u64),
        b"reverse" => of(2),
        _ => of(1),
    }
}

/// Appends double lengths; what would be too long for the plain Rust to copy often is left out.
fn sequences(dice: &mut Dice, scene: &mut Scene) -> Vec<Record> {
    let longest = match scene.size {
        Size::Small => 500,
        Size::Medium => 5_000,
        Size::Large => 100_000,
    };
    if scene.size == Size::Large && dice.one_in(8) {
        return doubled(dice);
    }
    let mut lengths = Lengths::default();
    let mut records = commands(dice, scene, Tool::Seq);
    records.retain(|record| {
        let length = length(&lengths, record);
        if length <= longest {
            lengths[place(&record[1])] = length;
        }
        length <= longest
    });
    records
}

/// A sequence that doubles until it would be too long.
fn doubled(dice: &mut Dice) -> Vec<Record> {
    let record = |text: String| text.split(',').map(Into::into).collect();
    let items: String = (0..1 + dice.up_to(5)).map(|item| format!(",{item}")).collect();
    let mut records: Vec<Record> = vec![record(format!("push,0{items}"))];
    records.extend((0..26).map(|_| record("append,0,0,0".into())));
    records.push(record(format!("fold,0,{},9", dice.up_to(20_000_000))));
    records
}
