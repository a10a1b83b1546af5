//! Sales by minute, as bindings/c/example.c: a map built, kept as it is by a snapshot, changed, summed over a range, united.
use pam::{Map, NoMemory, Resolve};

fn tell(name: &str, map: &Map, lo: u64, hi: u64) {
    let fold = map.fold_range(lo..=hi);
    println!("{name}: {} entries; {lo} to {hi}: sum {}, greatest {}", map.len(), fold.sum, fold.greatest);
}

fn main() -> Result<(), NoMemory> {
    let mut day = Map::from([(540, 12), (541, 7), (545, 30), (560, 4)]);
    let snapshot = day.try_clone()?; // O(1): no entry is copied

    day.insert(541, 100)?;
    day.remove(560)?;
    tell("day", &day, 540, 550);
    tell("snapshot", &snapshot, 540, 550);

    let late = Map::from([(545, 5), (600, 9)]);
    let both = day.union(&late, Resolve::Sum)?;
    tell("both", &both, 540, 600);
    for (minute, sold) in &both {
        println!("{minute} {sold}");
    }
    Ok(())
}
