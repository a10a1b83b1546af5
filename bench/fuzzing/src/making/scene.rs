//! What the fields of a script are drawn from.
use crate::dice::Dice;
use crate::reading::{Kind, Shape};
use std::mem;

/// How large a script is.
#[derive(Clone, Copy, PartialEq, Eq)]
pub enum Size {
    Small,
    Medium,
    Large,
}

pub struct Scene {
    pub size: Size,
    /// The keys and the values are below these, or any where it is 0.
    keys: u64,
    values: u64,
    registers: u64,
    /// One number in so many is one at an end of something; none where it is 0.
    ends: u64,
    used: Vec<u64>,
}

/// Numbers at the ends of 64 bits, of 32, and of 7.
const ENDS: [u64; 12] = [0, 1, 2, 127, 128, u32::MAX as u64, 1 << 32, (1 << 63) - 1, 1 << 63, u64::MAX - 2, u64::MAX - 1, u64::MAX];
const TERMS: [&str; 12] = ["to", "be", "or", "not", "a", "A", "a1", "1", "00", "Z9z", "term", "Whither"];
const PARTERS: [&[u8]; 20] = [
    b" ", b" ", b" ", b", ", b"-", b"_", b"'", b"\n", b"\r\n", b"\r", b"\"", b"\"\"", b"\xc3\xaf", b"\xff", b"\0", b"/", b":", b"@", b"[",
    b"`{",
];

impl Scene {
    pub fn new(dice: &mut Dice) -> Scene {
        let size = match dice.below(200) {
            0 | 1 => Size::Large,
            2..=25 => Size::Medium,
            _ => Size::Small,
        };
        let keys: &[u64] = if size == Size::Small { &[3, 8, 30, 30, 300, 0] } else { &[30, 300, 1000, 10_000, 0] };
        Scene {
            size,
            keys: dice.pick(keys),
            values: dice.pick(&[3, 10, 1000, 0]),
            registers: dice.pick(&[1, 2, 3, 4, 16]),
            ends: dice.pick(&[0, 0, 0, 20, 4]),
            used: vec![0],
        }
    }

    /// How many records a script has.
    pub fn records(&self, dice: &mut Dice) -> usize {
        let most = match self.size {
            Size::Small => dice.pick(&[3, 8, 20, 40]),
            Size::Medium => dice.pick(&[40, 200]),
            Size::Large => 60,
        };
        dice.up_to(most)
    }

    /// How often something is repeated, at least once.
    pub fn times(&self, dice: &mut Dice) -> usize {
        let most = match self.size {
            Size::Small => dice.pick(&[0, 0, 1, 2, 8, 30]),
            Size::Medium => dice.pick(&[0, 2, 8, 200]),
            Size::Large => dice.pick(&[8, 1500, 6000]),
        };
        1 + dice.up_to(most)
    }

    fn drawn(&self, dice: &mut Dice, bound: u64) -> u64 {
        if self.ends > 0 && dice.one_in(self.ends) {
            return dice.pick(&ENDS);
        }
        match bound {
            0 => dice.any() >> dice.pick(&[0, 0, 1, 32]),
            bound => dice.below(bound),
        }
    }

    /// A key, often one that was there before.
    fn key(&mut self, dice: &mut Dice) -> u64 {
        if dice.one_in(if self.keys == 0 { 2 } else { 4 }) {
            return dice.pick(&self.used);
        }
        let key = self.drawn(dice, self.keys);
        if self.used.len() < 50 {
            self.used.push(key);
        }
        key
    }

    pub fn number(&mut self, dice: &mut Dice, kind: Kind) -> u64 {
        match kind {
            Kind::Value | Kind::LowValue | Kind::HighValue => self.drawn(dice, self.values),
            Kind::Place => {
                let bound = dice.pick(&[3, 12, 200]);
                self.drawn(dice, bound)
            }
            Kind::Register => dice.below(self.registers),
            _ => self.key(dice),
        }
    }

    fn text(&mut self, dice: &mut Dice) -> Vec<u8> {
        let words = match self.size {
            Size::Small => dice.pick(&[0, 1, 2, 5, 12]),
            Size::Medium => dice.pick(&[5, 12, 100]),
            Size::Large => dice.up_to(20_000),
        };
        (0..words).flat_map(|_| [dice.pick(&TERMS).as_bytes(), dice.pick(&PARTERS)].concat()).collect()
    }

    fn field(&mut self, dice: &mut Dice, kind: Kind) -> Vec<u8> {
        match kind {
            Kind::How => dice.pick(&["first", "second", "sum", "max"]).into(),
            Kind::Term => dice.pick(&TERMS).into(),
            Kind::Text => self.text(dice),
            _ => self.number(dice, kind).to_string().into_bytes(),
        }
    }

    /// Fields of these kinds, with the ends of ranges mostly in order, or always.
    pub fn fields(&mut self, dice: &mut Dice, kinds: &[Kind], is_ordered: bool) -> Vec<Vec<u8>> {
        let mut fields: Vec<Vec<u8>> = kinds.iter().map(|kind| self.field(dice, *kind)).collect();
        for (at, kind) in kinds.iter().enumerate() {
            if matches!(kind, Kind::Low | Kind::LowValue) && (is_ordered || !dice.one_in(8)) {
                order(&mut fields[at..at + 2]);
            }
        }
        fields
    }

    /// A lawful record of a shape.
    pub fn record(&mut self, dice: &mut Dice, shape: &Shape) -> Vec<Vec<u8>> {
        let mut kinds = shape.first.to_vec();
        if !shape.group.is_empty() && (shape.least > 0 || !dice.one_in(8)) {
            let times = self.times(dice);
            kinds.extend(shape.group.iter().cycle().take(times * shape.group.len()));
        }
        let mut record = vec![shape.verb.into()];
        record.extend(self.fields(dice, &kinds, shape.is_ordered));
        record
    }
}

/// Puts two numbers in order.
fn order(ends: &mut [Vec<u8>]) {
    let [low, high] = ends else {
        return;
    };
    if (low.len(), &*low) > (high.len(), &*high) {
        mem::swap(low, high);
    }
}
