//! Records as bytes.
use crate::dice::Dice;
use crate::reading::Record;

/// How records are written.
struct Style {
    /// One field in so many is quoted, or begins quoted; none where it is 0.
    quoted: u64,
    begun: u64,
    ends: &'static [&'static [u8]],
}

const ENDS: [&[&[u8]]; 6] =
    [&[b"\n"], &[b"\n"], &[b"\n"], &[b"\r\n"], &[b"\r"], &[b"\n", b"\r\n", b"\r", b"\n\n", b"\r\n\r\n", b"\n\r", b"\r\r\n", b"\n\n\n"]];

fn happens(dice: &mut Dice, times: u64) -> bool {
    times > 0 && dice.one_in(times)
}

impl Style {
    fn new(dice: &mut Dice) -> Style {
        Style { quoted: dice.pick(&[0, 0, 0, 10, 1]), begun: dice.pick(&[0, 0, 0, 10]), ends: dice.pick(&ENDS) }
    }

    fn write(&self, dice: &mut Dice, field: &[u8], out: &mut Vec<u8>) {
        let is_plain = !field.iter().any(|byte| b"\",\r\n".contains(byte));
        if !is_plain || happens(dice, self.quoted) {
            let doubled = field.iter().flat_map(|byte| if *byte == b'"' { b"\"\"" } else { std::slice::from_ref(byte) });
            out.push(b'"');
            out.extend(doubled);
            out.push(b'"');
        } else if happens(dice, self.begun) {
            let (quoted, behind) = field.split_at(dice.up_to(field.len()));
            out.extend([b"\"", quoted, b"\"", behind].concat());
        } else {
            out.extend(field);
        }
    }
}

/// The bytes of records, with line ends, quotes and blank lines of some style, and perhaps without the last line end.
pub fn written(dice: &mut Dice, records: &[Record]) -> Vec<u8> {
    let style = Style::new(dice);
    let mut out = if dice.one_in(20) { b"\xef\xbb\xbf".to_vec() } else { Vec::new() };
    let mut end: &[u8] = b"";
    for record in records {
        out.extend(end);
        let start = out.len();
        for field in record {
            style.write(dice, field, &mut out);
            out.push(b',');
        }
        out.pop();
        if out.len() == start {
            out.extend(b"\"\"");
        }
        end = dice.pick(style.ends);
    }
    if !dice.one_in(5) {
        out.extend(end);
    }
    out
}
