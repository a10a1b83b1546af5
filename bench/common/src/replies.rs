//! Lines of text.

fn push_number(out: &mut Vec<u8>, mut number: u64) {
    let mut digits = [0u8; 20];
    let mut at = digits.len();
    loop {
        at -= 1;
        digits[at] = b'0' + (number % 10) as u8;
        number /= 10;
        if number == 0 {
            break;
        }
    }
    out.extend_from_slice(&digits[at..]);
}

/// Writes a word and numbers as a line.
pub fn line(out: &mut Vec<u8>, word: &str, numbers: impl IntoIterator<Item = u64>) {
    out.extend_from_slice(word.as_bytes());
    for number in numbers {
        out.push(b',');
        push_number(out, number);
    }
    out.push(b'\n');
}

/// Writes a word, how many things there are, and the numbers of each.
pub fn list<const N: usize>(out: &mut Vec<u8>, word: &str, things: impl ExactSizeIterator<Item = [u64; N]>) {
    let count = things.len() as u64;
    line(out, word, std::iter::once(count).chain(things.flatten()));
}

/// Writes an entry, or that there is none.
pub fn entry(out: &mut Vec<u8>, found: Option<(&u64, &u64)>) {
    match found {
        Some((key, val)) => line(out, "entry", [*key, *val]),
        None => line(out, "none", []),
    }
}
