//! Records as the plain Rust of the benchmarks reads them: a line each, without quotes.
use crate::reading::Record;

/// A byte that parts neither fields nor lines. It stands in texts alone, where it parts terms as the other does.
fn harmless(byte: &u8) -> u8 {
    match byte {
        b',' | b'\n' | b'\r' => b' ',
        other => *other,
    }
}

/// The script of lawful records.
pub fn plain_script(records: &[Record]) -> Vec<u8> {
    let mut script = Vec::new();
    for record in records {
        for field in record {
            script.extend(field.iter().map(harmless));
            script.push(b',');
        }
        *script.last_mut().expect("a record has a field") = b'\n';
    }
    script
}
