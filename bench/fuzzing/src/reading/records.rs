//! Bytes as records, and fields as numbers.

/// The fields of a record.
pub type Record = Vec<Vec<u8>>;

const MARK: &[u8] = b"\xef\xbb\xbf";

/// What is left of the bytes.
struct Rest<'a>(&'a [u8]);

fn ends_line(byte: u8) -> bool {
    byte == b'\n' || byte == b'\r'
}

impl<'a> Rest<'a> {
    /// Takes the bytes before the first one that is asked for, or all.
    fn until(&mut self, is_end: impl Fn(u8) -> bool) -> &'a [u8] {
        let end = self.0.iter().position(|byte| is_end(*byte)).unwrap_or(self.0.len());
        let (taken, rest) = self.0.split_at(end);
        self.0 = rest;
        taken
    }

    /// Takes the next byte if it is this one.
    fn takes(&mut self, byte: u8) -> bool {
        match self.0.strip_prefix(&[byte]) {
            Some(rest) => {
                self.0 = rest;
                true
            }
            None => false,
        }
    }

    /// The text of a quoted field, behind its opening quote and up to its closing one.
    fn quoted(&mut self) -> Vec<u8> {
        let mut text = Vec::new();
        loop {
            text.extend_from_slice(self.until(|byte| byte == b'"'));
            if !self.takes(b'"') || !self.takes(b'"') {
                return text;
            }
            text.push(b'"');
        }
    }

    fn field(&mut self) -> Vec<u8> {
        let mut field = if self.takes(b'"') { self.quoted() } else { Vec::new() };
        field.extend_from_slice(self.until(|byte| byte == b',' || ends_line(byte)));
        field
    }

    fn record(&mut self) -> Record {
        let mut record = vec![self.field()];
        while self.takes(b',') {
            record.push(self.field());
        }
        record
    }
}

/// The records of some bytes.
pub fn records(bytes: &[u8]) -> Vec<Record> {
    let mut rest = Rest(bytes.strip_prefix(MARK).unwrap_or(bytes));
    let mut records = Vec::new();
    loop {
        rest.until(|byte| !ends_line(byte));
        if rest.0.is_empty() {
            return records;
        }
        records.push(rest.record());
    }
}

/// The number that a field spells, if it spells one.
pub fn number(field: &[u8]) -> Option<u64> {
    let is_digits = field.iter().all(u8::is_ascii_digit);
    if !is_digits || (field.len() > 1 && field[0] == b'0') {
        return None;
    }
    std::str::from_utf8(field).ok()?.parse().ok()
}
