//! CRC-64 (ECMA-182, reflected, as in XZ), over the columns of a row. It finds
//! every change of up to 64 bits in a row, and of any other all but one in 2^64.

use crate::sqlite::Value;

const POLYNOMIAL: u64 = 0xc96c_5795_d787_0f42;

const TABLE: [u64; 256] = table();

const fn table() -> [u64; 256] {
    let mut table = [0; 256];
    let mut byte = 0;
    while byte < table.len() {
        let mut rest = byte as u64;
        let mut bit = 0;
        while bit < 8 {
            rest = (rest >> 1) ^ (POLYNOMIAL * (rest & 1));
            bit += 1;
        }
        table[byte] = rest;
        byte += 1;
    }
    table
}

struct Crc(u64);

impl Crc {
    fn new() -> Crc {
        Crc(!0)
    }

    fn add(&mut self, bytes: &[u8]) {
        for byte in bytes {
            self.0 = TABLE[usize::from(self.0 as u8 ^ byte)] ^ (self.0 >> 8);
        }
    }

    fn end(self) -> u64 {
        !self.0
    }
}

/// Of a table's name and values, each with its type and length, so that no two
/// rows are the same bytes.
pub(crate) fn checksum<'a>(table: &str, values: impl IntoIterator<Item = &'a Value<'a>>) -> i64 {
    let mut crc = Crc::new();
    let mut part = |kind: u8, bytes: &[u8]| {
        crc.add(&[kind]);
        crc.add(&(bytes.len() as u64).to_le_bytes());
        crc.add(bytes);
    };
    part(b'T', table.as_bytes());
    for value in values {
        match value {
            Value::Null => part(b'n', &[]),
            Value::Integer(number) => part(b'i', &number.to_le_bytes()),
            Value::Text(text) => part(b't', text.as_bytes()),
            Value::Blob(bytes) => part(b'b', bytes),
        }
    }
    crc.end() as i64
}

#[cfg(test)]
mod tests {
    use super::*;

    /// The check value of CRC-64/XZ, and those of no byte and of one.
    #[test]
    fn known() {
        let of = |bytes: &[u8]| {
            let mut crc = Crc::new();
            crc.add(bytes);
            crc.end()
        };
        assert_eq!(of(b"123456789"), 0x995d_c9bb_df19_39fa);
        assert_eq!(of(b""), 0);
        assert_eq!(of(&[0]), 0x1fad_a173_6467_3f59);
    }

    /// Rows that have the same bytes in other columns differ.
    #[test]
    fn of_rows() {
        let rows: [&[Value]; 6] = [
            &[],
            &[Value::Null],
            &[Value::Text("ab")],
            &[Value::Blob(b"ab")],
            &[Value::Text("a"), Value::Text("b")],
            &[Value::Text(""), Value::Text("ab")],
        ];
        let mut sums: Vec<_> = rows.iter().map(|row| checksum("call", *row)).collect();
        sums.push(checksum("floor", rows[0]));
        sums.sort();
        sums.dedup();
        assert_eq!(sums.len(), 7);
    }
}
