//! How a case is printed.

use second::record::RECORD_LEN;

/// A file in decimals, one record a line.
pub fn records(bytes: &[u8]) -> String {
    let fields = |record: &[u8]| record.iter().map(u8::to_string).collect::<Vec<_>>().join(" ");
    bytes.chunks(RECORD_LEN).map(|record| fields(record) + "\n").collect()
}
