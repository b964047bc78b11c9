use std::fmt::Write;

use super::bits::Reader;
use super::{EVENT_BYTES, Fault};

/// The fields of a plan, damaged or not, a line for the header and each record, to be read by
/// people.
pub fn describe(bytes: &[u8]) -> String {
    let mut text = String::new();
    let mut reader = Reader::new(bytes);
    if describe_header(&mut reader, &mut text).is_err() {
        text.push_str("  the header is not complete\n");
        return text;
    }
    for (index, record) in bytes[reader.byte()..].chunks(EVENT_BYTES).enumerate() {
        let byte = reader.byte() + index * EVENT_BYTES;
        let _ = write!(text, "  record {} at {byte}:", index + 1);
        if let Ok(record) = record.try_into() {
            let field =
                |from: u32, width: u32| u64::from_be_bytes(record) >> from & ((1 << width) - 1);
            let kind = match field(60, 4) {
                1 => "admit",
                2 => "wake",
                3 => "rest",
                4 => "leave",
                5 => "move",
                6 => "end",
                _ => "unknown kind",
            };
            let _ =
                write!(text, " gap {}, {kind} {} {}", field(40, 20), field(20, 20), field(0, 20));
        } else {
            let _ = write!(text, " {} bytes alone", record.len());
        }
        text.push('\n');
    }
    text
}

fn describe_header(reader: &mut Reader, text: &mut String) -> Result<(), Fault> {
    let mark = reader.field(12, Ok)?;
    let edition = reader.field(4, Ok)?;
    let cores = reader.field(4, Ok)?;
    let measure = reader.field(1, Ok)?;
    let policy = reader.field(2, Ok)?;
    let spare = reader.field(1, Ok)?;
    let start = reader.field(32, Ok)?;
    let _ = write!(
        text,
        "  header: mark {mark:#X}, edition {edition}, cores {cores}, measure {measure}, \
         policy {policy}, spare {spare}, start {start}, B",
    );
    for _ in 0..cores {
        let _ = write!(text, " {}", reader.field(10, Ok)?);
    }
    let filling = reader.to_whole_byte();
    if filling > 0 {
        let _ = write!(text, ", filling {}", reader.field(filling, Ok)?);
    }
    text.push('\n');
    Ok(())
}
