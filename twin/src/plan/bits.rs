//! Fields packed one after another, most significant bit first.

use super::{Cause, Fault};

/// Reads the fields of a plan in turn.
pub struct Reader<'a> {
    bytes: &'a [u8],
    bit: usize,
    record: usize,
}

impl<'a> Reader<'a> {
    pub fn new(bytes: &'a [u8]) -> Self {
        Self { bytes, bit: 0, record: 0 }
    }

    /// The fields that follow are those of the next record.
    pub fn next_record(&mut self) {
        self.record += 1;
    }

    /// The byte in which the next field starts.
    pub fn byte(&self) -> usize {
        self.bit / 8
    }

    pub fn is_at_end(&self) -> bool {
        self.byte() == self.bytes.len()
    }

    pub fn fault(&self, cause: Cause) -> Fault {
        Fault { cause, byte: self.byte(), record: self.record }
    }

    /// Reads a field of 1 to 32 bits, and gives what `check` makes of it.
    pub fn field<T>(
        &mut self,
        width: usize,
        check: impl FnOnce(u32) -> Result<T, Cause>,
    ) -> Result<T, Fault> {
        let end = self.bit + width;
        if end > 8 * self.bytes.len() {
            return Err(self.fault(Cause::Incomplete));
        }
        let before = self.bit % 8;
        let value = self.window() << before >> (64 - width);
        let checked = check(value as u32).map_err(|cause| self.fault(cause))?;
        self.bit = end;
        Ok(checked)
    }

    /// The eight bytes from the next field on, with zeros after the last.
    fn window(&self) -> u64 {
        let rest = &self.bytes[self.byte()..];
        let bytes = rest.first_chunk().copied().unwrap_or_else(|| {
            let mut padded = [0; 8];
            padded[..rest.len()].copy_from_slice(rest);
            padded
        });
        u64::from_be_bytes(bytes)
    }

    /// The bits from the next field up to the next whole byte.
    pub fn to_whole_byte(&self) -> usize {
        self.bit.next_multiple_of(8) - self.bit
    }
}

/// Writes fields in turn.
#[derive(Default)]
pub struct Writer {
    bytes: Vec<u8>,
    bit: usize,
}

impl Writer {
    pub fn field(&mut self, width: usize, value: u32) {
        let end = self.bit + width;
        self.bytes.resize(end.div_ceil(8), 0);
        set_field(&mut self.bytes, self.bit, width, value);
        self.bit = end;
    }

    /// Writes zero bits up to the next whole byte.
    pub fn fill(&mut self) {
        self.bit = self.bit.next_multiple_of(8);
    }

    pub fn finish(self) -> Vec<u8> {
        self.bytes
    }
}

/// Overwrites the field that starts at this bit.
pub fn set_field(bytes: &mut [u8], start: usize, width: usize, value: u32) {
    for index in 0..width {
        let bit = start + index;
        let mask = 0x80 >> (bit % 8);
        if value >> (width - 1 - index) & 1 == 1 {
            bytes[bit / 8] |= mask;
        } else {
            bytes[bit / 8] &= !mask;
        }
    }
}

#[cfg(test)]
mod tests {
    use super::*;

    #[test]
    fn fields_come_back_as_written() {
        let fields = [(12, 0xCB5), (1, 1), (32, u32::MAX), (20, 0x8_0001), (10, 3), (5, 0x15)];
        let mut writer = Writer::default();
        for (width, value) in fields {
            writer.field(width, value);
        }
        let bytes = writer.finish();
        let mut reader = Reader::new(&bytes);
        for (width, value) in fields {
            assert_eq!(reader.field(width, Ok), Ok(value));
        }
        assert!(reader.is_at_end());
    }

    #[test]
    fn a_field_that_is_not_complete() {
        let mut reader = Reader::new(&[1, 2]);
        assert_eq!(reader.field(12, Ok), Ok(0x10));
        let fault = Fault { cause: Cause::Incomplete, byte: 1, record: 0 };
        assert_eq!(reader.field(5, Ok), Err(fault));
    }
}
