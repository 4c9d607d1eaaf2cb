//! Bytes read one after the other, and truth tables as bytes.

/// A walk over bytes from the first on.
pub struct Walk<'a> {
    bytes: &'a [u8],
    at: usize,
    short: u8,
}

impl<'a> Walk<'a> {
    /// `short` is the refusal where a byte is still due.
    pub fn new(bytes: &'a [u8], short: u8) -> Self {
        Walk {
            bytes,
            at: 0,
            short,
        }
    }

    /// The next byte.
    pub fn take(&mut self) -> Result<u8, u8> {
        let byte = *self.bytes.get(self.at).ok_or(self.short)?;
        self.at += 1;
        Ok(byte)
    }

    /// The next byte if `good` holds of it, else the refusal `bad`.
    pub fn take_if(&mut self, bad: u8, good: impl Fn(u8) -> bool) -> Result<u8, u8> {
        let byte = self.take()?;
        if good(byte) {
            Ok(byte)
        } else {
            Err(bad)
        }
    }

    /// A table of 2^n bits, low byte first; spare bits set are the refusal `bad`.
    pub fn take_table(&mut self, n: usize, bad: u8) -> Result<u64, u8> {
        let mut table = 0;
        for i in 0..table_bytes(n) {
            let byte = self.take_if(bad, |byte| u64::from(byte) & !table_mask(n) == 0)?;
            table |= u64::from(byte) << (8 * i);
        }
        Ok(table)
    }

    /// True where no byte is left.
    pub fn at_end(&self) -> bool {
        self.at == self.bytes.len()
    }
}

/// The number of bytes of a table of 2^n bits.
pub fn table_bytes(n: usize) -> usize {
    ((1 << n) / 8).max(1)
}

/// The bits a table of 2^n bits may have.
pub fn table_mask(n: usize) -> u64 {
    if n >= 6 {
        u64::MAX
    } else {
        (1 << (1 << n)) - 1
    }
}

/// Append a table of 2^n bits, low byte first.
pub fn put_table(bytes: &mut Vec<u8>, table: u64, n: usize) {
    bytes.extend_from_slice(&table.to_le_bytes()[..table_bytes(n)]);
}
