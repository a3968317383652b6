//! Numbers in a row of bytes, little-endian.

/// Writes one value after another.
#[derive(Default)]
pub(crate) struct Writer(pub Vec<u8>);

/// Reads them again. Every method gives none where the bytes end too early.
pub(crate) struct Reader<'a>(&'a [u8]);

macro_rules! numbers {
    ($($name:ident $number:ty)*) => {
        impl Writer {
            $(pub fn $name(&mut self, value: $number) {
                self.0.extend(value.to_le_bytes());
            })*
        }

        impl Reader<'_> {
            $(pub fn $name(&mut self) -> Option<$number> {
                let bytes = self.take(size_of::<$number>())?;
                Some(<$number>::from_le_bytes(bytes.try_into().ok()?))
            })*
        }
    };
}

numbers!(u8 u8 u16 u16 u32 u32 u64 u64 f64 f64);

impl<'a> Reader<'a> {
    pub fn new(bytes: &'a [u8]) -> Reader<'a> {
        Reader(bytes)
    }

    pub fn take(&mut self, length: usize) -> Option<&'a [u8]> {
        let (first, rest) = self.0.split_at_checked(length)?;
        self.0 = rest;
        Some(first)
    }

    /// The value, if no byte is left.
    pub fn whole<T>(&self, value: T) -> Option<T> {
        self.0.is_empty().then_some(value)
    }
}
