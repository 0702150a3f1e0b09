//! Reads containers as the plain programs of this folder do: it knows their form and checks nothing.

pub struct Reader<'a> {
    pub bytes: &'a [u8],
    pub at: usize,
}

impl<'a> Reader<'a> {
    pub fn new(bytes: &'a [u8]) -> Self {
        Reader { bytes, at: 0 }
    }

    pub fn long(&mut self) -> i64 {
        let (mut number, mut shift) = (0u64, 0);
        loop {
            let byte = self.bytes[self.at];
            self.at += 1;
            number |= u64::from(byte & 0x7f) << shift;
            if byte < 0x80 {
                return (number >> 1) as i64 ^ -((number & 1) as i64);
            }
            shift += 7;
        }
    }

    fn take(&mut self, count: usize) -> &'a [u8] {
        let part = &self.bytes[self.at..self.at + count];
        self.at += count;
        part
    }

    pub fn octets(&mut self) -> &'a [u8] {
        let count = self.long() as usize;
        self.take(count)
    }

    /// Reads the header, and gives it with the sync marker at its end.
    fn header(&mut self) -> &'a [u8] {
        self.take(4);
        loop {
            let pairs = self.long();
            if pairs == 0 {
                break;
            }
            for _ in 0..pairs {
                self.octets();
                self.octets();
            }
        }
        self.take(16);
        &self.bytes[..self.at]
    }

    /// Calls the reader of a datum for each datum of the blocks, and gives the header.
    pub fn datums(&mut self, mut each: impl FnMut(&mut Reader<'a>)) -> &'a [u8] {
        let header = self.header();
        while self.at < self.bytes.len() {
            let count = self.long();
            self.long();
            for _ in 0..count {
                each(self);
            }
            self.take(16);
        }
        header
    }

    /// The fields of a row of a long and an optional text.
    pub fn row(&mut self) -> (i64, Option<&'a [u8]>) {
        let id = self.long();
        let name = if self.long() == 1 { Some(self.octets()) } else { None };
        (id, name)
    }
}
