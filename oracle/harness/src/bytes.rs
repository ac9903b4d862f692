//! Writing big-endian integers, Str and Blob.

pub trait Write {
    fn u8(&mut self, n: u8);
    fn u16(&mut self, n: usize);
    fn u32(&mut self, n: usize);
    fn u64(&mut self, n: u64);
    fn flag(&mut self, on: bool);
    fn raw(&mut self, bytes: &[u8]);

    /// u16 length, then the bytes.
    fn str(&mut self, bytes: impl AsRef<[u8]>) {
        self.u16(bytes.as_ref().len());
        self.raw(bytes.as_ref());
    }

    /// u32 length, then the bytes.
    fn blob(&mut self, bytes: impl AsRef<[u8]>) {
        self.u32(bytes.as_ref().len());
        self.raw(bytes.as_ref());
    }
}

impl Write for Vec<u8> {
    fn u8(&mut self, n: u8) {
        self.push(n);
    }

    fn u16(&mut self, n: usize) {
        let n = u16::try_from(n).expect("fits 16 bits");
        self.extend(n.to_be_bytes());
    }

    fn u32(&mut self, n: usize) {
        let n = u32::try_from(n).expect("fits 32 bits");
        self.extend(n.to_be_bytes());
    }

    fn u64(&mut self, n: u64) {
        self.extend(n.to_be_bytes());
    }

    fn flag(&mut self, on: bool) {
        self.push(u8::from(on));
    }

    fn raw(&mut self, bytes: &[u8]) {
        self.extend_from_slice(bytes);
    }
}
