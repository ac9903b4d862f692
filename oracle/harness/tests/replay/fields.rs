//! Reading vector files, as README.md says.

use harness::model::number::{Decimal, Number};

/// The fields of a case, or cases of a file, that are still to be read.
pub struct Fields<'a>(pub &'a [u8]);

impl<'a> Fields<'a> {
    pub fn take(&mut self, n: usize) -> &'a [u8] {
        let (taken, rest) = self.0.split_at(n);
        self.0 = rest;
        taken
    }

    pub fn number(&mut self, bytes: usize) -> u64 {
        let bytes = self.take(bytes);
        bytes.iter().fold(0, |n, b| n << 8 | u64::from(*b))
    }

    pub fn u8(&mut self) -> u8 {
        self.take(1)[0]
    }

    pub fn flag(&mut self) -> bool {
        match self.u8() {
            0 => false,
            1 => true,
            other => panic!("no Flag: {other}"),
        }
    }

    pub fn length(&mut self) -> usize {
        self.number(4) as usize
    }

    pub fn str(&mut self) -> &'a [u8] {
        let n = self.number(2) as usize;
        self.take(n)
    }

    pub fn blob(&mut self) -> &'a [u8] {
        let n = self.length();
        self.take(n)
    }

    pub fn decimal(&mut self) -> Decimal {
        Decimal {
            negative: self.flag(),
            digits: self.number(8),
            scale: self.u8(),
        }
    }

    pub fn minimum(&mut self) -> Option<u64> {
        let set = self.flag();
        let minimum = self.number(1);
        set.then_some(minimum)
    }

    pub fn options(&mut self, number: &mut Number) {
        let o = &mut number.options;
        o.ordinal = self.flag();
        o.style = self.u8();
        o.currency = self.flag().then(|| b"EUR".to_vec());
        o.display = self.u8();
        o.grouping = self.flag();
        for count in &mut o.counts {
            let set = self.flag();
            let n = self.number(4);
            *count = set.then_some(n);
        }
    }
}

/// The cases of a file, each with its operation first.
pub fn cases(name: &str) -> Vec<Vec<u8>> {
    let path = format!("{}/../../crates/{name}", env!("CARGO_MANIFEST_DIR"));
    let bytes = std::fs::read(&path).unwrap_or_else(|e| panic!("{path}: {e}"));
    let mut file = Fields(&bytes);
    assert_eq!(file.take(5), b"WVEC\x01");
    let count = file.length();
    let cases = (0..count).map(|_| file.blob().to_vec()).collect();
    assert!(file.0.is_empty());
    cases
}
