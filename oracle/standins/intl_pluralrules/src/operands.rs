//! Plural operands of a number: document 01's i, v, t and n. `w` and `f` are
//! here because the Rust names `f`; no rule reads them.

#[derive(Clone, Debug, PartialEq)]
pub struct PluralOperands {
    pub n: f64,
    pub i: u64,
    pub v: usize,
    pub w: usize,
    pub f: u64,
    pub t: u64,
}

impl TryFrom<f64> for PluralOperands {
    type Error = &'static str;

    fn try_from(value: f64) -> Result<Self, Self::Error> {
        if !value.is_finite() {
            return Err("not a finite number");
        }
        let n = value.abs();
        let text = n.to_string();
        let (whole, fraction) = text.split_once('.').unwrap_or((&text, ""));
        let shortest = fraction.trim_end_matches('0');
        let number = |digits: &str| match digits {
            "" => Ok(0),
            _ => digits.parse().map_err(|_| "too many digits"),
        };
        Ok(Self {
            n,
            i: number(whole)?,
            v: fraction.len(),
            w: shortest.len(),
            f: number(fraction)?,
            t: number(shortest)?,
        })
    }
}
