//! Made by `bin/rust_crate` from `crates/glob_search/src/meter.rt`, where its contracts are: sha256 2337eb921b38976c.
//!
//! The limit of a search, and what is charged to it.

/// The next units of work do not fit the limit.
#[derive(Clone, Copy, Debug)]
pub struct OverLimit;

/// How many units of a limit were spent: never more than the limit.
#[derive(Clone, Copy)]
pub struct Meter {
    pub limit: u64,
    pub spent: u64,
}

impl Meter {
    /// Charges units, if that many are left.
    pub fn charge(&mut self, units: usize) -> Result<(), OverLimit> {
        let units = units as u64;
        if units > self.limit - self.spent {
            return Err(OverLimit);
        }
        self.spent += units;
        Ok(())
    }
}
