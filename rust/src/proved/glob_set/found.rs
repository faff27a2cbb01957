//! Made by `bin/rust_crate` from `crates/glob_set/src/found.rt`, where its contracts are: sha256 1e6e94326f6114a9.

const ROOM: usize = 16;

/// Numbers. The first few are distinct; later ones may repeat, since looking for them would be slow.
pub struct Found {
    // the first `len` of these, until there are more than fit
    few: [usize; ROOM],
    len: usize,
    // all numbers, once there are more
    many: Vec<usize>,
}

impl Found {
    /// No numbers.
    #[inline(always)]
    pub fn new() -> Self {
        Found { few: [0; ROOM], len: 0, many: Vec::new() }
    }

    /// The numbers.
    #[inline(always)]
    pub fn numbers(&self) -> &[usize] {
        if self.many.is_empty() {
            return &self.few[..self.len];
        }
        self.many.as_slice()
    }

    /// Adds the number, unless it is among the first few.
    pub fn push(&mut self, number: usize) {
        if self.len < ROOM && self.numbers().contains(&number) {
            return;
        }
        self.push_new(number);
    }

    /// Adds the number.
    fn push_new(&mut self, number: usize) {
        if self.many.is_empty() {
            if self.len < ROOM {
                self.few[self.len] = number;
                self.len += 1;
                return;
            }
            self.many.extend_from_slice(&self.few);
        }
        self.many.push(number);
    }

    /// Sorts the numbers in ascending order.
    pub fn sort(&mut self) {
        if self.many.is_empty() {
            let len = self.len;
            self.few[..len].sort_unstable();
        } else {
            self.many.as_mut_slice().sort_unstable();
        }
    }
}
