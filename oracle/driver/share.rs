// Which part of its inputs a run compares. Stages that have what is rare elsewhere don't ask, and are compared whole.

#[derive(Clone, Copy)]
pub struct Share {
    /// One in so many, and of those of a list which is the first.
    one_in: u64,
    first: u64,
}

impl Share {
    /// Another seed's share is another one.
    pub fn new(one_in: u64, seed: u64) -> Self {
        Self { one_in, first: seed % one_in }
    }

    /// How many of so many inputs that are drawn.
    pub fn of(self, count: u64) -> u64 {
        count.div_ceil(self.one_in)
    }

    /// Those of a list.
    pub fn among<I: Iterator>(self, list: I) -> impl Iterator<Item = I::Item> {
        list.skip(self.first as usize).step_by(self.one_in as usize)
    }
}
