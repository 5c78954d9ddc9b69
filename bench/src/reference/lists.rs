//! Working lists: a lent slice of records and how many of them count.

/// A list in a lent slice.
pub struct List<'a, T> {
    records: &'a mut [T],
    count: usize,
}

impl<'a, T: Copy + Default> List<'a, T> {
    pub fn new(records: &'a mut [T]) -> List<'a, T> {
        List { records, count: 0 }
    }

    pub fn len(&self) -> usize {
        self.count
    }

    pub fn is_empty(&self) -> bool {
        self.count == 0
    }

    pub fn records(&self) -> &[T] {
        &self.records[..self.count]
    }

    pub fn get(&self, i: usize) -> Option<T> {
        self.records().get(i).copied()
    }

    /// Whether so many more records fit.
    pub fn has_room(&self, more: usize) -> bool {
        self.records.len() - self.count >= more
    }

    /// Appends a record, where there is room.
    pub fn push(&mut self, record: T) {
        if let Some(slot) = self.records.get_mut(self.count) {
            *slot = record;
            self.count += 1;
        }
    }

    pub fn pop(&mut self) -> Option<T> {
        let last = self.count.checked_sub(1)?;
        self.count = last;
        self.records.get(last).copied()
    }

    /// Goes back to an earlier count.
    pub fn cut_back(&mut self, count: usize) {
        self.count = self.count.min(count);
    }

    /// Makes every record of the slice blank.
    pub fn blank(&mut self) {
        self.records.fill(T::default());
        self.count = 0;
    }
}
