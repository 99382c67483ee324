//! What is lent to the library, with bytes around it that nobody may write.

/// Elements on either side; odd, so that bytes are lent at no alignment.
const AROUND: usize = 61;

/// Elements of one kind, lent to the library.
pub struct Lent<T> {
    all: Vec<T>,
    guard: T,
}

impl<T: Copy + PartialEq> Lent<T> {
    /// None yet; `guard` stands around them.
    pub fn none(guard: T) -> Self {
        Lent { all: vec![guard; 2 * AROUND], guard }
    }

    /// So many elements of one value.
    pub fn fill(&mut self, length: usize, value: T) {
        self.all.clear();
        self.all.resize(AROUND, self.guard);
        self.all.resize(AROUND + length, value);
        self.all.resize(2 * AROUND + length, self.guard);
    }

    /// These elements.
    pub fn put(&mut self, elements: &[T]) {
        self.all.clear();
        self.all.resize(AROUND, self.guard);
        self.all.extend_from_slice(elements);
        self.all.resize(2 * AROUND + elements.len(), self.guard);
    }

    pub fn elements(&self) -> &[T] {
        &self.all[AROUND..self.all.len() - AROUND]
    }

    pub fn elements_mut(&mut self) -> &mut [T] {
        let end = self.all.len() - AROUND;
        &mut self.all[AROUND..end]
    }

    /// Whether nothing around them was written.
    pub fn is_intact(&self) -> bool {
        let (before, after) = (&self.all[..AROUND], &self.all[self.all.len() - AROUND..]);
        before.iter().chain(after).all(|element| *element == self.guard)
    }
}
