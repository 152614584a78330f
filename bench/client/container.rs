//! A list in blocks that move from one pass to the next.

/// The elements that a worker claims at a time.
pub const BLOCK: usize = 64;

/// A list in blocks of 64, of which the last one may be shorter.
pub struct Container<T> {
    blocks: Vec<Vec<T>>,
}

impl<T> Container<T> {
    /// An empty list with room for the blocks of so many items.
    pub fn with_room(items: usize) -> Container<T> {
        Container {
            blocks: Vec::with_capacity(items.div_ceil(BLOCK)),
        }
    }

    pub fn len(&self) -> usize {
        match self.blocks.split_last() {
            Some((last, full)) => full.len() * BLOCK + last.len(),
            None => 0,
        }
    }

    /// The blocks in order.
    pub fn blocks(&self) -> &[Vec<T>] {
        &self.blocks
    }

    /// Adds a block behind whole ones.
    pub fn push_block(&mut self, block: Vec<T>) {
        self.blocks.push(block);
    }

    pub fn iter(&self) -> impl Iterator<Item = &T> {
        self.blocks.iter().flatten()
    }
}

impl<T> FromIterator<T> for Container<T> {
    fn from_iter<I: IntoIterator<Item = T>>(items: I) -> Container<T> {
        let mut items = items.into_iter().peekable();
        let mut container = Container::with_room(0);
        while items.peek().is_some() {
            container.push_block(items.by_ref().take(BLOCK).collect());
        }
        container
    }
}
