//! Walks from both ends, in chunks that the library fills.

/// Something with items at the places from 0 on, some of which are copied at once.
pub trait Places {
    type Item: Copy;

    /// The items from a place on, as many as are asked for.
    fn chunk(&self, place: u64, count: usize) -> Vec<Self::Item>;
}

const FIRST: u64 = 32;
const LARGEST: u64 = 1024;

/// Where a walk is: items not yet fetched are those from `front` up to `back`.
pub struct Walk<T> {
    front: u64,
    back: u64,
    most: u64,
    fetched_front: std::vec::IntoIter<T>,
    fetched_back: std::vec::IntoIter<T>,
}

impl<T: Copy> Walk<T> {
    pub fn over(front: u64, back: u64) -> Self {
        Walk { front, back: back.max(front), most: FIRST, fetched_front: Vec::new().into_iter(), fetched_back: Vec::new().into_iter() }
    }

    pub fn left(&self) -> usize {
        (self.back - self.front) as usize + self.fetched_front.len() + self.fetched_back.len()
    }

    /// How many items to fetch now: more each time, since a short walk is common.
    fn size(&mut self) -> u64 {
        let size = self.most.min(self.back - self.front);
        self.most = (2 * self.most).min(LARGEST);
        size
    }

    pub fn next<P: Places<Item = T>>(&mut self, of: &P) -> Option<T> {
        if let Some(item) = self.fetched_front.next() {
            return Some(item);
        }
        if self.front == self.back {
            return self.fetched_back.next();
        }
        let size = self.size();
        self.fetched_front = of.chunk(self.front, size as usize).into_iter();
        self.front += size;
        self.fetched_front.next()
    }

    pub fn next_back<P: Places<Item = T>>(&mut self, of: &P) -> Option<T> {
        if let Some(item) = self.fetched_back.next_back() {
            return Some(item);
        }
        if self.front == self.back {
            return self.fetched_front.next_back();
        }
        let size = self.size();
        self.back -= size;
        self.fetched_back = of.chunk(self.back, size as usize).into_iter();
        self.fetched_back.next_back()
    }
}
