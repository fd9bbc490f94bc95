//! The five lists of a D-ARC box in their bytes: T1, T2, B1, B2, B3 end to end, an address in four bytes, zeros behind them.
pub const T1: usize = 0;
pub const T2: usize = 1;
pub const B1: usize = 2;
pub const B2: usize = 3;
pub const B3: usize = 4;
pub const WORD: usize = 4;

pub fn word(lists: &[u8], k: usize) -> u32 {
    u32::from_le_bytes(lists[k * WORD..(k + 1) * WORD].try_into().unwrap())
}

pub struct Lists<'a> {
    pub bytes: &'a mut [u8],
    pub sizes: [usize; 5],
    pub p: usize,
}

impl Lists<'_> {
    fn total(&self) -> usize {
        self.sizes.iter().sum()
    }

    fn start(&self, list: usize) -> usize {
        self.sizes[..list].iter().sum()
    }

    /// Takes the word at a place out of this list.
    fn remove(&mut self, list: usize, place: usize) {
        let total = self.total();
        self.bytes.copy_within((place + 1) * WORD..total * WORD, place * WORD);
        self.bytes[(total - 1) * WORD..total * WORD].fill(0);
        self.sizes[list] -= 1;
    }

    /// Takes a held address out of its list, and says which list it was.
    pub fn leave(&mut self, a: u32) -> usize {
        let bytes = a.to_le_bytes();
        let place = self.bytes[..self.total() * WORD].chunks_exact(WORD).position(|word| word == bytes).unwrap();
        let list = (0..5).find(|list| place < self.start(list + 1)).unwrap();
        self.remove(list, place);
        list
    }

    /// The address becomes the newest of a list.
    pub fn join(&mut self, list: usize, a: u32) {
        let (place, total) = (self.start(list + 1), self.total());
        self.bytes.copy_within(place * WORD..total * WORD, (place + 1) * WORD);
        self.bytes[place * WORD..(place + 1) * WORD].copy_from_slice(&a.to_le_bytes());
        self.sizes[list] += 1;
    }

    /// The oldest address of a list becomes the newest of a later one.
    pub fn move_oldest(&mut self, from: usize, to: usize) -> u32 {
        let (start, end) = (self.start(from), self.start(to + 1));
        let a = word(self.bytes, start);
        self.bytes[start * WORD..end * WORD].rotate_left(WORD);
        self.sizes[from] -= 1;
        self.sizes[to] += 1;
        a
    }

    /// Takes the oldest address of a list out.
    pub fn oldest_out(&mut self, list: usize) -> u32 {
        let place = self.start(list);
        let a = word(self.bytes, place);
        self.remove(list, place);
        a
    }

    /// p after a request of an address that was in this list, by the sizes of B1 and B2 before it left.
    pub fn change_p(&mut self, was: Option<usize>, b1: usize, b2: usize, c: usize) {
        match was {
            Some(B1) => self.p = (self.p + (b2 / b1).max(1)).min(c),
            Some(B2) => self.p = self.p.saturating_sub((b1 / b2).max(1)),
            _ => {}
        }
    }

    /// From which list the replacement takes, and to which it moves; none where T1 and T2 are empty.
    pub fn replacement(&self, was: Option<usize>) -> Option<(usize, usize)> {
        let [t1, t2, ..] = self.sizes;
        let first = t1 > self.p || was == Some(B2) && t1 == self.p || t2 == 0;
        match (t1 > 0 && first, t2 > 0) {
            (true, _) => Some((T1, B1)),
            (_, true) => Some((T2, B2)),
            _ => None,
        }
    }
}
