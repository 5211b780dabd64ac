//! What a call may write, between guards that it may not.

use potterbeam_tests::reference::layout::PAGE;

/// Bytes of a guard, and words of one.
const GUARD: usize = 64;
const WORDS: usize = 2;
/// The initial contents of places that a call must write.
const STALE: u64 = 0x57A1_E57A_1E57_A1E5;

/// Bytes that are lent. They begin at any address, not only at multiples of 8.
#[derive(Clone, Debug, Default, PartialEq, Eq)]
pub struct Bytes {
    cells: Vec<u8>,
    start: usize,
    length: usize,
}

impl Bytes {
    /// Lends these bytes, `skew` bytes after an aligned address.
    pub fn load(&mut self, bytes: &[u8], skew: usize) {
        self.start = GUARD + skew;
        self.length = bytes.len();
        self.cells.clear();
        self.cells.extend((0..self.start).map(guard));
        self.cells.extend_from_slice(bytes);
        self.cells.extend((0..GUARD).map(guard));
    }

    pub fn lent(&self) -> &[u8] {
        &self.cells[self.start..self.start + self.length]
    }

    pub fn lent_mut(&mut self) -> &mut [u8] {
        &mut self.cells[self.start..self.start + self.length]
    }

    fn copy_from(&mut self, other: &Bytes) {
        self.cells.clone_from(&other.cells);
        self.start = other.start;
        self.length = other.length;
    }

    /// Every cell, including those of the guards.
    pub fn cells_mut(&mut self) -> &mut [u8] {
        &mut self.cells
    }
}

/// Words that are lent.
#[derive(Clone, Debug, Default, PartialEq, Eq)]
pub struct Words {
    cells: Vec<u64>,
}

impl Words {
    /// Lends these words.
    pub fn load(&mut self, words: &[u64]) {
        self.cells.clear();
        self.cells.extend((0..WORDS).map(word_guard));
        self.cells.extend_from_slice(words);
        self.cells.extend((0..WORDS).map(word_guard));
    }

    pub fn lent(&self) -> &[u64] {
        &self.cells[WORDS..self.cells.len() - WORDS]
    }

    pub fn lent_mut(&mut self) -> &mut [u64] {
        let end = self.cells.len() - WORDS;
        &mut self.cells[WORDS..end]
    }

    /// Every cell, including those of the guards.
    pub fn cells_mut(&mut self) -> &mut [u64] {
        &mut self.cells
    }
}

fn word_guard(i: usize) -> u64 {
    u64::from(guard(i)).wrapping_mul(0x0123_4567_89AB_CDEF)
}

/// No two neighbours are the same, so that a guard copied a place off shows.
fn guard(i: usize) -> u8 {
    (i as u8).wrapping_mul(37) ^ 0x5A
}

/// An image of words.
#[derive(Clone, Copy, Debug, PartialEq, Eq)]
#[repr(C)]
pub struct Image<const N: usize> {
    pub before: [u64; WORDS],
    pub words: [u64; N],
    pub after: [u64; WORDS],
}

impl<const N: usize> Default for Image<N> {
    fn default() -> Image<N> {
        Image {
            before: [0xB4, 0xB5].map(|x: u64| x.wrapping_mul(0x0123_4567_89AB_CDEF)),
            words: [STALE; N],
            after: [0xAF, 0xAE].map(|x: u64| x.wrapping_mul(0x0123_4567_89AB_CDEF)),
        }
    }
}

#[derive(Clone, Copy, Debug, Default, PartialEq, Eq)]
pub struct Images {
    pub record: Image<5>,
    pub granules: Image<33>,
    pub session: Image<3>,
    pub queue: Image<210>,
    pub view: Image<15>,
    pub place: Image<2>,
    pub field: Image<4>,
    pub changed: Image<6>,
    pub request: Image<10>,
    pub out: Image<3>,
    pub work: Image<2>,
    pub number: Image<1>,
}

/// All that one side's calls work on.
#[derive(Clone, Debug, Default, PartialEq, Eq)]
pub struct Memory {
    pub page: Bytes,
    pub table: Bytes,
    pub words: Words,
    pub images: Images,
    /// What the call returned, sign-extended; 0 if it returns nothing.
    pub returned: i64,
}

impl Memory {
    pub fn copy_from(&mut self, other: &Memory) {
        self.page.copy_from(&other.page);
        self.table.copy_from(&other.table);
        self.words.cells.clone_from(&other.words.cells);
        self.images = other.images;
        self.returned = other.returned;
    }

    /// Leaves nothing of the last answer.
    pub fn make_stale(&mut self) {
        self.images.place = Image::default();
        self.images.field = Image::default();
        self.images.changed = Image::default();
        self.images.request = Image::default();
        self.images.out = Image::default();
        self.images.work = Image::default();
        self.images.number = Image::default();
        self.returned = 0;
    }

    /// Each part by name, for a report.
    pub fn parts(&self) -> Vec<(&'static str, String)> {
        let images = &self.images;
        vec![
            ("returned", self.returned.to_string()),
            ("page", format!("{:02x?}", self.page)),
            ("table", format!("{:02x?}", self.table)),
            ("words", format!("{:x?}", self.words)),
            ("record", format!("{:x?}", images.record)),
            ("granules", format!("{:x?}", images.granules)),
            ("session", format!("{:x?}", images.session)),
            ("queue", format!("{:x?}", images.queue)),
            ("view", format!("{:x?}", images.view)),
            ("place", format!("{:x?}", images.place)),
            ("field", format!("{:x?}", images.field)),
            ("changed", format!("{:x?}", images.changed)),
            ("request", format!("{:x?}", images.request)),
            ("out", format!("{:x?}", images.out)),
            ("work", format!("{:x?}", images.work)),
            ("number", format!("{:x?}", images.number)),
        ]
    }
}

/// A page of zeros to begin with.
pub fn blank() -> Memory {
    let mut memory = Memory::default();
    memory.page.load(&[0; PAGE], 0);
    memory.table.load(&[0; 16], 0);
    memory.words.load(&[0; 3]);
    memory
}
