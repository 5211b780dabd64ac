//! The library's exports as Rust sees them: the words that each image has, and one signature for the library (`kit`) and for the
//! reference on the same images (`model`), so that a test or a benchmark can use either.

/// The boot record: 0 fresh, 1 up, any other number closed; then x2, B, the agreed minor and the number of kept bytes when up.
pub type RecordImage = [u64; 5];
/// The granule record: the number of banks, then base and size of each.
pub type GranulesImage = [u64; 33];
/// The token session: 0 idle, any other number sending; then the token's length at the start, and how much of it is sent.
pub type SessionImage = [u64; 3];
/// The signing queue: two counts, eight requests of 10 words, eight responses of 16.
pub type QueueImage = [u64; 210];
/// What a page shows: w, e, plat_data, then three words a section: 0 absent, 1 empty or 2 entries, their offset, their number.
pub type ViewImage = [u64; 15];
/// A field of the platform data: 1, its tag, and the offset and length of its value; 2, its tag and zeros if it is withdrawn; zeros if
/// there is no field.
pub type FieldImage = [u64; 4];
/// A request as stored in the queue.
pub type RequestImage = [u64; 10];
/// Offset and length of a part of the page; zeros if it is empty.
pub type Place = [u64; 2];
/// x0 to x2 of an answer.
pub type Registers = [u64; 3];
/// What the platform must do: nothing, (1, mecid) to reprogram, or (2, err_code) to forward.
pub type Work = [u64; 2];

/// What the platform lends to a call by function id.
#[derive(Debug)]
pub struct Lent<'a> {
    pub page: &'a mut [u8],
    pub granules: &'a GranulesImage,
    pub table: &'a mut [u8],
    /// One bit for each granule.
    pub words: &'a mut [u64],
    pub key: &'a [u8],
    pub token: &'a [u8],
    pub busy: u64,
    pub public_key: &'a [u8],
    /// MECIDWidthm1.
    pub width: u64,
}

/// All exports. Registers come as arrays, in their order.
pub trait Exports {
    fn read(page: &[u8], base: u64, edition: u64, view: &mut ViewImage) -> i32;
    fn array(page: &[u8], base: u64, edition: u64, section: usize, place: &mut Place);
    fn array_of(page: &[u8], view: &ViewImage, section: usize, place: &mut Place);
    fn count(page: &[u8], view: &ViewImage, section: usize) -> usize;
    fn word(page: &[u8], view: &ViewImage, section: usize, entry: usize, word: usize) -> u64;
    /// The number of the first console with a name; 2^64 - 1 if no console has it.
    fn console_named(page: &[u8], view: &ViewImage, name: &[u8; 8]) -> usize;
    /// How many fields there are.
    fn field_count(page: &[u8], view: &ViewImage) -> usize;
    fn field(page: &[u8], view: &ViewImage, index: usize, field: &mut FieldImage);
    /// The first of a tag.
    fn field_of_tag(page: &[u8], view: &ViewImage, tag: u8, field: &mut FieldImage);
    /// The cursor at the first field.
    fn field_start(page: &[u8], view: &ViewImage) -> usize;
    /// The field at a cursor, and the cursor after it.
    fn field_next(page: &[u8], cursor: usize, field: &mut FieldImage) -> usize;
    /// How many bytes at the page's start the manifest of the view takes.
    fn kept_for(page: &[u8], view: &ViewImage) -> u64;
    /// The length of the whole text, of which as much as fits is written.
    fn listing(page: &[u8], base: u64, edition: u64, text: &mut [u8]) -> usize;
    fn write(base: u64, edition: u64, lists: [&[u64]; 4], fields: &[u8], page: &mut [u8]) -> u32;

    fn cold_boot(state: &mut RecordImage, x: [u64; 4], most: u64, kept: u64, page: &[u8]) -> i32;
    fn warm_boot(state: &mut RecordImage, x: [u64; 4]) -> i32;

    fn close(state: &mut RecordImage);

    fn version_accepted(version: u64) -> bool;
    fn agreed_minor(version: u64) -> u64;
    fn is_later(a: u64, b: u64) -> bool;

    /// The banks as the array lookup gives them. Returns x0: OK, or INVAL with the record unchanged.
    fn set_up_granules(granules: &mut GranulesImage, banks: &[u8], in_table: u64) -> u64;

    fn delegate(
        state: &RecordImage,
        granules: &GranulesImage,
        table: &mut [u8],
        words: &mut [u64],
        at: u64,
        out: &mut Registers,
    );
    fn undelegate(
        state: &RecordImage,
        granules: &GranulesImage,
        table: &mut [u8],
        words: &mut [u64],
        at: u64,
        out: &mut Registers,
    );
    fn delegate_list(
        state: &RecordImage,
        granules: &GranulesImage,
        table: &mut [u8],
        words: &mut [u64],
        addresses: &[u64],
        out: &mut Registers,
    );
    fn undelegate_list(
        state: &RecordImage,
        granules: &GranulesImage,
        table: &mut [u8],
        words: &mut [u64],
        addresses: &[u64],
        out: &mut Registers,
    );

    /// How many Realm granules the words count, in `number`. Returns x0: OK, or INVAL with a 0.
    fn realm_count(granules: &GranulesImage, words: &[u64], number: &mut [u64; 1]) -> u64;
    /// The first Realm granule at or after an index, in `found`. Returns x0: OK, or INVAL, or 1 for none, both with a 0.
    fn realm_next(granules: &GranulesImage, words: &[u64], index: u64, found: &mut [u64; 1])
        -> u64;
    /// Whether words and table agree: 0 yes, 1 no, or x0 of INVAL.
    fn realm_agrees(granules: &GranulesImage, table: &[u8], words: &[u64]) -> u64;
    /// Makes the words of a table. Returns x0: OK, or INVAL with the words unchanged.
    fn realm_build(granules: &GranulesImage, table: &[u8], words: &mut [u64]) -> u64;

    /// x: pa, size, curve.
    fn realm_key(
        state: &RecordImage,
        page: &mut [u8],
        key: &[u8],
        x: [u64; 3],
        out: &mut Registers,
    );
    /// x: pa, size, c_size.
    fn platform_token(
        state: &RecordImage,
        session: &mut SessionImage,
        page: &mut [u8],
        token: &[u8],
        busy: u64,
        x: [u64; 3],
        out: &mut Registers,
    );
    /// x as for the platform token. Returns x0 of the checks.
    fn challenge(state: &RecordImage, page: &[u8], x: [u64; 3], place: &mut Place) -> u64;
    fn features(state: &RecordImage, index: u64, out: &mut Registers);
    /// x: opcode, pa, size, curve.
    fn token_signing(
        state: &RecordImage,
        queue: &mut QueueImage,
        page: &mut [u8],
        key: &[u8],
        x: [u64; 4],
        out: &mut Registers,
    );
    fn key_update(
        state: &RecordImage,
        width: u64,
        mecid: u64,
        out: &mut Registers,
        work: &mut Work,
    );
    fn forward(state: &RecordImage, x1: u64) -> u64;

    fn sign(queue: &mut QueueImage, signature: &[u8], out: &mut Registers);
    /// How many requests wait.
    fn oldest(queue: &QueueImage, request: &mut RequestImage) -> usize;
    /// How many responses wait.
    fn responses(queue: &QueueImage) -> usize;

    /// x: the function id, then x1 to x4.
    fn call(
        state: &RecordImage,
        session: &mut SessionImage,
        queue: &mut QueueImage,
        lent: &mut Lent,
        x: &[u64; 5],
        out: &mut Registers,
        work: &mut Work,
    );
}
