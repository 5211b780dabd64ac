//! Runtime scenes: a state, what the platform lends, and the next thing to do.

use super::pages::put;
use super::Random;
use crate::exports::GranulesImage;
use crate::reference::codes::Answer;
use crate::reference::layout::PAGE;
use crate::reference::queue::{Queue, Request, Response, Ring};
use crate::reference::runtime::{self, call, Call, Lent, Reply, State};
use crate::reference::token::{challenge, Session, TokenCall};
use std::array::from_fn;

const IDS: [u64; 12] = [
    runtime::REQ_COMPLETE,
    runtime::DELEGATE,
    runtime::UNDELEGATE,
    runtime::REALM_KEY,
    runtime::PLAT_TOKEN,
    runtime::PLAT_TOKEN,
    runtime::PLAT_TOKEN,
    runtime::FEATURES,
    runtime::TOKEN_SIGN,
    runtime::TOKEN_SIGN,
    runtime::TOKEN_SIGN,
    runtime::KEY_UPDATE,
];
const SIZES: [u64; 14] = [
    0,
    1,
    17,
    18,
    19,
    79,
    80,
    81,
    121,
    122,
    123,
    4095,
    4096,
    u64::MAX,
];
const C_SIZES: [u64; 9] = [0, 31, 32, 48, 64, 65, 16, (1 << 32) + 32, u64::MAX];

/// All that a call works on, held by one owner.
#[derive(Clone, Debug)]
pub struct Scene {
    pub state: State,
    pub page: Vec<u8>,
    pub table: Vec<u8>,
    pub words: Vec<u64>,
    pub granules: GranulesImage,
    pub realm_key: Vec<u8>,
    pub public_key: Vec<u8>,
    pub token: Vec<u8>,
    pub busy: bool,
    /// MECIDWidthm1.
    pub width: u64,
}

/// The next thing to do.
#[derive(Clone, Debug)]
pub enum Step {
    Call(Call),
    /// The signer's own step, with this signature.
    Sign(Vec<u8>),
    Challenge(TokenCall),
    OldestRequest,
}

/// The result of a step.
#[derive(Clone, Debug, PartialEq, Eq)]
pub enum Outcome {
    Reply(Reply),
    Signed(Answer),
    Challenge(Vec<u8>),
    Oldest(Option<Request>),
}

impl Scene {
    /// Does a step with the reference.
    pub fn run(&mut self, step: &Step) -> Outcome {
        match step {
            Step::Call(registers) => {
                let mut lent = Lent {
                    page: &mut self.page,
                    table: &mut self.table,
                    words: &mut self.words,
                    banks: &self.granules,
                    realm_key: &self.realm_key,
                    public_key: &self.public_key,
                    token: &self.token,
                    busy: self.busy,
                    width: self.width,
                };
                Outcome::Reply(call(&mut self.state, &mut lent, *registers))
            }
            Step::Sign(signature) => Outcome::Signed(self.state.queue.sign(signature).into()),
            Step::Challenge(call) => {
                Outcome::Challenge(challenge(self.state.record, &self.page, *call).to_vec())
            }
            Step::OldestRequest => Outcome::Oldest(self.state.queue.oldest_request().copied()),
        }
    }

    /// B, or some base while the record is not up.
    fn base(&self) -> u64 {
        self.state.record.up().map_or(0x8000_0000, |kept| kept.base)
    }

    /// How many bytes at the page's start are kept.
    fn kept(&self) -> u64 {
        self.state.record.up().map_or(0, |kept| kept.kept)
    }
}

impl Random {
    /// A scene to start with.
    pub fn scene(&mut self) -> Scene {
        let token = self.token();
        let (granules, in_table) = self.granule_record();
        let page_length = match self.below(16) {
            0 => self.pick(&[0, 79, 4095, 4097]),
            _ => PAGE,
        };
        let table = self.table(in_table);
        let mut scene = Scene {
            state: State {
                record: self.record(),
                session: self.session(token.len() as u64),
                queue: self.queue(),
            },
            page: self.bytes(page_length),
            words: Vec::new(),
            table,
            granules,
            realm_key: self.key(),
            public_key: self.key(),
            token,
            busy: self.one_in(8),
            width: self.pick(&[0, 7, 14, 15, 15, 16, 63, 64, u64::MAX]),
        };
        if self.one_in(3) {
            self.share(&mut scene);
        }
        scene.words = self.words(&scene.granules, &scene.table);
        scene
    }

    /// Moves the banks so that the shared page is among the granules, or directly after a bank.
    fn share(&mut self, scene: &mut Scene) {
        let [base, size] = self.bank_of(&scene.granules);
        let at = base.wrapping_add(4096 * self.below(size / 4096 + 1));
        let by = scene.base().wrapping_sub(at);
        let count = scene.granules[0].min(16) as usize;
        for bank in scene.granules[1..=2 * count].chunks_mut(2) {
            bank[0] = bank[0].wrapping_add(by);
        }
    }

    /// The next step in a scene. What is lent to it may change before: a request in the page, another token, a busy platform.
    pub fn step(&mut self, scene: &mut Scene) -> Step {
        self.change_lent(scene);
        match self.below(10) {
            0 | 1 => Step::Sign(self.signature()),
            2 => Step::Challenge(self.token_call(scene)),
            3 => Step::OldestRequest,
            _ => Step::Call(self.call(scene)),
        }
    }

    /// Changes what is lent now and then, and sometimes the record.
    pub fn change_lent(&mut self, scene: &mut Scene) {
        match self.below(24) {
            0 => scene.token = self.token(),
            1 => {
                let length = scene.token.len();
                scene.token = self.bytes(length);
            }
            2 => scene.realm_key = self.key(),
            3 => scene.public_key = self.key(),
            4 | 5 => scene.busy = !scene.busy,
            6 => scene.state.record = self.record(),
            _ => {}
        }
        // A platform is busy for a short while.
        scene.busy &= !self.one_in(3);
    }

    /// A call of any command, or of an unlisted id.
    pub fn call(&mut self, scene: &mut Scene) -> Call {
        let id = self.pick(&IDS);
        let x = self.registers(id, scene);
        let id = if self.one_in(20) { self.any_id(id) } else { id };
        Call { id, x }
    }

    /// Registers x1 to x4 for a command. A push finds a request in its buffer, most often a good one.
    pub fn registers(&mut self, id: u64, scene: &mut Scene) -> [u64; 4] {
        match id {
            runtime::DELEGATE | runtime::UNDELEGATE => [self.granule(scene), 0, 0, 0],
            runtime::REALM_KEY => {
                let (pa, size) = self.buffer(scene);
                [pa, size, self.selector(0), 0]
            }
            runtime::PLAT_TOKEN => {
                let TokenCall { pa, size, c_size } = self.token_call(scene);
                [pa, size, c_size, 0]
            }
            runtime::FEATURES => [self.selector(0), 0, 0, 0],
            runtime::TOKEN_SIGN => self.sign_registers(scene),
            runtime::KEY_UPDATE => [self.mecid(scene.width), 0, 0, 0],
            _ => from_fn(|_| self.edge()),
        }
    }

    /// An id that may not be listed: any, or near the given one.
    fn any_id(&mut self, id: u64) -> u64 {
        match self.below(7) {
            0 => id + (self.between(1, u64::from(u32::MAX)) << 32),
            1 => self.pick(&[
                0xC400_018E,
                0xC400_0190,
                0xC400_01AF,
                0xC400_01B7,
                0xC400_01CF,
                0xC400_0250,
            ]),
            2 => id ^ (1 << self.below(64)),
            3 => self.edge(),
            4 => self.word(),
            5 => 0xC400_0000 + self.below(1 << 16),
            _ => self.word() << 16 | id & 0xffff,
        }
    }

    /// Mostly the given value; else others, among them values that equal it only in the low 32 bits.
    fn selector(&mut self, wanted: u64) -> u64 {
        match self.below(16) {
            0 => wanted + (1 << 32),
            1 => wanted + 1,
            2 => self.edge(),
            _ => wanted,
        }
    }

    /// An address on a granule of a bank, next to one, in a hole, or any.
    fn granule(&mut self, scene: &Scene) -> u64 {
        let [base, size] = self.bank_of(&scene.granules);
        let in_bank = base.wrapping_add(4096 * self.below(size / 4096 + 1));
        match self.below(14) {
            0 => base.wrapping_sub(self.pick(&[1, 4096])),
            1 => base.wrapping_add(size),
            2 => base.wrapping_add(self.below(size.saturating_add(1))),
            3 => self.edge(),
            // A multiple of 4,096, even if the bank's base is not.
            4 => in_bank & !4095,
            5 => base,
            6 => base.wrapping_add(size).wrapping_sub(4096),
            7 | 8 => scene.base(),
            _ => in_bank,
        }
    }

    /// One of the banks, counted or not.
    fn bank_of(&mut self, granules: &GranulesImage) -> [u64; 2] {
        let count = granules[0].clamp(1, 16) as usize;
        let at = match self.below(12) {
            0 => self.index(16),
            _ => self.index(count),
        };
        [granules[1 + 2 * at], granules[2 + 2 * at]]
    }

    /// A list of granules' addresses: neighbours, often with one among them changed, or any.
    pub fn granules(&mut self, scene: &Scene) -> Vec<u64> {
        let length = self.pick(&[0, 1, 2, 3, 5, 8, 20]);
        if self.below(3) == 0 {
            return (0..length).map(|_| self.granule(scene)).collect();
        }
        let (first, step) = (self.granule(scene), self.pick(&[4096, 4096, 8192]));
        let mut list: Vec<u64> = (0..length).map(|i| first.wrapping_add(step * i)).collect();
        if length > 0 && self.below(2) == 0 {
            let at = self.index(list.len());
            list[at] = self.granule(scene);
        }
        list
    }

    /// An address and a size, mostly in the page and after the kept bytes.
    fn buffer(&mut self, scene: &Scene) -> (u64, u64) {
        let (base, kept) = (scene.base(), scene.kept());
        let free = 4096 - kept.min(4095);
        let offset = match self.below(16) {
            0 => self.pick(&[u64::MAX, 4095, 4096, 4097]),
            1 => self.edge(),
            2 => 4096 - self.pick(&[1, 17, 18, 79, 80, 122]),
            3 => self.below(4096),
            4 => kept,
            5 => kept.wrapping_sub(self.pick(&[0, 1])),
            6 => 0,
            _ => kept.wrapping_add(self.below((free + 1) / 2)),
        };
        let room = 4096u64.saturating_sub(offset);
        let size = match self.below(8) {
            0 => room,
            1 => room + 1,
            2 => self.edge(),
            3 | 4 => self.pick(&SIZES),
            _ => self.between(0, room),
        };
        (base.wrapping_add(offset), size)
    }

    fn token_call(&mut self, scene: &Scene) -> TokenCall {
        let (pa, size) = self.buffer(scene);
        let sending = scene.state.session != Session::Idle;
        // Small buffers, so that a token takes several calls.
        let size = match self.below(4) {
            0 => size,
            _ => size.min(self.between(32, 600)),
        };
        let c_size = match self.below(8) {
            0 | 1 => self.pick(&C_SIZES),
            2 => self.pick(&[32, 48, 64]),
            _ if sending => 0,
            _ => self.pick(&[32, 48, 64]),
        };
        TokenCall { pa, size, c_size }
    }

    fn sign_registers(&mut self, scene: &mut Scene) -> [u64; 4] {
        let (pa, size) = self.buffer(scene);
        let wanted = self.pick(&[1, 1, 2, 3]);
        let opcode = match self.below(16) {
            0 => self.pick(&[0, 4, wanted + (1 << 32), u64::MAX]),
            _ => wanted,
        };
        if wanted == 1 {
            self.put_request(scene, pa);
        }
        let curve = if wanted == 3 {
            self.selector(0)
        } else {
            self.edge()
        };
        [opcode, pa, size, curve]
    }

    /// Writes a request at an address, if it fits there after the kept bytes: mostly with the ids that are allowed, and with anything in
    /// the holes.
    fn put_request(&mut self, scene: &mut Scene, pa: u64) {
        let offset = pa.wrapping_sub(scene.base());
        if offset < scene.kept() {
            return;
        }
        let offset = usize::try_from(offset).unwrap_or(usize::MAX);
        let rest = scene.page.get_mut(offset..);
        let place = match rest.and_then(|rest| rest.get_mut(..80)) {
            Some(place) => place,
            None => return,
        };
        self.fill(place);
        // The upper half of these words is a hole.
        let holes = [self.word() << 32, self.word() << 32];
        put(place, 0, holes[0] + (self.selector(0) & 0xffff_ffff));
        put(place, 24, holes[1] + (self.selector(1) & 0xffff_ffff));
    }

    fn mecid(&mut self, width: u64) -> u64 {
        let bound = 1u64 << (width.min(15) + 1);
        match self.below(8) {
            0 => bound,
            1 => bound - 1,
            2 => self.pick(&[65_535, 65_536, 1 << 32, u64::MAX]),
            3 => self.edge(),
            _ => self.below(bound),
        }
    }

    /// A platform token, sometimes empty.
    pub fn token(&mut self) -> Vec<u8> {
        let length = match self.below(8) {
            0 => self.pick(&[0, 1]),
            1 => self.between(4000, 9000) as usize,
            _ => self.between(1, 1500) as usize,
        };
        self.bytes(length)
    }

    /// A key, sometimes empty or longer than a page.
    pub fn key(&mut self) -> Vec<u8> {
        let length = self.pick(&[0, 1, 18, 48, 80, 97, 97, 200, 4096, 4097]);
        self.bytes(length)
    }

    /// A signature, mostly of an accepted length.
    pub fn signature(&mut self) -> Vec<u8> {
        let length = match self.below(4) {
            0 => self.pick(&[0, 1, 104, 105, 200]),
            _ => self.between(1, 104) as usize,
        };
        self.bytes(length)
    }

    fn table(&mut self, length: usize) -> Vec<u8> {
        let states = [0, 0, 0, 1, 1, 1, 2, 3, 4, 255];
        (0..length).map(|_| self.pick(&states)).collect()
    }

    /// A session on a token of this length, one in a few forged.
    pub fn session(&mut self, length: u64) -> Session {
        let (whole, sent) = match self.below(8) {
            0 => (length, length),
            1 => (length, self.edge()),
            2 => (self.edge(), self.edge()),
            3 => (length, self.below(length.max(1))),
            _ => return Session::Idle,
        };
        Session::Sending { whole, sent }
    }

    /// A queue, one in a few with counts and lengths that no call would leave.
    pub fn queue(&mut self) -> Queue {
        if self.one_in(3) {
            return Queue::EMPTY;
        }
        let requests = from_fn(|_| self.request());
        let responses = from_fn(|_| self.response());
        Queue {
            requests: Ring::new(requests, self.count()),
            responses: Ring::new(responses, self.count()),
        }
    }

    fn count(&mut self) -> usize {
        self.pick(&[0, 0, 1, 2, 6, 7, 8, 8, 9, 255, usize::MAX])
    }

    fn request(&mut self) -> Request {
        let mut hash = [0; 48];
        self.fill(&mut hash);
        Request {
            algorithm: self.selector(0),
            granule: self.word(),
            ticket: self.word(),
            hash_id: self.selector(1),
            hash,
        }
    }

    fn response(&mut self) -> Response {
        let mut signature = [0; 104];
        self.fill(&mut signature);
        let len = match self.below(6) {
            0 => self.pick(&[0, 105, 65_535, 65_536, usize::MAX]),
            _ => self.pick(&[1, 2, 96, 103, 104]),
        };
        Response {
            granule: self.word(),
            ticket: self.word(),
            len,
            signature,
        }
    }
}
