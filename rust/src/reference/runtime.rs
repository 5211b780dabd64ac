//! The dispatcher over all commands, by function id.

use super::banks::BankWords;
use super::boot::Record;
use super::codes::{Answer, Error, Outcome};
use super::features::{features, forward, key_update};
use super::granules::{delegate, undelegate};
use super::key::realm_key;
use super::queue::Queue;
use super::signing::{token_sign, SignCall};
use super::token::{Session, TokenCall};

/// RMM_RMI_REQ_COMPLETE, which forwards an error code.
pub const REQ_COMPLETE: u64 = 0xC400_018F;
/// RMM_GTSI_DELEGATE.
pub const DELEGATE: u64 = 0xC400_01B0;
/// RMM_GTSI_UNDELEGATE.
pub const UNDELEGATE: u64 = 0xC400_01B1;
/// RMM_ATTEST_GET_REALM_KEY.
pub const REALM_KEY: u64 = 0xC400_01B2;
/// RMM_ATTEST_GET_PLAT_TOKEN.
pub const PLAT_TOKEN: u64 = 0xC400_01B3;
/// RMM_EL3_FEATURES.
pub const FEATURES: u64 = 0xC400_01B4;
/// RMM_EL3_TOKEN_SIGN.
pub const TOKEN_SIGN: u64 = 0xC400_01B5;
/// RMM_MECID_KEY_UPDATE.
pub const KEY_UPDATE: u64 = 0xC400_01B6;

/// The state that is passed from one call to the next.
#[derive(Clone, Copy, Debug)]
pub struct State {
    pub record: Record,
    pub session: Session,
    pub queue: Queue,
}

/// What the platform lends to a call.
#[derive(Debug)]
pub struct Lent<'a> {
    pub page: &'a mut [u8],
    /// One byte for each granule of these banks.
    pub table: &'a mut [u8],
    /// One bit for each granule.
    pub words: &'a mut [u64],
    pub banks: &'a BankWords,
    pub realm_key: &'a [u8],
    pub public_key: &'a [u8],
    pub token: &'a [u8],
    pub busy: bool,
    /// MECIDWidthm1.
    pub width: u64,
}

/// The registers of a call: the function id, then x1 to x4.
#[derive(Clone, Copy, Debug)]
pub struct Call {
    pub id: u64,
    pub x: [u64; 4],
}

/// The answer to a call.
#[derive(Clone, Copy, Debug, PartialEq, Eq)]
pub enum Reply {
    /// The error code goes to the Non-secure world; nothing comes back.
    Forward(u64),
    /// Registers, and a mecid if one is to be reprogrammed.
    Back {
        answer: Answer,
        reprogram: Option<u64>,
    },
}

impl From<Outcome> for Reply {
    #[inline]
    fn from(outcome: Outcome) -> Reply {
        Reply::Back {
            answer: outcome.into(),
            reprogram: None,
        }
    }
}

/// Answers a call.
pub fn call(state: &mut State, lent: &mut Lent, call: Call) -> Reply {
    let record = state.record;
    let [x1, x2, x3, x4] = call.x;
    let outcome = match call.id {
        REQ_COMPLETE => return Reply::Forward(forward(x1)),
        KEY_UPDATE => return reprogram(key_update(record, lent.width, x1)),
        DELEGATE => delegate(record, lent.banks, lent.table, lent.words, x1),
        UNDELEGATE => undelegate(record, lent.banks, lent.table, lent.words, x1),
        REALM_KEY => realm_key(record, lent.page, lent.realm_key, x1, x2, x3),
        PLAT_TOKEN => {
            let (pa, size, c_size) = (x1, x2, x3);
            let call = TokenCall { pa, size, c_size };
            let session = &mut state.session;
            session.send(record, lent.page, lent.busy, lent.token, call)
        }
        FEATURES => features(record, x1),
        TOKEN_SIGN => {
            let call = SignCall {
                opcode: x1,
                pa: x2,
                size: x3,
                curve: x4,
            };
            token_sign(record, &mut state.queue, lent.page, lent.public_key, call)
        }
        _ => Err(Error::Unk),
    };
    outcome.into()
}

#[inline]
fn reprogram(mecid: Result<u64, Error>) -> Reply {
    Reply::Back {
        answer: mecid.map(|_| [0, 0]).into(),
        reprogram: mecid.ok(),
    }
}
