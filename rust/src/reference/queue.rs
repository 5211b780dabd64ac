//! The signing queue: requests that wait for the signer, responses that wait to be pulled.

use super::codes::{Error, Outcome};

/// Places for requests, and for responses.
pub const PLACES: usize = 8;
/// Bytes of the longest signature.
pub const SIGNATURE: usize = 104;

/// A signing request. The ids are wide enough for any forged queue.
#[derive(Clone, Copy, Debug, PartialEq, Eq)]
pub struct Request {
    pub algorithm: u64,
    pub granule: u64,
    pub ticket: u64,
    pub hash_id: u64,
    pub hash: [u8; 48],
}

impl Request {
    /// A request of zeros.
    pub const BLANK: Request = Request {
        algorithm: 0,
        granule: 0,
        ticket: 0,
        hash_id: 0,
        hash: [0; 48],
    };
}

/// A signed response.
#[derive(Clone, Copy, Debug, PartialEq, Eq)]
pub struct Response {
    pub granule: u64,
    pub ticket: u64,
    /// The length of the signature; above 104 it means 104.
    pub len: usize,
    pub signature: [u8; SIGNATURE],
}

impl Response {
    /// A response of zeros.
    pub const BLANK: Response = Response {
        granule: 0,
        ticket: 0,
        len: 0,
        signature: [0; SIGNATURE],
    };

    /// The bytes of the signature.
    #[inline]
    pub fn signature(&self) -> &[u8] {
        &self.signature[..self.len.min(SIGNATURE)]
    }
}

/// Eight places used in turn, so that taking the oldest moves nothing.
#[derive(Clone, Copy, Debug)]
pub struct Ring<T> {
    items: [T; PLACES],
    first: usize,
    count: usize,
}

impl<T: Copy> Ring<T> {
    /// The first `count` items wait, the oldest first. A count above eight means eight.
    pub const fn new(items: [T; PLACES], count: usize) -> Ring<T> {
        Ring {
            items,
            first: 0,
            count,
        }
    }

    /// The count as it is stored.
    #[inline]
    pub fn stored_count(&self) -> usize {
        self.count
    }

    /// How many wait.
    #[inline]
    pub fn len(&self) -> usize {
        self.count.min(PLACES)
    }

    /// Whether none waits.
    #[inline]
    pub fn is_empty(&self) -> bool {
        self.count == 0
    }

    /// Whether all places are taken.
    #[inline]
    pub fn is_full(&self) -> bool {
        self.count >= PLACES
    }

    /// The oldest one.
    #[inline]
    pub fn oldest(&self) -> Option<&T> {
        self.iter().next()
    }

    /// Those that wait, the oldest first.
    #[inline]
    pub fn iter(&self) -> impl Iterator<Item = &T> {
        (0..self.len()).map(move |i| &self.items[(self.first + i) % PLACES])
    }

    /// Takes the place after the newest; `None` if all are taken.
    #[inline]
    fn join(&mut self) -> Option<&mut T> {
        if self.is_full() {
            return None;
        }
        let place = (self.first + self.count) % PLACES;
        self.count += 1;
        Some(&mut self.items[place])
    }

    /// Frees the oldest one's place.
    #[inline]
    fn drop_oldest(&mut self) {
        self.count = self.len().saturating_sub(1);
        self.first = (self.first + 1) % PLACES;
    }
}

/// Both sides of the signing queue.
#[derive(Clone, Copy, Debug)]
pub struct Queue {
    pub requests: Ring<Request>,
    pub responses: Ring<Response>,
}

impl Queue {
    /// A queue without requests and responses.
    pub const EMPTY: Queue = Queue {
        requests: Ring::new([Request::BLANK; PLACES], 0),
        responses: Ring::new([Response::BLANK; PLACES], 0),
    };

    /// The oldest request.
    #[inline]
    pub fn oldest_request(&self) -> Option<&Request> {
        self.requests.oldest()
    }

    /// The signer's own step: the oldest request becomes the newest response.
    #[inline]
    pub fn sign(&mut self, signature: &[u8]) -> Outcome {
        if !(1..=SIGNATURE).contains(&signature.len()) {
            return Err(Error::Inval);
        }
        let &Request {
            granule, ticket, ..
        } = self.requests.oldest().ok_or(Error::Again)?;
        let response = self.responses.join().ok_or(Error::Again)?;
        response.granule = granule;
        response.ticket = ticket;
        response.len = signature.len();
        response.signature[..signature.len()].copy_from_slice(signature);
        self.requests.drop_oldest();
        Ok([0, 0])
    }

    /// The request joins the end.
    #[inline]
    pub(super) fn push(&mut self, request: Request) -> Outcome {
        *self.requests.join().ok_or(Error::Again)? = request;
        Ok([0, 0])
    }

    /// Drops the oldest response.
    #[inline]
    pub(super) fn drop_response(&mut self) {
        self.responses.drop_oldest();
    }
}
