//! Images as they may be lent: those of states, and those that no state has.

use super::pages::NAMES;
use super::Random;
use crate::exports::{QueueImage, RecordImage, SessionImage, ViewImage};
use crate::images::{queue_words, record_words, session_words};
use crate::reference::layout::PAGE;

impl Random {
    /// An image of a boot record.
    pub fn record_image(&mut self) -> RecordImage {
        let mut image = record_words(self.record());
        if image[0] != 1 && self.one_in(2) {
            // Words that a record which is not up does not have.
            image[1..].fill_with(|| self.edge());
        }
        if image[0] > 1 {
            image[0] = self.tag(2);
        }
        image
    }

    /// A session on a token of this length.
    pub fn session_image(&mut self, length: u64) -> SessionImage {
        let mut image = session_words(self.session(length));
        if image[0] == 0 && self.one_in(2) {
            image[1..].fill_with(|| self.edge());
        }
        if image[0] != 0 {
            image[0] = self.tag(1);
        }
        image
    }

    /// A queue; half of them with anything past the counts and past the signatures, and with counts and lengths of any width.
    pub fn queue_image(&mut self) -> QueueImage {
        let mut image = queue_words(&self.queue());
        if self.one_in(2) {
            return image;
        }
        for word in image[2..].iter_mut().filter(|word| **word == 0) {
            *word = self.word();
        }
        let counts = [0, 1, 5, 7, 8, 9, 1 << 32, (1 << 32) + 1, u64::MAX];
        image[0] = self.pick(&counts);
        image[1] = self.pick(&counts);
        for response in image[82..].chunks_exact_mut(16) {
            response[2] = self.pick(&[0, 1, 7, 8, 96, 104, 105, (1 << 32) + 1, u64::MAX]);
        }
        image
    }

    /// A view with one or two words changed, or of words at the edges of a page.
    pub fn forge_view(&mut self, view: &mut ViewImage) {
        if self.one_in(4) {
            view.fill_with(|| self.view_word());
        }
        if view[2] != 0 && self.one_in(3) {
            // Fields from another byte on.
            view[2] = view[2].wrapping_add(self.below(40));
        }
        for _ in 0..self.between(1, 2) {
            view[self.index(15)] = self.view_word();
        }
    }

    /// A name to look up among a view's consoles: that of one of them, maybe with a bit changed, or any.
    pub fn asked_name(&mut self, page: &[u8], view: &ViewImage) -> [u8; 8] {
        let entry = self.below(view[8].clamp(1, 85));
        let at = view[7].saturating_add(48 * entry + 16).min(PAGE as u64) as usize;
        let mut name = match page.get(at..at + 8) {
            Some(name) => name.try_into().expect("8 bytes"),
            None => self.pick(&NAMES),
        };
        match self.below(8) {
            0 => name = self.pick(&NAMES),
            1 => name[self.index(8)] ^= 1 << self.below(8),
            _ => {}
        }
        name
    }

    fn view_word(&mut self) -> u64 {
        match self.below(4) {
            0 => self.edge(),
            1 => self.pick(&[1 << 60, (1 << 60) + 1, u64::MAX / 48 + 1, u64::MAX / 16 + 2]),
            2 => self.below(PAGE as u64 + 2),
            _ => self.below(4),
        }
    }

    /// Another number with the meaning of this tag, which is the last.
    fn tag(&mut self, last: u64) -> u64 {
        self.pick(&[last, last, last + 1, 1 << 32, (1 << 32) + 1, u64::MAX])
    }
}
