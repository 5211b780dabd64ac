//! The set-up of the granule record, from any bytes and from the banks of pages that the reader accepts.

use crate::calls;
use crate::pair::Pair;
use potterbeam_tests::exports::Exports;
use potterbeam_tests::kit::Kit;
use potterbeam_tests::random::pages::Reading;
use potterbeam_tests::reference::layout::word_at;

const NAME: &str = "pbeam_set_up_granules";

/// One set-up on each side, over any previous record.
fn set_up(pair: &mut Pair, shown: &[u8], in_table: u64, case: u64) {
    pair.load(|random, m| (m.images.granules.words, _) = random.granule_record());
    check!(pair, NAME, (shown, in_table), |S, m| {
        let record = &mut m.images.granules.words;
        m.returned = S::set_up_granules(record, shown, in_table) as i64;
    });
    pair.meet(NAME, case, pair.model.returned);
}

#[test]
fn set_ups() {
    let mut pair = Pair::new(28);
    while pair.calls(NAME) < calls() {
        let (shown, in_table) = pair.random.shown_banks();
        set_up(&mut pair, &shown, in_table, shown.len() as u64 % 16);
    }
    pair.print_counts();
    pair.met.retain(|&(_, part, _), _| part == 0);
    pair.expect(&[(NAME, 0, &[0, -5])]);
}

/// What the lookup gives of a page is what the set-up takes, and a record that is made has the banks that the reader shows.
#[test]
fn set_ups_from_pages() {
    let mut pair = Pair::new(29);
    while pair.calls(NAME) < calls() / 4 {
        let (reading, in_table) = pair.random.page_of_banks();
        let Reading {
            base,
            edition,
            page,
        } = reading;
        let (mut place, mut view) = ([0; 2], [0; 15]);
        assert_eq!(Kit::read(&page, base, edition, &mut view), 0);
        Kit::array(&page, base, edition, 0, &mut place);
        let shown = &page[place[0] as usize..][..place[1] as usize];
        set_up(&mut pair, shown, in_table, 0);
        if pair.kit.returned == 0 {
            let record = &pair.kit.images.granules.words;
            assert_eq!(record[0], Kit::count(&page, &view, 0) as u64);
            for (i, bank) in record[1..].chunks_exact(2).enumerate() {
                let shown = [0, 1].map(|word| Kit::word(&page, &view, 0, i, word));
                assert_eq!(bank, shown);
            }
            assert_eq!(record[1], word_at(shown, 0));
        }
    }
    pair.print_counts();
    pair.expect(&[(NAME, 0, &[0, -5])]);
}
