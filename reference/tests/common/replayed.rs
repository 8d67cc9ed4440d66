//! What the tests of request (vii) and of request (viii) ask of a journal.

use reference::generate::journals::Journal;
use reference::journal::{replay_journal, Way};
use reference::list::count;

/// What is answered, which is the sum of the list afterwards, and that list. Refused, it must be as it was.
pub fn replayed(way: Way, journal: &Journal) -> Result<Vec<u32>, u32> {
    let mut list = journal.frequencies.clone();
    match replay_journal(way, &mut list, &journal.entries, &journal.changes) {
        Ok(sum) => assert_eq!(u64::from(sum), count(&list), "the sum of the list"),
        Err(refusal) => {
            assert_eq!(list, journal.frequencies, "the list stays");
            return Err(refusal);
        }
    }
    Ok(list)
}
