//! Inputs of the listing program.

use super::Comparison;
use super::Group::*;
use crate::generate::bytes::{damaged, input, some_input};
use crate::list::Bound;
use crate::sheet::MOST_FREQUENCIES;

const ODD: [&[u8]; 32] = [
    b"",
    b"\n",
    b"1",
    b"1\n3\n2\n",
    b"1\n3\n2\n1",
    b"1\n3\n2\n1\n",
    b"1\n3\n2\n1\n\n",
    b"\n1\n3\n2\n1\n",
    b"1\n\n3\n2\n1\n",
    b"1\r\n3\r\n2\r\n1\r\n",
    b"1\n3\n2\n1\r\n",
    b"+1\n3\n2\n1\n",
    b"-0\n3\n2\n1\n",
    b"01\n3\n2\n1\n",
    b"00\n3\n2\n1\n",
    b"0\n0\n0\n0\n",
    b"0\n0\n0\n1\n",
    b"1\n3\n2\n00\n",
    b"1\n3\n2\n0\n\n",
    b"0\n0\n0\n4294967296\n",
    b"0\n0\n0\n4294967295\n",
    b"1\n0\n0\n1\n",
    b"4294967295\n3\n2\n1\n",
    b"1\n3\n2\n18446744073709551617\n",
    b"1\n3\n2\n 1\n",
    b"1\n3\n2\n1 \n",
    b"1\n3\n2\n1\0\n",
    b"\xEF\xBB\xBF1\n3\n2\n1\n",
    b"1\n124\n100\n1\n",
    b"1\n5\n4\n1073741823\n1\n",
    b"1\n5\n4\n1073741823\n",
    b"1 3 2 1\n",
];

impl Comparison<'_> {
    pub(super) fn sheets(&mut self) {
        let mut random = self.random(9);
        for number in 0..self.volume.sheets {
            let longest = if number % 100 == 0 { 4_096 } else { 60 };
            let good = some_input(&mut random, longest);
            self.sheet(SheetGood, &good);
            let damaged = damaged(&mut random, &good);
            self.sheet(SheetDamaged, &damaged);
        }
        for length in [1, 2, 4_095, 4_096, 4_097, 5_000] {
            let bound = Bound::new(1, 5, 4);
            self.sheet(SheetGood, &input(&vec![1; length], bound));
            // The longest listing: no two neighbours go together, and all numbers are long.
            let steep: Vec<u32> = (0..length).map(|place| [100_000, 400_000][place % 2]).collect();
            self.sheet(SheetGood, &input(&steep, bound));
            let longest = Bound::new(u32::MAX, u32::MAX, u32::MAX);
            self.sheet(SheetDamaged, &input(&vec![u32::MAX; length], longest));
        }
        let zeros = vec![0; self.volume.longest.min(MOST_FREQUENCIES)];
        for frequencies in [&zeros[..], &[0, 0, 0], &[0, 0, 5, 0, 100]] {
            self.sheet(SheetGood, &input(frequencies, Bound::new(5, 3, 2)));
        }
        for odd in ODD {
            self.sheet(SheetDamaged, odd);
        }
        self.every_byte(b"7\n3\n2\n10\n250\n1\n");
    }

    /// One input with each byte changed to every other, and left out.
    fn every_byte(&mut self, input: &[u8]) {
        for place in 0..input.len() {
            let mut changed = input.to_vec();
            for byte in 0..=255 {
                changed[place] = byte;
                self.sheet(SheetDamaged, &changed);
            }
            changed.remove(place);
            self.sheet(SheetDamaged, &changed);
        }
    }
}
