//! The refusals, with the numbers, names and sentences of `qh.h`.

use std::error::Error;
use std::fmt;

/// Makes the enum of one table, so that each number and each sentence is written once.
macro_rules! refusals {
    ($($name:ident = $number:literal, $sentence:literal;)*) => {
        /// Why a call was refused; it is shown as its sentence.
        #[derive(Clone, Copy, Debug, PartialEq, Eq, Hash)]
        #[non_exhaustive]
        #[repr(u32)]
        pub enum Refusal {
            $(#[doc = $sentence] $name = $number,)*
        }

        impl Refusal {
            /// All refusals, by their numbers.
            pub const ALL: &'static [Refusal] = &[$(Refusal::$name),*];

            fn sentence(self) -> &'static str {
                match self {
                    $(Refusal::$name => $sentence,)*
                }
            }
        }
    };
}

refusals! {
    ListLength = 1, "The frequency list has no entry or more than 65,536.";
    Sum = 3, "The frequencies sum to more than 1,073,741,823.";
    Theta = 4, "Theta is outside its limits.";
    Q = 5, "q is outside its limits.";
    Room = 6, "The lent word list is shorter than the histogram.";
    Head = 7, "There are fewer than four words, or a head word breaks its layout or limits.";
    WordCount = 8, "The length is not 4 plus 5 times the buckets.";
    BucketWord = 9, "A bucket word has a wrong kind or a set bit outside its fields.";
    Start = 10, "The first start is not 0, or a start is not above the one before it, or not below d.";
    Width = 11, "The listed widths exceed their bucket, or the free width is above 4,095.";
    Code = 12, "A class is 2 or 63, a width is 0 and its class is not, or a total code is not valid; code 0 is valid exactly when all eight classes are 0.";
    OtherList = 13, "The frequency list is not d long.";
    Range = 14, "x is above y, or y is above d.";
    Entry = 15, "The entry is not below d.";
    Count = 16, "A count to be coded, as class or total, is above 1,073,741,823.";
    Reading = 17, "A class to be read is 2, 63 or above, or a total code to be read is not valid.";
    Input = 18, "The input is not theta, qn, qd and 1 to 4,096 frequencies: decimal numbers below 4,294,967,296 without leading zeros, one a line, each line ended by a line feed.";
    Places = 19, "The list of running totals has fewer places than the buckets plus one, or that of answers fewer than half the worksheet's length, rounded down.";
    Totals = 20, "A running total is not the sum of what the totals of the buckets before its place stand for.";
    Worksheet = 21, "The worksheet's length is odd, or in one of its ranges x is above y, or y is above d.";
    RangeCount = 22, "The search has no range, more than sixteen, or a word left over.";
    RangeOrder = 23, "A range of the search starts before the one ahead of it ends.";
    LargeQ = 24, "q is above 8.";
    JournalLength = 25, "The journal has more than 65,536 lines, or not as many changes as entries.";
    JournalEntry = 26, "A line of the journal has an entry that is not below d.";
    JournalChange = 27, "After a line of the journal a frequency is below 0, or the frequencies sum to more than 1,073,741,823.";
}

impl Refusal {
    /// The number that `qh.h` has for it.
    ///
    /// ```
    /// assert_eq!(qh::Refusal::Range.number(), 14);
    /// ```
    pub fn number(self) -> u32 {
        self as u32
    }

    /// The refusal of a number, if there is one.
    ///
    /// ```
    /// use qh::Refusal;
    /// assert_eq!(Refusal::from_number(14), Some(Refusal::Range));
    /// assert_eq!([0, 2, 28].map(Refusal::from_number), [None; 3]);
    /// assert!(Refusal::ALL.iter().all(|r| Refusal::from_number(r.number()) == Some(*r)));
    /// ```
    pub fn from_number(number: u32) -> Option<Refusal> {
        Refusal::ALL.iter().copied().find(|refusal| refusal.number() == number)
    }
}

impl fmt::Display for Refusal {
    fn fmt(&self, f: &mut fmt::Formatter<'_>) -> fmt::Result {
        f.write_str(self.sentence())
    }
}

impl Error for Refusal {}
