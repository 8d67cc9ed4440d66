/*
 * qh.h: histograms of a word list, whose estimates stay within a stated factor of the true count of every range that is
 * not small. To be linked with libqh.a.
 *
 * An e-book reader carries one ordered list of word forms, each with the number of times it occurs. qh_build makes a
 * small histogram of the list; qh_estimate then says from that alone about how many hits a range of forms has,
 * qh_estimate_search how many several ranges have together, and qh_answer_worksheet how many each of many has. qh_check
 * tells whether a histogram is fit for a list, and qh_find which of its buckets holds an entry. qh_replay_journal
 * changes the list itself, as books are added and withdrawn.
 *
 * The terms
 *   entry      the place of a word form in the list, 0 to d - 1, where d is the length of the list
 *   range      from x to y: the entries from x up to y, without y; its count is the sum of their frequencies, each of
 *              which is how often a form occurs, and 0 if it no longer does
 *   theta, q   how close the estimates come: theta is 1 to 1,048,575; q is qn / qd, both 1 to 1,000, and at least 5/4
 *              (else 5, and 7 in words) and at most 8 (else 24)
 *   bucket     a stretch of the list with a total, in eight bucketlets, each with a number for its entries together
 *   histogram  a list of words, four at the head and five for each bucket (the repository's docs/METHOD.md, "Words").
 *              They are numbers: a program that stores them as bytes must see to the byte order itself.
 *   running    kept beside a histogram for worksheets, 64 bits each: at place i the sum of the numbers that the totals of
 *   totals     the buckets before bucket i stand for, and one last place for all
 *   search     one to sixteen ranges that are looked up together, as those of an irregular verb; none starts before the
 *              one ahead of it ends. Ranges are lent as two numbers each: the x and the y of the first, those of the
 *              second, and so on.
 *   worksheet  a list of ranges that are each looked up by themselves
 *   journal    lines, each an entry and a signed change to its frequency, as books are added and withdrawn; lent as two
 *              lists, the entries of the lines and, in the same order, their changes
 *
 * How close they come
 *   The histograms of qh_build, and all others that qh_check accepts for the list, keep this for every range within
 *   the list and every whole k of at least 3: where the count or the estimate is above k * theta, each of the two is
 *   below f times the other, with f = q * k / (k - 2). Of r ranges together, their counts and estimates added up, it is
 *   the same for every whole k above 2 * r, with f = q * k / (k - 2 * r). Whatever its size, the count of a range is at
 *   most q times the estimate plus 2 * theta, and the estimate at most q times the count plus 2 * theta.
 *   On the list that it was built from a histogram of qh_build keeps more, for every range within the list and every
 *   whole k of at least 3: where the count or the estimate is above k * theta, the count is at most f times the
 *   estimate, and the estimate less one is below f times the count, with f the larger of 5 * k / (4 * (k - 2)) and
 *   q * k / (k - 1). That is below q * k / (k - 2) if q is above 5/4. Of other histograms it is not promised, even if
 *   qh_check accepts them.
 *
 * For every call
 *   - Nothing needs checking beforehand: each call answers every input, and none has a precondition but those under
 *     "Outside the proof". The result comes by value.
 *   - refusal is 0, or the number of a sentence of the table below that is true of the input: the first true one in the
 *     order given at the call. Where it is not 0, all else in the result is 0 and no lent list has changed. qh_sheet
 *     alone has no such field: it writes the number of its refusal into the sheet.
 *   - Every list is the caller's before, during and after the call: a pointer to the first of so many elements. Only
 *     the list `out` of a call is written, and only as far as its result says, and of qh_replay_journal the list
 *     `freqs`, and only at the entries that its lines name.
 *   - Nothing is kept between calls and no memory is allocated, so threads may call at once. Of the C library only
 *     memcpy and memset are used.
 *
 * Where it runs
 *   libqh.a links into programs for Linux on x86-64 only, for any processor of that kind, and is built for no other target.
 *   For any other device there is a separately written program in the repository's reference/, in plain Rust. It is not proved;
 *   the tests compare it with libqh.a on millions of inputs.
 *
 * Outside the proof
 *   - a null pointer with a length above 0, a pointer that is not aligned for its elements, a length that is not the
 *     list's, an `out` of qh_sheet with fewer bytes than it must have, an `out` or a `freqs` of qh_replay_journal that
 *     overlaps another list, and a list that another thread writes during the call: what happens then is not known;
 *   - a null pointer with length 0. Pass an empty list as length 0 and any pointer that is not null; in the tests a null
 *     pointer gives the same answer;
 *   - whether the structs and calls of this header are those of the library: the order of fields and parameters is
 *     tested;
 *   - faults of the compiler, the linker and the machine, and qh_sentence, which is plain C.
 */
#ifndef QH_H
#define QH_H

#include <stddef.h>
#include <stdint.h>

#ifdef __cplusplus
extern "C" {
#endif

/* The version of this header and of libqh.a, as text and as major * 10,000 + minor * 100 + patch. */
#define QH_VERSION "0.1.0"
#define QH_VERSION_NUMBER 100

/* The largest d: a longer list is refused. */
#define QH_MAX_ENTRIES 65536

/* The most lines of a journal: a longer one is refused. */
#define QH_MAX_LINES 65536

/* The most words that qh_build's histogram of d entries has: a bucket for each eight entries and one for the rest. One of
 * another make has 4 + 5 * words[3], which may be up to 4 + 5 * d. */
#define QH_WORDS_FOR(d) ((size_t)4 + (size_t)5 * (((size_t)(d) + 7) / 8))

/* The length of the list `out` of qh_sheet, in bytes. */
#define QH_SHEET_BYTES 163840

/* The refusals by name. The number 2 has no sentence. */
enum {
    QH_REFUSED_LIST_LENGTH = 1,
    QH_REFUSED_SUM = 3,
    QH_REFUSED_THETA = 4,
    QH_REFUSED_Q = 5,
    QH_REFUSED_ROOM = 6,
    QH_REFUSED_HEAD = 7,
    QH_REFUSED_WORD_COUNT = 8,
    QH_REFUSED_BUCKET_WORD = 9,
    QH_REFUSED_START = 10,
    QH_REFUSED_WIDTH = 11,
    QH_REFUSED_CODE = 12,
    QH_REFUSED_OTHER_LIST = 13,
    QH_REFUSED_RANGE = 14,
    QH_REFUSED_ENTRY = 15,
    QH_REFUSED_COUNT = 16,
    QH_REFUSED_READING = 17,
    QH_REFUSED_INPUT = 18,
    QH_REFUSED_PLACES = 19,
    QH_REFUSED_TOTALS = 20,
    QH_REFUSED_WORKSHEET = 21,
    QH_REFUSED_RANGE_COUNT = 22,
    QH_REFUSED_RANGE_ORDER = 23,
    QH_REFUSED_LARGE_Q = 24,
    QH_REFUSED_JOURNAL_LENGTH = 25,
    QH_REFUSED_JOURNAL_ENTRY = 26,
    QH_REFUSED_JOURNAL_CHANGE = 27
};

/* The table of refusals: the sentence of a refusal, NULL for any other number. */
static inline const char *qh_sentence(uint32_t refusal) {
    switch (refusal) {
    case QH_REFUSED_LIST_LENGTH: return "The frequency list has no entry or more than 65,536.";
    case QH_REFUSED_SUM: return "The frequencies sum to more than 1,073,741,823.";
    case QH_REFUSED_THETA: return "Theta is outside its limits.";
    case QH_REFUSED_Q: return "q is outside its limits.";
    case QH_REFUSED_ROOM: return "The lent word list is shorter than the histogram.";
    case QH_REFUSED_HEAD: return "There are fewer than four words, or a head word breaks its layout or limits.";
    case QH_REFUSED_WORD_COUNT: return "The length is not 4 plus 5 times the buckets.";
    case QH_REFUSED_BUCKET_WORD: return "A bucket word has a wrong kind or a set bit outside its fields.";
    case QH_REFUSED_START: return "The first start is not 0, or a start is not above the one before it, or not below d.";
    case QH_REFUSED_WIDTH: return "The listed widths exceed their bucket, or the free width is above 4,095.";
    case QH_REFUSED_CODE: return "A class is 2 or 63, a width is 0 and its class is not, or a total code is not valid; code 0 is valid exactly when all eight classes are 0.";
    case QH_REFUSED_OTHER_LIST: return "The frequency list is not d long.";
    case QH_REFUSED_RANGE: return "x is above y, or y is above d.";
    case QH_REFUSED_ENTRY: return "The entry is not below d.";
    case QH_REFUSED_COUNT: return "A count to be coded, as class or total, is above 1,073,741,823.";
    case QH_REFUSED_READING: return "A class to be read is 2, 63 or above, or a total code to be read is not valid.";
    case QH_REFUSED_INPUT: return "The input is not theta, qn, qd and 1 to 4,096 frequencies: decimal numbers below 4,294,967,296 without leading zeros, one a line, each line ended by a line feed.";
    case QH_REFUSED_PLACES: return "The list of running totals has fewer places than the buckets plus one, or that of answers fewer than half the worksheet's length, rounded down.";
    case QH_REFUSED_TOTALS: return "A running total is not the sum of what the totals of the buckets before its place stand for.";
    case QH_REFUSED_WORKSHEET: return "The worksheet's length is odd, or in one of its ranges x is above y, or y is above d.";
    case QH_REFUSED_RANGE_COUNT: return "The search has no range, more than sixteen, or a word left over.";
    case QH_REFUSED_RANGE_ORDER: return "A range of the search starts before the one ahead of it ends.";
    case QH_REFUSED_LARGE_Q: return "q is above 8.";
    case QH_REFUSED_JOURNAL_LENGTH: return "The journal has more than 65,536 lines, or not as many changes as entries.";
    case QH_REFUSED_JOURNAL_ENTRY: return "A line of the journal has an entry that is not below d.";
    case QH_REFUSED_JOURNAL_CHANGE: return "After a line of the journal a frequency is below 0, or the frequencies sum to more than 1,073,741,823.";
    default: return NULL;
    }
}

/* A call of qh_build takes fewer than QH_BUILD_STACK bytes of stack, and so does one of qh_sheet, which builds too, and
 * one of qh_replay_journal, which tries the lines on a copy of the list; any other call takes fewer than QH_OTHER_STACK.
 * That is tested, not proved. */
#define QH_BUILD_STACK 524288 /* 512 KiB */
#define QH_OTHER_STACK 16384  /* 16 KiB */

typedef struct {
    uint32_t refusal;
    size_t words; /* how many words stand in out */
} QhBuilt;

/* Writes the histogram of a list to the start of out, each bucketlet widened entry by entry as long as it fits theta and
 * q and the layout has room; the words of out after it are as they were. An out of QH_WORDS_FOR(freqs_len) words is
 * never too short. A frequency may be 0. Refused with 1, 3, 4, 5, 24, then 6. */
QhBuilt qh_build(const uint32_t *freqs, size_t freqs_len, uint32_t theta, uint32_t qn, uint32_t qd,
                 uint32_t *out, size_t out_len);

/* What fails: a whole bucketlet, a part of one, or the total of a bucket. */
enum {
    QH_SORT_BUCKETLET = 1,
    QH_SORT_PART = 2,
    QH_SORT_BUCKET = 3
};

typedef struct {
    uint32_t refusal;  /* read it first: where it is not 0, nothing was decided, and the rest is 0 */
    uint32_t accepted; /* 1: accepted, and the rest is 0; 0: not accepted, and the rest says what fails first */
    uint32_t sort;     /* one of QH_SORT_.. */
    uint32_t start;    /* the range that fails, from start to end */
    uint32_t end;
} QhVerdict;

/* Whether the histogram is accepted for the list: the number of each bucketlet and the total of each bucket is within
 * the factor q of the count, and so is, for a part of a bucketlet, its share of the number, unless it and the count are
 * at most theta. What fails is looked for bucket by bucket: in each bucketlet by start and then by end, the total last.
 * The time of a call is at most in proportion to the lengths of the list and the words, whatever they hold; that is
 * measured, not proved. Refused with 1, 3, 7, 24, then 8 to 13. */
QhVerdict qh_check(const uint32_t *freqs, size_t freqs_len, const uint32_t *words, size_t words_len);

typedef struct {
    uint32_t refusal;
    uint64_t estimate;
} QhEstimate;

/* The estimated count of the range from x to y: the totals of the buckets that lie wholly in it, the numbers of the
 * other bucketlets that do, and the share of each bucketlet that it cuts, all in one sum that is rounded up, and 1 where
 * the sum is 0; but 0 if the range is empty. Refused with 7, 24, 8 to 12, then 14. */
QhEstimate qh_estimate(const uint32_t *words, size_t words_len, uint32_t x, uint32_t y);

/* The estimated count of a search: the sum of what qh_estimate answers for each of its ranges, two numbers a range, of
 * which there are one to sixteen; ranges_len is twice their number. A range may be empty, and may start where the one
 * ahead of it ends. The histogram is tested once. Refused with 7, 24, 8 to 12, then 14 for any of the ranges, also one
 * past the sixteenth, then 22 and 23. */
QhEstimate qh_estimate_search(const uint32_t *words, size_t words_len, const uint32_t *ranges, size_t ranges_len);

typedef struct {
    uint32_t refusal;
    size_t places; /* how many running totals stand in out */
} QhFilled;

/* The most places that the running totals of qh_build's histogram of d entries have: one for each bucket, of which there
 * is one for each eight entries and one for the rest, and one more. Words of another make have words[3] + 1, which may be
 * up to d + 1. */
#define QH_TOTALS_FOR(d) ((size_t)1 + ((size_t)(d) + 7) / 8)

/* Writes the running totals of a histogram to the start of out; what stands after them is as it was. Refused with 7, 24,
 * 8 to 12, then 19. */
QhFilled qh_fill_totals(const uint32_t *words, size_t words_len, uint64_t *out, size_t out_len);

typedef struct {
    uint32_t refusal;
    size_t answers; /* how many estimates stand in out */
} QhAnswered;

/* Writes what qh_estimate answers for each range of a worksheet, in their order, to the start of out; what stands after
 * the answers is as it was. An out of worksheet_len / 2 places is never too short. The histogram and its running totals,
 * as qh_fill_totals writes them, are tested once; places after those needed are not read. After that a range costs two
 * searches by halving and no walk over the buckets between its ends. An empty worksheet has no answers. Refused with 7,
 * 24, 8 to 12, then 19, 20 and 21. */
QhAnswered qh_answer_worksheet(const uint32_t *words, size_t words_len, const uint64_t *totals, size_t totals_len,
                               const uint32_t *worksheet, size_t worksheet_len, uint64_t *out, size_t out_len);

typedef struct {
    uint32_t refusal;
    size_t at;
} QhFound;

/* The bucket of an entry: its five words are words[at] to words[at + 4]. Refused with 7, 24, 8 to 12, then 15. */
QhFound qh_find(const uint32_t *words, size_t words_len, uint32_t entry);

typedef struct {
    uint32_t refusal;
    uint32_t sum; /* of the frequencies in freqs afterwards */
} QhReplayed;

/* Replays a journal over a list: line by line, in their order, freqs[entries[i]] moves by changes[i]. Afterwards each
 * frequency is the old one plus the sum of its entry's changes. After no line may a frequency be below 0 or the sum above
 * 1,073,741,823: a later line makes up for nothing. An entry may have many lines, a change may be 0, and a journal
 * without lines changes nothing. qh_check tells whether a histogram of the old list is fit for the new one. Refused with
 * 1, 3, then 25, 26 and 27, each tested over all lines before the next, and 25 by the two lengths alone. Nothing is
 * written before all lines have passed, so that a refused call has not written on the way either, and then only at the
 * entries that lines name; that is tested, not proved. Two journals, each of two lists of equal length and together of
 * at most QH_MAX_LINES lines, are accepted one after the other exactly if the journal that joins their lines is, and then
 * leave the same list. An accepted journal is taken back by its lines in reverse order with every change negated: they
 * are accepted on the new list and restore the old one. No change of an accepted journal is INT32_MIN, so that each can
 * be negated. */
QhReplayed qh_replay_journal(uint32_t *freqs, size_t freqs_len, const uint32_t *entries, size_t entries_len,
                             const int32_t *changes, size_t changes_len);

typedef struct {
    uint32_t refusal;
    uint32_t value;
} QhCoded;

/* How counts are written small. 0 has class 0 and code 0, which stand for 0. A count v from 1 up has the class c with
 * (7/5)^(c-1) <= v < (7/5)^c, which is 1 or 3 to 62: no whole number lies in class 2. Such a class stands for the
 * largest whole r with r^2 <= (7/5)^(2c-1). A total has the code 32 * b + s: from 128 on b is its seven highest bits and
 * s the number of bits below them, else b is the total and s is 0; the code stands for b * 2^s + m with the largest whole
 * m for which (m + 2^s)^2 <= 2^(2s+1). The two that code are refused with 16, the two that read with 17. */
QhCoded qh_class_of(uint32_t count);
QhCoded qh_number_of_class(uint32_t class_);
QhCoded qh_code_of_total(uint32_t total);
QhCoded qh_number_of_total(uint32_t code);

/* The length of qh_sheet's `out`, as part of its type: a C compiler can warn of a shorter array. C++ has no such types. */
#ifdef __cplusplus
#define QH_SHEET_ROOM QH_SHEET_BYTES
#else
#define QH_SHEET_ROOM static QH_SHEET_BYTES
#endif

/* Writes the exam sheet of an input to the start of out, which has QH_SHEET_BYTES bytes, and answers how many it wrote;
 * those after them are as they were. The input is decimal numbers below 4,294,967,296, one per line, without leading
 * zeros, each line ended by a line feed: theta, qn, qd and 1 to 4,096 frequencies. The sheet has a line of d, theta, q
 * and the number of buckets; for each bucket one of its start, end, total code and the code's number; and after it, for
 * each of its bucketlets that holds an entry, one of its start, end, class and the class's number. Where the input is not
 * so (18), or qh_build would refuse what it holds (3, 4, 5 or 24), the sheet is one line, `refused` and the number. */
size_t qh_sheet(const uint8_t *input, size_t input_len, uint8_t out[QH_SHEET_ROOM]);

#ifdef __cplusplus
}
#endif

#endif
