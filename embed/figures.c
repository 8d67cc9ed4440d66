/*
 * Calls every function of qh.h on input whose whole answer is known, and compares each field, word and byte of it. The
 * proofs go by name: with two fields of a struct or two parameters of a call exchanged, the library would still be
 * proved, and a program in C would read and lend the wrong ones. So the figures of an answer differ from one another
 * where they can, and they are set by the names of the fields, never by their order.
 *
 * The figures are those of document 01, "Examples", of crates/.../specs, or reckoned by hand, as is said at each.
 */
#include <inttypes.h>
#include <qh.h>
#include <stdio.h>
#include <string.h>

#define MARK 0xA5 /* in every byte of a list that is lent to be written */
#define MARKED_WORD UINT32_C(0xA5A5A5A5)
#define MARKED_PLACE UINT64_C(0xA5A5A5A5A5A5A5A5)
#define LIST(array) array, sizeof array / sizeof *array

static size_t passed, failed;

/* Frequencies, and words of histograms. */
static const uint32_t four_tens[] = {10, 10, 10, 10}; /* with its words, of document 01: theta 1, q 3/2 */
static const uint32_t tens[] = {4, 1, 0xC02, 1, 0x40000204, 0x8B000000, 0x80000500, 0xC0000000, 0xC0000000};
static const uint32_t q_8[] = { /* the same with q 8/1, and with q 9/1 */
    4, 1, 0x2001, 1, 0x40000204, 0x8B000000, 0x80000500, 0xC0000000, 0xC0000000};
static const uint32_t q_9[] = {4, 1, 0x2401, 1, 0x40000204, 0x8B000000, 0x80000500, 0xC0000000, 0xC0000000};
static const uint32_t three_zeros[] = {0, 0, 0}; /* with its words: theta 1, q 3/2 */
static const uint32_t zeros[] = {3, 1, 0xC02, 1, 0x40000203, 0x80000000, 0x80000000, 0xC0000000, 0xC0000000};
static const uint32_t two[] = { /* of words_rules/specs/Worked.antt: two buckets, of the entries 0 to 3 and 4 to 9 */
    10, 1, 0xC02, 2, 0x40000201, 0x810C4140, 0x80000500, 0xC0040201, 0xC0000000,
    0x40001001, 0x881C0180, 0x80000801, 0xC0000200, 0xC0000000};

static const uint32_t three[] = { /* of estimate_rules/specs/Worked.antt: three buckets of four entries */
    12, 1, 0xC02, 3, 0x40000204, 0x8B000000, 0x80000500, 0xC0000000, 0xC0000000,
    0x40001204, 0x8B000000, 0x80000640, 0xC0000000, 0xC0000000,
    0x40002204, 0x8B000000, 0x80000780, 0xC0000000, 0xC0000000};

static void figure(const char *what, const char *part, uint64_t expected, uint64_t got) {
    if (got == expected) {
        passed++;
    } else {
        failed++;
        printf("FAIL: %s, %s: expected %" PRIu64 ", got %" PRIu64 "\n", what, part, expected, got);
    }
}

static void figure_at(const char *what, const char *part, size_t place, uint64_t expected, uint64_t got) {
    char name[64];
    snprintf(name, sizeof name, "%s %zu", part, place);
    figure(what, name, expected, got);
}

static void coded(const char *what, QhCoded got, QhCoded expected) {
    figure(what, "refusal", expected.refusal, got.refusal);
    figure(what, "value", expected.value, got.value);
}

static void counts(void) {
    /* document 01: count, class, number 100, 14, 93; total, code, number 1000, 4003, 1003 */
    coded("the class of 100", qh_class_of(100), (QhCoded){.value = 14});
    coded("the number of class 14", qh_number_of_class(14), (QhCoded){.value = 93});
    coded("the code of 1000", qh_code_of_total(1000), (QhCoded){.value = 4003});
    coded("the number of code 4003", qh_number_of_total(4003), (QhCoded){.value = 1003});
    /* 0 is coded as 0 and read as 0 */
    coded("the class of 0", qh_class_of(0), (QhCoded){0});
    coded("the number of class 0", qh_number_of_class(0), (QhCoded){0});
    coded("the code of 0", qh_code_of_total(0), (QhCoded){0});
    coded("the number of code 0", qh_number_of_total(0), (QhCoded){0});
    /* sentences 16 and 17 */
    coded("the class of 1,073,741,824", qh_class_of(1073741824), (QhCoded){.refusal = QH_REFUSED_COUNT});
    coded("the number of class 2", qh_number_of_class(2), (QhCoded){.refusal = QH_REFUSED_READING});
    coded("the code of 1,073,741,824", qh_code_of_total(1073741824), (QhCoded){.refusal = QH_REFUSED_COUNT});
    coded("the number of code 2072", qh_number_of_total(2072), (QhCoded){.refusal = QH_REFUSED_READING});
}

static uint32_t out[16];

/* Compares what was built into out, also past it, and marks out for the next. */
static void built(const char *what, QhBuilt got, QhBuilt expected, const uint32_t *words) {
    figure(what, "refusal", expected.refusal, got.refusal);
    figure(what, "words", expected.words, got.words);
    for (size_t i = 0; i < sizeof out / sizeof *out; i++) {
        figure_at(what, "word", i, i < expected.words ? words[i] : MARKED_WORD, out[i]);
    }
    memset(out, MARK, sizeof out);
}

/* No two of theta, qn and qd are equal: the head words tell them apart. */
static void builds(void) {
    /* the widths 3 and 1 are those of build_rules/specs/Worked.antt; by hand: 9 has class 7, 10 the code 320 */
    const uint32_t fours[] = {4, 1, 4, 1};
    const uint32_t of_fours[] = {4, 7, 0x1404, 1, 0x40000203, 0x87040000, 0x80000140, 0xC0040000, 0xC0000000};
    /* by hand: 1 and 100 never go together (document 01); 404 has the code 3234; the ninth entry is a bucket */
    const uint32_t turns[] = {1, 100, 1, 100, 1, 100, 1, 100, 1};
    const uint32_t of_turns[] = {9, 1, 0xC02, 2, 0x40000201, 0x81381381, 0x8E04ECA2, 0xC0040201, 0xC0040201,
                                 0x40002201, 0x81000000, 0x80000020, 0xC0000000, 0xC0000000};
    /* by hand: 4 has class 5 and the code 128 */
    const uint32_t of_four[] = {1, 7, 0x2001, 1, 0x40000201, 0x85000000, 0x80000080, 0xC0000000, 0xC0000000};
    const uint32_t large[] = {1073741823, 0, 1};
    memset(out, MARK, sizeof out);
    built("10, 10, 10, 10", qh_build(LIST(four_tens), 1, 3, 2, LIST(out)), (QhBuilt){.words = 9}, tens);
    built("4, 1, 4, 1", qh_build(LIST(fours), 7, 5, 4, LIST(out)), (QhBuilt){.words = 9}, of_fours);
    built("nine entries", qh_build(LIST(turns), 1, 3, 2, LIST(out)), (QhBuilt){.words = 14}, of_turns);
    built("0, 0, 0", qh_build(LIST(three_zeros), 1, 3, 2, LIST(out)), (QhBuilt){.words = 9}, zeros);
    /* q is 8 itself, which is taken: 8 * 1024 + 1 */
    built("q 8/1", qh_build(fours, 1, 7, 8, 1, LIST(out)), (QhBuilt){.words = 9}, of_four);
    /* the sentences 1, 3, 4, 5, 24 and 6, tested in this order */
    built("no entry", qh_build(fours, 0, 1, 3, 2, LIST(out)), (QhBuilt){.refusal = QH_REFUSED_LIST_LENGTH}, NULL);
    built("a sum of 1,073,741,824", qh_build(LIST(large), 0, 3, 2, LIST(out)),
          (QhBuilt){.refusal = QH_REFUSED_SUM}, NULL);
    built("theta 0", qh_build(LIST(fours), 0, 124, 100, LIST(out)), (QhBuilt){.refusal = QH_REFUSED_THETA}, NULL);
    built("q 124/100", qh_build(LIST(fours), 1, 124, 100, LIST(out)), (QhBuilt){.refusal = QH_REFUSED_Q}, NULL);
    built("q 1001/1", qh_build(LIST(fours), 1, 1001, 1, out, 0), (QhBuilt){.refusal = QH_REFUSED_Q}, NULL);
    built("q 9/1", qh_build(LIST(fours), 1, 9, 1, out, 0), (QhBuilt){.refusal = QH_REFUSED_LARGE_Q}, NULL);
    built("eight words for nine", qh_build(LIST(four_tens), 1, 3, 2, out, 8),
          (QhBuilt){.refusal = QH_REFUSED_ROOM}, NULL);
}

static void verdict(const char *what, QhVerdict got, QhVerdict expected) {
    figure(what, "refusal", expected.refusal, got.refusal);
    figure(what, "accepted", expected.accepted, got.accepted);
    figure(what, "sort", expected.sort, got.sort);
    figure(what, "start", expected.start, got.start);
    figure(what, "end", expected.end, got.end);
}

/* The examples of check_rules/specs/Worked.antt, by their names there; the first two are document 01's. */
static void verdicts(void) {
    const uint32_t hundred[] = {10, 10, 10, 100}, sixty[] = {6, 6, 4, 6, 6, 60}, forty[] = {10, 10, 10, 40};
    const uint32_t twos[] = {2, 2, 2, 2};
    const uint32_t gaps[] = {6, 1, 0x801, 1, 0x40000002, 0x80200005, 0x80240420, 0xC0000001, 0xC0000600};
    const uint32_t one[] = {4, 1, 0xC02, 1, 0x40000204, 0x8C000000, 0x800008C0, 0xC0000000, 0xC0000000};
    const uint32_t wrong_total[] = {4, 100, 0xC02, 2, 0x40000202, 0x85000000, 0x80000080, 0xC0000000, 0xC0000000,
                                    0x40000A02, 0x85000000, 0x80000120, 0xC0000000, 0xC0000000};
    verdict("tens-taken", qh_check(LIST(four_tens), LIST(tens)), (QhVerdict){.accepted = 1});
    verdict("tens-hundred", qh_check(LIST(hundred), LIST(tens)),
            (QhVerdict){.sort = QH_SORT_BUCKETLET, .start = 0, .end = 4});
    verdict("after-gaps", qh_check(LIST(sixty), LIST(gaps)),
            (QhVerdict){.sort = QH_SORT_BUCKETLET, .start = 3, .end = 6});
    verdict("later-start", qh_check(LIST(forty), LIST(one)), (QhVerdict){.sort = QH_SORT_PART, .start = 1, .end = 4});
    verdict("next-total", qh_check(LIST(twos), LIST(wrong_total)),
            (QhVerdict){.sort = QH_SORT_BUCKET, .start = 2, .end = 4});
    verdict("zeros-taken", qh_check(LIST(three_zeros), LIST(zeros)), (QhVerdict){.accepted = 1});
    verdict("q-8", qh_check(LIST(four_tens), LIST(q_8)), (QhVerdict){.accepted = 1});
    verdict("q-9", qh_check(LIST(four_tens), LIST(q_9)), (QhVerdict){.refusal = QH_REFUSED_LARGE_Q});
    verdict("q-before", qh_check(four_tens, 1, q_9, 8), (QhVerdict){.refusal = QH_REFUSED_LARGE_Q});
    verdict("no-entry", qh_check(four_tens, 0, tens, 0), (QhVerdict){.refusal = QH_REFUSED_LIST_LENGTH});
    verdict("no-words", qh_check(four_tens, 1, tens, 0), (QhVerdict){.refusal = QH_REFUSED_HEAD});
    verdict("other-length", qh_check(four_tens, 1, LIST(tens)), (QhVerdict){.refusal = QH_REFUSED_OTHER_LIST});
}

static void estimated(const char *what, QhEstimate got, QhEstimate expected) {
    figure(what, "refusal", expected.refusal, got.refusal);
    figure(what, "estimate", expected.estimate, got.estimate);
}

/* Of tens document 01's examples, and "turned" and those of two of estimate_rules/specs/Worked.antt. */
static void estimates(void) {
    estimated("1 to 3 of tens", qh_estimate(LIST(tens), 1, 3), (QhEstimate){.estimate = 17});
    estimated("0 to 3 of tens", qh_estimate(LIST(tens), 0, 3), (QhEstimate){.estimate = 26});
    estimated("0 to 4 of tens", qh_estimate(LIST(tens), 0, 4), (QhEstimate){.estimate = 40});
    estimated("4 to 4 of tens", qh_estimate(LIST(tens), 4, 4), (QhEstimate){.estimate = 0});
    estimated("4 to 5 of tens", qh_estimate(LIST(tens), 4, 5), (QhEstimate){.refusal = QH_REFUSED_RANGE});
    estimated("3 to 2 of tens, turned", qh_estimate(LIST(tens), 3, 2), (QhEstimate){.refusal = QH_REFUSED_RANGE});
    estimated("4 to 5 of eight words", qh_estimate(tens, 8, 4, 5), (QhEstimate){.refusal = QH_REFUSED_WORD_COUNT});
    estimated("4 to 5 of q 8/1", qh_estimate(LIST(q_8), 4, 5), (QhEstimate){.refusal = QH_REFUSED_RANGE});
    estimated("4 to 5 of q 9/1", qh_estimate(LIST(q_9), 4, 5), (QhEstimate){.refusal = QH_REFUSED_LARGE_Q});
    estimated("0 to 3 of zeros", qh_estimate(LIST(zeros), 0, 3), (QhEstimate){.estimate = 1});
    estimated("3 to 3 of zeros", qh_estimate(LIST(zeros), 3, 3), (QhEstimate){.estimate = 0});
    estimated("2 to 10 of two", qh_estimate(LIST(two), 2, 10), (QhEstimate){.estimate = 135});
    estimated("3 to 5 of two", qh_estimate(LIST(two), 3, 5), (QhEstimate){.estimate = 7});
}

/* "most", "too-many", "order" and the others of searches in estimate_rules/specs/Worked.antt. */
static void searches(void) {
    const uint32_t one[] = {1, 3}, touching[] = {0, 2, 2, 4}, each[] = {0, 1, 1, 2, 2, 3, 3, 4};
    const uint32_t broken[] = {0, 5, 7}, turned[] = {3, 2, 2, 4}, early[] = {0, 3, 2, 4}, early_too[] = {0, 3, 2, 4, 7};
    const uint32_t over[] = {1, 4, 4, 8, 8, 11};
    uint32_t many[34] = {0};
    estimated("1 to 3 searched", qh_estimate_search(LIST(tens), LIST(one)), (QhEstimate){.estimate = 17});
    estimated("0 to 2 and 2 to 4", qh_estimate_search(LIST(tens), LIST(touching)), (QhEstimate){.estimate = 34});
    estimated("each of tens", qh_estimate_search(LIST(tens), LIST(each)), (QhEstimate){.estimate = 36});
    estimated("over three buckets", qh_estimate_search(LIST(three), LIST(over)), (QhEstimate){.estimate = 102});
    estimated("0 to 5 and a word", qh_estimate_search(LIST(tens), LIST(broken)),
              (QhEstimate){.refusal = QH_REFUSED_RANGE});
    estimated("3 to 2 and 2 to 4", qh_estimate_search(LIST(tens), LIST(turned)),
              (QhEstimate){.refusal = QH_REFUSED_RANGE});
    estimated("a word", qh_estimate_search(LIST(tens), broken, 1), (QhEstimate){.refusal = QH_REFUSED_RANGE_COUNT});
    estimated("no range", qh_estimate_search(LIST(tens), one, 0), (QhEstimate){.refusal = QH_REFUSED_RANGE_COUNT});
    estimated("0 to 3 and 2 to 4", qh_estimate_search(LIST(tens), LIST(early)),
              (QhEstimate){.refusal = QH_REFUSED_RANGE_ORDER});
    estimated("and a word", qh_estimate_search(LIST(tens), LIST(early_too)),
              (QhEstimate){.refusal = QH_REFUSED_RANGE_COUNT});
    many[31] = many[32] = many[33] = 4; /* fifteen empty ranges, 0 to 4, and 4 to 4 */
    estimated("sixteen ranges", qh_estimate_search(LIST(tens), many, 32), (QhEstimate){.estimate = 40});
    estimated("and a word", qh_estimate_search(LIST(tens), many, 33), (QhEstimate){.refusal = QH_REFUSED_RANGE_COUNT});
    estimated("seventeen ranges", qh_estimate_search(LIST(tens), LIST(many)),
              (QhEstimate){.refusal = QH_REFUSED_RANGE_COUNT});
    many[33] = 5;
    estimated("4 to 5 at last", qh_estimate_search(LIST(tens), LIST(many)), (QhEstimate){.refusal = QH_REFUSED_RANGE});
    estimated("no range of q 9/1", qh_estimate_search(LIST(q_9), one, 0), (QhEstimate){.refusal = QH_REFUSED_LARGE_Q});
    estimated("no range of eight words", qh_estimate_search(tens, 8, one, 0),
              (QhEstimate){.refusal = QH_REFUSED_WORD_COUNT});
}

static uint64_t places[8];

/* Compares what was written into places, also past it, and marks them for the next. */
static void placed(const char *what, size_t count, const uint64_t *expected) {
    for (size_t i = 0; i < sizeof places / sizeof *places; i++) {
        figure_at(what, "place", i, i < count ? expected[i] : MARKED_PLACE, places[i]);
    }
    memset(places, MARK, sizeof places);
}

static void filled(const char *what, QhFilled got, QhFilled expected, const uint64_t *totals) {
    figure(what, "refusal", expected.refusal, got.refusal);
    figure(what, "places", expected.places, got.places);
    placed(what, expected.places, totals);
}

static void answered(const char *what, QhAnswered got, QhAnswered expected, const uint64_t *estimates) {
    figure(what, "refusal", expected.refusal, got.refusal);
    figure(what, "answers", expected.answers, got.answers);
    placed(what, expected.answers, estimates);
}

/* Lends no place beside words of two with one of them changed: the fault of the words comes first. */
static void words_first(const char *what, size_t place, uint32_t word, uint32_t refusal) {
    uint32_t words[sizeof two / sizeof *two];
    memcpy(words, two, sizeof two);
    words[place] = word;
    filled(what, qh_fill_totals(LIST(words), places, 0), (QhFilled){.refusal = refusal}, NULL);
    answered(what, qh_answer_worksheet(LIST(words), places, 0, words, 3, places, 0),
             (QhAnswered){.refusal = refusal}, NULL);
}

/* "filled" and those that begin with "sheet" of estimate_rules/specs/Worked.antt, and each fault of words before 19. */
static void worksheets(void) {
    const uint64_t totals[] = {0, 40, 90, 150, 3}, first_wrong[] = {1, 40, 90, 150}, last_wrong[] = {0, 40, 90, 149};
    const uint32_t sheet[] = {1, 11, 0, 12, 5, 6, 3, 8, 7, 7}, turned[] = {0, 1, 3, 2}, past[] = {0, 1, 12, 13};
    const uint64_t estimates[] = {101, 150, 9, 59, 0};
    memset(places, MARK, sizeof places);
    filled("the totals of three", qh_fill_totals(LIST(three), LIST(places)), (QhFilled){.places = 4}, totals);
    filled("three places for four", qh_fill_totals(LIST(three), places, 3),
           (QhFilled){.refusal = QH_REFUSED_PLACES}, NULL);
    filled("the totals of eighteen words", qh_fill_totals(three, 18, places, 0),
           (QhFilled){.refusal = QH_REFUSED_WORD_COUNT}, NULL);
    filled("the totals of q 9/1", qh_fill_totals(LIST(q_9), places, 0), (QhFilled){.refusal = QH_REFUSED_LARGE_Q}, NULL);
    answered("the sheet", qh_answer_worksheet(LIST(three), totals, 4, LIST(sheet), places, 5),
             (QhAnswered){.answers = 5}, estimates);
    answered("a place after those needed", qh_answer_worksheet(LIST(three), LIST(totals), LIST(sheet), LIST(places)),
             (QhAnswered){.answers = 5}, estimates);
    answered("the empty sheet", qh_answer_worksheet(LIST(three), LIST(totals), sheet, 0, places, 0),
             (QhAnswered){.answers = 0}, NULL);
    answered("three totals for four", qh_answer_worksheet(LIST(three), first_wrong, 3, LIST(sheet), LIST(places)),
             (QhAnswered){.refusal = QH_REFUSED_PLACES}, NULL);
    answered("four places for five", qh_answer_worksheet(LIST(three), LIST(first_wrong), LIST(sheet), places, 4),
             (QhAnswered){.refusal = QH_REFUSED_PLACES}, NULL);
    answered("a wrong first total", qh_answer_worksheet(LIST(three), LIST(first_wrong), sheet, 3, LIST(places)),
             (QhAnswered){.refusal = QH_REFUSED_TOTALS}, NULL);
    answered("a wrong last total", qh_answer_worksheet(LIST(three), LIST(last_wrong), LIST(sheet), LIST(places)),
             (QhAnswered){.refusal = QH_REFUSED_TOTALS}, NULL);
    answered("a word left over", qh_answer_worksheet(LIST(three), LIST(totals), sheet, 3, places, 1),
             (QhAnswered){.refusal = QH_REFUSED_WORKSHEET}, NULL);
    answered("a word left over and no place", qh_answer_worksheet(LIST(three), LIST(totals), sheet, 3, places, 0),
             (QhAnswered){.refusal = QH_REFUSED_PLACES}, NULL);
    answered("3 to 2 at last", qh_answer_worksheet(LIST(three), LIST(totals), LIST(turned), LIST(places)),
             (QhAnswered){.refusal = QH_REFUSED_WORKSHEET}, NULL);
    answered("12 to 13 at last", qh_answer_worksheet(LIST(three), LIST(totals), LIST(past), LIST(places)),
             (QhAnswered){.refusal = QH_REFUSED_WORKSHEET}, NULL);
    words_first("theta 0 and no place", 1, 0, QH_REFUSED_HEAD);
    words_first("q 15/1 and no place", 2, 0x3C01, QH_REFUSED_LARGE_Q);
    words_first("three buckets and no place", 3, 3, QH_REFUSED_WORD_COUNT);
    words_first("another kind and no place", 9, 0x80001001, QH_REFUSED_BUCKET_WORD);
    words_first("an equal start and no place", 9, 0x40000001, QH_REFUSED_START);
    words_first("wide widths and no place", 4, 0x40000202, QH_REFUSED_WIDTH);
    words_first("class 63 and no place", 5, 0xBF3C4140, QH_REFUSED_CODE);
    filled("no word", qh_fill_totals(three, 0, places, 0), (QhFilled){.refusal = QH_REFUSED_HEAD}, NULL);
    answered("no word", qh_answer_worksheet(three, 0, totals, 0, sheet, 3, places, 0),
             (QhAnswered){.refusal = QH_REFUSED_HEAD}, NULL);
    answered("eighteen words", qh_answer_worksheet(three, 18, totals, 0, LIST(sheet), places, 0),
             (QhAnswered){.refusal = QH_REFUSED_WORD_COUNT}, NULL);
}

static void found(const char *what, QhFound got, QhFound expected) {
    figure(what, "refusal", expected.refusal, got.refusal);
    figure(what, "at", expected.at, got.at);
}

/* Looks for an entry of two with one of its words changed. */
static void found_changed(const char *what, size_t place, uint32_t word, uint32_t refusal) {
    uint32_t words[sizeof two / sizeof *two];
    memcpy(words, two, sizeof two);
    words[place] = word;
    found(what, qh_find(LIST(words), 3), (QhFound){.refusal = refusal});
}

/* "places" and "faults" of words_rules/specs/Worked.antt, and of its other faults one of each sentence. */
static void buckets(void) {
    found("entry 3 of two", qh_find(LIST(two), 3), (QhFound){.at = 4});
    found("entry 4 of two", qh_find(LIST(two), 4), (QhFound){.at = 9});
    found("entry 10 of two", qh_find(LIST(two), 10), (QhFound){.refusal = QH_REFUSED_ENTRY});
    found("entry 10 of thirteen words", qh_find(two, 13, 10), (QhFound){.refusal = QH_REFUSED_WORD_COUNT});
    found("entry 0 of no word", qh_find(two, 0, 0), (QhFound){.refusal = QH_REFUSED_HEAD});
    found_changed("q 15/1", 2, 0x3C01, QH_REFUSED_LARGE_Q);
    found_changed("q 1001/1", 2, 0xFA401, QH_REFUSED_HEAD);
    found_changed("another kind", 9, 0x80001001, QH_REFUSED_BUCKET_WORD);
    found_changed("a start not above the one before it", 9, 0x40000001, QH_REFUSED_START);
    found_changed("listed widths above the span", 4, 0x40000202, QH_REFUSED_WIDTH);
    found_changed("class 63", 5, 0xBF3C4140, QH_REFUSED_CODE);
}

static uint32_t list[QH_MAX_ENTRIES + 2];

/* Replays a journal over a copy of freqs, and compares with after, or with freqs where that is NULL, the first word of
 * the copy and of what is marked after it that is not as expected, or else the last. */
static void replayed(const char *what, const uint32_t *freqs, size_t freqs_len, const uint32_t *entries,
                     size_t entries_len, const int32_t *changes, size_t changes_len, QhReplayed expected,
                     const uint32_t *after) {
    const uint32_t *words = after == NULL ? freqs : after;
    size_t at = 0;
    memset(list, MARK, sizeof list);
    memcpy(list, freqs, freqs_len * sizeof *freqs);
    QhReplayed got = qh_replay_journal(list, freqs_len, entries, entries_len, changes, changes_len);
    figure(what, "refusal", expected.refusal, got.refusal);
    figure(what, "sum", expected.sum, got.sum);
    while (at < sizeof list / sizeof *list - 1 && list[at] == (at < freqs_len ? words[at] : MARKED_WORD)) {
        at++;
    }
    figure_at(what, "word", at, at < freqs_len ? words[at] : MARKED_WORD, list[at]);
}

/* A journal of one line. */
static void replayed_line(const char *what, const uint32_t *freqs, size_t freqs_len, uint32_t entry, int32_t change,
                          QhReplayed expected, const uint32_t *after) {
    replayed(what, freqs, freqs_len, &entry, 1, &change, 1, expected, after);
}

static const QhReplayed journal_length = {.refusal = QH_REFUSED_JOURNAL_LENGTH};
static const QhReplayed journal_entry = {.refusal = QH_REFUSED_JOURNAL_ENTRY};
static const QhReplayed journal_change = {.refusal = QH_REFUSED_JOURNAL_CHANGE};

/* Frequencies and lines of journals. */
static const uint32_t none[] = {0}, one[] = {1}, five_seven[] = {5, 7};
static const uint32_t both_first[] = {0, 0}, first_second[] = {0, 1}, second_first[] = {1, 0};

/* The examples of journal_rules/specs/Worked.antt by their names there; the others by hand. */
static void journals(void) {
    const uint32_t books[] = {5, 0, 7}, lines[] = {1, 0, 1, 2}, left[] = {3, 7, 0};
    const uint32_t last_first[] = {3, 0}, tens_after[] = {14, 10, 10, 0};
    const int32_t of_lines[] = {3, -2, 4, -7}, of_last_first[] = {-10, 4}, down_up[] = {-5, 5}, up_down[] = {5, -5};
    replayed("replays", LIST(books), LIST(lines), LIST(of_lines), (QhReplayed){.sum = 10}, left);
    replayed("four tens", LIST(four_tens), LIST(last_first), LIST(of_last_first), (QhReplayed){.sum = 34}, tens_after);
    replayed("no-lines", LIST(five_seven), lines, 0, of_lines, 0, (QhReplayed){.sum = 12}, NULL);
    replayed_line("a change of 0", LIST(five_seven), 1, 0, (QhReplayed){.sum = 12}, NULL);
    replayed("below-first", LIST(none), LIST(both_first), LIST(down_up), journal_change, NULL);
    replayed("below-last", LIST(none), LIST(both_first), LIST(up_down), (QhReplayed){.sum = 0}, NULL);
}

/* Down to 0 and up to the limit, and past both. */
static void journal_bounds(void) {
    const uint32_t five_nine[] = {5, 9}, full[] = {1073741823, 0}, nearly[] = {1073741822, 0};
    const uint32_t with_one[] = {1073741822, 1};
    const int32_t last_below[] = {1, -8}, last_least[] = {1, INT32_MIN}, over_back[] = {1, -1}, back_over[] = {-1, 1};
    const int32_t all_and_back[] = {1073741823, -1073741823};
    replayed_line("to-zero", five_seven, 1, 0, -5, (QhReplayed){.sum = 0}, none);
    replayed_line("below-zero", LIST(five_nine), 0, -6, journal_change, NULL);
    replayed("unchanged", LIST(five_seven), LIST(first_second), LIST(last_below), journal_change, NULL);
    replayed_line("to-limit", LIST(nearly), 1, 1, (QhReplayed){.sum = 1073741823}, with_one);
    replayed_line("past-limit", LIST(nearly), 1, 2, journal_change, NULL);
    replayed("past-and-back", LIST(full), LIST(second_first), LIST(over_back), journal_change, NULL);
    replayed("moved-over", LIST(full), LIST(first_second), LIST(back_over), (QhReplayed){.sum = 1073741823}, with_one);
    replayed_line("0 to the limit", LIST(none), 0, 1073741823, (QhReplayed){.sum = 1073741823}, full);
    replayed_line("the limit to 0", full, 1, 0, -1073741823, (QhReplayed){.sum = 0}, none);
    replayed("to the limit and back", LIST(none), LIST(both_first), LIST(all_and_back), (QhReplayed){.sum = 0}, NULL);
    replayed_line("0 past the limit", LIST(none), 0, 1073741824, journal_change, NULL);
    replayed_line("the limit below 0", LIST(full), 0, -1073741824, journal_change, NULL);
    replayed_line("least-change of 0", LIST(none), 0, INT32_MIN, journal_change, NULL);
    replayed_line("least-change of the limit", full, 1, 0, INT32_MIN, journal_change, NULL);
    replayed("least-change at last", LIST(five_seven), LIST(first_second), LIST(last_least), journal_change, NULL);
    replayed_line("largest-change", LIST(none), 0, INT32_MAX, journal_change, NULL);
}

/* The sentences 1, 3, 25, 26 and 27, tested in this order. */
static void journal_faults(void) {
    const uint32_t large[] = {1073741823, 0, 1}, beyond[] = {3, 3};
    const int32_t below[] = {-9, 0};
    replayed("no entry", one, 0, beyond, 2, below, 1, (QhReplayed){.refusal = QH_REFUSED_LIST_LENGTH}, NULL);
    replayed("no entry, no line", one, 0, beyond, 0, below, 0, (QhReplayed){.refusal = QH_REFUSED_LIST_LENGTH}, NULL);
    replayed("a sum of 1,073,741,824", LIST(large), beyond, 2, below, 1, (QhReplayed){.refusal = QH_REFUSED_SUM}, NULL);
    replayed("two entries, one change", LIST(five_seven), beyond, 2, below, 1, journal_length, NULL);
    replayed("one entry, two changes", LIST(five_seven), beyond, 1, below, 2, journal_length, NULL);
    replayed("an entry, no change", LIST(five_seven), beyond, 1, below, 0, journal_length, NULL);
    replayed("no entry, a change", LIST(five_seven), beyond, 0, below, 1, journal_length, NULL);
    replayed("below 0 at first, outside at last", LIST(one), LIST(first_second), LIST(below), journal_entry, NULL);
    replayed("below 0 at first", LIST(one), LIST(both_first), LIST(below), journal_change, NULL);
    replayed_line("entry 2 of two", LIST(five_seven), 2, 1, journal_entry, NULL);
    replayed_line("entry 4,294,967,295", LIST(five_seven), UINT32_MAX, 1, journal_entry, NULL);
}

/* Journals and lists of the greatest length, and of one more. */
static void long_journals(void) {
    static uint32_t freqs[QH_MAX_ENTRIES + 1], last_seven[QH_MAX_ENTRIES], entries[QH_MAX_LINES + 1];
    static int32_t changes[QH_MAX_LINES + 1];
    const uint32_t counted[] = {QH_MAX_LINES};
    for (size_t i = 0; i < sizeof changes / sizeof *changes; i++) {
        changes[i] = 1;
    }
    replayed("65,536 lines", LIST(none), entries, QH_MAX_LINES, changes, QH_MAX_LINES,
             (QhReplayed){.sum = QH_MAX_LINES}, counted);
    changes[QH_MAX_LINES - 1] = -QH_MAX_LINES;
    replayed("65,536 lines, below 0 at last", LIST(none), entries, QH_MAX_LINES, changes, QH_MAX_LINES,
             journal_change, NULL);
    replayed("65,537 lines", LIST(none), LIST(entries), LIST(changes), journal_length, NULL);
    replayed("65,537 entries, 65,536 changes", LIST(none), LIST(entries), changes, QH_MAX_LINES, journal_length, NULL);
    replayed("65,536 entries, 65,537 changes", LIST(none), entries, QH_MAX_LINES, LIST(changes), journal_length, NULL);
    entries[QH_MAX_LINES - 1] = 1;
    replayed("65,536 lines, outside at last", LIST(none), entries, QH_MAX_LINES, changes, QH_MAX_LINES,
             journal_entry, NULL);
    last_seven[QH_MAX_ENTRIES - 1] = 7;
    replayed_line("entry 65,535 of 65,536", freqs, QH_MAX_ENTRIES, QH_MAX_ENTRIES - 1, 7,
                  (QhReplayed){.sum = 7}, last_seven);
    replayed_line("entry 65,536 of 65,536", freqs, QH_MAX_ENTRIES, QH_MAX_ENTRIES, 7, journal_entry, NULL);
    replayed_line("65,537 frequencies", LIST(freqs), QH_MAX_ENTRIES, 7,
                  (QhReplayed){.refusal = QH_REFUSED_LIST_LENGTH}, NULL);
}

static uint8_t page[QH_SHEET_BYTES];

/* Compares the first byte of the page that is not as expected, or else the last. */
static void sheet(const char *what, const char *input, const char *expected) {
    size_t length = strlen(expected), at = 0;
    memset(page, MARK, sizeof page);
    figure(what, "bytes", length, qh_sheet((const uint8_t *)input, strlen(input), page));
    while (at < sizeof page - 1 && page[at] == (at < length ? (uint8_t)expected[at] : MARK)) {
        at++;
    }
    figure_at(what, "byte", at, at < length ? (uint8_t)expected[at] : MARK, page[at]);
}

/* Document 01, "The exam sheet", and refusals of sheet_rules/specs/Worked.antt. */
static void sheets(void) {
    sheet("the sheet of 1, 100", "1\n3\n2\n1\n100\n",
          "codes 2 theta 1 q 3/2 buckets 1\nbucket 0 2 total 3232 101\n0 1 code 1 count 1\n1 2 code 14 count 93\n");
    sheet("the sheet of 0, 0, 0", "1\n3\n2\n0\n0\n0\n",
          "codes 3 theta 1 q 3/2 buckets 1\nbucket 0 3 total 0 0\n0 3 code 0 count 0\n");
    sheet("the sheet of q 124/100", "1\n124\n100\n1\n", "refused 5\n");
    sheet("the sheet of q 15/1", "1\n15\n1\n1\n100\n", "refused 24\n");
    sheet("the sheet of no entry", "1\n3\n2\n", "refused 18\n");
}

int main(void) {
    setvbuf(stdout, NULL, _IOLBF, BUFSIZ); /* no line is lost if a call crashes */
    counts();
    builds();
    verdicts();
    estimates();
    searches();
    worksheets();
    buckets();
    journals();
    journal_bounds();
    journal_faults();
    long_journals();
    sheets();
    printf("%zu passed, %zu failed\n", passed, failed);
    return failed != 0;
}
