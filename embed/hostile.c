/*
 * Calls the library with input that nobody should lend it. Each call must answer, or refuse by a known number with all
 * else 0, and must leave alone what it is not to write. All of it is done in the main thread and in one that has
 * QH_BUILD_STACK bytes of stack, and what calls none of qh_build, qh_sheet and qh_replay_journal also in one that has
 * QH_OTHER_STACK. The words and bytes that are read have just their length in memory: valgrind sees a step beyond.
 *
 * hostile [VOLUME]: the entries of the list that is built, and how many random inputs are tried.
 */
#define _DEFAULT_SOURCE /* MAP_ANONYMOUS */
#include <inttypes.h>
#include <pthread.h>
#include <qh.h>
#include <stdbool.h>
#include <stdio.h>
#include <stdlib.h>
#include <string.h>
#include <sys/mman.h>

#define GUARD 16 /* elements on each side of a list that is written */
#define MARK 0xA5

static size_t volume = 400;
static uint64_t state;               /* of the random numbers */
static uint64_t calls, refused, bad; /* of the group that runs */
static size_t passed, failed;        /* groups */

/* The good histogram that the groups start from, its list, and an input of the exam sheet for that list. */
static uint32_t *freqs, *words;
static size_t words_len, text_len;
static uint8_t *text;

static void *lent(size_t size) {
    void *list = malloc(size + (size == 0)); /* never null */
    if (list == NULL) {
        puts("no memory");
        exit(1);
    }
    return list;
}

static void *copied(const void *from, size_t size) {
    void *list = lent(size);
    memcpy(list, from, size);
    return list;
}

static uint32_t random_word(void) { /* xorshift64* */
    state ^= state >> 12;
    state ^= state << 25;
    state ^= state >> 27;
    return (uint32_t)((state * UINT64_C(2685821657736338717)) >> 32);
}

static void judge(const char *call, uint32_t refusal, bool as_said) {
    calls++;
    refused += refusal != 0;
    if (!as_said || (refusal != 0 && qh_sentence(refusal) == NULL)) {
        bad++;
        printf("FAIL: call %" PRIu64 ", %s: expected an answer, or a known refusal with all else 0, and nothing more"
               " written; got refusal %" PRIu32 " and not that\n", calls, call, refusal);
    }
}

static void try_numbers(uint32_t number) {
    QhCoded (*const coding[])(uint32_t) = {qh_class_of, qh_number_of_class, qh_code_of_total, qh_number_of_total};
    for (size_t i = 0; i < 4; i++) {
        QhCoded answer = coding[i](number);
        judge("a coding call", answer.refusal, answer.refusal == 0 || answer.value == 0);
    }
}

static void try_range(const uint32_t *list, size_t len, uint32_t x, uint32_t y) {
    QhEstimate answer = qh_estimate(list, len, x, y);
    judge("qh_estimate", answer.refusal, answer.refusal == 0 ? x <= y : answer.estimate == 0);
    QhFound found = qh_find(list, len, x);
    judge("qh_find", found.refusal, found.refusal == 0 ? found.at >= 4 && found.at + 5 <= len : found.at == 0);
}

/* Searches the first so many ends, compared with the sum of single calls. */
static void try_search(const uint32_t *list, size_t len, const uint32_t *ends, size_t number) {
    uint32_t *ranges = copied(ends, number * sizeof *ends);
    QhEstimate answer = qh_estimate_search(list, len, ranges, number);
    uint64_t sum = 0;
    bool single = true;
    for (size_t i = 0; answer.refusal == 0 && i + 1 < number; i += 2) {
        QhEstimate part = qh_estimate(list, len, ranges[i], ranges[i + 1]);
        single = single && part.refusal == 0 && (i == 0 || ranges[i - 1] <= ranges[i]);
        sum += part.estimate;
    }
    bool taken = number % 2 == 0 && number >= 2 && number <= 32 && single;
    judge("qh_estimate_search", answer.refusal, answer.estimate == sum && (answer.refusal != 0 || taken));
    free(ranges);
}

/* Searches of every length, in order and not, with the words for ranges among them. */
static void try_searches(const uint32_t *list, size_t len) {
    const uint32_t d = (uint32_t)volume;
    uint32_t ends[36];
    for (size_t i = 0; i < 36; i++) {
        ends[i] = i < 4 ? (uint32_t)i : d;
    }
    for (size_t n = 0; n <= 36; n++) {
        try_search(list, len, ends, n);
    }
    ends[35] = d + 1;
    try_search(list, len, ends, 36);
    ends[2] = 0;
    try_search(list, len, ends, 8);
    ends[7] = UINT32_MAX;
    try_search(list, len, ends, 8);
    ends[7] = random_word() % (d + 1);
    try_search(list, len, ends, 8);
    try_search(list, len, list, len);
}

static void try_check(const uint32_t *list, size_t list_len, const uint32_t *lent_words, size_t len) {
    QhVerdict v = qh_check(list, list_len, lent_words, len);
    bool sort = v.sort == QH_SORT_BUCKETLET || v.sort == QH_SORT_PART || v.sort == QH_SORT_BUCKET;
    bool range = sort && v.start < v.end && v.end <= list_len;
    bool none = v.sort == 0 && v.start == 0 && v.end == 0;
    bool fails = v.refusal == 0 && v.accepted == 0 && range;
    judge("qh_check", v.refusal, fails || (none && v.accepted == (v.refusal == 0)));
}

static bool marked(const void *from, const void *to) {
    const uint8_t *byte = from, *end = to;
    while (byte < end && *byte == MARK) {
        byte++;
    }
    return byte == end;
}

/* Lends a call places between guards, all marked. */
static uint64_t *lent_places(size_t len) {
    size_t size = (len + 2 * GUARD) * sizeof(uint64_t);
    uint64_t *block = lent(size);
    memset(block, MARK, size);
    return block + GUARD;
}

/* Whether of these places only the first are written. */
static bool kept(const uint64_t *out, size_t len, size_t written) {
    return written <= len && marked(out - GUARD, out) && marked(out + written, out + len + GUARD);
}

/* Answers a worksheet of the first so many ends, each answer compared with that of the single call. */
static void try_worksheet(const uint32_t *list, size_t len, const uint64_t *totals, size_t totals_len,
                          const uint32_t *ends, size_t number, size_t out_len) {
    uint32_t *sheet = copied(ends, number * sizeof *ends);
    uint64_t *out = lent_places(out_len);
    QhAnswered answer = qh_answer_worksheet(list, len, totals, totals_len, sheet, number, out, out_len);
    bool as_said = kept(out, out_len, answer.answers) && answer.answers == (answer.refusal == 0 ? number / 2 : 0);
    for (size_t i = 0; as_said && i < answer.answers; i++) {
        QhEstimate single = qh_estimate(list, len, sheet[2 * i], sheet[2 * i + 1]);
        as_said = single.refusal == 0 && single.estimate == out[i];
    }
    judge("qh_answer_worksheet", answer.refusal, as_said);
    free(sheet);
    free(out - GUARD);
}

/* Fills running totals into so many places, and answers worksheets with these and with wrong ones. */
static void try_totals(const uint32_t *list, size_t len, size_t out_len) {
    const uint32_t d = (uint32_t)volume, ends[] = {0, 1, 0, d, 1, d - 1, 3, 2}, beyond[] = {0, 1, d, UINT32_MAX};
    uint64_t *out = lent_places(out_len);
    QhFilled filled = qh_fill_totals(list, len, out, out_len);
    bool counted = filled.places == (filled.refusal == 0 ? (size_t)list[3] + 1 : 0);
    judge("qh_fill_totals", filled.refusal, counted && kept(out, out_len, filled.places));
    uint64_t *totals = copied(out, filled.places * sizeof *totals);
    for (size_t n = 0; n <= sizeof ends / sizeof *ends; n++) {
        try_worksheet(list, len, totals, filled.places, ends, n, n / 2);
    }
    try_worksheet(list, len, totals, filled.places, beyond, 4, 2);
    try_worksheet(list, len, totals, filled.places, ends, 6, 2);
    try_worksheet(list, len, out, out_len, ends, 6, 4); /* with the marks after them */
    if (filled.places > 0) {
        totals[random_word() % filled.places]++;
        try_worksheet(list, len, totals, filled.places, ends, 6, 3);
    }
    free(totals);
    free(out - GUARD);
}

/* Every call that takes words. */
static void try_words(const uint32_t *from, size_t len) {
    uint32_t *list = copied(from, len * sizeof *from);
    const uint32_t ends[] = {0, 1, (uint32_t)volume, (uint32_t)volume + 1, UINT32_MAX, random_word()};
    for (size_t i = 0; i < 6; i++) {
        try_range(list, len, ends[i], ends[5 - i]);
    }
    try_range(list, len, 0, (uint32_t)volume);
    try_searches(list, len);
    try_check(freqs, volume, list, len);
    try_check(list, len, list, len);
    try_totals(list, len, len / 5 + 1);
    try_totals(list, len, random_word() % 8);
    free(list);
}

/* Builds into a list between guards, and checks what was built. */
static void try_build(const uint32_t *list, size_t len, uint32_t theta, uint32_t qn, uint32_t qd, size_t out_len) {
    size_t size = (out_len + 2 * GUARD) * sizeof(uint32_t);
    uint32_t *block = lent(size), *out = block + GUARD;
    memset(block, MARK, size);
    QhBuilt built = qh_build(list, len, theta, qn, qd, out, out_len);
    bool kept = built.words <= out_len && marked(block, out) && marked(out + built.words, out + out_len + GUARD);
    judge("qh_build", built.refusal, kept && (built.refusal == 0) == (built.words > 0));
    if (built.refusal == 0) {
        QhVerdict verdict = qh_check(list, len, out, built.words);
        judge("qh_check of what was built", verdict.refusal, verdict.accepted == 1);
    }
    free(block);
}

static void try_sheet(const uint8_t *from, size_t len) {
    const size_t block_size = QH_SHEET_BYTES + 2 * GUARD;
    uint8_t *input = copied(from, len), *block = lent(block_size), *out = block + GUARD;
    memset(block, MARK, block_size);
    size_t size = qh_sheet(input, len, out);
    bool kept = size <= QH_SHEET_BYTES && marked(block, out) && marked(out + size, out + QH_SHEET_BYTES + GUARD);
    bool ended = kept && size > 0 && out[size - 1] == '\n';
    bool is_refused = ended && size > 8 && memcmp(out, "refused ", 8) == 0;
    judge("qh_sheet", is_refused ? (uint32_t)strtoul((char *)out + 8, NULL, 10) : 0, ended);
    free(input);
    free(block);
}

/* Replays a journal in 64 bits over a list, and says whether it is to be answered. */
static bool replays(int64_t *list, size_t len, const uint32_t *entries, size_t entries_len, const int32_t *changes,
                    size_t changes_len) {
    const int64_t limit = 1073741823;
    int64_t sum = 0;
    for (size_t i = 0; i < len; i++) {
        sum += list[i];
    }
    bool taken = len > 0 && len <= QH_MAX_ENTRIES && sum <= limit;
    taken = taken && entries_len <= QH_MAX_LINES && entries_len == changes_len;
    for (size_t i = 0; taken && i < entries_len; i++) {
        taken = entries[i] < len;
        if (taken) {
            list[entries[i]] += changes[i];
            sum += changes[i];
            taken = list[entries[i]] >= 0 && sum <= limit;
        }
    }
    return taken;
}

/* Whether a list has these frequencies and this sum. */
static bool holds(const uint32_t *list, size_t len, const int64_t *expected, uint32_t sum) {
    int64_t total = 0;
    bool same = true;
    for (size_t i = 0; i < len; i++) {
        same = same && list[i] == expected[i];
        total += list[i];
    }
    return same && total == sum;
}

/* Replays a journal over a copy of a list between guards. */
static void try_journal(const uint32_t *list, size_t len, const uint32_t *from, size_t entries_len,
                        const int32_t *from_changes, size_t changes_len) {
    size_t size = (len + 2 * GUARD) * sizeof *list;
    uint32_t *block = lent(size), *out = block + GUARD, *entries = copied(from, entries_len * sizeof *from);
    int32_t *changes = copied(from_changes, changes_len * sizeof *from_changes);
    int64_t *expected = lent(len * sizeof *expected);
    for (size_t i = 0; i < len; i++) {
        expected[i] = list[i];
    }
    bool taken = replays(expected, len, entries, entries_len, changes, changes_len);
    memset(block, MARK, size);
    memcpy(out, list, len * sizeof *list);
    QhReplayed answer = qh_replay_journal(out, len, entries, entries_len, changes, changes_len);
    bool kept = marked(block, out) && marked(out + len, out + len + GUARD);
    bool unchanged = answer.sum == 0 && memcmp(out, list, len * sizeof *list) == 0;
    bool as_said = answer.refusal == 0 ? taken && holds(out, len, expected, answer.sum) : !taken && unchanged;
    judge("qh_replay_journal", answer.refusal, kept && as_said);
    free(block);
    free(entries);
    free(changes);
    free(expected);
}

/* Copies a list to memory of which only the first elements can be written: a call that writes another ends the program.
 * Memory goes by the page, so that a few after them can be written too. */
static uint32_t *partly_writable(const uint32_t *from, size_t len, size_t writable) {
    size_t size = len * sizeof *from;
    void *list = mmap(NULL, size, PROT_READ | PROT_WRITE, MAP_PRIVATE | MAP_ANONYMOUS, -1, 0);
    if (list != MAP_FAILED) {
        memcpy(list, from, size);
    }
    if (list == MAP_FAILED || mprotect(list, size, PROT_READ) != 0 ||
        mprotect(list, writable * sizeof *from, PROT_READ | PROT_WRITE) != 0) {
        puts("no memory that cannot be written");
        exit(1);
    }
    return list;
}

static uint32_t *unwritable(const uint32_t *from, size_t len) {
    return partly_writable(from, len, 0);
}

/* Replays a journal that is refused by a number, or that has no lines and the number 0, over a list as it is lent. */
static void try_unchanged(uint32_t *list, size_t len, const uint32_t *entries, size_t entries_len,
                          const int32_t *changes, size_t changes_len, uint32_t refusal) {
    uint32_t sum = 0;
    for (size_t i = 0; refusal == 0 && i < len; i++) {
        sum += list[i];
    }
    QhReplayed answer = qh_replay_journal(list, len, entries, entries_len, changes, changes_len);
    judge("qh_replay_journal that changes nothing", answer.refusal, answer.refusal == refusal && answer.sum == sum);
}

static void numbers(void) {
    for (uint32_t bit = 0; bit < 32; bit++) {
        for (uint32_t more = 0; more < 3; more++) {
            try_numbers((UINT32_C(1) << bit) + more - 1);
        }
    }
    for (size_t i = 0; i < volume; i++) {
        try_numbers(random_word());
        try_numbers(random_word() >> 20);
    }
}

static void empty_list(uint32_t *list, int32_t *changes, uint64_t *places, uint8_t *bytes) {
    const int32_t change = 1;
    uint8_t *out = lent(QH_SHEET_BYTES);
    QhBuilt built = qh_build(list, 0, 1, 3, 2, list, 0);
    judge("qh_build of no list", built.refusal, built.refusal == QH_REFUSED_LIST_LENGTH && built.words == 0);
    built = qh_build(freqs, volume, 1, 3, 2, list, 0);
    judge("qh_build into no list", built.refusal, built.refusal == QH_REFUSED_ROOM && built.words == 0);
    try_check(list, 0, list, 0);
    try_check(list, 0, words, words_len);
    try_check(freqs, volume, list, 0);
    try_range(list, 0, 0, 0);
    QhEstimate searched = qh_estimate_search(list, 0, list, 0);
    judge("qh_estimate_search of no list", searched.refusal,
          searched.refusal == QH_REFUSED_HEAD && searched.estimate == 0);
    searched = qh_estimate_search(words, words_len, list, 0);
    judge("qh_estimate_search of no range", searched.refusal,
          searched.refusal == QH_REFUSED_RANGE_COUNT && searched.estimate == 0);
    QhFilled filled = qh_fill_totals(words, words_len, places, 0);
    judge("qh_fill_totals into no list", filled.refusal, filled.refusal == QH_REFUSED_PLACES && filled.places == 0);
    QhAnswered answer = qh_answer_worksheet(list, 0, places, 0, list, 0, places, 0);
    judge("qh_answer_worksheet of no list", answer.refusal, answer.refusal == QH_REFUSED_HEAD && answer.answers == 0);
    answer = qh_answer_worksheet(words, words_len, places, 0, list, 0, places, 0);
    judge("qh_answer_worksheet with no list", answer.refusal, answer.refusal == QH_REFUSED_PLACES && answer.answers == 0);
    uint64_t *totals = lent(words_len * sizeof *totals);
    filled = qh_fill_totals(words, words_len, totals, words_len);
    answer = qh_answer_worksheet(words, words_len, totals, filled.places, list, 0, places, 0);
    judge("qh_answer_worksheet of no range", answer.refusal, answer.refusal == 0 && answer.answers == 0);
    free(totals);
    uint32_t *fixed = unwritable(freqs, volume);
    try_unchanged(list, 0, list, 0, changes, 0, QH_REFUSED_LIST_LENGTH);
    try_unchanged(list, 0, freqs, 1, &change, 1, QH_REFUSED_LIST_LENGTH);
    try_unchanged(fixed, volume, freqs, 1, changes, 0, QH_REFUSED_JOURNAL_LENGTH);
    try_unchanged(fixed, volume, list, 0, &change, 1, QH_REFUSED_JOURNAL_LENGTH);
    try_unchanged(fixed, volume, list, 0, changes, 0, 0);
    munmap(fixed, volume * sizeof *fixed);
    bool is_refused = qh_sheet(bytes, 0, out) == 11 && memcmp(out, "refused 18\n", 11) == 0;
    judge("qh_sheet of no input", QH_REFUSED_INPUT, is_refused);
    free(out);
}

static void empty_lists(void) {
    void *list = lent(0);
    empty_list((uint32_t *)list, (int32_t *)list, (uint64_t *)list, (uint8_t *)list);
    free(list);
}

static void null_lists(void) {
    empty_list(NULL, NULL, NULL, NULL);
}

static void ranges(void) {
    const uint32_t d = (uint32_t)volume;
    const uint32_t ends[] = {0, 1, 2, d / 2, d - 1, d, d + 1, 65535, 65536, UINT32_C(1) << 31, UINT32_MAX};
    for (size_t i = 0; i < sizeof ends / sizeof *ends; i++) {
        for (size_t j = 0; j < sizeof ends / sizeof *ends; j++) {
            try_range(words, words_len, ends[i], ends[j]);
        }
    }
}

static uint32_t *random_list(size_t len) {
    uint32_t *list = lent(len * sizeof *list);
    for (size_t i = 0; i < len; i++) {
        list[i] = random_word() >> (random_word() % 32);
    }
    return list;
}

static void random_words(void) {
    for (size_t i = 0; i < volume; i++) {
        size_t len = random_word() % 64;
        uint32_t *list = random_list(len);
        try_words(list, len);
        free(list);
    }
}

static void random_frequencies(void) {
    for (size_t i = 0; i < volume; i++) {
        size_t len = random_word() % 64;
        uint32_t *list = random_list(len);
        try_build(list, len, 1, 3, 2, len);
        free(list);
    }
}

static void prefixes(void) {
    for (size_t len = 0; len <= words_len; len++) {
        try_words(words, len);
    }
}

static void bits(void) {
    for (size_t i = 0; i < 32 * words_len; i++) {
        words[i / 32] ^= UINT32_C(1) << i % 32;
        try_words(words, words_len);
        words[i / 32] ^= UINT32_C(1) << i % 32;
    }
}

static void lent_lengths(void) {
    for (size_t len = 0; len <= words_len + 1; len++) {
        try_build(freqs, volume, 4, 2, 1, len);
    }
}

static void qualities(void) {
    const uint32_t values[] = {0, 1, 3, 8, 125, 1000, 1001, 1048575, 1048576, UINT32_MAX};
    const size_t n = sizeof values / sizeof *values;
    for (size_t i = 0; i < n * n * n; i++) {
        try_build(freqs, volume < 64 ? volume : 64, values[i / n / n], values[i / n % n], values[i % n], QH_WORDS_FOR(64));
    }
}

#define LONG_LEN ((size_t)QH_MAX_ENTRIES + 1)

static uint32_t *long_list(uint32_t value) {
    uint32_t *list = lent(LONG_LEN * sizeof *list);
    for (size_t i = 0; i < LONG_LEN; i++) {
        list[i] = value;
    }
    return list;
}

static const uint32_t long_values[] = {0, 1, 16384, UINT32_C(0xC0000000), UINT32_MAX};

static void long_lists(void) {
    for (size_t v = 0; v < sizeof long_values / sizeof *long_values; v++) {
        uint32_t *list = long_list(long_values[v]);
        try_check(list, LONG_LEN, list, LONG_LEN);
        try_check(list, LONG_LEN - 1, list, LONG_LEN);
        try_range(list, LONG_LEN, 0, UINT32_MAX);
        memcpy(list, words, words_len * sizeof *list);
        try_check(freqs, volume, list, LONG_LEN);
        try_range(list, LONG_LEN, 0, 1);
        try_totals(list, LONG_LEN, 8);
        free(list);
    }
}

static void long_frequencies(void) {
    for (size_t v = 0; v < sizeof long_values / sizeof *long_values; v++) {
        uint32_t *list = long_list(long_values[v]);
        try_build(list, LONG_LEN, 64, 2, 1, QH_WORDS_FOR(LONG_LEN));
        for (size_t i = 0; i < LONG_LEN; i++) {
            list[i] = 1 + random_word() % 1000;
        }
        try_build(list, LONG_LEN, 64, 2, 1, QH_WORDS_FOR(LONG_LEN));
        try_build(list, LONG_LEN - 1, 64, 2, 1, QH_WORDS_FOR(LONG_LEN - 1));
        free(list);
    }
}

/* Fills in lines that lists of so many large frequencies take, and now and then one with any entry or any change. */
static void fill_lines(uint32_t *entries, int32_t *changes, size_t lines, size_t len) {
    for (size_t i = 0; i < lines; i++) {
        bool any_entry = len == 0 || random_word() % 256 == 0, any_change = random_word() % 256 == 0;
        entries[i] = any_entry ? random_word() >> random_word() % 32 : random_word() % (uint32_t)len;
        changes[i] = any_change ? (int32_t)random_word() : (int32_t)(random_word() % 64) - 32;
    }
}

static void random_journals(void) {
    uint32_t entries[64];
    int32_t changes[64];
    for (size_t i = 0; i < volume; i++) {
        size_t len = random_word() % 64, lines = random_word() % 64;
        uint32_t *list = random_list(len);
        fill_lines(entries, changes, 64, len);
        try_journal(list, len, entries, lines, changes, lines); /* mostly 3 */
        for (size_t j = 0; j < len; j++) {
            list[j] = 256 + list[j] % 4096;
        }
        try_journal(list, len, entries, lines, changes, lines);
        try_journal(list, len, entries, lines, changes, random_word() % 64);
        free(list);
    }
}

/* Two lines of one or two entries, one of them perhaps outside the list. */
static void extreme_journals(void) {
    const int32_t values[] = {INT32_MIN, INT32_MIN + 1, -1073741824, -1073741823, -1, 0,
                              1, 1073741823, 1073741824, INT32_MAX};
    const uint32_t frequencies[] = {0, 1, 1073741822, 1073741823, 1073741824, UINT32_MAX};
    const uint32_t ends[] = {0, 1, 2, UINT32_MAX};
    const size_t n = sizeof values / sizeof *values;
    for (size_t i = 0; i < 6 * 4 * n * n; i++) {
        const uint32_t list[] = {frequencies[i / n / n / 4], 0}, entries[] = {0, ends[i / n / n % 4]};
        const int32_t changes[] = {values[i / n % n], values[i % n]};
        try_journal(list, 2, entries, 2, changes, 2);
    }
}

static void journals(void) {
    uint32_t *list = lent(volume * sizeof *list), *entries = lent(volume * sizeof *entries);
    int32_t *changes = lent(volume * sizeof *changes);
    for (size_t i = 0; i < volume; i++) {
        list[i] = 4096;
        entries[i] = random_word() % (uint32_t)volume;
        changes[i] = (int32_t)(random_word() % 64) - 32;
    }
    for (size_t lines = 0; lines <= volume; lines++) {
        try_journal(list, volume, entries, lines, changes, lines);
        try_journal(list, volume, entries, lines, changes, volume - lines);
        try_journal(list, lines, entries, volume, changes, volume);
    }
    for (size_t i = 0; i < 32 * volume; i++) {
        const uint32_t bit = UINT32_C(1) << i % 32;
        entries[i / 32] ^= bit;
        try_journal(list, volume, entries, volume, changes, volume);
        entries[i / 32] ^= bit;
        changes[i / 32] ^= (int32_t)bit;
        try_journal(list, volume, entries, volume, changes, volume);
        changes[i / 32] ^= (int32_t)bit;
    }
    free(list);
    free(entries);
    free(changes);
}

#define LONG_JOURNAL ((size_t)QH_MAX_LINES + 1)

static void long_journals(void) {
    uint32_t *entries = lent(LONG_JOURNAL * sizeof *entries);
    int32_t *changes = lent(LONG_JOURNAL * sizeof *changes);
    for (size_t v = 0; v < sizeof long_values / sizeof *long_values; v++) {
        uint32_t *list = long_list(long_values[v]);
        for (size_t i = 0; i < LONG_JOURNAL; i++) {
            entries[i] = random_word() % QH_MAX_ENTRIES;
            changes[i] = (int32_t)(random_word() % 8);
        }
        for (size_t len = LONG_LEN - 2; len <= LONG_LEN; len++) {
            for (size_t lines = LONG_JOURNAL - 2; lines <= LONG_JOURNAL; lines++) {
                try_journal(list, len, entries, lines, changes, lines);
                try_journal(list, len, entries, lines, changes, LONG_JOURNAL - 1);
            }
        }
        changes[LONG_JOURNAL - 2] = INT32_MIN;
        try_journal(list, LONG_LEN - 1, entries, LONG_JOURNAL - 1, changes, LONG_JOURNAL - 1);
        entries[LONG_JOURNAL - 2] = QH_MAX_ENTRIES;
        try_journal(list, LONG_LEN - 1, entries, LONG_JOURNAL - 1, changes, LONG_JOURNAL - 1);
        free(list);
    }
    free(entries);
    free(changes);
}

/* Journals that are refused, some for their last line, and one without lines: nothing is written on the way either. */
static void unwritable_lists(void) {
    const uint32_t last = (uint32_t)volume - 1, entries[] = {0, last, 0, 1, last}, beyond[] = {0, last, 0, 1, last + 1};
    const int32_t changes[] = {5, 3, -5, 2, -3}, below[] = {5, 3, -5, 2, -1000}, above[] = {5, 3, -5, 2, 1073741823};
    uint32_t *fixed = unwritable(freqs, volume);
    try_unchanged(fixed, volume, entries, 0, changes, 0, 0);
    try_unchanged(fixed, volume, entries, 5, changes, 4, QH_REFUSED_JOURNAL_LENGTH);
    try_unchanged(fixed, volume, entries, 4, changes, 5, QH_REFUSED_JOURNAL_LENGTH);
    try_unchanged(fixed, volume, beyond, 5, changes, 5, QH_REFUSED_JOURNAL_ENTRY);
    try_unchanged(fixed, volume, entries, 5, below, 5, QH_REFUSED_JOURNAL_CHANGE);
    try_unchanged(fixed, volume, entries, 5, above, 5, QH_REFUSED_JOURNAL_CHANGE);
    munmap(fixed, volume * sizeof *fixed);
}

/* The same of long lists and journals. With 16,384 each, 65,536 frequencies are one too many for the sum. */
static void long_unwritable_lists(void) {
    const size_t len = LONG_LEN - 2, lines = LONG_JOURNAL - 1;
    uint32_t *list = long_list(16384), *fixed = unwritable(list, LONG_LEN);
    uint32_t *entries = lent(LONG_JOURNAL * sizeof *entries);
    int32_t *changes = lent(LONG_JOURNAL * sizeof *changes);
    for (size_t i = 0; i < LONG_JOURNAL; i++) {
        entries[i] = random_word() % (uint32_t)len;
        changes[i] = i % 2 == 0 ? 1 : -1;
    }
    try_unchanged(fixed, LONG_LEN, entries, lines, changes, lines, QH_REFUSED_LIST_LENGTH);
    try_unchanged(fixed, LONG_LEN - 1, entries, lines, changes, lines, QH_REFUSED_SUM);
    try_unchanged(fixed, len, entries, 0, changes, 0, 0);
    try_unchanged(fixed, len, entries, LONG_JOURNAL, changes, LONG_JOURNAL, QH_REFUSED_JOURNAL_LENGTH);
    changes[lines - 1] = INT32_MIN;
    try_unchanged(fixed, len, entries, lines, changes, lines, QH_REFUSED_JOURNAL_CHANGE);
    entries[lines - 1] = (uint32_t)len;
    try_unchanged(fixed, len, entries, lines, changes, lines, QH_REFUSED_JOURNAL_ENTRY);
    munmap(fixed, LONG_LEN * sizeof *fixed);
    free(list);
    free(entries);
    free(changes);
}

/* What a length alone refuses: no frequency is read for 1, and no line for 25. A call that reads one ends the program. */
static void unreadable_lists(void) {
    const size_t size = LONG_LEN * sizeof(uint32_t);
    void *hidden = mmap(NULL, size, PROT_NONE, MAP_PRIVATE | MAP_ANONYMOUS, -1, 0);
    if (hidden == MAP_FAILED) {
        puts("no memory that cannot be read");
        exit(1);
    }
    uint32_t *entries = hidden;
    int32_t *changes = hidden;
    try_unchanged(hidden, 0, entries, 5, changes, 5, QH_REFUSED_LIST_LENGTH);
    try_unchanged(hidden, LONG_LEN, entries, 5, changes, 4, QH_REFUSED_LIST_LENGTH);
    try_unchanged(freqs, volume, entries, LONG_JOURNAL, changes, LONG_JOURNAL, QH_REFUSED_JOURNAL_LENGTH);
    try_unchanged(freqs, volume, entries, LONG_JOURNAL, changes, 1, QH_REFUSED_JOURNAL_LENGTH);
    try_unchanged(freqs, volume, entries, 5, changes, 4, QH_REFUSED_JOURNAL_LENGTH);
    try_unchanged(freqs, volume, entries, 4, changes, 5, QH_REFUSED_JOURNAL_LENGTH);
    munmap(hidden, size);
}

/* Journals that are answered, one after the other: only the entries that their lines name are written. */
static void partly_writable_list(void) {
    const size_t len = LONG_LEN - 1;
    uint32_t *list = long_list(100), *fixed = partly_writable(list, len, volume);
    uint32_t *entries = lent(volume * sizeof *entries);
    int32_t *changes = lent(volume * sizeof *changes);
    int64_t *expected = lent(len * sizeof *expected);
    for (size_t i = 0; i < len; i++) {
        expected[i] = list[i];
    }
    for (size_t journal = 0; journal < 8; journal++) {
        for (size_t i = 0; i < volume; i++) {
            entries[i] = random_word() % (uint32_t)volume;
            changes[i] = (int32_t)(random_word() % 8) - 3;
        }
        bool taken = replays(expected, len, entries, volume, changes, volume);
        QhReplayed answer = qh_replay_journal(fixed, len, entries, volume, changes, volume);
        bool as_said = answer.refusal == 0 && taken && holds(fixed, len, expected, answer.sum);
        judge("qh_replay_journal where it may write", answer.refusal, as_said);
    }
    munmap(fixed, len * sizeof *fixed);
    free(list);
    free(entries);
    free(changes);
    free(expected);
}

static void sheets(void) {
    for (size_t len = 0; len <= text_len; len++) {
        try_sheet(text, len);
    }
    for (size_t i = 0; i < 8 * text_len; i++) {
        text[i / 8] ^= (uint8_t)(1 << i % 8);
        try_sheet(text, text_len);
        text[i / 8] ^= (uint8_t)(1 << i % 8);
    }
}

static void random_bytes(void) {
    for (size_t i = 0; i < volume; i++) {
        size_t len = random_word() % 64;
        uint8_t *input = lent(len);
        for (size_t j = 0; j < len; j++) {
            input[j] = (uint8_t)(i % 2 ? random_word() : (uint32_t)"0123456789\n\n"[random_word() % 12]);
        }
        try_sheet(input, len);
        free(input);
    }
}

typedef struct {
    const char *name;
    size_t stack; /* 0: what the system gives */
} Thread;

static void *run(void *of) {
    const Thread *thread = of;
    const struct {
        const char *name;
        void (*run)(void);
        bool deep; /* calls qh_build, qh_sheet or qh_replay_journal */
    } groups[] = {
        {"numbers to be coded or read", numbers, false},
        {"empty lists", empty_lists, true},
        {"null pointers with length 0", null_lists, true},
        {"ranges and entries beyond the list", ranges, false},
        {"random words", random_words, false},
        {"random frequencies", random_frequencies, true},
        {"every prefix of a histogram", prefixes, false},
        {"a histogram with every bit turned", bits, false},
        {"lent lists of every length", lent_lengths, true},
        {"theta and q", qualities, true},
        {"lists that are too long", long_lists, false},
        {"frequencies up to the longest list and beyond", long_frequencies, true},
        {"journals of random lines", random_journals, true},
        {"journals of extreme changes", extreme_journals, true},
        {"every prefix of a journal, and every bit turned", journals, true},
        {"journals up to the most lines and beyond", long_journals, true},
        {"journals over lists that cannot be written", unwritable_lists, true},
        {"long journals over lists that cannot be written", long_unwritable_lists, true},
        {"lists and journals that cannot be read", unreadable_lists, true},
        {"journals over a list of which a part cannot be written", partly_writable_list, true},
        {"every prefix of a sheet's input, and every bit turned", sheets, true},
        {"a sheet of random bytes", random_bytes, true},
    };
    for (size_t i = 0; i < sizeof groups / sizeof *groups; i++) {
        if (groups[i].deep && thread->stack == QH_OTHER_STACK) {
            continue;
        }
        state = i + 1;
        calls = refused = bad = 0;
        groups[i].run();
        passed += bad == 0;
        failed += bad != 0;
        printf("%s: %s, %s: %" PRIu64 " calls, %" PRIu64 " refused\n", bad == 0 ? "ok" : "FAIL", thread->name,
               groups[i].name, calls, refused);
    }
    return NULL;
}

static void run_apart(Thread *thread) {
    pthread_attr_t attributes;
    pthread_t id;
    if (pthread_attr_init(&attributes) != 0 || pthread_attr_setstacksize(&attributes, thread->stack) != 0 ||
        pthread_create(&id, &attributes, run, thread) != 0 || pthread_join(id, NULL) != 0) {
        printf("FAIL: no thread with %s\n", thread->name);
        failed++;
    }
}

static void prepare(void) {
    freqs = lent(volume * sizeof *freqs);
    text = lent(8 + 2 * volume);
    text_len = (size_t)sprintf((char *)text, "4\n2\n1\n");
    for (size_t i = 0; i < volume; i++) {
        freqs[i] = 1 + (random_word() % 64) / 8;
        text_len += (size_t)sprintf((char *)text + text_len, "%" PRIu32 "\n", freqs[i]);
    }
    uint32_t *out = lent(QH_WORDS_FOR(volume) * sizeof *out);
    words_len = qh_build(freqs, volume, 4, 2, 1, out, QH_WORDS_FOR(volume)).words;
    words = copied(out, words_len * sizeof *out);
    free(out);
}

int main(int count, char **arguments) {
    setvbuf(stdout, NULL, _IOLBF, BUFSIZ); /* no line is lost if a call crashes */
    if (count > 1) {
        volume = strtoul(arguments[1], NULL, 10);
    }
    if (volume < 8 || volume > 4096) {
        puts("VOLUME is 8 to 4096");
        return 1;
    }
    state = 1;
    prepare();

    Thread main_thread = {"main thread", 0};
    Thread building = {"QH_BUILD_STACK", QH_BUILD_STACK}, other = {"QH_OTHER_STACK", QH_OTHER_STACK};
    run(&main_thread);
    run_apart(&building);
    run_apart(&other);
    free(freqs);
    free(words);
    free(text);
    printf("%zu passed, %zu failed\n", passed, failed);
    return failed != 0;
}
