/* Builds the histogram of a list of four entries, checks it, estimates three ranges, one by one and as a worksheet, and
 * a search of two, finds a bucket, and replays a journal over the list. */
#include <inttypes.h>
#include <qh.h>
#include <stdio.h>

#define ENTRIES 4

static int refused(const char *call, uint32_t refusal) {
    if (refusal != 0) {
        printf("%s is refused with %" PRIu32 ": %s\n", call, refusal, qh_sentence(refusal));
    }
    return refusal != 0;
}

int main(void) {
    uint32_t freqs[ENTRIES] = {10, 10, 10, 10};
    const uint32_t ranges[] = {1, 3, 0, 3, 0, 4}; /* two numbers each */
    const uint32_t forms[] = {0, 1, 2, 4};        /* in order and apart */
    const uint32_t entries[] = {3, 0};            /* of the lines of a journal, with their changes */
    const int32_t changes[] = {-10, 4};
    uint32_t words[QH_WORDS_FOR(ENTRIES)];
    uint64_t totals[QH_TOTALS_FOR(ENTRIES)], answers[3];

    QhBuilt built = qh_build(freqs, ENTRIES, 1, 3, 2, words, QH_WORDS_FOR(ENTRIES));
    if (refused("qh_build", built.refusal)) {
        return 1;
    }
    printf("%zu words\n", built.words);

    QhVerdict verdict = qh_check(freqs, ENTRIES, words, built.words);
    if (refused("qh_check", verdict.refusal)) {
        return 1;
    }
    printf("%s\n", verdict.accepted ? "accepted" : "not accepted");

    for (int i = 0; i < 6; i += 2) {
        QhEstimate answer = qh_estimate(words, built.words, ranges[i], ranges[i + 1]);
        if (refused("qh_estimate", answer.refusal)) {
            return 1;
        }
        printf("%" PRIu32 " to %" PRIu32 ": %" PRIu64 "\n", ranges[i], ranges[i + 1], answer.estimate);
    }

    QhEstimate search = qh_estimate_search(words, built.words, forms, 4);
    if (refused("qh_estimate_search", search.refusal)) {
        return 1;
    }
    printf("0 to 1 and 2 to 4 together: %" PRIu64 "\n", search.estimate);

    QhFilled filled = qh_fill_totals(words, built.words, totals, QH_TOTALS_FOR(ENTRIES));
    if (refused("qh_fill_totals", filled.refusal)) {
        return 1;
    }
    QhAnswered sheet = qh_answer_worksheet(words, built.words, totals, filled.places, ranges, 6, answers, 3);
    if (refused("qh_answer_worksheet", sheet.refusal)) {
        return 1;
    }
    printf("as a worksheet: %" PRIu64 " %" PRIu64 " %" PRIu64 "\n", answers[0], answers[1], answers[2]);

    QhFound found = qh_find(words, built.words, 3);
    if (refused("qh_find", found.refusal)) {
        return 1;
    }
    printf("the bucket of entry 3 begins with word %zu, %" PRIX32 "\n", found.at, words[found.at]);

    QhReplayed replayed = qh_replay_journal(freqs, ENTRIES, entries, 2, changes, 2);
    if (refused("qh_replay_journal", replayed.refusal)) {
        return 1;
    }
    printf("after the journal:");
    for (int i = 0; i < ENTRIES; i++) {
        printf(" %" PRIu32, freqs[i]);
    }
    printf(", together %" PRIu32 "\n", replayed.sum);
    return 0;
}
