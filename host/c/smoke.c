/*
 * The ten functions from C, each of them served and refused. From host/:
 *
 *   gcc -std=c11 -Wall -Wextra -O2 -I. c/smoke.c ../target/staticlib/libabi.a -o c/smoke && c/smoke
 *
 * or c/smoke.sh.
 */
#include "kavtziron.h"

#include <inttypes.h>
#include <stdio.h>
#include <string.h>

static int failed;

static void check(const char *what, int64_t got, int64_t wanted) {
    if (got != wanted) {
        printf("FAILED %s: %" PRId64 ", not %" PRId64 "\n", what, got, wanted);
        failed = 1;
    }
}

static void check_text(const char *what, const uint8_t *bytes, int64_t length, const char *wanted) {
    size_t count = strlen(wanted);
    int same = length == (int64_t)count;
    for (size_t at = 0; same && at < count; at++) {
        same = (bytes[at] & 0x7F) == wanted[at] && __builtin_popcount(bytes[at]) % 2 == 0;
    }
    if (!same) {
        printf("FAILED %s: not %s\n", what, wanted);
        failed = 1;
    }
}

static void check_cause(const char *what, const int32_t *cause, int32_t code, int32_t position) {
    if (cause[0] != code || cause[1] != position) {
        printf("FAILED cause of %s: %" PRId32 " at %" PRId32 ", not %" PRId32 " at %" PRId32 "\n", what,
               cause[0], cause[1], code, position);
        failed = 1;
    }
}

static size_t words_of(const char *text, uint16_t *words) {
    size_t at = 0;
    for (; text[at]; at++) {
        uint8_t character = (uint8_t)text[at];
        words[at] = (uint16_t)(character | (__builtin_popcount(character) % 2) << 7);
    }
    return at;
}

static size_t bytes_of(const char *text, uint8_t *bytes) {
    uint16_t words[64];
    size_t length = words_of(text, words);
    for (size_t at = 0; at < length; at++) {
        bytes[at] = (uint8_t)words[at];
    }
    return length;
}

int main(void) {
    const int32_t bench[] = {
        'J', 2, 1, 5, -100, 100,
        'M', 1, 1, 1, -1999, 9999,
        'Z', 3, 0, 1, 15, 18,
        'm', 2, 1, 5, 0, 1000,
    };
    const size_t bench_length = sizeof bench / sizeof *bench;
    const int32_t maker[1] = {0};
    int32_t values[KAV_VALUES] = {0};
    int32_t card[KAV_CARD] = {'L', 7, [22] = 1};
    uint16_t words[64];
    uint16_t normal[64];
    uint8_t out[64];
    uint64_t counts[2];
    int32_t cause[KAV_CAUSE + 1] = {-77, -77, -77};

    values['M'] = 231;
    values['Z'] = 15;
    values['m'] = 20;

    /* Bench case e, with an address of two digits before and a message for another card between. */
    size_t length = words_of("xL07m#00231*R7??*L7mI*", words);
    check("run", kav_run(card, KAV_CARD, bench, bench_length, maker, 0, values, KAV_VALUES,
                         words, length, out, sizeof out, counts, 2), 0);
    check("words taken", (int64_t)counts[0], (int64_t)length);
    check_text("replies", out, (int64_t)counts[1], "L7m00201I*L7m00201A*");
    check("run with a short card",
          kav_run(card, KAV_CARD - 1, bench, bench_length, maker, 0, values, KAV_VALUES,
                  words, length, out, sizeof out, counts, 2), -1);
    check("run with short counts",
          kav_run(card, KAV_CARD, bench, bench_length, maker, 0, values, KAV_VALUES,
                  words, length, out, sizeof out, counts, 1), -5);

    /* Bench case c, word by word. */
    length = words_of("L7m+*", words);
    int64_t replied = 0;
    for (size_t at = 0; at < length; at++) {
        replied = kav_step(card, KAV_CARD, bench, bench_length, maker, 0, values, KAV_VALUES,
                           words[at], out, sizeof out, cause, 3);
        check("step", replied, at + 1 < length ? 0 : 10);
        check_cause("step", cause, at + 1 < length ? KAV_CAUSE_NOT_CLOSED : KAV_CAUSE_NONE, 0);
        check("the number behind the cause", cause[2], -77);
    }
    check_text("reply", out, replied, "L7m00251A*");
    check("value", values['m'], 25);
    cause[0] = cause[1] = -77;
    check("step with a part of a sheet",
          kav_step(card, KAV_CARD, bench, bench_length - 1, maker, 0, values, KAV_VALUES,
                   KAV_SILENCE, out, sizeof out, cause, KAV_CAUSE), -2);
    check("step with 127 values",
          kav_step(card, KAV_CARD, bench, bench_length, maker, 0, values, KAV_VALUES - 1,
                   KAV_SILENCE, out, sizeof out, cause, KAV_CAUSE), -3);
    check("step with no word",
          kav_step(card, KAV_CARD, bench, bench_length, maker, 0, values, KAV_VALUES,
                   257, out, sizeof out, cause, KAV_CAUSE), -4);
    check("step with little room",
          kav_step(card, KAV_CARD, bench, bench_length, maker, 0, values, KAV_VALUES,
                   KAV_SILENCE, out, KAV_REPLY - 1, cause, KAV_CAUSE), -5);
    check("step with a short cause",
          kav_step(card, KAV_CARD, bench, bench_length, maker, 0, values, KAV_VALUES,
                   KAV_SILENCE, out, sizeof out, cause, KAV_CAUSE - 1), -5);
    check_cause("refused steps", cause, -77, -77);

    /* Why a message drew 'N' or silence, each at a card afresh, then one with a scan. */
    const struct {
        const char *sent;
        int32_t code, position;
    } causes[] = {
        {"L7m?*", KAV_CAUSE_NONE, 0},
        {"L7a?*", KAV_CAUSE_IDENTIFIER, 0},
        {"L7]+*", KAV_CAUSE_IDENTIFIER, 0},
        {"L7M+*", KAV_CAUSE_ACCESS, 0},
        {"L7m#00230*", KAV_CAUSE_DECIMALS, 0},
        {"L7J#00006*", KAV_CAUSE_NONE, 0},
        {"L7Z#00005*", KAV_CAUSE_RANGE, 0},
        {"L7m#10031*", KAV_CAUSE_RANGE, 0},
        {"L7J-*", KAV_CAUSE_LIMIT, 0},
        {"L8m?*", KAV_CAUSE_OTHER_CARD, 0},
        {"L7]I*", KAV_CAUSE_NO_OFFER, 0},
        {"L7m?", KAV_CAUSE_NOT_CLOSED, 0},
        {"L0??*", KAV_CAUSE_NOT_WELL_FORMED, 2},
        {"L8M!*", KAV_CAUSE_NOT_WELL_FORMED, 3},
        {"L7m#00304*", KAV_CAUSE_NOT_WELL_FORMED, 8},
    };
    int32_t at_limit[KAV_VALUES];
    memcpy(at_limit, values, sizeof values);
    at_limit['J'] = -100;
    for (size_t which = 0; which < sizeof causes / sizeof *causes; which++) {
        int32_t fresh[KAV_CARD] = {'L', 7, [22] = 1};
        length = words_of(causes[which].sent, words);
        for (size_t at = 0; at < length; at++) {
            replied = kav_step(fresh, KAV_CARD, bench, bench_length, maker, 0, at_limit, KAV_VALUES,
                               words[at], out, sizeof out, cause, KAV_CAUSE);
            check("step for a cause", replied < 0, 0);
        }
        check_cause(causes[which].sent, cause, causes[which].code, causes[which].position);
    }
    int32_t scanning[KAV_CARD] = {'L', 7, 4, 'L', '7', ']', '+', [22] = 1};
    const int32_t four[] = {4, 'm', 'm', 'M', 'J'};
    memcpy(scanning + 16, four, sizeof four);
    replied = kav_step(scanning, KAV_CARD, bench, bench_length, maker, 0, values, KAV_VALUES,
                       0xAA, out, sizeof out, cause, KAV_CAUSE);
    check_text("a scan's '+'", out, replied, "L7]00000N*");
    check_cause("a scan's '+'", cause, KAV_CAUSE_ACCESS, 0);

    /*
     * Both zeros, word by word: bench case i at both revisions, zero, and what comes before and behind minus
     * zero at the second: out of range (at both), wrong decimals, access, no such identifier, the same on ']'
     * at a card without a scan. Then ']' at one with a scan, and a run.
     */
    const struct {
        const char *sent, *replied;
        int32_t revision, code;
    } zeros[] = {
        {"L7J#00006*", "L7J00001I*", 1, KAV_CAUSE_NONE},
        {"L7J#00006*", "L7J00001N*", 2, KAV_CAUSE_MINUS_ZERO},
        {"L7J#00001*", "L7J00001I*", 2, KAV_CAUSE_NONE},
        {"L7Z#00005*", "L7Z00000N*", 1, KAV_CAUSE_RANGE},
        {"L7Z#00005*", "L7Z00000N*", 2, KAV_CAUSE_MINUS_ZERO},
        {"L7J#00005*", "L7J00001N*", 2, KAV_CAUSE_DECIMALS},
        {"L7M#00006*", "L7M02311N*", 2, KAV_CAUSE_ACCESS},
        {"L7a#00005*", "L7a00000N*", 2, KAV_CAUSE_IDENTIFIER},
        {"L7]#00005*", "L7]00000N*", 2, KAV_CAUSE_IDENTIFIER},
    };
    for (size_t which = 0; which < sizeof zeros / sizeof *zeros; which++) {
        int32_t fresh[KAV_CARD] = {'L', 7, [22] = zeros[which].revision};
        length = words_of(zeros[which].sent, words);
        for (size_t at = 0; at < length; at++) {
            replied = kav_step(fresh, KAV_CARD, bench, bench_length, maker, 0, values, KAV_VALUES,
                               words[at], out, sizeof out, cause, KAV_CAUSE);
        }
        check_text(zeros[which].sent, out, replied, zeros[which].replied);
        check_cause(zeros[which].sent, cause, zeros[which].code, 0);
        check("the revision", fresh[22], zeros[which].revision);
    }
    int32_t second[KAV_CARD] = {'L', 7, 9, 'L', '7', ']', '#', '0', '0', '0', '0', '5', [22] = 2};
    memcpy(second + 16, four, sizeof four);
    replied = kav_step(second, KAV_CARD, bench, bench_length, maker, 0, values, KAV_VALUES,
                       0xAA, out, sizeof out, cause, KAV_CAUSE);
    check_text("a scan's minus zero", out, replied, "L7]00000N*");
    check_cause("a scan's minus zero", cause, KAV_CAUSE_ACCESS, 0);
    length = words_of("L7m#00301*L7m#00006*L7mI*L7J#00001*L7JI*", words);
    check("run at the second revision",
          kav_run(second, KAV_CARD, bench, bench_length, maker, 0, values, KAV_VALUES,
                  words, length, out, sizeof out, counts, 2), 0);
    check("words taken", (int64_t)counts[0], (int64_t)length);
    check_text("replies", out, (int64_t)counts[1], "L7m00301I*L7m00251N*L7J00001I*L7J00001A*");
    check("the revision", second[22], 2);

    /* Another revision, or a row of 22 numbers: before the sheets. */
    const int32_t no_revisions[] = {0, 3, -1, 256, 257, INT32_MIN, INT32_MAX};
    for (size_t which = 0; which < sizeof no_revisions / sizeof *no_revisions; which++) {
        int32_t fresh[KAV_CARD] = {'L', 7, [22] = no_revisions[which]};
        check("step with no revision",
              kav_step(fresh, KAV_CARD, bench, bench_length, maker, 0, values, KAV_VALUES,
                       KAV_SILENCE, out, sizeof out, cause, KAV_CAUSE), -1);
        check("run with no revision and a part of a sheet",
              kav_run(fresh, KAV_CARD, bench, bench_length - 1, maker, 0, values, KAV_VALUES,
                      words, length, out, sizeof out, counts, 2), -1);
    }
    check("step with 22 numbers",
          kav_step(card, 22, bench, bench_length - 1, maker, 0, values, KAV_VALUES,
                   KAV_SILENCE, out, sizeof out, cause, KAV_CAUSE), -1);

    /* Numbers that are no offer are judged after the sheets. */
    card[13] = 2;
    check("step with a mark of 2",
          kav_step(card, KAV_CARD, bench, bench_length, maker, 0, values, KAV_VALUES,
                   KAV_SILENCE, out, sizeof out, cause, KAV_CAUSE), -1);
    check("step with a mark of 2 and a part of a sheet",
          kav_step(card, KAV_CARD, bench, bench_length - 1, maker, 0, values, KAV_VALUES,
                   KAV_SILENCE, out, sizeof out, cause, KAV_CAUSE), -2);
    card[13] = 0;

    /* A scan of five and one of four; then ']' has a row of its own. */
    const int32_t named[] = {5, 'm', 'M', 'm', 'J', 'M'};
    const int32_t own[KAV_ROW] = {']', 1, 0, 1, 0, 0};
    memcpy(card + 16, named, sizeof named);
    length = words_of("L7]?*L7]+*L7]I*", words);
    check("scan", kav_run(card, KAV_CARD, bench, bench_length, maker, 0, values, KAV_VALUES,
                          words, length, out, sizeof out, counts, 2), 0);
    check_text("its reply", out, (int64_t)counts[1], "L7]250025102311002510000102311A*L7]00000N*");
    card[16] = 4;
    check("scan of four", kav_run(card, KAV_CARD, bench, bench_length, maker, 0, values, KAV_VALUES,
                                  words, 5, out, sizeof out, counts, 2), 0);
    check_text("its reply", out, (int64_t)counts[1], "L7]2000251023110025100001A*");
    check("step with a row for the scan",
          kav_step(card, KAV_CARD, bench, bench_length, own, KAV_ROW, values, KAV_VALUES,
                   KAV_SILENCE, out, sizeof out, cause, KAV_CAUSE), -1);
    card[16] = 3;
    check("step with a scan of three",
          kav_step(card, KAV_CARD, bench, bench_length, maker, 0, values, KAV_VALUES,
                   KAV_SILENCE, out, sizeof out, cause, KAV_CAUSE), -1);
    card[16] = 0;

    /* L7 and R7 on one pair, each with its own offer, revision and values. Then what makes them no bench. */
    int32_t cards[2 * KAV_CARD] = {'L', 7, [22] = 1, [KAV_CARD] = 'R', 7, [KAV_CARD + 22] = 2};
    int32_t both[2 * KAV_VALUES];
    memcpy(both, values, sizeof values);
    memcpy(both + KAV_VALUES, values, sizeof values);
    uint64_t three[3] = {77, 77, 77};
    length = words_of("L7m#00301*R7m#00401*L8mI*R7mI*L7mI*R7J#00006*L7J", words);
    check("bus", kav_bus_run(cards, 2 * KAV_CARD, bench, bench_length, maker, 0, both, 2 * KAV_VALUES,
                             words, length, out, sizeof out, three, 3), 0);
    check("words taken", (int64_t)three[0], (int64_t)length);
    check_text("replies", out, (int64_t)three[1], "L7m00301I*R7m00401I*R7m00401A*L7m00301A*R7J00001N*");
    check("the number behind the counts", (int64_t)three[2], 77);
    check("value of L7", both['m'], 30);
    check("value of R7", both[KAV_VALUES + 'm'], 40);
    check("open characters at L7", cards[2], 3);
    check("open characters at R7", memcmp(cards + 2, cards + KAV_CARD + 2, 11 * sizeof *cards), 0);
    length = words_of("+*R7m+*", words);
    check("bus with room for one reply",
          kav_bus_run(cards, 2 * KAV_CARD, bench, bench_length, maker, 0, both, 2 * KAV_VALUES,
                      words, length, out, 19, counts, 2), 0);
    check("words taken", (int64_t)counts[0], (int64_t)length - 1);
    check_text("reply", out, (int64_t)counts[1], "L7J00051A*");
    check("value of R7", both[KAV_VALUES + 'm'], 40);
    check("open characters at L7", cards[2], 4);
    check("open characters at R7", cards[KAV_CARD + 2], 4);
    check("bus with no card", kav_bus_run(cards, 0, bench, bench_length, maker, 0, both, 0,
                                          words, length, out, 0, counts, 2), 0);
    check("words taken", (int64_t)counts[0], (int64_t)length);
    check("bytes written", (int64_t)counts[1], 0);
    const struct {
        const char *what;
        int32_t place, number;
        size_t cards, bench, values, counts;
        int64_t wanted;
    } buses[] = {
        {"a part of a row", 0, 'L', 45, 24, 256, 2, -1},
        {"no revision and a part of a sheet", KAV_CARD + 22, 3, 46, 23, 256, 2, -1},
        {"two alike and a part of a sheet", 0, 'R', 46, 23, 256, 2, -8},
        {"open messages that differ", KAV_CARD + 2, 5, 46, 24, 256, 2, -8},
        {"a part of a sheet and an offer that is none", 13, 2, 46, 23, 256, 2, -2},
        {"an offer that is none and few values", 13, 2, 46, 24, 255, 2, -1},
        {"few values", 0, 'L', 46, 24, 255, 2, -3},
        {"short counts", 0, 'L', 46, 24, 256, 1, -5},
    };
    for (size_t which = 0; which < sizeof buses / sizeof *buses; which++) {
        int32_t changed[2 * KAV_CARD];
        memcpy(changed, cards, sizeof cards);
        changed[buses[which].place] = buses[which].number;
        check(buses[which].what,
              kav_bus_run(changed, buses[which].cards, bench, buses[which].bench, maker, 0,
                          both, buses[which].values, words, length, out, sizeof out,
                          counts, buses[which].counts), buses[which].wanted);
    }

    /*
     * A trace at a card of the second revision with a message open: 'N' for access, bench case e with a message for another
     * card between, one that isn't well formed, a Type 4 without its offer, minus zero, and one left open. Then one that stops
     * at the second reply, and what is refused, which changes nothing.
     */
    int32_t traced[KAV_CARD] = {'L', 7, 3, 'L', '7', 'M', [22] = 2};
    uint64_t notes[64 * KAV_NOTE];
    uint64_t untouched[64 * KAV_NOTE];
    for (size_t at = 0; at < 64 * KAV_NOTE; at++) {
        notes[at] = untouched[at] = 77;
    }
    uint64_t noted[4] = {77, 77, 77, 77};
    values['m'] = 50;
    length = words_of("+*L07m#00231*R7??*L7mI*L0*L7mI*L7J#00006*L7m", words);
    check("trace", kav_trace(traced, KAV_CARD, bench, bench_length, maker, 0, values, KAV_VALUES,
                             words, length, out, sizeof out, notes, length * KAV_NOTE, noted, 4), 0);
    const uint64_t seven[][KAV_NOTE] = {
        {1, 4, 10, KAV_CAUSE_ACCESS, 0},
        {12, 10, 10, KAV_CAUSE_NONE, 0},
        {17, 4, 0, KAV_CAUSE_OTHER_CARD, 0},
        {22, 4, 10, KAV_CAUSE_NONE, 0},
        {25, 2, 0, KAV_CAUSE_NOT_WELL_FORMED, 2},
        {30, 4, 0, KAV_CAUSE_NO_OFFER, 0},
        {40, 9, 10, KAV_CAUSE_MINUS_ZERO, 0},
    };
    check("words taken", (int64_t)noted[0], (int64_t)length);
    check_text("replies", out, (int64_t)noted[1], "L7M02311N*L7m00201I*L7m00201A*L7J00001N*");
    check("messages noted", (int64_t)noted[2], sizeof seven / sizeof *seven);
    check("the number behind the counts", (int64_t)noted[3], 77);
    check("notes", memcmp(notes, seven, sizeof seven), 0);
    check("the numbers behind the notes",
          memcmp(notes + 7 * KAV_NOTE, untouched, sizeof notes - sizeof seven), 0);
    check("value", values['m'], 20);
    check("open characters", traced[2], 3);
    length = words_of("+*L8??*L7??*", words);
    check("trace with room for one reply",
          kav_trace(traced, KAV_CARD, bench, bench_length, maker, 0, values, KAV_VALUES,
                    words, length, out, 14, notes, length * KAV_NOTE, noted, 3), 0);
    const uint64_t two[][KAV_NOTE] = {{1, 4, 10, KAV_CAUSE_NONE, 0}, {6, 4, 0, KAV_CAUSE_OTHER_CARD, 0}};
    check("words taken", (int64_t)noted[0], (int64_t)length - 1);
    check_text("reply", out, (int64_t)noted[1], "L7m00251A*");
    check("messages noted", (int64_t)noted[2], sizeof two / sizeof *two);
    check("notes", memcmp(notes, two, sizeof two), 0);
    check("open characters", traced[2], 4);
    const struct {
        const char *what;
        size_t card, bench, values, notes, counts;
        uint16_t word;
        int64_t wanted;
    } traces[] = {
        {"trace with a short card and a part of a sheet", 22, 23, 128, 60, 3, 256, -1},
        {"trace with a part of a sheet and few values", 23, 23, 127, 60, 3, 256, -2},
        {"trace with few values and no word", 23, 24, 127, 60, 3, 257, -3},
        {"trace with no word and short notes", 23, 24, 128, 59, 3, 257, -4},
        {"trace with short notes", 23, 24, 128, 59, 3, 256, -5},
        {"trace with short counts", 23, 24, 128, 60, 2, 256, -5},
    };
    for (size_t which = 0; which < sizeof traces / sizeof *traces; which++) {
        uint64_t none[3] = {77, 77, 77};
        words[0] = 0xAA;
        words[11] = traces[which].word;
        check(traces[which].what,
              kav_trace(traced, traces[which].card, bench, traces[which].bench, maker, 0,
                        values, traces[which].values, words, 12, out, sizeof out,
                        notes, traces[which].notes, none, traces[which].counts), traces[which].wanted);
        check_text("what it replied before", out, 10, "L7m00251A*");
        check("what it noted before", memcmp(notes, two, sizeof two), 0);
        check("its counts", memcmp(none, untouched, sizeof none), 0);
        check("its open characters", traced[2], 4);
    }

    length = words_of("xL07M?*L7J#00006*L07J#00001*L7", words);
    int64_t count = kav_normal_form(words, length, normal, 64);
    for (int64_t at = 0; at < count; at++) {
        out[at] = (uint8_t)normal[at];
    }
    check_text("normal form", out, count, "L7M?*L7J#00006*L7J#00001*");
    check("normal form with little room", kav_normal_form(words, length, normal, 24), -5);

    count = kav_write('R', 70, 'm', '#', -15, 1, 0, out, sizeof out);
    check_text("write", out, count, "R70m#00156*");
    check("write with no address", kav_write('R', 0, 'm', '#', -15, 1, 0, out, sizeof out), -7);
    check("write with little room", kav_write('R', 70, 'm', '#', -15, 1, 0, out, 10), -5);
    count = kav_write('R', 70, 'm', '#', 0, 1, 1, out, sizeof out);
    check_text("write of minus zero", out, count, "R70m#00006*");
    count = kav_write('R', 70, 'm', '#', 0, 1, 0, out, sizeof out);
    check_text("write of zero", out, count, "R70m#00001*");
    check("write of minus zero beside 5", kav_write('R', 70, 'm', '#', 5, 1, 1, out, sizeof out), -7);
    check("write with a minus zero of 2", kav_write('R', 70, 'm', '#', 0, 1, 2, out, sizeof out), -7);
    count = kav_write('R', 70, 'm', '?', 5, 1, 2, out, sizeof out);
    check_text("write of a query, which has no number", out, count, "R70m?*");

    int32_t answer[KAV_ANSWER];
    uint8_t reply[KAV_REPLY];
    length = bytes_of("L70]250025102311002510000199998A*", reply);
    check("read of a scan", kav_read(reply, length, answer, KAV_ANSWER), KAV_ANSWER);
    const int32_t scan[KAV_ANSWER] = {'L', 70, ']', 'A', 5, 25, 1, 231, 1, 25, 1, 0, 1, -9999, 3};
    check("its answer", memcmp(answer, scan, sizeof scan), 0);
    length = bytes_of("L7J00156I*", reply);
    check("read", kav_read(reply, length, answer, KAV_ANSWER), KAV_ANSWER);
    const int32_t wanted[KAV_ANSWER] = {'L', 7, 'J', 'I', 1, -15, 1};
    check("answer", memcmp(answer, wanted, sizeof wanted), 0);
    check("read of a part", kav_read(reply, length - 1, answer, KAV_ANSWER), -6);
    check("read with little room", kav_read(reply, length, answer, KAV_ANSWER - 1), -5);
    length = bytes_of("L7J00006I*", reply);
    check("read of minus zero", kav_read(reply, length, answer, KAV_ANSWER), -6);

    const char *line = "16 L7 m # 00231\n";
    count = kav_line(16, 'L', 7, 'm', '#', 23, 1, 0, out, sizeof out);
    check("line", count, (int64_t)strlen(line));
    check("its bytes", memcmp(out, line, strlen(line)), 0);
    const char *line_of_minus_zero = "16 L7 m # 00006\n";
    count = kav_line(16, 'L', 7, 'm', '#', 0, 1, 1, out, sizeof out);
    check("line of minus zero", count, (int64_t)strlen(line_of_minus_zero));
    check("its bytes", memcmp(out, line_of_minus_zero, strlen(line_of_minus_zero)), 0);
    check("line of minus zero beside -5", kav_line(16, 'L', 7, 'm', '#', -5, 1, 1, out, sizeof out), -7);
    check("line with a minus zero of 2", kav_line(16, 'L', 7, 'm', '#', 0, 1, 2, out, sizeof out), -7);
    check("line of no message", kav_line(16, 'L', 7, '?', '+', 0, 0, 0, out, sizeof out), -7);

    int32_t row[KAV_ROW];
    check("lookup", kav_lookup(bench, bench_length, maker, 0, 'Z', row, KAV_ROW), KAV_ROW);
    check("row", memcmp(row, bench + 12, sizeof row), 0);
    check("lookup of none", kav_lookup(bench, bench_length, maker, 0, 'z', row, KAV_ROW), 0);
    check("lookup with little room", kav_lookup(bench, bench_length, maker, 0, 'Z', row, 5), -5);

    /* Each instrument: its sheet as the maker's, with its values, serves a card of its letter and scan at both revisions. */
    const struct {
        int32_t letter, named;
        size_t length;
    } models[] = {{'L', 5, 168}, {'R', 0, 132}, {'L', 5, 114}};
    int32_t sheet[KAV_SHEET];
    int32_t initial[KAV_VALUES];
    int32_t setup[KAV_SETUP];
    length = words_of("L42??*R42??*", words);
    for (uint32_t model = 1; model <= 3; model++) {
        size_t numbers = models[model - 1].length;
        sheet[numbers] = -77;
        check("model", kav_model(model, sheet, numbers, initial, KAV_VALUES, setup, KAV_SETUP), (int64_t)numbers);
        check("the number behind its sheet", sheet[numbers], -77);
        check("its letter", setup[0], models[model - 1].letter);
        check("its scan", setup[1], models[model - 1].named);
        for (int32_t revision = 1; revision <= 2; revision++) {
            int32_t fresh[KAV_CARD] = {setup[0], 42, [22] = revision};
            memcpy(fresh + 16, setup + 1, (KAV_SETUP - 1) * sizeof *setup);
            check("run of a model", kav_run(fresh, KAV_CARD, maker, 0, sheet, numbers, initial, KAV_VALUES,
                                            words, length, out, sizeof out, counts, 2), 0);
            check_text("its reply", out, (int64_t)counts[1], setup[0] == 'L' ? "L42?A*" : "R42?A*");
        }
    }
    sheet[0] = initial[0] = setup[0] = -77;
    check("model 0", kav_model(0, sheet, KAV_SHEET, initial, KAV_VALUES, setup, KAV_SETUP), 0);
    check("model 4", kav_model(4, sheet, KAV_SHEET, initial, KAV_VALUES, setup, KAV_SETUP), 0);
    check("model with a short sheet", kav_model(1, sheet, 167, initial, KAV_VALUES, setup, KAV_SETUP), -5);
    check("model with few values", kav_model(1, sheet, KAV_SHEET, initial, 127, setup, KAV_SETUP), -5);
    check("model with a short setup", kav_model(1, sheet, KAV_SHEET, initial, KAV_VALUES, setup, 6), -5);
    check("the sheet of none", sheet[0], -77);
    check("the values of none", initial[0], -77);
    check("the setup of none", setup[0], -77);

    if (!failed) {
        puts("smoke: all ten functions answer");
    }
    return failed;
}
