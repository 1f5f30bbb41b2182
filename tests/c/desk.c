/* The examples P1 to P12 of document 01, asked of the archive from C through its header alone: numbers, places, byte offsets, bytes and figures, and that every
 * call leaves the rest of what it was lent, and the guards around it, as they were. */
#include "hervantyu.h"

#include <stdio.h>
#include <string.h>

enum { GUARD = 16, MOST = 256, SET_NUMBERS = 64, MOST_FIGURES = 16 };

static unsigned checks, failed;
static unsigned char filling;

static void check(int held, const char *example, const char *what)
{
    checks++;
    if (!held) {
        failed++;
        printf("%s, filling %02x: %s\n", example, filling, what);
    }
}

/* ---- Buffers between guards ---- */

/* Bytes behind GUARD guards, with at least GUARD guards behind them. */
struct bytes {
    uint8_t now[GUARD + MOST + GUARD], before[GUARD + MOST + GUARD];
};

/* A number between two guards. */
struct wide {
    uint64_t guard, now, behind;
};
struct word {
    uint32_t guard, now, behind;
};

/* Place and byte offset between two guards. */
struct location {
    uint64_t guard, now[2], behind;
};

static void lend(struct bytes *lent, const uint8_t *content, size_t length)
{
    memset(lent->now, filling, sizeof lent->now);
    memcpy(lent->now + GUARD, content, length);
    memcpy(lent->before, lent->now, sizeof lent->before);
}

/* Whether all is as it was but for so many bytes at the front. */
static int kept_behind(const struct bytes *lent, size_t written)
{
    size_t rest = GUARD + written;
    return memcmp(lent->now, lent->before, GUARD) == 0 && memcmp(lent->now + rest, lent->before + rest, sizeof lent->now - rest) == 0;
}

static uint64_t wide_filling(void)
{
    return filling * UINT64_C(0x0101010101010101);
}

static struct wide lend_wide(void)
{
    return (struct wide){wide_filling(), wide_filling(), wide_filling()};
}

static int wide_is(const struct wide *lent, uint64_t value)
{
    return lent->guard == wide_filling() && lent->now == value && lent->behind == wide_filling();
}

static struct location lend_location(void)
{
    return (struct location){wide_filling(), {wide_filling(), wide_filling()}, wide_filling()};
}

static struct word lend_word(void)
{
    uint32_t value = (uint32_t)wide_filling();
    return (struct word){value, value, value};
}

static int word_is(const struct word *lent, uint32_t value)
{
    return lent->guard == (uint32_t)wide_filling() && lent->now == value && lent->behind == (uint32_t)wide_filling();
}

/* ---- The calls, each with the answer that it is to give ---- */

struct image {
    size_t length;
    uint8_t bytes[MOST];
};

struct refusal {
    uint32_t number;
    uint64_t place, offset;
};

static const struct refusal none = {0, 0, 0}, no_room = {20, 0, 0};

static int location_is(const struct location *lent, struct refusal refusal)
{
    return lent->guard == wide_filling() && lent->now[0] == refusal.place && lent->now[1] == refusal.offset && lent->behind == wide_filling();
}

/* What an image of a kind is asked: to be checked, and to be turned into its other kind. */
struct kind {
    uint32_t (*check)(const uint8_t *restrict, uint64_t, uint64_t *restrict);
    uint32_t (*turn)(const uint8_t *restrict, uint64_t, uint8_t *restrict, uint64_t, uint64_t *restrict, uint64_t *restrict);
};

static const struct kind timetable_kind = {hv_check_timetable, hv_derive};
static const struct kind table_kind = {hv_check_tables, hv_rebuild};

static void expect_check(const char *example, const struct kind *kind, const struct image *image, struct refusal refusal)
{
    struct bytes lent;
    struct location where = lend_location();
    lend(&lent, image->bytes, image->length);
    check(kind->check(lent.now + GUARD, image->length, where.now) == refusal.number, example, "checking gives another number");
    check(location_is(&where, refusal), example, "checking stores another place or offset");
    check(kept_behind(&lent, 0), example, "checking changes the image");
}

/* Where a refusal is expected, no result is. */
static void expect_turn(const char *example, const struct kind *kind, const struct image *image, uint64_t room, struct refusal refusal,
                        const struct image *result)
{
    struct bytes lent, out;
    struct location where = lend_location();
    struct wide length = lend_wide();
    size_t written = result ? result->length : 0;
    lend(&lent, image->bytes, image->length);
    lend(&out, image->bytes, 0);
    check(kind->turn(lent.now + GUARD, image->length, out.now + GUARD, room, where.now, &length.now) == refusal.number, example,
          "turning gives another number");
    check(location_is(&where, refusal), example, "turning stores another place or offset");
    check(wide_is(&length, result ? written : wide_filling()), example, "turning stores another length");
    check(kept_behind(&lent, 0), example, "turning changes the image");
    check(kept_behind(&out, written), example, "turning changes the output where it is to be kept");
    if (result)
        check(memcmp(out.now + GUARD, result->bytes, written) == 0, example, "turning writes other bytes");
}

struct figures {
    uint64_t count;
    int64_t numbers[MOST_FIGURES];
};

/* The figures of the image at the front of so many bytes; where a refusal is expected, none are. */
static void expect_figures(const char *example, const struct image *images, uint64_t room, struct refusal refusal, const struct figures *figures,
                           uint64_t length)
{
    struct {
        int64_t front[GUARD], now[MOST_FIGURES], behind[GUARD];
    } lent, expected;
    struct bytes bytes;
    struct location where = lend_location();
    struct wide count = lend_wide(), used = lend_wide();
    lend(&bytes, images->bytes, images->length);
    memset(&lent, filling, sizeof lent);
    memset(&expected, filling, sizeof expected);
    if (figures)
        memcpy(expected.now, figures->numbers, figures->count * sizeof *figures->numbers);
    check(hv_figures(bytes.now + GUARD, images->length, lent.now, room, where.now, &count.now, &used.now) == refusal.number, example,
          "figures give another number");
    check(location_is(&where, refusal), example, "figures store another place or offset");
    check(wide_is(&count, figures ? figures->count : wide_filling()), example, "figures are others in number");
    check(wide_is(&used, figures ? length : wide_filling()), example, "figures store another length of the image");
    check(kept_behind(&bytes, 0), example, "figures change the image");
    check(memcmp(&lent, &expected, sizeof lent) == 0, example, "figures are others, or written where nothing is to be");
}

/* Where a refusal is expected, hyperperiod and jobs are 0. */
static void expect_judge(const char *example, uint32_t n, const uint32_t (*tasks)[4], uint32_t number, uint32_t hyperperiod, uint32_t jobs)
{
    struct {
        uint32_t guard, now[SET_NUMBERS], behind;
    } lent, before;
    struct wide stored = lend_wide();
    struct word h = lend_word(), j = lend_word();
    uint32_t kept = (uint32_t)wide_filling();
    memset(&lent, filling, sizeof lent);
    memcpy(lent.now, tasks, n * sizeof *tasks);
    memcpy(&before, &lent, sizeof lent);
    check(hv_judge_set(n, lent.now, &stored.now, &h.now, &j.now) == number, example, "judging gives another number");
    check(wide_is(&stored, 0), example, "judging stores another place");
    check(word_is(&h, number ? kept : hyperperiod), example, "judging stores another hyperperiod");
    check(word_is(&j, number ? kept : jobs), example, "judging stores another number of jobs");
    check(memcmp(&before, &lent, sizeof lent) == 0, example, "judging changes the tasks");
}

/* An image that is refused is refused so whatever the room; tables have no figures then. */
static void expect_refused(const char *example, const struct kind *kind, const struct image *image, struct refusal refusal)
{
    expect_check(example, kind, image, refusal);
    expect_turn(example, kind, image, 0, refusal, NULL);
    expect_turn(example, kind, image, MOST, refusal, NULL);
    if (kind == &table_kind) {
        expect_figures(example, image, 0, refusal, NULL, 0);
        expect_figures(example, image, MOST_FIGURES, refusal, NULL, 0);
    }
}

/* A good image is turned in an output of just the result's length or more, and refused with 20 in a shorter one. */
static void expect_turned(const char *example, const struct kind *kind, const struct image *image, const struct image *result)
{
    expect_check(example, kind, image, none);
    expect_turn(example, kind, image, result->length, none, result);
    expect_turn(example, kind, image, result->length + 1, none, result);
    expect_turn(example, kind, image, MOST, none, result);
    expect_turn(example, kind, image, result->length - 1, no_room, NULL);
    expect_turn(example, kind, image, 0, no_room, NULL);
}

/* A valid timetable and its tables are turned into each other, and neither is of the other's kind. */
static void expect_pair(const char *example, const struct image *timetable, const struct image *tables)
{
    expect_turned(example, &timetable_kind, timetable, tables);
    expect_turned(example, &table_kind, tables, timetable);
    expect_refused(example, &timetable_kind, tables, (struct refusal){4, 0, 0});
    expect_refused(example, &table_kind, timetable, (struct refusal){4, 0, 0});
}

/* ---- Images ---- */

static const uint32_t by_hand[3][4] = {{0, 1, 5, 5}, {0, 2, 10, 10}, {0, 6, 20, 20}};

struct entry {
    uint8_t task;
    uint32_t start;
};
struct idle {
    uint32_t start;
    uint16_t length;
};
struct inversion {
    uint8_t task;
    uint16_t job;
    uint32_t delay;
};

static void put_mark(struct image *image, const char *mark)
{
    image->bytes[image->length++] = (uint8_t)mark[0];
    image->bytes[image->length++] = (uint8_t)mark[1];
}

static void put_number(struct image *image, uint32_t value, int width)
{
    while (width-- > 0)
        image->bytes[image->length++] = (uint8_t)(value >> (8 * width));
}

static struct image head(uint32_t kind, uint32_t n, const uint32_t (*tasks)[4])
{
    struct image image = {0, {0}};
    put_mark(&image, "TS");
    put_number(&image, 1, 1);
    put_number(&image, kind, 1);
    put_number(&image, n, 1);
    for (uint32_t i = 0; i < n; i++) {
        put_mark(&image, "TK");
        for (int field = 0; field < 4; field++)
            put_number(&image, tasks[i][field], 4);
    }
    return image;
}

static struct image timetable(uint32_t n, const uint32_t (*tasks)[4], uint32_t count, const struct entry *entries)
{
    struct image image = head(1, n, tasks);
    for (uint32_t i = 0; i < count; i++) {
        put_mark(&image, "SL");
        put_number(&image, entries[i].task, 1);
        put_number(&image, entries[i].start, 4);
    }
    put_mark(&image, "EN");
    put_number(&image, 1 + n + count, 4);
    return image;
}

/* Tables of the set to work by hand. */
static struct image tables(uint32_t idle_count, const struct idle *idles, uint32_t inversion_count, const struct inversion *inversions)
{
    struct image image = head(2, 3, by_hand);
    for (uint32_t i = 0; i < idle_count; i++) {
        put_mark(&image, "ID");
        put_number(&image, idles[i].start, 4);
        put_number(&image, idles[i].length, 2);
    }
    for (uint32_t i = 0; i < inversion_count; i++) {
        put_mark(&image, "PV");
        put_number(&image, inversions[i].task, 1);
        put_number(&image, inversions[i].job, 2);
        put_number(&image, inversions[i].delay, 4);
    }
    put_mark(&image, "EN");
    put_number(&image, 4 + idle_count + inversion_count, 4);
    return image;
}

/* ---- The examples ---- */

static const struct image p1_tables = {65, {
    0x54, 0x53, 0x01, 0x02, 0x03,
    0x54, 0x4B, 0x00, 0x00, 0x00, 0x00, 0x00, 0x00, 0x00, 0x01, 0x00, 0x00, 0x00, 0x05, 0x00, 0x00, 0x00, 0x05,
    0x54, 0x4B, 0x00, 0x00, 0x00, 0x00, 0x00, 0x00, 0x00, 0x02, 0x00, 0x00, 0x00, 0x0A, 0x00, 0x00, 0x00, 0x0A,
    0x54, 0x4B, 0x00, 0x00, 0x00, 0x00, 0x00, 0x00, 0x00, 0x06, 0x00, 0x00, 0x00, 0x14, 0x00, 0x00, 0x00, 0x14,
    0x45, 0x4E, 0x00, 0x00, 0x00, 0x04}};

static const struct image p2_tables = {91, {
    0x54, 0x53, 0x01, 0x02, 0x03,
    0x54, 0x4B, 0x00, 0x00, 0x00, 0x00, 0x00, 0x00, 0x00, 0x01, 0x00, 0x00, 0x00, 0x05, 0x00, 0x00, 0x00, 0x05,
    0x54, 0x4B, 0x00, 0x00, 0x00, 0x00, 0x00, 0x00, 0x00, 0x02, 0x00, 0x00, 0x00, 0x0A, 0x00, 0x00, 0x00, 0x0A,
    0x54, 0x4B, 0x00, 0x00, 0x00, 0x00, 0x00, 0x00, 0x00, 0x06, 0x00, 0x00, 0x00, 0x14, 0x00, 0x00, 0x00, 0x14,
    0x49, 0x44, 0x00, 0x00, 0x00, 0x0A, 0x00, 0x02,
    0x50, 0x56, 0x01, 0x00, 0x00, 0x00, 0x00, 0x00, 0x07,
    0x50, 0x56, 0x02, 0x00, 0x00, 0x00, 0x00, 0x00, 0x01,
    0x45, 0x4E, 0x00, 0x00, 0x00, 0x07}};

static const struct image p9_tables = {29, {
    0x54, 0x53, 0x01, 0x02, 0x01,
    0x54, 0x4B, 0x00, 0x00, 0x00, 0x00, 0x00, 0x00, 0x00, 0x01, 0x00, 0x00, 0x00, 0x01, 0x00, 0x00, 0x00, 0x01,
    0x45, 0x4E, 0x00, 0x00, 0x00, 0x02}};

/* A bad set is refused with place 0, and as the set of images of both kinds, which hold nothing else, with offset 0. */
static void expect_bad_set(const char *example, uint32_t n, const uint32_t (*tasks)[4], uint32_t number)
{
    struct image image = timetable(n, tasks, 0, NULL);
    expect_judge(example, n, tasks, number, 0, 0);
    expect_refused(example, &timetable_kind, &image, (struct refusal){number, 0, 0});
    image.bytes[3] = 2;
    expect_refused(example, &table_kind, &image, (struct refusal){number, 0, 0});
}

static void sets(void)
{
    static const uint32_t p9[1][4] = {{0, 1, 1, 1}};
    static const uint32_t p10_9[2][4] = {{0, 1, 3, 3}, {0, 1, 65535, 65535}};
    static const uint32_t p10_8[2][4] = {{0, 1, 2, 2}, {0, 1, 65535, 65535}};
    static const uint32_t p11[3][4] = {{0, 1, 16, 16}, {0, 1, 65520, 65520}, {0, 1, 65520, 65520}};
    expect_judge("set to work by hand", 3, by_hand, 0, 20, 7);
    expect_judge("P9", 1, p9, 0, 1, 1);
    expect_bad_set("P10, 3 and 65,535", 2, p10_9, 9);
    expect_bad_set("P10, 2 and 65,535", 2, p10_8, 8);
    expect_judge("P11", 2, p11, 0, 65520, 4096);
    struct image image = timetable(2, p11, 0, NULL);
    expect_refused("P11 without entries", &timetable_kind, &image, (struct refusal){16, 0, 0});
    expect_bad_set("P11 with a third task", 3, p11, 9);
}

static void timetables(void)
{
    static const uint32_t one[1][4] = {{0, 1, 1, 1}};
    static const struct entry first[1] = {{0, 0}};
    static const struct entry p1[7] = {{0, 0}, {1, 1}, {2, 3}, {0, 9}, {0, 10}, {1, 11}, {0, 15}};
    static const struct entry without_task_2[6] = {{0, 0}, {1, 1}, {0, 9}, {0, 10}, {1, 11}, {0, 15}};
    struct entry p2[7] = {{0, 0}, {2, 1}, {1, 7}, {0, 9}, {0, 12}, {1, 13}, {0, 15}};
    struct image image = timetable(3, by_hand, 7, p1);
    expect_pair("P1", &image, &p1_tables);
    image = timetable(3, by_hand, 6, without_task_2);
    expect_refused("P1 without task 2", &timetable_kind, &image, (struct refusal){16, 2, 0});
    image = timetable(3, by_hand, 7, p2);
    expect_pair("P2", &image, &p2_tables);
    p2[3].start = 10;
    image = timetable(3, by_hand, 7, p2);
    expect_refused("P3", &timetable_kind, &image, (struct refusal){15, 7, 80});
    p2[3].start = 8;
    image = timetable(3, by_hand, 7, p2);
    expect_refused("P4", &timetable_kind, &image, (struct refusal){14, 7, 80});
    image = timetable(1, one, 1, first);
    expect_pair("P9", &image, &p9_tables);
}

static void table_images(void)
{
    static const struct idle p5[1] = {{10, 5}}, p6[2] = {{10, 1}, {11, 1}}, p8[1] = {{16, 2}};
    static const struct inversion p2[2] = {{1, 0, 7}, {2, 0, 1}}, p7[1] = {{2, 0, 3}};
    struct image image = tables(1, p5, 2, p2), no_bytes = {0, {0}};
    expect_refused("P5", &table_kind, &image, (struct refusal){18, 4, 0});
    image = tables(2, p6, 2, p2);
    expect_refused("P6", &table_kind, &image, (struct refusal){17, 5, 67});
    image = tables(0, NULL, 1, p7);
    expect_refused("P7", &table_kind, &image, (struct refusal){19, 4, 59});
    image = tables(1, p8, 0, NULL);
    expect_refused("P8", &table_kind, &image, (struct refusal){19, 4, 59});
    expect_refused("P12", &timetable_kind, &no_bytes, (struct refusal){1, 0, 0});
    expect_refused("P12", &table_kind, &no_bytes, (struct refusal){1, 0, 0});
    image = p2_tables;
    image.length = 85;
    expect_refused("P2 without EN", &table_kind, &image, (struct refusal){1, 7, 85});
}

/* The figures of good tables: in a room of just their number or more, and 20 in a smaller one; whatever stands behind the image. */
static void expect_measured(const char *example, const struct image *tables, const struct figures *figures)
{
    struct image line = *tables;
    for (line.length = tables->length; line.length <= tables->length + 7; line.length++) {
        expect_figures(example, &line, figures->count, none, figures, tables->length);
        expect_figures(example, &line, MOST_FIGURES, none, figures, tables->length);
        expect_figures(example, &line, figures->count - 1, no_room, NULL, 0);
        expect_figures(example, &line, 0, no_room, NULL, 0);
        line.bytes[line.length] = "TS\1\2\0EN"[line.length - tables->length];
    }
}

/* P2's capacities are document 02's, and P1's as well, which has the same tasks. P1 never idles while a job waits; task 0's second job ends at 10, when it is
 * due, task 1's jobs 7 ticks before they are due, at 3 and 13, task 2's at 9. P9 is busy in its one tick. */
static void all_figures(void)
{
    static const struct figures p1 = {10, {14, 0, 6, 0, -7, -11, 4, 2, 0, -4}}, p2 = {10, {14, 2, 4, 0, -1, -13, 4, 2, 0, -4}}, p9 = {5, {1, 0, 0, 0, 0}};
    struct image image = p2_tables;
    expect_measured("P1", &p1_tables, &p1);
    expect_measured("P2", &p2_tables, &p2);
    expect_measured("P9", &p9_tables, &p9);
    image.bytes[90] = 8;
    image.length = 91 + 16;
    expect_figures("P2 with another number in EN, and bytes behind it", &image, MOST_FIGURES, (struct refusal){10, 7, 85}, NULL, 0);
}

int main(void)
{
    static const unsigned char fillings[2] = {0x5A, 0xA5};
    for (int i = 0; i < 2; i++) {
        filling = fillings[i];
        sets();
        timetables();
        table_images();
        all_figures();
    }
    printf("%u checks, %u failed\n", checks, failed);
    return failed > 0 || checks == 0;
}
