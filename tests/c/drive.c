/* A drive's main loop over the archive, through its header alone: an example of use that is also a test. Document 01's P2 is dispatched for three cycles,
 * whose starts are known, with jobs that end early, on time and at last late. Then what each refusal leaves, and that no call writes beside its record. At last
 * the image comes in fragments: cut in many ways, too long, lost, come twice, into an intake with any numbers. */
#include "hervantyu.h"

#include <stdio.h>
#include <string.h>

enum { JOBS = 7, CYCLES = 3, HYPERPERIOD = 20, LAST = JOBS * CYCLES - 1, GUARD = 8, ROOM = 256 };

static const uint8_t image[91] = {
    0x54, 0x53, 0x01, 0x02, 0x03,
    0x54, 0x4B, 0x00, 0x00, 0x00, 0x00, 0x00, 0x00, 0x00, 0x01, 0x00, 0x00, 0x00, 0x05, 0x00, 0x00, 0x00, 0x05,
    0x54, 0x4B, 0x00, 0x00, 0x00, 0x00, 0x00, 0x00, 0x00, 0x02, 0x00, 0x00, 0x00, 0x0A, 0x00, 0x00, 0x00, 0x0A,
    0x54, 0x4B, 0x00, 0x00, 0x00, 0x00, 0x00, 0x00, 0x00, 0x06, 0x00, 0x00, 0x00, 0x14, 0x00, 0x00, 0x00, 0x14,
    0x49, 0x44, 0x00, 0x00, 0x00, 0x0A, 0x00, 0x02,
    0x50, 0x56, 0x01, 0x00, 0x00, 0x00, 0x00, 0x00, 0x07,
    0x50, 0x56, 0x02, 0x00, 0x00, 0x00, 0x00, 0x00, 0x01,
    0x45, 0x4E, 0x00, 0x00, 0x00, 0x07};

/* The image's timetable: task, job and start of each start of a cycle. */
static const uint32_t timetable[JOBS][3] = {{0, 0, 0}, {2, 0, 1}, {1, 0, 7}, {0, 1, 9}, {0, 2, 12}, {1, 1, 13}, {0, 3, 15}};

/* What the drive itself knows of its tasks: the declared times. */
static const uint32_t declared[3] = {1, 2, 6};

static unsigned checks, failed;

static void check(int held, const char *what)
{
    checks++;
    if (!held) {
        failed++;
        printf("%s\n", what);
    }
}

/* ---- The drive ---- */

/* The drive's one record, and the start that it was told last; between guards for the test. */
struct drive {
    uint32_t front[GUARD];
    struct hv_dispatcher dispatcher;
    uint32_t between[GUARD];
    uint64_t start[4];
    uint64_t behind[GUARD];
};

/* Stand in for the drive's clock and its work: waits for the start, runs the job and gives back when it ended. */
static uint64_t run_job(const uint64_t start[4]);

/* The main loop: jobs run at the times that they are told, until something is refused. Gives back the number, upon which a drive goes to its safe state. */
static uint32_t main_loop(struct drive *drive, const uint8_t *table_image, uint64_t length)
{
    uint64_t where[2];
    uint32_t number = hv_begin(&drive->dispatcher, table_image, length, drive->start, where);
    while (number == 0) {
        uint64_t end = run_job(drive->start);
        number = hv_go_on(&drive->dispatcher, table_image, length, end, drive->start);
    }
    return number;
}

/* ---- The test ---- */

static unsigned started;

/* Whether it is the start with this index, counted over all cycles from 0. */
static int is_start(const uint64_t start[4], unsigned index)
{
    const uint32_t *expected = timetable[index % JOBS];
    uint64_t cycle = index / JOBS;
    return start[0] == expected[0] && start[1] == expected[1] && start[2] == cycle && start[3] == cycle * HYPERPERIOD + expected[2];
}

/* Jobs end at once, in the middle of their time or when it is over; the last job of the last cycle ends a tick too late. */
static uint64_t run_job(const uint64_t start[4])
{
    unsigned index = started++;
    check(is_start(start, index), "the main loop is told another start");
    if (index > LAST || start[0] >= 3)
        return UINT64_MAX;
    if (index == LAST)
        return start[3] + declared[start[0]] + 1;
    return start[3] + declared[start[0]] * (index % 3) / 2;
}

/* A drive all of whose bytes are the filling. */
static struct drive new_drive(int filling)
{
    struct drive drive;
    memset(&drive, filling, sizeof drive);
    return drive;
}

static int guarded(const struct drive *drive, int filling)
{
    struct drive fresh = new_drive(filling);
    return memcmp(drive->front, fresh.front, sizeof fresh.front) == 0 && memcmp(drive->between, fresh.between, sizeof fresh.between) == 0 &&
           memcmp(drive->behind, fresh.behind, sizeof fresh.behind) == 0;
}

static int stopped(const struct hv_dispatcher *dispatcher)
{
    struct hv_dispatcher none;
    memset(&none, 0, sizeof none);
    return memcmp(dispatcher, &none, sizeof none) == 0;
}

/* The record after the first start of the image. */
static struct hv_dispatcher begun(void)
{
    struct hv_dispatcher dispatcher = {
        .n = 3,
        .tasks = {{0, 1, 5, 5}, {0, 2, 10, 10}, {0, 6, 20, 20}},
        .next_jobs = {1, 0, 0},
        .id_offset = 59,
        .pv_offsets = {67, 67, 76},
        .id_offset_at_start = 59,
        .pv_offsets_at_start = {67, 67, 76},
    };
    return dispatcher;
}

static void expect_begun(struct drive *drive)
{
    struct hv_dispatcher expected = begun();
    uint64_t where[2] = {1, 1};
    check(hv_begin(&drive->dispatcher, image, sizeof image, drive->start, where) == 0, "beginning is refused");
    check(where[0] == 0 && where[1] == 0, "beginning stores another place or offset than 0");
    check(is_start(drive->start, 0), "beginning answers another start");
    check(memcmp(&drive->dispatcher, &expected, sizeof expected) == 0, "beginning leaves another record");
}

/* Goes on with each job using its whole time, from one start to a later one. */
static void expect_starts(struct drive *drive, unsigned from, unsigned to)
{
    for (unsigned index = from + 1; index <= to; index++) {
        uint64_t end = drive->start[3] + declared[drive->start[0] % 3];
        check(hv_go_on(&drive->dispatcher, image, sizeof image, end, drive->start) == 0, "going on is refused");
        check(is_start(drive->start, index), "going on answers another start");
    }
}

/* Where the number has it so, the record is stopped, else it is kept; the start is kept. */
static void expect_refused(struct drive *drive, const uint8_t *table_image, uint64_t length, uint64_t end, uint32_t number, int stops)
{
    struct drive before = *drive;
    check(hv_go_on(&drive->dispatcher, table_image, length, end, drive->start) == number, "going on gives another number");
    check(memcmp(drive->start, before.start, sizeof before.start) == 0, "a refusal changes the start");
    if (stops)
        check(stopped(&drive->dispatcher), "a refusal that stops leaves a number");
    else
        check(memcmp(&drive->dispatcher, &before.dispatcher, sizeof before.dispatcher) == 0, "a refusal that keeps the record changes it");
}

/* Three cycles, the late end that stops, and a second beginning. */
static void three_cycles(struct drive *drive)
{
    started = 0;
    check(main_loop(drive, image, sizeof image) == 22, "the main loop ends with another number");
    check(started == LAST + 1, "the main loop runs another number of jobs");
    check(stopped(&drive->dispatcher), "a late end leaves a number");
    check(is_start(drive->start, LAST), "a late end changes the start");
    expect_refused(drive, image, sizeof image, 0, 23, 0);
    expect_begun(drive);
}

/* An end before the start keeps the record, so that the call can be made again with the right one. */
static void end_before_start(struct drive *drive)
{
    expect_begun(drive);
    expect_starts(drive, 0, JOBS + 2);
    expect_refused(drive, image, sizeof image, drive->start[3] - 1, 21, 0);
    expect_starts(drive, JOBS + 2, 2 * JOBS);
    expect_refused(drive, image, sizeof image, UINT64_MAX, 22, 1);
}

/* A new image is tried in a second record while the first one goes on; it idles for too long (P5), and a job would be late. */
static void trial(struct drive *drive)
{
    uint8_t other[sizeof image];
    struct hv_dispatcher second;
    uint64_t start[4] = {1, 2, 3, 4}, where[2] = {1, 1};
    memcpy(other, image, sizeof image);
    other[66] = 5;
    expect_begun(drive);
    expect_starts(drive, 0, 3);
    memset(&second, 1, sizeof second);
    check(hv_begin(&second, other, sizeof other, start, where) == 18 && where[0] == 4 && where[1] == 0, "the trial gives another refusal");
    check(stopped(&second), "a refused beginning leaves a number");
    check(start[0] == 1 && start[1] == 2 && start[2] == 3 && start[3] == 4, "a refused beginning changes the start");
    expect_starts(drive, 3, JOBS);
    check(hv_begin(&second, image, sizeof image, start, where) == 0 && where[0] == 0, "the trial is refused");
    check(is_start(start, 0), "the trial answers another start");
    expect_starts(drive, JOBS, 2 * JOBS);
}

/* An image that is changed or cut under the record stops it once the change is seen; so does a record that no run can reach. */
static void impossible(struct drive *drive)
{
    uint8_t other[sizeof image];
    memcpy(other, image, sizeof image);
    other[66] = 5;
    expect_begun(drive);
    expect_starts(drive, 0, 3);
    expect_refused(drive, other, sizeof other, drive->start[3], 25, 1);
    expect_begun(drive);
    check(hv_go_on(&drive->dispatcher, image, sizeof image - 1, 1, drive->start) == 0, "a cut EN is seen before an offset comes to it");
    check(is_start(drive->start, 1), "a cut EN changes a start");
    expect_refused(drive, image, sizeof image - 1, drive->start[3], 25, 1);
    expect_begun(drive);
    drive->dispatcher.running_job = 1;
    expect_refused(drive, image, sizeof image, 1, 25, 1);
}

/* Numbers in slots from n up change nothing and stay, over a cycle's change too. */
static void slots_above(struct drive *drive)
{
    struct hv_dispatcher *dispatcher = &drive->dispatcher;
    expect_begun(drive);
    dispatcher->tasks[3][2] = 1;
    dispatcher->next_jobs[5] = 7;
    dispatcher->pv_offsets[15] = 1000;
    dispatcher->pv_offsets_at_start[4] = UINT32_MAX;
    expect_starts(drive, 0, 2 * JOBS);
    check(dispatcher->tasks[3][2] == 1 && dispatcher->next_jobs[5] == 7, "a task's slot from n up changes");
    check(dispatcher->pv_offsets[15] == 1000 && dispatcher->pv_offsets[4] == 0, "an offset from n up changes");
    check(dispatcher->pv_offsets_at_start[15] == 0 && dispatcher->pv_offsets_at_start[4] == UINT32_MAX, "an offset as at a cycle's start changes");
}

/* The last cycle has an end. */
static void last_cycle(struct drive *drive)
{
    uint64_t cycle = UINT32_MAX, end;
    expect_begun(drive);
    expect_starts(drive, 0, JOBS - 1);
    drive->dispatcher.cycle = UINT32_MAX;
    end = cycle * HYPERPERIOD + timetable[JOBS - 1][2] + declared[0];
    expect_refused(drive, image, sizeof image, end, 24, 0);
    drive->dispatcher.cycle = UINT32_MAX - 1;
    check(hv_go_on(&drive->dispatcher, image, sizeof image, end - HYPERPERIOD, drive->start) == 0, "the last cycle does not begin");
    check(drive->start[2] == cycle && drive->start[3] == cycle * HYPERPERIOD, "the last cycle begins elsewhere");
}

/* ---- The intake ---- */

/* The timetable image of the image. */
static const uint8_t timetable_image[114] = {
    0x54, 0x53, 0x01, 0x01, 0x03,
    0x54, 0x4B, 0x00, 0x00, 0x00, 0x00, 0x00, 0x00, 0x00, 0x01, 0x00, 0x00, 0x00, 0x05, 0x00, 0x00, 0x00, 0x05,
    0x54, 0x4B, 0x00, 0x00, 0x00, 0x00, 0x00, 0x00, 0x00, 0x02, 0x00, 0x00, 0x00, 0x0A, 0x00, 0x00, 0x00, 0x0A,
    0x54, 0x4B, 0x00, 0x00, 0x00, 0x00, 0x00, 0x00, 0x00, 0x06, 0x00, 0x00, 0x00, 0x14, 0x00, 0x00, 0x00, 0x14,
    0x53, 0x4C, 0x00, 0x00, 0x00, 0x00, 0x00, 0x53, 0x4C, 0x02, 0x00, 0x00, 0x00, 0x01, 0x53, 0x4C, 0x01, 0x00, 0x00, 0x00, 0x07,
    0x53, 0x4C, 0x00, 0x00, 0x00, 0x00, 0x09, 0x53, 0x4C, 0x00, 0x00, 0x00, 0x00, 0x0C, 0x53, 0x4C, 0x01, 0x00, 0x00, 0x00, 0x0D,
    0x53, 0x4C, 0x00, 0x00, 0x00, 0x00, 0x0F, 0x45, 0x4E, 0x00, 0x00, 0x00, 0x0B};

/* An intake and all that its calls are lent, between guards: no byte of it is without a meaning, so that after a call all of it can be compared. */
struct gateway {
    uint64_t before;
    struct hv_intake intake;
    uint64_t between, where[2], length, behind;
    uint8_t front[GUARD], buffer[ROOM], middle[GUARD], out[ROOM], back[GUARD];
};

static const struct hv_intake shut = {0, 0};

static int same(const struct gateway *now, const struct gateway *expected)
{
    return memcmp(now, expected, sizeof *now) == 0;
}

static void expect_opened(struct gateway *gateway)
{
    struct gateway expected = *gateway;
    expected.intake = (struct hv_intake){1, 0};
    hv_intake_begin(&gateway->intake);
    check(same(gateway, &expected), "beginning an intake leaves other numbers, or writes beside them");
}

static void expect_taken(struct gateway *gateway, uint64_t room, const uint8_t *fragment, uint64_t length)
{
    struct gateway expected = *gateway;
    memcpy(expected.buffer + expected.intake.count, fragment, length);
    expected.intake.count += length;
    check(hv_intake_take(&gateway->intake, gateway->buffer, room, fragment, length) == 0, "a fragment that fits is refused");
    check(same(gateway, &expected), "a fragment that fits leaves other bytes or numbers");
}

static void expect_not_taken(struct gateway *gateway, uint64_t room, const uint8_t *fragment, uint64_t length)
{
    struct gateway expected = *gateway;
    expected.intake = shut;
    check(hv_intake_take(&gateway->intake, gateway->buffer, room, fragment, length) == 20, "a fragment gives another number than 20");
    check(same(gateway, &expected), "a fragment that is not taken leaves other bytes or numbers");
}

/* The close that judges. Where nothing is refused it tells how much was taken. */
static void expect_closed(struct gateway *gateway, uint64_t room, uint32_t number, uint64_t place, uint64_t offset)
{
    struct gateway expected = *gateway;
    if (number == 0)
        expected.length = expected.intake.count;
    expected.where[0] = place;
    expected.where[1] = offset;
    expected.intake = shut;
    check(hv_intake_close(&gateway->intake, gateway->buffer, room, gateway->where, &gateway->length) == number, "a close gives another number");
    check(same(gateway, &expected), "a close leaves other bytes or numbers");
}

/* The close that rebuilds. Where nothing is refused it writes the timetable image. */
static void expect_rebuilt(struct gateway *gateway, uint64_t room, uint64_t out_room, uint32_t number, uint64_t place, uint64_t offset)
{
    struct gateway expected = *gateway;
    if (number == 0) {
        expected.length = sizeof timetable_image;
        memcpy(expected.out, timetable_image, sizeof timetable_image);
    }
    expected.where[0] = place;
    expected.where[1] = offset;
    expected.intake = shut;
    check(hv_intake_rebuild(&gateway->intake, gateway->buffer, room, gateway->out, out_room, gateway->where, &gateway->length) == number,
          "a close that rebuilds gives another number");
    check(same(gateway, &expected), "a close that rebuilds leaves other bytes or numbers");
}

/* The image in fragments of so many bytes, the last one shorter, with one of length 0 in front of each and behind the last. */
static void expect_all_taken(struct gateway *gateway, uint64_t room, size_t size)
{
    expect_opened(gateway);
    for (size_t at = 0; at < sizeof image; at += size) {
        expect_taken(gateway, room, image + at, 0);
        expect_taken(gateway, room, image + at, at + size < sizeof image ? size : sizeof image - at);
    }
    expect_taken(gateway, room, image, 0);
}

/* Every call on an intake that is shut gives 20. */
static void expect_shut(struct gateway *gateway)
{
    struct hv_intake before = gateway->intake;
    expect_not_taken(gateway, ROOM, image, 0);
    gateway->intake = before;
    expect_not_taken(gateway, ROOM, image, 1);
    gateway->intake = before;
    expect_closed(gateway, ROOM, 20, 0, 0);
    gateway->intake = before;
    expect_rebuilt(gateway, ROOM, ROOM, 20, 0, 0);
}

/* However it is cut, in a buffer that it just fills and in a longer one, the image is accepted, dispatched from the buffer, and rebuilt. */
static void cuts(struct gateway *gateway)
{
    static const size_t sizes[] = {1, 2, 7, 8, 64, 90, sizeof image};
    for (size_t i = 0; i < sizeof sizes / sizeof *sizes; i++) {
        struct drive drive = new_drive(0);
        expect_all_taken(gateway, sizeof image, sizes[i]);
        expect_closed(gateway, sizeof image, 0, 0, 0);
        started = 0;
        check(main_loop(&drive, gateway->buffer, gateway->length) == 22, "the main loop over the buffer ends with another number");
        check(started == LAST + 1, "the main loop over the buffer runs another number of jobs");
        expect_shut(gateway);
        expect_all_taken(gateway, ROOM, sizes[i]);
        expect_rebuilt(gateway, ROOM, sizeof timetable_image, 0, 0, 0);
        expect_shut(gateway);
    }
}

/* A buffer that is a byte too short; one that is full, and takes nothing more but fragments of length 0; and what the other calls of one that was shut give. */
static void too_long(struct gateway *gateway)
{
    expect_opened(gateway);
    expect_not_taken(gateway, sizeof image - 1, image, sizeof image);
    expect_shut(gateway);
    expect_opened(gateway);
    expect_taken(gateway, sizeof image - 1, image, sizeof image - 1);
    expect_taken(gateway, sizeof image - 1, image, 0);
    expect_not_taken(gateway, sizeof image - 1, image + sizeof image - 1, 1);
    expect_shut(gateway);
    expect_opened(gateway);
    expect_taken(gateway, 0, image, 0);
    expect_not_taken(gateway, 0, image, 1);
    expect_all_taken(gateway, sizeof image, 8);
    expect_not_taken(gateway, sizeof image, image, 1);
    expect_all_taken(gateway, ROOM, 8);
    expect_rebuilt(gateway, ROOM, sizeof timetable_image - 1, 20, 0, 0);
    expect_shut(gateway);
}

/* A count above the room is 20 whatever the call, also where the count and a fragment together come round to a small number. */
static void count_above_room(struct gateway *gateway)
{
    static const uint64_t counts[] = {sizeof image + 1, UINT64_C(1) << 32, (UINT64_C(1) << 32) + 1, UINT64_MAX - 1, UINT64_MAX};
    for (size_t i = 0; i < sizeof counts / sizeof *counts; i++) {
        struct hv_intake forged = {1, counts[i]};
        gateway->intake = forged;
        expect_not_taken(gateway, sizeof image, image, 1);
        gateway->intake = forged;
        expect_not_taken(gateway, sizeof image, image, 0);
        gateway->intake = forged;
        expect_not_taken(gateway, sizeof image, image, sizeof image);
        gateway->intake = forged;
        expect_closed(gateway, sizeof image, 20, 0, 0);
        gateway->intake = forged;
        expect_rebuilt(gateway, sizeof image, ROOM, 20, 0, 0);
        expect_shut(gateway);
    }
}

/* Open is 1 and nothing else, with the whole image in the buffer. */
static void other_than_open(struct gateway *gateway)
{
    static const uint64_t opens[] = {0, 2, 255, UINT64_C(1) << 32, (UINT64_C(1) << 32) + 1, UINT64_C(1) << 63, UINT64_MAX};
    expect_all_taken(gateway, ROOM, sizeof image);
    for (size_t i = 0; i < sizeof opens / sizeof *opens; i++) {
        gateway->intake = (struct hv_intake){opens[i], sizeof image};
        expect_shut(gateway);
    }
    gateway->intake = (struct hv_intake){1, sizeof image};
    expect_closed(gateway, ROOM, 0, 0, 0);
}

/* No bytes, an image that ends too soon, and one that idles too long (P5): the closing refusal is that of the image, whatever the output's length. */
static void refused_images(struct gateway *gateway)
{
    static const uint8_t five = 5;
    for (int i = 0; i < 2; i++) {
        expect_opened(gateway);
        expect_closed(gateway, i * ROOM, 1, 0, 0);
        expect_opened(gateway);
        expect_rebuilt(gateway, i * ROOM, i * ROOM, 1, 0, 0);
        expect_opened(gateway);
        expect_taken(gateway, ROOM, image, 85);
        expect_closed(gateway, ROOM, 1, 7, 85);
        expect_opened(gateway);
        expect_taken(gateway, ROOM, image, 66);
        expect_taken(gateway, ROOM, &five, 1);
        expect_taken(gateway, ROOM, image + 67, sizeof image - 67);
        expect_rebuilt(gateway, ROOM, i * ROOM, 18, 4, 0);
    }
}

/* The buffer lies elsewhere and has another length at each call; the two numbers go with it. A close over less than was taken is 20. */
static void moved(struct gateway *gateway)
{
    struct gateway other = *gateway;
    expect_opened(gateway);
    expect_taken(gateway, 50, image, 50);
    memcpy(other.buffer, gateway->buffer, 50);
    other.intake = gateway->intake;
    expect_taken(&other, ROOM, image + 50, sizeof image - 50);
    memcpy(gateway->buffer, other.buffer, sizeof image);
    gateway->intake = other.intake;
    expect_closed(gateway, sizeof image, 0, 0, 0);
    gateway->intake = other.intake;
    expect_closed(gateway, sizeof image - 1, 20, 0, 0);
    expect_rebuilt(&other, sizeof image, sizeof timetable_image, 0, 0, 0);
}

/* Takes in the front of an image up to one byte and then the rest from another byte on; gives what the close does. */
static uint32_t closed(struct gateway *gateway, const uint8_t *bytes, size_t length, size_t to, size_t from)
{
    hv_intake_begin(&gateway->intake);
    check(hv_intake_take(&gateway->intake, gateway->buffer, ROOM, bytes, to) == 0, "the front of an image is refused");
    check(hv_intake_take(&gateway->intake, gateway->buffer, ROOM, bytes + from, length - from) == 0, "the rest of an image is refused");
    return hv_intake_close(&gateway->intake, gateway->buffer, ROOM, gateway->where, &gateway->length);
}

/* Whatever stretch of an image is lost, or comes twice, the close refuses the rest; here of P2, and of an image with numbers that look like marks: two tasks of
 * period and deadline 54 53, of which the second one starts first, both released at 0, after an idle of 49 44. */
static void lost_and_twice(struct gateway *gateway)
{
    static const uint8_t marks[64] = {0x54, 0x53, 0x01, 0x02, 0x02,
                                      0x54, 0x4B, 0x00, 0x00, 0x00, 0x00, 0x00, 0x00, 0x00, 0x01, 0x00, 0x00, 0x54, 0x53, 0x00, 0x00, 0x54, 0x53,
                                      0x54, 0x4B, 0x00, 0x00, 0x00, 0x00, 0x00, 0x00, 0x00, 0x02, 0x00, 0x00, 0x54, 0x53, 0x00, 0x00, 0x54, 0x53,
                                      0x49, 0x44, 0x00, 0x00, 0x00, 0x00, 0x49, 0x44,
                                      0x50, 0x56, 0x01, 0x00, 0x00, 0x00, 0x00, 0x49, 0x44,
                                      0x45, 0x4E, 0x00, 0x00, 0x00, 0x05};
    for (int i = 0; i < 2; i++) {
        const uint8_t *bytes = i ? marks : image;
        size_t length = i ? sizeof marks : sizeof image;
        for (size_t to = 0; to <= length; to++) {
            for (size_t from = 0; from <= length; from++) {
                uint32_t number = closed(gateway, bytes, length, to, from);
                check((number == 0) == (to == from), "an image with a stretch lost or twice is accepted, or a whole one refused");
                check(i == 1 || number <= 5 || number == 10, "P2 with a stretch lost or twice gives another number than 1 to 5 and 10");
            }
        }
    }
}

/* What no close can find: fragments in another order that still are an image. Two tasks of one period, each in a fragment of its own, are exchanged. */
static void exchanged(struct gateway *gateway)
{
    static const uint8_t head[5] = {0x54, 0x53, 0x01, 0x02, 0x02}, end[6] = {0x45, 0x4E, 0x00, 0x00, 0x00, 0x03};
    static const uint8_t tasks[2][18] = {{0x54, 0x4B, 0x00, 0x00, 0x00, 0x00, 0x00, 0x00, 0x00, 0x01, 0x00, 0x00, 0x00, 0x0A, 0x00, 0x00, 0x00, 0x0A},
                                         {0x54, 0x4B, 0x00, 0x00, 0x00, 0x00, 0x00, 0x00, 0x00, 0x02, 0x00, 0x00, 0x00, 0x0A, 0x00, 0x00, 0x00, 0x0A}};
    for (int first = 0; first < 2; first++) {
        expect_opened(gateway);
        expect_taken(gateway, ROOM, head, sizeof head);
        expect_taken(gateway, ROOM, tasks[first], sizeof tasks[first]);
        expect_taken(gateway, ROOM, tasks[1 - first], sizeof tasks[1 - first]);
        expect_taken(gateway, ROOM, end, sizeof end);
        expect_closed(gateway, ROOM, 0, 0, 0);
    }
}

int main(void)
{
    static const int fillings[2] = {0x5A, 0xA5};
    static void (*const tests[])(struct drive *) = {three_cycles, end_before_start, trial, impossible, slots_above, last_cycle};
    static void (*const intake_tests[])(struct gateway *) = {cuts,           too_long, count_above_room, other_than_open,
                                                             refused_images, moved,    lost_and_twice,   exchanged};
    for (size_t i = 0; i < 2; i++) {
        for (size_t j = 0; j < sizeof tests / sizeof *tests; j++) {
            struct drive drive = new_drive(fillings[i]);
            tests[j](&drive);
            check(guarded(&drive, fillings[i]), "a call writes beside the record or the start");
        }
        for (size_t j = 0; j < sizeof intake_tests / sizeof *intake_tests; j++) {
            struct gateway gateway;
            memset(&gateway, fillings[i], sizeof gateway);
            intake_tests[j](&gateway);
        }
    }
    printf("%u checks, %u failed\n", checks, failed);
    return failed > 0 || checks == 0;
}
