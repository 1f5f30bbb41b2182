/* Hervantyu: schedule images judged, derived, rebuilt, dispatched from and measured, for the far end of the cable.
 *
 * Every function but hv_intake_begin, which refuses nothing, returns the number of the refusal, 0 where nothing is refused. A function that judges an image
 * stores in where[0] the refusal's place and in where[1] the byte offset, in that image, of the record that the place names; both are 0 where nothing is
 * refused. hv_judge_set stores the place alone, in *place: a set in memory has no bytes. hv_go_on and hv_intake_take store neither, both would be 0. On a
 * refusal every other number and every byte that was lent stays as it was, but for a dispatcher's record and an intake, which are then what their functions
 * say below.
 *
 * What the caller sees to, and no call tests: no pointer is null, also where a length is 0; numbers are aligned as C aligns them (images may begin at any
 * byte); a length is that of the memory behind its pointer; no two regions that are lent to one call overlap, so an image cannot be turned into its other
 * kind in place, nor a fragment be taken out of the buffer that it goes to; and nothing else changes what was lent while the call runs. Nothing is promised to
 * a caller that does not keep to this.
 *
 * A length has 64 bits on every processor, also where a pointer and a size_t have 32: the proved code has 64-bit lengths, and only addresses are narrower there.
 * Nothing but numbers of 32 and of 64 bits and pointers crosses this border. A length that a caller keeps as size_t is widened by its C compiler.
 *
 * No function keeps anything between calls: calls may run at the same time where none writes what another one is lent, and an image, which is only read, may
 * be lent to several.
 *
 * docs/FORMAT.md has the bytes of an image, docs/REFUSALS.md each number with its causes and an image that gives it, docs/INTEGRATION.md the main loop of a
 * drive and the theorem behind each promise.
 *
 * The numbers and the order in which they come:
 *   1, 2, 3, 4, 5, 10   framing of the whole image, record by record: fewer than two bytes left or bytes end before EN (1), a mark that is not allowed
 *                       there (2), a body that is cut (1), edition not 1 (3), not the kind wanted (4), n not 1 to 16 (5), EN's number wrong or bytes
 *                       behind EN (10); hv_figures takes an image up to its EN, so that its 10 is a wrong number alone
 *   6, 7, 8, 9          the task set: tasks in turn by 6 (its own rule) and 7 (its period below the one before), then hyperperiod above 65,535 (8), more
 *                       than 4,096 jobs a cycle (9)
 *   11 to 16            the entries of a timetable in turn: task number (11), too many jobs (12), before release (13), overlap (14), late (15); then a
 *                       job is missing (16)
 *   17, 18, 19          the records of tables: in turn, one breaks its own rule or comes out of its turn (17); then their replay, a job would start too
 *                       late for its deadline (18); then a record changes nothing, the replayed timetable's own tables are without it (19)
 *   20                  the result is longer than the lent output; and, before everything else, for an intake: it is shut, its count is above the length of the
 *                       lent buffer, or a fragment does not fit behind what was taken
 *   21 to 25            going on from a dispatcher's state, see hv_go_on
 * A place is the index of the record at fault, from 0 (TS is 0, the TK of task i is 1 + i); for 8, 9 and 20 it is 0, for 16 the lowest task number with a
 * job missing, for 18 the index of the late job among the starts, from 0.
 * A byte offset is that of the record's first byte, from 0: for 1 it is where the record starts or would start, which may be the byte behind the last one. For
 * 8, 9, 16, 18 and 20, whose place is no record of the image, it is 0.
 */
#ifndef HERVANTYU_H
#define HERVANTYU_H

#include <stdint.h>

#ifdef __cplusplus
#define HV_RESTRICT
#define HV_LENT(count)
extern "C" {
#else
#define HV_RESTRICT restrict
#define HV_LENT(count) restrict static count
#endif

/* Judges a set in memory: n tasks, each O, C, T, D, one after the other. All 64 numbers are lent whatever n is; those behind the first 4 * n change nothing.
 * Gives 5 to 9, with the places that the set's records would have in an image. Where the set is good, *hyperperiod and *jobs are what its cycle comes to. */
uint32_t hv_judge_set(uint32_t n, const uint32_t tasks[HV_LENT(64)], uint64_t *HV_RESTRICT place, uint32_t *HV_RESTRICT hyperperiod,
                      uint32_t *HV_RESTRICT jobs);

/* Checks a timetable image: accepted exactly when it is the image of a good set and a valid timetable. Gives 1 to 16. */
uint32_t hv_check_timetable(const uint8_t *HV_RESTRICT image, uint64_t len, uint64_t where[HV_LENT(2)]);

/* Derives: turns a timetable image into its table image. Gives 1 to 16 as checking does, then 20. Where nothing is refused the table image fills the front of
 * out, *length is its length, and the bytes of out behind it keep their values. 11 + 18 * n + 17 * jobs bytes are always enough. */
uint32_t hv_derive(const uint8_t *HV_RESTRICT image, uint64_t len, uint8_t *HV_RESTRICT out, uint64_t room, uint64_t where[HV_LENT(2)],
                   uint64_t *HV_RESTRICT length);

/* Checks a table image: accepted exactly when it is the image of a good set and of the tables that a valid timetable of it has. Gives 1 to 10, 17, 18, 19. */
uint32_t hv_check_tables(const uint8_t *HV_RESTRICT image, uint64_t len, uint64_t where[HV_LENT(2)]);

/* Rebuilds: turns a table image into the image of the one valid timetable that has these tables. Gives 1 to 10, 17, 18, 19 as checking tables does, then 20.
 * Where nothing is refused the timetable image fills the front of out, *length is its length, and the bytes of out behind it keep their values. It has
 * 11 + 18 * n + 7 * jobs bytes. */
uint32_t hv_rebuild(const uint8_t *HV_RESTRICT image, uint64_t len, uint8_t *HV_RESTRICT out, uint64_t room, uint64_t where[HV_LENT(2)],
                    uint64_t *HV_RESTRICT length);

/* The state of a dispatcher: one record, kept by the drive's main loop and changed in place by every call. The stopped state has every number 0. Slots from n
 * up begin at 0, change no start and pass on as they are. The numbers have the processor's own byte order: the record is not for storage, nor for another
 * processor. Between calls it may be moved. Later editions add numbers. */
#define HV_SET_NUMBERS (1 + 16 * 4)                     /* n, and O, C, T, D of sixteen tasks: the record begins with them */
#define HV_DISPATCHER_NUMBERS (HV_SET_NUMBERS + 16 + 4 + 17 + 17)

struct hv_dispatcher {
    uint32_t n;
    uint32_t tasks[16][4];                                /* O, C, T, D */
    uint32_t next_jobs[16];                               /* of each task the number of its next job, H/T where none is left in the cycle */
    uint32_t cycle;
    uint32_t running_task, running_job, running_start;    /* the running job, with its start in the cycle */
    uint32_t id_offset, pv_offsets[16];                   /* byte offsets in the image: of the ID to be used next, of each task's next PV */
    uint32_t id_offset_at_start, pv_offsets_at_start[16]; /* the same as at a cycle's start */
};

#ifdef __cplusplus
static_assert(sizeof(struct hv_dispatcher) == HV_DISPATCHER_NUMBERS * sizeof(uint32_t), "a dispatcher's record is its numbers and nothing else");
#else
_Static_assert(sizeof(struct hv_dispatcher) == HV_DISPATCHER_NUMBERS * sizeof(uint32_t), "a dispatcher's record is its numbers and nothing else");
#endif

/* Begins: checks a table image as hv_check_tables does, and answers its first start: task, job, cycle (0), absolute time. Gives 1 to 10, 17, 18, 19 with the
 * places and offsets that checking has. What *d held before changes nothing, it need not be set. On a refusal *d is stopped and start keeps its numbers: to
 * try a new image while another one runs, begin with a second record. */
uint32_t hv_begin(struct hv_dispatcher *HV_RESTRICT d, const uint8_t *HV_RESTRICT image, uint64_t len, uint64_t start[HV_LENT(4)],
                  uint64_t where[HV_LENT(2)]);

/* Goes on: the running job has ended at the absolute time end; answers the next start: task, job, cycle, absolute time, which is cycle * H + the time in the
 * cycle. The job is to start at that time, not when the call returns: the processor is taken for the whole declared time, whatever end is reported within it.
 * On a refusal start keeps its numbers. The numbers in their order, and the state after each:
 *   23  *d is stopped; unchanged
 *   25  *d is impossible: its set breaks 5 to 9, a next job number is above H/T, or the running job is not the last one started of a task below n, starts
 *       before its release or ends late; stopped
 *   21  end is before the running job's start; unchanged, so that the call can be made again
 *   22  end is after the running job's start + C; stopped
 *   24  all jobs of cycle 4,294,967,295 have started; unchanged
 *   25  the bytes are impossible: no whole ID, PV or EN at the ID offset, no whole PV or EN at a task's, one of these records outside its own range, or a
 *       job that would start too late for its deadline; stopped (a record is whole where it ends inside the image and the offset after it is at most
 *       4,294,967,295)
 *
 * Guarantee, from hv_begin on, that every call is lent the accepted image with not a byte changed, and *d as the call before left it (both may lie
 * elsewhere), that each end lies from the start that was told to that start + C, and that no call on a record is interrupted by another call on it. Then the
 * starts are, in every cycle, those of the timetable that hv_rebuild gives, in its order and each at its time, and nothing is refused before cycle
 * 4,294,967,295 is over, and then with 24: so 25 never comes.
 * Whatever else is lent, any bytes and any numbers in *d, the call answers as above; a change is found (25) only where it makes bytes or state impossible. */
uint32_t hv_go_on(struct hv_dispatcher *HV_RESTRICT d, const uint8_t *HV_RESTRICT image, uint64_t len, uint64_t end, uint64_t start[HV_LENT(4)]);

/* An intake: an image that comes in fragments, of whatever lengths, is collected in a lent buffer and judged at a close. Its state is these two numbers, kept
 * by the caller beside the buffer and changed in place by every call. It is open where open is 1, and shut where open is anything else. count is how many bytes
 * were taken; they stand at the front of the buffer, and what stands behind them is never looked at. Every 20 that hv_intake_take gives and every close,
 * whatever it answers, leaves both numbers 0, also of an intake that was shut before: from then on every call gives 20 until hv_intake_begin.
 *
 * Guarantee, from hv_intake_begin on, that every call is lent *k as the call before left it, and a buffer whose first count bytes are as the call before left
 * them (both may lie elsewhere, and the buffer may have another length, at each call), and that no call on an intake is interrupted by another call on it or
 * on its buffer. Then a close answers what hv_check_tables, or hv_rebuild, answers for the fragments joined in one image: number, place, byte offset and
 * timetable, however that image was cut.
 * Whatever else is lent, any bytes and any two numbers in *k, each call answers as below. */
struct hv_intake {
    uint64_t open, count;
};

#ifdef __cplusplus
static_assert(sizeof(struct hv_intake) == 2 * sizeof(uint64_t), "an intake is its two numbers and nothing else");
#else
_Static_assert(sizeof(struct hv_intake) == 2 * sizeof(uint64_t), "an intake is its two numbers and nothing else");
#endif

/* Begins an intake: open 1, count 0. What *k held before changes nothing, it need not be set; and what was collected before is dropped. No buffer is lent, so
 * its bytes stay as they are. */
void hv_intake_begin(struct hv_intake *HV_RESTRICT k);

/* Takes a fragment of any length, 0 too: its bytes go to buffer[count] and on, and count grows by len. No other byte of the buffer is written. A fragment that
 * fills the buffer to its last byte fits. Gives 20 where the intake is shut, where count is above room (for a fragment of length 0 too), or where len is above
 * room - count; the buffer then keeps every byte, and both numbers of *k are 0. */
uint32_t hv_intake_take(struct hv_intake *HV_RESTRICT k, uint8_t *HV_RESTRICT buffer, uint64_t room, const uint8_t *HV_RESTRICT fragment, uint64_t len);

/* Closes and judges: the front of the buffer up to count is checked as hv_check_tables checks an image. Gives 20 where the intake is shut or count is above
 * room; else 1 to 10, 17, 18, 19 as checking tables does, with nothing taken 1 at place 0 and byte 0. Where nothing is refused *length is the image's length,
 * which is count: buffer and *length are then ready for hv_begin. Whatever it answers, both numbers of *k are 0 after it. */
uint32_t hv_intake_close(struct hv_intake *HV_RESTRICT k, const uint8_t *HV_RESTRICT buffer, uint64_t room, uint64_t where[HV_LENT(2)],
                         uint64_t *HV_RESTRICT length);

/* Closes, judges and rebuilds: the front of the buffer up to count is turned into its timetable image as hv_rebuild turns an image. Gives 20 where the intake
 * is shut or count is above room; else 1 to 10, 17, 18, 19, then 20 where the timetable image is longer than out. Where nothing is refused it fills the front
 * of out, *length is its length, and the bytes of out behind it keep their values. Whatever it answers, both numbers of *k are 0 after it. */
uint32_t hv_intake_rebuild(struct hv_intake *HV_RESTRICT k, const uint8_t *HV_RESTRICT buffer, uint64_t room, uint8_t *HV_RESTRICT out, uint64_t out_room,
                           uint64_t where[HV_LENT(2)], uint64_t *HV_RESTRICT length);

/* The figures of an axis, for hosts: how full the cycle of a table image is. A machine has a line of axes, whose images stand one behind the other: bytes
 * behind an EN begin the next image. The figures are, in this order:
 *   - busy ticks, forced idle (idle ticks at which a job is released and not started) and other idle; they add up to the hyperperiod;
 *   - of each task the lateness of its worst job, end less deadline: 0 or below;
 *   - of each interval of the cycle its spare capacity, which may be below 0. An interval ends at a deadline, begins at the later of the least release of the
 *     jobs that are due then and the end of the interval before, and holds these jobs; a stretch of the cycle outside of these is an interval without jobs. The
 *     capacity is the length less the declared times of its jobs, plus the next interval's capacity where that is below 0.
 * There are 3 + n + intervals figures: at most an interval with jobs and one without for each of 4,096 jobs, and one without at the end. */
#define HV_FIGURES_MOST (3 + 16 + 2 * 4096 + 1)

/* Stores the figures of the table image at the front of images, which is judged up to its EN as hv_check_tables judges an image; bytes behind EN are left
 * alone. Gives 1 to 10, 17, 18, 19, then 20 where there are more than room figures. A place and a byte offset count from the front of images. Where nothing is
 * refused the figures fill the front of figures, *count is how many they are, *used is how many bytes the image has, EN among them, and the numbers of figures
 * behind them keep their values. The next image of the line begins at images[*used]; where *used is len the line is over.
 * It rebuilds the timetable on its stack, some 32 KiB: no function for a drive. */
uint32_t hv_figures(const uint8_t *HV_RESTRICT images, uint64_t len, int64_t *HV_RESTRICT figures, uint64_t room, uint64_t where[HV_LENT(2)],
                    uint64_t *HV_RESTRICT count, uint64_t *HV_RESTRICT used);

#ifdef __cplusplus
}
#endif

#endif
