/* The program of docs/INTEGRATION.md: all C of that page stands here, and tests/refused.sh builds and runs it.
 *
 *     manual IMAGE NEW_IMAGE JOBS [SENDING...]
 *
 * dispatches IMAGE for so many jobs and writes task, job, start and end of each in the drive's own time. When it has begun, NEW_IMAGE comes over a bus and is
 * tried in a second record; where it is accepted it takes over at the next cycle, where it is refused that is written and nothing else changes. Each SENDING is
 * one try, until one is accepted: LENGTH[-LOST][+TWICE][/ROOM], the length of a fragment, the index from 0 of one that is lost and of one that comes twice, and
 * the length of the drive's buffer. Without any the image comes once, in one fragment. */
#include "hervantyu.h"

#include <stdio.h>
#include <stdlib.h>

/* ---- Stand-ins for the drive's own: clock, power, the tasks' code ---- */

static uint64_t ticks;
static unsigned long jobs_to_run;

static int powered(void)
{
    return jobs_to_run-- > 0;
}

static void wait_until(uint64_t time)
{
    if (ticks < time)
        ticks = time;
}

/* Every second job ends before its declared time is over. */
static void work(uint32_t declared)
{
    ticks += jobs_to_run % 2 ? declared / 2 : declared;
}

/* ---- Stand-in for the bus: a gateway sends an image in fragments ---- */

static struct {
    const uint8_t *image;
    uint64_t length, sent, fragment; /* how long the image is, how much of it was sent, how long a fragment is */
    uint64_t index, lost, twice;     /* which fragment comes next, is lost, comes twice */
} bus;

/* Waits for the next fragment; 0 where the gateway says that the image is over. */
static int next_fragment(const uint8_t **fragment, uint64_t *size)
{
    if (bus.index == bus.lost) {
        bus.index++;
        bus.sent += bus.fragment;
    }
    if (bus.sent >= bus.length)
        return 0;
    *fragment = bus.image + bus.sent;
    *size = bus.length - bus.sent < bus.fragment ? bus.length - bus.sent : bus.fragment;
    if (bus.index == bus.twice) {
        bus.twice = UINT64_MAX;
        return 1;
    }
    bus.index++;
    bus.sent += *size;
    return 1;
}

/* ---- A plan: an image and the record that goes with it ---- */

struct plan {
    const uint8_t *image; /* lent to every call with not a byte changed, for as long as the plan runs */
    uint64_t length;
    struct hv_dispatcher dispatcher; /* changed by the calls and by nothing else */
    uint64_t start[4];               /* the start that was told last: task, job, cycle, absolute time */
    uint64_t zero;                   /* the drive's time at the plan's time 0 */
    uint32_t hyperperiod;
};

/* Begins an image in a plan that does not run. Gives 0, or the number of the refusal, with its place and byte offset in where. */
static uint32_t begin_plan(struct plan *plan, const uint8_t *image, uint64_t length, uint64_t where[2])
{
    uint32_t jobs, number = hv_begin(&plan->dispatcher, image, length, plan->start, where);
    if (number != 0)
        return number;
    plan->image = image;
    plan->length = length;
    return hv_judge_set(plan->dispatcher.n, (const uint32_t *)plan->dispatcher.tasks, &where[0], &plan->hyperperiod, &jobs);
}

/* Waits for the start that was told, runs the job, and gives back when it ended, in the plan's time. */
static uint64_t run_job(const struct plan *plan)
{
    uint32_t declared = plan->dispatcher.tasks[plan->start[0]][1];
    uint64_t start = plan->zero + plan->start[3];
    wait_until(start);
    work(declared);
    printf("%u %u %llu %llu\n", (unsigned)plan->start[0], (unsigned)plan->start[1], (unsigned long long)start, (unsigned long long)(start + declared));
    return ticks - plan->zero;
}

/* The main loop. A waiting plan takes over where a cycle of the running one is over. Gives back the number of the refusal that ended it, upon which a drive
 * goes to its safe state. */
static uint32_t main_loop(struct plan *running, struct plan *waiting)
{
    while (powered()) {
        uint64_t cycle = running->start[2];
        uint64_t end = run_job(running);
        uint32_t number = hv_go_on(&running->dispatcher, running->image, running->length, end, running->start);
        if (number != 0)
            return number;
        if (waiting != NULL && running->start[2] != cycle) {
            waiting->zero = running->zero + running->start[2] * running->hyperperiod;
            running = waiting;
            waiting = NULL;
        }
    }
    return 0;
}

/* ---- An image that comes in fragments ---- */

/* Takes in an image, fragment by fragment as the bus brings it, into a buffer that no plan runs from, and judges it when it is over. Gives 0 and the image's
 * length, or the number of the refusal, with its place and byte offset in where. */
static uint32_t receive_image(uint8_t *buffer, uint64_t room, uint64_t where[2], uint64_t *length)
{
    struct hv_intake intake;
    const uint8_t *fragment;
    uint64_t size;
    hv_intake_begin(&intake);
    while (next_fragment(&fragment, &size))
        if (hv_intake_take(&intake, buffer, room, fragment, size) != 0)
            break; /* 20: the intake is shut now, so the close gives 20 too */
    return hv_intake_close(&intake, buffer, room, where, length);
}

/* ---- The program ---- */

enum { LONGEST = 69931 }; /* no image that is accepted is longer */

static size_t read_image(const char *name, uint8_t *bytes)
{
    FILE *file = fopen(name, "rb");
    size_t length;
    if (file == NULL) {
        perror(name);
        exit(2);
    }
    length = fread(bytes, 1, LONGEST, file);
    if (fgetc(file) != EOF) {
        fprintf(stderr, "%s is longer than %d bytes\n", name, LONGEST);
        exit(2);
    }
    fclose(file);
    return length;
}

static void print_refusal(const char *what, uint32_t number, const uint64_t where[2])
{
    printf("%s refused %u %llu %llu\n", what, (unsigned)number, (unsigned long long)where[0], (unsigned long long)where[1]);
}

static void misused(void)
{
    fprintf(stderr, "usage: manual IMAGE NEW_IMAGE JOBS [SENDING...], a SENDING being LENGTH[-LOST][+TWICE][/ROOM]\n");
    exit(2);
}

/* Has the gateway send the image as a SENDING says; gives the length of the buffer that the drive has for it. */
static uint64_t send_image(const uint8_t *image, uint64_t length, const char *sending)
{
    char *at;
    uint64_t room;
    bus.image = image;
    bus.length = length;
    bus.sent = bus.index = 0;
    bus.fragment = strtoull(sending, &at, 10);
    bus.lost = *at == '-' ? strtoull(at + 1, &at, 10) : UINT64_MAX;
    bus.twice = *at == '+' ? strtoull(at + 1, &at, 10) : UINT64_MAX;
    room = *at == '/' ? strtoull(at + 1, &at, 10) : LONGEST;
    if (*at != 0 || bus.fragment == 0 || room > LONGEST)
        misused();
    return room;
}

/* Tries an image that comes over the bus, as often as it is sent or until it is accepted; gives back whether it was. */
static int receive_plan(struct plan *plan, const char *name, int sendings, char **sending)
{
    static uint8_t sent[LONGEST], buffer[LONGEST];
    uint64_t length = read_image(name, sent), taken, where[2];
    for (int i = 0; i < sendings; i++) {
        uint64_t room = send_image(sent, length, sending[i]);
        uint32_t number = receive_image(buffer, room, where, &taken);
        if (number == 0)
            number = begin_plan(plan, buffer, taken, where);
        if (number == 0)
            return 1;
        print_refusal("new image", number, where);
    }
    return 0;
}

int main(int count, char **arguments)
{
    static char whole[] = "69931", *once[] = {whole};
    static uint8_t image[LONGEST];
    static struct plan first, second;
    uint64_t where[2];
    uint32_t number;
    int accepted;
    if (count < 4)
        misused();
    jobs_to_run = strtoul(arguments[3], NULL, 10);
    number = begin_plan(&first, image, read_image(arguments[1], image), where);
    if (number != 0) {
        print_refusal("image", number, where);
        return 1;
    }
    accepted = receive_plan(&second, arguments[2], count > 4 ? count - 4 : 1, count > 4 ? arguments + 4 : once);
    number = main_loop(&first, accepted ? &second : NULL);
    if (number != 0)
        print_refusal("going on", number, (const uint64_t[]){0, 0});
    return number != 0;
}
