/* A drive on a Cortex-M4, with no operating system and no C library: the table image IMAGE is dispatched for three cycles by the SysTick timer, a tick a
 * millisecond. A line is printed for each job: task, job, the tick at which it began, and the tick by which it has to be over. */
#include "board.h"
#include "hervantyu.h"

/* The image, in flash as it is in its file. It may begin at any byte: here it begins at an odd one, for the trial. */
__asm__(".pushsection .rodata\n.balign 2\n.byte 0\nimage: .incbin \"" IMAGE "\"\nimage_end:\n.popsection");
extern const uint8_t image[], image_end[];

static struct hv_dispatcher dispatcher; /* changed by the calls and by nothing else */
static uint64_t start[4];               /* the start that was told last: task, job, cycle, time */
static volatile uint64_t ticks;

void tick(void) { ticks++; }

/* Sleeps until a time has come, and gives back what it is then. No interrupt may come between the look at the clock, which is two words, and the sleep; one that
 * waits ends the sleep. */
static uint64_t wait_until(uint64_t time)
{
    for (;;) {
        __asm__ volatile("cpsid i" ::: "memory");
        uint64_t now = ticks;
        if (now < time) __asm__ volatile("wfi");
        __asm__ volatile("cpsie i\nisb" ::: "memory");
        if (now >= time) return now;
    }
}

/* Stands for the drive's own work, and gives back when it ended: jobs take none of their declared time, half of it and all of it in turn. */
static uint64_t work(uint64_t began, uint32_t declared)
{
    static uint32_t jobs;
    return wait_until(began + declared * (jobs++ % 3) / 2);
}

void run(void)
{
    uint64_t where[2], length = (uint64_t)(image_end - image);
    uint32_t number = hv_begin(&dispatcher, image, length, start, where);
    if (number != 0) end_run("image refused", (uint64_t[]){number, where[0], where[1]}, 3);
    start_clock();
    while (start[2] < 3) {
        uint32_t declared = dispatcher.tasks[start[0]][1];
        uint64_t began = wait_until(start[3]);
        print_line("", (uint64_t[]){start[0], start[1], began, began + declared}, 4);
        number = hv_go_on(&dispatcher, image, length, work(began, declared), start);
        if (number != 0) end_run("stopped", (uint64_t[]){number}, 1);
    }
    end_run(NULL, NULL, 0);
}
