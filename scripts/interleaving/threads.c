// The threads of the explored program: coroutines that stop before each step, on x86-64.
#include "explorer.h"
#include <errno.h>
#include <stdlib.h>
#include <string.h>
#include <sys/mman.h>

enum { FIRST_NAME = 1000, CALL_FUTEX = 202, CALL_GETRANDOM = 318, ONE_SECOND = 1000000000 };

extern int explored_main(void);

struct thread threads[MOST_THREADS];
uint32_t thread_count, running;
int program_status;
static char *stacks;
static uint64_t explorer_stack;
// The return addresses of the calls around the next step of each thread.
static uint64_t next_frames[MOST_THREADS][MOST_FRAMES];

// Keeps the registers that a call keeps on the stack of one coroutine, and goes on with those of another.
void explored_switch(uint64_t *from, uint64_t to);
__asm__(".text\n"
        ".globl explored_switch\n"
        "explored_switch:\n"
        "push %rbp; push %rbx; push %r12; push %r13; push %r14; push %r15\n"
        "mov %rsp, (%rdi)\n"
        "mov %rsi, %rsp\n"
        "pop %r15; pop %r14; pop %r13; pop %r12; pop %rbx; pop %rbp\n"
        "ret\n");

static void to_explorer(void) { explored_switch(&threads[running].stack_pointer, explorer_stack); }

void run_thread(uint32_t thread) {
    running = thread;
    threads[thread].state = RUNS;
    explored_switch(&explorer_stack, threads[thread].stack_pointer);
}

// Each thread that was made or woken runs up to its next step.
void settle(void) {
    for (uint32_t t = 0; t < thread_count && outcome == GOES_ON; t++) {
        if (threads[t].state != RUNS) continue;
        run_thread(t);
        t = (uint32_t)-1;
    }
}

// The thread that runs makes no step any more.
void leave(void) {
    to_explorer();
    abort();
}

void end_program(void) {
    outcome = FINISHED;
    leave();
}

static void enter(void) {
    struct thread *me = &threads[running];
    if (running == 0) program_status = explored_main();
    else me->start(me->given);
    me->state = ENDED;
    leave();
}

void make_stacks(void) {
    uint64_t bytes = MOST_THREADS * (uint64_t)STACK_BYTES;
    stacks = mmap(NULL, bytes, PROT_READ | PROT_WRITE, MAP_PRIVATE | MAP_ANONYMOUS | MAP_NORESERVE, -1, 0);
}

void forget_threads(void) {
    thread_count = running = 0;
    program_status = 0;
    make_thread(NULL, NULL);
}

void make_thread(void *(*start)(void *), void *given) {
    if (thread_count >= MOST_THREADS) stop_here("the program starts too many threads");
    struct thread *made = &threads[thread_count];
    memset(made, 0, sizeof *made);
    made->start = start;
    made->given = given;
    uint64_t *top = (uint64_t *)(stacks + (thread_count + 1) * (uint64_t)STACK_BYTES - 64);
    *--top = 0;
    *--top = (uint64_t)enter;
    top -= 6; // the registers
    memset(top, 0, 6 * sizeof *top);
    made->stack_pointer = (uint64_t)top;
    made->state = RUNS;
    made->last_event = -1;
    made->past = mix(thread_count + 77);
    if (thread_count) memcpy(made->clock, threads[running].clock, sizeof made->clock);
    thread_count++;
}

// Loops. A thread that yields goes on alone if it saw other than in its round before. Its own past says so, or two orders
// of the same steps would differ.
static int goes_on_by_itself(const struct thread *thread) {
    return !thread->seen_count || (thread->round != thread->round_before && thread->free_rounds < MOST_YIELDS);
}

int can_go_on(uint32_t number) {
    const struct thread *it = &threads[number];
    if (it->state != READY) return 0;
    if (it->next.kind == JOIN) return threads[it->next.address].state == ENDED;
    if (it->next.kind == YIELD) return it->is_touched || goes_on_by_itself(it);
    return 1;
}

static int has_seen(const struct thread *it, uint64_t word) {
    for (uint32_t k = 0; k < it->seen_count; k++)
        if (it->seen[k] == word) return 1;
    return 0;
}

static void note_seen(struct thread *me, uint64_t word) {
    if (has_seen(me, word)) return;
    if (me->seen_count == MOST_SEEN) stop_here("a thread looks at too many words in one round");
    me->seen[me->seen_count++] = word;
}

// Threads that looked at this word may go on after their yields.
static void tell_those_who_saw(uint64_t word) {
    for (uint32_t t = 0; t < thread_count; t++) {
        struct thread *it = &threads[t];
        if (t == running || it->is_touched || !has_seen(it, word)) continue;
        it->is_touched = 1;
        if (it->state == READY && it->next.kind == YIELD && !goes_on_by_itself(it)) raise_clock(it->clock, threads[running].clock);
    }
}

static void note_frames(uint64_t *frame) {
    uint64_t *frames = next_frames[running];
    memset(frames, 0, sizeof next_frames[0]);
    for (int k = 0; k < MOST_FRAMES; k++) {
        if ((char *)frame < stacks || (char *)frame >= stacks + MOST_THREADS * (uint64_t)STACK_BYTES) return;
        frames[k] = frame[1];
        frame = (uint64_t *)frame[0];
    }
}

static int shows_what_it_found(enum kind kind) { return kind == LOAD || kind == SWAP || kind == EXCHANGE || kind == PARK; }

// Stops before this step until it is chosen, and answers its event.
static struct event *stop_before(struct step step) {
    struct thread *me = &threads[running];
    if (me->last_event >= 0) {
        const struct event *last = &events[me->last_event];
        me->round = mix(me->round + last->step.kind + (shows_what_it_found(last->step.kind) ? last->found * 977 : 0));
    }
    me->next = step;
    me->state = READY;
    if (request.way == REPLAY) note_frames(__builtin_frame_address(0));
    to_explorer();
    me->last_event = (int)depth - 1;
    struct event *event = &events[depth - 1];
    memcpy(event->frames, next_frames[running], sizeof event->frames);
    if (step.kind > EXCHANGE) return event;
    if (!is_live((void *)step.address)) stop_here("a step at a word that was freed");
    note_seen(me, step.address & ~7ull);
    if (step.kind != LOAD && changes_word(&step)) tell_those_who_saw(step.address & ~7ull);
    return event;
}

// An atomic instruction: what it leaves of what was there and of the values given to it. It is no step if it only counts a holder up.
#define ATOMIC(name, kind, bits, becomes)                                                                     \
    uint##bits##_t explored_##name##bits(uint##bits##_t *at, uint##bits##_t given, uint##bits##_t other, uint32_t site) { \
        struct step step = {kind, bits / 8, site, 0, (uint64_t)at, given, other};                             \
        struct event *event = explored_sites[site].count == COUNTS_UP ? NULL : stop_before(step);             \
        uint##bits##_t was = *at, is = (uint##bits##_t)(becomes);                                             \
        if (is != was) *at = is;                                                                              \
        if (event) event->found = was;                                                                        \
        return was;                                                                                           \
    }

#define ATOMICS(bits)                                                                                         \
    ATOMIC(load, LOAD, bits, was)                                                                             \
    ATOMIC(store, STORE, bits, given)                                                                         \
    ATOMIC(swap, SWAP, bits, given)                                                                           \
    ATOMIC(add, ADD, bits, was + given)                                                                       \
    ATOMIC(sub, SUB, bits, was - given)                                                                       \
    ATOMIC(and, AND, bits, was & given)                                                                       \
    ATOMIC(or, OR, bits, was | given)                                                                         \
    ATOMIC(xor, XOR, bits, was ^ given)                                                                       \
    ATOMIC(exchange, EXCHANGE, bits, was == given ? other : was)

ATOMICS(8)
ATOMICS(16)
ATOMICS(32)
ATOMICS(64)

int explored_pthread_create(uint64_t *name, void *attributes, void *(*start)(void *), void *given) {
    (void)attributes;
    make_thread(start, given);
    *name = FIRST_NAME + thread_count - 1;
    return 0;
}

int explored_pthread_join(uint64_t name, void **result) {
    uint64_t number = name - FIRST_NAME;
    stop_before((struct step){.kind = JOIN, .address = number});
    struct thread *me = &threads[running];
    raise_clock(me->clock, threads[number].clock);
    me->past = mix(me->past + threads[number].past);
    if (result) *result = NULL;
    return 0;
}

int explored_pthread_detach(void) { return 0; }

uint64_t explored_pthread_self(void) { return FIRST_NAME + running; }

int explored_sched_yield(void) {
    struct thread *me = &threads[running];
    stop_before((struct step){.kind = YIELD});
    me->free_rounds += me->seen_count && me->round != me->round_before && me->free_rounds < MOST_YIELDS;
    me->round_before = me->round;
    me->round = 0;
    me->last_event = -1;
    me->is_touched = 0;
    me->seen_count = 0;
    return 0;
}

// Sleeps while the word has this value. A time of less than a second of its own ends by itself.
static int64_t park(uint64_t address, uint32_t value, const int64_t *time) {
    int has_end = time && time[0] < ONE_SECOND;
    struct event *event = stop_before((struct step){.kind = PARK, .bytes = 4, .has_end = has_end, .address = address, .first = value});
    if (!is_live((void *)address)) stop_here("a thread parks at a word that was freed");
    struct thread *me = &threads[running];
    event->found = *(uint32_t *)address;
    if (event->found != value) return errno = EAGAIN, -1;
    me->state = SLEEPS;
    me->slept_at = address;
    me->slept_since = depth;
    me->overslept = 0;
    to_explorer();
    return me->overslept ? (errno = ETIMEDOUT, -1) : 0;
}

static struct thread *first_sleeper(uint64_t address) {
    struct thread *first = NULL;
    for (uint32_t t = 0; t < thread_count; t++) {
        struct thread *it = &threads[t];
        if (it->state == SLEEPS && it->slept_at == address && (!first || it->slept_since < first->slept_since)) first = it;
    }
    return first;
}

static int64_t wake(uint64_t address, uint64_t most) {
    struct event *event = stop_before((struct step){.kind = WAKE, .bytes = 4, .address = address, .first = most});
    struct thread *me = &threads[running], *sleeper;
    int64_t woken = 0;
    for (; (uint64_t)woken < most && (sleeper = first_sleeper(address)); woken++) {
        sleeper->state = RUNS;
        raise_clock(sleeper->clock, me->clock);
        sleeper->past = mix(sleeper->past + me->past);
    }
    event->found = (uint64_t)woken;
    return woken;
}

int64_t explored_syscall(int64_t number, uint64_t first, uint64_t second, uint64_t third, void *fourth, ...) {
    if (number == CALL_FUTEX && (second & 127) == 0) return park(first, (uint32_t)third, fourth);
    if (number == CALL_FUTEX && (second & 127) == 1) return wake(first, third);
    if (number == CALL_GETRANDOM) return explored_getrandom((uint8_t *)first, second);
    stop_here("the program makes system call %ld, which is not known here", (long)number);
}
