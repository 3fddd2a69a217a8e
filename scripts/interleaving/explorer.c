// Runs the executions, and says what was found. `explorer.h` says what all this is.
#include "explorer.h"
#include <signal.h>
#include <stdarg.h>
#include <stdio.h>
#include <stdlib.h>
#include <string.h>
#include <time.h>
#include <unistd.h>

enum { SPARE_TURNS = 3 };

extern char __start_explored_words[] __attribute__((weak)), __stop_explored_words[] __attribute__((weak));

struct event events[MOST_STEPS];
uint32_t depth;
enum outcome outcome;
char reason[300];
struct request request;

static uint64_t executions, cut, unfair, longest, most_threads, blocks_at_first = ~0ull;
static char *words_at_first;
static struct timespec begun;
static uint32_t spare_turns[MOST_THREADS];
static const char *const kinds[] = {"-", "load", "store", "swap", "add", "sub", "and", "or", "xor", "cas", "park", "wake", "yield", "join"};

// The first fault of an execution is the one that is told.
void note_fault(const char *form, ...) {
    if (outcome == FAILED) return;
    va_list rest;
    va_start(rest, form);
    vsnprintf(reason, sizeof reason, form, rest);
    va_end(rest);
    outcome = FAILED;
}

static double seconds(void) {
    struct timespec now;
    clock_gettime(CLOCK_MONOTONIC, &now);
    return (double)(now.tv_sec - begun.tv_sec) + (double)(now.tv_nsec - begun.tv_nsec) / 1e9;
}

// What the threads saw in the executions that end, as one number: two ways have to find the same.
static struct table ends = {.size = 1 << 22};
static uint64_t end_sum;

static void note_end(void) {
    uint64_t saw[MOST_THREADS] = {0}, all = 0;
    for (uint32_t k = 0; k < depth; k++) {
        const struct event *it = &events[k];
        enum kind kind = it->step.kind;
        if (kind <= EXCHANGE && explored_sites[it->step.site].count != NO_COUNT) continue;
        int shows = kind <= EXCHANGE || kind == PARK;
        saw[it->thread] = mix(saw[it->thread] + kind * 31 + (shows && kind != STORE ? it->found * 977 : 0));
    }
    for (uint32_t t = 0; t < thread_count; t++) all = mix(all + saw[t]);
    uint64_t before = ends.count;
    if (!is_in(&ends, all | 1) && ends.count > before) end_sum += mix(all | 1);
}

static void begin_execution(void) {
    uint64_t bytes = (uint64_t)(__stop_explored_words - __start_explored_words);
    if (!words_at_first && bytes) {
        words_at_first = malloc(bytes);
        memcpy(words_at_first, __start_explored_words, bytes);
    }
    if (bytes) memcpy(__start_explored_words, words_at_first, bytes);
    memset(spare_turns, 0, sizeof spare_turns);
    outcome = GOES_ON;
    depth = 0;
    forget_system();
    forget_words();
    forget_threads();
    settle();
}

// Lets threads that yield go on: those that saw other than in their round before; otherwise, a few times, those that did not.
static int passes_yields(int spares) {
    int any = 0;
    for (uint32_t t = 0; t < thread_count; t++) {
        struct thread *it = &threads[t];
        if (it->state != READY || it->next.kind != YIELD) continue;
        if (spares ? spare_turns[t] >= SPARE_TURNS : it->round == it->round_before) continue;
        spare_turns[t] += spares;
        it->is_touched = any = 1;
    }
    return any;
}

// Ends one sleep that has an end.
static int ends_sleep(void) {
    for (uint32_t t = 0; t < thread_count; t++) {
        if (threads[t].state != SLEEPS || !threads[t].next.has_end || spare_turns[t] >= SPARE_TURNS) continue;
        spare_turns[t]++;
        threads[t].overslept = 1;
        threads[t].state = RUNS;
        settle();
        return 1;
    }
    return 0;
}

static void note_standstill(void) {
    char text[200] = "";
    for (uint32_t t = 0; t < thread_count; t++) {
        if (threads[t].state == ENDED) continue;
        const char *does = threads[t].state == SLEEPS ? "sleeps" : threads[t].next.kind == YIELD ? "spins" : "joins";
        snprintf(text + strlen(text), sizeof text - strlen(text), ", thread %u %s", t, does);
    }
    note_fault("nobody can go on%s", text);
}

static void note_finish(void) {
    outcome = FINISHED;
    if (program_status) note_fault("the program ends with status %d", program_status);
    if (blocks_at_first == ~0ull) blocks_at_first = live_blocks;
    if (live_blocks != blocks_at_first) note_fault("%lu blocks of memory are left, and %lu at the first end", live_blocks, blocks_at_first);
}

// The threads that can make a step. None if the execution is over.
static uint32_t who_can_go_on(void) {
    uint32_t enabled = 0, left = 0;
    while (outcome == GOES_ON) {
        enabled = left = 0;
        for (uint32_t t = 0; t < thread_count; t++) {
            enabled |= (uint32_t)can_go_on(t) << t;
            left += threads[t].state != ENDED;
        }
        if (enabled) return enabled;
        if (!left) note_finish();
        else if (!passes_yields(0) && !passes_yields(1) && !ends_sleep()) note_standstill();
    }
    return 0;
}

static void execute(void) {
    uint32_t last = NOBODY, alone = 0, enabled;
    begin_execution();
    while (outcome == GOES_ON && (enabled = who_can_go_on())) {
        if (depth >= MOST_STEPS - 1) {
            note_fault("an execution has more than %d steps", MOST_STEPS - 1);
            break;
        }
        if (request.way == RACES) find_races();
        int is_unfair = alone > MOST_ALONE && (enabled & ~(1u << last)) && request.way != REPLAY;
        uint32_t thread = is_unfair ? NOBODY : choose(enabled, last);
        unfair += is_unfair;
        if (thread == NOBODY) {
            outcome = CUT;
            break;
        }
        note_step(thread);
        depth++;
        run_thread(thread);
        alone = thread == last ? alone + 1 : 0;
        last = thread;
        settle();
        if (thread_count > most_threads) most_threads = thread_count;
    }
    if (depth > longest) longest = depth;
}

static void print_summary(const char *how) {
    printf("%s orders=%lu cut=%lu steps=%lu threads=%lu ends=%lu/%08lx unfair=%lu states=%lu seconds=%.1f\n", how, executions, cut, longest,
           most_threads, ends.count, end_sum >> 32, unfair, known_states.count, seconds());
}

// 12x0 are twelve steps of thread 0.
static void print_schedule(void) {
    printf("schedule=");
    for (uint32_t k = 0, count; k < depth; k += count) {
        for (count = 1; k + count < depth && events[k + count].thread == events[k].thread; count++) {}
        printf("%s%ux%u", k ? "," : "", count, events[k].thread);
    }
    printf("\n");
}

static void print_steps(void) {
    for (uint32_t k = 0; k < depth; k++) {
        const struct event *it = &events[k];
        const struct step *step = &it->step;
        printf("step %u thread %u %s", k, it->thread, kinds[step->kind]);
        if (step->kind <= WAKE) printf(" @%lx", place_in_arena(step->address));
        if (step->kind == EXCHANGE) printf(" %lx for %lx", step->second, step->first);
        else if (step->kind > LOAD && step->kind < EXCHANGE) printf(" %lx", step->first);
        if (step->kind <= PARK) printf(" found %lx", it->found);
        printf(" |");
        for (int f = 1; f < MOST_FRAMES && it->frames[f]; f++) printf(" %lx", it->frames[f]);
        printf("\n");
    }
}

static int tell_fault(void) {
    printf("FAILED: %s\n", reason);
    print_schedule();
    if (request.way == REPLAY) print_steps();
    print_summary("stopped");
    return 1;
}

static void on_signal(int number) {
    note_fault("signal %d (%s)", number, strsignal(number));
    executions++;
    tell_fault();
    fflush(stdout);
    _exit(1);
}

static void catch_signals(void) {
    static char stack[1 << 16];
    static const int numbers[] = {SIGSEGV, SIGILL, SIGBUS, SIGFPE, SIGABRT, SIGTERM, SIGINT, SIGTRAP};
    sigaltstack(&(stack_t){.ss_sp = stack, .ss_size = sizeof stack}, NULL);
    struct sigaction action = {.sa_handler = on_signal, .sa_flags = SA_ONSTACK};
    for (unsigned k = 0; k < sizeof numbers / sizeof *numbers; k++) sigaction(numbers[k], &action, NULL);
}

static int stops_early(void) {
    if (executions >= request.most) return 1;
    return executions % 256 == 0 && (seconds() > request.seconds || known_states.count >= known_states.size / 2);
}

// One execution after another, until a fault, the last order, or what was asked for at most.
static int explore(void) {
    for (;;) {
        execute();
        executions++;
        cut += outcome == CUT;
        if (outcome == FINISHED) note_end();
        if (outcome == FAILED) return tell_fault();
        if (request.way == REPLAY) {
            print_steps();
            return print_summary("ended"), 0;
        }
        if (!go_to_next_order()) return print_summary("exhausted"), 0;
        if (stops_early()) return print_summary("stopped"), 3;
    }
}

// ORDERS SECONDS WRONG WAY BOUND WORD..: BOUND is that of preemptions, or the schedule to replay, or nothing.
static int read_words(int count, char **given) {
    static const char *const ways[] = {"races", "states", "plain", "preemptions", "replay"};
    if (count < 6) return 0;
    request.most = strtoull(given[1], NULL, 10);
    request.seconds = atof(given[2]);
    request.wrong = atoi(given[3]);
    while (request.way <= REPLAY && strcmp(given[4], ways[request.way])) request.way++;
    request.preemptions = (uint32_t)atoi(given[5]);
    request.schedule = given[5];
    request.words = given + 5; // the first is the program's name
    request.word_count = count - 5;
    if (request.way == REPLAY) read_schedule();
    return request.way <= REPLAY;
}

int main(int count, char **given) {
    setvbuf(stdout, NULL, _IOLBF, 0);
    if (!read_words(count, given)) return 2;
    make_stacks();
    catch_signals();
    clock_gettime(CLOCK_MONOTONIC, &begun);
    return explore();
}
