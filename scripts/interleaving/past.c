// What came before what: which steps touch one another, and what a thread can have seen.
#include "explorer.h"
#include <string.h>
#include <sys/mman.h>

enum { WORDS = 1 << 12 };

static struct word words[WORDS];
static uint64_t execution, word_count;

void forget_words(void) {
    execution++;
    word_count = 0;
}

struct word *word_at(uint64_t address) {
    uint64_t k = mix(address) % WORDS;
    for (; words[k].execution == execution; k = (k + 1) % WORDS)
        if (words[k].address == address) return &words[k];
    if (++word_count > WORDS / 2) note_fault("the program touches more than %d words", WORDS / 2);
    struct word *made = &words[k];
    memset(made, 0, sizeof *made);
    made->address = address;
    made->execution = execution;
    made->writer = -1;
    for (int t = 0; t < MOST_THREADS; t++) made->readers[t] = -1;
    return made;
}

// Whether the step, made now, changes the word. Two counts of an `Arc` that go down commute, unless one of them is the last.
int changes_word(const struct step *step) {
    uint64_t now = 0;
    if (!is_live((void *)step->address)) return 1;
    memcpy(&now, (void *)step->address, step->bytes);
    switch (step->kind) {
    case STORE:
    case SWAP: return now != step->first;
    case EXCHANGE: return now == step->first && step->first != step->second;
    case SUB: return !(explored_sites[step->site].count == COUNTS_DOWN && step->first == 1 && now >= 3);
    default: return 1;
    }
}

// The words that a step touches. A park reads its word, and both it and a wake change who sleeps there.
struct touches touches_of(const struct step *step) {
    uint64_t word = step->address & ~7ull, sleepers = step->address | 1;
    switch (step->kind) {
    case NOTHING:
    case YIELD:
    case JOIN: return (struct touches){0};
    case LOAD: return (struct touches){1, {{word, 0}}};
    case PARK: return (struct touches){2, {{word, 0}, {sleepers, 1}}};
    case WAKE: return (struct touches){1, {{sleepers, 1}}};
    default: return (struct touches){1, {{word, (request.way != RACES && request.way != REPLAY) || changes_word(step)}}};
    }
}

void raise_clock(uint64_t to[MOST_THREADS], const uint64_t from[MOST_THREADS]) {
    for (int t = 0; t < MOST_THREADS; t++)
        if (to[t] < from[t]) to[t] = from[t];
}

static void note_write(struct word *word, const struct thread *by) {
    word->writer = (int)depth;
    word->write_past = by->past;
    word->read_past = 0;
    memcpy(word->written, by->clock, sizeof word->written);
    memset(word->read, 0, sizeof word->read);
    for (int t = 0; t < MOST_THREADS; t++) word->readers[t] = -1;
}

static void note_read(struct word *word, const struct thread *by, uint32_t thread) {
    word->readers[thread] = (int)depth;
    word->read_past += mix(by->past);
    raise_clock(word->read, by->clock);
}

// Notes the step that this thread makes now: what came before it, and what comes after it.
void note_step(uint32_t thread) {
    struct thread *me = &threads[thread];
    struct touches touches = touches_of(&me->next);
    me->clock[thread]++;
    events[depth].thread = thread;
    events[depth].number = me->clock[thread];
    events[depth].step = me->next;
    events[depth].found = 0;
    uint64_t past = mix(me->past + me->next.kind);
    for (int k = 0; k < touches.count; k++) {
        const struct word *word = word_at(touches.of[k].word);
        past = mix(past + word->write_past + (touches.of[k].writes ? word->read_past * 3 : 0));
        raise_clock(me->clock, word->written);
        if (touches.of[k].writes) raise_clock(me->clock, word->read);
    }
    me->past = past;
    for (int k = 0; k < touches.count; k++) {
        struct word *word = word_at(touches.of[k].word);
        if (touches.of[k].writes) note_write(word, me);
        else note_read(word, me, thread);
    }
}

// The states that were come to, by what led there.
struct table known_states = {.size = 1 << 25};

int is_in(struct table *table, uint64_t key) {
    if (!table->keys) table->keys = mmap(NULL, table->size * sizeof key, PROT_READ | PROT_WRITE, MAP_PRIVATE | MAP_ANONYMOUS | MAP_NORESERVE, -1, 0);
    uint64_t k = mix(key) % table->size;
    for (; table->keys[k]; k = (k + 1) % table->size)
        if (table->keys[k] == key) return 1;
    if (table->count < table->size / 2) table->keys[k] = key, table->count++;
    return 0;
}

int is_known_state(uint32_t last, uint32_t preempted) {
    uint64_t key = mix(last + 991) + mix(preempted + 12345);
    for (uint32_t t = 0; t < thread_count; t++) key += mix(threads[t].past + t * 7919 + threads[t].state * 104729ull);
    return is_in(&known_states, key | 1);
}
