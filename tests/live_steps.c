/* Every order of the steps of flow_live.h's readers and writer, in small runs, and every value that C11 lets a load have: the file itself is compiled,
 * with a <stdatomic.h> (tests/steps) whose loads and stores are steps, with doors that only look at bytes, and with memcmp and memcpy as steps.
 *
 * A thread is a function that is run anew for each step, from the start of its section or its publish: what its earlier steps gave is given to it
 * again, and the next step that it asks for ends the run. From each state every thread's next step is tried, once for each value that it may have.
 * States that were met before are not tried again. What the writer reads of the copies, which it alone writes, no other thread can notice: such a
 * step is taken at once.
 *
 * What a load may have, by the standard's memory model: a value that is not older than one its thread knows of (it loaded or stored it, or an
 * acquiring load gave it what another thread knew at its releasing store), and, where load and store are sequentially consistent, not older than the
 * last such store. That is all of it here: every atomic has one thread that stores it, all stores release, and all loads from other threads acquire.
 *
 * What is wrong: a byte is written that another thread read or wrote, or read that another wrote, and nothing that they know of tells which was first
 * (a data race); a section has bytes of two tables; it has an older table than the section before it, or than a publish that had returned; a section
 * has an older table though flow_live_settled said that none has; a publish waits though there are two copies more than readers.
 *
 * And each step has to be one of the machine's of crates/theory/specs/Live.antt, of which LiveLaws proves the same for any number of readers, copies and
 * steps: what the machine says may be done then, with the values that it says. So the machine's steps are the header's.
 *
 * The same is tried of broken forms, in each of which something wrong has to be found, without the machine and, of those that search the copies, by it.
 */
#include <setjmp.h>
#include <stdint.h>
#include <stdio.h>
#include <stdlib.h>
#include <string.h>

enum { MOST_READERS = 2, THREADS = 1 + MOST_READERS, WRITER = 0, MOST_COPIES = 4, MOST_STEPS = 40, MOST_STORES = 16, DEEPEST = 400 };

static int step_compare(const void *to, const void *from, size_t length);
static void step_write(void *to, const void *from, size_t length);
static void wait_step(void);

#define memcmp step_compare
#define memcpy step_write
#define FLOW_LIVE_WAIT() wait_step()
#include "flow_live.h"
#undef memcmp
#undef memcpy

/* The areas of a copy: clipped counts and buckets of a line, a side store of a part of a line. */
enum { LINE = FLOW_LIVE_LINE, CLIPPED = LINE, BUCKETS = LINE, SIDE = 2, LINES = 3, COPY = LINES * LINE };

/* The forms: whole, and broken ones. In the last four a step releases or acquires, but is not sequentially consistent. */
enum form { WHOLE, OWN_AREAS, ASKS_NOBODY, ENTER_STORE, ENTER_LOAD, PUBLISH_STORE, PUBLISH_LOAD, FORMS };
static const char *const form_names[FORMS] = {"whole",
                                              "readers search the writer's own areas",
                                              "a publish asks no reader",
                                              "the store of an enter is not seq_cst",
                                              "the load of an enter is not seq_cst",
                                              "the store of a publish is not seq_cst",
                                              "the loads of a publish are not seq_cst"};

/* A run that is tried. */
static struct {
    enum form form;
    int readers, copies, publishes, sections;
    int machine; /* the machine has to take each step */
} tried;

/* The atomics. CURRENT and TOLD are the writer's, INSIDE + i is reader i's. */
enum { CURRENT, TOLD, INSIDE, ATOMICS = INSIDE + MOST_READERS };

/* What a thread knows: of each atomic the number of its last store that the thread knows of, and so of all that stands before that store. */
struct known {
    uint8_t stores[ATOMICS];
};

/* Readers write nothing that another reader reads: a store tells of its own thread's stores alone. */
struct store {
    uint8_t value;
    struct known releases;
};

/* A line of a copy, or of the writer's own areas. When it was written and when it was read: the number of the store of CURRENT, or of the reader's INSIDE,
 * that comes next in that thread. Who knows of that store knows of the write, or of the read. */
struct line {
    uint8_t version, written_before, read_before[MOST_READERS];
};

/* A thread: which section or publish it is at, what it keeps from those before, and what its steps gave since that one's start. */
struct thread {
    uint8_t round, kept, length, gave[MOST_STEPS];
    uint8_t section; /* of a reader: 1 + the version of the section under way, or 0 */
    uint8_t waits;   /* of the writer: until a reader stores */
    struct known known;
};

/* The machine: State of Live.antt, without what is there for the claims alone but for published. Its lists of seen numbers are the last first, this is not. */
enum stage { OUTSIDE, LOADED, STORED, WITHIN };
enum writer { IDLE, LOOKING, WRITING }; /* written c has no length here: the store of current follows the last byte */
struct machine {
    uint8_t current, published;
    uint8_t unfinished[MOST_COPIES], table[MOST_COPIES];                             /* what each copy holds */
    uint8_t inside[MOST_READERS], stage[MOST_READERS], stage_copy[MOST_READERS]; /* a reader */
    uint8_t writer, writer_copy, seen_count, seen[MOST_READERS];
};

struct state {
    struct machine machine;
    struct store stores[ATOMICS][MOST_STORES];
    uint8_t count[ATOMICS], last_seq_cst[ATOMICS];
    struct line lines[(MOST_COPIES + 1) * LINES];
    struct thread threads[THREADS];
};

/* A step that a thread asks for. */
struct step {
    enum { ENDS, LOADS, STORES, READS, WRITES } kind;
    int atomic, line, lines;
    unsigned value;
    memory_order order;
};

static struct flow_live live;
static struct flow_live_reader readers[MOST_READERS];
static atomic_uint told; /* the version whose publish has returned */
static uint8_t memory[MOST_COPIES * COPY], own[COPY];
static const struct flow_settings settings; /* flow_area_lengths, below, does not look at them */
static const struct flow_lookup own_lookup = {own, CLIPPED, own + CLIPPED, BUCKETS, own + CLIPPED + BUCKETS, SIDE};

/* The run of a thread up to its next step. */
static struct {
    jmp_buf out;
    struct thread *thread;
    int at;
    struct step next;
} run;

/* What was found to be wrong, or NULL. */
static const char *wrong;

static void wrong_if(int condition, const char *what)
{
    if (condition && wrong == NULL) {
        wrong = what;
    }
}

static unsigned take_step(struct step step)
{
    if (run.at < run.thread->length) {
        return run.thread->gave[run.at++];
    }
    run.next = step;
    longjmp(run.out, 1);
}

/* A publish that waits asks every reader anew: it is as it was at its start. */
static void forget_steps(int from)
{
    run.thread->length = (uint8_t)from;
    memset(run.thread->gave + from, 0, sizeof run.thread->gave - (size_t)from);
    run.at = from;
}

/* The thread comes to its next section or publish; the steps before it need not be run again. */
static void next_round(unsigned kept)
{
    run.thread->round++;
    run.thread->kept = (uint8_t)kept;
    forget_steps(0);
}

static int atomic_of(const atomic_uint *atomic)
{
    if (atomic == &live.current) {
        return CURRENT;
    }
    if (atomic == &told) {
        return TOLD;
    }
    for (int i = 0; i < MOST_READERS; i++) {
        if (atomic == &readers[i].inside) {
            return INSIDE + i;
        }
    }
    abort();
}

unsigned step_load(const atomic_uint *from, memory_order order)
{
    return take_step((struct step){.kind = LOADS, .atomic = atomic_of(from), .order = order});
}

void step_store(atomic_uint *to, unsigned value, memory_order order)
{
    take_step((struct step){.kind = STORES, .atomic = atomic_of(to), .value = value, .order = order});
}

/* The first line of an address, in a copy or in the writer's own areas. */
static int line_of(const uint8_t *address)
{
    if (address >= own && address < own + COPY) {
        return MOST_COPIES * LINES + (int)(address - own) / LINE;
    }
    if (address < memory || address >= memory + sizeof memory) {
        abort();
    }
    return (int)(address - memory) / LINE;
}

static int lines_of(size_t length)
{
    return (int)((length + LINE - 1) / LINE);
}

/* The writer's areas have one version in every byte, as its thread's variables have it. */
static unsigned own_version;

/* 0 where all lines have the writer's version. */
static int step_compare(const void *to, const void *from, size_t length)
{
    (void)from;
    return take_step((struct step){.kind = READS, .line = line_of(to), .lines = lines_of(length)}) != own_version;
}

static void write_lines(const uint8_t *to, size_t length)
{
    take_step((struct step){.kind = WRITES, .line = line_of(to), .lines = lines_of(length), .value = own_version});
}

/* flow_live_open calls it too, before there are threads, for what is no line. */
static void step_write(void *to, const void *from, size_t length)
{
    if ((uint8_t *)to >= memory && (uint8_t *)to < memory + sizeof memory) {
        write_lines(to, length);
    } else {
        memmove(to, from, length);
    }
}

/* Where the steps of the publish under way start. */
static int publish_from;

static void wait_step(void)
{
    wrong_if(tried.copies >= tried.readers + 2, "a publish waits");
    run.thread->waits = 1;
    forget_steps(publish_from);
}

/* The doors that flow_live.h calls, of three areas alone. The others are not called. */
uint32_t flow_area_lengths(uint64_t p, uint64_t k, uint64_t room, uint64_t top, uint64_t capacity, uint64_t side_places, uint64_t width,
                           uint64_t *lengths, size_t lengths_length)
{
    (void)p, (void)k, (void)room, (void)top, (void)capacity, (void)side_places, (void)width, (void)lengths_length;
    lengths[2] = CLIPPED;
    lengths[3] = BUCKETS;
    lengths[4] = SIDE;
    return 0;
}

/* Reads all areas, one line a step, and answers with their version. */
enum { MIXED = 255 };
uint64_t flow_search_lent(const uint64_t *table, size_t table_length, uint64_t p, uint64_t k, uint64_t room, uint64_t top, uint64_t capacity,
                          uint64_t side_places, uint64_t width, const uint8_t *clipped, size_t clipped_length, const uint8_t *buckets,
                          size_t buckets_length, const uint8_t *side, size_t side_length, const uint8_t *key, size_t key_length)
{
    (void)table, (void)table_length, (void)p, (void)k, (void)room, (void)top, (void)capacity, (void)side_places, (void)width;
    (void)clipped_length, (void)buckets_length, (void)side_length, (void)key, (void)key_length;
    const uint8_t *const at[LINES] = {clipped, buckets, side};
    unsigned version = 0;
    for (int i = 0; i < LINES; i++) {
        unsigned line = take_step((struct step){.kind = READS, .line = line_of(at[i]), .lines = 1});
        version = i == 0 || line == version ? line : MIXED;
    }
    return version;
}

static uint64_t search(struct flow_live_reader *reader)
{
    if (tried.form == OWN_AREAS) {
        return flow_search_lent(NULL, 0, FLOW_SETTINGS(&settings), FLOW_LOOKUP(&own_lookup), NULL, 0);
    }
    return flow_live_search(reader, NULL, 0, NULL);
}

/* A reader's sections, of one search that reads every line. It keeps the version of the section before. */
static void read_sections(int i)
{
    struct thread *thread = run.thread;
    while (thread->round < tried.sections) {
        unsigned returned = step_load(&told, memory_order_acquire);
        flow_live_enter(&readers[i]);
        uint64_t version = search(&readers[i]);
        thread->section = (uint8_t)(1 + version);
        wrong_if(version == MIXED, "a section has bytes of two tables");
        wrong_if(version < thread->kept, "a section has an older table than the one before it");
        wrong_if(version < returned, "a section has a table from before a publish that had returned");
        flow_live_leave(&readers[i]);
        thread->section = 0;
        next_round((unsigned)version);
    }
}

/* The writer's updates and publishes. It keeps the version of which flow_live_settled last said so. */
static void publish_versions(void)
{
    while (run.thread->round < tried.publishes) {
        own_version = 1 + (unsigned)run.thread->round;
        for (int line = 0; tried.form == OWN_AREAS && line < LINES; line++) {
            write_lines(own + line * LINE, 1);
        }
        publish_from = run.at;
        live.readers_count = tried.form == ASKS_NOBODY ? 0 : (size_t)tried.readers;
        flow_live_publish(&live, &own_lookup);
        step_store(&told, own_version, memory_order_release);
        live.readers_count = (size_t)tried.readers;
        next_round(flow_live_settled(&live) ? own_version : run.thread->kept);
    }
}

/* Runs a thread up to its next step, which it leaves in run.next. */
static void run_thread(struct state *state, int thread)
{
    run.thread = &state->threads[thread];
    run.at = 0;
    run.next = (struct step){.kind = ENDS};
    if (setjmp(run.out) != 0) {
        return;
    }
    if (thread == WRITER) {
        publish_versions();
    } else {
        readers[thread - 1].copy = NULL;
        read_sections(thread - 1);
    }
}

/* A state's steps. Each gives its thread something. */
static void give(struct thread *thread, unsigned value)
{
    if (thread->length == MOST_STEPS) {
        abort();
    }
    thread->gave[thread->length++] = (uint8_t)value;
}

static int is_seq_cst(int thread, const struct step *step)
{
    enum form weaker = thread == WRITER ? (step->kind == STORES ? PUBLISH_STORE : PUBLISH_LOAD) : (step->kind == STORES ? ENTER_STORE : ENTER_LOAD);
    return step->order == memory_order_seq_cst && tried.form != weaker;
}

static int is_own(int thread, int atomic)
{
    return thread == WRITER ? atomic < INSIDE : atomic == INSIDE + thread - 1;
}

/* The oldest store that a load may have. */
static int oldest(const struct state *state, int thread, const struct step *step)
{
    int known = state->threads[thread].known.stores[step->atomic], last = state->last_seq_cst[step->atomic];
    return is_seq_cst(thread, step) && last > known ? last : known;
}

/* The machine's steps, by their names in Live.antt. Each is counted, and something is wrong where it cannot be taken. */
enum machine_step {
    M_LOADS,
    M_STORES,
    M_ENTERS,
    M_STARTS_OVER,
    M_READS,
    M_LEAVES,
    M_CLEARS,
    M_BEGINS,
    M_LOOKS,
    M_PICKS,
    M_DROPS,
    M_WRITES,
    M_PUBLISHES,
    M_STEPS
};
static const char *const machine_step_names[M_STEPS] = {"loads",  "stores", "enters", "starts_over", "reads",  "leaves",   "clears",
                                                        "begins", "looks",  "picks",  "drops",       "writes", "publishes"};
static unsigned long machine_taken[M_STEPS];
static char machine_says[80]; /* which step it cannot take, or "" */

static void takes(enum machine_step step, int can)
{
    machine_taken[step]++;
    if (!can && wrong == NULL) {
        snprintf(machine_says, sizeof machine_says, "the machine cannot take this step, %s", machine_step_names[step]);
        wrong = machine_says;
    }
}

static int is_at(const struct machine *m, int i, enum stage stage)
{
    return m->stage[i] == stage;
}

static void put_stage(struct machine *m, int i, enum stage stage, unsigned copy)
{
    m->stage[i] = (uint8_t)stage;
    m->stage_copy[i] = (uint8_t)copy;
}

/* A reader's load of current: the first of an enter, which may give anything, or the one after its store. */
static void machine_reader_loads(struct machine *m, int i, unsigned value)
{
    if (is_at(m, i, STORED)) {
        int same = value == m->stage_copy[i];
        takes(same ? M_ENTERS : M_STARTS_OVER, value == m->current);
        put_stage(m, i, same ? WITHIN : LOADED, value);
    } else {
        takes(M_LOADS, is_at(m, i, OUTSIDE));
        put_stage(m, i, LOADED, value);
    }
}

/* A reader's store of inside: an enter's, or a leave's, which the writer may load later or not at all. */
static void machine_reader_stores(struct machine *m, int i, unsigned value)
{
    if (value == 0) {
        takes(M_LEAVES, is_at(m, i, WITHIN));
        put_stage(m, i, OUTSIDE, 0);
    } else {
        takes(M_STORES, is_at(m, i, LOADED) && value == 1u + m->stage_copy[i]);
        m->inside[i] = (uint8_t)value;
        put_stage(m, i, STORED, m->stage_copy[i]);
    }
}

static void machine_reads(struct machine *m, int i, int copy, unsigned version)
{
    takes(M_READS, is_at(m, i, WITHIN) && m->stage_copy[i] == copy && !m->unfinished[copy] && m->table[copy] == version);
}

/* The writer's load of a reader's inside. */
static void machine_looks(struct machine *m, int i, unsigned value)
{
    if (m->inside[i] != value) {
        takes(M_CLEARS, value == 0 && (is_at(m, i, OUTSIDE) || is_at(m, i, LOADED)));
        m->inside[i] = 0;
    }
    if (i == 0 && m->writer == LOOKING) {
        takes(M_DROPS, 1);
        m->writer = IDLE;
    }
    if (i == 0) {
        takes(M_BEGINS, m->writer == IDLE);
        m->writer = LOOKING;
        m->seen_count = 0;
        memset(m->seen, 0, sizeof m->seen);
    }
    takes(M_LOOKS, m->writer == LOOKING && i == m->seen_count);
    m->seen[m->seen_count++] = (uint8_t)value;
}

/* The writer is about to write a copy, or to store it as current with not a byte to write. */
static void machine_picks(struct machine *m, int copy)
{
    int is_free = copy < tried.copies && copy != m->current;
    for (int i = 0; i < m->seen_count; i++) {
        is_free = is_free && m->seen[i] != 1 + copy;
    }
    takes(M_PICKS, m->writer == LOOKING && m->seen_count == tried.readers && is_free);
    m->writer = WRITING;
    m->writer_copy = (uint8_t)copy;
    m->unfinished[copy] = 1;
    m->seen_count = 0;
    memset(m->seen, 0, sizeof m->seen);
}

static void machine_write(struct machine *m, int copy)
{
    if (m->writer != WRITING || m->writer_copy != copy) {
        machine_picks(m, copy);
    }
}

/* The writer's store of current: with it flow_live_take has written the last byte, so that the copy is the table of this publish, whole. */
static void machine_publishes(struct state *state, int copy)
{
    struct machine *m = &state->machine;
    machine_write(m, copy);
    int whole = 1;
    for (int line = 0; line < LINES; line++) {
        whole = whole && state->lines[copy * LINES + line].version == m->published + 1;
    }
    takes(M_WRITES, whole);
    m->unfinished[copy] = 0;
    m->table[copy] = (uint8_t)(m->published + 1);
    takes(M_PUBLISHES, 1); /* of the copy that was written: else machine_write has found it */
    m->current = (uint8_t)copy;
    m->published++;
    m->writer = IDLE;
    m->writer_copy = 0;
}

/* The machine takes the step of a thread too. TOLD is the test's. */
static void machine_takes(struct state *state, int thread, const struct step *step, unsigned value)
{
    struct machine *m = &state->machine;
    int i = thread == WRITER ? step->atomic - INSIDE : thread - 1, copy = step->line / LINES;
    if (!tried.machine || ((step->kind == LOADS || step->kind == STORES) && step->atomic == TOLD)) {
        return;
    }
    if (thread != WRITER) {
        switch (step->kind) {
        case LOADS: machine_reader_loads(m, i, value); break;
        case STORES: machine_reader_stores(m, i, step->value); break;
        case READS: machine_reads(m, i, copy, value); break;
        case WRITES:
        case ENDS: wrong_if(1, "a reader writes"); break;
        }
        return;
    }
    switch (step->kind) {
    case LOADS:
        if (step->atomic == CURRENT) {
            wrong_if(value != m->current, "the writer's current is not the machine's");
        } else {
            machine_looks(m, i, value);
        }
        break;
    case STORES: machine_publishes(state, (int)step->value); break;
    case WRITES: machine_write(m, copy); break;
    case READS:
    case ENDS: break;
    }
}

static void load(struct state *state, int thread, const struct step *step, int store)
{
    struct known *known = &state->threads[thread].known;
    const struct known *more = &state->stores[step->atomic][store].releases;
    if (step->order == memory_order_relaxed && !is_own(thread, step->atomic)) {
        abort(); /* not tried here */
    }
    for (int i = 0; i < ATOMICS; i++) {
        known->stores[i] = known->stores[i] > more->stores[i] ? known->stores[i] : more->stores[i];
    }
    machine_takes(state, thread, step, state->stores[step->atomic][store].value);
    give(&state->threads[thread], state->stores[step->atomic][store].value);
}

static void store(struct state *state, int thread, const struct step *step)
{
    int n = state->count[step->atomic]++;
    if (n == MOST_STORES || step->order == memory_order_relaxed || !is_own(thread, step->atomic)) {
        abort();
    }
    if (is_seq_cst(thread, step)) {
        state->last_seq_cst[step->atomic] = (uint8_t)n;
    }
    state->threads[thread].known.stores[step->atomic] = (uint8_t)n;
    struct store *made = &state->stores[step->atomic][n];
    made->value = (uint8_t)step->value;
    for (int i = 0; i < ATOMICS; i++) {
        made->releases.stores[i] = is_own(thread, i) ? state->threads[thread].known.stores[i] : 0;
    }
    machine_takes(state, thread, step, 0);
    give(&state->threads[thread], 0);
    if (thread != WRITER) {
        state->threads[WRITER].waits = 0;
    }
}

static void read_lines(struct state *state, int thread, const struct step *step)
{
    unsigned version = state->lines[step->line].version;
    for (int i = 0; i < step->lines; i++) {
        struct line *line = &state->lines[step->line + i];
        if (thread != WRITER) {
            wrong_if(line->written_before > state->threads[thread].known.stores[CURRENT], "a byte is read while it is written");
            line->read_before[thread - 1] = state->count[INSIDE + thread - 1];
        }
        version = line->version == version ? version : MIXED;
    }
    machine_takes(state, thread, step, version);
    give(&state->threads[thread], version);
}

/* Only the writer writes lines. */
static void write_line(struct state *state, const struct step *step)
{
    struct line *line = &state->lines[step->line];
    for (int i = 0; i < MOST_READERS; i++) {
        wrong_if(line->read_before[i] > state->threads[WRITER].known.stores[INSIDE + i], "a byte is written while it is read");
    }
    line->version = (uint8_t)step->value;
    line->written_before = state->count[CURRENT];
    machine_takes(state, WRITER, step, 0);
    give(&state->threads[WRITER], 0);
}

/* Stores that no load can have any more are dropped, and the others numbered from 0, so that states which differ in them alone are one. A reader's stores
 * are loaded by the writer alone. */
static void drop_stores(struct state *state, int atomic)
{
    int drop = state->count[atomic] - 1;
    for (int thread = 0; thread <= (atomic < INSIDE ? tried.readers : WRITER); thread++) {
        int known = state->threads[thread].known.stores[atomic];
        drop = known < drop ? known : drop;
    }
    if (drop == 0) {
        return;
    }
    state->count[atomic] = (uint8_t)(state->count[atomic] - drop);
    struct store *stores = state->stores[atomic];
    memmove(stores, stores + drop, sizeof *stores * state->count[atomic]);
    memset(stores + state->count[atomic], 0, sizeof *stores * (size_t)drop);
    uint8_t *numbers[ATOMICS * MOST_STORES + THREADS + (MOST_COPIES + 1) * LINES + 1];
    int n = 0;
    numbers[n++] = &state->last_seq_cst[atomic];
    for (int thread = 0; thread < THREADS; thread++) {
        numbers[n++] = &state->threads[thread].known.stores[atomic];
    }
    for (int i = 0; i < ATOMICS * MOST_STORES; i++) {
        numbers[n++] = &state->stores[i / MOST_STORES][i % MOST_STORES].releases.stores[atomic];
    }
    for (int i = 0; i < (MOST_COPIES + 1) * LINES && atomic != TOLD; i++) {
        numbers[n++] = atomic == CURRENT ? &state->lines[i].written_before : &state->lines[i].read_before[atomic - INSIDE];
    }
    for (int i = 0; i < n; i++) {
        *numbers[i] = (uint8_t)(*numbers[i] > drop ? *numbers[i] - drop : 0);
    }
}

/* States that were met, by two numbers that are as good as all of a state. */
enum { MET_PLACES = 1 << 23 };
static uint64_t (*met)[2];
static unsigned long met_count;

static uint64_t number_of(const struct state *state, uint64_t number)
{
    uint64_t words[(sizeof *state + 7) / 8] = {0};
    memmove(words, state, sizeof *state);
    for (size_t i = 0; i < sizeof words / sizeof *words; i++) {
        number = (number ^ words[i]) * UINT64_C(0x9e3779b97f4a7c15);
        number ^= number >> 29;
    }
    return number | 1;
}

/* 1 where a state is met for the first time. */
static int is_new(const struct state *state)
{
    uint64_t one = number_of(state, UINT64_C(0xcbf29ce484222325)), other = number_of(state, UINT64_C(0x2545f4914f6cdd1d));
    size_t at = one % MET_PLACES;
    while (met[at][0] != 0) {
        if (met[at][0] == one && met[at][1] == other) {
            return 0;
        }
        at = (at + 1) % MET_PLACES;
    }
    if (++met_count > MET_PLACES / 2) {
        puts("too many states");
        exit(2);
    }
    met[at][0] = one;
    met[at][1] = other;
    return 1;
}

static int trail[DEEPEST]; /* the threads of the steps so far */

/* Something is wrong: what, and after which steps. */
static void tell_wrong(int depth)
{
    printf("    found: %s, after %d steps: ", wrong, depth);
    for (int i = 0; i < depth; i++) {
        putchar("WAB"[trail[i]]);
    }
    puts(" (W the writer, A and B readers)");
}

static void try_from(const struct state *state, int depth);

/* No other thread can notice the step. */
static int is_private(int thread, const struct step *step)
{
    return (step->kind == READS && thread == WRITER) || (step->kind == LOADS && is_own(thread, step->atomic));
}

/* What a step leads to: its thread goes on to its next one that others can notice, and what follows is tried. */
static void go_on(struct state *state, int thread, int depth)
{
    run_thread(state, thread);
    while (is_private(thread, &run.next)) {
        struct step step = run.next;
        if (step.kind == READS) {
            read_lines(state, thread, &step);
        } else {
            load(state, thread, &step, state->count[step.atomic] - 1);
        }
        run_thread(state, thread);
    }
    for (int i = 1; i <= tried.readers; i++) {
        int section = state->threads[i].section;
        wrong_if(section != 0 && section - 1 < state->threads[WRITER].kept, "settled, but a section has an older table");
    }
    if (wrong != NULL) {
        tell_wrong(depth);
        return;
    }
    for (int atomic = 0; atomic < ATOMICS; atomic++) {
        drop_stores(state, atomic);
    }
    if (is_new(state)) {
        try_from(state, depth);
    }
}

/* A thread's next step, with every value that it may have. */
static void try_thread(const struct state *state, int thread, int depth)
{
    struct state next = *state;
    run_thread(&next, thread);
    struct step step = run.next;
    int from = step.kind == LOADS ? oldest(state, thread, &step) : 0, to = step.kind == LOADS ? state->count[step.atomic] : 1;
    for (int i = from; i < to && step.kind != ENDS && wrong == NULL; i++) {
        next = *state;
        trail[depth] = thread;
        switch (step.kind) {
        case LOADS: load(&next, thread, &step, i); break;
        case STORES: store(&next, thread, &step); break;
        case READS: read_lines(&next, thread, &step); break;
        case WRITES: write_line(&next, &step); break;
        case ENDS: break;
        }
        go_on(&next, thread, depth + 1);
    }
}

static void try_from(const struct state *state, int depth)
{
    if (depth == DEEPEST) {
        abort();
    }
    for (int thread = 0; thread <= tried.readers && wrong == NULL; thread++) {
        if (thread != WRITER || !state->threads[WRITER].waits) {
            try_thread(state, thread, depth);
        }
    }
}

/* 1 where what was found is what was to be found: nothing of the whole form, something of a broken one, and by the machine where that takes the steps too. */
static int try_run(enum form form, int machine, int reader_count, int copies, int publishes, int sections)
{
    static struct state start;
    memset(&start, 0, sizeof start);
    memset(met, 0, sizeof *met * MET_PLACES);
    met_count = 0;
    wrong = NULL;
    machine_says[0] = 0;
    tried.form = form;
    tried.machine = machine;
    tried.readers = reader_count;
    tried.copies = copies;
    tried.publishes = publishes;
    tried.sections = sections;
    if (flow_live_open(&live, &settings, memory, (size_t)copies * COPY, readers, (size_t)reader_count) != 0) {
        return 0;
    }
    for (int i = 0; i < ATOMICS; i++) {
        start.count[i] = 1; /* 0, as flow_live_open leaves it */
    }
    try_from(&start, 0);
    int good = form == WHOLE ? wrong == NULL : machine ? wrong == machine_says : wrong != NULL;
    printf("%s: readers %d, sections of each %d, copies %d, publishes %d, %s: %lu states, %s\n", good ? "ok" : "NOT OK", reader_count, sections, copies,
           publishes, form_names[form], met_count, wrong == NULL ? "nothing wrong" : "something wrong");
    return good;
}

int main(void)
{
    met = malloc(sizeof *met * MET_PLACES);
    if (met == NULL) {
        return 2;
    }
    /* the first that is not good ends it: the others may have no end then */
    int good = try_run(WHOLE, 1, 1, 2, 4, 3) && try_run(WHOLE, 1, 1, 3, 4, 3) && try_run(WHOLE, 1, 2, 2, 3, 1) && try_run(WHOLE, 1, 2, 4, 3, 1);
    for (int step = 0; step < M_STEPS && good; step++) {
        good = machine_taken[step] != 0;
        printf("%s: the machine's %s: %lu times\n", good ? "ok" : "NOT OK", machine_step_names[step], machine_taken[step]);
    }
    for (int form = WHOLE + 1; form < FORMS && good; form++) {
        good = try_run((enum form)form, 0, 1, 2, 3, 2) && (form == OWN_AREAS || try_run((enum form)form, 1, 1, 2, 3, 2));
    }
    free(met);
    return !good;
}
