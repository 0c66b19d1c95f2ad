/* The lanes of crates/lanes by hand: the same words and the same atomic steps. Nothing here is proved.
 *
 * With HANDLES a producer and a worker have a handle of 16 bytes as those of the library: a tag, and a pointer to a
 * record on the heap, whose kind each call checks. Without, a call has the pointer to the record itself. */
#include "cubejobs_lanes.h"

#define CALL __attribute__((noinline))
#define MARK (UINT64_C(1) << 63)
#define MOST_JOBS (UINT64_C(1) << 62)
#define OPEN_TAG UINT64_C(0x6375626566616b65)
enum { TAIL = 16, HEAD = 32, CELLS = 48 };
enum kind { NO_KIND, PRODUCER, WORKER };

/* What all have in common. */
struct common {
    _Atomic uint64_t *words;
    uint32_t lanes;
    uint64_t capacity;
};

struct record {
    enum kind kind;
    struct common *common;
    uint32_t number;
    /* Of a producer: the number of jobs that were taken, when it last looked. */
    uint64_t seen;
    /* Of a worker: for each lane the number of jobs that were accepted, when it last looked. */
    uint64_t *tails;
};

#ifdef HANDLES
typedef struct handle {
    uint64_t tag;
    struct record *at;
} *grip;

static inline uint32_t refusal(grip handle, enum kind kind) {
    if (handle->tag != OPEN_TAG) {
        return CUBEJOBS_LANES_NOT_OPEN;
    }
    return handle->at->kind == kind ? CUBEJOBS_LANES_DONE : CUBEJOBS_LANES_OTHER_KIND;
}

static inline struct record *record_of(grip handle) {
    return handle->at;
}
#else
typedef struct record *grip;

static inline uint32_t refusal(grip record, enum kind kind) {
    (void)record, (void)kind;
    return CUBEJOBS_LANES_DONE;
}

static inline struct record *record_of(grip record) {
    return record;
}
#endif

static struct common *common;

static inline _Atomic uint64_t *lane_words(struct common *all, uint32_t lane) {
    return all->words + lane * (CELLS + 2 * all->capacity);
}

static inline _Atomic uint64_t *cell_of(struct common *all, _Atomic uint64_t *lane, uint64_t seq) {
    return lane + CELLS + 2 * (seq % all->capacity);
}

static inline struct cubejobs_submit_answer submitted(uint32_t code, uint64_t seq) {
    struct cubejobs_submit_answer answer = {code, seq};
    return answer;
}

static inline struct cubejobs_submit_answer submit_to(struct record *me, uint64_t payload, uint32_t dim) {
    struct common *all = me->common;
    _Atomic uint64_t *words = lane_words(all, me->number);
    uint64_t tail = atomic_load(&words[TAIL]);
    if (tail >= MARK) {
        return submitted(CUBEJOBS_LANES_CLOSED, 0);
    }
    if (tail >= MOST_JOBS) {
        return submitted(CUBEJOBS_LANES_SPENT, 0);
    }
    if (tail >= me->seen + all->capacity) {
        uint64_t taken = atomic_load(&words[HEAD]);
        if (tail - taken >= all->capacity) {
            return submitted(CUBEJOBS_LANES_FULL, 0);
        }
        me->seen = taken;
    }
    _Atomic uint64_t *cell = cell_of(all, words, tail);
    atomic_store(&cell[0], payload);
    atomic_store(&cell[1], dim);
    uint64_t found = tail;
    if (!atomic_compare_exchange_strong(&words[TAIL], &found, tail + 1)) {
        return submitted(CUBEJOBS_LANES_CLOSED, 0);
    }
    return submitted(CUBEJOBS_LANES_DONE, tail);
}

/* Takes the job at the head of a lane. Returns the code of the answer. */
static inline uint32_t take_from(struct record *me, uint32_t lane, struct cubejobs_job_answer *answer) {
    struct common *all = me->common;
    _Atomic uint64_t *words = lane_words(all, lane);
    uint64_t head = atomic_load(&words[HEAD]), known = me->tails[lane];
    if (head >= known) {
        uint64_t tail = atomic_load(&words[TAIL]);
        known = tail & ~MARK;
        if (known == head) {
            return tail >= MARK ? CUBEJOBS_LANES_ENDED : CUBEJOBS_LANES_EMPTY;
        }
        me->tails[lane] = known;
    }
    _Atomic uint64_t *cell = cell_of(all, words, head);
    uint64_t payload = atomic_load(&cell[0]);
    uint32_t dim = (uint32_t)atomic_load(&cell[1]);
    uint64_t found = head;
    if (!atomic_compare_exchange_strong(&words[HEAD], &found, head + 1)) {
        return CUBEJOBS_LANES_LOST;
    }
    *answer = (struct cubejobs_job_answer){CUBEJOBS_LANES_DONE, lane, dim, head, payload, known - head - 1};
    return CUBEJOBS_LANES_DONE;
}

/* Goes round all lanes, from one on, and takes the first job that it can. */
static inline uint32_t take_round(struct record *me, uint32_t from, struct cubejobs_job_answer *answer) {
    uint32_t lane = from, lanes = me->common->lanes;
    bool all_ended = true;
    for (uint32_t turn = 0; turn < lanes; turn++) {
        uint32_t code = take_from(me, lane, answer);
        if (code == CUBEJOBS_LANES_DONE) {
            return code;
        }
        all_ended = all_ended && code == CUBEJOBS_LANES_ENDED;
        lane = lane + 1 < lanes ? lane + 1 : 0;
    }
    return all_ended ? CUBEJOBS_LANES_ENDED : CUBEJOBS_LANES_EMPTY;
}

static inline struct cubejobs_job_answer no_job(uint32_t code) {
    struct cubejobs_job_answer answer = {0};
    answer.code = code;
    return answer;
}

CALL static struct cubejobs_submit_answer twin_submit(grip lane, uint64_t payload, uint32_t dim) {
    uint32_t code = refusal(lane, PRODUCER);
    return code ? submitted(code, 0) : submit_to(record_of(lane), payload, dim);
}

CALL static struct cubejobs_job_answer twin_take_any(grip worker, uint32_t from) {
    struct cubejobs_job_answer answer;
    uint32_t code = refusal(worker, WORKER);
    if (code) {
        return no_job(code);
    }
    if (from >= record_of(worker)->common->lanes) {
        return no_job(CUBEJOBS_LANES_BAD_LANE);
    }
    code = take_round(record_of(worker), from, &answer);
    return code ? no_job(code) : answer;
}

/* ---- how it is opened */

#ifdef HANDLES
static struct seat {
    _Alignas(LINE_BYTES) struct handle handle;
} makers[MAX_PRODUCERS], seats[MAX_TAKERS];
#define SET(seat, record) ((seat).handle = (struct handle){OPEN_TAG, (record)})
#define GRIP(seat) (&(seat).handle)
#else
static struct seat {
    _Alignas(LINE_BYTES) struct record *record;
} makers[MAX_PRODUCERS], seats[MAX_TAKERS];
#define SET(seat, its) ((seat).record = (its))
#define GRIP(seat) ((seat).record)
#endif

static void *room_for(size_t count, size_t size) {
    void *room = calloc(count, size);
    if (room == NULL) {
        fail("out of memory");
    }
    return room;
}

static struct record *record_for(enum kind kind, uint32_t number) {
    struct record *record = room_for(1, sizeof *record);
    record->kind = kind, record->common = common, record->number = number;
    record->tails = kind == WORKER ? room_for(common->lanes, sizeof *record->tails) : NULL;
    return record;
}

static void open_system(unsigned lanes, unsigned workers, uint64_t capacity) {
    common = room_for(1, sizeof *common);
    common->lanes = lanes, common->capacity = capacity;
    common->words = room_for(lanes * (CELLS + 2 * capacity), sizeof *common->words);
    for (unsigned i = 0; i < lanes; i++) {
        SET(makers[i], record_for(PRODUCER, i));
    }
    for (unsigned i = 0; i < workers; i++) {
        SET(seats[i], record_for(WORKER, i));
    }
}

static bool submit_job(unsigned lane, uint64_t payload, uint32_t dim) {
    return twin_submit(GRIP(makers[lane]), payload, dim).code == CUBEJOBS_LANES_DONE;
}

static bool take_job(unsigned worker, unsigned from, struct job *job) {
    struct cubejobs_job_answer got = twin_take_any(GRIP(seats[worker]), from);
    *job = (struct job){got.seq, got.payload, got.lane, got.dim};
    return got.code == CUBEJOBS_LANES_DONE;
}
