// A machine of 2^n MPI ranks that runs a file of jobs, many at once: mpirun -n 9 ./cubempi JOBS
//
// The last rank is the coordinator, and the others are processors. The coordinator submits the jobs
// to a planner. It sends each processor of a job that starts a task. These exchange messages by
// rounds: the library says to which rank each one sends. The output is that of `cubejobs run`, byte
// for byte, or that of --out FILE. Ctrl-C cancels what waits: then FILE has the jobs that have run.
// With --split MPI runs the collectives, on communicators that are made once. With --trace LOG each
// decision and each message is a line of LOG. README.md is the guide.
#define _DEFAULT_SOURCE
#include <errno.h>
#include <inttypes.h>
#include <mpi.h>
#include <signal.h>
#include <stdio.h>
#include <stdlib.h>
#include <string.h>
#include <unistd.h>

#include "cubejobs_plan.h"
#include "cubejobs_rounds.h"

enum { BROADCAST, REDUCE, ALLREDUCE, SCAN, EXSCAN, KINDS };
enum { ADD, MIN, MAX, XOR, AND, OR, NONE, OPS };
enum { MAX_DIM = 12, LANES = 16, TASK = 100, REPLY }; // tags below TASK are rounds
static const char *const KIND_NAMES[KINDS] = {"broadcast", "reduce", "allreduce", "scan", "exscan"};
static const char *const OP_NAMES[OPS] = {"add", "min", "max", "xor", "and", "or", "-"};
static const int SHAPE[] = {CUBEJOBS_BROADCAST, CUBEJOBS_REDUCE, CUBEJOBS_ALLREDUCE, CUBEJOBS_SCAN, CUBEJOBS_SCAN};

struct task { int job, kind, op, root, dim, base; uint64_t item; };    // below 0 it is no job
struct part { uint64_t value; int job, base, received, to[MAX_DIM]; }; // to -1: no message
static struct job { uint64_t lane, root, *items, ticket; int kind, op, dim, count, is_over; } *jobs;
static MPI_Comm level[MAX_DIM + 1]; // the aligned block of each dimension that this processor is in
static struct part parts[1 << MAX_DIM];
static int is_split;
static volatile sig_atomic_t is_stopped;

static void stop(int number) { is_stopped = number; }

static void must_be(int holds, const char *fault) {
    if (!holds) fprintf(stderr, "cubempi: %s\n", fault), MPI_Abort(MPI_COMM_WORLD, 4);
}

// ---- a processor: in a scheduler, this is the program that the user has written ----
// Waits for a message. The rank sleeps meanwhile, since MPI's own wait takes all of a core.
static void wait_for(int source, int tag) {
    for (int is = 0; MPI_Iprobe(source, tag, MPI_COMM_WORLD, &is, MPI_STATUS_IGNORE), !is;) usleep(50);
}

static uint64_t unit(int op) { return op == MIN || op == AND ? UINT64_MAX : 0; }

static uint64_t join(int op, uint64_t a, uint64_t b) {
    if (op == MIN || op == MAX) return (a < b) == (op == MIN) ? a : b;
    return op == ADD ? a + b : op == XOR ? a ^ b : op == AND ? a & b : a | b;
}

// Runs a collective round by round. Items are joined in the order of their ranks.
static uint64_t run_rounds(const struct task *t, int me, struct part *part) {
    uint64_t total = t->item, prefix = t->kind == EXSCAN ? unit(t->op) : t->item;
    for (int round = 0; round < t->dim; round++) {
        struct cubejobs_step_answer step = cubejobs_step(SHAPE[t->kind], t->dim, t->root, me, round);
        int to = step.to == CUBEJOBS_NO_RANK ? MPI_PROC_NULL : t->base + (int)step.to;
        int from = step.from == CUBEJOBS_NO_RANK ? MPI_PROC_NULL : t->base + (int)step.from;
        struct { uint64_t value; int64_t job; } out = {total, t->job}, in = {0, -1};
        MPI_Sendrecv(&out, sizeof out, MPI_BYTE, to, round, &in, sizeof in, MPI_BYTE, from, round, MPI_COMM_WORLD,
                     MPI_STATUS_IGNORE);
        part->to[round] = to == MPI_PROC_NULL ? -1 : (int)step.to;
        if (from == MPI_PROC_NULL) continue;
        must_be(in.job == t->job && ++part->received, "a message of another job came in");
        if (t->kind == BROADCAST) total = in.value;
        else if ((int)step.from > me) total = join(t->op, total, in.value);
        else prefix = join(t->op, in.value, prefix), total = join(t->op, in.value, total);
    }
    return t->kind == SCAN || t->kind == EXSCAN ? prefix : total;
}

// Lets MPI run it. The communicator was made once, and serves each job on this block.
static uint64_t run_mpi(const struct task *t, int me) {
    MPI_Op op = (MPI_Op[]){MPI_SUM, MPI_MIN, MPI_MAX, MPI_BXOR, MPI_BAND, MPI_BOR, MPI_NO_OP}[t->op];
    uint64_t value = t->kind == BROADCAST ? t->item : unit(t->op);
    switch (t->kind) {
    case BROADCAST: MPI_Bcast(&value, 1, MPI_UINT64_T, t->root, level[t->dim]); break;
    case REDUCE: MPI_Reduce(&t->item, &value, 1, MPI_UINT64_T, op, t->root, level[t->dim]); break;
    case ALLREDUCE: MPI_Allreduce(&t->item, &value, 1, MPI_UINT64_T, op, level[t->dim]); break;
    case SCAN: MPI_Scan(&t->item, &value, 1, MPI_UINT64_T, op, level[t->dim]); break;
    case EXSCAN: MPI_Exscan(&t->item, &value, 1, MPI_UINT64_T, op, level[t->dim]);
    }
    return t->kind == EXSCAN && me == 0 ? unit(t->op) : value; // MPI leaves it undefined
}

// Runs tasks until the last one. The first rank of a block collects what each has, and replies.
static int process(int number, int coordinator) {
    for (struct task t;;) {
        wait_for(coordinator, TASK);
        MPI_Recv(&t, sizeof t, MPI_BYTE, coordinator, TASK, MPI_COMM_WORLD, MPI_STATUS_IGNORE);
        if (t.job < 0) return 0;
        struct part mine = {.job = t.job, .base = t.base};
        mine.value = is_split ? run_mpi(&t, number - t.base) : run_rounds(&t, number - t.base, &mine);
        MPI_Gather(&mine, sizeof mine, MPI_BYTE, parts, sizeof mine, MPI_BYTE, 0, level[t.dim]);
        if (number == t.base) MPI_Send(parts, sizeof mine << t.dim, MPI_BYTE, coordinator, REPLY, MPI_COMM_WORLD);
    }
}

// ---- the coordinator: in a scheduler, this is the daemon that has the queue of jobs ----
static int place_of(const char *word, const char *const *words, int count) {
    while (--count >= 0 && strcmp(word, words[count])) {}
    return count;
}

static int is_number(const char *text, uint64_t most, uint64_t *number) {
    errno = 0, *number = strtoull(text, NULL, 10);
    return *text && !text[strspn(text, "0123456789")] && !errno && *number <= most;
}

// Reads a job from a line, which it takes apart. Returns the name of a bad field, or null.
static const char *bad_field(char *line, int dim, struct job *job) {
    char *field[5];
    for (int i = 0; i < 5; i++) field[i] = line ? strsep(&line, ",") : "";
    if (!is_number(field[0], LANES - 1, &job->lane)) return "lane";
    if ((job->kind = place_of(field[1], KIND_NAMES, KINDS)) < 0) return "kind";
    job->op = place_of(field[2], OP_NAMES, OPS);
    if (job->op < 0 || (job->op == NONE) != (job->kind == BROADCAST)) return "op";
    for (char *item; (item = strsep(&field[4], " "));)
        if (job->count >> dim || !is_number(item, UINT64_MAX, &job->items[job->count++])) return "items";
    if (!is_number(field[3], job->kind < ALLREDUCE ? job->count - 1 : 0, &job->root)) return "root";
    while (1 << job->dim < job->count) job->dim++;
    return line ? "end" : NULL;
}

// Reads all jobs. Returns their number, or -1.
static int read_jobs(const char *name, int dim) {
    FILE *file = fopen(name, "r");
    char *line = NULL;
    int count = -1; // the first line is the header
    size_t size = 0, end;
    for (ssize_t length; file && (length = getline(&line, &size, file)) > 0; count++) {
        struct job job = {.items = malloc(sizeof(uint64_t) << dim)};
        must_be(job.items && (jobs = realloc(jobs, sizeof job * (count + 2))), "out of memory");
        line[end = strcspn(line, "\n")] = 0;
        const char *bad = count < 0 && strcmp(line, "lane,kind,op,root,items") ? "header" : NULL;
        if (count >= 0) bad = bad_field(line, dim, &job), jobs[count] = job;
        if (end + 1 < (size_t)length) bad = "byte";
        if (bad) return fprintf(stderr, "cubempi: %s:%d: bad %s\n", name, count + 2, bad), -1;
    }
    if (count < 0 || ferror(file)) return fprintf(stderr, "cubempi: %s: no file of jobs\n", name), -1;
    return fclose(file), free(line), count;
}

// Sends each processor of a block a task. A processor past the last item gets the unit.
static void start(int number, int base) {
    const struct job *job = &jobs[number];
    struct task t = {number, job->kind, job->op, job->root, job->dim, base, 0};
    for (int r = 0; r < 1 << job->dim; r++) {
        t.item = r < job->count ? job->items[r] : unit(job->op);
        MPI_Send(&t, sizeof t, MPI_BYTE, base + r, TASK, MPI_COMM_WORLD);
    }
}

// Replaces the items by the results, and sees that each message was sent and came in.
static void end_job(int number, FILE *log) {
    struct job *job = &jobs[number];
    uint64_t sent = 0, received = 0, all = cubejobs_message_count(SHAPE[job->kind], job->dim).messages;
    for (int r = 0; r < 1 << job->dim; received += parts[r++].received) {
        must_be(parts[r].job == number, "a part of another job came in");
        if (r < job->count) job->items[r] = parts[r].value;
        for (int round = 0; !is_split && round < job->dim; round++)
            if (parts[r].to[round] >= 0 && ++sent && log)
                fprintf(log, "sent,%d,%d,%d,%d\n", number, round, r, parts[r].to[round]);
    }
    must_be(is_split || (sent == all && received == all), "a message is missing");
}

// How long a job runs at most, in microseconds: a round takes some looks for a message.
static uint64_t estimate(const struct job *job) { return 500 * (job->dim + 1); }

static void submit_jobs(struct cubejobs_plan *plan, int dim, int count) {
    const struct cubejobs_plan_options options = {.dim = dim, .jobs = count ? count : 1, .patience = 16};
    must_be(!cubejobs_plan_open(plan, options, NULL), "the planner does not open");
    for (int i = 0; i < count; i++) {
        const struct cubejobs_plan_request request = {i, estimate(&jobs[i]), 1u << jobs[i].dim, 0};
        const struct cubejobs_plan_job it = cubejobs_plan_submit(plan, request);
        must_be(!it.code, "the planner refuses a job"), jobs[i].ticket = it.ticket;
    }
}

// Starts each job that may start now.
static void start_jobs(struct cubejobs_plan *plan, FILE *log) {
    const uint64_t now = (uint64_t)(MPI_Wtime() * 1e6);
    for (struct cubejobs_plan_job it; (it = cubejobs_plan_next(plan, now)).code == CUBEJOBS_PLAN_DONE;) {
        if (log) fprintf(log, "start,%d,%d,%" PRIu64 "\n", (int)it.payload, (int)it.base, now);
        start((int)it.payload, (int)it.base);
    }
    if (log) fprintf(log, "rest,%" PRIu64 "\n", now);
}

// Runs all jobs, or after Ctrl-C those that have started.
static void run_jobs(int dim, int count, FILE *log) {
    struct cubejobs_plan plan = {0};
    submit_jobs(&plan, dim, count);
    for (start_jobs(&plan, log); cubejobs_plan_counts(&plan).running; start_jobs(&plan, log)) {
        wait_for(MPI_ANY_SOURCE, REPLY);
        MPI_Recv(parts, sizeof *parts << dim, MPI_BYTE, MPI_ANY_SOURCE, REPLY, MPI_COMM_WORLD, MPI_STATUS_IGNORE);
        struct job *job = &jobs[parts->job];
        const struct cubejobs_plan_job it = cubejobs_plan_finish(&plan, job->ticket);
        must_be(!it.code && (int)it.base == parts->base, "the job does not run there");
        job->is_over = 1;
        if (end_job(parts->job, log), log) fprintf(log, "end,%d\n", parts->job);
        for (int i = 0; is_stopped && i < count; i++) cubejobs_plan_cancel(&plan, jobs[i].ticket);
    }
    must_be(!cubejobs_plan_close(&plan), "the planner is shut");
}

static void print_row(const struct job *job, int seq) {
    struct cubejobs_count_answer all = cubejobs_message_count(SHAPE[job->kind], job->dim);
    printf("%d,%d,%s,%d", (int)job->lane, seq, KIND_NAMES[job->kind], job->dim);
    for (int r = 0; r < job->count; r++)
        printf(job->kind == REDUCE && r != (int)job->root ? "%c-" : "%c%" PRIu64, r ? ' ' : ',', job->items[r]);
    printf(",%u,%" PRIu64 "\n", all.rounds, all.messages);
}

static int coordinate(int dim, const char *name, const char *log_name, const char *out_name) {
    int count = read_jobs(name, dim);
    FILE *log = log_name && count >= 0 ? fopen(log_name, "w") : NULL;
    if (count < 0 || (log_name && !log)) return count < 0 ? 2 : (perror("cubempi: LOG"), 3);
    if (out_name && !freopen(out_name, "w", stdout)) return perror("cubempi: FILE"), 3;
    run_jobs(dim, count, log), puts("lane,seq,kind,dim,result,rounds,messages");
    for (uint64_t lane = 0; lane < LANES; lane++)
        for (int i = 0, seq = 0; i < count; i++)
            if (jobs[i].lane == lane && seq++ >= 0 && jobs[i].is_over) print_row(&jobs[i], seq - 1);
    return fflush(stdout) || (log && fclose(log)) ? perror("cubempi: output"), 3 : is_stopped ? 130 : 0;
}

int main(int argc, char **argv) {
    int rank, size, dim = 0, at = 1;
    signal(SIGINT, stop), signal(SIGTERM, stop); // mpirun passes Ctrl-C on as SIGTERM
    MPI_Init(&argc, &argv), MPI_Comm_rank(MPI_COMM_WORLD, &rank), MPI_Comm_size(MPI_COMM_WORLD, &size);
    if (at < argc && !strcmp(argv[at], "--split")) is_split = 1, at++;
    const char *log_name = at + 1 < argc && !strcmp(argv[at], "--trace") ? at += 2, argv[at - 1] : NULL;
    const char *out_name = at + 1 < argc && !strcmp(argv[at], "--out") ? at += 2, argv[at - 1] : NULL;
    while (1 << dim < size - 1) dim++;
    int is_bad = at != argc - 1 || 1 << dim != size - 1 || dim > MAX_DIM;
    if (is_bad && rank == 0) fputs("usage: mpirun -n (2^N + 1) cubempi [--split] [--trace LOG] [--out FILE] JOBS\n", stderr);
    if (is_bad) return MPI_Finalize(), 2;
    for (int k = 0; k <= dim; k++) // a processor is in one aligned block of each dimension
        MPI_Comm_split(MPI_COMM_WORLD, rank < size - 1 ? rank >> k : MPI_UNDEFINED, rank, &level[k]);
    int status = rank < size - 1 ? process(rank, size - 1) : coordinate(dim, argv[at], log_name, out_name);
    for (int p = 0; rank == size - 1 && p < rank; p++)
        MPI_Send(&(struct task){.job = -1}, sizeof(struct task), MPI_BYTE, p, TASK, MPI_COMM_WORLD);
    return MPI_Finalize(), status;
}
