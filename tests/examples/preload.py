"""Runs programs over examples/preload.c, and compares what they show with a run without it (a part of ffi).

The programs list folders, sort with four threads, and fill and query a database. One that is not there is skipped.
"""
import os

from checks.lib.repository import path
from checks.lib.rows import Row, answer, must, needs, put

SECONDS = 300
LINES = "".join(f"{number * 7919 % 1000003} line {number}\n" for number in range(200_000))
QUERIES = """create table t(a integer primary key, b text, c real);
with recursive n(i) as (select 1 union all select i + 1 from n where i < 20000)
  insert into t select i, 'text ' || (i * 7919 % 10007), i * 0.5 from n;
create index tb on t(b);
select count(*), sum(a), max(b) from t;
select t.a, u.a from t join t u on t.b = u.b and t.a < u.a order by 1, 2 limit 100;
delete from t where a % 3 = 0;
select b, count(*) from t group by b order by 2 desc, 1 limit 100;
"""
# Threads allocate while the process forks, and each child allocates and frees.
FORKS = """import os, threading
def work():
    for _ in range(500):
        [str(number) * 100 for number in range(50)]
threads = [threading.Thread(target=work) for _ in range(4)]
for it in threads: it.start()
for number in range(20):
    child = os.fork()
    if child == 0:
        blocks = [bytes(1000 * size) for size in range(100)]
        os._exit(len(blocks) - 100)
    print(os.waitpid(child, 0)[1])
for it in threads: it.join()
"""
# Of each program its words, and its input.
PROGRAMS = (
    (["ls", "-lR", "/usr/include"], ""),
    (["sort", "--parallel=4", "-S", "20M"], LINES),
    (["sqlite3", ":memory:"], QUERIES),
    (["python3", "-c", FORKS], ""),
)


def build(room, library):
    """Builds the shared object."""
    words = ["gcc", "-std=gnu11", "-O2", "-Wall", "-Wextra", "-Werror", f"-I{path('include')}", "-shared", "-fPIC"]
    words += [path("examples/preload.c"), library, "-pthread", "-o", f"{room}/preload.so"]
    status, _, said = answer(words, timeout=SECONDS)
    must(status == 0, f"{' '.join(words)}: {said.decode(errors='replace')}")
    # A program that it must stop: each argument is a fault.
    put(f"{room}/faulty.c", """#include <stdlib.h>
int main(int count, char **words) {
    char *volatile block = malloc(10000);
    if (count != 2) return 1;
    if (words[1][0] == 't') free(block);
    free(words[1][0] == 'i' ? block + 16 : block);
    return 0;
}
""")
    status, _, said = answer(["gcc", "-w", f"{room}/faulty.c", "-o", f"{room}/faulty"], timeout=SECONDS)
    must(status == 0, said.decode(errors="replace"))


def must_be_same(room, words, text):
    needs(words[0])
    env = {**os.environ, "LC_ALL": "C"}
    before = answer(words, text, text=True, env=env, timeout=SECONDS)
    after = answer(words, text, text=True, env={**env, "LD_PRELOAD": f"{room}/preload.so"}, timeout=SECONDS)
    must(before[0] == 0 and before[1], f"{words[0]} fails without the allocator: {before[2][:300]}")
    must(after == before, f"status {after[0]}, errors {after[2][:300]!r}, and other output")


def must_stop(room, fault, sentence):
    status, _, said = answer([f"{room}/faulty", fault], "", text=True, env={"LD_PRELOAD": f"{room}/preload.so"})
    must(status != 0 and sentence in said, f"status {status}: {said!r}")


def rows(room):
    for words, text in PROGRAMS:
        yield Row(f"preload.c under {' '.join(words)[:30]!r}", must_be_same, (room, words, text))
    yield Row("preload.c, a block that is freed twice", must_stop, (room, "twice", "freed twice"))
    yield Row("preload.c, a pointer into a block", must_stop, (room, "inside", "this is no block"))
