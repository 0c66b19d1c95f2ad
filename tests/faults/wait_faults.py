"""What may be wrong with cubejobs_wait.h, with cubejobs.hpp, or with a library for workers that sleep (a part of ffi).

Without one of these lines some order of threads loses a wake, so a thread sleeps for ever. The programs must see it.
"""
LOST = b"a wake is lost"
# Of the threads that wait for blocks.
RAISED = "    cubejobs_event_raise(event);\n"
QUICK = "    answer = cubejobs_regions_take(thread, block, k);\n"
LOCKED, UNLOCKED = (f"    pthread_mutex_{it}(&event->turn);\n" for it in ("lock", "unlock"))
KEYED = "    *key = cubejobs_event_key(event);\n"
STOPPED = "    if (!cubejobs_event_is_stopped(event)) answer = cubejobs_regions_take_exact(thread, block, k);\n"
EXACT = KEYED + STOPPED
NOTED = "    __atomic_store_n(&event->is_stopped, 1, __ATOMIC_SEQ_CST);\n"
LATE = """        is_late = deadline && cubejobs_has_passed(deadline);
        if (!is_late) cubejobs_event_sleep(event, key, deadline);
"""
EARLY, NEVER = b"a wait ends before its deadline", b"there are both ends"
SPENT = b"processor time"
# Of a wait by a mutex and a condition, whose thread is cancelled.
CANCELLED = "PTHREAD_CANCEL_DISABLE", "PTHREAD_CANCEL_ENABLE"
# Of workers and of submits of lanes.
WAKE = "    while (wake.code == CUBEJOBS_LANES_AGAIN) wake ="
WOKEN = "    if (wake.code == CUBEJOBS_LANES_DONE) cubejobs_unpark(parking, wake.worker);\n"
UNPARK = "    cubejobs_unpark(parking, answer.woken);\n"
ALL = "    cubejobs_unpark_all(parking);\n"
PARK = "    while (__atomic_load_n(word, __ATOMIC_SEQ_CST) == 0) "
PARK += "syscall(SYS_futex, word, FUTEX_WAIT_PRIVATE, 0, 0, 0, 0);\n"
UNUSED = "    (void)parking;\n"
ROOM = "    cubejobs_event_raise(&parking->room);\n"
OF_A_WAIT = f"            if (answer.code == CUBEJOBS_LANES_DONE) {ROOM.strip()}\n            return answer;\n"
OF_A_TAKE = f"    if (answer.code == CUBEJOBS_LANES_DONE) {ROOM.strip()}\n"
KEY = "        uint32_t key = cubejobs_event_key(&parking->room);\n"
TRY = "        answer = cubejobs_lanes_submit_and_wake(lane, payload, dim, parking);\n"
FULL = "        if (answer.code != CUBEJOBS_LANES_FULL) break;\n"
SLEEP = "is_late = cubejobs_event_wait_until(&parking->room, key, deadline);"
POLLS = "is_late = deadline && cubejobs_has_passed(deadline), (void)key;"
FOREVER = f"(void)deadline, {SLEEP}".replace("deadline);", "0);")
# Of each fault the program that sees it, what is wrong, the old text and the new one, and what the program says.
OF_THE_HEADER = (
    ("wait_calls", "a release raises nothing", f"{RAISED}    return code;", "    (void)event;\n    return code;", LOST),
    ("wait_order", "a take raises nothing", QUICK + RAISED, QUICK, LOST),
    ("wait_order", "a granted take raises nothing", QUICK + RAISED, f"{QUICK}    if (answer.code) {RAISED}", LOST),
    ("wait_order", "a refused take raises nothing", QUICK + RAISED, f"{QUICK}    if (!answer.code) {RAISED}", LOST),
    ("wait_order", "waiters take at the same time", f"{LOCKED}{EXACT}{UNLOCKED}", EXACT, LOST),
    ("deadline_calls", "a stop of waits raises nothing", NOTED + RAISED, NOTED, LOST),
    ("deadline_calls", "a stop is not looked for", STOPPED,
     STOPPED.replace("if (!cubejobs_event_is_stopped(event)) ", ""), LOST),
    ("deadline_calls", "a deadline is not looked at", LATE, LATE.replace("cubejobs_has_passed(deadline)", "0"), NEVER),
    ("deadline_calls", "a wait is late at once", LATE, LATE.replace("cubejobs_has_passed(deadline)", "1"), EARLY),
    ("look_order", "a submit reads its key after its try", KEY + TRY + FULL, f"{TRY}{FULL}{KEY}", LOST),
    ("look_order", "a wait for a job raises no room", OF_A_WAIT, "            return answer;\n", LOST),
    ("look_order", "a take raises no room", OF_A_TAKE, UNUSED, LOST),
    ("look_order", "a close raises no room", ALL + ROOM, ALL, LOST),
    ("room_calls", "a wait for a job raises no room: random programs", OF_A_WAIT, "            return answer;\n", LOST),
    ("room_calls", "a close raises no room: random programs", ALL + ROOM, ALL, LOST),
    ("room_calls", "a deadline of a submit is ignored", SLEEP, FOREVER, LOST),
    ("room_calls", "a submit is late at once", SLEEP, f"{SLEEP[:-1]} || deadline;", EARLY),
    ("room_calls", "a submit does not sleep", SLEEP, POLLS, SPENT),
    ("sleep_calls", "a submit wakes nobody", WOKEN, UNUSED, LOST),
    ("sleep_calls", "a wake is not tried again", WAKE, "    wake =", LOST),
    ("sleep_calls", "a worker wakes no other", UNPARK, "", LOST),
    ("look_order", "a close wakes nobody", ALL, "", LOST),
    ("sleep_calls", "a park forgets a wake", PARK, f"    __atomic_store_n(word, 0, __ATOMIC_SEQ_CST);\n{PARK}", LOST),
    ("sleep_calls", "a worker without a job spins", PARK, "    sched_yield();\n", SPENT),
)
# The same of cubejobs.hpp, which look_order.c and room_calls.c see with OWNERS.
WAKES = "        if (answer.code == CUBEJOBS_LANES_DONE) mine->all->wake(&mine->at);\n"
OTHERS = "            mine->all->unpark(answer.woken);\n"
OF_NEXT = "            if (answer.code == CUBEJOBS_LANES_DONE) mine->all->room.raise();\n"
OF_TRY_NEXT = "        if (answer.code == CUBEJOBS_LANES_DONE) mine->all->room.raise();\n        return answer;\n"
OF_CLOSE = "        all->room.raise();\n"
KEYS, TRIES = "            const std::uint32_t key = mine->all->room.key();\n", "            answer = submit(payload, dim);\n"
ENDS = "            if (answer.code != CUBEJOBS_LANES_FULL) break;\n"
SLEEPS = "is_late = mine->all->room.wait(key, deadline);"
OF_OWNERS = (
    ("look_order", "a submit wakes nobody", WAKES, "", LOST),
    ("look_order", "a worker wakes no other", OTHERS, "", LOST),
    ("look_order", "a close wakes nobody", "        all->unpark_all();\n", "", LOST),
    ("look_order", "a submit reads its key after its try", KEYS + TRIES + ENDS, TRIES + ENDS + KEYS, LOST),
    ("look_order", "next raises no room", OF_NEXT, "", LOST),
    ("look_order", "try_next raises no room", OF_TRY_NEXT, "        return answer;\n", LOST),
    ("look_order", "a close raises no room", OF_CLOSE, "", LOST),
    ("room_calls", "next raises no room: random programs", OF_NEXT, "", LOST),
    ("room_calls", "a deadline is ignored", SLEEPS, f"(void)deadline, {SLEEPS}".replace("deadline);", "nullptr);"),
     LOST),
    ("room_calls", "a submit is late at once", SLEEPS, f"{SLEEPS[:-1]} || deadline;", EARLY),
)
# What is wrong with a library (wrong_sleep.c), and what sleep_calls.c says then.
OF_A_LIBRARY = (
    ("a wake names nobody", LOST),
    ("a find names nobody", LOST),
    ("a job is lost", LOST),
    ("a worker that parks has its token", SPENT),
)
