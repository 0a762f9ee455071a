"""Rows of sessions without an update: threads, their steps and their ends (docs/machine.md, docs/script.md)."""
from .encode import at, four_stacks, image, read_only, writable
from .files import BARE_F, OLD_RUNS, PROGRAM, TWINS, program
from .rows import run

# the code of a function t, and what a thread comes to in it within nine steps
ENDS = {
    "reading-code-stops": ("A1 00 00 10 00 C3", "stepped 0 1 stopped code-access 0x00100000 t+0x0"),
    "reading-nothing-stops": ("A1 00 00 00 00 C3", "stepped 0 1 stopped unmapped 0x00100000 t+0x0"),
    "division-by-zero-stops": ("31 C9 F7 F1 C3", "stepped 0 2 stopped divide 0x00100002 t+0x2"),
    "trap-stops": ("CC", "stepped 0 1 stopped trap 0x00100000 t+0x0"),
    "string-move-is-unsupported": ("A4", "stepped 0 1 stopped unsupported 0x00100000 t+0x0"),
    "locked-nop-stops": ("F0 90", "stepped 0 1 stopped bad-lock 0x00100000 t+0x0"),
    "running-off-the-region-stops": ("90", "stepped 0 2 stopped unmapped 0x00100001 t+0x1"),
}


def in_t(name, text, *lines, regions=()):
    """A session that starts a thread in the function t of this code."""
    return run(name, image(at(0x00100000, "t", text), regions=regions),
               [("spawn t 0", "spawned 0 0x00100000 t+0x0"), *lines])


# f and main, lock, which no processor would run, and away, which returns to where nothing is
FOUR_ENDS = program(at(0x00100020, "lock", "F0 90*15"), at(0x00100030, "away", "68 FF FF 0F 00 C3"),
                    stacks=four_stacks(0x00400000, 0x1000))


def all_threads():
    """As many threads as there may be, each of which ends before the next one starts, and one more."""
    lines = []
    for thread in range(4096):
        lines += [("spawn f 0", f"spawned {thread} 0x00100000 f+0x0"),
                  (f"step {thread} 9", f"stepped {thread} 3 exited 0x00000001")]
    return [*lines, ("spawn f 0", "refused 37 too many threads")]


ROWS = [
    # starts
    run("old-code-runs", PROGRAM, OLD_RUNS),
    run("spawn-of-an-unknown-name", PROGRAM, [("spawn nope 0", "refused 31 no symbol nope")]),
    run("name-in-a-refusal-is-escaped", PROGRAM, [("spawn a\\b 0", "refused 31 no symbol a\\x5cb")]),
    run("spawn-where-two-functions-share-the-name", TWINS,
        [("spawn tw 0", "refused 19 two names tw 0x00100000 0x00100010")]),
    run("second-thread-finds-no-stack", PROGRAM, [OLD_RUNS[0], ("spawn main 0", "refused 32 no stack")]),
    run("thread-past-the-last", PROGRAM, all_threads()),

    # steps
    run("step-of-an-unknown-thread", PROGRAM, [("step 7 1", "refused 30 no thread 7")]),
    run("step-of-no-step", PROGRAM,
        [OLD_RUNS[0],
         ("step 0 0", "stepped 0 0 running 0x00100010 main+0x0"),
         ("step 0 5", "stepped 0 5 exited 0x00000001"),
         ("step 0 0", "refused 30 no thread 0")]),
    run("round-robin-without-a-thread", PROGRAM, [("rr 1 5", "rr 0")]),
    *(in_t(name, text, ("step 0 9", reply)) for name, (text, reply) in ENDS.items()),

    run("threads-are-listed-with-their-ends", FOUR_ENDS,
        [*OLD_RUNS,
         ("spawn lock 0", "spawned 1 0x00100020 lock+0x0"),
         ("step 1 9", "stepped 1 1 stopped bad-lock 0x00100020 lock+0x0"),
         ("spawn away 0", "spawned 2 0x00100030 away+0x0"),
         ("step 2 9", "stepped 2 3 stopped unmapped 0x000fffff"),
         ("spawn main 0", "spawned 3 0x00100010 main+0x0"),
         ("threads", "thread 0 exited 0x00000001", "thread 1 stopped bad-lock 0x00100020 lock+0x0",
          "thread 2 stopped unmapped 0x000fffff", "thread 3 running 0x00100010 main+0x0", "threads 4")]),

    # memory
    run("peek-over-the-end-of-the-region", image(BARE_F), [("peek 0x00100005 2", "0x00100005: c3 --")]),
    run("peek-before-the-region", PROGRAM, [("peek 0x000ffffe 4", "0x000ffffe: -- -- b8 01")]),
    in_t("read-of-two-bytes-over-a-page-end", "66 A1 FF 0F 20 00 EB FE",
         ("step 0 1", "stepped 0 1 running 0x00100006 t+0x6"), regions=[writable(0x00200000, "00*4097")]),
    in_t("read-of-four-bytes-past-the-region", "A1 FF 0F 20 00 EB FE",
         ("step 0 1", "stepped 0 1 stopped unmapped 0x00100000 t+0x0"), regions=[writable(0x00200000, "00*4097")]),
    in_t("write-over-a-region-end-leaves-the-bytes-before", "C7 05 FE 0F 20 00 0A 0B 0C 0D C3",
         ("step 0 1", "stepped 0 1 stopped read-only-write 0x00100000 t+0x0"),
         ("peek 0x00200ffe 4", "0x00200ffe: 01 02 03 04"),
         regions=[writable(0x00200000, "00*4094 01 02"), read_only(0x00201000, "03 04 05 06")]),
]
