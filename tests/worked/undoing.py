"""Rows of updates upon updates, and of the lines `undo`, `undo NAME` and `list` (docs/updates.md)."""
from .encode import at, four_stacks, image, obj, relative, sec, word
from .files import (APPLIED, COLD, COLD_FILES, DROPPED_COLD, FIRST_TO_SECOND, LONGER_COLD_UNIT, MAIN_SECTION, NEW_RUNS,
                    OLD_RUNS, PROGRAM, REPLACED, SPIN, f_alone, f_and_main, f_calling, f_reading, program)
from .rows import run

THREE = {f"o{number}.o": f_and_main(number) for number in (1, 2, 3)}

# the new f calls spin, in which a thread stays
CALLS_SPIN = {"pre.o": f_and_main(1), "post.o": obj(f_calling("spin"), MAIN_SECTION)}
IN_SPIN = [
    APPLIED,
    ("spawn main 0", "spawned 0 0x00100010 main+0x0"),
    ("step 0 5", "stepped 0 5 running 0x00100020 spin+0x0"),
    ("peek 0x00800000 6", "0x00800000: e8 1b 00 90 ff c3"),
]

# the new f reads a new variable
READS_N = {"pre.o": f_and_main(1),
           "post.o": obj(f_reading(".data.n"), MAIN_SECTION, sec(".data.n", "2A 00 00 00", variable="n"))}

# a function g beside f, which answers 5
WITH_G = program(at(0x00100020, "g", "B8 05 00 00 00 C3 90*10"))


def g_alone(number):
    return obj(sec(".text.g", f"B8 {number:02X} 00 00 00 C3"))


F_AND_G = {**{f"f{number}.o": f_alone(number) for number in (1, 2, 3)},
           **{f"g{number}.o": g_alone(number) for number in (5, 6)}}

# the new f calls a new function h, and the new g calls that one, too
CALLS_H = {"f1.o": f_alone(1), "fh.o": obj(f_calling(".text.h"), sec(".text.h", "C3")),
           "g5.o": g_alone(5), "gh.o": obj(sec(".text.g", "E8 00 00 00 00 C3", relative(1, "h")))}


def as_many_as_may_be():
    """64 updates of f, one upon the other, and then one more, twice."""
    lines = []
    for k in range(64):
        lines.append((f"apply u{k + 1} {'o2.o o1.o' if k % 2 else 'o1.o o2.o'}", f"applied u{k + 1} tries 1",
                      f" replaced f 0x00100000 0x{0x00800000 + 16 * k:08x} 6"))
    return [*lines,
            ("apply u65 o2.o o1.o", "refused 24 too many updates"),
            ("undo", "undone u64"),
            ("apply u65 o2.o o1.o", "applied u65 tries 1", " replaced f 0x00100000 0x008003f0 6")]


def chain(numbers):
    """Functions f0, f1 and so on: each adds a number to EAX, and calls the next where there is one."""
    sections = [sec(f".text.f{i}", f"05 {word(number)} E8 00 00 00 00 C3", relative(6, f".text.f{i + 1}"))
                for i, number in enumerate(numbers[:-1])]
    return obj(*sections, sec(f".text.f{len(sections)}", f"05 {word(numbers[-1])} C3"))


def chain_in_memory(numbers):
    parts = [at(0x00100000 + 32 * i, f"f{i}", f"05 {word(number)} E8 16 00 00 00 C3 90*21")
             for i, number in enumerate(numbers[:-1])]
    last = at(0x00100000 + 32 * len(parts), f"f{len(parts)}", f"05 {word(numbers[-1])} C3 90*26")
    return image(*parts, last, stacks=four_stacks(0x00400000, 0x10000), arena=(0x00800000, 0x00900000))


def updated_to_and_fro(name, numbers):
    """Eight rounds: four threads start and make some steps in a chain, and an update changes every fourth function, or
    changes it back; its first try is refused, and the threads end before the second. Then three updates are undone, and
    four threads run the chain once more."""
    changed = range(1, len(numbers), 4)
    others = [number + (i in changed) for i, number in enumerate(numbers)]
    lines = []
    for k in range(8):
        lines += [("spawn f0 0", f"spawned {thread} 0x00100000 f0+0x0") for thread in range(4 * k, 4 * k + 4)]
        lines += [("rr 1 100", "rr 100"),
                  (f"apply u{k} {'post.o pre.o' if k % 2 else 'pre.o post.o'} tries 16 gap 4096",
                   f"applied u{k} tries 2",
                   *(f" replaced f{i} 0x{0x00100000 + 32 * i:08x} 0x{0x00800000 + 16 * (4 * k + j):08x} 11"
                     for j, i in enumerate(changed))),
                  ("rr 64 16777216", "rr 0")]
    lines += [("undo", f"undone u{k}") for k in (7, 6, 5)]
    lines += [("spawn f0 0", f"spawned {thread} 0x00100000 f0+0x0") for thread in range(32, 36)]
    # of each thread three steps a function, and one more for each jump
    lines.append(("rr 64 16777216", f"rr {4 * (3 * len(numbers) + len(changed))}"))
    # so many updates were live when the threads ran, four by four
    sums = [sum(others if live % 2 else numbers) for live in (*range(8), 5) for _ in range(4)]
    lines.append(("threads", *(f"thread {thread} exited 0x{end:08x}" for thread, end in enumerate(sums)), "threads 36"))
    lines.append(("watch", "watch disciplined"))
    return run(name, chain_in_memory(numbers), lines, {"pre.o": chain(numbers), "post.o": chain(others)})


ROWS = [
    run("update-and-undo", PROGRAM,
        [*OLD_RUNS, *NEW_RUNS,
         ("list", "update u1 1", "updates 1"),
         ("undo", "undone u1"),
         ("peek 0x00100000 6", "0x00100000: b8 01 00 00 00 c3"),
         ("undo", "refused 27 nothing applied")], FIRST_TO_SECOND),
    run("new-data-keeps-its-symbol-until-the-undo", PROGRAM,
        [APPLIED,
         ("peek 0x00800000 6", "0x00800000: a1 10 00 80 00 c3"),
         ("spawn main 0", "spawned 0 0x00100010 main+0x0"),
         ("step 0 9", "stepped 0 6 exited 0x0000002a"),
         ("undo", "undone u1"),
         ("peek 0x00800000 1", "0x00800000: --"),
         ("peek 0x00800010 1", "0x00800010: --")], READS_N),

    # updates upon updates
    run("stacked-updates-are-undone-one-by-one", PROGRAM,
        [("apply u1 o1.o o2.o", "applied u1 tries 1", REPLACED),
         ("apply u2 o2.o o3.o", "applied u2 tries 1", " replaced f 0x00100000 0x00800010 6"),
         ("peek 0x00100000 5", "0x00100000: e9 0b 00 70 00"),
         ("undo", "undone u2"),
         ("peek 0x00100000 5", "0x00100000: e9 fb ff 6f 00"),
         ("undo", "undone u1"),
         ("peek 0x00100000 5", "0x00100000: b8 01 00 00 00"),
         ("undo", "refused 27 nothing applied")], THREE),
    run("older-update-is-undone-first", WITH_G,
        [("apply u1 f1.o f2.o", "applied u1 tries 1", REPLACED),
         ("apply u2 g5.o g6.o", "applied u2 tries 1", " replaced g 0x00100020 0x00800010 6"),
         ("undo u1", "undone u1"),
         ("peek 0x00100000 5", "0x00100000: b8 01 00 00 00"),
         ("peek 0x00100020 5", "0x00100020: e9 eb ff 6f 00"),
         ("apply u3 f1.o f2.o", "applied u3 tries 1", REPLACED),
         ("list", "update u2 1", "update u3 1", "updates 2"),
         ("apply u4 f2.o f3.o", "applied u4 tries 1", " replaced f 0x00100000 0x00800020 6"),
         ("undo u3", "refused 33 covered u4"),
         ("undo u9", "refused 39 no update u9")], F_AND_G),
    run("needed-update-is-undone-after-the-one-that-needs-it", WITH_G,
        [("apply u1 f1.o fh.o", "applied u1 tries 1", REPLACED, " added h 0x00800010"),
         ("apply u2 g5.o gh.o", "applied u2 tries 1", " replaced g 0x00100020 0x00800020 6"),
         ("undo u1", "refused 34 needed u2 .text.g+0x1"),
         ("undo u2", "undone u2"),
         ("undo u1", "undone u1")], CALLS_H),
    run("name-of-a-live-update-is-taken", PROGRAM,
        [("apply u1 o1.o o2.o", "applied u1 tries 1", REPLACED),
         ("apply u1 o2.o o3.o", "refused 38 name taken u1")], THREE),
    run("sixty-four-live-updates-are-the-most", PROGRAM, as_many_as_may_be(),
        {"o1.o": f_and_main(1), "o2.o": f_and_main(2)},
        remark="what the undone update took of the arena is free again"),
    updated_to_and_fro("sixteen-functions-updated-eight-times", [0] * 16),
    updated_to_and_fro("seventeen-functions-updated-eight-times", range(1, 18)),

    # threads in the way
    run("new-code-calls-an-outside-name", SPIN, IN_SPIN, CALLS_SPIN),
    run("undo-waits-for-the-thread-in-the-new-code", SPIN,
        [*IN_SPIN,
         ("undo", "refused 25 busy thread 0 stack 0x00400fe4 0x00800005"),
         ("peek 0x00800000 6", "0x00800000: e8 1b 00 90 ff c3"),
         ("peek 0x00100000 6", "0x00100000: e9 fb ff 6f 00 c3"),
         ("list", "update u1 1", "updates 1")], CALLS_SPIN, remark="the refused undo leaves all bytes as they are"),

    # dropped functions
    run("dropped-function-is-fenced-until-the-undo", COLD,
        [*DROPPED_COLD,
         ("undo", "undone u1"),
         ("spawn work 0", "spawned 2 0x00100000 work+0x0"),
         ("step 2 9", "stepped 2 4 exited 0x00000000")], COLD_FILES),
    run("thread-at-the-jump-of-a-function-to-be-dropped", COLD,
        [("apply u1 pre.o mid.o", "applied u1 tries 1", " replaced work 0x00100000 0x00800000 6",
          " replaced work.cold 0x00100010 0x00800010 5"),
         ("spawn work.cold 0", "spawned 0 0x00100010 work.cold+0x0"),
         ("apply u2 mid.o post.o", "refused 25 busy thread 0 pc 0x00100010")],
        {**COLD_FILES, "mid.o": LONGER_COLD_UNIT}),
]
