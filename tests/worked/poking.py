"""Rows of the lines `poke`, `tail` and `seal`: a jump that is written in three writes (docs/updates.md)."""
from .encode import at, obj, sec
from .files import PROGRAM, REPLACED, f_alone, f_and_main, f_calling, program
from .rows import run

FILES = {f"o{number}.o": f_and_main(number) for number in (1, 2, 3)}
# a function h beside f, in the new object alone
WITH_H = {"pre.o": f_alone(1), "post.o": obj(f_calling(".text.h"), sec(".text.h", "C3"))}
# a function that goes astray into f, behind the five bytes of the jump
ASTRAY = program(at(0x00100020, "mid", "E9 E0 FF FF FF 90*11"))

MARKED = ("poke u1 o1.o o2.o", "marked u1", REPLACED)
OLD = ("peek 0x00100000 6", "0x00100000: b8 01 00 00 00 c3")
CC_OLD = ("peek 0x00100000 6", "0x00100000: cc 01 00 00 00 c3")
CC_TAIL = ("peek 0x00100000 6", "0x00100000: cc fb ff 6f 00 c3")
JUMP = ("peek 0x00100000 6", "0x00100000: e9 fb ff 6f 00 c3")
TAILED, SEALED, NO_POKE = ("tail", "tailed u1"), ("seal", "sealed u1"), "refused 44 no poke"

ROWS = [
    run("jump-written-in-three-writes-while-threads-run", PROGRAM,
        [MARKED, CC_OLD,
         ("spawn main 0", "spawned 0 0x00100010 main+0x0"),
         ("step 0 2", "stepped 0 2 running 0x00800000"),
         ("step 0 9", "stepped 0 4 exited 0x00000002"),
         TAILED, CC_TAIL,
         ("spawn main 0", "spawned 1 0x00100010 main+0x0"),
         ("step 1 2", "stepped 1 2 running 0x00800000"),
         SEALED, JUMP,
         ("step 1 9", "stepped 1 4 exited 0x00000002"),
         ("spawn main 0", "spawned 2 0x00100010 main+0x0"),
         ("step 2 9", "stepped 2 6 exited 0x00000002"),
         ("watch", "watch disciplined")], FILES),
    run("nothing-else-is-updated-while-an-update-is-open", PROGRAM,
        [MARKED,
         ("apply u2 o2.o o3.o", "refused 43 poke open u1"),
         ("apply u1 o2.o o3.o tries 9 gap 9", "refused 43 poke open u1"),
         ("poke u2 o2.o o3.o", "refused 43 poke open u1"),
         ("undo", "refused 43 poke open u1"),
         ("undo u9", "refused 43 poke open u1"),
         CC_OLD, TAILED,
         ("poke u2 o2.o o2.o", "refused 43 poke open u1"),
         ("undo u1", "refused 43 poke open u1"),
         ("list", "update u1 1", "updates 1"),
         CC_TAIL, SEALED,
         ("apply u2 o2.o o3.o", "applied u2 tries 1", " replaced f 0x00100000 0x00800010 6")], FILES),
    run("files-are-loaded-before-an-open-update-is-told", PROGRAM,
        [MARKED, ("poke u2 o2.o none.o", "file none.o missing")], FILES),
    run("writes-out-of-their-order", PROGRAM,
        [("tail", NO_POKE), ("seal", NO_POKE), MARKED, ("seal", NO_POKE), CC_OLD, TAILED, ("tail", NO_POKE), CC_TAIL,
         SEALED, ("seal", NO_POKE), ("tail", NO_POKE), JUMP], FILES),
    run("difference-of-more-than-one-function", PROGRAM,
        [("poke u1 pre.o post.o", "refused 45 not one changed"),
         ("tail", NO_POKE), OLD,
         ("apply u1 pre.o post.o", "applied u1 tries 1", REPLACED, " added h 0x00800010")], WITH_H),
    run("objects-without-a-difference", PROGRAM, [("poke u1 o1.o o1.o", "refused 12 no change")], FILES,
        remark="nothing is said of the number of functions where the difference itself is refused"),
    run("refused-first-write-leaves-all-as-it-was", PROGRAM,
        [("spawn main 0", "spawned 0 0x00100010 main+0x0"),
         ("step 0 2", "stepped 0 2 running 0x00100005 f+0x5"),
         ("poke u1 o1.o o2.o", "refused 25 busy thread 0 pc 0x00100005"),
         ("tail", NO_POKE), ("list", "updates 0"), OLD,
         ("step 0 1", "stepped 0 1 running 0x00100015 main+0x5"),
         MARKED, TAILED, SEALED, JUMP], FILES),
    run("second-version-in-three-writes", PROGRAM,
        [("apply u1 o1.o o2.o", "applied u1 tries 1", REPLACED),
         ("poke u2 o2.o o3.o", "marked u2", " replaced f 0x00100000 0x00800010 6"), CC_TAIL,
         ("spawn main 0", "spawned 0 0x00100010 main+0x0"),
         ("step 0 2", "stepped 0 2 running 0x00800010"),
         ("tail", "tailed u2"),
         ("peek 0x00100000 6", "0x00100000: cc 0b 00 70 00 c3"),
         ("step 0 9", "stepped 0 4 exited 0x00000003"),
         ("seal", "sealed u2"),
         ("peek 0x00100000 6", "0x00100000: e9 0b 00 70 00 c3"),
         ("undo", "undone u2"), JUMP, ("undo", "undone u1"), OLD], FILES,
        remark="the old bytes of the second update are the jump of the first, and its first byte alone is another"),
    run("first-write-is-one-event-and-the-others-are-none", ASTRAY,
        [MARKED, TAILED, SEALED,
         ("spawn mid 0", "spawned 0 0x00100020 mid+0x0"),
         ("step 0 9", "stepped 0 2 stopped stray 0x00100005 f+0x5"),
         ("watch", "watch broken event 3 thread 0 arrival")], FILES),
    run("thread-that-goes-astray-while-an-update-is-open", ASTRAY,
        [MARKED,
         ("spawn mid 0", "spawned 0 0x00100020 mid+0x0"),
         ("step 0 9", "stepped 0 2 stopped stray 0x00100005 f+0x5"),
         TAILED, SEALED,
         ("watch", "watch broken event 3 thread 0 arrival")], FILES),
]
