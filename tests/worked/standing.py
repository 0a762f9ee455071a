"""Rows of threads that stand in the way of an update, or don't (docs/updates.md)."""
from .encode import STACKS, at, image, obj, sec, word, writable
from .files import (APPLIED, APPLY, BARE_F, F_FIRST_TO_SECOND, FIRST_TO_SECOND, NEW_WORK, OLD_WORK, PROGRAM, REPLACED,
                    SPIN, WORK, applied, f_alone, f_section, program, sp_program)
from .rows import run

IN_F = ("spawn f 0", "spawned 0 0x00100000 f+0x0")
IN_SP = ("spawn sp 0", "spawned 0 0x00100010 sp+0x0")
ESP_SET = ("step 0 1", "stepped 0 1 running 0x00100015 sp+0x5")
ECX_SET = ("step 0 2", "stepped 0 2 running 0x00100015 sp+0x5")
STACK_OUT = (APPLY, "refused 26 stack out thread 0 0x003ffffc")
ONLY_ADDED = {"pre.o": f_alone(1), "post.o": obj(f_section(1), sec(".text.h", "C3"))}
TWO_STACKS = program(stacks=[(0x00400000, 0x00401000), (0x00402000, 0x00403000)])
LARGE_STACK = sp_program("esp", 0x02000000, stacks=[(0x02000000, 0x03000000)])


def busy(told, line=APPLY):
    return line, f"refused 25 busy thread 0 {told}"


def words_on_the_stack(name, count, *hits):
    """A thread with so many words from ESP to the top of its stack, of which those of these numbers are an address in
    f."""
    low = STACKS[0][1] - 4 * count
    writes = "".join(f"C7 05 {word(low + 4 * hit)} {word(0x00100005)} " for hit in hits)
    steps, offset = len(hits) + 1, 10 * len(hits) + 5
    return run(name, image(BARE_F, at(0x00100010, "sp", f"{writes} BC {word(low)} EB FE")),
               [IN_SP,
                (f"step 0 {steps}", f"stepped 0 {steps} running 0x{0x00100010 + offset:08x} sp+0x{offset:x}"),
                busy(f"stack 0x{low + 4 * hits[0]:08x} 0x00100005") if hits else APPLIED], F_FIRST_TO_SECOND)


ROWS = [
    # the pc
    run("thread-stands-in-the-function", PROGRAM, [IN_F, busy("pc 0x00100000")], FIRST_TO_SECOND),
    run("thread-stands-just-behind-the-function", program(at(0x00100020, "go", "E9 E1 FF FF FF 90*11")),
        [("spawn go 0", "spawned 0 0x00100020 go+0x0"), ("step 0 1", "stepped 0 1 running 0x00100006 f+0x6"), APPLIED],
        FIRST_TO_SECOND),
    run("second-thread-stands-in-the-way", TWO_STACKS,
        [("spawn main 0", "spawned 0 0x00100010 main+0x0"), ("spawn main 0x00100004", "spawned 1 0x00100010 main+0x0"),
         (APPLY, "refused 25 busy thread 1 stack 0x00402ff0 0x00100004")], FIRST_TO_SECOND),
    run("refused-update-leaves-nothing", PROGRAM,
        [IN_F,
         busy("pc 0x00100000"),
         ("peek 0x00100000 6", "0x00100000: b8 01 00 00 00 c3"),
         ("peek 0x00800000 4", "0x00800000: -- -- -- --"),
         ("step 0 9", "stepped 0 3 exited 0x00000001"),
         APPLIED], FIRST_TO_SECOND),
    run("update-that-only-adds-passes-a-thread-in-an-old-function", PROGRAM,
        [IN_F, applied(" added h 0x00800000")], ONLY_ADDED),

    run("stopped-thread-is-passed-over", image(at(0x00100000, "f", "CC C3 90*14")),
        [IN_F,
         ("step 0 9", "stepped 0 1 stopped trap 0x00100000 f+0x0"),
         applied(" replaced f 0x00100000 0x00800000 2")],
        {"pre.o": obj(sec(".text.f", "CC C3")), "post.o": f_alone(2)}),
    run("ended-thread-is-passed-over", PROGRAM,
        [IN_F, ("step 0 9", "stepped 0 3 exited 0x00000001"), APPLIED], FIRST_TO_SECOND),

    # registers
    run("last-register-holds-the-address-of-the-function", image(BARE_F, at(0x00100010, "sp", "BF 00 00 10 00 EB FE")),
        [IN_SP, ECX_SET, busy("register edi 0x00100000")], F_FIRST_TO_SECOND),
    run("register-holds-an-address-of-the-function", sp_program("ecx", 0x00100005),
        [IN_SP, ECX_SET, busy("register ecx 0x00100005")], F_FIRST_TO_SECOND),
    run("register-holds-the-address-after-the-function", sp_program("ecx", 0x00100006), [IN_SP, ECX_SET, APPLIED],
        F_FIRST_TO_SECOND),

    # the stack
    run("stack-holds-an-address-of-the-function", PROGRAM,
        [("spawn main 0x00100005", "spawned 0 0x00100010 main+0x0"), busy("stack 0x00400ff0 0x00100005")],
        FIRST_TO_SECOND),
    run("stack-holds-the-address-after-the-function", PROGRAM,
        [("spawn main 0x00100006", "spawned 0 0x00100010 main+0x0"), APPLIED], FIRST_TO_SECOND),
    run("word-just-above-the-stack-is-passed-over",
        sp_program("esp", STACKS[0][1] - 4, regions=[writable(STACKS[0][1], "05 00 10 00")]),
        [IN_SP, ESP_SET, APPLIED], F_FIRST_TO_SECOND),
    run("odd-stack-pointer-is-rounded-down", sp_program("esp", 0x00400FF1),
        [("spawn sp 0x00100005", IN_SP[1]), ESP_SET, busy("stack 0x00400ff0 0x00100005")], F_FIRST_TO_SECOND),
    run("empty-stack-is-accepted", sp_program("esp", 0x00401000), [IN_SP, ESP_SET, APPLIED], F_FIRST_TO_SECOND),
    run("address-below-the-stack-pointer", sp_program("esp", 0x00400FF4),
        [("spawn sp 0x00100005", IN_SP[1]), ESP_SET, APPLIED], F_FIRST_TO_SECOND),
    run("stack-pointer-above-its-stack", sp_program("esp", 0x00401001),
        [IN_SP, ESP_SET, (APPLY, "refused 26 stack out thread 0 0x00401001")], F_FIRST_TO_SECOND),
    run("stack-pointer-below-its-stack", sp_program("esp", 0x003FFFFC), [IN_SP, ESP_SET, STACK_OUT], F_FIRST_TO_SECOND),
    run("stack-out-is-refused-without-a-range", sp_program("esp", 0x003FFFFC), [IN_SP, ESP_SET, STACK_OUT], ONLY_ADDED),
    *(words_on_the_stack(f"no-hit-among-{count}-stack-words", count) for count in (0, 1, 7, 8, 9, 17)),
    *(words_on_the_stack(f"hit-in-the-last-of-{count}-stack-words", count, count - 1) for count in (1, 7, 8, 9, 17)),
    *(words_on_the_stack(f"first-of-two-hits-among-{count}-stack-words", count, count // 2, count - 1)
      for count in (7, 8, 9, 17)),
    run("stack-of-sixteen-mebibytes-holds-an-address", LARGE_STACK,
        [("spawn sp 0x00100005", IN_SP[1]), ESP_SET, busy("stack 0x02fffff0 0x00100005")], F_FIRST_TO_SECOND),
    run("stack-of-sixteen-mebibytes-is-free", LARGE_STACK,
        [("spawn sp 0x00100006", IN_SP[1]), ESP_SET, APPLIED], F_FIRST_TO_SECOND),

    # tries
    run("tries-go-on-until-the-thread-has-left", PROGRAM,
        [IN_F,
         (f"{APPLY} tries 3 gap 1", "applied u1 tries 3", REPLACED),
         ("threads", "thread 0 running 0xffff0000", "threads 1")], FIRST_TO_SECOND),
    run("sixteen-tries-without-success", SPIN,
        [("spawn spin 0x00100000", "spawned 0 0x00100020 spin+0x0"),
         busy("stack 0x00400ff0 0x00100000", f"{APPLY} tries 16 gap 3"),
         busy("stack 0x00400ff0 0x00100000")], FIRST_TO_SECOND),
    run("unit-updated-under-four-threads", WORK,
        [*((f"spawn main {thread}", f"spawned {thread} 0x00100040 main+0x0") for thread in range(4)),
         ("rr 1 36", "rr 36"),
         (f"{APPLY} tries 2 gap 4", "applied u1 tries 2",
          " replaced work 0x00100000 0x00800000 48", " replaced work.cold 0x00100030 0x00800030 5"),
         ("rr 1 1000", "rr 69"),
         ("threads", "thread 0 exited 0x00000015", "thread 1 exited 0x00000028", "thread 2 exited 0x0098005c",
          "thread 3 exited 0x000000c7", "threads 4"),
         ("peek 0x0080000d 4", "0x0080000d: 1f 00 90 ff"),
         ("watch", "watch disciplined")], {"pre.o": OLD_WORK, "post.o": NEW_WORK},
        remark="each adds an answer of the old work and one of the new: 10 and 11, 20 and 20, the two places of the "
               "text, 99 and 100"),
]
