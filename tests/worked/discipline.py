"""Rows of what the line `watch` says, and of programs that go where they shouldn't (docs/discipline.md)."""
from .encode import at, image
from .files import APPLIED, COLD, COLD_FILES, DROPPED_COLD, FIRST_TO_SECOND, program, sp_program
from .rows import run

# pushes the address after its return, and returns: to a jump to itself
RETURNER = image(at(0x00100000, "j", "68 06 00 10 00 C3 EB FE"))
RETURNED = [("spawn j 0", "spawned 0 0x00100000 j+0x0"), ("step 0 3", "stepped 0 3 running 0x00100006 j+0x6")]


def stray(name, function, text, *lines):
    """A session of f, main and a function that goes astray."""
    return run(name, program(at(0x00100020, function, text)), lines, FIRST_TO_SECOND)


ROWS = [
    run("return-to-a-pushed-address", RETURNER, RETURNED),
    run("return-to-a-pushed-address-breaks-the-discipline", RETURNER,
        [*RETURNED, ("watch", "watch broken event 3 thread 0 return")]),
    run("broken-discipline-stays-broken", image(at(0x00100000, "f", "50 C3"), at(0x00100010, "main", "C3")),
        [("spawn f 0", "spawned 0 0x00100000 f+0x0"),
         ("step 0 1", "stepped 0 1 running 0x00100001 f+0x1"),
         ("watch", "watch disciplined"),
         ("step 0 1", "stepped 0 1 running 0x00000000"),
         ("watch", "watch broken event 3 thread 0 return"),
         ("spawn main 0", "refused 32 no stack"),
         ("watch", "watch broken event 3 thread 0 return")]),
    run("stack-pointer-passes-its-return-address", sp_program("esp", 0x00401000),
        [("spawn sp 0", "spawned 0 0x00100010 sp+0x0"),
         ("step 0 1", "stepped 0 1 running 0x00100015 sp+0x5"),
         ("watch", "watch broken event 2 thread 0 slot")]),
    run("spawn-in-a-dropped-function-breaks-the-discipline", COLD,
        [*DROPPED_COLD, ("watch", "watch broken event 7 thread 1 start")], COLD_FILES),
    stray("jump-into-a-retired-body", "mid", "E9 E0 FF FF FF 90*11",  # jmp, to f+5
          APPLIED,
          ("spawn mid 0", "spawned 0 0x00100020 mid+0x0"),
          ("step 0 9", "stepped 0 2 stopped stray 0x00100005 f+0x5"),
          ("watch", "watch broken event 3 thread 0 arrival")),
    stray("jump-to-a-piece-that-is-gone", "go", "8B 44 24 04 FF E0 90*10",  # mov eax, [esp + 4]; jmp eax
          APPLIED,
          ("undo", "undone u1"),
          ("spawn go 0x00800000", "spawned 0 0x00100020 go+0x0"),
          ("step 0 9", "stepped 0 3 stopped unmapped 0x00800000"),
          ("watch", "watch broken event 5 thread 0 arrival")),
    stray("write-to-code", "wr", "C7 05 00 00 10 00 90 90 90 90 90*6",  # mov dword [0x00100000], 0x90909090
          ("spawn wr 0", "spawned 0 0x00100020 wr+0x0"),
          ("step 0 9", "stepped 0 1 stopped code-access 0x00100020 wr+0x0"),
          ("peek 0x00100000 4", "0x00100000: b8 01 00 00")),
    stray("push-below-the-stack", "dp", "BC 00 00 40 00 50 90*10",  # mov esp, 0x00400000; push eax
          ("spawn dp 0", "spawned 0 0x00100020 dp+0x0"),
          ("step 0 9", "stepped 0 2 stopped unmapped 0x00100025 dp+0x5"),
          APPLIED),
]
