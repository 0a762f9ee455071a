"""Rows of the line `hooks`: updates at which functions run that the new object lists (docs/updates.md)."""
import objects

from .encode import absolute, edit, header_at, obj, sec, variable, word, writable
from .files import REPLACED, f_alone, f_section, program
from .rows import run

LISTED = ".ksplice_apply"
# f and main, and a variable x of four bytes
X = 0x00200000
X_PARTS = {"regions": [writable(X, "00*4")], "symbols": [variable(X, "x")]}
WITH_X = program(**X_PARTS)
HOOKS, ADDED = "hooks u1 pre.o post.o", " added hk 0x00800010"
OLD_F = ("peek 0x00100000 5", "0x00100000: b8 01 00 00 00")
IS_0, IS_7 = ("peek 0x00200000 4", "0x00200000: 00 00 00 00"), ("peek 0x00200000 4", "0x00200000: 07 00 00 00")
# mov dword [x], 7
WRITES_X = "C7 05 00 00 00 00 07 00 00 00"


def files(*sections):
    """An update of f, with further sections in the new object."""
    return {"pre.o": f_alone(1), "post.o": obj(f_section(2), *sections)}


def lists(*functions):
    """The section that lists functions, by the names of their sections."""
    return sec(LISTED, f"00*{4 * len(functions)}",
               *(absolute(4 * place, name) for place, name in enumerate(functions)))


def hook(text, *references, name="hk"):
    return sec(f".text.{name}", text, *references)


def with_hook(text, *references):
    """An update of f whose new object has a function hk, and lists it."""
    return files(hook(text, *references), lists(".text.hk"))


def done(*runs, added=(ADDED,)):
    """The line that makes it, and what it says."""
    return HOOKS, "applied u1 tries 1", REPLACED, *added, *runs


TO_X = absolute(2, "x")
WRITING = with_hook(f"{WRITES_X} C3", TO_X)
BROKEN = {offset: files(hook("C3"), section) for offset, section in {
    "0x4": sec(LISTED, "00*5", absolute(0, ".text.hk")),
    "0x0": sec(LISTED, "00*4"),
    "0x100": sec(LISTED, "00*260"),
}.items()}


def of_class(unit, flags, kind):
    """The object, whose last section but one, its list, has other flags and another type."""
    header = header_at(unit, 3)
    return edit(edit(unit, header + 8, flags), header + 4, kind)


# lists that are broken at their begin
WITH_HK = obj(f_section(2), hook("C3"), lists(".text.hk"))
BROKEN_AT_0 = {
    "inside-a-function": obj(f_section(2), hook("90 C3"), sec(LISTED, "00*4", absolute(0, ".text.hk", 1))),
    "outside-the-object": obj(f_section(2), sec(LISTED, "00*4", absolute(0, "main"))),
    "of-data": obj(f_section(2), sec(".rodata.r", "00*4"), sec(LISTED, "00*4", absolute(0, ".rodata.r"))),
    "of-one-byte": obj(f_section(2), sec(LISTED, "00")),
    "of-code": of_class(obj(f_section(2), hook("C3"), sec(LISTED, "00*4", functions={"l": 0})), objects.CODE,
                        objects.PROGBITS),
    "of-zeros": of_class(obj(f_section(2), hook("C3"), sec(LISTED, "00*4")), objects.WRITABLE, objects.NOBITS),
    "of-texts": of_class(obj(f_section(2), hook("C3"), sec(LISTED, "00*4")), objects.TEXTS, objects.PROGBITS),
}

ROWS = [
    run("function-runs-at-an-update", WITH_X,
        [done(" hook hk steps 3"), IS_7, ("list", "update u1 1", "updates 1"), ("watch", "watch disciplined"),
         ("undo", "undone u1"), IS_7, OLD_F], WRITING),
    run("function-that-stops-leaves-all-as-it-was", WITH_X,
        [(HOOKS, "refused 46 hook hk trap 0x0080001a"), IS_0, OLD_F, ("list", "updates 0"),
         ("peek 0x00800000 4", "0x00800000: -- -- -- --")], with_hook(f"{WRITES_X} CC", TO_X)),
    run("function-that-never-returns", WITH_X, [(HOOKS, "refused 47 hook budget hk"), IS_0, OLD_F], with_hook("EB FE")),
    run("as-many-steps-as-may-be", WITH_X, [done(" hook hk steps 1000000")],
        with_hook(f"90 B9 {word(499_998)} 49 75 FD C3")),
    run("one-step-more-than-may-be", WITH_X, [(HOOKS, "refused 47 hook budget hk")],
        with_hook(f"B9 {word(499_999)} 49 75 FD C3")),
    *(run(f"list-broken-at-{offset}", WITH_X, [(HOOKS, f"refused 48 bad hooks {offset}"), OLD_F], broken)
      for offset, broken in BROKEN.items()),
    *(run(f"list-{name}", WITH_X, [(HOOKS, "refused 48 bad hooks 0x0"), OLD_F], {"pre.o": f_alone(1), "post.o": post})
      for name, post in BROKEN_AT_0.items()),
    run("second-entry-without-a-function", WITH_X, [(HOOKS, "refused 48 bad hooks 0x4")],
        files(hook("C3"), sec(LISTED, "00*8", absolute(0, ".text.hk")))),
    run("list-that-may-be-written", WITH_X, [done(" hook hk steps 2")],
        {"pre.o": f_alone(1), "post.o": of_class(WITH_HK, objects.WRITABLE, objects.PROGBITS)}),
    run("most-functions", WITH_X, [done(*[" hook hk steps 2"] * 64)],
        files(hook("C3"), lists(*[".text.hk"] * 64))),
    run("broken-list-before-the-old-object", WITH_X, [(HOOKS, "refused 48 bad hooks 0x4")],
        {**BROKEN["0x4"], "pre.o": b""}),
    run("old-object-before-a-new-one-that-cannot-be-read", WITH_X, [(HOOKS, "refused 1 not elf")],
        {"pre.o": b"", "post.o": b""}),
    run("broken-list-before-a-name-that-is-taken", WITH_X,
        [("apply u1 one.o two.o", "applied u1 tries 1", REPLACED), (HOOKS, "refused 48 bad hooks 0x4"),
         ("hooks u1 two.o three.o", "refused 38 name taken u1")],
        {**BROKEN["0x4"], "one.o": f_alone(1), "two.o": f_alone(2), "three.o": f_alone(3)}),
    run("no-list", WITH_X, [done(added=())], files()),
    run("list-without-bytes-is-no-list", WITH_X, [done(added=())], files(sec(LISTED, ""))),
    run("listed-function-not-run-by-apply", WITH_X,
        [("apply u1 pre.o post.o", "applied u1 tries 1", REPLACED, ADDED), IS_0], WRITING),
    run("replaced-function-runs-by-the-jump-at-its-home", WITH_X,
        [done(" hook f steps 4", added=())], files(lists(".text.f"))),
    run("functions-run-in-the-order-of-the-list", WITH_X,
        [done(" hook two steps 4", " hook one steps 3", " hook two steps 4",
              added=(" added one 0x00800010", " added two 0x00800020")),
         ("peek 0x00200000 4", "0x00200000: 20 00 00 00")],
        files(hook("83 05 00 00 00 00 04 C3", TO_X, name="one"),
              hook("D1 25 00 00 00 00 83 05 00 00 00 00 08 C3", TO_X, absolute(8, "x"), name="two"),
              lists(".text.two", ".text.one", ".text.two")),
        remark="one adds 4 to x, two doubles it and adds 8"),
    run("stack-of-a-function", WITH_X,
        [done(" hook hk steps 3"), ("peek 0x00200000 4", "0x00200000: 0c 10 80 00"),
         ("peek 0x00800020 4", "0x00800020: -- -- -- --")], with_hook("89 25 00 00 00 00 C3", TO_X),
        remark="the scratch piece begins at 0x00800020, behind hk, and ESP is 0x00800020 + 4096 - 20"),
    run("stack-is-zeroed-for-each-run", WITH_X,
        [done(" hook hk steps 5", " hook hk steps 5"), ("peek 0x00200000 4", "0x00200000: 01 00 00 00")],
        files(hook("FF 44 24 E0 8B 44 24 E0 A3 00 00 00 00 C3", absolute(9, "x")), lists(".text.hk", ".text.hk"))),
    run("no-room-for-the-stack", program(arena=(0x00800000, 0x00801010), **X_PARTS),
        [(HOOKS, "refused 23 no room 4096"), OLD_F], WRITING),
    run("function-that-writes-a-return-address", WITH_X,
        [("spawn main 0", "spawned 0 0x00100010 main+0x0"), done(" hook hk steps 3"),
         ("watch", "watch broken event 2 thread 0 slot")],
        with_hook("C7 05 EC 0F 40 00 07 00 00 00 C3")),
    run("writes-before-the-function-that-stops-go-too", WITH_X,
        [(HOOKS, "refused 46 hook two trap 0x00800020"), IS_0, ("list", "updates 0")],
        files(hook(f"{WRITES_X} C3", TO_X, name="one"), hook("CC", name="two"), lists(".text.one", ".text.two"))),
    run("same-name-after-a-failure", WITH_X,
        [("hooks u1 pre.o bad.o", "refused 46 hook hk trap 0x0080001a"), done(" hook hk steps 3")],
        {**WRITING, "bad.o": with_hook(f"{WRITES_X} CC", TO_X)["post.o"]}),
    run("thread-in-the-way-before-functions-run", WITH_X,
        [("spawn f 0", "spawned 0 0x00100000 f+0x0"),
         (HOOKS, "refused 25 busy thread 0 pc 0x00100000"), IS_0], WRITING),
    run("no-functions-run-while-an-update-is-open", WITH_X,
        [("poke u0 one.o two.o", "marked u0", REPLACED), (HOOKS, "refused 43 poke open u0")],
        {**BROKEN["0x4"], "one.o": f_alone(1), "two.o": f_alone(2)}),
]
