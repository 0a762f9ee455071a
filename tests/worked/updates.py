"""Rows of the line `apply`: what an update brings and does, and what is refused of one before the threads are looked at
(docs/updates.md)."""
from .encode import at, function, image, images, obj, sec, variable, writable
from .files import (APPLIED, APPLY, BARE_F, COLD, COLD_FILES, COLD_UNIT, F_FIRST_TO_SECOND, F_PART, FIRST_TO_SECOND,
                    LOOP, MAIN_SECTION, NEW_RUNS, OLD_RUNS, PROGRAM, REPLACED, SPIN, TABLE, applied, f_alone,
                    f_and_main, f_calling, f_reading, f_section, loop_unit, program, table_unit)
from .rows import run

# z has three bytes, in the program with padding after it
Z_PART = at(0x00100000, "z", "31 C0 C3 90*13")
Z_SECTION, NEW_Z_SECTION = sec(".text.z", "31 C0 C3"), sec(".text.z", "B8 01 00 00 00 C3")
Z_FILES = {"pre.o": obj(Z_SECTION), "post.o": obj(NEW_Z_SECTION)}
Z_APPLIED = applied(" replaced z 0x00100000 0x00800000 3")
Y_CODE = sec(".text.y", "31 C0 C3")

# e runs into the first byte of an instruction whose other bytes are those of f
BEFORE_F = image(at(0x00100000, "e", "90*15 B8"), at(0x00100010, "f", "B8 01 00 00 00 C3 90*10"))
RUNS_TO_F = [("spawn e 0", "spawned 0 0x00100000 e+0x0"), ("step 0 15", "stepped 0 15 running 0x0010000f e+0xf")]

F_AND_G = image(BARE_F, at(0x00100010, "g", "B8 01 00 00 00 C3 90*10"))
G_SECTION = sec(".text.g", "B8 01 00 00 00 C3")

# an arena of 32 bytes, and what fills it
SMALL_ARENA = program(arena=(0x00800000, 0x00800020))
FILLING = [sec(".text.f", "B8 02 00 00 00 90 90 C3"),
           sec(".data.a", "10 11 12 13 14 15 16 17 18 19 1A 1B 1C 1D 1E 1F")]
X_SECTION, Y_SECTION = sec(".data.x", "00*4", variable="x"), sec(".data.y", "00*4")

ROWS = [
    # what an update does
    run("new-code-runs-after-an-update", PROGRAM, [*OLD_RUNS, *NEW_RUNS], FIRST_TO_SECOND),
    run("jump-reaches-into-padding", image(Z_PART),
        [applied(" replaced z 0x00100000 0x00800000 3"),
         ("peek 0x00100000 8", "0x00100000: e9 fb ff 6f 00 90 90 90")], Z_FILES),
    run("fifteen-padding-steps", BEFORE_F, RUNS_TO_F),
    run("window-ends-before-the-retired-range", BEFORE_F,
        [*RUNS_TO_F,
         applied(" replaced f 0x00100010 0x00800000 6"),
         ("step 0 1", "stepped 0 1 stopped undecoded 0x0010000f e+0xf")], F_FIRST_TO_SECOND),
    run("padding-before-the-return-counts-in-the-length", image(at(0x00100000, "f", "B8 01 00 00 00 90 C3")),
        [applied(" replaced f 0x00100000 0x00800000 7")], F_FIRST_TO_SECOND),
    run("length-goes-over-the-padding-in-the-run", LOOP, [applied(" replaced h 0x00100020 0x00800000 15")],
        {"pre.o": loop_unit(3), "post.o": loop_unit(4)}),

    run("replaced-added-and-dropped-functions", COLD,
        [applied(" replaced work 0x00100000 0x00800000 6", " added new 0x00800010", " dropped work.cold")],
        {"pre.o": COLD_UNIT, "post.o": obj(sec(".text.work", "B8 07 00 00 00 C3"), sec(".text.new", "C3"))}),
    run("names-in-replies-are-escaped",
        image(at(0x00100000, "f g", "B8 01 00 00 00 C3 6690*5"), at(0x00100010, "main", "E8 EB FF FF FF C3 90*10")),
        [("spawn main 0", "spawned 0 0x00100010 main+0x0"),
         ("step 0 2", r"stepped 0 2 running 0x00100005 f\x20g+0x5"),
         ("threads", r"thread 0 running 0x00100005 f\x20g+0x5", "threads 1"),
         ("step 0 9", "stepped 0 3 exited 0x00000001"),
         (r"apply fix\1 pre.o post.o", r"applied fix\x5c1 tries 1", r" replaced f\x20g 0x00100000 0x00800000 6"),
         ("list", r"update fix\x5c1 1", "updates 1"),
         ("undo", r"undone fix\x5c1"),
         ("list", "updates 0")],
        {"pre.o": obj(sec(".text.f g", "B8 01 00 00 00 C3")), "post.o": obj(sec(".text.f g", "B8 02 00 00 00 C3"))}),

    # what it brings
    run("jump-table-carried", TABLE,
        [applied(" replaced s 0x00100000 0x00800000 25"),
         ("peek 0x00800020 8", "0x00800020: 0b 00 80 00 11 00 80 00"),
         ("peek 0x00800007 4", "0x00800007: 20 00 80 00")],
        {"pre.o": table_unit(2), "post.o": table_unit(5)}, remark="the new table leads into the new code"),
    run("pieces-stand-at-multiples-of-sixteen", F_AND_G,
        [applied(REPLACED, " replaced g 0x00100010 0x00800010 6"),
         ("peek 0x0080001e 10", "0x0080001e: -- -- 01 02 03 04 05 06 07 08"),
         ("peek 0x00800028 1", "0x00800028: --")],
        {"pre.o": obj(f_section(1), G_SECTION),
         "post.o": obj(f_section(2), sec(".text.g", "6A 02 58 90 C3"), sec(".data.n", "01 02 03 04 05 06 07 08"))}),
    run("added-function-calls-the-home", PROGRAM,
        [applied(REPLACED, " added main 0x00800010"), ("peek 0x00800010 6", "0x00800010: e8 eb ff 8f ff c3")],
        {"pre.o": f_alone(1), "post.o": f_and_main(2)}),
    run("last-piece-fills-the-arena", SMALL_ARENA,
        [APPLIED, ("peek 0x00800007 11", "0x00800007: c3 -- -- -- -- -- -- -- -- 10 11")],
        {"pre.o": f_alone(1), "post.o": obj(*FILLING)}),

    # what is refused
    run("no-room-for-the-jump-before-the-next-symbol", image(Z_PART, symbols=[function(0x00100004, "next")]),
        [(APPLY, "refused 21 too small .text.z room 4")], Z_FILES),
    run("room-of-one-byte-before-the-next-symbol", image(Z_PART, symbols=[function(0x00100001, "next")]),
        [(APPLY, "refused 21 too small .text.z room 1")], Z_FILES),
    run("next-symbol-right-behind-the-jump", image(Z_PART, symbols=[function(0x00100005, "next")]), [Z_APPLIED],
        Z_FILES),
    run("no-room-for-the-jump-before-other-code", image(at(0x00100000, "z", "31 C0 C3 C3 90*4")),
        [(APPLY, "refused 21 too small .text.z room 3")], Z_FILES),
    run("no-room-for-the-jump-before-the-end-of-the-region", image(at(0x00100000, "z", "31 C0 C3 90")),
        [(APPLY, "refused 21 too small .text.z room 4")], Z_FILES),
    run("no-room-for-the-jump-over-two-regions",
        image(at(0x00100000, "z", "31 C0 C3 90"), regions=[(images.CODE, 0x00100004, b"\x90" * 4)]),
        [(APPLY, "refused 21 too small .text.z room 4")], Z_FILES),
    run("room-for-the-jump-up-to-the-end-of-the-region", image(at(0x00100000, "z", "31 C0 C3 66 90")), [Z_APPLIED],
        Z_FILES),
    run("kept-function-needs-no-room", image(F_PART, at(0x00100010, "z", "31 C0 C3 C3")), [APPLIED],
        {"pre.o": obj(f_section(1), Z_SECTION), "post.o": obj(f_section(2), Z_SECTION)}),
    run("dropped-function-needs-no-room",
        image(at(0x00100000, "work", "E9 0B 00 00 00 C3 90*10"), at(0x00100010, "work.cold", "EB F3", local=True),
              at(0x00100012, "next", "C3")),
        [applied(" replaced work 0x00100000 0x00800000 6", " dropped work.cold")], COLD_FILES),
    run("function-right-behind-the-jump", image(at(0x00100000, "z", "31 C0 C3 90 90"), at(0x00100005, "y", "31 C0 C3")),
        [Z_APPLIED], {"pre.o": obj(Z_SECTION, Y_CODE), "post.o": obj(NEW_Z_SECTION, Y_CODE)}),
    run("two-names-of-one-function-that-stays",
        image(F_PART, at(0x00100010, "z", "31 C0 C3"), symbols=[function(0x00100010, "y")]), [APPLIED],
        {"pre.o": obj(f_section(1), Z_SECTION, Y_CODE), "post.o": obj(f_section(2), Z_SECTION, Y_CODE)}),
    run("two-names-of-one-function",
        image(at(0x00100000, "f", "B8 01 00 00 00 C3 90*10"), symbols=[function(0x00100000, "g")]),
        [(APPLY, "refused 22 overlap 0x00100000 0x00100000")],
        {"pre.o": obj(f_section(1), G_SECTION), "post.o": obj(f_section(2), G_SECTION)}),
    run("new-reference-to-an-unlisted-variable", SPIN, [(APPLY, "refused 18 unresolved x")],
        {"pre.o": obj(f_section(1), MAIN_SECTION, X_SECTION),
         "post.o": obj(f_reading(".data.x"), MAIN_SECTION, X_SECTION)}),
    run("outside-name-at-two-addresses", program(at(0x00100020, "e", "C3 90*15"), at(0x00100030, "e", "C3")),
        [(APPLY, "refused 19 two names e 0x00100020 0x00100030")],
        {"pre.o": f_and_main(1), "post.o": obj(f_calling("e"), MAIN_SECTION)}),
    run("new-call-of-a-function-that-is-not-listed", PROGRAM, [(APPLY, "refused 18 unresolved spin")],
        {"pre.o": f_and_main(1), "post.o": obj(f_calling("spin"), MAIN_SECTION)}),
    run("new-reference-to-a-variable-without-a-symbol", PROGRAM, [(APPLY, "refused 18 unresolved .data.y")],
        {"pre.o": obj(f_section(1), MAIN_SECTION, Y_SECTION),
         "post.o": obj(f_reading(".data.y"), MAIN_SECTION, Y_SECTION)}),
    run("two-lowest-of-three-addresses-of-an-outside-name",
        program(at(0x00100020, None, "C3 90*15 C3 90*15 C3"),
                symbols=[function(0x00100030, "e"), function(0x00100020, "e"), function(0x00100040, "e")]),
        [(APPLY, "refused 19 two names e 0x00100020 0x00100030")],
        {"pre.o": f_and_main(1), "post.o": obj(f_calling("e"), MAIN_SECTION)}),
    run("new-reference-to-a-variable-at-two-addresses",
        program(regions=[writable(0x00200000, "00*32")],
                symbols=[variable(0x00200014, "x"), variable(0x00200018, "x")]),
        [(APPLY, "refused 19 two names x 0x00200014 0x00200018")],
        {"pre.o": obj(f_section(1), MAIN_SECTION, X_SECTION),
         "post.o": obj(f_reading(".data.x"), MAIN_SECTION, X_SECTION)}),
    run("empty-arena-has-no-room", program(arena=(0x00800000, 0x00800000)), [(APPLY, "refused 23 no room 6")],
        FIRST_TO_SECOND),
    run("one-byte-finds-no-room-after-the-last-piece", SMALL_ARENA, [(APPLY, "refused 23 no room 1")],
        {"pre.o": f_alone(1), "post.o": obj(*FILLING, sec(".data.b", "FF"))}),
]
