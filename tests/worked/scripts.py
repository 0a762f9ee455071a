"""Rows of scripts: lines as they may be written, and lines that aren't in the grammar (docs/script.md)."""
from .encode import at, four_stacks, image
from .files import FIRST_TO_SECOND, PROGRAM, REPLACED, f_and_main
from .rows import call, run


def bad(name, *lines, files=None):
    """A script of which the last line is refused."""
    *before, last = lines
    return run(name, PROGRAM, [*((line,) for line in before), (last, f"refused 29 bad line {len(lines)}")], files)


# functions that answer their argument, with names that look like other words
NAMES = image(*(at(0x00100000 + 16 * i, name, "8B 44 24 04 C3")
                for i, name in enumerate(["0x1", "#!", "~\\", "spawn"])), stacks=four_stacks(0x00400000, 0x1000))
# numbers that are thread numbers, and how they are printed
THREADS = {"4294967295 16777216": 4294967295, "0000000001 0x01000000": 1, "0x0000000a 0xAbC": 10,
           "0x89abcdef 0x1": 0x89ABCDEF, "0x1234567 9": 0x1234567, "1234567890 8": 1234567890}
# lines that are bad, one by one
BAD = {
    "with-a-letter-too-few": "thread", "with-a-letter-too-many": "threadss", "with-a-capital": "Threads",
    "spawn-in-upper-case": "SPAWN main 7", "step-with-a-capital": "Step 0 1", "rr-in-upper-case": "RR 1 1",
    "peek-with-a-capital-at-the-end": "peeK 0 1", "with-a-sharp-behind-its-command": "step# 0 1",
    "apply-with-a-capital": "Apply a b c", "that-is-a-number": "0",
    # a word too few, a word too many
    "spawn-alone": "spawn", "spawn-with-three-words": "spawn main 7 8", "spawn-with-a-sharp-behind": "spawn main 7 #",
    "step-alone": "step", "step-with-one-word": "step 0", "step-with-three-words": "step 0 1 2",
    "rr-with-one-word": "rr 1", "rr-with-three-words": "rr 1 2 3", "threads-with-a-sharp-behind": "threads #",
    "peek-with-one-word": "peek 0", "peek-with-three-words": "peek 0 1 2", "apply-alone": "apply",
    "apply-with-one-word": "apply a", "apply-with-two-words": "apply a b", "apply-with-four-words": "apply a b c d",
    "apply-up-to-tries": "apply a b c tries", "apply-without-a-gap": "apply a b c tries 2",
    "apply-up-to-gap": "apply a b c tries 2 gap", "apply-with-a-word-behind": "apply a b c tries 2 gap 3 4",
    "apply-with-gap-before-tries": "apply a b c gap 3 tries 2",
    "apply-with-a-capital-in-tries": "apply a b c Tries 2 gap 3",
    "apply-with-gap-in-upper-case": "apply a b c tries 2 GAP 3", "undo-with-two-words": "undo u1 #",
    "undo-with-a-capital": "Undo", "list-with-a-word": "list x", "list-with-a-letter-too-many": "lists",
    "watch-with-a-word": "watch x", "watch-with-letters-too-many": "watches",
    # numbers
    "with-a-letter-for-a-number": "spawn main x", "with-a-plus-sign": "spawn main +1",
    "with-a-low-line-in-a-number": "spawn main 1_0", "with-digits-without-0x": "spawn main ff",
    "with-0x-alone": "spawn main 0x", "with-two-zeros-before-an-x": "spawn main 00x1",
    "with-a-g-in-a-number": "spawn main 0xg", "with-nine-digits-behind-0x": "spawn main 0x100000000",
    "with-eleven-digits": "spawn main 00000000001", "with-ten-nines": "spawn main 9999999999",
    "with-a-number-of-eleven-digits": "spawn main 12345678901",
    # bounds
    "with-too-many-steps-in-hexadecimal": "step 0 0x1000001", "with-a-thread-above-32-bits": "step 4294967296 1",
    "with-1001-tries-and-no-gap": "apply a b c tries 1001 gap 0",
    "with-too-long-a-gap": "apply a b c tries 1 gap 16777217",
    "with-too-long-a-gap-for-512-tries": "apply a b c tries 512 gap 32769",
    "with-the-longest-gap": "apply a b c tries 2 gap 4294967295",
    "with-a-letter-for-tries": "apply a b c tries x gap 1",
    "peek-past-the-end-by-a-byte": "peek 0xFFFFF001 4096",
    # bytes
    "with-a-tab-behind-its-command": "threads\t", "of-a-tab": "\t", "with-a-return-behind-its-command": "threads\r",
    "with-a-byte-below-20-in-a-remark": "# \x1f", "with-a-byte-above-7e-in-a-remark": "# \x7f",
    "with-two-bytes-above-7e": "# \u0080", "with-a-zero-byte": "#\0",
}
# scripts of several lines, and the number of the first bad one
BAD_LINES = {
    "first-of-two-bad-lines": (["step", "threads 0"], 1),
    "bad-line-behind-a-remark-and-empty-lines": (["# one", "", "  ", "step 0 16777217"], 4),
    "return-in-the-third-line": (["threads", "", "\r", "# \t"], 3),
    "third-of-three-is-bad": (["threads", "threads", "rr 0 1"], 3),
    "second-of-two-is-bad": (["threads", "step 0"], 2),
}
NOTHING = ["", "\n", "\n\n", " ", "   \n", "#", "# step 0 1\n", "  #threads", "#~ !\n\n#\n"]


def text(name, content, *output):
    """A session of a script that is given as it stands in the file."""
    return call(name, "run image.kim script.txt", {"image.kim": PROGRAM, "script.txt": content.encode()}, *output)


def applied_as(line, name):
    """A line that makes the update, what it says, and the line that takes it back."""
    return (line, f"applied {name} tries 1", REPLACED), ("undo", f"undone {name}")


ROWS = [
    call("lines-without-a-command-have-no-reply", "run image.kim script.txt",
         {"image.kim": PROGRAM, "script.txt": b"\n   \n# jump\n  #\n  spawn   main  0x0  \nstep 0x00000000 0xAa"},
         "spawned 0 0x00100010 main+0x0", "stepped 0 5 exited 0x00000001", remark="the last line has no 0A"),
    bad("second-script-line-is-bad", "spawn main 0", "jump"),

    # lengths and bytes
    run("longest-line", PROGRAM, [("#" * 4096,)]),
    bad("line-is-one-byte-too-long", "", "#" * 4097),
    run("greatest-number-of-lines", PROGRAM, [("",)] * 65535 + [("rr 1 1", "rr 0")]),
    bad("line-too-many", *[""] * 65536, "rr 1 1"),
    bad("line-with-a-tab", "rr\t1 1"),
    bad("line-with-a-return", "rr 1 1\r"),
    bad("line-with-a-byte-above-7e", "#\x7f"),

    # words
    bad("line-in-upper-case", "THREADS"),
    bad("line-with-a-word-too-many", "threads 1"),
    bad("line-with-a-word-too-few", "spawn main"),
    bad("undo-takes-one-name", "undo u1 u2", files=FIRST_TO_SECOND),
    bad("poke-without-a-second-file", "poke u1 pre.o", files=FIRST_TO_SECOND),
    bad("poke-with-tries", "poke u1 pre.o post.o tries 2 gap 1", files=FIRST_TO_SECOND),
    bad("tail-with-a-name", "tail u1", files=FIRST_TO_SECOND),
    bad("seal-with-a-name", "seal u1", files=FIRST_TO_SECOND),
    bad("hooks-without-a-second-file", "hooks u1 pre.o", files=FIRST_TO_SECOND),
    bad("hooks-with-tries", "hooks u1 pre.o post.o tries 2 gap 1", files=FIRST_TO_SECOND),

    # numbers
    bad("number-with-a-sign", "step -1 1"),
    bad("number-with-an-upper-case-x", "step 0X0 1"),
    bad("number-of-nine-hexadecimal-digits", "step 0x000000000 1"),
    bad("number-above-32-bits", "spawn main 4294967296"),
    bad("too-many-steps", "step 0 16777217"),
    bad("round-robin-with-quantum-zero", "rr 0 5"),
    bad("too-many-turns", "rr 1 16777217"),
    bad("peek-of-no-byte", "peek 0 0"),
    bad("peek-of-too-many-bytes", "peek 0 4097"),
    bad("peek-past-the-end", "peek 0xfffffffe 3"),
    run("peek-at-the-end-of-the-addresses", PROGRAM,
        [("peek 0xFFFFFFFE 2", "0xfffffffe: -- --"), ("peek 4294967295 1", "0xffffffff: --")]),
    bad("no-try", "apply u1 pre.o post.o tries 0 gap 1"),
    bad("too-many-tries", "apply u1 pre.o post.o tries 1001 gap 1"),
    bad("too-many-steps-between-tries", "apply u1 pre.o post.o tries 1000 gap 16778"),

    # each kind of line, and words and numbers as they may be written
    *(text(f"script-of-nothing-{n}", content) for n, content in enumerate(NOTHING, 1)),
    text("last-line-without-an-end", "spawn main 7", "spawned 0 0x00100010 main+0x0"),
    text("line-between-remarks", "# first\n\n  \n threads \n# last", "threads 0"),
    run("names-that-look-like-other-words", NAMES,
        [("spawn 0x1 0x1", "spawned 0 0x00100000 0x1+0x0"),
         ("spawn #! 4294967295", "spawned 1 0x00100010 #!+0x0"),
         ("spawn ~\\ 0xFFFFFFF0", r"spawned 2 0x00100020 ~\x5c+0x0"),
         ("  spawn   spawn  0xabcdef01  ", "spawned 3 0x00100030 spawn+0x0"),
         ("rr 16 4096", "rr 12"),
         ("threads", "thread 0 exited 0x00000001", "thread 1 exited 0xffffffff", "thread 2 exited 0xfffffff0",
          "thread 3 exited 0xabcdef01", "threads 4")]),
    run("numbers-as-they-may-be-written", PROGRAM,
        [(f"step {words}", f"refused 30 no thread {number}") for words, number in THREADS.items()]),
    run("most-turns-without-a-thread", PROGRAM, [("rr 1 0", "rr 0"), ("rr 4294967295 16777216", "rr 0")]),
    run("bytes-that-are-looked-at", PROGRAM,
        [("peek 0 1", "0x00000000: --"), ("peek 0xFFFFFFFF 1", "0xffffffff: --"),
         ("peek 0x00100000 16", "0x00100000: b8 01 00 00 00 c3 66 90 66 90 66 90 66 90 66 90")]),
    run("most-bytes-that-are-looked-at", PROGRAM,
        [("peek 0 4096", "0x00000000:" + " --" * 4096), ("peek 0xFFFFF000 4096", "0xfffff000:" + " --" * 4096),
         ("peek 4294963200 0x1000", "0xfffff000:" + " --" * 4096)]),
    run("updates-as-they-may-be-written", PROGRAM,
        [*applied_as("apply fix pre.o post.o", "fix"),
         *applied_as("  apply  #  0x1 apply", "#"),
         *applied_as("apply fix pre.o post.o tries 1 gap 0", "fix"),
         *applied_as("apply fix pre.o post.o tries 1 gap 16777216", "fix"),
         *applied_as("apply fix pre.o post.o  tries 0x3E8  gap 16777", "fix"),
         *applied_as("apply tries gap tries tries 512 gap 0x8000 ", "tries"),
         ("  undo  ", "refused 27 nothing applied"), ("  undo  #  ", "refused 39 no update #"),
         ("  list  ", "updates 0"), (" watch", "watch disciplined")],
        {**FIRST_TO_SECOND, "0x1": f_and_main(1), "apply": f_and_main(2), "gap": f_and_main(1),
         "tries": f_and_main(2)}),

    # lines that are none
    *(text(f"line-{name}", f"{line}\n", "refused 29 bad line 1") for name, line in BAD.items()),
    *(text(name, "".join(f"{line}\n" for line in lines), f"refused 29 bad line {number}")
      for name, (lines, number) in BAD_LINES.items()),
]
