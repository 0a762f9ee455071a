"""Rows of what lies around a command: the words, the files and standard output (docs/output.md)."""
from .encode import obj, sec
from .files import F_FIRST_TO_SECOND, FIRST_TO_SECOND, NEW_RUNS, OLD_RUNS, PROGRAM, f_alone, f_and_main
from .rows import FOLDER, call, diff, match, run

# words after a command that has two
OTHER_WORDS = {"alone": "", "with-one-word": "a", "with-three-words": "a b c", "with-a-dash": "a -b"}
# words after `gen` that are no number of its own
NO_NUMBERS = {"nothing": "", "an-empty-word": "''", "two-numbers": "1 2", "too-large-a-number": "4294967296",
              "eleven-digits": "00000000001", "a-number-below-zero": "-1", "a-number-with-a-sign": "+5",
              "a-hexadecimal-number": "0x10", "a-word": "one", "a-number-and-a-blank": "'1 '"}
# f, by another name
BELL = obj(sec(".text.f", "B8 01 00 00 00 C3", functions={"\x07": 0}))

# a session in which an update is made and taken back, and a line is refused; and the length of its replies
LONG_SESSION = [*OLD_RUNS, *NEW_RUNS, ("list", "update u1 1", "updates 1"), ("undo", "undone u1"),
                ("peek 0x00100000 6", "0x00100000: b8 01 00 00 00 c3"), ("undo", "refused 27 nothing applied")]
LONG_OUTPUT = sum(len(said) + 1 for _, *reply in LONG_SESSION for said in reply)


def usage(name, words, files=None):
    return call(name, words, files or {},
                "usage: ksplice diff PRE POST | code IMAGE NAME | match IMAGE PRE | run IMAGE SCRIPT | gen NUMBER"
                " | link OBJECT...")


ROWS = [
    usage("no-word", ""),
    usage("diff-with-one-word", "diff a"),
    usage("three-words-after-diff", "diff pre.o post.o x", F_FIRST_TO_SECOND),
    usage("first-word-begins-with-a-dash", "--help"),
    usage("later-word-begins-with-a-dash", "diff pre.o -", F_FIRST_TO_SECOND),
    usage("command-with-a-capital", "Diff pre.o post.o", F_FIRST_TO_SECOND),
    usage("apply-is-no-command", "apply pre.o post.o", F_FIRST_TO_SECOND),
    *(usage(f"{command}-{told}", f"{command} {words}") for command in ("code", "match", "run")
      for told, words in OTHER_WORDS.items()),
    *(usage(f"gen-of-{told}", f"gen {words}") for told, words in NO_NUMBERS.items()),
    usage("link-of-no-object", "link"),
    usage("link-of-seventeen-objects", "link" + " a.o" * 17, {"a.o": f_alone(1)}),
    usage("link-with-a-dash", "link a.o -o", {"a.o": f_alone(1)}),

    call("first-object-is-missing", "diff x.o post.o", {"post.o": f_alone(1)}, "file x.o missing"),
    call("second-object-is-missing", "diff pre.o x.o", {"pre.o": f_alone(1)}, "file x.o missing"),
    call("both-objects-are-loaded-before-the-first-is-read", "diff pre.o x.o", {"pre.o": b""}, "file x.o missing"),
    call("name-in-a-file-line-is-escaped", r"diff 'a b\é.o' post.o", {"post.o": f_alone(1)},
         r"file a\x20b\x5c\xc3\xa9.o missing"),
    diff("file-that-cannot-be-read", FOLDER, f_alone(1), "file pre.o failed",
         remark="a folder stands where a file is named"),
    diff("object-of-the-greatest-length-is-read", bytes(8_388_608), f_alone(1), "refused 1 not elf"),
    call("object-is-one-byte-too-long", "diff x.o post.o", {"x.o": bytes(8_388_609), "post.o": f_alone(1)},
         "file x.o too long"),
    call("image-is-one-byte-too-long", "run x.kim script.txt", {"x.kim": bytes(33_554_433), "script.txt": b""},
         "file x.kim too long"),
    call("script-is-one-byte-too-long", "run image.kim x.txt", {"image.kim": PROGRAM, "x.txt": b" " * 1_048_577},
         "file x.txt too long"),

    call("first-file-that-can-not-be-loaded-is-told", "diff x.o y.o", {"x.o": bytes(8_388_609)}, "file x.o too long"),
    call("image-is-missing-before-an-object-is-too-long", "match x.kim y.o", {"y.o": bytes(8_388_609)},
         "file x.kim missing"),
    call("object-is-too-long-for-match", "match image.kim y.o", {"image.kim": PROGRAM, "y.o": bytes(8_388_609)},
         "file y.o too long"),
    call("image-of-code-is-missing", "code f image.kim", {"image.kim": PROGRAM}, "file f missing"),
    call("image-of-run-is-missing", "run x.kim script.txt", {"script.txt": b""}, "file x.kim missing"),
    call("script-is-missing", "run image.kim x.txt", {"image.kim": b"KIM1"}, "file x.txt missing"),
    call("object-of-match-is-missing", "match image.kim x.o", {"image.kim": b"KIM1"}, "file x.o missing"),

    # what is wrong with the first file comes before what is wrong with the second one
    diff("image-is-no-object", PROGRAM, f_alone(1), "refused 1 not elf"),
    diff("second-object-is-not-elf", f_alone(1), b"", "refused 1 not elf"),
    diff("second-object-has-a-bad-header", f_alone(1), f_alone(1)[:20], "refused 3 bad header 20"),
    match("image-is-refused-before-the-object", b"KIM1", b"", "refused 28 bad image at 4 short"),
    match("object-is-no-image", f_alone(1), PROGRAM, "refused 28 bad image at 0 magic"),
    match("object-of-match-is-not-elf", PROGRAM, b"", "refused 1 not elf"),
    match("object-of-match-has-a-bad-header", PROGRAM, f_alone(1)[:20], "refused 3 bad header 20"),
    call("image-is-refused-before-the-script", "run image.kim script.txt",
         {"image.kim": b"KIM1", "script.txt": b"threads\njump\n"}, "refused 28 bad image at 4 short"),
    call("script-is-no-image", "run script.txt image.kim", {"image.kim": PROGRAM, "script.txt": b"threads\n"},
         "refused 28 bad image at 0 magic"),

    # a function with an odd name
    diff("name-of-a-changed-function-is-escaped", BELL, f_alone(2), r"changed \x07"),
    diff("function-has-its-name-in-pre", f_alone(2), BELL, "changed f"),
    match("name-of-a-function-without-a-candidate-is-escaped", PROGRAM, BELL, r"refused 14 no candidate \x07"),
    diff("changed-and-added-function", f_alone(1), f_and_main(2), "changed f", "added main"),
    run("lines-that-are-refused-end-with-their-status", PROGRAM,
        [("spawn nope 0", "refused 31 no symbol nope"), ("step 7 1", "refused 30 no thread 7"),
         ("spawn f 0", "spawned 0 0x00100000 f+0x0"), ("spawn f 0", "refused 32 no stack")]),

    # a file that a line of a script names
    run("missing-file-ends-the-session", PROGRAM,
        [*OLD_RUNS, ("apply u1 pre.o post.o", "file pre.o missing"), ("spawn main 0",)], {"post.o": f_and_main(2)}),
    run("missing-file-after-a-refused-line", PROGRAM,
        [("spawn nope 0", "refused 31 no symbol nope"), ("apply u1 pre.o post.o", "file post.o missing")],
        {"pre.o": f_and_main(1)}),
    run("third-file-cannot-be-read", PROGRAM,
        [*OLD_RUNS, ("apply u1 pre.o post.o", "file pre.o failed"), ("spawn main 0",)],
        {"pre.o": FOLDER, "post.o": f_and_main(2)}, remark="a folder stands where a file is named"),

    # an output that takes so many bytes and no more, for each number of bytes of the replies
    *(run(f"output-with-room-for-{n}-bytes", PROGRAM, LONG_SESSION, FIRST_TO_SECOND, room=n)
      for n in range(LONG_OUTPUT + 1)),
    run("output-that-takes-nothing-of-a-session", PROGRAM, LONG_SESSION, FIRST_TO_SECOND, status=5, sink="/dev/full"),
    diff("output-that-takes-nothing", f_alone(1), f_alone(2), status=5, sink="/dev/full"),
    call("output-that-takes-nothing-of-a-file-line", "diff x.o post.o", {"post.o": f_alone(1)}, status=5,
         sink="/dev/full", remark="the sink counts and not the file, whose line can't be written"),
]
