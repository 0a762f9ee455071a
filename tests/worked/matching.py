"""Rows of `match`: a function against what runs (docs/matching.md), and all of an object (docs/solving.md)."""
from .encode import absolute, at, function, image, obj, read_only, relative, sec
from .files import (BARE_F, BARE_PROGRAM, LOOP, PROGRAM, TABLE, TWINS, f_alone, f_and_main, f_section, loop_unit,
                    table_unit)
from .rows import call, match

NOP = at(0x00100000, None, "90")
CALLER = at(0x00100010, "caller", "E8 EB 01 00 00 C3")
CALLER_UNIT = obj(sec(".text.caller", "E8 00 00 00 00 C3", relative(1, "ext")))
READS_X = "A1 00 00 00 00 C3", absolute(1, ".data.x")
X, Y, Z = (sec(f".data.{name}", "00*4") for name in "xyz")
P, Q = sec(".text.p", *READS_X), sec(".text.q", *READS_X)
TW, NOPE = sec(".text.tw", "31 C0 C3"), sec(".text.nope", "C3")
CALLER_OF_TW = sec(".text.caller", "E8 00 00 00 00 C3", relative(1, ".text.tw"))

# a takes the address of the last instruction of f
A = sec(".text.a", "B8 00 00 00 00 C3", absolute(1, ".text.f", 5))
# p and q read one variable at two addresses; f has p's code, and there are three tw
DISAGREEING = image(at(0x00100000, "p", "A1 00 00 20 00 C3"), at(0x00100010, "q", "A1 08 00 20 00 C3"),
                    at(0x00100020, "tw", "31 C0 C3", local=True), at(0x00100030, "tw", "31 C0 C3", local=True),
                    at(0x00100040, "tw", "31 C0 C3", local=True), symbols=[function(0x00100000, "f")])
P_AND_Q_CLASH = "refused 17 conflict .data.x 0x00200000 at .text.p+0x1 0x00200008 at .text.q+0x1"

# p, r and s read x and y; r agrees with p, and s with neither
OF_XY = "A1 00 00 00 00 A1 00 00 00 00 C3", absolute(1, ".data.x"), absolute(6, ".data.y")
R = sec(".text.r", *OF_XY)
S = sec(".text.s", "A1 00 00 00 00 A1 00 00 00 00 C3", absolute(1, ".data.y"), absolute(6, ".data.x"))
P_R_S = image(at(0x00100000, "p", "A1 00 00 20 00 C3"), at(0x00100010, "r", "A1 00 00 20 00 A1 10 00 20 00 C3"),
              at(0x00100020, "s", "A1 18 00 20 00 A1 08 00 20 00 C3"))

# two tw that touch, each with padding before its first instruction
PADDED_TW = sec(".text.tw", "90 31 C0 C3")


def a_into(address, *parts):
    """a takes the address of the given place."""
    return image(at(0x00100000, "a", f"B8 {address - 0x00100000:02X} 00 10 00 C3"), *parts)


def a_of_tw(offset):
    return sec(".text.a", "B8 00 00 00 00 C3", absolute(1, ".text.tw", offset))


PADDED_F_RUNS = at(0x00100020, "f", "B8 01 00 00 00 90 C3")
TOUCHING = at(0x00100010, "tw", "90 31 C0 C3", local=True), at(0x00100014, "tw", "90 31 C0 C3", local=True)


def running(name, text):
    """An image of one function."""
    return image(at(0x00100000, name, text))


def mismatch(name, image, pre, *told):
    return match(name, image, pre, f"refused 15 mismatch {' '.join(told)}")


def undecoded(name, text):
    """Code that can't be matched, though the same bytes run."""
    return match(name, running("h", text), obj(sec(".text.h", text)), "refused 20 pre undecoded .text.h 0x0")


ROWS = [
    # instructions
    mismatch("match-another-opcode", running("f", "B9 01 00 00 00 C3"), f_alone(1),
             ".text.f index 0 pre 0x0 run 0x00100000 opcode"),
    mismatch("match-another-constant", running("f", "B8 02 00 00 00 C3"), f_alone(1),
             ".text.f index 0 pre 0x0 run 0x00100000 operand"),
    mismatch("match-run-region-ends-early", running("f", "B8 01 00 00 00"), f_alone(1),
             ".text.f index 1 pre 0x5 run 0x00100005 end"),
    mismatch("match-run-does-not-decode", running("f", "B8 01 00 00 00 0F FF"), f_alone(1),
             ".text.f index 1 pre 0x5 run 0x00100005 undecoded"),
    undecoded("match-pre-does-not-decode", "0F FF"),
    undecoded("match-branch-into-an-instruction", "EB 05 C3"),
    call("match-up-to-the-end-of-the-region", "match image.kim o1.o",
         {"image.kim": BARE_PROGRAM, "o1.o": f_and_main(1)}, "code f 0x00100000", "code main 0x00100010"),

    # padding and branches
    match("match-padding-before-the-return", running("f", "B8 01 00 00 00 90 C3"), f_alone(1), "code f 0x00100000"),
    match("lea-with-a-reference-is-no-padding", running("l", "8D B6 00 00 20 00 C3"),
          obj(sec(".text.l", "8D B6 00 00 00 00 C3", absolute(2, ".data.x")), sec(".data.x", "00*4")),
          "code l 0x00100000", "data .data.x 0x00200000"),
    match("short-jump-in-the-run-for-a-long-one-in-pre", image(BARE_F, at(0x00100010, "g", "EB EE 90*14")),
          obj(f_section(1), sec(".text.g", "E9 00 00 00 00", relative(1, ".text.f"))),
          "code f 0x00100000", "code g 0x00100010"),
    match("run-branch-lands-on-padding", LOOP, loop_unit(3), "code h 0x00100020"),
    mismatch("run-branch-goes-one-instruction-further", image(at(0x00100020, "h", "B9 03 00 00 00 49 75 FE C3")),
             loop_unit(3), ".text.h index 2 pre 0x6 run 0x00100026 target"),

    # what references go to
    match("jump-table-matches", TABLE, table_unit(2), "code s 0x00100000"),
    match("outside-name-called-by-its-listed-address", image(NOP, CALLER, at(0x00100200, "ext", "C3")), CALLER_UNIT,
          "code caller 0x00100010", "outside ext 0x00100200"),
    mismatch("outside-name-is-listed-elsewhere",
             image(NOP, CALLER, at(0x00100200, None, "C3"), symbols=[function(0x00100100, "ext")]), CALLER_UNIT,
             ".text.caller index 0 pre 0x0 run 0x00100010 value"),

    # what is wrong with one function by itself
    match("function-is-not-in-the-image", PROGRAM, obj(NOPE), "refused 14 no candidate nope"),
    match("first-of-two-that-are-not-in-the-image", image(NOP), obj(f_section(1), NOPE), "refused 14 no candidate f"),
    match("no-candidate-comes-before-a-difference", image(at(0x00100010, "f", "B8 02 00 00 00 C3")),
          obj(f_section(1), NOPE), "refused 14 no candidate nope"),
    match("code-that-can-not-be-matched-comes-before-no-candidate", image(at(0x00100000, "h", "C3")),
          obj(f_section(1), sec(".text.h", "0F FF")), "refused 20 pre undecoded .text.h 0x0"),
    match("first-of-two-that-can-not-be-matched", image(NOP),
          obj(NOPE, sec(".text.k", "90 0F FF"), sec(".text.h", "0F FF")), "refused 20 pre undecoded .text.k 0x1"),
    mismatch("difference-of-the-lower-of-two-homes",
             image(at(0x00100000, "nope", "B8 01 00 00 00 C3"), at(0x00100010, "f", "B8 02 00 00 00 C3"),
                   at(0x00100020, "f", "C3")), obj(f_section(1), NOPE),
             ".text.f index 0 pre 0x0 run 0x00100010 operand"),
    match("one-of-two-homes-differs",
          image(at(0x00100000, "f", "B8 01 00 00 00 C3"), at(0x00100010, "f", "B8 02 00 00 00 C3")), f_alone(1),
          "code f 0x00100000"),
    match("function-listed-twice-at-one-address", image(BARE_F, symbols=[function(0x00100000, "f")]), f_alone(1),
          "code f 0x00100000"),
    match("object-without-code", PROGRAM, obj(X)),

    # functions together
    match("twins-solved-by-caller", TWINS, obj(TW, CALLER_OF_TW), "code tw 0x00100010", "code caller 0x00100020"),
    match("functions-stand-in-the-order-of-the-object", TWINS, obj(X, CALLER_OF_TW, Y, TW), "code caller 0x00100020",
          "code tw 0x00100010"),
    match("twins-solved-by-the-caller-of-a-caller",
          image(at(0x00100000, "tw", "31 C0 C3", local=True), at(0x00100010, "tw", "31 C0 C3", local=True),
                at(0x00100020, "one", "E8 EB FF FF FF C3", local=True),
                at(0x00100030, "one", "E8 CB FF FF FF C3", local=True), at(0x00100040, "main", "E8 EB FF FF FF C3")),
          obj(TW, sec(".text.one", "E8 00 00 00 00 C3", relative(1, ".text.tw")),
              sec(".text.main", "E8 00 00 00 00 C3", relative(1, ".text.one"))),
          "code tw 0x00100000", "code one 0x00100030", "code main 0x00100040"),
    match("values-in-the-order-of-functions-and-fields",
          image(at(0x00100000, "m", "A1 00 00 20 00 A1 04 00 20 00 A1 00 00 20 00 E8 1C 00 00 00 C3"),
                at(0x00100020, "n", "A1 04 00 20 00 A1 08 00 20 00 C3"), at(0x00100030, "ext", "C3")),
          obj(sec(".text.m", "A1 00 00 00 00 A1 00 00 00 00 A1 00 00 00 00 E8 00 00 00 00 C3", absolute(1, ".data.x"),
                  absolute(6, ".data.y"), absolute(11, ".data.x"), relative(16, "ext")),
              sec(".text.n", "A1 00 00 00 00 A1 00 00 00 00 C3", absolute(1, ".data.y"), absolute(6, ".data.z")),
              Z, Y, X),
          "code m 0x00100000", "data .data.x 0x00200000", "data .data.y 0x00200004", "outside ext 0x00100030",
          "code n 0x00100020", "data .data.z 0x00200008"),
    match("values-of-read-only-data-stand-behind-those-of-the-code",
          image(at(0x00100000, "r", "A1 00 00 18 00 A1 00 00 20 00 C3"),
                regions=[read_only(0x00180000, "08 00 20 00")]),
          obj(sec(".text.r", "A1 00 00 00 00 A1 00 00 00 00 C3", absolute(1, ".rodata.r"), absolute(6, ".data.y")),
              sec(".rodata.r", "00*4", absolute(0, ".data.x")), X, Y),
          "code r 0x00100000", "data .data.y 0x00200000", "data .data.x 0x00200008"),
    match("twins-alone-are-ambiguous", TWINS, obj(TW), "refused 16 ambiguous .text.tw 0x00100000 0x00100010"),
    match("two-lowest-of-three-that-are-left", DISAGREEING, obj(TW),
          "refused 16 ambiguous .text.tw 0x00100020 0x00100030"),

    # places inside of other functions
    match("place-inside-of-another-function-behind-padding", a_into(0x00100025, PADDED_F_RUNS),
          obj(A, f_section(1)), "code a 0x00100000", "code f 0x00100020"),
    match("twins-solved-by-a-place-inside",
          a_into(0x00100022, at(0x00100010, "tw", "31 C0 C3", local=True),
                 at(0x00100020, "tw", "31 C0 C3", local=True)),
          obj(TW, a_of_tw(2)), "code tw 0x00100020", "code a 0x00100000"),
    match("place-inside-of-twins-that-come-later",
          a_into(0x00100022, at(0x00100010, "tw", "31 C0 C3", local=True),
                 at(0x00100020, "tw", "31 C0 C3", local=True)),
          obj(a_of_tw(2), TW), "code a 0x00100000", "code tw 0x00100020"),
    match("twins-that-both-name-a-place-as-it-is",
          image(at(0x00100000, "a", "B8 25 00 10 00 C3"), at(0x00100010, "a", "B8 25 00 10 00 C3"), PADDED_F_RUNS),
          obj(A, f_section(1)), "refused 16 ambiguous .text.a 0x00100000 0x00100010"),
    match("place-is-the-first-byte-of-the-second-of-two-that-touch", a_into(0x00100014, *TOUCHING),
          obj(PADDED_TW, a_of_tw(1)), "code tw 0x00100014", "code a 0x00100000"),
    match("place-is-the-last-byte-of-the-first-of-two-that-touch", a_into(0x00100013, *TOUCHING),
          obj(PADDED_TW, a_of_tw(3)), "code tw 0x00100010", "code a 0x00100000"),

    # functions that contradict each other
    match("two-functions-give-one-variable-two-addresses", DISAGREEING, obj(P, Q, X), P_AND_Q_CLASH),
    match("claim-of-the-first-function-stands-first", DISAGREEING, obj(X, Q, P),
          "refused 17 conflict .data.x 0x00200008 at .text.q+0x1 0x00200000 at .text.p+0x1"),
    match("place-inside-the-second-function-does-not-fit", a_into(0x00100021, PADDED_F_RUNS), obj(A, f_section(1)),
          "refused 17 conflict .text.f+0x5 0x00100021 at .text.a+0x1 0x00100026 at .text.f+0x5"),
    match("place-inside-the-first-function-does-not-fit", a_into(0x00100021, PADDED_F_RUNS), obj(f_section(1), A),
          "refused 17 conflict .text.f+0x5 0x00100021 at .text.a+0x1 0x00100026 at .text.f+0x5"),
    match("place-where-the-other-function-has-ended",
          a_into(0x00100027, at(0x00100020, "f", "B8 01 00 00 00 90 C3 C3")), obj(A, f_section(1)),
          "refused 17 conflict .text.f+0x5 0x00100027 at .text.a+0x1 0x00100026 at .text.f+0x5"),
    match("call-of-neither-of-two-homes",
          image(at(0x00100000, "tw", "31 C0 C3", local=True), at(0x00100010, "tw", "31 C0 C3", local=True),
                at(0x00100020, "caller", "E8 0B 00 00 00 C3")), obj(TW, CALLER_OF_TW),
          "refused 17 conflict .text.tw 0x00100000 at .text.tw+0x0 0x00100030 at .text.caller+0x1"),
    match("first-of-two-that-agree-clashes-with-the-third", P_R_S, obj(P, R, S, X, Y),
          "refused 17 conflict .data.x 0x00200000 at .text.p+0x1 0x00200008 at .text.s+0x6"),
    match("first-clashing-claim-of-the-first-function", P_R_S, obj(R, S, P, X, Y),
          "refused 17 conflict .data.x 0x00200000 at .text.r+0x1 0x00200008 at .text.s+0x6"),
    match("first-of-two-claims-of-one-thing",
          image(at(0x00100000, "r", "A1 00 00 20 00 A1 10 00 20 00 C3"),
                at(0x00100010, "t", "A1 00 00 20 00 A1 18 00 20 00 A1 18 00 20 00 C3")),
          obj(R, sec(".text.t", "A1 00 00 00 00 A1 00 00 00 00 A1 00 00 00 00 C3", absolute(1, ".data.x"),
                     absolute(6, ".data.y"), absolute(11, ".data.y")), X, Y),
          "refused 17 conflict .data.y 0x00200010 at .text.r+0x6 0x00200018 at .text.t+0x6"),

    # what comes first
    match("clash-comes-before-twins", DISAGREEING, obj(TW, P, Q, X), P_AND_Q_CLASH),
    mismatch("difference-comes-before-a-clash", DISAGREEING, obj(TW, P, Q, f_section(1), X),
             ".text.f index 0 pre 0x0 run 0x00100000 opcode"),
    match("no-candidate-comes-before-all-of-these", DISAGREEING, obj(TW, P, Q, f_section(1), NOPE, X),
          "refused 14 no candidate nope"),
]
