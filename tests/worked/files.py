"""Files, and lines of sessions, that several themes have."""
from .encode import absolute, at, four_stacks, image, obj, read_only, relative, sec, word


def f_section(number):
    """f answers a number: mov eax, number; ret."""
    return sec(".text.f", f"B8 {number:02X} 00 00 00 C3")


def f_calling(name):
    return sec(".text.f", "E8 00 00 00 00 C3", relative(1, name))


def f_reading(section):
    """f answers what stands in a section: mov eax, [section]; ret."""
    return sec(".text.f", "A1 00 00 00 00 C3", absolute(1, section))


# main calls f
MAIN_SECTION = sec(".text.main", "E8 00 00 00 00 C3", relative(1, ".text.f"))


def f_and_main(number):
    return obj(f_section(number), MAIN_SECTION)


def f_alone(number):
    return obj(f_section(number))


# the program of which f_and_main(1) is the object
F_PART = at(0x00100000, "f", "B8 01 00 00 00 C3 6690*5")
MAIN_PART = at(0x00100010, "main", "E8 EB FF FF FF C3 90*10")


def program(*parts, **more):
    """f and main, with further code and whatever else `image` takes."""
    return image(F_PART, MAIN_PART, *parts, **more)


PROGRAM = program()
# the same without padding after main, and with more room
BARE_F = at(0x00100000, "f", "B8 01 00 00 00 C3")
BARE_PROGRAM = image(BARE_F, at(0x00100010, "main", "E8 EB FF FF FF C3"),
                     stacks=four_stacks(0x05000000, 0x10000), arena=(0x04000000, 0x04100000))
FIRST_TO_SECOND = {"pre.o": f_and_main(1), "post.o": f_and_main(2)}
F_FIRST_TO_SECOND = {"pre.o": f_alone(1), "post.o": f_alone(2)}

# a session in which main runs, f is replaced, and main runs again
OLD_RUNS = [
    ("spawn main 0", "spawned 0 0x00100010 main+0x0"),
    ("step 0 100", "stepped 0 5 exited 0x00000001"),
]
APPLY = "apply u1 pre.o post.o"
REPLACED = " replaced f 0x00100000 0x00800000 6"


def applied(*report):
    """The line that makes an update, and what it says of it."""
    return APPLY, "applied u1 tries 1", *report


APPLIED = applied(REPLACED)
NEW_RUNS = [
    APPLIED,
    ("spawn main 0", "spawned 1 0x00100010 main+0x0"),
    ("step 1 100", "stepped 1 6 exited 0x00000002"),
    ("peek 0x00100000 6", "0x00100000: e9 fb ff 6f 00 c3"),
]

# f, main, and spin, which stays where it is
SPIN = program(at(0x00100020, "spin", "EB FE 90*14"))


def sp_program(register, value, **more):
    """f, and sp, which moves a number to ECX or ESP and then stays where it is."""
    move = {"ecx": "B9", "esp": "BC"}[register]
    return image(BARE_F, at(0x00100010, "sp", f"{move} {word(value)} EB FE 90*9"), **more)


# two local functions of one name, alike, and a caller of the second
TWINS = image(at(0x00100000, "tw", "31 C0 C3 90*13", local=True), at(0x00100010, "tw", "31 C0 C3 90*13", local=True),
              at(0x00100020, "caller", "E8 EB FF FF FF C3"))

# h counts down: mov ecx, 3; dec ecx; jne, to dec. In the program the branch goes to padding before dec
LOOP = image(at(0x00100020, "h", "B9 03 00 00 00 8D B6 00 00 00 00 49 75 F7 C3"))


def loop_unit(turns):
    return obj(sec(".text.h", f"B9 {turns:02X} 00 00 00 49 75 FD C3"))


# s jumps through a table to one of two answers, in the program with padding between them
TABLE = image(at(0x00100000, "s", "8B 44 24 04 FF 24 85 00 00 18 00 B8 01 00 00 00 C3 66 90 B8 02 00 00 00 C3"),
              regions=[read_only(0x00180000, "0B 00 10 00 13 00 10 00")])


def table_unit(second):
    return obj(sec(".text.s", f"8B 44 24 04 FF 24 85 00 00 00 00 B8 01 00 00 00 C3 B8 {second:02X} 00 00 00 C3",
                   absolute(7, ".rodata.s")),
               sec(".rodata.s", "00*8", absolute(0, ".text.s", 11), absolute(4, ".text.s", 17)))


def text_user(texts, offset):
    """f answers the address of a text."""
    return obj(sec(".text.f", "B8 00 00 00 00 C3", absolute(1, ".rodata.str1.1", offset)),
               sec(".rodata.str1.1", texts))


# work jumps to its cold part, which jumps back into it
COLD_PART = sec(".text.unlikely.work", "E9 00 00 00 00", relative(1, ".text.work", 1))
TO_COLD = relative(1, ".text.unlikely.work")
COLD_UNIT = obj(sec(".text.work", "E9 00 00 00 00 C3", TO_COLD), COLD_PART)
LONGER_COLD_UNIT = obj(sec(".text.work", "E9 00 00 00 00 40 C3", TO_COLD), COLD_PART)
WITHOUT_COLD = obj(sec(".text.work", "B8 07 00 00 00 C3"))
COLD = image(at(0x00100000, "work", "E9 0B 00 00 00 C3 90*10"),
             at(0x00100010, "work.cold", "E9 F0 FF FF FF 90*11", local=True))
COLD_FILES = {"pre.o": COLD_UNIT, "post.o": WITHOUT_COLD}
DROPPED_COLD = [
    applied(" replaced work 0x00100000 0x00800000 6", " dropped work.cold"),
    ("spawn work 0", "spawned 0 0x00100000 work+0x0"),
    ("step 0 9", "stepped 0 4 exited 0x00000007"),
    ("spawn work.cold 0", "spawned 1 0x00100010 work.cold+0x0"),
    ("step 1 1", "stepped 1 1 stopped stray 0x00100010 work.cold+0x0"),
]


# a unit as compilers write it
def work(first, last):
    """work answers by a jump table: a number, 20 or the address of a text; or it goes to its cold part, which goes back
    to the last answer."""
    return (f"F3 0F 1E FB 8B 44 24 04 83 F8 02 0F 87 1F 00 00 00 FF 24 85 00 00 18 00 B8 {first:02X} 00 00 00 C3 "
            f"B8 14 00 00 00 C3 B8 0C 00 18 00 C3 B8 {last:02X} 00 00 00 C3")


# calls work twice with its argument, and adds the answers
WORK_MAIN = ("F3 0F 1E FB FF 74 24 04 E8 B3 FF FF FF 50 FF 74 24 0C E8 A9 FF FF FF "
             "83 C4 04 5A 83 C4 04 01 D0 C3")
WORK = image(at(0x00100000, "work", work(10, 99)), at(0x00100030, "work.cold", "E9 F5 FF FF FF 90*11", local=True),
             at(0x00100040, "main", f"{WORK_MAIN} 90*15"),
             regions=[read_only(0x00180000, "18 00 10 00 1E 00 10 00 24 00 10 00 68 69 00")],
             stacks=four_stacks(0x00400000, 0x1000))


def work_unit(first, last):
    return obj(sec(".text.work", work(first, last), relative(0x0D, ".text.unlikely.work"),
                   absolute(0x14, ".rodata.work"), absolute(0x25, ".rodata.str1.1")),
               sec(".text.unlikely.work", "E9 00 00 00 00", relative(1, ".text.work", 0x26)),
               sec(".text.main", WORK_MAIN, relative(0x09, ".text.work"), relative(0x13, ".text.work")),
               sec(".rodata.work", "00*12", absolute(0, ".text.work", 0x18), absolute(4, ".text.work", 0x1E),
                   absolute(8, ".text.work", 0x24)),
               sec(".rodata.str1.1", "68 69 00"),
               sec(".eh_frame", "00*4"), sec(".comment", "00*4"), sec(".note.GNU-stack", "00*4"))


OLD_WORK, NEW_WORK = work_unit(10, 99), work_unit(11, 100)
