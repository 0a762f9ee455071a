"""Rows of `gen`: what the session of the work of a number comes to (docs/output.md).

The work of a number has 16 + NUMBER mod 497 functions, of which function i adds NUMBER (i + 1) mod 65536 to EAX and
calls the next one; every fourth, from function 1 on, adds one more in the second object. Five of the eight updates are
left when three were taken back, so the last threads run the code of the second object. In the session there are, for
each update, four threads that are spawned, two lines `rr`, and `applied` with a line for each function that is
replaced; and then three lines `undone`, four threads, one `rr`, `threads` with a line for each of 36, and the watch.
"""
from .rows import call


def summary(number):
    """The summary of a number's work, by these rules."""
    functions = 16 + number % 497
    raised = len(range(1, functions, 4))
    total = sum(number * (i + 1) % 65_536 for i in range(functions)) + raised
    lines = 8 * (4 + 2 + 1 + raised) + 3 + 4 + 1 + 37 + 1
    return (f"gen {number} functions {functions}", f"lines {lines} applied 8 undone 3 refused 0",
            f"thread 35 exited {total:#010x}", "threads 36", "watch disciplined")


ROWS = [
    call("work-of-0", "gen 0", {}, "gen 0 functions 16", "lines 134 applied 8 undone 3 refused 0",
         "thread 35 exited 0x00000004", "threads 36", "watch disciplined"),
    call("work-of-1", "gen 1", {}, "gen 1 functions 17", "lines 134 applied 8 undone 3 refused 0",
         "thread 35 exited 0x0000009d", "threads 36", "watch disciplined"),
    call("work-of-the-largest-number", "gen 4294967295", {}, "gen 4294967295 functions 166",
         "lines 438 applied 8 undone 3 refused 0", "thread 35 exited 0x00a5ca05", "threads 36", "watch disciplined"),
    *(call(f"work-of-{number}", f"gen {number}", {}, *summary(number)) for number in (2, 5, 480, 496, 497, 65_536)),
    call("leading-zeros-of-a-number-of-ten-digits", "gen 0000000001", {}, *summary(1)),
    call("work-that-is-written-nowhere", "gen 0", {}, status=5, sink="/dev/full"),
]
