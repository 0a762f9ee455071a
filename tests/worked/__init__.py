"""The worked rows: calls of the program, with what each has to print and to end with. README.md says more."""
from . import (bodies, difference, discipline, hooking, image_files, linking, listing, matching, object_bytes,
               object_files, outside, poking, scripts, standing, threads, undoing, updates, works)

THEMES = (outside, object_files, object_bytes, image_files, scripts, difference, linking, listing, matching, bodies,
          threads, discipline, updates, standing, undoing, poking, hooking, works)
ROWS = [row for theme in THEMES for row in theme.ROWS]
assert len({row.name for row in ROWS}) == len(ROWS), "two rows have one name"
