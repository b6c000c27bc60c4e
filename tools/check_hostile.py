#!/usr/bin/env python3
"""Runs the built program where everything outside is against it.

    tools/check_hostile.py [--wwt WWT] [WORD..]

Outputs that are full, closed, or whose reader goes away; inputs that never end, never begin, come in
pieces, grow while they are read, or can't be read; files that lie about themselves; names of all
kinds; machines of the greatest numbers, under small limits of memory. Each case says what has to
come: status, output, error line, in how many seconds, and by how much memory. Each run of a machine
is also made by WORKERS workers. With words, only the cases whose title has one of them are run.

A case is a line; those that differ say what came. The status is 1 where one differs. What this
machine doesn't let a user do, as a small disk, is left out with a line. Where the program isn't
built, one line says so, and nothing fails.
"""
import shutil
import tempfile
import time

import hostile_files  # pylint: disable=unused-import
import hostile_inputs  # pylint: disable=unused-import
import hostile_machines  # pylint: disable=unused-import
import hostile_outputs  # pylint: disable=unused-import
from wwt_hostile import CASES, Differs, Room, Skipped
from wwt_tool import ToolError, add_program, call, parser_of, program_of


def play(wwt, title, body):
    """Plays a case in a room of its own. Whether it went as wanted."""
    folder = tempfile.mkdtemp()
    begun = time.monotonic()
    try:
        body(Room(wwt, folder))
    except Skipped as why:
        print(f"hostile '{title}': left out, {why}", flush=True)
        return True
    except (Differs, OSError) as what:
        # (a program that ends too early breaks a pipe of the case)
        print(f"hostile '{title}': {what}", flush=True)
        return False
    finally:
        shutil.rmtree(folder, ignore_errors=True)
    print(f"hostile '{title}': as wanted, in {time.monotonic() - begun:.1f} seconds", flush=True)
    return True


def main():
    parser = parser_of(__doc__)
    add_program(parser)
    parser.add_argument("words", nargs="*", metavar="WORD", help="only cases whose title has one of them")
    words = parser.parse_args()
    try:
        wwt = program_of(words.wwt)
    except ToolError as error:
        print(f"hostile: skipped, {error}")
        return 0
    chosen = [(title, body) for title, body in CASES
              if not words.words or any(word in title for word in words.words)]
    if not chosen:
        raise ToolError("no case has such a title")
    results = [play(wwt, title, body) for title, body in chosen]
    print(f"hostile: {len(results)} cases, {results.count(False)} differ")
    return 0 if all(results) else 1


if __name__ == "__main__":
    call(main)
