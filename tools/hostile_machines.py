"""Hostile cases of tools/check_hostile.py: machines at the ends of their ranges, under limits of memory."""
import resource
import signal

from worked_rows import row
from wwt_hostile import (
    CHECKED, FOREVER, NO_MEMORY, PUT_FOREVER, Differs, case, first_line, machine)


def greatest(**more):
    costs = dict.fromkeys(("op", "taken", "mem", "hit", "cico", "call", "fill", "trap", "trap_each"), 4096)
    return {"private_bytes": 4194304, "block_bytes": 128, "blocks": 65536, "sets": 512, "ways": 8, "latency": 10000,
            "self_latency": 10000, "quantum": 10000, "event_limit": 1 << 40, "budget": 1 << 40, "costs": costs, **more}


@case("the greatest numbers of all ranges at once, in a second")
def _(room):
    room.put("m", machine([{"hex": ""}], nodes=32, **greatest()))
    room.put("n", machine([{"hex": ""}] * 32, nodes=32, **greatest(sets=1024, ways=4)))
    for name in ("m", "n"):
        room.expect(["check", name], 0, CHECKED, mib=2048, seconds=5)
        for words in room.each(["run", name]):
            before = resource.getrusage(resource.RUSAGE_CHILDREN)
            ran = room.run(words, mib=2048)
            after = resource.getrusage(resource.RUSAGE_CHILDREN)
            took = after.ru_utime + after.ru_stime - before.ru_utime - before.ru_stime
            room.compare(words, ran, 1, lambda out: out.startswith(b"outcome finished\nevents 32\ntime 0\nquanta 1\n"),
                         most=1024)
            # of processor time, since the machine may be busy
            if took > 1:
                raise Differs(f"{' '.join(words)}: {took:.1f} seconds of a processor")


@case("the same machine, under less and less memory")
def _(room):
    room.put("m", machine([{"hex": ""}], nodes=32, **greatest()))
    ends = set()
    for mib in (2048, 1024, 512, 384, 320, 256, 192, 160, 128, 96, 64, 48, 32, 24, 16):
        for words in (["run", "m"], ["run", "--trace", "--memory", "m"]):
            for line in room.each(words):
                ran = room.run(line, mib=mib)
                if ran.status in (126, 127) or b"error while loading" in ran.error:
                    continue  # it couldn't be begun
                ends.add(ran.status)
                if ran.status == 10:
                    room.compare(line, ran, 10, b"", NO_MEMORY)
                else:
                    room.compare(line, ran, 1, first_line(b"outcome finished"))
    if ends != {1, 10}:
        raise Differs(f"the statuses were {ends}")


@case("a log without end, and bytes put out without end, under a limit of memory")
def _(room):
    room.put("m", machine([{"hex": FOREVER.hex()}], budget=1 << 40, event_limit=1 << 40))
    room.expect(["run", "--trace", "m"], 10, error=NO_MEMORY, mib=256)
    room.put("m", machine([{"hex": PUT_FOREVER.hex()}], budget=1 << 40, event_limit=1 << 40))
    room.expect(["run", "m"], 10, error=NO_MEMORY, mib=64, seconds=60)


@case("each status, under less and less memory")
def _(room):
    told = row("shared_load", "traced, with its memory")
    told.write(room.folder)
    for mib in range(2, 40):
        for line in room.each(told.words):
            ran = room.run(line, mib=mib)
            if ran.status == 127 or b"error while loading" in ran.error or ran.status == -signal.SIGSEGV and mib < 10:
                continue  # it couldn't be begun
            if ran.status == 10:
                room.compare(line, ran, 10, told.out.startswith, NO_MEMORY)
            else:
                room.compare(line, ran, 0, told.out)
