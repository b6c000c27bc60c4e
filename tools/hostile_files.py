"""Hostile cases of tools/check_hostile.py: files that lie."""
import resource

from wwt_hostile import CHECKED, EXIT, MIB, MOST, NO_MEMORY, SYNTAX, case, elf, machine, short


@case("descriptions of 16 MiB of lists and objects in one another")
def _(room):
    for text in (b"[" * MOST, b'{"a":' * (MOST // 5), b"[" * (MOST // 2) + b"]" * (MOST // 2), b'[{"a":' * (MOST // 6),
                 b'{"version":1,"nodes":1,"images":' + b"[" * (MOST - 40), b'{"images":[{"hex":' + b"[" * (MOST - 40)):
        room.put("m", text)
        for stack in (MIB, 8 * MIB):
            room.expect(["run", "m"], 6, error=SYNTAX, mib=256,
                        before=lambda stack=stack: resource.setrlimit(resource.RLIMIT_STACK, (stack, stack)))


@case("lists in one another, 127 deep and deeper")
def _(room):
    for depth, line in ((127, b"wwt: machine: not an object\n"), (128, SYNTAX), (129, SYNTAX), (100000, SYNTAX)):
        room.put("m", b"[" * depth + b"]" * depth)
        room.expect(["check", "m"], 6, error=line)


@case("descriptions of 16 MiB of one long number, text or key")
def _(room):
    most = MOST - 100
    for text, error in (
            (b"1" * most, SYNTAX), (b"0" * most, SYNTAX), (b"-" * most, SYNTAX), (b"0." + b"1" * most, None),
            (b"1e" + b"9" * most, SYNTAX), (b"1e-" + b"9" * most, None), (b'"' + b"a" * most, SYNTAX),
            (b'"' + b"a" * most + b'"', None), (b'"' + b"\\" * most, SYNTAX),
            (b'"' + b"\\u0041" * (most // 6) + b'"', None), (b" " * most, SYNTAX), (b"\n" * most, SYNTAX)):
        room.put("m", text)
        room.expect(["run", "m"], 6, error=b"wwt: machine: not an object\n" if error is None else error, mib=512)
    room.put("m", b'{"' + b"k" * most + b'":1}')
    room.expect(["run", "m"], 6, error=b"wwt: machine: unknown " + b"k" * most + b"\n", mib=512)


@case("descriptions of 16 MiB of short members, in any order, of one key or of many")
def _(room):
    count = MOST // 12 - 10
    keys = [f"{number:07}" for number in range(count)]
    shuffled = [keys[number * 7919 % count] for number in range(count)]
    for names, least in ((keys, b"0000000"), (keys[::-1], b"0000000"), (shuffled, b"0000000"),
                         (["0000001"] * count, b"0000001")):
        room.put("m", ("{" + ",".join(f'"{name}":0' for name in names) + "}").encode())
        room.expect(["check", "m"], 6, error=b"wwt: machine: unknown " + least + b"\n", mib=2048)


@case("descriptions of 16 MiB of small values")
def _(room):
    for text in (b"0,", b"[],", b"{},", b'"",', b"null,"):
        many = text * ((MOST - 100) // len(text))
        room.put("m", b"[" + many[:-1] + b"]")
        room.expect(["check", "m"], 6, error=b"wwt: machine: not an object\n", mib=2048)
        room.put("m", b'{"version":1,"nodes":1,"images":[' + many[:-1] + b"]}")
        count = str((MOST - 100) // len(text)).encode()
        room.expect(["check", "m"], 6, error=b"wwt: machine: range images " + count + b"\n", mib=2048)


@case("an image of 16 MiB of digits in the description")
def _(room):
    room.put("m", machine([{"hex": "0" * (MOST - 100)}]))
    room.expect(["run", "m"], 7, error=b"wwt: image 0: outside 0x00100000\n", mib=256)
    room.put("m", machine([{"hex": "0" * (MOST - 101)}]))
    room.expect(["run", "m"], 6, error=b"wwt: machine: hex images.0\n", mib=256)


@case("sizes that no memory has aren't allocated")
def _(room):
    room.put("m", machine([{"file": "a.elf"}]))
    room.put("a.elf", elf([(1, 84, 0, 8, 0xffffffff)], EXIT))
    room.expect(["run", "m"], 7, error=b"wwt: image 0: outside 0x00100000\n", most=32)
    room.expect(["dis", "a.elf"], 0, lambda out: out.count(b"\n") == 2, most=32)
    room.put("a.elf", elf([(1, 84, at, 0, 0xffffffff) for at in (0x80000000, 0)]))
    room.expect(["run", "m"], 7, error=b"wwt: image 0: outside 0x80008000\n", most=32)
    room.put("a.elf", elf([(1, 0xffffffff, 0, 0xffffffff, 0xffffffff)]))
    room.expect(["run", "m"], 7, error=b"wwt: image 0: segment\n", most=32)


@case("65535 program headers that name 16 MiB each")
def _(room):
    room.put("m", machine([{"file": "a.elf"}]))
    room.put("a.elf", elf([(1, 0, 0, MOST, MOST)] * 65535, length=MOST))
    for words in (["run", "m"], ["check", "m"], ["dis", "a.elf"]):
        room.expect(words, 10, error=NO_MEMORY, mib=256)


@case("65535 program headers that clear all memory each")
def _(room):
    for nodes, at, size, fields in ((1, 0, 4194304, {"private_bytes": 4194304}),
                                    (32, 0, 4194304, {"private_bytes": 4194304}),
                                    (1, 0x80000000, 8388608, {"blocks": 65536, "block_bytes": 128}),
                                    (32, 0x80000000, 8388608, {"blocks": 65536, "block_bytes": 128}),
                                    (1, 0x80000000, 1, {"blocks": 65536, "block_bytes": 16})):
        room.put("m", machine([{"file": "a.elf"}], nodes=nodes, **fields))
        room.put("a.elf", elf([(1, 0, at, 0, size)] * 65535))
        room.expect(["check", "m"], 0, CHECKED, mib=512)
        room.expect(["run", "m"], 10, error=NO_MEMORY, mib=512)


@case("each of 32 nodes names an executable of 64 MiB")
def _(room):
    room.put("m", machine([{"file": "a.elf"}] * 32, nodes=32, private_bytes=4194304))
    room.put("a.elf", elf([(1, 0, 0, 4194304, 4194304)] * 16, length=4194304))
    for mib in (128, 512, 1024):
        for words in room.each(["run", "m"]):
            room.compare(words, room.run(words, mib=mib), 10, error=NO_MEMORY)
