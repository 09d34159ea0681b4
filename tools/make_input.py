#!/usr/bin/env python3
"""Writes a planner input from a description: make_input.py DESCRIPTION > INPUT

One record a line; '#' begins a comment. Numbers are decimal, or hexadecimal after 0x.
  new slot S number N rate R depth D reserved R best-effort B tap 0|1 [row ADDRESS SET]...
  arrive PORT LENGTH to ADDRESS [tag HEX4] [type HEX4]   a frame of that length, zero where nothing else is said
  arrive-bytes PORT [HEX]                              a frame by its bytes
  tick | send PORT | clear PORT
  raw HEX                                              bytes as they are, to damage an input
  zeros COUNT                                          that many zero bytes
"""
import sys


def big(value, width):
    return value.to_bytes(width, "big")


def address(text):
    return bytes(int(part, 16) for part in text.split(":"))


def record(kind, body):
    return big(len(body) + 2, 2) + bytes([1, kind]) + body


def frame(words):
    length = int(words[1])
    out = bytearray(length)
    pairs = dict(zip(words[2::2], words[3::2]))
    head = address(pairs.get("to", "00:00:00:00:00:00")) + address(pairs.get("from", "00:00:00:00:00:00"))
    kind = int(pairs.get("type", "0"), 16)
    if "tag" in pairs:
        head += big(0x8100, 2) + big(int(pairs["tag"], 16), 2)
    head += big(kind, 2)
    out[: len(head)] = head[:length]
    return bytes(out)


def opening(words):
    rows, named = b"", {}
    while words:
        if words[0] == "row":
            rows += address(words[1]) + bytes([int(words[2], 0)])
            words = words[3:]
        else:
            named[words[0]] = int(words[1], 0)
            words = words[2:]
    body = big(named["slot"], 6) + big(named["number"], 6)
    for name in ("rate", "depth", "reserved", "best-effort"):
        body += big(named[name], 2)
    return body + bytes([named["tap"], len(rows) // 7]) + rows


def line(words):
    what = words[0]
    if what == "new":
        return record(0, opening(words[1:]))
    if what == "arrive":
        return record(1, bytes([int(words[1])]) + frame(words[1:]))
    if what == "arrive-bytes":
        return record(1, bytes([int(words[1])]) + bytes.fromhex("".join(words[2:])))
    if what == "tick":
        return record(2, b"")
    if what in ("send", "clear"):
        return record(3 if what == "send" else 4, bytes([int(words[1])]))
    if what == "raw":
        return bytes.fromhex("".join(words[1:]))
    if what == "zeros":
        return bytes(int(words[1]))
    raise SystemExit(f"make_input: what is '{what}'?")


def main():
    out = b""
    for text in open(sys.argv[1], encoding="ascii"):
        words = text.split("#")[0].split()
        if words:
            out += line(words)
    sys.stdout.buffer.write(out)


main()
