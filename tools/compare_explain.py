#!/usr/bin/env python3
"""Runs `explain` and the model on generated inputs and compares what they print: compare_explain.py PROGRAM [COUNT] [SEED]"""
import random
import subprocess
import sys

from planner_model import CLASS_NAMES, Fault, Frame, Opening, fits, records


def colons(address):
    return ":".join(f"{b:02x}" for b in address)


def ports(number):
    if number > 15:
        return f"set {number} above 15"
    return "port" + "".join(f" {p}" for p in range(4) if number >> p & 1) if number else "no port"


def arrival(opening, body):
    port, data = body[0], body[1:]
    text = f"arrive port {port} length {len(data)}"
    if not fits(data):
        return text + (" refused 2, too short" if len(data) < 60 else " refused 2, too long")
    frame = Frame(data)
    priority = "no priority" if frame.priority is None else f"priority {frame.priority}"
    text += f" class {CLASS_NAMES[frame.number_of_class()]} {priority} type 0x{frame.kind:04x} payload at {frame.place}"
    if port > 3:
        return text + ", no such port"
    if opening.table_fault() is not None:
        return text + ", no table"
    way = opening.route(frame.destination, port)
    return text + {"unknown": ", no way out", "tap": ", from the tap port"}.get(way, f", to {ports(way) if way not in ('unknown', 'tap') else ''}")


def explained(data):
    lines, opening, number = [], None, 0
    try:
        for place, kind, body in records(data):
            number += 1
            if kind == 0:
                opening = Opening(body)
                o = opening
                what = f"new slot {o.slot} number {o.number} rate {o.rate} depth {o.depth} reserved {o.reserved} best-effort {o.best_effort} tap {o.tap} rows {len(o.rows)}"
                what += "".join(f", {colons(a)} to {ports(s)}" for a, s in o.rows)
            elif kind == 1:
                what = arrival(opening, body)
            else:
                what = "tick" if kind == 2 else ("send" if kind == 3 else "clear") + f" port {body[0]}"
            lines.append(f"{number} at {place}: {what}")
        lines.append(f"{number} records")
    except Fault as fault:
        lines.append(f"{number + 1} fault 12 {fault.args[0]}")
    return "".join(line + "\n" for line in lines).encode()


def record(kind, body):
    return (len(body) + 2).to_bytes(2, "big") + bytes([1, kind]) + body


def generate(rng):
    """An input: mostly good, then cut, damaged, or drowned in random bytes."""
    addresses = [rng.randbytes(6) for _ in range(3)] + [b"\xff" * 6]
    rows = b"".join(rng.choice(addresses) + bytes([rng.choice([rng.randrange(16), rng.randrange(256)]) if rng.random() < 0.2 else rng.randrange(16)]) for _ in range(rng.choice([0, 1, 3, 12, 13, 40])))
    out = record(0, rng.randbytes(20) + bytes([rng.randrange(2), len(rows) // 7]) + rows)
    for _ in range(rng.randrange(30)):
        kind = rng.choice([1, 1, 1, 2, 3, 4])
        if kind == 1:
            size = rng.choice([0, 13, 17, 59, 60, 61, 1517, 1518, 1519, rng.randrange(1600)])
            head = rng.choice(addresses) + rng.randbytes(6) + rng.choice([b"\x81\x00", b"\x88\xf7", b"\x08\x00", rng.randbytes(2)]) + rng.randbytes(2) + rng.choice([b"\x88\xf7", rng.randbytes(2)])
            body = bytes([rng.choice([0, 1, 2, 3, rng.randrange(256)])]) + (head + bytes(1600))[:size]
        else:
            body = b"" if kind == 2 else bytes([rng.randrange(256)])
        out += record(kind, body)
    way = rng.random()
    if way < 0.25:
        out = out[: rng.randrange(len(out) + 1)]
    elif way < 0.5:
        data = bytearray(out)
        for _ in range(rng.randrange(1, 4)):
            data[rng.randrange(len(data))] = rng.randrange(256)
        out = bytes(data)
    elif way < 0.6:
        out = rng.randbytes(rng.randrange(70000))
    elif way < 0.65:
        out = out + record(2, b"") * ((rng.choice([65532, 65536, 65540, 70000]) - len(out)) // 4)
    return out


def main():
    program = sys.argv[1]
    count = int(sys.argv[2]) if len(sys.argv) > 2 else 1000
    rng = random.Random(int(sys.argv[3]) if len(sys.argv) > 3 else 1)
    for i in range(count):
        data = generate(rng)
        ran = subprocess.run([program], input=data, capture_output=True)
        if ran.returncode != 0 or ran.stdout != explained(data):
            open("difference.bin", "wb").write(data)
            raise SystemExit(f"compare_explain: input {i} differs, kept as difference.bin (status {ran.returncode})")
    print(f"{count} inputs compared, all equal")


main()
