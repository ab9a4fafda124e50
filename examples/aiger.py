"""Reads and writes netlists in the AIGER format, text and binary, for the scripts beside this one."""
import sys
from dataclasses import dataclass, field

ANY = 2  # a latch with this reset begins at any value


@dataclass
class Netlist:
    binary: bool
    inputs: list  # variables' literals
    latches: list  # [literal, next literal, reset], with reset 0, 1 or ANY
    outputs: list
    gates: list  # (literal, right literal, right literal)
    names: dict = field(default_factory=dict)  # of ("i", 0), ("l", 0), ("o", 0) and so on


def read(path):
    try:
        with open(path, "rb") as file:
            data = file.read()
        return parsed(data)
    except OSError as fault:
        sys.exit(f"{path}: {fault.strerror}")
    except (ValueError, IndexError):
        sys.exit(f"{path}: not an AIGER file that this script reads")


def parsed(data):
    at = 0

    def line():
        nonlocal at
        end = data.index(b"\n", at)
        words = data[at:end].split()
        at = end + 1
        return words

    def delta():
        nonlocal at
        value = shift = 0
        while True:
            byte = data[at]
            value |= (byte & 127) << shift
            shift += 7
            at += 1
            if byte < 128:
                return value

    magic, *counts = line()
    most, inputs, latches, outputs, gates = map(int, counts[:5])
    if magic not in (b"aag", b"aig") or any(map(int, counts[5:])):
        raise ValueError
    binary = magic == b"aig"
    net = Netlist(binary, [], [], [], [])
    for place in range(inputs):
        net.inputs.append(2 * (place + 1) if binary else int(line()[0]))
    for place in range(latches):
        row = [int(word) for word in line()]
        if binary:
            row.insert(0, 2 * (inputs + place + 1))
        reset = row[2] if len(row) > 2 else 0
        net.latches.append([row[0], row[1], ANY if reset == row[0] else reset])
    net.outputs = [int(line()[0]) for _ in range(outputs)]
    for place in range(gates):
        if binary:
            own = 2 * (most - gates + place + 1)
            left = own - delta()
            net.gates.append((own, left, left - delta()))
        else:
            net.gates.append(tuple(int(word) for word in line()))
    for row in data[at:].split(b"\n"):
        if row[:1] not in (b"i", b"l", b"o"):
            break
        place, name = row[1:].split(b" ", 1)
        net.names[chr(row[0]), int(place)] = name.decode(errors="replace")
    if not binary:
        net.gates = in_order(net)
    return net


def in_order(net):
    """The gates of a text file, each after those that it uses."""
    gates = {gate[0] >> 1: gate for gate in net.gates}
    done, order = set(), []
    for variable in gates:
        stack = [variable]
        while stack:
            top = stack[-1]
            waits = [x >> 1 for x in gates[top][1:] if x >> 1 in gates and x >> 1 not in done] if top not in done else []
            if waits:
                stack.extend(waits)
                continue
            stack.pop()
            if top not in done:
                done.add(top)
                order.append(gates[top])
    return order


def write(path, net):
    """In the form in which it was read."""
    variables = [x >> 1 for x in net.inputs] + [row[0] >> 1 for row in net.latches] + [gate[0] >> 1 for gate in net.gates]
    counts = (max(variables, default=0), len(net.inputs), len(net.latches), len(net.outputs), len(net.gates))
    parts = [("aig" if net.binary else "aag") + "".join(f" {count}" for count in counts) + "\n"]
    if not net.binary:
        parts += [f"{x}\n" for x in net.inputs]
    for own, following, reset in net.latches:
        start = {0: "", 1: " 1", ANY: f" {own}"}[reset]
        parts.append((f"{following}" if net.binary else f"{own} {following}") + start + "\n")
    parts += [f"{x}\n" for x in net.outputs]
    body = b""
    if net.binary:
        body = b"".join(seven_bits(own - left) + seven_bits(left - right) for own, left, right in net.gates)
    else:
        parts += ["%d %d %d\n" % gate for gate in net.gates]
    symbols = "".join(f"{kind}{place} {name}\n" for (kind, place), name in net.names.items())
    with open(path, "wb") as file:
        file.write("".join(parts).encode() + body + symbols.encode())


def seven_bits(number):
    out = bytearray()
    while number > 127:
        out.append(number & 127 | 128)
        number >>= 7
    out.append(number)
    return bytes(out)
