#!/usr/bin/env python3
"""Turns a trace of `sec check` into waves for GTKWave.

    examples/trace_to_vcd.py LEFT RIGHT TRACE >OUT.vcd

runs both netlists along the trace and writes a VCD file: the inputs, then for each side its outputs and latches. Names are
those of the symbol lines, and bits named `x[0]`, `x[1]` and so on are drawn as one vector; what has no name is called by its
position, as i0, l0, o0. The signal `differs` is 1 in the cycles in which some outputs differ. A cycle lasts 10 ns.
"""
import re
import sys

sys.dont_write_bytecode = True
import aiger


def rows_of(path, left, right):
    """The start bits of both sides, and a row of input bits for each cycle."""
    with open(path, encoding="ascii") as file:
        lines = file.read().split("\n")
    if lines[0] != "1" or "." not in lines:
        sys.exit(f"{path}: not a trace")
    starts, rows = lines[2], lines[3:lines.index(".")]
    if len(starts) != len(left.latches) + len(right.latches) or any(len(row) != len(left.inputs) for row in rows):
        sys.exit(f"{path}: not a trace of these two netlists")
    middle = len(left.latches)
    return bits(starts[:middle]), bits(starts[middle:]), [bits(row) for row in rows]


def bits(text):
    return [int(letter) for letter in text]


def run(net, start, rows):
    """For each cycle the values of all inputs, latches and outputs."""
    state, cycles = start, []
    for row in rows:
        values = {0: 0}
        values.update((literal >> 1, bit) for literal, bit in zip(net.inputs, row))
        values.update((latch[0] >> 1, bit) for latch, bit in zip(net.latches, state))

        def of(literal):
            return values[literal >> 1] ^ (literal & 1)

        for own, one, two in net.gates:
            values[own >> 1] = of(one) & of(two)
        cycles.append({"i": row, "l": state, "o": [of(literal) for literal in net.outputs]})
        state = [of(latch[1]) for latch in net.latches]
    return cycles


def name_of(net, kind, place, shown):
    """Of several names in one symbol line, as yosys writes them, the first that isn't shown elsewhere."""
    names = net.names.get((kind, place), f"{kind}{place}").split(" ")
    return next((name for name in names if name not in shown), names[0])


def vectors(net, kind, count):
    """Name to the positions of its bits, the highest first, with the range to show, or none for a single bit."""
    found = {}
    shown = {net.names.get(("o", place)) for place in range(len(net.outputs))} if kind == "l" else set()
    for place in range(count):
        name = name_of(net, kind, place, shown)
        match = re.fullmatch(r"(.*\S)\[(\d+)\]", name)
        stem, index = (match[1], int(match[2])) if match else (name, None)
        if index in found.get(stem, {}):
            stem = f"{name}_{kind}{place}"
        found.setdefault(stem, {})[index] = place
    for stem, places in found.items():
        if None in places:
            for index, place in places.items():
                yield (stem if index is None else f"{stem}_{index}"), [place], ""
        elif len(places) == 1 + max(places) - min(places):
            order = sorted(places, reverse=True)
            yield stem, [places[index] for index in order], f" [{order[0]}:{order[-1]}]"
        else:
            for index, place in places.items():
                yield f"{stem}_{index}", [place], ""


def code(number):
    """The short name of a signal in a VCD file."""
    text = ""
    while True:
        text += chr(33 + number % 94)
        number //= 94
        if number == 0:
            return text


def signals(left, right):
    """(scope, kind, name, range, side, positions) of each wave."""
    for scope, side, net, kinds in (("inputs", 0, left, "i"), ("left", 0, left, "ol"), ("right", 1, right, "ol")):
        counts = {"i": len(net.inputs), "o": len(net.outputs), "l": len(net.latches)}
        for kind in kinds:
            for name, places, shown in vectors(net, kind, counts[kind]):
                yield scope, kind, name, shown, side, places


def declared(waves):
    """The head of the file: a scope for the inputs, and one for each side, with its registers in a scope of their own."""
    lines = ["$timescale 1 ns $end", "$scope module trace $end", f"$var wire 1 {code(0)} differs $end"]
    for scope in ("inputs", "left", "right"):
        lines.append(f"$scope module {scope} $end")
        for inner in (False,) if scope == "inputs" else (False, True):
            if inner:
                lines.append("$scope module registers $end")
            for number, (own, kind, name, shown, _, places) in enumerate(waves, 1):
                if own == scope and (kind == "l") == inner:
                    lines.append(f"$var wire {len(places)} {code(number)} {name}{shown} $end")
            if inner:
                lines.append("$upscope $end")
        lines.append("$upscope $end")
    return lines + ["$upscope $end", "$enddefinitions $end"]


def vcd(left, right, runs):
    waves = list(signals(left, right))
    lines, before = declared(waves), {}
    for cycle, sides in enumerate(zip(*runs)):
        lines.append(f"#{10 * cycle}")
        now = {code(0): str(int(sides[0]["o"] != sides[1]["o"]))}
        for number, (_, kind, _, _, side, places) in enumerate(waves, 1):
            word = "".join(str(sides[side][kind][place]) for place in places)
            now[code(number)] = word if len(word) == 1 else f"b{word} "
        lines += [f"{word}{name}" for name, word in now.items() if before.get(name) != word]
        before = now
    return "\n".join(lines + [f"#{10 * len(runs[0])}"])


def main():
    if len(sys.argv) != 4:
        sys.exit(__doc__)
    left, right = aiger.read(sys.argv[1]), aiger.read(sys.argv[2])
    left_start, right_start, rows = rows_of(sys.argv[3], left, right)
    print(vcd(left, right, (run(left, left_start, rows), run(right, right_start, rows))))


main()
