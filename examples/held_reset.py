#!/usr/bin/env python3
"""Writes a wrapper that holds a module in reset in the first cycle and shows 0 at its outputs there (held_reset.v).

    examples/held_reset.py FILE.v.. TOP CLOCK RESET >TOP_held.v

writes the module TOP_held with TOP's ports, in TOP's order. RESET is `rst`, or `!rst_n` where it is active at 0. Needs `yosys`.
"""
import json
import subprocess
import sys
import tempfile


def ports_of(files, top):
    """Name, direction and width of each port, in order."""
    with tempfile.NamedTemporaryFile(suffix=".json") as file:
        words = f"read_verilog {' '.join(files)}; hierarchy -top {top}; proc; write_json {file.name}"
        subprocess.run(["yosys", "-q", "-p", words], check=True)
        ports = json.load(file)["modules"][top]["ports"]
    return [(name, port["direction"], len(port["bits"])) for name, port in ports.items()]


def wrapper(top, clock, reset, ports):
    low = reset.startswith("!")
    reset = reset.lstrip("!")
    names = [name for name, _, _ in ports]
    for name in (clock, reset):
        if name not in names:
            sys.exit(f"{top} has no port {name}: its ports are {', '.join(names)}")
    for name, direction, _ in ports:
        if direction not in ("input", "output") or name in ("started", "inside"):
            sys.exit(f"port {name}, {direction}: only input and output ports not called started or inside can be wrapped")
    heads, wires, links, masks = [], [], [], []
    for name, direction, width in ports:
        bits = f"[{width - 1}:0] " if width > 1 else ""
        heads.append(f"{direction} {bits}{name}")
        link = name
        if name == reset:
            link = f"{name} & started" if low else f"{name} | ~started"
        elif direction == "output":
            link = f"inside_{name}"
            wires.append(f"  wire {bits}{link};")
            masks.append(f"  assign {name} = {link} & {{{width}{{started}}}};")
        links.append(f".{name}({link})")
    lines = [f"module {top}_held({', '.join(heads)});", "  reg started = 0;",
             f"  always @(posedge {clock}) started <= 1;", *wires, f"  {top} inside({', '.join(links)});", *masks, "endmodule"]
    return "\n".join(lines)


if len(sys.argv) < 5:
    sys.exit(__doc__)
*FILES, TOP, CLOCK, RESET = sys.argv[1:]
print(wrapper(TOP, CLOCK, RESET, ports_of(FILES, TOP)))
