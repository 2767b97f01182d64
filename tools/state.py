"""The states of tools/test_board: texts for examples/board.c, and what readreply and the controllers are to print of
them. An importer sets sys.dont_write_bytecode first."""
import re
import struct
from pathlib import Path

ROOT = Path(__file__).resolve().parent.parent
READINGS = range(0x90, 0x99)
IN_C, IN_RUST = 0, 1

# Each name with the least and the most that the wire has room for, by the reply in which it stands.
FLAG, BYTE, TWO = (0, 1), (0, 255), (0, 65535)
FIELDS = {
    0x90: {"total_voltage": TWO, "current": (-30000, 35535), "soc_percent": TWO},
    0x91: {"highest_voltage": TWO, "highest_cell": BYTE, "lowest_voltage": TWO, "lowest_cell": BYTE},
    0x92: {"highest_temperature": (-128, 127), "highest_sensor": BYTE, "lowest_temperature": (-128, 127),
           "lowest_sensor": BYTE},
    0x93: {"mode": (0, 2), "charging_mosfet": FLAG, "discharging_mosfet": FLAG, "bms_cycles": BYTE,
           "capacity_ah": (0, 2**32 - 1)},
    0x94: {"cells": BYTE, "temperature_sensors": BYTE, "charger_running": FLAG, "load_running": FLAG,
           **{f"{way}{number}": FLAG for way in ["di", "do"] for number in range(1, 5)}, "cycles": TWO},
}
LISTS = {0x95: ("cell", TWO, 255), 0x96: ("sensor", (-40, 215), 255), 0x97: ("balance", FLAG, 48),
         0x98: ("fault", (0, 47), 48)}
COUNTED = {0x95: "cells", 0x96: "temperature_sensors", 0x97: "cells"}  # the name that says how many there are
MODES = ["Stationary", "Charging", "Discharging"]
FAULTS = re.findall(r'^ +"(\w+)",?$', (ROOT / "include/daly_faults.h").read_text(), re.M)


def f32(number):
    return struct.unpack("f", struct.pack("f", number))[0]


class State:
    def __init__(self, name, lines):
        self.name, self.lines = name, list(lines)
        self.named, self.lists = {}, {name: [] for name, *_ in LISTS.values()}
        for line in self.lines:
            word, value = line.split(" ", 1)
            if word in self.lists:
                self.lists[word].append(int(value))
            elif word != "reply":
                self.named[word] = int(value)

    @property
    def text(self):
        return "".join(line + "\n" for line in self.lines)

    def value(self, name):
        unnamed = {"cells": len(self.lists["cell"]), "temperature_sensors": len(self.lists["sensor"])}
        return self.named.get(name, unnamed.get(name, 0))

    def count(self, command):
        """The count that is asked for."""
        return self.value(COUNTED[command]) if command in COUNTED else 0

    def frames(self, command):
        """How many the board sends: for every cell and sensor that it has or says that it has."""
        if command not in [0x95, 0x96]:
            return 1
        many = max(self.count(command), len(self.lists[LISTS[command][0]]))
        return -(-many // {0x95: 3, 0x96: 7}[command])

    def listed(self, command):
        """The values of a list that are read; what is not named is 0."""
        values = self.lists[LISTS[command][0]]
        if command == 0x98:  # 17 stands before 16
            return sorted(set(values), key=lambda fault: {16: 16.8, 17: 16.2}.get(fault, fault))
        many = self.count(command) if command != 0x97 else min(48, max(1, self.count(command)))
        return (values + [0] * many)[:many]

    def reading(self, command):
        """What readreply is to print below its counts."""
        if command in LISTS:
            return [f"{LISTS[command][0]} {value}" for value in self.listed(command)]
        return [f"{name} {self.value(name)}" for name in FIELDS[command]]

    def told(self, command, side):
        """What a controller is to print."""
        if command in LISTS:
            return [told_of_list(command, place, value, side) for place, value in enumerate(self.listed(command), 1)]
        return [told_of_field(name, self.value(name), ends == FLAG) for name, ends in FIELDS[command].items()]

    def all_told(self, side):
        return [line for command in READINGS for line in [f"asked {command:x}", *self.told(command, side)]]


def flag(value):
    return "true" if value else "false"


def told_of_list(command, place, value, side):
    return {0x95: f"cell {place} {f32(value / 1000):.3f} V",
            0x96: f"sensor {place} {value} C",
            0x97: f"balance {place} {flag(value)}",
            0x98: f"fault {FAULTS[value % 48] if side == IN_RUST else value}"}[command]


def told_of_field(name, value, is_flag):
    if is_flag:
        return f"{name} {flag(value)}"
    if name == "mode":
        return f"mode {MODES[value]}"
    tenths, thousandths = f"{f32(value / 10):.1f}", f"{f32(f32(value) / 1000):.3f}"
    special = {"total_voltage": f"{name} {tenths} V", "current": f"{name} {tenths} A", "soc_percent": f"soc {tenths} %",
               "highest_voltage": f"{name} {thousandths} V", "lowest_voltage": f"{name} {thousandths} V",
               "highest_temperature": f"{name} {value} C", "lowest_temperature": f"{name} {value} C",
               "capacity_ah": f"capacity {thousandths} Ah"}
    return special.get(name, f"{name} {value}")


# ---- The states


def printed():
    """What readreply prints of captures, one behind the other."""
    names = ["90-example", *(f"{command:x}-clean" for command in READINGS[1:])]
    return [line for name in names for line in (ROOT / f"data/readreply/{name}.out").read_text().splitlines()]


def at_end(which):
    """Every value at its least (0) or at its most (1), and lists as short or as long as can be."""
    lines = [f"{name} {ends[which]}" for fields in FIELDS.values() for name, ends in fields.items()]
    for name, ends, most in LISTS.values():
        if name == "fault":
            lines += [f"fault {place}" for place in range(48 * which)]
        else:
            lines += [f"{name} {ends[which]}"] * (most if which else 1)
    return lines


def drawn(draw):
    """Lines in a drawn order, some names left out."""
    lines = [f"{name} {draw.randint(*ends)}" for fields in FIELDS.values() for name, ends in fields.items()
             if draw.random() < 0.9 and name not in COUNTED.values()]
    for name, ends, most in LISTS.values():
        lines += [f"{name} {draw.randint(*ends)}" for _ in range(draw.choice([0, 1, 7, 8, 16, 22, 47, most]))]
    lines.append(f"address {draw.choice([0, 1, 2, 255])}")
    draw.shuffle(lines)
    return lines


def states(draw):
    return [
        State("what readreply prints", printed()),
        State("all at the least", at_end(0)),
        State("all at the most", at_end(1)),
        State("nothing named", []),
        State("more cells told than named", ["address 2", "cells 9", "temperature_sensors 8", "cell 3301", "sensor 5"]),
        State("fewer cells told than named", ["cells 2", "temperature_sensors 1", *["cell 3301", "cell 3299"] * 3,
                                              *["sensor 25", "sensor -3"] * 8, "balance 1", "balance 1"]),
        State("a name twice", ["total_voltage 523", "total_voltage 524", "fault 17", "fault 17", "fault 16"]),
        *(State(f"drawn {number}", drawn(draw)) for number in range(1, 7)),
    ]


def changed(state):
    """Each value of a state made another, one at a time: the reply in which it stands, and the new state."""
    for command, fields in FIELDS.items():
        for name, ends in fields.items():
            value = state.value(name)
            other = value + 1 if value < ends[1] else value - 1
            yield command, State(f"{name} {value} is {other}", [*state.lines, f"{name} {other}"])
    for command, (name, ends, _) in LISTS.items():
        for place, line in enumerate(state.lines):
            if line.startswith(name + " "):
                other = (int(line.split()[1]) + 1 - ends[0]) % (ends[1] + 1 - ends[0]) + ends[0]
                yield command, State(f"{line} is {other}",
                                     [*state.lines[:place], f"{name} {other}", *state.lines[place + 1:]])
