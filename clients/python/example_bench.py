#!/usr/bin/env python3
"""usage: example_bench.py PROGRAM

A bench that runs scripts of devices under test, which nobody trusts, by the server PROGRAM
(tclsafe_serve).
"""
import sys

from tclsafe import Cut, Refused, Server, TclError

READINGS = {"supply": 5.02, "output": 3.31}

DEVICE = """
proc check {channel low high} {
    set value [measure $channel]
    note "$channel is $value"
    expr {$value >= $low && $value <= $high}
}
set passed [expr {[check supply 4900 5100] && [check output 3200 3400]}]
"""


def measure(caller, channel):
    """Measures a channel, in millivolts."""
    if channel not in READINGS:
        raise TclError(f"no channel {channel}")
    return round(1000 * READINGS[channel])


def note(caller, text):
    """Takes a note, and counts the notes in the interpreter of the device before it answers."""
    count = caller.evaluate("incr ::notes")
    print(f"  note {count}: {text}")
    return count


def power_off(caller):
    """Ends whatever the device is doing."""
    raise Cut("the device was switched off")


def ending(device, script):
    """Returns what a script of a device comes to, as a line of text."""
    try:
        return f"result {device.evaluate(script, limit=100_000)}"
    except (TclError, Cut, Refused) as error:
        return f"{type(error).__name__} {error}"


def main():
    with Server(sys.argv[1]) as server:
        tree = server.make_tree()
        device = tree.root.create("device", safe=True)
        device.limit_count(1000)
        for function in (measure, note, power_off):
            device.alias(function.__name__, function)

        print("the device checks itself:")
        before = device.save()
        record = device.watch(DEVICE, limit=100_000)
        after = device.save()
        print("passed:", record.result())
        print(*record.lines, sep="\n")

        print("the record, replayed to the device as it was before, by itself:")
        replay = before.replay(record)
        print(replay.outcome, "- the same calls:", replay.same)
        print("the same device:", replay.saved.same(after))

        print("other scripts:")
        for script in (
            "measure engine",
            "open /etc/passwd",
            "power_off",
            "while 1 {}",
            "set passed 1",
        ):
            print(f"  {script}: {ending(device, script)}")
        print("steps counted:", device.look()["count"])


if __name__ == "__main__":
    main()
