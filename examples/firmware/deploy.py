#!/usr/bin/python3 -B
"""Deploys the hop count on forty processes of this machine, one a device, and compares what they hold with `fc stable`.

Each has a loopback address of its own, and they exchange datagrams of which some are lost, repeated or late. All begin
with rubbish, and some are ended on the way and started again. It ends when every device has fired often enough since
the last value changed, or after so many seconds.
"""

from __future__ import annotations

import argparse
import json
import os
import random
import selectors
import socket
import subprocess
import sys
import tempfile
import time
from dataclasses import dataclass
from pathlib import Path
from typing import Any

HERE = Path(__file__).resolve().parent
sys.path.insert(0, str(HERE.parent.parent / "python"))

import fieldc  # noqa: E402
from fieldc.firmware import firmware_of, header_text, source_text  # noqa: E402

QUIET = 60
"""So often each device fires after the last change before all count as quiet."""
SECONDS = 100.0
RESTARTS = 6
WARNINGS = ("-std=c99", "-pedantic", "-Wall", "-Wextra", "-Wconversion", "-Wshadow", "-Werror", "-O2")


def compiled(folder: Path, program: str) -> Path:
    """The program of one device."""
    firmware = firmware_of(program, "hops")
    (folder / "hops.h").write_text(header_text(firmware))
    (folder / "hops.c").write_text("#define HOPS_TEST\n" + source_text(firmware))
    out = folder / "device"
    words = ["gcc", *WARNINGS, f"-I{folder}", str(HERE / "device.c"), str(folder / "hops.c"), "-o", str(out)]
    subprocess.run(words, check=True)
    return out


def free_port() -> int:
    """A port that nobody has."""
    with socket.socket(socket.AF_INET, socket.SOCK_DGRAM) as probe:
        probe.bind(("127.0.0.1", 0))
        return int(probe.getsockname()[1])


@dataclass
class Device:
    """A device and its process: how often it fired, when that was at the last change of all, and what it holds."""

    number: int
    source: bool
    neighbours: list[int]
    process: subprocess.Popen[bytes] | None = None
    fired: int = 0
    before: int = 0
    value: int = -1
    rest: bytes = b""


@dataclass(frozen=True)
class Change:
    """A device has another value, so many seconds after the begin."""

    seconds: float
    device: int
    value: int


class Deployment:
    """All devices."""

    def __init__(self, program: Path, scene: dict[str, Any], seed: int) -> None:
        self.program, self.seed, self.port = program, seed, free_port()
        self.starts = 0
        self.begun = time.monotonic()
        self.restarted = 0.0
        self.changes: list[Change] = []
        self.selector = selectors.DefaultSelector()
        near: dict[int, list[int]] = {int(one["id"]): [] for one in scene["devices"]}
        for a, b, _ in scene["links"]:
            near[a].append(b)
            near[b].append(a)
        self.devices = [
            Device(int(one["id"]), bool(one["inputs"]["src"]), near[one["id"]]) for one in scene["devices"]
        ]

    def start(self, device: Device) -> None:
        """Starts a device, or starts it again."""
        self.starts += 1
        words = [device.number, int(device.source), self.port, 1000 * self.seed + self.starts, *device.neighbours]
        device.process = subprocess.Popen(
            [str(self.program), *map(str, words)], stdin=subprocess.PIPE, stdout=subprocess.PIPE
        )
        device.fired, device.value, device.rest = 0, -1, b""
        assert device.process.stdout is not None
        self.selector.register(device.process.stdout, selectors.EVENT_READ, device)
        self.changed()

    def stop(self, device: Device, kill: bool) -> None:
        """Ends a device: in the middle of whatever it does, or as its input ends."""
        process = device.process
        assert process is not None and process.stdin is not None and process.stdout is not None
        self.selector.unregister(process.stdout)
        if kill:
            process.kill()
        process.stdin.close()
        process.wait(20)
        process.stdout.close()
        device.process = None

    def changed(self) -> None:
        """Some value is another one: all count their firings from here."""
        for device in self.devices:
            device.before = device.fired

    def listen(self) -> None:
        """Takes what the devices tell."""
        for key, _ in self.selector.select(0.2):
            device: Device = key.data
            content = os.read(key.fd, 65536)
            if not content:
                raise RuntimeError(f"device {device.number} has ended")
            *lines, device.rest = (device.rest + content).split(b"\n")
            for line in lines:
                fired, value = map(int, line.split())
                device.fired = fired
                if value != device.value:
                    device.value = value
                    self.changes.append(Change(time.monotonic() - self.begun, device.number, value))
                    self.changed()

    def wait(self, firings: int, end: float) -> None:
        """Waits until each device has fired so often since the last change."""
        while min(device.fired - device.before for device in self.devices) < firings:
            if time.monotonic() > end:
                raise TimeoutError(f"not quiet after {SECONDS:.0f} s")
            self.listen()


@dataclass(frozen=True)
class Outcome:
    """What each device holds, what `fc stable` writes, how many processes there were, and what changed when."""

    found: dict[int, int]
    wanted: dict[int, int]
    starts: int
    changes: list[Change]
    restarted: float


def deployed(seed: int) -> Outcome:
    """A deployment from begin to end."""
    program, scene = (HERE / "hops.fc").read_text(), json.loads((HERE / "network.json").read_text())
    with tempfile.TemporaryDirectory() as folder:
        all_ = Deployment(compiled(Path(folder), program), scene, seed)
        end = time.monotonic() + SECONDS
        try:
            for device in all_.devices:
                all_.start(device)
            all_.wait(10, end)
            all_.restarted = time.monotonic() - all_.begun
            for device in random.Random(seed).sample(all_.devices, RESTARTS):
                all_.stop(device, True)
                all_.start(device)
            all_.wait(QUIET, end)
            found = {device.number: device.value for device in all_.devices}
        finally:
            for device in all_.devices:
                if device.process is not None:
                    all_.stop(device, False)
    wanted = {number: int(str(value)) for number, value in fieldc.stable(program, scene).values.items()}
    return Outcome(found, wanted, all_.starts, all_.changes, all_.restarted)


def draw(outcome: Outcome, path: str) -> None:
    """Draws how many devices hold their final value, second by second."""
    import matplotlib

    matplotlib.use("Agg")
    from matplotlib import pyplot

    held: dict[int, int] = {}
    first = outcome.changes[0].seconds
    seconds, right = [0.0], [0]
    for change in outcome.changes:
        held[change.device] = change.value
        seconds.append(change.seconds - first)
        right.append(sum(outcome.wanted[device] == value for device, value in held.items()))
    figure, axes = pyplot.subplots(figsize=(8, 3.6))
    axes.step([*seconds, seconds[-1] * 1.1], [*right, right[-1]], where="post", color="#2060a0")
    axes.axvline(outcome.restarted - first, color="#c04020", linestyle="--")
    axes.annotate(f" {RESTARTS} devices start again", (outcome.restarted - first, 2), color="#c04020")
    axes.set(xlabel="seconds", ylabel="devices with their final value", xlim=(0, None))
    axes.set_ylim(0, len(outcome.wanted) + 1)
    figure.tight_layout()
    figure.savefig(path, dpi=110)


def main() -> int:
    parser = argparse.ArgumentParser(description=__doc__, formatter_class=argparse.RawDescriptionHelpFormatter)
    parser.add_argument("--seed", type=int, default=1, help="of losses, delays and rubbish (1)")
    parser.add_argument("--picture", metavar="FILE", help="draws how many devices hold their final value when")
    words = parser.parse_args()
    outcome = deployed(words.seed)
    for number, value in sorted(outcome.found.items()):
        print(number, value)
    if words.picture:
        draw(outcome, words.picture)
    same, all_ = sum(outcome.found[number] == value for number, value in outcome.wanted.items()), len(outcome.wanted)
    print(f"{same} of {all_} devices hold what fc stable writes; {outcome.starts} processes", file=sys.stderr)
    return 0 if same == all_ else 1


if __name__ == "__main__":
    sys.exit(main())
