#!/usr/bin/env python3
"""Lets firmwares hear any bytes, under sanitizers: random ones, and messages that were changed.

A message that isn't taken has to leave the device as it was, and one that is taken has to be one that some well-typed
export gives: `fc` judges some of those, as rows of the table of a network. It runs what the variable FC names.
"""

from __future__ import annotations

import argparse
import json
import random
import sys
import tempfile
import time
from collections.abc import Sequence
from dataclasses import dataclass
from pathlib import Path

import helping  # noqa: F401  (it knows where fieldc is)
from firmware_driver import Compiler, compiled, driven, written
from firmware_exports import of_message
from firmware_programs import made

from fieldc import program as fc
from fieldc.composing import least_network
from fieldc.firmware import Firmware, firmware_of
from fieldc.refusals import Call, Refusal, Section

KEPT = 100
FUZZ = r"""
enum { DEVICES = 4, TAKEN = @KEPT@ };

static uint64_t seed;

static uint32_t dice(uint32_t most)
{
    seed = seed * 6364136223846793005u + 1442695040888963407u;
    return (uint32_t)(seed >> 33) % most;
}

static void fail(const char *what) { printf("fault %s\n", what); exit(1); }

/* A message: any bytes, any bits behind a head, a true one, or one that was changed. */
static size_t message_of(const firmware *program, uint8_t *bytes, void *sender)
{
    const size_t length = program->message_bytes;
    const uint8_t *true_one = program->send(sender);
    const uint32_t kind = dice(6);
    size_t count = kind == 0 ? dice((uint32_t)length + 4) : kind == 1 ? length + dice(3) - 1 : length;
    for (size_t i = 0; i < count; i++) bytes[i] = (uint8_t)dice(256);
    if (kind == 0 || true_one == NULL) return count;
    memcpy(bytes, true_one, 2);
    if (kind == 2) return count;
    memcpy(bytes, true_one, count < length ? count : length);
    if (kind > 3) for (uint32_t flips = 1 + dice(4); flips > 0; flips--) {
        const uint32_t bit = 16 + dice(8 * (uint32_t)length - 16);
        bytes[bit / 8] ^= (uint8_t)(1u << bit % 8);
    }
    return count;
}

/* Words: the firmware, how many messages, the seed, the weight of links. Writes how many were taken, and some. */
int main(int count, char **words)
{
    if (count < 5) return 2;
    const firmware *program = &firmwares[atol(words[1])];
    const long most = atol(words[2]);
    void *devices[DEVICES];
    void *before = malloc(program->device_bytes);
    long taken = 0;
    int shown = 0;
    seed = strtoull(words[3], NULL, 10);
    for (int i = 0; i < DEVICES; i++) {
        devices[i] = malloc(program->device_bytes);
        program->init(devices[i], (uint16_t)i);
    }
    for (long at = 0; at < most; at++) {
        void *device = devices[dice(DEVICES)], *sender = devices[dice(DEVICES)];
        uint8_t *room = malloc(program->message_bytes + 4);
        const size_t length = message_of(program, room, sender);
        uint8_t *bytes = malloc(length);
        memcpy(bytes, room, length);
        free(room);
        memcpy(before, device, program->device_bytes);
        const uint32_t weight = dice(8) ? (uint32_t)atol(words[4]) : dice(0x7FFFFFFF);
        const int status = program->hear(device, (uint16_t)dice(12), weight, bytes, length);
        if (status != 0 && memcmp(before, device, program->device_bytes) != 0) fail("refused, and yet changed");
        if (status == 0) {
            taken++;
            if (shown < TAKEN && dice(8) == 0) {
                shown++;
                for (size_t i = 0; i < length; i++) printf("%02x", bytes[i]);
                printf("\n");
            }
        }
        free(bytes);
        if (dice(16) == 0) {
            unsigned long in[8];
            char value[256] = "";
            for (int i = 0; i < 8; i++) in[i] = dice(0x7FFFFFFF);
            program->fire(device, in, value);
        }
        if (dice(64) == 0) program->forget(device, (uint16_t)dice(12));
        if (dice(4096) == 0) program->init(device, (uint16_t)dice(40));
    }
    for (int i = 0; i < DEVICES; i++) free(devices[i]);
    free(before);
    printf("taken %ld\nend\n", taken);
    return 0;
}
""".replace(
    "@KEPT@", str(KEPT)
)


@dataclass(frozen=True)
class Heard:
    """How many messages were heard, how many of them taken, and how many of these `fc` judged."""

    heard: int = 0
    taken: int = 0
    judged: int = 0

    def __add__(self, other: Heard) -> Heard:
        return Heard(self.heard + other.heard, self.taken + other.taken, self.judged + other.judged)


def judge(firmware: Firmware, messages: Sequence[bytes], dice: random.Random) -> None:
    """Has `fc` judge whether messages are those of exports. Raises AssertionError where one isn't."""
    network = json.loads(least_network(firmware.text))
    inputs = network["devices"][0]["inputs"]
    network["devices"] = [{"id": number, "inputs": inputs} for number in range(max(1, len(messages)))]
    rows = [of_message(firmware, message, dice).row(number) for number, message in enumerate(messages)]
    network["table"] = {"format": 2, "rows": rows}
    parts = (Section("program", "", 1, firmware.text), Section("network", "", 1, json.dumps(network)))
    try:
        fc.answered(Call(("check",), parts))
    except Refusal as refusal:
        raise AssertionError(f"{refusal.line}\n{firmware.text}\n{[m.hex() for m in messages]}") from None


def fuzzed(firmwares: Sequence[Firmware], count: int, seed: int, compiler: Compiler, folder: Path) -> Heard:
    """Lets each firmware hear so many messages."""
    program = compiled(written(firmwares, folder, "fuzz", FUZZ), compiler)
    found = Heard()
    for place, firmware in enumerate(firmwares):
        given = (place, count, seed + place, firmware.unfolded.metric[0])
        answer = driven(program, "", (), tuple(map(str, given)))[0].splitlines()
        messages = [bytes.fromhex(line) for line in answer[:-1]]
        judge(firmware, messages, random.Random(seed))
        found += Heard(count, int(answer[-1].split()[1]), len(messages))
    return found


def main() -> int:
    parser = argparse.ArgumentParser(description=__doc__, formatter_class=argparse.RawDescriptionHelpFormatter)
    parser.add_argument("--seed", type=int, default=1, help="of the first program (1)")
    parser.add_argument("--programs", type=int, default=50, help="how many programs (50)")
    parser.add_argument("--messages", type=int, default=20_000, help="messages for each (20000)")
    parser.add_argument("--compiler", default="clang", help="the compiler (clang)")
    words = parser.parse_args()
    start = time.monotonic()
    seeds = range(words.seed, words.seed + words.programs)
    firmwares = [firmware_of(made(seed).text, f"p{place}", 8) for place, seed in enumerate(seeds)]
    with tempfile.TemporaryDirectory() as folder:
        found = fuzzed(firmwares, words.messages, words.seed, Compiler(words.compiler), Path(folder))
    print(
        f"{found.heard} messages, {found.taken} taken, {found.judged} of these judged, {time.monotonic() - start:.0f} s"
    )
    return 0


if __name__ == "__main__":
    try:
        sys.exit(main())
    except AssertionError as error:
        print(error)
        sys.exit(1)
