"""Many firmwares in one program: a driver that reads what devices do, and writes what they hold."""

from __future__ import annotations

import subprocess
from collections.abc import Sequence
from dataclasses import dataclass
from pathlib import Path

import helping  # noqa: F401  (it knows where fieldc is)

from fieldc.firmware import Firmware, header_text, source_text
from fieldc.language.tree import Local, Pair

STRICT = ("-std=c99", "-pedantic", "-Wall", "-Wextra", "-Wconversion", "-Wshadow", "-Werror")
SANITIZED = ("-O2", "-fsanitize=address,undefined", "-fno-sanitize-recover")
QUICK = {
    "gcc": ("-fsanitize-undefined-trap-on-error", "--param", "asan-instrumentation-with-call-threshold=0"),
    "clang": ("-mllvm", "-asan-instrumentation-with-call-threshold=0"),
}
"""Has the sanitizers check by calls, and gcc's by traps, which end the program without a word."""

FRONT = """\
#include <stdio.h>
#include <stdlib.h>
#include <string.h>
#include <stdbool.h>
#include <stdint.h>

typedef struct {
    size_t device_bytes;
    size_t message_bytes;
    void (*init)(void *device, uint16_t number);
    void (*fire)(void *device, const unsigned long *in, char *value);
    int (*hear)(void *device, uint16_t from, uint32_t weight, const uint8_t *message, size_t length);
    bool (*forget)(void *device, uint16_t neighbour);
    const uint8_t *(*send)(const void *device);
    bool (*hold)(void *device, const uint8_t *message, const uint8_t *kept);
    size_t kept_bytes;
} firmware;

"""
GLUE = """\
static void glue_@init(void *device, uint16_t number) { @init(device, number); }
static int glue_@hear(void *device, uint16_t from, uint32_t weight, const uint8_t *message, size_t length)
{ return (int)@hear(device, from, weight, message, length); }
static bool glue_@forget(void *device, uint16_t neighbour) { return @forget(device, neighbour); }
static const uint8_t *glue_@send(const void *device) { return @send(device); }
static bool glue_@hold(void *device, const uint8_t *message, const uint8_t *kept)
{ return @hold(device, message, kept); }
static void glue_@fire(void *device, const unsigned long *in, char *value)
{
%s}

"""
BACK = """\
enum { MOST = 512 };
static const char *const words[] = {"HEARD", "OLD", "FULL", "LENGTH", "PROGRAM", "VALUE", "LINK"};

typedef struct {
    void *state;
    long number;
    char value[256];
} device;

static void bytes_of(const char *text, uint8_t *bytes, size_t most)
{
    for (size_t i = 0; i < most; i++) {
        unsigned byte = 0;
        if (sscanf(text + 2 * i, "%2x", &byte) != 1) return;
        bytes[i] = (uint8_t)byte;
    }
}

static void fail(const char *what, long line) { printf("fault %s at action %ld\\n", what, line); exit(1); }

static int by_number(const void *a, const void *b)
{
    const long one = ((const device *)a)->number, other = ((const device *)b)->number;
    return (one > other) - (one < other);
}

/* What is done, line by line: p I takes the firmware I, e ends and writes all values, i begins a device, r gives it
 * an export, f fires it, h lets it hear a message, g lets it forget a neighbour. */
int main(void)
{
    static device devices[MOST];
    static char line[65536];
    static char text[2][32768];
    static uint8_t held[2][16384];
    const firmware *program = NULL;
    uint8_t **messages = NULL;
    long count = 0, room = 0, used = 0, at = 0;
    while (fgets(line, sizeof line, stdin)) {
        long w[6] = {0};
        char word[16] = "";
        at++;
        if (line[0] == 'p') {
            program = &firmwares[atol(line + 2)];
        } else if (line[0] == 'i') {
            sscanf(line + 2, "%ld %ld", &w[0], &w[1]);
            if (w[0] >= used) used = w[0] + 1;
            free(devices[w[0]].state);
            devices[w[0]].state = malloc(program->device_bytes);
            memset(devices[w[0]].state, 0xA5, program->device_bytes);
            program->init(devices[w[0]].state, (uint16_t)w[1]);
            if (program->send(devices[w[0]].state) != NULL) fail("message before a firing", at);
            devices[w[0]].number = w[1];
            strcpy(devices[w[0]].value, "-");
        } else if (line[0] == 'r') {
            device *it = &devices[atol(line + 2)];
            sscanf(line + 2, "%*d %32767s %32767s %255s", text[0], text[1], it->value);
            bytes_of(text[0], held[0], strlen(text[0]) / 2);
            bytes_of(text[1], held[1], strlen(text[1]) / 2);
            if (!program->hold(it->state, held[0], held[1])) fail("hold", at);
        } else if (line[0] == 'f') {
            unsigned long in[8] = {0};
            char *part = line + 2;
            const long slot = strtol(part, &part, 10);
            for (int i = 0; i < 8; i++) in[i] = strtoul(part, &part, 10);
            device *it = &devices[slot];
            it->value[0] = 0;
            program->fire(it->state, in, it->value);
            if (count == room) messages = realloc(messages, (size_t)(room = 2 * room + 64) * sizeof *messages);
            messages[count] = malloc(program->message_bytes);
            memcpy(messages[count++], program->send(it->state), program->message_bytes);
        } else if (line[0] == 'h') {
            sscanf(line + 2, "%ld %ld %ld %ld %15s %ld %ld", &w[0], &w[1], &w[2], &w[3], word, &w[4], &w[5]);
            const size_t length = program->message_bytes - (size_t)w[4];
            uint8_t *bytes = malloc(length);
            memcpy(bytes, messages[w[3]], length);
            if (w[5] >= 0) bytes[w[5]] ^= 0x40;
            const int status = program->hear(devices[w[0]].state, (uint16_t)w[1], (uint32_t)w[2], bytes, length);
            free(bytes);
            if (strcmp(words[status], word) != 0) fail(words[status], at);
        } else if (line[0] == 'g') {
            sscanf(line + 2, "%ld %ld %ld", &w[0], &w[1], &w[2]);
            if (program->forget(devices[w[0]].state, (uint16_t)w[1]) != (w[2] != 0)) fail("forget", at);
        } else if (line[0] == 'e') {
            qsort(devices, (size_t)used, sizeof *devices, by_number);
            for (long i = 0; i < used; i++) printf("%ld %s\\n", devices[i].number, devices[i].value);
            printf("end\\n");
            for (long i = 0; i < count; i++) free(messages[i]);
            for (long i = 0; i < used; i++) free(devices[i].state);
            free(messages);
            memset(devices, 0, sizeof devices);
            messages = NULL;
            count = used = room = 0;
        }
    }
    return 0;
}
"""


def writes(value: str, local: Local) -> str:
    """Statements that write a value as `fc` does."""
    if isinstance(local, Pair):
        first, second = writes(value + ".first", local.first), writes(value + ".second", local.second)
        return f'    strcat(value, "(");\n{first}    strcat(value, ",");\n{second}    strcat(value, ")");\n'
    if local == "bool":
        return f'    strcat(value, {value} ? "true" : "false");\n'
    return f'    sprintf(value + strlen(value), "%lu", (unsigned long){value});\n'


def glue(firmware: Firmware) -> str:
    """Calls of one firmware, as all have them."""
    inputs = firmware.unfolded.inputs
    lines = ""
    if inputs:
        lines += "    @inputs given;\n"
        for place, one in enumerate(inputs):
            cast = f"(@number)in[{place}]" if one.bounds else f"in[{place}] != 0"
            lines += f"    given.{firmware.members[one.name]} = {cast};\n"
    else:
        lines += "    (void)in;\n"
    call = "@fire(device, &given)" if inputs else "@fire(device)"
    kind = firmware.spelled(f"{lines}    const {kind_of(firmware.result)} v = {call};\n{writes('v', firmware.result)}")
    return firmware.spelled(GLUE) % kind


def kind_of(local: Local) -> str:
    """The type of a value in C."""
    from fieldc.firmware.kinds import c_type

    return c_type(local)


@dataclass(frozen=True)
class Compiler:
    """A compiler with its options, and how what it makes is run."""

    command: str
    options: tuple[str, ...] = SANITIZED
    runner: tuple[str, ...] = ()


def quick(command: str, level: int = 2) -> Compiler:
    """A compiler for many programs: under its sanitizers as much is checked, in less time for it to write."""
    return Compiler(command, (f"-O{level}", "-fno-inline", *SANITIZED[1:], *QUICK.get(command, ())))


def written(firmwares: Sequence[Firmware], folder: Path, name: str, back: str = BACK) -> Path:
    """One C file with all firmwares and the driver; their headers are in the folder."""
    parts = [FRONT]
    rows = []
    for one in firmwares:
        (folder / f"{one.name}.h").write_text(header_text(one))
        parts += [f"#define {one.name.upper()}_TEST\n", source_text(one), glue(one)]
        calls = ", ".join(f"glue_{one.name}_{word}" for word in ("init", "fire", "hear", "forget", "send", "hold"))
        rows.append(
            f"    {{sizeof({one.name}_device), {one.name.upper()}_MESSAGE_BYTES, {calls}, {one.layout.kept_bytes}}},\n"
        )
    parts += ["static const firmware firmwares[] = {\n", *rows, "};\n\n", back]
    path = folder / f"{name}.c"
    path.write_text("\n".join(parts))
    return path


def compiled(path: Path, compiler: Compiler) -> Path:
    """The program of a C file. Fails with what the compiler says."""
    out = path.with_suffix("." + compiler.command.replace("-", "_"))
    words = [compiler.command, *STRICT, *compiler.options, f"-I{path.parent}", str(path), "-o", str(out)]
    done = subprocess.run(words, capture_output=True, text=True, check=False)
    if done.returncode != 0:
        raise AssertionError(f"{' '.join(words)}\n{done.stderr[:3000]}")
    return out


def driven(program: Path, actions: str, runner: Sequence[str] = (), words: Sequence[str] = ()) -> list[str]:
    """What the driver writes for each run. Fails where it, or a sanitizer, finds a fault."""
    done = subprocess.run([*runner, str(program), *words], input=actions, capture_output=True, text=True, check=False)
    if done.returncode != 0:
        raise AssertionError(f"status {done.returncode}\n{done.stdout[-300:]}\n{done.stderr[:3000]}")
    return done.stdout.split("end\n")[:-1]
