/* One device of a deployment on the loopback addresses of this machine:
 *
 *     device NUMBER SOURCE PORT SEED NEIGHBOUR ..
 *
 * It begins with rubbish, fires now and then, and sends its message to each neighbour as a datagram, of which by the seed
 * some are lost, some repeated and some late. Behind each firing it writes a line `FIRED VALUE`. When standard input ends it
 * ends too, or after so many firings or seconds. */
#define _DEFAULT_SOURCE
#include <arpa/inet.h>
#include <netinet/in.h>
#include <poll.h>
#include <stdio.h>
#include <stdlib.h>
#include <string.h>
#include <sys/socket.h>
#include <unistd.h>

#define HOPS_TEST
#include "hops.h"

enum { MOST_FIRINGS = 100000, MOST_SECONDS = 240, LOST = 30, REPEATED = 10, LATE = 20, LATEST = 8, SLOTS = 256 };

/* A datagram that is late: to whom, and at which firing it is sent. */
typedef struct {
    int to;
    long due;
    uint8_t message[HOPS_MESSAGE_BYTES];
} waiting;

static uint32_t seed;

/* A number from 0 to below `most`, by the seed. */
static uint32_t dice(uint32_t most)
{
    seed ^= seed << 13;
    seed ^= seed >> 17;
    seed ^= seed << 5;
    return seed % most;
}

static void fail(const char *what)
{
    perror(what);
    exit(2);
}

/* The address of a device: 127.0.1.1 for the device 0. */
static struct sockaddr_in address_of(int device, int port)
{
    struct sockaddr_in address = {0};
    address.sin_family = AF_INET;
    address.sin_port = htons((uint16_t)port);
    address.sin_addr.s_addr = htonl(0x7F000101u + (uint32_t)device);
    return address;
}

/* A message of this program with any bits behind its head. */
static void rubbish(uint8_t *message, const hops_device *device)
{
    memcpy(message, device->message, HOPS_HEAD_BYTES);
    message[2] = (uint8_t)dice(256);
    for (size_t byte = HOPS_HEAD_BYTES; byte < HOPS_MESSAGE_BYTES; byte++) {
        message[byte] = (uint8_t)dice(256);
    }
}

/* A device that holds any export, and has heard any of its neighbours. */
static void begin(hops_device *device, int number, int count, const int *neighbours)
{
    uint8_t message[HOPS_MESSAGE_BYTES];
    uint8_t kept[sizeof device->kept];
    hops_init(device, (uint16_t)number);
    do {
        rubbish(message, device);
        kept[0] = (uint8_t)dice(256);
    } while (!hops_hold(device, message, kept));
    for (int i = 0; i < count; i++) {
        do {
            rubbish(message, device);
        } while (hops_hear(device, (uint16_t)neighbours[i], 1, message, sizeof message) != HOPS_HEARD);
    }
}

static void transmit(int net, int to, int port, const uint8_t *message)
{
    const struct sockaddr_in address = address_of(to, port);
    (void)sendto(net, message, HOPS_MESSAGE_BYTES, 0, (const struct sockaddr *)&address, sizeof address);
}

/* Sends a message to a neighbour, or loses it, sends it twice, or puts it aside. */
static void broadcast(int net, int to, int port, const uint8_t *message, long fired, waiting *aside)
{
    const uint32_t fate = dice(100);
    if (fate < LOST) {
        return;
    }
    if (fate >= LOST + REPEATED && fate < LOST + REPEATED + LATE) {
        waiting *slot = &aside[dice(SLOTS)];
        slot->to = to;
        slot->due = fired + 1 + (long)dice(LATEST);
        memcpy(slot->message, message, HOPS_MESSAGE_BYTES);
        return;
    }
    transmit(net, to, port, message);
    if (fate < LOST + REPEATED) {
        transmit(net, to, port, message);
    }
}

/* Hears what comes for some milliseconds; false if standard input ended. */
static bool listen_for(int net, int milliseconds, hops_device *device)
{
    struct pollfd both[2] = {{net, POLLIN, 0}, {0, POLLIN, 0}};
    if (poll(both, 2, milliseconds) < 0) {
        fail("poll");
    }
    if (both[1].revents != 0) {
        return false;
    }
    uint8_t bytes[2 * HOPS_MESSAGE_BYTES];
    struct sockaddr_in from;
    socklen_t length = sizeof from;
    ssize_t count;
    while ((count = recvfrom(net, bytes, sizeof bytes, MSG_DONTWAIT, (struct sockaddr *)&from, &length)) >= 0) {
        const uint32_t sender = ntohl(from.sin_addr.s_addr) - 0x7F000101u;
        (void)hops_hear(device, (uint16_t)sender, 1, bytes, (size_t)count);
    }
    return true;
}

int main(int count, char **words)
{
    if (count < 5) {
        return 2;
    }
    static waiting aside[SLOTS];
    static int neighbours[HOPS_NEIGHBOURS];
    const int number = atoi(words[1]), port = atoi(words[3]), near = count - 5;
    const hops_inputs inputs = {atoi(words[2]) != 0};
    hops_device device;
    seed = (uint32_t)strtoul(words[4], NULL, 10) * 2654435761u | 1u;
    for (int i = 0; i < near && i < HOPS_NEIGHBOURS; i++) {
        neighbours[i] = atoi(words[5 + i]);
    }
    const int net = socket(AF_INET, SOCK_DGRAM, 0);
    const struct sockaddr_in here = address_of(number, port);
    if (net < 0 || bind(net, (const struct sockaddr *)&here, sizeof here) < 0) {
        fail("bind");
    }
    alarm(MOST_SECONDS);
    begin(&device, number, near, neighbours);
    for (long fired = 1; fired < MOST_FIRINGS; fired++) {
        if (!listen_for(net, 5 + (int)dice(10), &device)) {
            return 0;
        }
        const hops_number value = hops_fire(&device, &inputs);
        printf("%ld %lu\n", fired, (unsigned long)value);
        fflush(stdout);
        for (int i = 0; i < near; i++) {
            broadcast(net, neighbours[i], port, hops_send(&device), fired, aside);
        }
        for (int i = 0; i < SLOTS; i++) {
            if (aside[i].due == fired) {
                transmit(net, aside[i].to, port, aside[i].message);
            }
        }
    }
    return 3;
}
