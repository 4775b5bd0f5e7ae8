/*
 * Programs that meet every order of a scene, for bench/every.
 *
 *     cc -std=c99 -O2 -Iclients/c -o orders bench/orders/orders.c clients/c/daskreyf.c
 *     ./orders PATH/i3cbus SCENE ten|hub|marks
 *
 * `ten` sends ten lines, whatever it is answered. `hub` serves, assigns and reads until nothing is left to happen. `marks` is the
 * hub, and says before each line by a mark all that it knows. Prints the number of orders.
 */
#include "daskreyf.h"

#include <stdio.h>
#include <string.h>

enum { PENDING = 8, MARK = 3 + 2 * PENDING };

struct hub {
    struct daskreyf *bus;
    bool has_marks;
    bool is_assigning; /* an assignment is open */
    bool is_asked;     /* a device wants to join */
    uint8_t pending[PENDING]; /* the addresses of interrupts that are recorded and not handled yet */
    size_t count;
};

/* Takes up what the last frame has served. */
static void notice(struct hub *hub)
{
    const struct daskreyf_served *served = daskreyf_served(hub->bus);

    if (served->request == DASKREYF_RECORDED && hub->count < PENDING)
        hub->pending[hub->count++] = served->record.address;
    else if (served->request == DASKREYF_JOINING)
        hub->is_asked = true;
}

/* Opens an assignment, or sends its next round; behind the last one it ends. */
static void assign(struct hub *hub)
{
    struct daskreyf_assigned assigned;
    enum daskreyf_round round;

    if (!hub->is_assigning) {
        hub->is_asked = false;
        hub->is_assigning = daskreyf_open(hub->bus) == DASKREYF_OK;
        notice(hub);
    } else if (daskreyf_round(hub->bus, &round, &assigned) != DASKREYF_OK || round != DASKREYF_ASSIGNED) {
        daskreyf_end(hub->bus);
        hub->is_assigning = false;
    }
}

/* Reads the sensor of the first pending interrupt, which is handled then. */
static void handle_first(struct hub *hub)
{
    uint8_t registers[DASKREYF_REGISTERS];
    const uint8_t address = hub->pending[0];

    hub->count--;
    memmove(hub->pending, hub->pending + 1, hub->count);
    daskreyf_read(hub->bus, address, registers, NULL);
    notice(hub);
}

/* Whether what is behind this is tried elsewhere. */
static bool is_known(struct hub *hub)
{
    char mark[MARK];
    int length = snprintf(mark, sizeof mark, "%d%d", hub->is_assigning, hub->is_asked);

    if (!hub->has_marks)
        return false;
    for (size_t i = 0; i < hub->count; i++)
        length += snprintf(mark + length, sizeof mark - (size_t)length, "%02x", hub->pending[i]);
    return daskreyf_mark(hub->bus, mark) != 0;
}

/* One line of the hub. False where its run is over. */
static bool step(struct hub *hub)
{
    if (hub->is_assigning || hub->is_asked)
        assign(hub);
    else if (hub->count > 0)
        handle_first(hub);
    else if (*daskreyf_asking(hub->bus) && daskreyf_serve(hub->bus) == DASKREYF_OK)
        notice(hub);
    else
        return daskreyf_wait(hub->bus) == 1;
    return true;
}

static void run_hub(struct daskreyf *bus, bool has_marks)
{
    struct hub hub = {.bus = bus, .has_marks = has_marks};

    while (!is_known(&hub) && step(&hub))
        ;
}

static void send_ten(struct daskreyf *bus)
{
    const uint8_t rate = 0x05;
    uint8_t registers[DASKREYF_REGISTERS], bcr;
    bool waits;

    daskreyf_serve(bus);
    daskreyf_read(bus, 0x09, registers, NULL);
    daskreyf_read(bus, 0x0A, registers, NULL);
    daskreyf_get_status(bus, 0x0A, &waits);
    daskreyf_serve(bus);
    daskreyf_write(bus, 0x0A, &rate, 1);
    daskreyf_get_bcr(bus, 0x0B, &bcr);
    daskreyf_list(bus);
    daskreyf_serve(bus);
    daskreyf_wait(bus);
}

int main(int argc, char **argv)
{
    unsigned long orders = 0;
    struct daskreyf *bus;

    if (argc != 4) {
        fprintf(stderr, "usage: orders PROGRAM SCENE ten|hub|marks\n");
        return 2;
    }
    bus = daskreyf_every_of(argv[1], argv[2], "--most", "1000000000");
    if (!bus) {
        perror("orders");
        return 2;
    }
    for (; daskreyf_next(bus); orders++) {
        if (!strcmp(argv[3], "ten"))
            send_ten(bus);
        else
            run_hub(bus, !strcmp(argv[3], "marks"));
    }
    printf("all %lu orders\n", orders);
    return daskreyf_close(bus);
}
