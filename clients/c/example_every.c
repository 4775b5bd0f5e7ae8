/*
 * A sensor hub that meets every order of what its sensors do. If no interrupt is lost in any order, the program says so.
 * Otherwise it prints an order in which one is lost, as a script that `i3cbus run` replays.
 *
 *     cc -std=c99 -o example_every example_every.c daskreyf.c
 *     ./example_every PATH/i3cbus ../every.i3c --careless
 *
 * Any frame may serve an interrupt in its header. A careless hub forgets that where it writes.
 */
#include "daskreyf.h"

#include <stdio.h>
#include <string.h>

enum { RATE = 0x05, SENSORS = 2, PENDING = 8 };

struct hub {
    struct daskreyf *bus;
    bool is_careless;
    struct daskreyf_record pending[PENDING]; /* interrupts that are recorded and not handled yet */
    size_t pending_count;
};

static void notice(struct hub *hub);

static void set_rate(struct hub *hub, uint8_t address)
{
    const uint8_t rate = RATE;

    /* where nobody answers the sensor is gone, and the frame has served a request for all that */
    daskreyf_write(hub->bus, address, &rate, 1);
    if (!hub->is_careless)
        notice(hub);
}

/* Gives each sensor an address and a rate, until no device is without. */
static void assign(struct hub *hub)
{
    struct daskreyf_assigned assigned[SENSORS];
    size_t count;

    do {
        daskreyf_daa(hub->bus, assigned, SENSORS, &count);
        for (size_t i = 0; i < count && i < SENSORS; i++)
            set_rate(hub, assigned[i].address);
    } while (count > 0);
}

/* Takes up what the last frame has served. */
static void notice(struct hub *hub)
{
    const struct daskreyf_served *served = daskreyf_served(hub->bus);

    if (served->request == DASKREYF_RECORDED && hub->pending_count < PENDING)
        hub->pending[hub->pending_count++] = served->record;
    else if (served->request == DASKREYF_JOINING)
        assign(hub);
}

/* Reads the sensor of the first pending interrupt, which is handled then. */
static void handle_first(struct hub *hub)
{
    const struct daskreyf_record record = hub->pending[0];
    uint8_t registers[DASKREYF_REGISTERS];

    hub->pending_count--;
    memmove(hub->pending, hub->pending + 1, hub->pending_count * sizeof record);
    daskreyf_read(hub->bus, record.address, registers, NULL);
    notice(hub);
    daskreyf_forget(hub->bus, record.number);
}

static bool serve(struct hub *hub)
{
    if (!*daskreyf_asking(hub->bus) || daskreyf_serve(hub->bus) != DASKREYF_OK)
        return false;
    notice(hub);
    return true;
}

/* Handles interrupts and serves whoever asks, until nobody does. */
static void handle(struct hub *hub)
{
    do {
        while (hub->pending_count > 0)
            handle_first(hub);
    } while (serve(hub));
}

static void run(struct daskreyf *bus, bool is_careless)
{
    struct hub hub = {.bus = bus, .is_careless = is_careless};

    assign(&hub);
    handle(&hub);
    while (daskreyf_wait(bus) == 1)
        handle(&hub);
}

static void tell_script(const char *script)
{
    if (script)
        puts(script);
}

int main(int count, char **words)
{
    struct daskreyf *bus = count > 2 ? daskreyf_every(words[1], words[2]) : NULL;
    unsigned long orders;
    int status;

    if (!bus) {
        fputs("example_every: PROGRAM SCENE [--careless]\n", stderr);
        return 1;
    }
    while (daskreyf_next(bus))
        run(bus, count > 3 && !strcmp(words[3], "--careless"));
    if (*daskreyf_why(bus))
        tell_script(daskreyf_script(bus));
    orders = daskreyf_order(bus);
    status = daskreyf_close(bus);
    if (status == 0)
        printf("all %lu orders: no interrupt is lost\n", orders);
    return status != 0;
}
