/*
 * A hub and two sensors on a driven bus: addresses are assigned, both sensors interrupt, and the hub serves them.
 *
 *     cc -std=c99 -o example example.c daskreyf.c && ./example PATH/i3cbus
 */
#include "daskreyf.h"

#include <stdio.h>
#include <stdlib.h>

enum { SENSORS = 2, RATE = 0x05 };

/* Ends the program where a call wasn't done. */
static void expect(const struct daskreyf *bus, enum daskreyf_result result)
{
    if (result == DASKREYF_OK)
        return;
    fprintf(stderr, "example: %s (%s)\n", daskreyf_result_name(result), daskreyf_why(bus));
    exit(1);
}

static void place_devices(struct daskreyf *bus)
{
    const struct daskreyf_identity hub = {.pid = 0x020400000001, .bcr = 0x46, .dcr = 0xC0};
    const struct daskreyf_identity light = {.pid = 0x020400000010, .bcr = 0x06, .dcr = 0x44};
    const struct daskreyf_identity heat = {.pid = 0x020400000020, .bcr = 0x06, .dcr = 0x45};

    expect(bus, daskreyf_main(bus, "hub", &hub));
    expect(bus, daskreyf_attach(bus, "light", &light, NULL));
    expect(bus, daskreyf_attach(bus, "heat", &heat, NULL));
}

static void assign_addresses(struct daskreyf *bus)
{
    struct daskreyf_assigned assigned[SENSORS];
    const uint8_t rate = RATE;
    size_t count;

    expect(bus, daskreyf_daa(bus, assigned, SENSORS, &count));
    for (size_t i = 0; i < count && i < SENSORS; i++) {
        printf("%012llX is at %02X\n", (unsigned long long)assigned[i].pid, assigned[i].address);
        expect(bus, daskreyf_write(bus, assigned[i].address, &rate, 1));
    }
}

/* Tells what the frame of the last call has served. */
static void tell_served(const struct daskreyf *bus)
{
    const struct daskreyf_served *served = daskreyf_served(bus);

    if (served->request == DASKREYF_RECORDED)
        printf("interrupt %lu: %02X with %02X\n", served->record.number, served->record.address,
            (unsigned)served->record.byte);
    else
        printf("no interrupt\n");
}

static void serve_all(struct daskreyf *bus)
{
    while (*daskreyf_asking(bus)) {
        printf("asking: %s\n", daskreyf_asking(bus));
        expect(bus, daskreyf_serve(bus));
        tell_served(bus);
    }
}

static void tell_bus(struct daskreyf *bus)
{
    struct daskreyf_state state;

    expect(bus, daskreyf_show(bus, &state));
    for (size_t i = 0; i < state.device_count; i++)
        printf("%s at %02X\n", state.devices[i].name, (unsigned)state.devices[i].address);
    printf("%lu records\n", state.record_count);
}

int main(int count, char **words)
{
    struct daskreyf *bus = daskreyf_start(count > 1 ? words[1] : "i3cbus");
    uint8_t registers[DASKREYF_REGISTERS];

    if (!bus) {
        perror("example");
        return 1;
    }
    place_devices(bus);
    assign_addresses(bus);
    expect(bus, daskreyf_raise(bus, "heat", 0x2A, NULL));
    expect(bus, daskreyf_raise(bus, "light", 0x11, NULL));
    serve_all(bus);
    expect(bus, daskreyf_read(bus, 0x09, registers, NULL));
    printf("light's rate is %02X\n", registers[0]);
    tell_bus(bus);
    if (daskreyf_serve(bus) == DASKREYF_OK)
        tell_served(bus);
    if (daskreyf_read(bus, 0x50, registers, NULL) != DASKREYF_OK)
        printf("refused: %s\n", daskreyf_why(bus));
    printf("status %d\n", daskreyf_close(bus));
    return 0;
}
