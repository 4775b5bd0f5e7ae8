/*
 * Tests of the client itself: each call once, the results of refusals, what is known when the bus is over, and every order of
 * small scenes. It writes files with names in `test_` into its folder.
 *
 *     cc -std=c99 -o test_daskreyf test_daskreyf.c daskreyf.c && ./test_daskreyf PATH/i3cbus
 */
#define _POSIX_C_SOURCE 200809L

#include "daskreyf.h"

#include <stdio.h>
#include <stdlib.h>
#include <string.h>
#include <sys/stat.h>
#include <sys/wait.h>

#define CHECK(holds) check((holds), #holds, __LINE__)

static int failures;

static void check(bool holds, const char *what, int line)
{
    if (holds)
        return;
    printf("line %d: not so: %s\n", line, what);
    failures++;
}

static const struct daskreyf_identity hub = {.pid = 0x020400000001, .bcr = 0x46, .dcr = 0xC0};
static const struct daskreyf_identity target = {.pid = 0x020400000010, .bcr = 0x06, .dcr = 0x44};
static const struct daskreyf_identity second = {.pid = 0x020400000030, .bcr = 0x46, .dcr = 0xC1};

static void test_an_assignment(struct daskreyf *bus)
{
    struct daskreyf_assigned assigned[1];
    unsigned slot = 0;
    size_t count = 0;

    CHECK(daskreyf_serve(bus) == DASKREYF_NO_BUS);
    CHECK(daskreyf_legacy(bus, "clock", 0x68, 0x40) == DASKREYF_OK);
    CHECK(!strcmp(daskreyf_text(bus), "clock legacy at 68"));
    CHECK(daskreyf_main(bus, "hub", &hub) == DASKREYF_OK);
    CHECK(daskreyf_main(bus, "hub", &hub) == DASKREYF_BUS_MADE);
    CHECK(daskreyf_attach(bus, "t", &target, &slot) == DASKREYF_OK && slot == 1);
    CHECK(daskreyf_attach(bus, "second", &second, &slot) == DASKREYF_OK && slot == 2);
    CHECK(daskreyf_attach(bus, "t", &target, &slot) == DASKREYF_NAME_TAKEN);
    CHECK(daskreyf_daa(bus, assigned, 1, &count) == DASKREYF_OK && count == 2);
    CHECK(assigned[0].address == 0x09 && assigned[0].pid == target.pid);
    CHECK(assigned[0].bcr == 0x06 && assigned[0].dcr == 0x44);
}

static void test_the_state(struct daskreyf *bus)
{
    struct daskreyf_state state;

    CHECK(daskreyf_show(bus, &state) == DASKREYF_OK);
    CHECK(state.active == 0x08 && state.device_count == 3 && state.legacy_count == 1 && state.record_count == 0);
    CHECK(!strcmp(state.devices[2].name, "second") && state.devices[2].address == 0x0A);
    CHECK(!strcmp(state.legacies[0].name, "clock") && state.legacies[0].address == 0x68);
}

static void test_requests(struct daskreyf *bus)
{
    const struct daskreyf_served *served = daskreyf_served(bus);
    static const char *const excepted[] = {"second", "t", "nobody"};
    unsigned long number = 0;

    CHECK(daskreyf_raise(bus, "t", DASKREYF_NO_BYTE, &number) == DASKREYF_BYTE_MISMATCH && number == 0);
    CHECK(daskreyf_raise(bus, "t", 0x100, &number) == DASKREYF_BAD_LINE && number == 0);
    CHECK(daskreyf_raise(bus, "t", 0x2A, &number) == DASKREYF_OK && number == 1);
    CHECK(!strcmp(daskreyf_asking(bus), "t"));
    CHECK(daskreyf_policy(bus, DASKREYF_ACCEPT_ROLES) == DASKREYF_OK);
    CHECK(daskreyf_serve(bus) == DASKREYF_OK && served->request == DASKREYF_TURNED_DOWN);
    CHECK(daskreyf_policy_of(bus, DASKREYF_JOINS | DASKREYF_ROLES) == DASKREYF_OK);
    CHECK(daskreyf_serve(bus) == DASKREYF_OK && served->request == DASKREYF_TURNED_DOWN);
    CHECK(daskreyf_policy_of(bus, 0) == DASKREYF_OK);
    CHECK(daskreyf_serve(bus) == DASKREYF_OK && served->request == DASKREYF_TURNED_DOWN);
    CHECK(daskreyf_policy_of(bus, 4) == DASKREYF_BAD_ARGUMENT);
    CHECK(daskreyf_policy_but(bus, DASKREYF_JOINS | DASKREYF_INTERRUPTS, excepted, 2) == DASKREYF_OK);
    CHECK(daskreyf_serve(bus) == DASKREYF_OK && served->request == DASKREYF_TURNED_DOWN);
    CHECK(daskreyf_policy_but(bus, DASKREYF_INTERRUPTS, excepted, 3) == DASKREYF_NO_NAME);
    CHECK(daskreyf_policy_but(bus, 0, excepted, 1) == DASKREYF_BAD_ARGUMENT);
    CHECK(daskreyf_policy_but(bus, DASKREYF_INTERRUPTS, excepted, 0) == DASKREYF_BAD_ARGUMENT);
    CHECK(daskreyf_serve(bus) == DASKREYF_OK && served->request == DASKREYF_TURNED_DOWN);
    CHECK(daskreyf_policy_of(bus, DASKREYF_JOINS | DASKREYF_ROLES | DASKREYF_INTERRUPTS) == DASKREYF_OK);
    CHECK(daskreyf_ask_role(bus, "second") == DASKREYF_OK);
    CHECK(!strcmp(daskreyf_asking(bus), "t"));
    CHECK(daskreyf_list(bus) == DASKREYF_OK && served->request == DASKREYF_RECORDED);
    CHECK(!strcmp(daskreyf_asking(bus), "second"));
    CHECK(served->record.number == 1 && served->record.slot == 1 && served->record.raised == 1);
    CHECK(served->record.address == 0x09 && served->record.byte == 0x2A);
    CHECK(!strcmp(daskreyf_text(bus), "recorded 1\ndone"));
    CHECK(daskreyf_serve(bus) == DASKREYF_OK && served->request == DASKREYF_WANTS_ROLE && served->address == 0x0A);
    CHECK(daskreyf_serve(bus) == DASKREYF_OK && served->request == DASKREYF_QUIET);
    CHECK(!*daskreyf_asking(bus));
}

static void test_kinds(struct daskreyf *bus)
{
    CHECK(daskreyf_disec(bus, DASKREYF_INTERRUPTS, 0x09) == DASKREYF_OK);
    CHECK(daskreyf_raise(bus, "t", 0x2B, NULL) == DASKREYF_MASKED);
    CHECK(daskreyf_enec(bus, DASKREYF_INTERRUPTS, DASKREYF_ALL) == DASKREYF_OK);
    CHECK(daskreyf_disec(bus, DASKREYF_JOINS, 0x50) == DASKREYF_NO_ANSWER);
    CHECK(!strcmp(daskreyf_why(bus), "NoAnswer 50"));
    CHECK(daskreyf_enec(bus, DASKREYF_JOINS, 0x80) == DASKREYF_BAD_LINE);
}

static void test_transfers(struct daskreyf *bus)
{
    const uint8_t bytes[DASKREYF_REGISTERS + 1] = {0x12, 0xAB};
    uint8_t registers[DASKREYF_REGISTERS] = {0};
    size_t count = 0;

    CHECK(daskreyf_write(bus, 0x68, bytes, 2) == DASKREYF_OK);
    CHECK(daskreyf_read(bus, 0x68, registers, &count) == DASKREYF_OK && count == DASKREYF_REGISTERS);
    CHECK(registers[0] == 0x12 && registers[1] == 0xAB && registers[2] == 0);
    CHECK(daskreyf_write(bus, 0x68, bytes, 0) == DASKREYF_OK);
    CHECK(daskreyf_write(bus, 0x68, bytes, DASKREYF_REGISTERS) == DASKREYF_OK);
    CHECK(daskreyf_write(bus, 0x68, bytes, DASKREYF_REGISTERS + 1) == DASKREYF_TOO_LONG);
}

static void test_a_cut_interrupt(struct daskreyf *bus)
{
    const struct daskreyf_served *served = daskreyf_served(bus);
    uint8_t registers[DASKREYF_REGISTERS];
    struct daskreyf_state state;

    CHECK(daskreyf_raise(bus, "t", 0x2C, NULL) == DASKREYF_OK);
    CHECK(daskreyf_cut(bus, "t", 9) == DASKREYF_OK);
    CHECK(daskreyf_read(bus, 0x09, registers, NULL) == DASKREYF_NO_ANSWER && served->request == DASKREYF_TORN);
    CHECK(daskreyf_show(bus, &state) == DASKREYF_OK && state.device_count == 2 && state.record_count == 1);
    CHECK(strstr(daskreyf_text(bus), "\nrecord 1 "));
    CHECK(daskreyf_show_from(bus, 1, &state) == DASKREYF_OK && strstr(daskreyf_text(bus), "\nrecord 1 "));
    CHECK(daskreyf_show_from(bus, 2, &state) == DASKREYF_OK && state.device_count == 2 && state.record_count == 1);
    CHECK(!strstr(daskreyf_text(bus), "\nrecord 1 "));
    CHECK(daskreyf_show_from(bus, 0, &state) == DASKREYF_BAD_LINE && state.device_count == 0);
    CHECK(daskreyf_forget(bus, 0) == DASKREYF_BAD_LINE);
    CHECK(daskreyf_forget(bus, 1) == DASKREYF_OK && daskreyf_forget(bus, 1) == DASKREYF_OK);
    CHECK(daskreyf_show(bus, &state) == DASKREYF_OK && state.device_count == 2 && state.record_count == 0);
    CHECK(!strstr(daskreyf_text(bus), "\nrecord 1 "));
}

static void test_a_join_by_rounds(struct daskreyf *bus)
{
    struct daskreyf_assigned assigned = {0};
    enum daskreyf_round round = DASKREYF_DONE;

    CHECK(daskreyf_attach(bus, "t", &target, NULL) == DASKREYF_OK);
    CHECK(daskreyf_ask_join(bus, "t") == DASKREYF_OK);
    CHECK(daskreyf_serve(bus) == DASKREYF_OK && daskreyf_served(bus)->request == DASKREYF_JOINING);
    CHECK(daskreyf_round(bus, &round, &assigned) == DASKREYF_NO_SESSION);
    CHECK(daskreyf_open(bus) == DASKREYF_OK);
    CHECK(daskreyf_round(bus, &round, &assigned) == DASKREYF_OK && round == DASKREYF_ASSIGNED);
    CHECK(assigned.address == 0x09 && assigned.pid == target.pid);
    CHECK(daskreyf_round(bus, &round, &assigned) == DASKREYF_OK && round == DASKREYF_DONE);
    CHECK(daskreyf_end(bus) == DASKREYF_OK);
    CHECK(daskreyf_open(bus) == DASKREYF_OK);
    CHECK(daskreyf_end(bus) == DASKREYF_OK);
}

static void test_a_handover(struct daskreyf *bus)
{
    struct daskreyf_state state;

    CHECK(daskreyf_handover(bus, 0x0A) == DASKREYF_LIST_STALE);
    CHECK(daskreyf_list(bus) == DASKREYF_OK);
    CHECK(daskreyf_handover(bus, 0x0A) == DASKREYF_OK);
    CHECK(daskreyf_show(bus, &state) == DASKREYF_OK && state.active == 0x0A);
    CHECK(daskreyf_drop(bus, "second") == DASKREYF_ACTIVE_STAYS);
    CHECK(daskreyf_drop(bus, "hub") == DASKREYF_OK);
    CHECK(daskreyf_reset(bus) == DASKREYF_OK);
    CHECK(daskreyf_show(bus, &state) == DASKREYF_OK && state.device_count == 2);
    CHECK(state.devices[0].address == DASKREYF_UNADDRESSED && state.devices[1].address == 0x0A);
}

static void test_lines(struct daskreyf *bus)
{
    char long_name[400];

    memset(long_name, 'x', sizeof long_name - 1);
    long_name[sizeof long_name - 1] = '\0';
    CHECK(daskreyf_line(bus, "") == DASKREYF_OK && !*daskreyf_text(bus));
    CHECK(daskreyf_line(bus, long_name) == DASKREYF_BAD_LINE);
    CHECK(daskreyf_line(bus, "serve\nserve") == DASKREYF_BAD_ARGUMENT);
    CHECK(daskreyf_drop(bus, long_name) == DASKREYF_BAD_ARGUMENT);
    CHECK(daskreyf_symbols(bus) == DASKREYF_OK && strstr(daskreyf_text(bus), "S 7E/W"));
    CHECK(daskreyf_reset(bus) == DASKREYF_OK && daskreyf_frames(bus, 1) == DASKREYF_OK);
    CHECK(!strcmp(daskreyf_text(bus), "S 7E/W+ 06.1 P"));
    CHECK(daskreyf_show_all(bus) == DASKREYF_OK && strstr(daskreyf_text(bus), "\nlist stale\nsession closed"));
}

static void test_static_addresses(const char *program)
{
    struct daskreyf *bus = daskreyf_start(program);
    struct daskreyf_state state;

    CHECK(bus);
    if (!bus)
        return;
    CHECK(daskreyf_declare(bus, 0x20, &target) == DASKREYF_OK && !strcmp(daskreyf_text(bus), "declared 20"));
    CHECK(daskreyf_declare(bus, 0x20, &second) == DASKREYF_LEGACY_TWICE);
    CHECK(daskreyf_declare(bus, 0x21, &target) == DASKREYF_IDENTITY_TWICE);
    CHECK(daskreyf_main(bus, "hub", &hub) == DASKREYF_OK);
    CHECK(daskreyf_attach(bus, "t", &target, NULL) == DASKREYF_OK);
    CHECK(daskreyf_setdasa(bus, 0x20, 0x08) == DASKREYF_BAD_ADDRESS && !strcmp(daskreyf_why(bus), "BadAddress 08"));
    CHECK(daskreyf_setdasa(bus, 0x20, 0x30) == DASKREYF_OK);
    CHECK(daskreyf_setnewda(bus, 0x30, 0x31) == DASKREYF_OK);
    CHECK(daskreyf_show(bus, &state) == DASKREYF_OK && state.devices[1].address == 0x31);
    CHECK(daskreyf_setdasa(bus, 0x20, 0x30) == DASKREYF_NO_ANSWER);
    CHECK(daskreyf_close(bus) == 1);
}

static void test_data(const char *program)
{
    const struct daskreyf_identity plain = {.pid = 0x020400000020, .bcr = 0x02, .dcr = 0x45};
    struct daskreyf *bus = daskreyf_start(program);
    struct daskreyf_assigned assigned[2];
    size_t count = 0;
    uint64_t pid = 0;
    uint16_t length = 0;
    uint8_t byte = 0, bytes[2] = {0xFF, 0xFF};
    bool waits = true;

    CHECK(bus && daskreyf_main(bus, "hub", &hub) == DASKREYF_OK);
    if (!bus)
        return;
    CHECK(daskreyf_attach(bus, "t", &target, NULL) == DASKREYF_OK);
    CHECK(daskreyf_attach(bus, "plain", &plain, NULL) == DASKREYF_OK);
    CHECK(daskreyf_daa(bus, assigned, 2, &count) == DASKREYF_OK && count == 2);
    CHECK(daskreyf_get_pid(bus, 0x09, &pid) == DASKREYF_OK && pid == target.pid);
    CHECK(daskreyf_get_bcr(bus, 0x09, &byte) == DASKREYF_OK && byte == 0x06);
    CHECK(daskreyf_get_dcr(bus, 0x09, &byte) == DASKREYF_OK && byte == 0x44);
    CHECK(daskreyf_get_mwl(bus, 0x09, &length) == DASKREYF_OK && length == 16);
    CHECK(daskreyf_get_mrl(bus, 0x09, &length, &byte) == DASKREYF_OK && length == 16 && byte == 1);
    CHECK(daskreyf_get_mrl(bus, 0x0A, &length, &byte) == DASKREYF_OK && length == 16 && byte == 0);
    CHECK(daskreyf_get_mrl(bus, 0x0A, &length, NULL) == DASKREYF_OK && length == 16);
    CHECK(daskreyf_get_mxds(bus, 0x09, bytes) == DASKREYF_OK && bytes[0] == 0 && bytes[1] == 0);
    CHECK(daskreyf_get_caps(bus, 0x09, bytes) == DASKREYF_OK && bytes[0] == 0 && bytes[1] == 1);
    CHECK(daskreyf_get_status(bus, 0x09, &waits) == DASKREYF_OK && !waits);
    CHECK(daskreyf_raise(bus, "t", 0x11, NULL) == DASKREYF_OK);
    CHECK(daskreyf_policy(bus, DASKREYF_ACCEPT_NONE) == DASKREYF_OK);
    CHECK(daskreyf_get_status(bus, 0x09, &waits) == DASKREYF_OK && waits);
    CHECK(daskreyf_served(bus)->request == DASKREYF_TURNED_DOWN);
    CHECK(daskreyf_policy(bus, DASKREYF_ACCEPT_ALL) == DASKREYF_OK);
    CHECK(daskreyf_get_status(bus, 0x09, &waits) == DASKREYF_OK && !waits);
    CHECK(daskreyf_served(bus)->request == DASKREYF_RECORDED && !strcmp(daskreyf_text(bus), "recorded 1\nstatus 0000"));
    CHECK(daskreyf_get_pid(bus, 0x50, &pid) == DASKREYF_NO_ANSWER);
    CHECK(daskreyf_cut(bus, "t", 27) == DASKREYF_OK && daskreyf_get_bcr(bus, 0x09, &byte) == DASKREYF_NO_END);
    CHECK(daskreyf_close(bus) == 1);
}

static void test_lengths(const char *program)
{
    const uint8_t bytes[DASKREYF_REGISTERS] = {0x11, 0x22, 0x33};
    struct daskreyf *bus = daskreyf_start(program);
    struct daskreyf_assigned assigned[1];
    uint8_t registers[DASKREYF_REGISTERS] = {0};
    size_t count = 0;
    uint16_t length = 0;
    uint8_t interrupt = 0;

    CHECK(bus && daskreyf_legacy(bus, "eep", 0x50, 0x20) == DASKREYF_OK);
    if (!bus)
        return;
    CHECK(daskreyf_main(bus, "hub", &hub) == DASKREYF_OK);
    CHECK(daskreyf_attach(bus, "t", &target, NULL) == DASKREYF_OK);
    CHECK(daskreyf_daa(bus, assigned, 1, &count) == DASKREYF_OK && count == 1);
    CHECK(daskreyf_set_mwl(bus, 3, DASKREYF_ALL) == DASKREYF_OK);
    CHECK(daskreyf_set_mrl(bus, 2, 0x09) == DASKREYF_OK);
    CHECK(daskreyf_get_mwl(bus, 0x09, &length) == DASKREYF_OK && length == 3);
    CHECK(daskreyf_get_mrl(bus, 0x09, &length, &interrupt) == DASKREYF_OK && length == 2 && interrupt == 1);
    CHECK(daskreyf_write(bus, 0x09, bytes, 4) == DASKREYF_TOO_LONG);
    CHECK(daskreyf_write(bus, 0x09, bytes, 3) == DASKREYF_OK);
    CHECK(daskreyf_read(bus, 0x09, registers, &count) == DASKREYF_OK && count == 2);
    CHECK(registers[0] == 0x11 && registers[1] == 0x22 && registers[2] == 0);
    CHECK(daskreyf_read(bus, 0x09, registers, NULL) == DASKREYF_OK);
    CHECK(daskreyf_write(bus, 0x50, bytes, DASKREYF_REGISTERS) == DASKREYF_OK);
    CHECK(daskreyf_read(bus, 0x50, registers, &count) == DASKREYF_OK && count == DASKREYF_REGISTERS && registers[2] == 0x33);
    CHECK(daskreyf_set_mwl(bus, 1, 0x50) == DASKREYF_NO_ANSWER && !strcmp(daskreyf_why(bus), "NoAnswer 50"));
    CHECK(daskreyf_set_mrl(bus, 0, DASKREYF_ALL) == DASKREYF_BAD_LINE);
    CHECK(daskreyf_set_mrl(bus, 17, 0x09) == DASKREYF_BAD_LINE);
    CHECK(daskreyf_raise(bus, "t", 0x11, NULL) == DASKREYF_OK);
    CHECK(daskreyf_set_mrl(bus, 1, DASKREYF_ALL) == DASKREYF_OK);
    CHECK(daskreyf_served(bus)->request == DASKREYF_RECORDED);
    CHECK(daskreyf_cut(bus, "t", 18) == DASKREYF_OK && daskreyf_read(bus, 0x09, registers, NULL) == DASKREYF_NO_END);
    CHECK(daskreyf_close(bus) == 1);
}

static void test_all_slots(const char *program)
{
    enum { DEVICES = DASKREYF_SLOTS - 1 };
    struct daskreyf *bus = daskreyf_start(program);
    struct daskreyf_identity identity = target;
    struct daskreyf_assigned assigned[DEVICES];
    struct daskreyf_state state;
    char name[DASKREYF_NAME + 1];
    unsigned slot = 0;
    size_t count = 0;

    CHECK(bus && daskreyf_main(bus, "hub", &hub) == DASKREYF_OK);
    if (!bus)
        return;
    for (unsigned number = 1; number <= DEVICES; number++) {
        snprintf(name, sizeof name, "d%u", number);
        identity.pid = target.pid + number;
        CHECK(daskreyf_attach(bus, name, &identity, &slot) == DASKREYF_OK && slot == number);
    }
    CHECK(daskreyf_attach(bus, "more", &target, NULL) == DASKREYF_SLOT_TAKEN);
    CHECK(daskreyf_daa(bus, assigned, DEVICES, &count) == DASKREYF_OK && count == DEVICES);
    CHECK(assigned[DEVICES - 1].address == 0x48 && assigned[DEVICES - 1].pid == target.pid + DEVICES);
    CHECK(daskreyf_show(bus, &state) == DASKREYF_OK && state.device_count == DASKREYF_SLOTS);
    CHECK(!strcmp(state.devices[DEVICES].name, "d63") && state.devices[DEVICES].address == 0x48);
    CHECK(state.legacy_count == 0 && state.record_count == 0);
    CHECK(daskreyf_close(bus) == 1);
}

/* Each line that a controller sends, as one that isn't active and as the active one; and names that nobody has. */
static void test_two_controllers(const char *program)
{
    struct daskreyf *bus = daskreyf_start(program);
    const struct daskreyf_served *served = daskreyf_served(bus);
    uint8_t registers[DASKREYF_REGISTERS], byte = 0x2A;
    struct daskreyf_assigned assigned[2];
    size_t count = 0;
    char longest[400];

    CHECK(daskreyf_serve(daskreyf_as(bus, "hub")) == DASKREYF_NO_BUS);
    CHECK(daskreyf_main(bus, "hub", &hub) == DASKREYF_OK);
    CHECK(daskreyf_attach(bus, "second", &second, NULL) == DASKREYF_OK);
    CHECK(daskreyf_attach(bus, "t", &target, NULL) == DASKREYF_OK);
    CHECK(daskreyf_daa(daskreyf_as(bus, "hub"), assigned, 2, &count) == DASKREYF_OK && count == 2);
    CHECK(assigned[0].address == 0x09 && assigned[0].pid == target.pid && assigned[1].address == 0x0A);
    CHECK(daskreyf_list(daskreyf_as(bus, "second")) == DASKREYF_NOT_ACTIVE);
    CHECK(!strcmp(daskreyf_why(bus), "NotActive"));
    CHECK(daskreyf_list(daskreyf_as(bus, "hub")) == DASKREYF_OK);
    CHECK(daskreyf_handover(daskreyf_as(bus, "hub"), 0x0A) == DASKREYF_OK);
    CHECK(daskreyf_raise(bus, "t", 0x2B, NULL) == DASKREYF_OK);
    CHECK(daskreyf_write(daskreyf_as(bus, "hub"), 0x09, &byte, 1) == DASKREYF_NOT_ACTIVE);
    CHECK(!strcmp(daskreyf_asking(bus), "t"));
    CHECK(daskreyf_write(daskreyf_as(bus, "second"), 0x09, &byte, 1) == DASKREYF_OK);
    CHECK(served->request == DASKREYF_RECORDED && served->record.byte == 0x2B);
    CHECK(daskreyf_read(daskreyf_as(bus, "hub"), 0x09, registers, NULL) == DASKREYF_NOT_ACTIVE);
    /* the name is for one line alone */
    CHECK(daskreyf_read(bus, 0x09, registers, &count) == DASKREYF_OK && registers[0] == 0x2A && registers[1] == 0);
    CHECK(daskreyf_serve(daskreyf_as(bus, "nobody")) == DASKREYF_NO_NAME);
    CHECK(daskreyf_raise(daskreyf_as(bus, "second"), "t", 0x2C, NULL) == DASKREYF_BAD_LINE);
    CHECK(daskreyf_serve(daskreyf_as(bus, "a\nb")) == DASKREYF_BAD_ARGUMENT);
    CHECK(daskreyf_policy_of(daskreyf_as(bus, "hub"), 4) == DASKREYF_BAD_ARGUMENT);
    memset(longest, 'a', sizeof longest - 1);
    longest[sizeof longest - 1] = '\0';
    CHECK(daskreyf_serve(daskreyf_as(bus, longest)) == DASKREYF_BAD_ARGUMENT);
    CHECK(daskreyf_serve(bus) == DASKREYF_OK && served->request == DASKREYF_QUIET);
    CHECK(daskreyf_drop(bus, "hub") == DASKREYF_OK);
    CHECK(daskreyf_serve(daskreyf_as(bus, "hub")) == DASKREYF_NO_DEVICE);
    CHECK(daskreyf_close(bus) == 1);
}

static void test_the_end(const char *program)
{
    struct daskreyf *bus = daskreyf_start(program);

    CHECK(bus && daskreyf_main(bus, "hub", &hub) == DASKREYF_OK && daskreyf_close(bus) == 0);
    bus = daskreyf_start("./no-such-program");
    CHECK(bus && daskreyf_serve(bus) == DASKREYF_GONE);
    CHECK(bus && daskreyf_serve(bus) == DASKREYF_GONE && daskreyf_close(bus) == 127);
}

/* Every order. What is expected is written down by hand, from the scenes. */

#define START "main hub 020400000001 46 C0\nattach light 020400000010 06 44\nattach heat 020400000020 06 45\n"
#define ADDRESSED START "daa\n" /* light is at 09, and heat at 0A */

enum { TEXT = 1024, ORDERS = 16 };

static void write_file(const char *name, const char *text)
{
    FILE *file = fopen(name, "w");

    CHECK(file && fputs(text, file) >= 0 && fclose(file) == 0);
}

/* Every order of a scene of these lines. */
static struct daskreyf *every(const char *program, const char *lines)
{
    struct daskreyf *bus;

    write_file("test_scene.i3c", lines);
    bus = daskreyf_every(program, "test_scene.i3c");
    CHECK(bus && daskreyf_order(bus) == 0);
    return bus;
}

/* A program in the place of i3cbus: a shell's lines. */
static struct daskreyf *every_of_shell(const char *lines)
{
    write_file("test_program", lines);
    CHECK(chmod("test_program", 0700) == 0);
    return daskreyf_every("./test_program", "test_scene.i3c");
}

/* The status of `i3cbus run` of a script. */
static int status_of_run(const char *program, const char *script)
{
    char command[TEXT];
    int status;

    write_file("test_script", script);
    snprintf(command, sizeof command, "'%s' run test_script > test_out", program);
    status = system(command);
    return WIFEXITED(status) ? WEXITSTATUS(status) : -1;
}

/* A run that serves, and serves again where something happened: what came of it. */
static void serve_until_nothing_is_left(struct daskreyf *bus, char told[TEXT])
{
    const struct daskreyf_served *served = daskreyf_served(bus);
    int waited;

    told[0] = '\0';
    do {
        CHECK(daskreyf_serve(bus) == DASKREYF_OK);
        strcat(told, served->request == DASKREYF_RECORDED ? "recorded" : "quiet");
        waited = daskreyf_wait(bus);
        strcat(told, waited == 1 ? " | " : "");
        strcat(told, waited == 1 && !strcmp(daskreyf_asking(bus), "light") ? "light " : "");
    } while (waited == 1);
    CHECK(waited == 0);
}

static int compare_texts(const void *one, const void *other)
{
    return strcmp(one, other);
}

static void test_each_order_of_two_tracks(const char *program)
{
    /* sorted; | is a `wait` in which something happens, and light asks then where it is named */
    static const char *const wanted[] = {
        "quiet | light recorded", /* `serve`, light's line, heat's, `serve`; both of them in the `wait`, */
        "quiet | light recorded", /* or heat's behind it; */
        "quiet | light recorded", /* or heat's before the first `serve` */
        "quiet | light recorded | quiet", /* `serve`, light's, `serve`, heat's */
        "quiet | quiet | light recorded", /* `serve`, heat's, `serve`, light's */
        "quiet | recorded", /* `serve`, heat's in the `wait`, and light's behind it */
        "recorded", /* both, `serve` */
        "recorded | quiet", /* light's, `serve`, heat's */
    };
    enum { WANTED = sizeof wanted / sizeof wanted[0] };
    struct daskreyf *bus = every(program, ADDRESSED "any\ntrack\nraise light 2A\ntrack\ndrop heat\nclose\n");
    static char met[ORDERS][TEXT];
    size_t count = 0;
    const char *script;

    while (daskreyf_next(bus) && count < ORDERS) {
        CHECK(daskreyf_order(bus) == count + 1 && !*daskreyf_asking(bus));
        serve_until_nothing_is_left(bus, met[count++]);
        script = daskreyf_script(bus);
        CHECK(script && !strncmp(script, ADDRESSED, strlen(ADDRESSED)));
        CHECK(script && strstr(script, "\nraise light 2A\n") && strstr(script, "\ndrop heat\n"));
        CHECK(script && status_of_run(program, script) == 0);
    }
    CHECK(!strcmp(daskreyf_text(bus), "all 8 orders") && !*daskreyf_why(bus) && daskreyf_order(bus) == 8);
    CHECK(!daskreyf_next(bus));
    CHECK(count == WANTED);
    qsort(met, count, sizeof met[0], compare_texts);
    for (size_t i = 0; i < WANTED; i++)
        CHECK(!strcmp(met[i], wanted[i]));
    CHECK(daskreyf_close(bus) == 0);
}

/* Keeps a text that the next line overwrites. */
static void keep(char kept[TEXT], const char *text)
{
    snprintf(kept, TEXT, "%s", text ? text : "");
}

/* What each run of a bus came to, under its choices; how many runs there were. */
static size_t runs_of(struct daskreyf *bus, char met[ORDERS][TEXT], char choices[ORDERS][TEXT])
{
    size_t count = 0;

    while (daskreyf_next(bus) && count < ORDERS) {
        serve_until_nothing_is_left(bus, met[count]);
        keep(choices[count++], daskreyf_choices(bus));
    }
    return count;
}

static void test_some_orders_alone(const char *program)
{
    static const char scene[] = ADDRESSED "any\ntrack\nraise light 2A\ntrack\ndrop heat\nclose\n";
    static char met[ORDERS][TEXT], choices[ORDERS][TEXT], alone[ORDERS][TEXT], named[ORDERS][TEXT];
    struct daskreyf *bus = every(program, scene);
    size_t count = runs_of(bus, met, choices), parted = 0;

    CHECK(count == 8 && !strcmp(daskreyf_text(bus), "all 8 orders") && daskreyf_close(bus) == 0);
    for (size_t i = 0; i < count; i++) {
        bus = daskreyf_every_of(program, "test_scene.i3c", "--order", choices[i]);
        CHECK(runs_of(bus, alone, named) == 1 && !strcmp(alone[0], met[i]) && !strcmp(named[0], choices[i]));
        CHECK(!strcmp(daskreyf_text(bus), "tried 1 orders") && daskreyf_close(bus) == 0);
    }
    for (int part = 1; part <= 3; part++) {
        char text[TEXT];

        snprintf(text, sizeof text, "%d/3", part);
        bus = daskreyf_every_of(program, "test_scene.i3c", "--part", text);
        parted += runs_of(bus, alone, named);
        CHECK(daskreyf_close(bus) == 0);
    }
    CHECK(parted == count);
    CHECK(setenv("I3CBUS_ORDER", choices[0], 1) == 0);
    bus = daskreyf_every(program, "test_scene.i3c");
    CHECK(runs_of(bus, alone, named) == 1 && !strcmp(named[0], choices[0]) && daskreyf_close(bus) == 0);
    CHECK(setenv("I3CBUS_ORDER", "99", 1) == 0);
    bus = daskreyf_every(program, "test_scene.i3c");
    CHECK(daskreyf_next(bus) && daskreyf_serve(bus) == DASKREYF_NO_ORDER && daskreyf_close(bus) == 1);
    CHECK(unsetenv("I3CBUS_ORDER") == 0);
}

static void test_who_asks_at_the_beginning(const char *program)
{
    struct daskreyf *bus = every(program, ADDRESSED "any\ntrack\nraise light 2A\nclose\n");
    unsigned asked = 0, orders = 0;

    while (daskreyf_next(bus)) {
        CHECK(!*daskreyf_asking(bus));
        CHECK(daskreyf_list(bus) == DASKREYF_OK);
        CHECK(daskreyf_wait(bus) >= 0);
        asked += !strcmp(daskreyf_asking(bus), "light");
        orders++;
    }
    /* `list` has served light, or light asks after it */
    CHECK(orders == 2 && asked == 1 && daskreyf_close(bus) == 0);
}

static void test_a_scene_without_tracks(const char *program)
{
    struct daskreyf *bus = every(program, ADDRESSED "any\nclose\n");

    CHECK(daskreyf_next(bus) && daskreyf_wait(bus) == 0 && daskreyf_serve(bus) == DASKREYF_OK);
    CHECK(!daskreyf_next(bus) && !strcmp(daskreyf_text(bus), "all 1 orders"));
    CHECK(daskreyf_serve(bus) == DASKREYF_OVER && daskreyf_wait(bus) == -1 && !strcmp(daskreyf_why(bus), "Over"));
    CHECK(!daskreyf_next(bus));
    CHECK(daskreyf_close(bus) == 1);
}

static void test_assignments_frame_by_frame(const char *program)
{
    struct daskreyf *bus = every(program, START "any\ntrack\ndrop heat\nclose\n");
    struct daskreyf_assigned assigned[2];
    unsigned of_one = 0, of_two = 0;
    size_t count;

    while (daskreyf_next(bus)) {
        CHECK(daskreyf_daa(daskreyf_as(bus, "hub"), assigned, 2, &count) == DASKREYF_OK);
        CHECK(count > 0 && assigned[0].address == 0x09 && assigned[0].pid == target.pid);
        CHECK(count < 2 || (assigned[1].address == 0x0A && assigned[1].pid == 0x020400000020));
        CHECK(strstr(daskreyf_script(bus), "\nas hub open\n") && strstr(daskreyf_text(bus), "\nas hub end"));
        of_one += count == 1;
        of_two += count == 2;
    }
    /* heat leaves before `open`, or before a round: light's, its own, or the one that nobody takes; or behind them */
    CHECK(of_one == 3 && of_two == 2 && daskreyf_close(bus) == 0);
}

static void test_what_an_assignment_serves(const char *program)
{
    struct daskreyf *bus = every(program, ADDRESSED "raise light 2A\nany\nclose\n");
    struct daskreyf_assigned assigned[1];
    size_t count = 1;

    CHECK(daskreyf_next(bus) && daskreyf_daa(bus, assigned, 1, &count) == DASKREYF_OK && count == 0);
    CHECK(daskreyf_served(bus)->request == DASKREYF_TURNED_DOWN && !strcmp(daskreyf_asking(bus), "light"));
    CHECK(daskreyf_open(bus) == DASKREYF_OK);
    CHECK(daskreyf_daa(bus, assigned, 1, &count) == DASKREYF_SESSION_OPEN && count == 0);
    CHECK(daskreyf_end(bus) == DASKREYF_OK && !daskreyf_next(bus) && daskreyf_close(bus) == 0);

    bus = every_of_shell("#!/bin/sh\n"
        "read line; echo open; echo ok 1\n"
        "read line; echo assigned 09 020400000010 06 44; echo ok 2\n"
        "read line; echo refused 3 NoAddress\n"
        "read line; echo ended; echo ok 4\n");
    CHECK(daskreyf_next(bus) && daskreyf_daa(bus, assigned, 1, &count) == DASKREYF_NO_ADDRESS);
    CHECK(count == 1 && assigned[0].address == 0x09 && !strcmp(daskreyf_why(bus), "NoAddress"));
    CHECK(!daskreyf_next(bus) && daskreyf_close(bus) == 0);
}

static void test_an_unmet_expectation(const char *program)
{
    /* the one order in which a single `serve` leaves something waiting */
    static const char broken[] =
        "# line 9 breaks: expect waiting 0\n# waiting 1\n# run this script to see it\n"
        ADDRESSED "serve\nraise light 2A\nexpect waiting 0";
    struct daskreyf *bus = every(program, ADDRESSED "any\ntrack\nraise light 2A\nclose\nexpect waiting 0\n");
    const char *script;

    while (daskreyf_next(bus))
        CHECK(daskreyf_serve(bus) == DASKREYF_OK);
    CHECK(!strcmp(daskreyf_why(bus), "Unmet") && !strcmp(daskreyf_text(bus), "unmet 9 waiting 1"));
    script = daskreyf_script(bus);
    CHECK(script && !strcmp(script, broken));
    CHECK(script && status_of_run(program, script) == 3);
    CHECK(daskreyf_serve(bus) == DASKREYF_OVER && !daskreyf_next(bus));
    CHECK(daskreyf_close(bus) == 3);
}

static void test_an_unmet_expectation_behind_a_frame(const char *program)
{
    struct daskreyf *bus =
        every(program, ADDRESSED "raise light 2A\nraise heat 2B\nany\nalways waiting 2\ntrack\nclose\n");
    const struct daskreyf_served *served = daskreyf_served(bus);

    CHECK(daskreyf_next(bus) && daskreyf_serve(bus) == DASKREYF_UNMET);
    CHECK(!strcmp(daskreyf_text(bus), "recorded 1\nunmet 8 waiting 1") && !strcmp(daskreyf_asking(bus), "heat"));
    CHECK(served->request == DASKREYF_RECORDED && served->record.address == 0x09 && served->record.byte == 0x2A);
    CHECK(daskreyf_wait(bus) == -1 && !daskreyf_next(bus) && daskreyf_close(bus) == 3);

    bus = every(program, ADDRESSED "any\ntrack\nraise light 2A\nexpect waiting 0\nclose\n");
    CHECK(daskreyf_next(bus) && daskreyf_wait(bus) == -1);
    CHECK(!strcmp(daskreyf_why(bus), "Unmet") && !strcmp(daskreyf_text(bus), "unmet 8 waiting 1"));
    CHECK(daskreyf_close(bus) == 3);
}

static void test_lines_that_are_known(const char *program)
{
    struct daskreyf *bus;

    /* in the second order this engine answers only when it has two lines */
    write_file("test_scene.i3c", "");
    bus = every_of_shell("#!/bin/sh\n"
        "read line; echo done; echo asking light; echo ok 1\n"
        "read line; echo quiet; echo ok 2\n"
        "read line; read other; echo order 2; echo ok 3; echo same 1; echo ok 4\n"
        "read line; read other; echo done; echo asking light; echo ok 5; echo torn; echo asking; echo ok 6\n"
        "read again; read same; [ \"$line$other$again$same\" = listserveagainsame ] || exit 9\n"
        "echo all 2 orders; echo ok 7; echo same 0; echo ok 8\n");
    CHECK(daskreyf_next(bus) && daskreyf_line(bus, "list") == DASKREYF_OK && daskreyf_serve(bus) == DASKREYF_OK);
    CHECK(daskreyf_served(bus)->request == DASKREYF_QUIET);
    CHECK(daskreyf_next(bus) && daskreyf_order(bus) == 2 && !*daskreyf_asking(bus));
    CHECK(daskreyf_line(bus, "list") == DASKREYF_OK && !strcmp(daskreyf_text(bus), "done"));
    CHECK(!strcmp(daskreyf_asking(bus), "light"));
    CHECK(daskreyf_serve(bus) == DASKREYF_OK && !strcmp(daskreyf_text(bus), "torn") && !*daskreyf_asking(bus));
    CHECK(daskreyf_served(bus)->request == DASKREYF_TORN);
    CHECK(!daskreyf_next(bus) && !strcmp(daskreyf_text(bus), "all 2 orders") && daskreyf_close(bus) == 0);

    /* another line behind one that is known, and an order's script there */
    bus = every(program, ADDRESSED "any\ntrack\nraise light 2A\nclose\n");
    CHECK(daskreyf_next(bus) && daskreyf_line(bus, "policy all") == DASKREYF_OK && daskreyf_serve(bus) == DASKREYF_OK);
    CHECK(daskreyf_next(bus) && daskreyf_line(bus, "policy all") == DASKREYF_OK);
    CHECK(!strcmp(daskreyf_script(bus), ADDRESSED "policy all"));
    CHECK(daskreyf_reset(bus) == DASKREYF_DIFFERS && !strcmp(daskreyf_text(bus), "due serve"));
    CHECK(daskreyf_close(bus) == 1);
}

static void test_a_program_that_differs(const char *program)
{
    struct daskreyf *bus = every(program, ADDRESSED "any\ntrack\nraise light 2A\nclose\n");

    CHECK(daskreyf_next(bus) && daskreyf_serve(bus) == DASKREYF_OK);
    CHECK(daskreyf_next(bus) && daskreyf_reset(bus) == DASKREYF_DIFFERS && !strcmp(daskreyf_text(bus), "due serve"));
    CHECK(!strcmp(daskreyf_result_name(DASKREYF_DIFFERS), "Differs"));
    CHECK(!daskreyf_next(bus) && daskreyf_close(bus) == 1);

    /* a run that ends where an earlier one went on */
    bus = every(program, ADDRESSED "any\ntrack\nraise light 2A\nclose\n");
    CHECK(daskreyf_next(bus) && daskreyf_serve(bus) == DASKREYF_OK && daskreyf_next(bus) && !daskreyf_next(bus));
    CHECK(!strcmp(daskreyf_why(bus), "Differs") && !strcmp(daskreyf_text(bus), "due serve"));
    CHECK(daskreyf_close(bus) == 1);
}

static void test_lines_that_every_order_has_not(const char *program)
{
    struct daskreyf *bus = every(program, ADDRESSED "any\nclose\n");
    struct daskreyf_state state;

    CHECK(daskreyf_next(bus) && daskreyf_line(bus, "daa") == DASKREYF_MANY_FRAMES);
    CHECK(daskreyf_line(daskreyf_as(bus, "hub"), "daa") == DASKREYF_MANY_FRAMES);
    CHECK(daskreyf_symbols(bus) == DASKREYF_NO_PAST && daskreyf_frames(bus, 1) == DASKREYF_NO_PAST);
    CHECK(daskreyf_show_all(bus) == DASKREYF_NO_PAST && daskreyf_line(bus, "expect waiting 0") == DASKREYF_BAD_LINE);
    CHECK(daskreyf_show(bus, &state) == DASKREYF_OK && state.device_count == 3);
    CHECK(!daskreyf_next(bus) && !*daskreyf_why(bus) && daskreyf_close(bus) == 1);

    /* and lines that a bus of one order has not */
    bus = daskreyf_start(program);
    CHECK(bus && !daskreyf_next(bus) && daskreyf_wait(bus) == -1 && !daskreyf_script(bus));
    CHECK(daskreyf_close(bus) == 1);
}

static void test_as_many_orders_as_may_be(const char *program)
{
    char lines[TEXT];
    struct daskreyf *bus;

    write_file("test_scene.i3c", ADDRESSED "any\ntrack\nraise light 2A\nclose\n");
    snprintf(lines, sizeof lines, "#!/bin/sh\nexec '%s' \"$@\" --most 1\n", program);
    bus = every_of_shell(lines);
    CHECK(daskreyf_next(bus) && daskreyf_serve(bus) == DASKREYF_OK);
    CHECK(!daskreyf_next(bus) && !strcmp(daskreyf_why(bus), "Most") && daskreyf_order(bus) == 1);
    CHECK(daskreyf_close(bus) == 1);
}

static void test_the_end_of_every_order(const char *program)
{
    struct daskreyf *bus = every(program, ADDRESSED "any\ntrack\nraise light 2A\nclose\n");

    /* a client that closes in the midst */
    CHECK(daskreyf_next(bus) && daskreyf_serve(bus) == DASKREYF_OK && daskreyf_close(bus) == 1);
    /* a scene that can't be met: standard error says why */
    bus = every(program, ADDRESSED "any\ntrack\n");
    CHECK(daskreyf_next(bus) && daskreyf_serve(bus) == DASKREYF_GONE && daskreyf_wait(bus) == -1);
    CHECK(!daskreyf_script(bus) && !daskreyf_next(bus) && daskreyf_close(bus) == 2);
    bus = daskreyf_every("./no-such-program", "test_scene.i3c");
    CHECK(bus && daskreyf_next(bus) && daskreyf_serve(bus) == DASKREYF_GONE && daskreyf_close(bus) == 127);
    /* a program that answers `again` by something else */
    bus = every_of_shell("#!/bin/sh\nread line; echo quiet; echo ok 1\n");
    CHECK(daskreyf_next(bus) && !daskreyf_next(bus) && daskreyf_serve(bus) == DASKREYF_GONE && daskreyf_close(bus) == 0);
}

static void test_every_order(const char *program)
{
    test_each_order_of_two_tracks(program);
    test_some_orders_alone(program);
    test_who_asks_at_the_beginning(program);
    test_a_scene_without_tracks(program);
    test_assignments_frame_by_frame(program);
    test_what_an_assignment_serves(program);
    test_an_unmet_expectation(program);
    test_an_unmet_expectation_behind_a_frame(program);
    test_lines_that_are_known(program);
    test_a_program_that_differs(program);
    test_lines_that_every_order_has_not(program);
    test_as_many_orders_as_may_be(program);
    test_the_end_of_every_order(program);
}

int main(int count, char **words)
{
    const char *program = count > 1 ? words[1] : "i3cbus";
    struct daskreyf *bus = daskreyf_start(program);

    if (!bus)
        return 1;
    test_an_assignment(bus);
    test_the_state(bus);
    test_requests(bus);
    test_kinds(bus);
    test_transfers(bus);
    test_a_cut_interrupt(bus);
    test_a_join_by_rounds(bus);
    test_a_handover(bus);
    test_lines(bus);
    CHECK(daskreyf_close(bus) == 1);
    test_static_addresses(program);
    test_data(program);
    test_lengths(program);
    test_all_slots(program);
    test_two_controllers(program);
    test_the_end(program);
    test_every_order(program);
    puts(failures ? "test_daskreyf: FAILED" : "test_daskreyf: ok");
    return failures > 0;
}
