/*
 * An I3C Basic bus that a C program drives, line by line, through `i3cbus drive`. C99 and POSIX, and nothing else.
 *
 * Each call sends one line and waits for its answer. A line that the engine refuses gives the result of that name, and has
 * changed nothing but for the cuts that a frame takes. Numbers in brackets are sections of MIPI I3C Basic v1.1.1.
 * docs/DRIVING.md has the protocol, docs/FORMATS.md each line with its refusals. A bus is for one thread at a time.
 */
#ifndef DASKREYF_H
#define DASKREYF_H

#include <stdbool.h>
#include <stddef.h>
#include <stdint.h>

#ifdef __cplusplus
extern "C" {
#endif

enum {
    DASKREYF_SLOTS = 64,         /* places for devices, the main controller's counted */
    DASKREYF_LEGACIES = 16,      /* legacy I2C targets at most */
    DASKREYF_REGISTERS = 16,     /* registers of a device, and bytes of one transfer at most */
    DASKREYF_NAME = 16,          /* letters of a name at most */
    DASKREYF_EXCEPTED = 8,       /* devices that a policy may except */
    DASKREYF_NO_BYTE = -1,       /* an interrupt without a mandatory byte */
    DASKREYF_UNADDRESSED = -1,   /* a device without a dynamic address */
    DASKREYF_ALL = -1            /* ENEC, DISEC, SETMWL and SETMRL to all */
};

/* The kinds of events of ENEC and DISEC. [5.1.9.3.1] */
enum { DASKREYF_INTERRUPTS = 1, DASKREYF_ROLES = 2, DASKREYF_JOINS = 8 };

/* What came of a call. */
enum daskreyf_result {
    DASKREYF_OK,

    /* the engine refused the line: */
    DASKREYF_BAD_LINE,         /* no line of docs/FORMATS.md */
    DASKREYF_NO_BUS,           /* `main` hasn't come yet */
    DASKREYF_BUS_MADE,         /* `main` has come: no other one may, and nothing more is declared */
    DASKREYF_NAME_TAKEN,       /* a present device or a legacy target has this name */
    DASKREYF_NO_NAME,          /* nobody was ever called so */
    DASKREYF_LEGACY_ADDRESS,   /* a static address is from 08 to 77 */
    DASKREYF_LEGACY_TWICE,     /* a legacy target or a declared identity has this address */
    DASKREYF_TOO_MANY_LEGACY,  /* there are sixteen legacy targets */
    DASKREYF_IDENTITY_TWICE,   /* the identity is declared at another static address */
    DASKREYF_TOO_MANY_DECLARED, /* sixteen identities are declared */
    DASKREYF_NOT_CAPABLE,      /* by its BCR the device can't, or the table has nobody there [5.1.1.2.1] */
    DASKREYF_SLOT_TAKEN,       /* all slots have a device */
    DASKREYF_NO_DEVICE,        /* the device is gone, or is a legacy target */
    DASKREYF_ACTIVE_STAYS,     /* the active controller doesn't leave, nor is cut in a frame of its own */
    DASKREYF_IS_ACTIVE,        /* the device is the active controller */
    DASKREYF_NO_ADDRESS,       /* the device has no dynamic address; or there is none left to give */
    DASKREYF_HAS_ADDRESS,      /* the device has a dynamic address already */
    DASKREYF_BYTE_MISMATCH,    /* the BCR wants a mandatory byte and none was given, or the other way round */
    DASKREYF_MASKED,           /* events of this kind are disabled [5.1.9.3.1] */
    DASKREYF_FULL,             /* eight interrupts of the device wait, or its slot's count is used up */
    DASKREYF_SESSION_OPEN,     /* an assignment is open */
    DASKREYF_NO_SESSION,       /* no assignment is open */
    DASKREYF_NO_ANSWER,        /* nobody at the address acknowledged, or the table has nobody there */
    DASKREYF_BAD_ADDRESS,      /* the address can't be given: it is out of range, somebody's, or a static one */
    DASKREYF_NO_END,           /* the last T of what was read said that more bytes would come */
    DASKREYF_TOO_LONG,         /* a write has sixteen bytes at most, or the device's maximum length */
    DASKREYF_LIST_STALE,       /* addresses have changed since the last `list` [5.1.9.3.7] */
    DASKREYF_NOT_ACTIVE,       /* the controller that the line is of isn't the active one: daskreyf_as */
    DASKREYF_MANY_FRAMES,      /* on a bus of daskreyf_every a line sends one frame at most; daskreyf_daa isn't refused */
    DASKREYF_NO_PAST,          /* such a bus doesn't keep symbols, frames and earlier controllers */
    DASKREYF_UNMET,            /* an expectation of the scene doesn't hold: daskreyf_script has the order */
    DASKREYF_DIFFERS,          /* an earlier run that was told the same sent the line that daskreyf_text has behind `due` */
    DASKREYF_MOST,             /* as many orders were tried as may be, and some are left; or too many states before a line */
    DASKREYF_OVER,             /* all orders were tried, or none will begin behind an UNMET, DIFFERS or MOST */
    DASKREYF_NO_ORDER,         /* the line has no answer of the number that I3CBUS_ORDER has for it */
    DASKREYF_REFUSED,          /* for a reason that isn't known here: daskreyf_why has it */

    /* nothing was sent: */
    DASKREYF_BAD_ARGUMENT,     /* a line feed in a text, or a name that is far too long */

    /* the bus is over: */
    DASKREYF_GONE,             /* the program has ended, or breaks the protocol; daskreyf_close has its status */
    DASKREYF_NO_MEMORY
};

/* Which requests the controller accepts. */
enum daskreyf_policy {
    DASKREYF_ACCEPT_ALL,
    DASKREYF_ACCEPT_NONE,
    DASKREYF_ACCEPT_JOINS,
    DASKREYF_ACCEPT_ROLES,
    DASKREYF_ACCEPT_INTERRUPTS
};

/* An interrupt that the active controller accepted. [5.1.6] */
struct daskreyf_record {
    unsigned long number;  /* its place in the log, from 1 */
    unsigned slot;         /* of the device that raised it */
    unsigned long raised;  /* its number among the accepted raises of that slot */
    uint8_t address;       /* the dynamic address that it came from */
    int byte;              /* its mandatory byte, or DASKREYF_NO_BYTE */
};

/* What became of a request that came up in a frame's first header. */
enum daskreyf_request {
    DASKREYF_QUIET,        /* nobody asked */
    DASKREYF_RECORDED,     /* an interrupt is in the log: `record` */
    DASKREYF_TURNED_DOWN,  /* the policy, or this frame, doesn't accept it; the device keeps asking */
    DASKREYF_TORN,         /* an interrupt whose byte was lost with its device; nothing was recorded */
    DASKREYF_JOINING,      /* a device asked to join, and may [5.1.5] */
    DASKREYF_WANTS_ROLE    /* the device at `address` asked for the controller's role [5.1.7] */
};

struct daskreyf_served {
    enum daskreyf_request request;
    struct daskreyf_record record;
    uint8_t address;
};

/* A device with the dynamic address that a round gave it. [5.1.4.2] */
struct daskreyf_assigned {
    uint8_t address;
    uint64_t pid;  /* 48 bits */
    uint8_t bcr;
    uint8_t dcr;
};

/* What one round of an assignment came to. */
enum daskreyf_round {
    DASKREYF_ASSIGNED,  /* a device took the address */
    DASKREYF_NOBODY,    /* no device took it */
    DASKREYF_DONE       /* no device is left */
};

/* A device that is put on a bus. */
struct daskreyf_identity {
    uint64_t pid;  /* 48 bits */
    uint8_t bcr;
    uint8_t dcr;
    bool declines;  /* it never takes the role over */
};

/* A device that is present, or a legacy target. */
struct daskreyf_member {
    char name[DASKREYF_NAME + 1];
    int address;       /* or DASKREYF_UNADDRESSED */
    unsigned waiting;  /* its interrupts that wait */
};

/* The bus, as `show` prints it, without its log. */
struct daskreyf_state {
    uint8_t active;  /* the address of the active controller */
    struct daskreyf_member devices[DASKREYF_SLOTS];  /* by slots */
    size_t device_count;
    struct daskreyf_member legacies[DASKREYF_LEGACIES];  /* by addresses */
    size_t legacy_count;
    unsigned long record_count;
};

/* A bus of its own, in a program of its own. */
struct daskreyf;

/*
 * Starts the program by its path, or by its name in PATH. NULL if there is no memory, process or descriptor for it, and errno
 * says which. A program that can't be run is DASKREYF_GONE at the first call, and has the status 127.
 */
struct daskreyf *daskreyf_start(const char *program);

/*
 * Ends the bus and its program. Gives the program's status: 0, or 1 if a line was refused, 2 after a fault that it told on
 * standard error; less a signal's number if it was killed. For a bus of daskreyf_every see there.
 */
int daskreyf_close(struct daskreyf *bus);

/* The name of a result, as the engine writes refusals: "NoAnswer". */
const char *daskreyf_result_name(enum daskreyf_result result);

/* Sends any line of docs/FORMATS.md, without its line feed. */
enum daskreyf_result daskreyf_line(struct daskreyf *bus, const char *line);

/* Of the last answer. Texts hold until the next call. */

/* What the line printed, as `run` prints it: lines with line feeds between them, without the refusal. */
const char *daskreyf_text(const struct daskreyf *bus);

/* Why it was refused, with the address or number if there is one: "NoAnswer 09". Empty if it wasn't. */
const char *daskreyf_why(const struct daskreyf *bus);

/* What its frame served first, also where the frame was refused then. */
const struct daskreyf_served *daskreyf_served(const struct daskreyf *bus);

/*
 * The names of the devices that drive the first request of the next frame: one, or all that want to join, by slots and with
 * spaces between. Empty if nobody asks.
 */
const char *daskreyf_asking(const struct daskreyf *bus);

/* The start: legacy I2C targets and declarations come before the main controller. */

enum daskreyf_result daskreyf_legacy(struct daskreyf *bus, const char *name, uint8_t address, uint8_t lvr);

/* Devices of an identity have a static address, from 08 to 77. Whether it declines doesn't matter here. [5.1.1.2.3] */
enum daskreyf_result daskreyf_declare(
    struct daskreyf *bus, uint8_t address, const struct daskreyf_identity *identity);

enum daskreyf_result daskreyf_main(struct daskreyf *bus, const char *name, const struct daskreyf_identity *identity);

/* What devices do. */

/* Puts a device into the first free slot. `slot` may be NULL. */
enum daskreyf_result daskreyf_attach(
    struct daskreyf *bus, const char *name, const struct daskreyf_identity *identity, unsigned *slot);

/* The device loses power between two frames. */
enum daskreyf_result daskreyf_drop(struct daskreyf *bus, const char *name);

/* The device loses power in the next frame, from this bit on, as docs/BUS.md counts them. */
enum daskreyf_result daskreyf_cut(struct daskreyf *bus, const char *name, uint16_t bit);

/* Queues an interrupt, with its mandatory byte or DASKREYF_NO_BYTE. `number`, from 1, may be NULL. [5.1.6] */
enum daskreyf_result daskreyf_raise(struct daskreyf *bus, const char *name, int byte, unsigned long *number);

enum daskreyf_result daskreyf_ask_join(struct daskreyf *bus, const char *name); /* [5.1.5] */
enum daskreyf_result daskreyf_ask_role(struct daskreyf *bus, const char *name); /* [5.1.7] */

/* What the controller does. All but the policies are frames: daskreyf_served has what came up in their first header. */

/*
 * The same bus, whose next line is sent as the controller with this name: daskreyf_serve(daskreyf_as(bus, "hub")). It is
 * DASKREYF_NOT_ACTIVE while another controller is active, and nothing was sent then. Without daskreyf_as a line is the active
 * controller's, whichever that is. A line that no controller sends is DASKREYF_BAD_LINE so.
 */
struct daskreyf *daskreyf_as(struct daskreyf *bus, const char *name);

enum daskreyf_result daskreyf_policy(struct daskreyf *bus, enum daskreyf_policy policy);

/* Accepts these kinds and no others: DASKREYF_INTERRUPTS, DASKREYF_ROLES and DASKREYF_JOINS, with `|` between. */
enum daskreyf_result daskreyf_policy_of(struct daskreyf *bus, uint8_t kinds);

/* The same, but turns a request down that one of these devices drives: 1 to DASKREYF_EXCEPTED names, each once. */
enum daskreyf_result daskreyf_policy_but(
    struct daskreyf *bus, uint8_t kinds, const char *const *names, size_t count);

enum daskreyf_result daskreyf_serve(struct daskreyf *bus);

/* Enables and disables kinds of events, of the device at an address or of DASKREYF_ALL. [5.1.9.3.1] */
enum daskreyf_result daskreyf_enec(struct daskreyf *bus, uint8_t kinds, int address);
enum daskreyf_result daskreyf_disec(struct daskreyf *bus, uint8_t kinds, int address);

enum daskreyf_result daskreyf_reset(struct daskreyf *bus); /* RSTDAA [5.1.9.3.3] */
enum daskreyf_result daskreyf_list(struct daskreyf *bus);  /* DEFTGTS [5.1.9.3.7] */

/*
 * Private transfers with a device or a legacy target. `count` may be NULL: how many registers were read, the first ones. It
 * is DASKREYF_REGISTERS unless daskreyf_set_mrl has set less. [5.1.2.3]
 */
enum daskreyf_result daskreyf_read(
    struct daskreyf *bus, uint8_t address, uint8_t registers[DASKREYF_REGISTERS], size_t *count);
enum daskreyf_result daskreyf_write(struct daskreyf *bus, uint8_t address, const uint8_t *bytes, size_t count);

/* Gives a dynamic address to the device at a static one, while it has none, by SETDASA. [5.1.9.3.10] */
enum daskreyf_result daskreyf_setdasa(struct daskreyf *bus, uint8_t fixed, uint8_t address);

/* Gives another dynamic address to the device at this one, by SETNEWDA. [5.1.9.3.11] */
enum daskreyf_result daskreyf_setnewda(struct daskreyf *bus, uint8_t old, uint8_t address);

/* What the device at an address tells, by GETPID, GETBCR and GETDCR: `pid` has 48 bits. [5.1.9.3.12 to 5.1.9.3.14] */
enum daskreyf_result daskreyf_get_pid(struct daskreyf *bus, uint8_t address, uint64_t *pid);
enum daskreyf_result daskreyf_get_bcr(struct daskreyf *bus, uint8_t address, uint8_t *bcr);
enum daskreyf_result daskreyf_get_dcr(struct daskreyf *bus, uint8_t address, uint8_t *dcr);

/* GETSTATUS: whether an interrupt of the device waits, disabled or not. [5.1.9.3.15] */
enum daskreyf_result daskreyf_get_status(struct daskreyf *bus, uint8_t address, bool *waits);

/*
 * GETMWL and GETMRL: the most bytes that it takes in a write, and gives to a read. `interrupt` may be NULL: the bytes of its
 * interrupts, 0 where they have none. [5.1.9.3.5, 5.1.9.3.6]
 */
enum daskreyf_result daskreyf_get_mwl(struct daskreyf *bus, uint8_t address, uint16_t *length);
enum daskreyf_result daskreyf_get_mrl(struct daskreyf *bus, uint8_t address, uint16_t *length, uint8_t *interrupt);

/* The two bytes of GETMXDS, the limits of its speed, and of GETCAPS, its capabilities. [5.1.9.3.18, 5.1.9.3.19] */
enum daskreyf_result daskreyf_get_mxds(struct daskreyf *bus, uint8_t address, uint8_t limits[2]);
enum daskreyf_result daskreyf_get_caps(struct daskreyf *bus, uint8_t address, uint8_t capabilities[2]);

/*
 * SETMWL and SETMRL: the most bytes of a private write and of a private read, 1 to 16, of the device at an address or of
 * DASKREYF_ALL. [5.1.9.3.5, 5.1.9.3.6]
 */
enum daskreyf_result daskreyf_set_mwl(struct daskreyf *bus, uint8_t length, int address);
enum daskreyf_result daskreyf_set_mrl(struct daskreyf *bus, uint8_t length, int address);

/* Offers the role to the device at an address, by GETACCCR. [5.1.7] */
enum daskreyf_result daskreyf_handover(struct daskreyf *bus, uint8_t address);

/*
 * A whole assignment by ENTDAA: tells who got an address, of which the first `room` are stored, and how many they are. It
 * tells so too where it is DASKREYF_NO_ADDRESS. On a bus of daskreyf_every its frames are sent one by one, so that devices
 * come and go between its rounds; then daskreyf_text is that of the last line. [5.1.4.2]
 */
enum daskreyf_result daskreyf_daa(struct daskreyf *bus, struct daskreyf_assigned *assigned, size_t room, size_t *count);

/* An assignment by its rounds. `assigned` is set where the round is DASKREYF_ASSIGNED. */
enum daskreyf_result daskreyf_open(struct daskreyf *bus);
enum daskreyf_result daskreyf_round(
    struct daskreyf *bus, enum daskreyf_round *round, struct daskreyf_assigned *assigned);
enum daskreyf_result daskreyf_end(struct daskreyf *bus);

/* What is looked at. */

/* The bus; its log is in daskreyf_text. */
enum daskreyf_result daskreyf_show(struct daskreyf *bus, struct daskreyf_state *state);

/* The same, but of its log daskreyf_text has only the records from this number on, which is 1 at least. */
enum daskreyf_result daskreyf_show_from(struct daskreyf *bus, uint64_t first, struct daskreyf_state *state);

/* Takes the records up to this number, which is 1 at least, out of the log. The numbers of records go on. */
enum daskreyf_result daskreyf_forget(struct daskreyf *bus, uint64_t last);

/*
 * All of the bus, with what each device is, may and wants; the last symbols on the wire, 256 at most; and the last frames of
 * these that are whole, as many or fewer. daskreyf_text has them then.
 */
enum daskreyf_result daskreyf_show_all(struct daskreyf *bus);
enum daskreyf_result daskreyf_symbols(struct daskreyf *bus);
enum daskreyf_result daskreyf_frames(struct daskreyf *bus, uint16_t count);

/*
 * Every order: a program meets each order of what the devices of a scene do.
 *
 *     while (daskreyf_next(bus)) {
 *         hub_start(&hub, bus);
 *         while (daskreyf_wait(bus) == 1)
 *             hub_handle(&hub);
 *     }
 *     if (*daskreyf_why(bus))
 *         puts(daskreyf_script(bus));
 *     status = daskreyf_close(bus);
 *
 * The loop's body is one run of the program, in another order each time. What it sends may depend on the answers of this run,
 * and on nothing else: no clock, no random number, no run before. A loop of its own has to end where a call isn't
 * DASKREYF_OK, as none is once an expectation doesn't hold.
 */

/*
 * Starts the program with a scene, a file of `explore` with one block. NULL as for daskreyf_start. `main` is a line of the
 * scene, and the bus is there when the first line comes. A scene that can't be met is DASKREYF_GONE at the first call.
 *
 * The status of daskreyf_close is 0 if all orders were tried and all holds, 3 if an expectation doesn't hold, and 2 after a
 * fault, which is told on standard error. Otherwise it is 1: orders are left, or a line had no form or was one of
 * DASKREYF_MANY_FRAMES to DASKREYF_NO_ORDER.
 */
struct daskreyf *daskreyf_every(const char *program, const char *scene);

/*
 * The same with some orders alone: "--part" and "2/4" for the second of four parts, "--order" and what daskreyf_choices gave
 * for one, "--random" and "1000" for a thousand that are drawn, "--most" and "1000" for that many at most. NULL twice for all.
 * Where the environment has I3CBUS_ORDER, both calls try the order of these choices alone.
 */
struct daskreyf *daskreyf_every_of(const char *program, const char *scene, const char *option, const char *value);

/*
 * Begins the next order: the first call the first one, and a later call ends the run before it. False where no order begins:
 * all were tried, daskreyf_why has a refusal, or the bus is gone. The status of daskreyf_close says which.
 */
bool daskreyf_next(struct daskreyf *bus);

/* The number of the order, from 1; 0 before the first. */
unsigned long daskreyf_order(const struct daskreyf *bus);

/*
 * The program has nothing to do until something happens. 1 if something did, 0 if nothing is left to happen, -1 where the
 * line is refused or the bus is gone.
 */
int daskreyf_wait(struct daskreyf *bus);

/* What ran in this order so far, as a script of `i3cbus run`, like daskreyf_text. NULL if there is none. */
const char *daskreyf_script(struct daskreyf *bus);

/* The answers that the lines of this order took so far, by which I3CBUS_ORDER finds it again. Like daskreyf_text, NULL if none. */
const char *daskreyf_choices(struct daskreyf *bus);

/*
 * The text, 1 to 64 hexadecimal digits, stands for all that decides what the program does next. 1 where the program said so
 * before, with the bus and what is left to happen as they are now: then this run ends here, since what is behind it is tried
 * elsewhere, and daskreyf_next comes next. Else 0, or -1 where the line is refused.
 */
int daskreyf_mark(struct daskreyf *bus, const char *text);

#ifdef __cplusplus
}
#endif

#endif
