#define _POSIX_C_SOURCE 200809L

#include "daskreyf.h"

#include <ctype.h>
#include <errno.h>
#include <fcntl.h>
#include <inttypes.h>
#include <stdarg.h>
#include <stdio.h>
#include <stdlib.h>
#include <string.h>
#include <sys/socket.h>
#include <sys/types.h>
#include <sys/wait.h>
#include <unistd.h>

enum {
    LINE_ROOM = 320, /* the engine refuses lines of more than 256 bytes */
    FIRST_ROOM = 4096,
    ASKING_ROOM = 64 * (DASKREYF_NAME + 1) + 1,
    AS_ROOM = LINE_ROOM,
    QUEUE_ROOM = 4096, /* a pipe takes as much at once */
    FIRST_TURNS = 16,
    FIRST_FREE_DESCRIPTOR = 3,
    NOT_RUN = 127
};

/* A line of a program, and its answer. */
struct turn {
    char *line;
    char *answer;
    size_t length;
};

/* What a program sent that meets every order. */
struct run {
    struct turn *turns; /* of this run; and those of the run before that may come again */
    size_t count, room;
    size_t at; /* how many of them this run has come by */
    size_t same; /* how many are answered as in the run before */
    char queue[QUEUE_ROOM]; /* lines that were answered from these, and that the engine hasn't got yet */
    size_t queued;
};

struct daskreyf {
    pid_t program;
    int to, from;
    bool gone;
    bool every; /* every order of a scene */
    bool over; /* no other order begins */
    unsigned long order;
    struct run run;
    uint64_t number; /* of the last line that was sent, or is to be */
    char as[AS_ROOM]; /* what is put in front of the next line, or nothing */
    bool as_too_long;

    char *answer; /* what has come of the answer, with a NUL behind it */
    size_t length, room;
    const char *text; /* of the answer, what the line printed */
    const char *why;
    struct daskreyf_served served;
    char asking[ASKING_ROOM];
};

static const char *const result_names[] = {
    [DASKREYF_OK] = "Ok",
    [DASKREYF_BAD_LINE] = "BadLine",
    [DASKREYF_NO_BUS] = "NoBus",
    [DASKREYF_BUS_MADE] = "BusMade",
    [DASKREYF_NAME_TAKEN] = "NameTaken",
    [DASKREYF_NO_NAME] = "NoName",
    [DASKREYF_LEGACY_ADDRESS] = "LegacyAddress",
    [DASKREYF_LEGACY_TWICE] = "LegacyTwice",
    [DASKREYF_TOO_MANY_LEGACY] = "TooManyLegacy",
    [DASKREYF_IDENTITY_TWICE] = "IdentityTwice",
    [DASKREYF_TOO_MANY_DECLARED] = "TooManyDeclared",
    [DASKREYF_NOT_CAPABLE] = "NotCapable",
    [DASKREYF_SLOT_TAKEN] = "SlotTaken",
    [DASKREYF_NO_DEVICE] = "NoDevice",
    [DASKREYF_ACTIVE_STAYS] = "ActiveStays",
    [DASKREYF_IS_ACTIVE] = "IsActive",
    [DASKREYF_NO_ADDRESS] = "NoAddress",
    [DASKREYF_HAS_ADDRESS] = "HasAddress",
    [DASKREYF_BYTE_MISMATCH] = "ByteMismatch",
    [DASKREYF_MASKED] = "Masked",
    [DASKREYF_FULL] = "Full",
    [DASKREYF_SESSION_OPEN] = "SessionOpen",
    [DASKREYF_NO_SESSION] = "NoSession",
    [DASKREYF_NO_ANSWER] = "NoAnswer",
    [DASKREYF_BAD_ADDRESS] = "BadAddress",
    [DASKREYF_NO_END] = "NoEnd",
    [DASKREYF_TOO_LONG] = "TooLong",
    [DASKREYF_LIST_STALE] = "ListStale",
    [DASKREYF_NOT_ACTIVE] = "NotActive",
    [DASKREYF_MANY_FRAMES] = "ManyFrames",
    [DASKREYF_NO_PAST] = "NoPast",
    [DASKREYF_UNMET] = "Unmet",
    [DASKREYF_DIFFERS] = "Differs",
    [DASKREYF_MOST] = "Most",
    [DASKREYF_OVER] = "Over",
    [DASKREYF_NO_ORDER] = "NoOrder",
    [DASKREYF_REFUSED] = "Refused",
    [DASKREYF_BAD_ARGUMENT] = "BadArgument",
    [DASKREYF_GONE] = "Gone",
    [DASKREYF_NO_MEMORY] = "NoMemory",
};

const char *daskreyf_result_name(enum daskreyf_result result)
{
    return (size_t)result < sizeof result_names / sizeof result_names[0] ? result_names[result] : "Unknown";
}

/* The result of a refusal's text, which begins with its name. */
static enum daskreyf_result refusal_named(const char *why)
{
    size_t length = strcspn(why, " ");

    for (int result = DASKREYF_BAD_LINE; result < DASKREYF_REFUSED; result++)
        if (strlen(result_names[result]) == length && !strncmp(result_names[result], why, length))
            return (enum daskreyf_result)result;
    return DASKREYF_REFUSED;
}

/* The program */

/* The descriptor, moved above the standard ones, and closed in programs that are started later. */
static int moved_up(int descriptor)
{
    int up = fcntl(descriptor, F_DUPFD_CLOEXEC, FIRST_FREE_DESCRIPTOR);

    close(descriptor);
    return up;
}

static void close_pair(const int pair[2])
{
    for (int i = 0; i < 2; i++)
        if (pair[i] >= 0)
            close(pair[i]);
}

static bool move_pair_up(int pair[2])
{
    pair[0] = moved_up(pair[0]);
    pair[1] = moved_up(pair[1]);
    if (pair[0] >= 0 && pair[1] >= 0)
        return true;
    close_pair(pair);
    return false;
}

/* Lines go through a socket, as a write to a pipe whose reader has died would end the client by SIGPIPE. */
static bool open_pairs(int to[2], int from[2])
{
    if (socketpair(AF_UNIX, SOCK_STREAM, 0, to) || !move_pair_up(to))
        return false;
    if (!pipe(from) && move_pair_up(from))
        return true;
    close_pair(to);
    return false;
}

/* Runs the program with these words, the first of which is its own. */
static void become_program(char *const words[], int input, int output)
{
    if (dup2(input, STDIN_FILENO) >= 0 && dup2(output, STDOUT_FILENO) >= 0)
        execvp(words[0], words);
    _exit(NOT_RUN);
}

static bool start_program(struct daskreyf *bus, char *const words[])
{
    int to[2], from[2];

    if (!open_pairs(to, from))
        return false;
    bus->program = fork();
    if (bus->program == 0)
        become_program(words, to[1], from[1]);
    close(to[1]);
    close(from[1]);
    bus->to = to[0];
    bus->from = from[0];
    if (bus->program > 0)
        return true;
    close(bus->to);
    close(bus->from);
    return false;
}

static struct daskreyf *start_bus(char *const words[], bool every)
{
    struct daskreyf *bus = calloc(1, sizeof *bus);

    if (!bus)
        return NULL;
    bus->every = every;
    bus->text = bus->why = "";
    bus->room = FIRST_ROOM;
    bus->answer = malloc(bus->room);
    if (bus->answer && start_program(bus, words))
        return bus;
    free(bus->answer);
    free(bus);
    return NULL;
}

struct daskreyf *daskreyf_start(const char *program)
{
    char *const words[] = {(char *)program, (char *)"drive", NULL};

    return start_bus(words, false);
}

struct daskreyf *daskreyf_every(const char *program, const char *scene)
{
    return daskreyf_every_of(program, scene, NULL, NULL);
}

struct daskreyf *daskreyf_every_of(const char *program, const char *scene, const char *option, const char *value)
{
    const char *alone = getenv("I3CBUS_ORDER");
    bool is_alone = alone && *alone;
    char *const words[] = {
        (char *)program,
        (char *)"drive",
        (char *)"--every",
        (char *)scene,
        is_alone ? (char *)"--order" : (char *)option,
        is_alone ? (char *)alone : (char *)value,
        NULL,
    };

    return start_bus(words, true);
}

/* Keeps the first turns of a run, and no other ones. */
static void forget_turns(struct run *run, size_t count)
{
    while (run->count > count) {
        run->count--;
        free(run->turns[run->count].line);
        free(run->turns[run->count].answer);
    }
}

int daskreyf_close(struct daskreyf *bus)
{
    int status = 0;

    close(bus->to);
    if (bus->gone) /* it may be writing what nobody reads */
        close(bus->from);
    while (waitpid(bus->program, &status, 0) < 0 && errno == EINTR)
        ;
    if (!bus->gone)
        close(bus->from);
    forget_turns(&bus->run, 0);
    free(bus->run.turns);
    free(bus->answer);
    free(bus);
    return WIFEXITED(status) ? WEXITSTATUS(status) : -WTERMSIG(status);
}

/* Lines and answers */

static bool send_all(struct daskreyf *bus, const char *bytes, size_t count)
{
    while (count > 0) {
        ssize_t sent = send(bus->to, bytes, count, MSG_NOSIGNAL);

        if (sent < 0 && errno != EINTR)
            return false;
        if (sent > 0) {
            bytes += sent;
            count -= (size_t)sent;
        }
    }
    return true;
}

/* Sends the lines that wait and this one behind them in one piece, each with its line feed. */
static enum daskreyf_result send_whole(struct daskreyf *bus, const char *line)
{
    size_t length = strlen(line), queued = bus->run.queued;
    char *whole = malloc(queued + length + 1);
    bool sent;

    if (!whole)
        return DASKREYF_NO_MEMORY;
    memcpy(whole, bus->run.queue, queued);
    memcpy(whole + queued, line, length);
    whole[queued + length] = '\n';
    sent = send_all(bus, whole, queued + length + 1);
    free(whole);
    bus->run.queued = 0;
    return sent ? DASKREYF_OK : DASKREYF_GONE;
}

/* Makes room for a piece of the answer and its NUL. */
static bool make_room(struct daskreyf *bus)
{
    char *larger;

    if (bus->room - bus->length > FIRST_ROOM / 2)
        return true;
    larger = realloc(bus->answer, 2 * bus->room);
    if (!larger)
        return false;
    bus->answer = larger;
    bus->room *= 2;
    return true;
}

static bool receive_piece(struct daskreyf *bus)
{
    ssize_t got;

    do
        got = read(bus->from, bus->answer + bus->length, bus->room - bus->length - 1);
    while (got < 0 && errno == EINTR);
    if (got <= 0)
        return false;
    bus->length += (size_t)got;
    bus->answer[bus->length] = '\0';
    return true;
}

static bool begins(const char *text, const char *word)
{
    return !strncmp(text, word, strlen(word));
}

/* What is behind this number, if the text begins with it. */
static const char *behind_number(const char *text, uint64_t number)
{
    uint64_t found = 0;
    const char *end = text;

    for (; isdigit((unsigned char)*end); end++)
        found = 10 * found + (uint64_t)(*end - '0');
    return end > text && found == number ? end : NULL;
}

/* Whether the line ends the answer to the line with this number. No other line looks so, whatever devices are called. */
static bool is_last(uint64_t number, const char *line)
{
    const char *end;

    if (begins(line, "ok ")) {
        end = behind_number(line + strlen("ok "), number);
        return end && *end == '\n';
    }
    if (!begins(line, "refused "))
        return false;
    end = behind_number(line + strlen("refused "), number);
    return end && *end == ' ' && isupper((unsigned char)end[1]);
}

/* Whether the answer is whole: nothing comes behind its last line before another one is sent. */
static bool is_whole(const struct daskreyf *bus)
{
    const char *line = bus->answer + bus->length - 1;

    if (*line != '\n')
        return false;
    while (line > bus->answer && line[-1] != '\n')
        line--;
    return is_last(bus->number, line);
}

static enum daskreyf_result receive(struct daskreyf *bus)
{
    bus->length = 0;
    do {
        if (!make_room(bus))
            return DASKREYF_NO_MEMORY;
        if (!receive_piece(bus))
            return DASKREYF_GONE;
    } while (!is_whole(bus));
    bus->answer[--bus->length] = '\0';
    return DASKREYF_OK;
}

/* An answer that has not what it must have by docs/FORMATS.md: the bus is over. */
static enum daskreyf_result broken(struct daskreyf *bus)
{
    bus->gone = true;
    return DASKREYF_GONE;
}

/* The last line of the text. */
static const char *last_line(const char *text)
{
    const char *feed = strrchr(text, '\n');

    return feed ? feed + 1 : text;
}

/* The line behind this one, or NULL. */
static const char *next_line(const char *line)
{
    const char *feed = strchr(line, '\n');

    return feed ? feed + 1 : NULL;
}

/* Cuts the text before this line, which is its last. */
static void cut_line(struct daskreyf *bus, const char *line)
{
    if (line == bus->text)
        bus->text += strlen(line);
    else
        bus->answer[line - bus->answer - 1] = '\0';
}

/* The line `asking`. What looks so behind a line that prints a name is a device of this name. */
static void take_asking(struct daskreyf *bus, const char *sent)
{
    const char *line = last_line(bus->text);

    if (begins(sent, "legacy ") || begins(sent, "main ") || begins(sent, "attach "))
        return;
    if (strcmp(line, "asking") && !begins(line, "asking "))
        return;
    line += strlen("asking");
    snprintf(bus->asking, sizeof bus->asking, "%s", *line ? line + 1 : line);
    cut_line(bus, last_line(bus->text));
}

/* The record that the line added to the log. */
static bool take_record(struct daskreyf *bus, const char *sent)
{
    struct daskreyf_record *record = &bus->served.record;
    const char *line = last_line(bus->text);
    unsigned byte;
    int end = 0;

    if (begins(sent, "show") || !begins(line, "record ")
        || sscanf(line, "record %lu slot %u raise %lu at %2" SCNx8 " byte %n", &record->number, &record->slot,
               &record->raised, &record->address, &end) != 4
        || !end)
        return false;
    record->byte = sscanf(line + end, "%2x", &byte) == 1 ? (int)byte : DASKREYF_NO_BYTE;
    bus->served.request = DASKREYF_RECORDED;
    cut_line(bus, line);
    return true;
}

/* Whether the first line of the text is this one. */
static bool is_first(const char *text, const char *line)
{
    return begins(text, line) && (text[strlen(line)] == '\n' || !text[strlen(line)]);
}

static void take_served(struct daskreyf *bus, const char *sent)
{
    struct daskreyf_served *served = &bus->served;

    if (take_record(bus, sent))
        return;
    if (is_first(bus->text, "turned down"))
        served->request = DASKREYF_TURNED_DOWN;
    else if (is_first(bus->text, "torn"))
        served->request = DASKREYF_TORN;
    else if (is_first(bus->text, "joining"))
        served->request = DASKREYF_JOINING;
    else if (begins(bus->text, "wants role ") && sscanf(bus->text, "wants role %2" SCNx8, &served->address) == 1)
        served->request = DASKREYF_WANTS_ROLE;
}

/* Who asks, the record, and what else the frame served. */
static void take_frame(struct daskreyf *bus, const char *sent)
{
    take_asking(bus, sent);
    take_served(bus, sent);
}

/* The same where an expectation doesn't hold. The line that says so is behind all that, and stays the text's last one. */
static void take_unmet_frame(struct daskreyf *bus, const char *sent)
{
    char *unmet = bus->answer + (last_line(bus->text) - bus->answer);
    char *end;

    cut_line(bus, unmet);
    take_frame(bus, sent);
    if (!*bus->text) {
        bus->text = unmet;
        return;
    }
    end = bus->answer + (bus->text - bus->answer) + strlen(bus->text);
    *end = '\n';
    memmove(end + 1, unmet, strlen(unmet) + 1);
}

/* Takes the answer apart: its last line, what the frame did, and what is left, which is what the line printed. */
static enum daskreyf_result take_answer(struct daskreyf *bus, const char *sent)
{
    enum daskreyf_result result = DASKREYF_OK;
    const char *last;

    bus->text = bus->answer;
    last = last_line(bus->text);
    cut_line(bus, last);
    if (!begins(last, "ok ")) {
        bus->why = strchr(strchr(last, ' ') + 1, ' ') + 1;
        result = refusal_named(bus->why);
    }
    if (result == DASKREYF_UNMET)
        take_unmet_frame(bus, sent);
    else
        take_frame(bus, sent);
    return result;
}

/*
 * The lines of a run in every order
 *
 * Where another run begins, the engine tells how many of its lines are answered as in the run before (`same`). These are
 * answered from what was kept of that run. They wait, and go to the engine together with the next line that isn't: so it
 * finds a program that sends another line here, as ever.
 */

/* Whether the line is none of the program's to the bus: the engine's own word, or a comment. */
static bool is_aside(const char *line)
{
    return !*line || *line == '#' || !strcmp(line, "again") || !strcmp(line, "script") || !strcmp(line, "choices")
        || !strcmp(line, "same");
}

/* Whether the line didn't come to the bus. */
static bool is_unheard(enum daskreyf_result result)
{
    return result == DASKREYF_BAD_LINE || result == DASKREYF_MANY_FRAMES || result == DASKREYF_NO_PAST;
}

/* Whether a mark with this answer leaves the run. */
static bool is_left(const char *text)
{
    return !strcmp(text, "known");
}

/* Whether the run before sent this line here, and was answered as this run is. */
static bool is_known(const struct run *run, const char *line)
{
    return run->at < run->same && !strcmp(run->turns[run->at].line, line);
}

/* Sends the lines that wait, of which the last one has the bus' number. What they are answered is known. */
static enum daskreyf_result send_queue(struct daskreyf *bus)
{
    bool sent = send_all(bus, bus->run.queue, bus->run.queued);

    bus->run.queued = 0;
    return sent ? receive(bus) : DASKREYF_GONE;
}

/* Lets a line wait. It is one that the engine took before, so it has less than LINE_ROOM bytes. */
static enum daskreyf_result queue_line(struct daskreyf *bus, const char *line)
{
    struct run *run = &bus->run;
    size_t length = strlen(line);
    enum daskreyf_result result = DASKREYF_OK;

    if (QUEUE_ROOM - run->queued < length + 1)
        result = send_queue(bus);
    memcpy(run->queue + run->queued, line, length);
    run->queue[run->queued + length] = '\n';
    run->queued += length + 1;
    return result;
}

/* Answers a line as in the run before. The room was enough for that answer once. */
static enum daskreyf_result answer_known(struct daskreyf *bus, const char *line)
{
    const struct turn *turn = &bus->run.turns[bus->run.at];
    enum daskreyf_result result = queue_line(bus, line);

    bus->run.at++;
    bus->number++;
    memcpy(bus->answer, turn->answer, turn->length + 1);
    bus->length = turn->length;
    return result == DASKREYF_OK ? take_answer(bus, line) : broken(bus);
}

/* Cuts the answers to the lines that waited, in front of the one to this line. */
static void cut_known(struct daskreyf *bus)
{
    const char *line = bus->answer;

    while (line && !is_last(bus->number - 1, line))
        line = next_line(line);
    line = line ? next_line(line) : NULL;
    if (!line)
        return;
    bus->length -= (size_t)(line - bus->answer);
    memmove(bus->answer, line, bus->length + 1);
}

static bool make_turn_room(struct run *run)
{
    size_t room = run->room ? 2 * run->room : FIRST_TURNS;
    struct turn *larger;

    if (run->count < run->room)
        return true;
    larger = realloc(run->turns, room * sizeof *larger);
    if (!larger)
        return false;
    run->turns = larger;
    run->room = room;
    return true;
}

/* Keeps a line of this run with its answer, in place of what the run before sent from here on. */
static enum daskreyf_result keep_turn(struct daskreyf *bus, const char *line)
{
    struct run *run = &bus->run;
    struct turn turn = {strdup(line), malloc(bus->length + 1), bus->length};

    forget_turns(run, run->at);
    if (!turn.line || !turn.answer || !make_turn_room(run)) {
        free(turn.line);
        free(turn.answer);
        return DASKREYF_NO_MEMORY;
    }
    memcpy(turn.answer, bus->answer, bus->length + 1);
    run->turns[run->count++] = turn;
    run->at = run->count;
    return DASKREYF_OK;
}

/* Takes a turn back whose line didn't come to the bus. */
static void take_turn_back(struct run *run)
{
    run->at--;
    forget_turns(run, run->at);
}

/* Sends a line behind those that wait, and receives its answer. */
static enum daskreyf_result ask(struct daskreyf *bus, const char *line)
{
    bool waited = bus->run.queued > 0;
    enum daskreyf_result result;

    bus->number++;
    result = send_whole(bus, line);
    if (result == DASKREYF_OK)
        result = receive(bus);
    if (result == DASKREYF_OK && waited)
        cut_known(bus);
    return result;
}

static enum daskreyf_result exchange(struct daskreyf *bus, const char *line)
{
    bool is_kept = bus->every && !is_aside(line);
    enum daskreyf_result result;

    bus->text = bus->why = "";
    memset(&bus->served, 0, sizeof bus->served);
    if (bus->gone)
        return DASKREYF_GONE;
    if (is_known(&bus->run, line))
        return answer_known(bus, line);
    result = ask(bus, line);
    if (result == DASKREYF_OK && is_kept)
        result = keep_turn(bus, line);
    if (result != DASKREYF_OK) {
        bus->gone = true;
        return result;
    }
    result = take_answer(bus, line);
    if (is_kept && (is_unheard(result) || (begins(line, "mark ") && is_left(bus->text))))
        take_turn_back(&bus->run);
    return result;
}

/* Nothing is sent, also of what daskreyf_as has put in front of it. */
static enum daskreyf_result bad_argument(struct daskreyf *bus)
{
    bus->as[0] = '\0';
    return DASKREYF_BAD_ARGUMENT;
}

struct daskreyf *daskreyf_as(struct daskreyf *bus, const char *name)
{
    int length = snprintf(bus->as, sizeof bus->as, "as %s ", name);

    bus->as_too_long = length < 0 || (size_t)length >= sizeof bus->as;
    return bus;
}

/* Sends a line behind what daskreyf_as has put in front of it. */
static enum daskreyf_result exchange_as(struct daskreyf *bus, const char *line)
{
    size_t front = strlen(bus->as), length = strlen(line);
    char *whole = malloc(front + length + 1);
    enum daskreyf_result result;

    if (!whole)
        return DASKREYF_NO_MEMORY;
    memcpy(whole, bus->as, front);
    memcpy(whole + front, line, length + 1);
    result = bus->as_too_long || strchr(whole, '\n') ? bad_argument(bus) : exchange(bus, whole);
    bus->as[0] = '\0';
    free(whole);
    return result;
}

enum daskreyf_result daskreyf_line(struct daskreyf *bus, const char *line)
{
    if (bus->as[0])
        return exchange_as(bus, line);
    return strchr(line, '\n') ? DASKREYF_BAD_ARGUMENT : exchange(bus, line);
}

static enum daskreyf_result send_line(struct daskreyf *bus, const char *format, ...)
{
    char line[LINE_ROOM];
    va_list words;
    int length;

    va_start(words, format);
    length = vsnprintf(line, sizeof line, format, words);
    va_end(words);
    if (length < 0 || length >= LINE_ROOM)
        return bad_argument(bus);
    return daskreyf_line(bus, line);
}

const char *daskreyf_text(const struct daskreyf *bus)
{
    return bus->text;
}

const char *daskreyf_why(const struct daskreyf *bus)
{
    return bus->why;
}

const struct daskreyf_served *daskreyf_served(const struct daskreyf *bus)
{
    return &bus->served;
}

const char *daskreyf_asking(const struct daskreyf *bus)
{
    return bus->asking;
}

/* The start */

enum daskreyf_result daskreyf_legacy(struct daskreyf *bus, const char *name, uint8_t address, uint8_t lvr)
{
    return send_line(bus, "legacy %s %02X %02X", name, address, lvr);
}

enum daskreyf_result daskreyf_declare(
    struct daskreyf *bus, uint8_t address, const struct daskreyf_identity *identity)
{
    return send_line(bus, "declare %02X %012" PRIX64 " %02X %02X", address, identity->pid, identity->bcr, identity->dcr);
}

static enum daskreyf_result place(
    struct daskreyf *bus, const char *word, const char *name, const struct daskreyf_identity *identity)
{
    return send_line(bus, "%s %s %012" PRIX64 " %02X %02X%s", word, name, identity->pid, identity->bcr, identity->dcr,
        identity->declines ? " decline" : "");
}

enum daskreyf_result daskreyf_main(struct daskreyf *bus, const char *name, const struct daskreyf_identity *identity)
{
    return place(bus, "main", name, identity);
}

/* Devices */

enum daskreyf_result daskreyf_attach(
    struct daskreyf *bus, const char *name, const struct daskreyf_identity *identity, unsigned *slot)
{
    enum daskreyf_result result = place(bus, "attach", name, identity);
    unsigned found;

    if (result != DASKREYF_OK)
        return result;
    if (sscanf(bus->text, "%*s slot %u", &found) != 1)
        return broken(bus);
    if (slot)
        *slot = found;
    return DASKREYF_OK;
}

enum daskreyf_result daskreyf_drop(struct daskreyf *bus, const char *name)
{
    return send_line(bus, "drop %s", name);
}

enum daskreyf_result daskreyf_cut(struct daskreyf *bus, const char *name, uint16_t bit)
{
    return send_line(bus, "cut %s %u", name, (unsigned)bit);
}

enum daskreyf_result daskreyf_raise(struct daskreyf *bus, const char *name, int byte, unsigned long *number)
{
    enum daskreyf_result result;
    unsigned long found;

    if (byte == DASKREYF_NO_BYTE)
        result = send_line(bus, "raise %s", name);
    else
        result = send_line(bus, "raise %s %02X", name, (unsigned)byte);
    if (result != DASKREYF_OK)
        return result;
    if (sscanf(bus->text, "raised %lu", &found) != 1)
        return broken(bus);
    if (number)
        *number = found;
    return DASKREYF_OK;
}

enum daskreyf_result daskreyf_ask_join(struct daskreyf *bus, const char *name)
{
    return send_line(bus, "ask-join %s", name);
}

enum daskreyf_result daskreyf_ask_role(struct daskreyf *bus, const char *name)
{
    return send_line(bus, "ask-role %s", name);
}

/* The controller */

enum daskreyf_result daskreyf_policy(struct daskreyf *bus, enum daskreyf_policy policy)
{
    static const char *const words[] = {
        [DASKREYF_ACCEPT_ALL] = "all",
        [DASKREYF_ACCEPT_NONE] = "none",
        [DASKREYF_ACCEPT_JOINS] = "joins",
        [DASKREYF_ACCEPT_ROLES] = "roles",
        [DASKREYF_ACCEPT_INTERRUPTS] = "interrupts",
    };

    if ((size_t)policy >= sizeof words / sizeof words[0])
        return bad_argument(bus);
    return send_line(bus, "policy %s", words[policy]);
}

enum daskreyf_result daskreyf_policy_of(struct daskreyf *bus, uint8_t kinds)
{
    if (kinds & ~(DASKREYF_INTERRUPTS | DASKREYF_ROLES | DASKREYF_JOINS))
        return bad_argument(bus);
    if (!kinds)
        return daskreyf_policy(bus, DASKREYF_ACCEPT_NONE);
    return send_line(bus, "policy%s%s%s", kinds & DASKREYF_JOINS ? " joins" : "", kinds & DASKREYF_ROLES ? " roles" : "",
        kinds & DASKREYF_INTERRUPTS ? " interrupts" : "");
}

enum daskreyf_result daskreyf_policy_but(
    struct daskreyf *bus, uint8_t kinds, const char *const *names, size_t count)
{
    char behind[LINE_ROOM] = "";
    size_t length = 0, at;

    if (!kinds || kinds & ~(DASKREYF_INTERRUPTS | DASKREYF_ROLES | DASKREYF_JOINS) || !count || count > DASKREYF_EXCEPTED)
        return bad_argument(bus);
    for (at = 0; at < count; at++) {
        if (length + 1 + strlen(names[at]) >= sizeof behind)
            return bad_argument(bus);
        length += (size_t)sprintf(behind + length, " %s", names[at]);
    }
    return send_line(bus, "policy%s%s%s but%s", kinds & DASKREYF_JOINS ? " joins" : "",
        kinds & DASKREYF_ROLES ? " roles" : "", kinds & DASKREYF_INTERRUPTS ? " interrupts" : "", behind);
}

enum daskreyf_result daskreyf_serve(struct daskreyf *bus)
{
    return daskreyf_line(bus, "serve");
}

static enum daskreyf_result set_events(struct daskreyf *bus, const char *word, uint8_t kinds, int address)
{
    if (address == DASKREYF_ALL)
        return send_line(bus, "%s %02X", word, kinds);
    return send_line(bus, "%s %02X %02X", word, kinds, (unsigned)address);
}

enum daskreyf_result daskreyf_enec(struct daskreyf *bus, uint8_t kinds, int address)
{
    return set_events(bus, "enec", kinds, address);
}

enum daskreyf_result daskreyf_disec(struct daskreyf *bus, uint8_t kinds, int address)
{
    return set_events(bus, "disec", kinds, address);
}

enum daskreyf_result daskreyf_reset(struct daskreyf *bus)
{
    return daskreyf_line(bus, "reset");
}

enum daskreyf_result daskreyf_list(struct daskreyf *bus)
{
    return daskreyf_line(bus, "list");
}

/* The value of a hexadecimal digit, or -1. */
static int value_of(char digit)
{
    static const char digits[] = "0123456789ABCDEF";
    const char *found = digit ? strchr(digits, digit) : NULL;

    return found ? (int)(found - digits) : -1;
}

/* A byte of two digits. */
static bool read_byte(const char *digits, uint8_t *byte)
{
    int high = value_of(digits[0]), low = high < 0 ? -1 : value_of(digits[1]);

    if (low < 0)
        return false;
    *byte = (uint8_t)(16 * high + low);
    return true;
}

/* Takes the bytes of the answer: behind this word from `least` to `most` of them, which are stored: `count` of them. */
static enum daskreyf_result told_bytes(
    struct daskreyf *bus, const char *told, uint8_t *bytes, size_t least, size_t most, size_t *count)
{
    const char *line = last_line(bus->text);
    const char *digits = line + strlen(told) + 1;

    if (!begins(line, told) || line[strlen(told)] != ' ')
        return broken(bus);
    *count = strlen(digits) / 2;
    if (*count < least || *count > most)
        return broken(bus);
    for (size_t i = 0; i < *count; i++)
        if (!read_byte(digits + 2 * i, &bytes[i]))
            return broken(bus);
    return DASKREYF_OK;
}

enum daskreyf_result daskreyf_read(
    struct daskreyf *bus, uint8_t address, uint8_t registers[DASKREYF_REGISTERS], size_t *count)
{
    enum daskreyf_result result = send_line(bus, "read %02X", address);
    size_t had = 0;

    if (result == DASKREYF_OK)
        result = told_bytes(bus, "bytes", registers, 1, DASKREYF_REGISTERS, &had);
    if (result == DASKREYF_OK && count)
        *count = had;
    return result;
}

enum daskreyf_result daskreyf_write(struct daskreyf *bus, uint8_t address, const uint8_t *bytes, size_t count)
{
    char digits[2 * (DASKREYF_REGISTERS + 1) + 1] = "";

    /* one byte more than the engine takes is enough for its refusal */
    for (size_t i = 0; i < count && i <= DASKREYF_REGISTERS; i++)
        snprintf(digits + 2 * i, sizeof digits - 2 * i, "%02X", bytes[i]);
    return send_line(bus, "write %02X%s%s", address, count ? " " : "", digits);
}

enum daskreyf_result daskreyf_setdasa(struct daskreyf *bus, uint8_t fixed, uint8_t address)
{
    return send_line(bus, "setdasa %02X %02X", fixed, address);
}

enum daskreyf_result daskreyf_setnewda(struct daskreyf *bus, uint8_t old, uint8_t address)
{
    return send_line(bus, "setnewda %02X %02X", old, address);
}

/*
 * Asks the device at an address by a line of this word, which begins with `get`. The answer is the rest of the word, and from
 * `least` to `most` bytes, which are stored: `count` of them.
 */
static enum daskreyf_result get_bytes(
    struct daskreyf *bus, const char *word, uint8_t address, uint8_t *bytes, size_t least, size_t most, size_t *count)
{
    enum daskreyf_result result = send_line(bus, "%s %02X", word, address);

    if (result != DASKREYF_OK)
        return result;
    return told_bytes(bus, word + strlen("get"), bytes, least, most, count);
}

/* The same of a datum that has exactly this number of bytes. */
static enum daskreyf_result get_datum(struct daskreyf *bus, const char *word, uint8_t address, uint8_t *bytes, size_t count)
{
    size_t had;

    return get_bytes(bus, word, address, bytes, count, count, &had);
}

enum daskreyf_result daskreyf_get_pid(struct daskreyf *bus, uint8_t address, uint64_t *pid)
{
    uint8_t bytes[6];
    enum daskreyf_result result = get_datum(bus, "getpid", address, bytes, sizeof bytes);

    if (result != DASKREYF_OK)
        return result;
    *pid = 0;
    for (size_t i = 0; i < sizeof bytes; i++)
        *pid = *pid << 8 | bytes[i];
    return DASKREYF_OK;
}

enum daskreyf_result daskreyf_get_bcr(struct daskreyf *bus, uint8_t address, uint8_t *bcr)
{
    return get_datum(bus, "getbcr", address, bcr, 1);
}

enum daskreyf_result daskreyf_get_dcr(struct daskreyf *bus, uint8_t address, uint8_t *dcr)
{
    return get_datum(bus, "getdcr", address, dcr, 1);
}

enum daskreyf_result daskreyf_get_status(struct daskreyf *bus, uint8_t address, bool *waits)
{
    uint8_t bytes[2];
    enum daskreyf_result result = get_datum(bus, "getstatus", address, bytes, sizeof bytes);

    if (result == DASKREYF_OK)
        *waits = bytes[1] != 0;
    return result;
}

enum daskreyf_result daskreyf_get_mwl(struct daskreyf *bus, uint8_t address, uint16_t *length)
{
    uint8_t bytes[2];
    enum daskreyf_result result = get_datum(bus, "getmwl", address, bytes, sizeof bytes);

    if (result == DASKREYF_OK)
        *length = (uint16_t)(bytes[0] << 8 | bytes[1]);
    return result;
}

enum daskreyf_result daskreyf_get_mrl(struct daskreyf *bus, uint8_t address, uint16_t *length, uint8_t *interrupt)
{
    uint8_t bytes[3] = {0};
    size_t count;
    enum daskreyf_result result = get_bytes(bus, "getmrl", address, bytes, 2, sizeof bytes, &count);

    if (result != DASKREYF_OK)
        return result;
    *length = (uint16_t)(bytes[0] << 8 | bytes[1]);
    if (interrupt)
        *interrupt = bytes[2];
    return DASKREYF_OK;
}

enum daskreyf_result daskreyf_get_mxds(struct daskreyf *bus, uint8_t address, uint8_t limits[2])
{
    return get_datum(bus, "getmxds", address, limits, 2);
}

enum daskreyf_result daskreyf_get_caps(struct daskreyf *bus, uint8_t address, uint8_t capabilities[2])
{
    return get_datum(bus, "getcaps", address, capabilities, 2);
}

static enum daskreyf_result set_length(struct daskreyf *bus, const char *word, uint8_t length, int address)
{
    if (address == DASKREYF_ALL)
        return send_line(bus, "%s %u", word, (unsigned)length);
    return send_line(bus, "%s %u %02X", word, (unsigned)length, (unsigned)address);
}

enum daskreyf_result daskreyf_set_mwl(struct daskreyf *bus, uint8_t length, int address)
{
    return set_length(bus, "setmwl", length, address);
}

enum daskreyf_result daskreyf_set_mrl(struct daskreyf *bus, uint8_t length, int address)
{
    return set_length(bus, "setmrl", length, address);
}

enum daskreyf_result daskreyf_handover(struct daskreyf *bus, uint8_t address)
{
    return send_line(bus, "handover %02X", address);
}

/* Assignments */

static bool read_assigned(const char *line, struct daskreyf_assigned *assigned)
{
    return sscanf(line, "assigned %2" SCNx8 " %12" SCNx64 " %2" SCNx8 " %2" SCNx8, &assigned->address, &assigned->pid,
               &assigned->bcr, &assigned->dcr) == 4;
}

/* The devices that the last answer tells, behind the `count` that are there. */
static void take_assigned(struct daskreyf *bus, struct daskreyf_assigned *assigned, size_t room, size_t *count)
{
    struct daskreyf_assigned one;

    for (const char *line = bus->text; line; line = next_line(line)) {
        if (!read_assigned(line, &one))
            continue;
        if (*count < room)
            assigned[*count] = one;
        ++*count;
    }
}

/* Sends a line of an assignment as the controller that all of it is sent as, or as the active one. */
static enum daskreyf_result line_as(struct daskreyf *bus, const char *as, const char *line)
{
    strcpy(bus->as, as);
    return daskreyf_line(bus, line);
}

/* The rounds of an open assignment, until no device is left. */
static enum daskreyf_result play_rounds(
    struct daskreyf *bus, const char *as, struct daskreyf_assigned *assigned, size_t room, size_t *count)
{
    enum daskreyf_result result;

    do {
        result = line_as(bus, as, "round");
        if (result == DASKREYF_OK)
            take_assigned(bus, assigned, room, count);
    } while (result == DASKREYF_OK && strcmp(last_line(bus->text), "done"));
    return result;
}

/* A whole assignment frame by frame. What it has served is what its opening did. */
static enum daskreyf_result play_assignment(
    struct daskreyf *bus, struct daskreyf_assigned *assigned, size_t room, size_t *count)
{
    enum daskreyf_result result, ended;
    struct daskreyf_served served;
    char as[AS_ROOM];

    strcpy(as, bus->as);
    result = daskreyf_line(bus, "open");
    if (result != DASKREYF_OK)
        return result;
    served = bus->served;
    result = play_rounds(bus, as, assigned, room, count);
    if (result != DASKREYF_OK && result != DASKREYF_NO_ADDRESS)
        return result;
    ended = line_as(bus, as, "end");
    if (ended != DASKREYF_OK)
        return ended;
    bus->served = served;
    if (result == DASKREYF_NO_ADDRESS)
        bus->why = daskreyf_result_name(result);
    return result;
}

enum daskreyf_result daskreyf_daa(struct daskreyf *bus, struct daskreyf_assigned *assigned, size_t room, size_t *count)
{
    enum daskreyf_result result;

    *count = 0;
    if (bus->every)
        return play_assignment(bus, assigned, room, count);
    result = daskreyf_line(bus, "daa");
    take_assigned(bus, assigned, room, count);
    return result;
}

enum daskreyf_result daskreyf_open(struct daskreyf *bus)
{
    return daskreyf_line(bus, "open");
}

enum daskreyf_result daskreyf_round(
    struct daskreyf *bus, enum daskreyf_round *round, struct daskreyf_assigned *assigned)
{
    enum daskreyf_result result = daskreyf_line(bus, "round");
    const char *line = last_line(bus->text);

    if (result != DASKREYF_OK)
        return result;
    if (read_assigned(line, assigned))
        *round = DASKREYF_ASSIGNED;
    else
        *round = strcmp(line, "done") ? DASKREYF_NOBODY : DASKREYF_DONE;
    return DASKREYF_OK;
}

enum daskreyf_result daskreyf_end(struct daskreyf *bus)
{
    return daskreyf_line(bus, "end");
}

/* What is looked at */

/* Reads `NAME ADDR waiting N`. */
static bool read_device(const char *line, struct daskreyf_member *device)
{
    char address[3];
    unsigned value;

    if (sscanf(line, "%16s %2s waiting %u", device->name, address, &device->waiting) != 3)
        return false;
    device->address = sscanf(address, "%2x", &value) == 1 ? (int)value : DASKREYF_UNADDRESSED;
    return true;
}

/* Reads `NAME ADDR legacy`. */
static bool read_legacy(const char *line, struct daskreyf_member *legacy)
{
    unsigned value;
    int end = 0;

    if (sscanf(line, "%16s %2x legacy%n", legacy->name, &value, &end) != 2 || !end)
        return false;
    legacy->address = (int)value;
    legacy->waiting = 0;
    return true;
}

/* Reads the lines of `show` into the state. */
static bool read_state(const char *line, struct daskreyf_state *state)
{
    if (sscanf(line, "active %2" SCNx8, &state->active) != 1)
        return false;
    line = next_line(line);
    for (; line && state->device_count < DASKREYF_SLOTS; line = next_line(line))
        if (read_device(line, &state->devices[state->device_count]))
            state->device_count++;
        else
            break;
    for (; line && state->legacy_count < DASKREYF_LEGACIES; line = next_line(line))
        if (read_legacy(line, &state->legacies[state->legacy_count]))
            state->legacy_count++;
        else
            break;
    return line && sscanf(line, "records %lu", &state->record_count) == 1;
}

/* What `show` came to, as the state. */
static enum daskreyf_result shown(struct daskreyf *bus, enum daskreyf_result result, struct daskreyf_state *state)
{
    memset(state, 0, sizeof *state);
    if (result != DASKREYF_OK)
        return result;
    return read_state(bus->text, state) ? DASKREYF_OK : broken(bus);
}

enum daskreyf_result daskreyf_show(struct daskreyf *bus, struct daskreyf_state *state)
{
    return shown(bus, daskreyf_line(bus, "show"), state);
}

enum daskreyf_result daskreyf_show_from(struct daskreyf *bus, uint64_t first, struct daskreyf_state *state)
{
    return shown(bus, send_line(bus, "show %" PRIu64, first), state);
}

enum daskreyf_result daskreyf_forget(struct daskreyf *bus, uint64_t last)
{
    return send_line(bus, "forget %" PRIu64, last);
}

enum daskreyf_result daskreyf_show_all(struct daskreyf *bus)
{
    return daskreyf_line(bus, "show all");
}

enum daskreyf_result daskreyf_symbols(struct daskreyf *bus)
{
    return daskreyf_line(bus, "symbols");
}

enum daskreyf_result daskreyf_frames(struct daskreyf *bus, uint16_t count)
{
    return send_line(bus, "frames %u", (unsigned)count);
}

/* Every order */

/* Takes the answer to `same`, which came behind the one to `again`: how many lines of the next run are answered as in this one. */
static void take_same(struct daskreyf *bus)
{
    const char *line = bus->answer;
    struct run *run = &bus->run;

    run->at = run->same = 0;
    while (line && !is_last(bus->number - 1, line))
        line = next_line(line);
    line = line ? next_line(line) : NULL;
    if (!line)
        return;
    if (sscanf(line, "same %zu", &run->same) == 1 && run->same > run->count)
        run->same = run->count;
    bus->length = (size_t)(line - bus->answer) - 1;
    bus->answer[bus->length] = '\0';
}

/* Ends a run, and asks in the same breath what stays as it was in the next one. */
static enum daskreyf_result exchange_again(struct daskreyf *bus)
{
    enum daskreyf_result result = bus->gone ? DASKREYF_GONE : DASKREYF_OK;

    bus->text = bus->why = "";
    memset(&bus->served, 0, sizeof bus->served);
    if (result == DASKREYF_OK && bus->run.queued)
        result = send_queue(bus);
    if (result == DASKREYF_OK)
        result = send_whole(bus, "again\nsame");
    bus->number += 2;
    if (result == DASKREYF_OK)
        result = receive(bus);
    if (result != DASKREYF_OK) {
        bus->gone = true;
        return result;
    }
    take_same(bus);
    return take_answer(bus, "again");
}

/* Ends the run before, and begins the next one, in whose beginning nobody is known to ask. */
static bool begin_again(struct daskreyf *bus)
{
    if (exchange_again(bus) != DASKREYF_OK)
        return false;
    bus->asking[0] = '\0';
    if (sscanf(bus->text, "order %lu", &bus->order) == 1)
        return true;
    if (!begins(bus->text, "all ") && !begins(bus->text, "tried "))
        broken(bus);
    return false;
}

bool daskreyf_next(struct daskreyf *bus)
{
    if (bus->over || !bus->every)
        return false;
    if (bus->order == 0)
        bus->order = 1;
    else
        bus->over = !begin_again(bus);
    return !bus->over;
}

unsigned long daskreyf_order(const struct daskreyf *bus)
{
    return bus->order;
}

int daskreyf_wait(struct daskreyf *bus)
{
    if (daskreyf_line(bus, "wait") != DASKREYF_OK)
        return -1;
    return !strcmp(bus->text, "happened");
}

int daskreyf_mark(struct daskreyf *bus, const char *text)
{
    if (send_line(bus, "mark %s", text) != DASKREYF_OK)
        return -1;
    return is_left(bus->text);
}

const char *daskreyf_script(struct daskreyf *bus)
{
    return daskreyf_line(bus, "script") == DASKREYF_OK ? bus->text : NULL;
}

const char *daskreyf_choices(struct daskreyf *bus)
{
    static const char word[] = "choices ";

    if (daskreyf_line(bus, "choices") != DASKREYF_OK)
        return NULL;
    return begins(bus->text, word) ? bus->text + strlen(word) : NULL;
}
