/*
 * Asks a board on a serial line for readings and prints them.
 *
 *     controller PATH [COMMANDS | 95 CELLS | 96 SENSORS | 97 CELLS]
 *
 * COMMANDS is one of 90 (charge), 91 and 92 (extremes), 93 (MOSFETs), 94 (status), 95 (cells; the default),
 * 96 (sensors), 97 (balance) and 98 (faults), or several of them with commas between (90,95,90), or `all`.
 * Where several are asked, a line as `asked 90` stands above each reading. How many cells and sensors there
 * are is asked of the board, by 94, unless it is given. What fails is told on standard error; where a reply was
 * waited for, a second line tells how many bytes were thrown away meanwhile, and why. Build it by
 *
 *     gcc -I include -o controller examples/controller.c target/staticlib/libdaly.a
 *
 * rust/examples/controller.rs is the same in Rust.
 */
#define _DEFAULT_SOURCE
#include <inttypes.h>
#include <stdio.h>
#include <stdlib.h>
#include <string.h>

#include "daly.h"
#include "line.h"

enum { STATUS = 0x94, CELLS = 0x95, SENSORS = 0x96, BALANCE = 0x97 };

struct question {
    uint8_t command;
    uint8_t count; /* of cells or sensors, where it is asked for them */
};

struct reply {
    struct daly_discarded discarded; /* while it was waited for */
    size_t length;
    uint8_t bytes[DALY_FRAMES];
};

/* What 94 told of the board. */
struct counts {
    bool known;
    uint8_t cells, sensors;
};

static int refused(uint8_t number)
{
    fprintf(stderr, "refused %u\n", number);
    return FAILED;
}

/* Behind what is told of a reply that failed: why bytes were thrown away, in the words of readreply. */
static int tell_discarded(struct daly_discarded why, int status)
{
    fprintf(stderr, "noise %" PRIu32 " sum %" PRIu32 " command %" PRIu32 " number %" PRIu32 " echo %" PRIu32 "\n",
            why.noise, why.sum, why.command, why.number, why.echo);
    return status;
}

/* Until the reader has all frames. No more is read than the next one lacks, so what follows stays on the line. */
static int fill(int line, long until, struct daly_reader *reader)
{
    for (size_t missing = daly_reader_missing(reader).missing; missing > 0;) {
        uint8_t chunk[DALY_FRAME];
        size_t length;
        int status = receive(line, until, missing, chunk, &length);
        if (status != DONE)
            return status;
        struct daly_said said = daly_reader_push(reader, chunk, length);
        if (said.status != DALY_DONE)
            return refused(said.status);
        missing = said.missing;
    }
    return DONE;
}

/* One reply. The reader is strict, since an adapter may send our question back. */
static int collect(int line, long until, const uint8_t *request, size_t reply_size, struct reply *reply)
{
    struct daly_reader reader;
    uint8_t opened = daly_reader_new(&reader, request, DALY_FRAME, reply_size, true);
    if (opened != DALY_DONE)
        return refused(opened);
    int status = fill(line, until, &reader);
    reply->discarded = reader.counts.discarded;
    if (status != DONE)
        return tell_discarded(reply->discarded, status);
    struct daly_list copied = daly_reader_copy_out(&reader, reply->bytes, sizeof reply->bytes);
    reply->length = copied.count;
    return copied.number == DALY_DONE ? DONE : tell_discarded(reply->discarded, refused(copied.number));
}

/* ---- Questions */

static size_t reply_size(struct question asked)
{
    switch (asked.command) {
    case CELLS:
        return daly_cell_voltages_reply_size(asked.count);
    case SENSORS:
        return daly_cell_temperatures_reply_size(asked.count);
    default:
        return DALY_FRAME;
    }
}

static int exchange(int line, struct question asked, struct reply *reply)
{
    uint8_t request[DALY_FRAME];
    uint8_t number = daly_request(asked.command, false, 0, request);
    if (number != DALY_DONE)
        return refused(number);
    int status = send_question(line, request, DALY_FRAME);
    long until = now() + PATIENCE;
    return status == DONE ? collect(line, until, request, reply_size(asked), reply) : status;
}

/* Nothing that was asked before is on the line when the question goes out, nor when it is given up. */
static int ask(int line, struct question asked, struct reply *reply)
{
    settle(line, STILL);
    int status = exchange(line, asked, reply);
    if (status != DONE)
        settle(line, LATE);
    return status;
}

/* Asks 94, once. A count that is too small hides cells, and one that is too large makes up cells of 0 V. */
static int ask_counts(int line, struct counts *counts)
{
    struct reply reply;
    if (counts->known)
        return DONE;
    int status = ask(line, (struct question){.command = STATUS}, &reply);
    if (status != DONE)
        return status;
    struct daly_status told = daly_status(reply.bytes, reply.length);
    if (told.number != DALY_DONE)
        return tell_discarded(reply.discarded, refused(told.number));
    *counts = (struct counts){true, told.cells, told.temperature_sensors};
    return DONE;
}

/* ---- Readings */

static const char *const flags[] = {"false", "true"};

static int print_charge(const struct reply *reply)
{
    struct daly_soc soc = daly_soc(reply->bytes, reply->length);
    if (soc.number != DALY_DONE)
        return refused(soc.number);
    printf("total_voltage %.1f V\ncurrent %.1f A\nsoc %.1f %%\n", soc.total_voltage, soc.current, soc.soc_percent);
    return DONE;
}

static int print_cell_range(const struct reply *reply)
{
    struct daly_cell_voltage_range range = daly_cell_voltage_range(reply->bytes, reply->length);
    if (range.number != DALY_DONE)
        return refused(range.number);
    printf("highest_voltage %.3f V\nhighest_cell %u\n", range.highest_voltage, range.highest_cell);
    printf("lowest_voltage %.3f V\nlowest_cell %u\n", range.lowest_voltage, range.lowest_cell);
    return DONE;
}

static int print_temperature_range(const struct reply *reply)
{
    struct daly_temperature_range range = daly_temperature_range(reply->bytes, reply->length);
    if (range.number != DALY_DONE)
        return refused(range.number);
    printf("highest_temperature %d C\nhighest_sensor %u\n", range.highest_temperature, range.highest_sensor);
    printf("lowest_temperature %d C\nlowest_sensor %u\n", range.lowest_temperature, range.lowest_sensor);
    return DONE;
}

static int print_mosfets(const struct reply *reply)
{
    static const char *const modes[] = {"Stationary", "Charging", "Discharging"};
    struct daly_mosfet_status status = daly_mosfet_status(reply->bytes, reply->length);
    if (status.number != DALY_DONE)
        return refused(status.number);
    printf("mode %s\ncharging_mosfet %s\ndischarging_mosfet %s\n", modes[status.mode], flags[status.charging_mosfet],
           flags[status.discharging_mosfet]);
    printf("bms_cycles %u\ncapacity %.3f Ah\n", status.bms_cycles, status.capacity_ah);
    return DONE;
}

static int print_status(const struct reply *reply)
{
    struct daly_status told = daly_status(reply->bytes, reply->length);
    if (told.number != DALY_DONE)
        return refused(told.number);
    printf("cells %u\ntemperature_sensors %u\n", told.cells, told.temperature_sensors);
    printf("charger_running %s\nload_running %s\n", flags[told.charger_running], flags[told.load_running]);
    printf("di1 %s\ndi2 %s\ndi3 %s\ndi4 %s\n", flags[told.di1], flags[told.di2], flags[told.di3], flags[told.di4]);
    printf("do1 %s\ndo2 %s\ndo3 %s\ndo4 %s\n", flags[told.do1], flags[told.do2], flags[told.do3], flags[told.do4]);
    printf("cycles %u\n", told.cycles);
    return DONE;
}

static int print_cells(const struct reply *reply, uint8_t cells)
{
    float volts[255];
    struct daly_list list = daly_cell_voltages(reply->bytes, reply->length, cells, volts, 255);
    for (size_t i = 0; i < list.count; i++)
        printf("cell %zu %.3f V\n", i + 1, volts[i]);
    return list.number == DALY_DONE ? DONE : refused(list.number);
}

static int print_sensors(const struct reply *reply, uint8_t sensors)
{
    int32_t degrees[255];
    struct daly_list list = daly_cell_temperatures(reply->bytes, reply->length, sensors, degrees, 255);
    for (size_t i = 0; i < list.count; i++)
        printf("sensor %zu %d C\n", i + 1, degrees[i]);
    return list.number == DALY_DONE ? DONE : refused(list.number);
}

static int print_balance(const struct reply *reply, uint8_t cells)
{
    bool balanced[48];
    struct daly_list list = daly_cell_balance_state(reply->bytes, reply->length, cells, balanced, 48);
    for (size_t i = 0; i < list.count; i++)
        printf("balance %zu %s\n", i + 1, flags[balanced[i]]);
    return list.number == DALY_DONE ? DONE : refused(list.number);
}

/* By position: docs/FAULTS.md has the names. */
static int print_faults(const struct reply *reply)
{
    uint8_t faults[48];
    struct daly_list list = daly_error_codes(reply->bytes, reply->length, faults, 48);
    for (size_t i = 0; i < list.count; i++)
        printf("fault %u\n", faults[i]);
    return list.number == DALY_DONE ? DONE : refused(list.number);
}

static int print_reading(struct question asked, const struct reply *reply)
{
    switch (asked.command) {
    case 0x90:
        return print_charge(reply);
    case 0x91:
        return print_cell_range(reply);
    case 0x92:
        return print_temperature_range(reply);
    case 0x93:
        return print_mosfets(reply);
    case STATUS:
        return print_status(reply);
    case CELLS:
        return print_cells(reply, asked.count);
    case SENSORS:
        return print_sensors(reply, asked.count);
    case BALANCE:
        return print_balance(reply, asked.count);
    default:
        return print_faults(reply);
    }
}

/* ---- The words */

struct words {
    const char *commands; /* two characters each, a comma between */
    bool given;           /* how many cells or sensors */
    uint8_t count;
};

static bool are_commands(const char *word)
{
    size_t length = strlen(word);
    for (size_t i = 0; i < length; i += 3)
        if (word[i] != '9' || word[i + 1] < '0' || word[i + 1] > '8' || (i + 2 != length && word[i + 2] != ','))
            return false;
    return length % 3 == 2;
}

static bool has_count(uint8_t command)
{
    return command == CELLS || command == SENSORS || command == BALANCE;
}

static uint8_t command_at(const char *commands)
{
    return (uint8_t)(0x90 + commands[1] - '0');
}

/* A count stands behind one command, of a list. */
static bool parse(int number, char **given, struct words *words)
{
    const char *word = number > 0 ? given[0] : "95";
    *words = (struct words){.commands = strcmp(word, "all") == 0 ? "90,91,92,93,94,95,96,97,98" : word};
    if (number > 2 || !are_commands(words->commands))
        return false;
    if (number < 2)
        return true;
    char *end;
    long count = strtol(given[1], &end, 10);
    if (end == given[1] || *end != '\0' || count < 0 || count > 255)
        return false;
    words->given = true;
    words->count = (uint8_t)count;
    return strlen(word) == 2 && has_count(command_at(word));
}

/* One question, with its count, and its reading. */
static int answer(int line, struct words words, uint8_t command, struct counts *counts)
{
    struct question asked = {.command = command, .count = words.count};
    struct reply reply;
    int status = DONE;
    if (has_count(command) && !words.given) {
        status = ask_counts(line, counts);
        asked.count = command == SENSORS ? counts->sensors : counts->cells;
    }
    if (status == DONE)
        status = ask(line, asked, &reply);
    if (status != DONE)
        return status;
    status = print_reading(asked, &reply);
    return status == DONE ? DONE : tell_discarded(reply.discarded, status);
}

/* All questions, also after one that failed; a line that hung up answers none. */
static int answer_all(int line, struct words words)
{
    struct counts counts = {.known = false};
    int worst = DONE;
    size_t length = strlen(words.commands);
    for (size_t i = 0; i < length && worst != HUNG_UP; i += 3) {
        if (length > 2)
            printf("asked %.2s\n", words.commands + i);
        int status = answer(line, words, command_at(words.commands + i), &counts);
        worst = status > worst ? status : worst;
    }
    return worst == DONE ? DONE : FAILED;
}

int main(int number, char **given)
{
    struct words words;
    if (number < 2 || !parse(number - 2, given + 2, &words)) {
        fprintf(stderr,
                "controller PATH [COMMANDS | 95 CELLS | 96 SENSORS | 97 CELLS]\n"
                "COMMANDS: 90 to 98, several with commas between, or all\n");
        return 2;
    }
    setvbuf(stdout, NULL, _IOLBF, 0); /* so that a failure is told where it happened */
    int line = open_line(given[1]);
    if (line < 0)
        return failed(given[1]);
    int status = answer_all(line, words);
    close(line);
    return status;
}
