/*
 * What the example board has to say: a text of lines `name value`, in the names and the whole numbers that readreply
 * prints, and the replies that say it.
 */
#ifndef STATE_H
#define STATE_H

#include <errno.h>
#include <inttypes.h>
#include <stdio.h>
#include <stdlib.h>
#include <string.h>

#include "daly_writers.h"

enum {
    ADDRESS,
    TOTAL_VOLTAGE, CURRENT, SOC_PERCENT,
    HIGHEST_VOLTAGE, HIGHEST_CELL, LOWEST_VOLTAGE, LOWEST_CELL,
    HIGHEST_TEMPERATURE, HIGHEST_SENSOR, LOWEST_TEMPERATURE, LOWEST_SENSOR,
    MODE, CHARGING_MOSFET, DISCHARGING_MOSFET, BMS_CYCLES, CAPACITY_AH,
    CELLS, TEMPERATURE_SENSORS, CHARGER_RUNNING, LOAD_RUNNING,
    DI1, DI2, DI3, DI4, DO1, DO2, DO3, DO4, CYCLES,
    VALUES, /* names of one value stand before it, those of a list from it on */
    CELL = VALUES, SENSOR, BALANCE, FAULT,
    NAMES
};

/* What the field has room for, and the reply in which it stands: its writer judges the value. */
struct name {
    const char *word;
    uint8_t command;
    int64_t least, most;
};

static const struct name names[NAMES] = {
    [ADDRESS] = {"address", DALY_SOC, 0, UINT8_MAX},
    [TOTAL_VOLTAGE] = {"total_voltage", DALY_SOC, 0, UINT16_MAX},
    [CURRENT] = {"current", DALY_SOC, -30000, UINT16_MAX - 30000},
    [SOC_PERCENT] = {"soc_percent", DALY_SOC, 0, UINT16_MAX},
    [HIGHEST_VOLTAGE] = {"highest_voltage", DALY_CELL_VOLTAGE_RANGE, 0, UINT16_MAX},
    [HIGHEST_CELL] = {"highest_cell", DALY_CELL_VOLTAGE_RANGE, 0, UINT8_MAX},
    [LOWEST_VOLTAGE] = {"lowest_voltage", DALY_CELL_VOLTAGE_RANGE, 0, UINT16_MAX},
    [LOWEST_CELL] = {"lowest_cell", DALY_CELL_VOLTAGE_RANGE, 0, UINT8_MAX},
    [HIGHEST_TEMPERATURE] = {"highest_temperature", DALY_TEMPERATURE_RANGE, INT8_MIN, INT8_MAX},
    [HIGHEST_SENSOR] = {"highest_sensor", DALY_TEMPERATURE_RANGE, 0, UINT8_MAX},
    [LOWEST_TEMPERATURE] = {"lowest_temperature", DALY_TEMPERATURE_RANGE, INT8_MIN, INT8_MAX},
    [LOWEST_SENSOR] = {"lowest_sensor", DALY_TEMPERATURE_RANGE, 0, UINT8_MAX},
    [MODE] = {"mode", DALY_MOSFET_STATUS, 0, UINT8_MAX},
    [CHARGING_MOSFET] = {"charging_mosfet", DALY_MOSFET_STATUS, 0, 1},
    [DISCHARGING_MOSFET] = {"discharging_mosfet", DALY_MOSFET_STATUS, 0, 1},
    [BMS_CYCLES] = {"bms_cycles", DALY_MOSFET_STATUS, 0, UINT8_MAX},
    [CAPACITY_AH] = {"capacity_ah", DALY_MOSFET_STATUS, 0, UINT32_MAX},
    [CELLS] = {"cells", DALY_STATUS, 0, UINT8_MAX},
    [TEMPERATURE_SENSORS] = {"temperature_sensors", DALY_STATUS, 0, UINT8_MAX},
    [CHARGER_RUNNING] = {"charger_running", DALY_STATUS, 0, 1},
    [LOAD_RUNNING] = {"load_running", DALY_STATUS, 0, 1},
    [DI1] = {"di1", DALY_STATUS, 0, 1},
    [DI2] = {"di2", DALY_STATUS, 0, 1},
    [DI3] = {"di3", DALY_STATUS, 0, 1},
    [DI4] = {"di4", DALY_STATUS, 0, 1},
    [DO1] = {"do1", DALY_STATUS, 0, 1},
    [DO2] = {"do2", DALY_STATUS, 0, 1},
    [DO3] = {"do3", DALY_STATUS, 0, 1},
    [DO4] = {"do4", DALY_STATUS, 0, 1},
    [CYCLES] = {"cycles", DALY_STATUS, 0, UINT16_MAX},
    [CELL] = {"cell", DALY_CELL_VOLTAGES, 0, UINT16_MAX},
    [SENSOR] = {"sensor", DALY_CELL_TEMPERATURES, INT32_MIN, INT32_MAX},
    [BALANCE] = {"balance", DALY_CELL_BALANCE_STATE, 0, 1},
    [FAULT] = {"fault", DALY_ERROR_CODE, 0, DALY_FAULTS - 1},
};

/* Each list has room for one value more than its writer takes. */
struct state {
    int64_t values[VALUES];
    bool named[VALUES];
    size_t n_cells, n_sensors, n_flags;
    uint16_t cells[DALY_CELLS + 1];
    int32_t sensors[DALY_SENSORS + 1];
    bool flags[DALY_FLAGS + 1];
    bool faults[DALY_FAULTS];
};

/* ---- Replies */

static struct daly_soc_wire charge_of(const int64_t *v)
{
    return (struct daly_soc_wire){.total_voltage = (uint16_t)v[TOTAL_VOLTAGE],
                                  .current = (uint16_t)(v[CURRENT] + 30000),
                                  .soc_percent = (uint16_t)v[SOC_PERCENT]};
}

static struct daly_cell_voltage_range_wire cell_range_of(const int64_t *v)
{
    return (struct daly_cell_voltage_range_wire){.highest_voltage = (uint16_t)v[HIGHEST_VOLTAGE],
                                                 .highest_cell = (uint8_t)v[HIGHEST_CELL],
                                                 .lowest_voltage = (uint16_t)v[LOWEST_VOLTAGE],
                                                 .lowest_cell = (uint8_t)v[LOWEST_CELL]};
}

static struct daly_temperature_range_wire temperature_range_of(const int64_t *v)
{
    return (struct daly_temperature_range_wire){.highest_temperature = (int8_t)v[HIGHEST_TEMPERATURE],
                                                .highest_sensor = (uint8_t)v[HIGHEST_SENSOR],
                                                .lowest_temperature = (int8_t)v[LOWEST_TEMPERATURE],
                                                .lowest_sensor = (uint8_t)v[LOWEST_SENSOR]};
}

static struct daly_mosfet_status_wire mosfets_of(const int64_t *v)
{
    return (struct daly_mosfet_status_wire){.mode = (uint8_t)v[MODE],
                                            .charging_mosfet = v[CHARGING_MOSFET],
                                            .discharging_mosfet = v[DISCHARGING_MOSFET],
                                            .bms_cycles = (uint8_t)v[BMS_CYCLES],
                                            .capacity_ah = (uint32_t)v[CAPACITY_AH]};
}

static struct daly_status_wire status_of(const int64_t *v)
{
    return (struct daly_status_wire){.cells = (uint8_t)v[CELLS],
                                     .temperature_sensors = (uint8_t)v[TEMPERATURE_SENSORS],
                                     .charger_running = v[CHARGER_RUNNING],
                                     .load_running = v[LOAD_RUNNING],
                                     .di1 = v[DI1], .di2 = v[DI2], .di3 = v[DI3], .di4 = v[DI4],
                                     .do1 = v[DO1], .do2 = v[DO2], .do3 = v[DO3], .do4 = v[DO4],
                                     .cycles = (uint16_t)v[CYCLES]};
}

/* A list is as long as the state has lines, or as the status says, where that is more: what is not named is 0. */
static size_t longer(size_t lines, int64_t told)
{
    return lines > (size_t)told ? lines : (size_t)told;
}

/* The reply, its size and 0; a refusal, with 0 bytes; or 0 bytes for a command that has no answer. */
static struct daly_list write_reply(const struct state *state, uint8_t command, uint8_t out[DALY_FRAMES])
{
    const int64_t *v = state->values;
    uint8_t address = (uint8_t)v[ADDRESS];
    switch (command) {
    case DALY_SOC:
        return daly_write_soc(address, charge_of(v), out, DALY_FRAMES);
    case DALY_CELL_VOLTAGE_RANGE:
        return daly_write_cell_voltage_range(address, cell_range_of(v), out, DALY_FRAMES);
    case DALY_TEMPERATURE_RANGE:
        return daly_write_temperature_range(address, temperature_range_of(v), out, DALY_FRAMES);
    case DALY_MOSFET_STATUS:
        return daly_write_mosfet_status(address, mosfets_of(v), out, DALY_FRAMES);
    case DALY_STATUS:
        return daly_write_status(address, status_of(v), out, DALY_FRAMES);
    case DALY_CELL_VOLTAGES:
        return daly_write_cell_voltages(address, state->cells, longer(state->n_cells, v[CELLS]), out, DALY_FRAMES);
    case DALY_CELL_TEMPERATURES:
        return daly_write_cell_temperatures(address, state->sensors, longer(state->n_sensors, v[TEMPERATURE_SENSORS]),
                                            out, DALY_FRAMES);
    case DALY_CELL_BALANCE_STATE: /* with no flag the frame of one that is 0 */
        return daly_write_cell_balance_state(address, state->flags, longer(state->n_flags, 1), out, DALY_FRAMES);
    case DALY_ERROR_CODE:
        return daly_write_error_codes(address, state->faults, out, DALY_FRAMES);
    case DALY_SET_DISCHARGE_MOSFET:
        return daly_write_set_discharge_mosfet(address, out, DALY_FRAMES);
    case DALY_SET_CHARGE_MOSFET:
        return daly_write_set_charge_mosfet(address, out, DALY_FRAMES);
    case DALY_SET_SOC:
        return daly_write_set_soc(address, out, DALY_FRAMES);
    default:
        return (struct daly_list){DALY_DONE, 0};
    }
}

/* ---- The text */

/* Digits, with a minus before them or not, and nothing else. */
static bool is_whole(const char *text, int64_t least, int64_t most, int64_t *value)
{
    const char *digits = text + (*text == '-');
    if (*digits == '\0' || strspn(digits, "0123456789") != strlen(digits))
        return false;
    *value = strtoll(text, NULL, 10); /* the largest there is where it is too large */
    return least <= *value && *value <= most;
}

/* What readreply prints above a reading: nothing of it is the board's. */
static bool is_counts_line(const char *line)
{
    int end = 0;
    sscanf(line,
           "reply %*2x taken %*u held %*u frames %*u discarded %*u cleared %*u"
           " noise %*u sum %*u command %*u number %*u echo %*u%n",
           &end);
    return end > 0 && line[end] == '\0';
}

static void put_value(struct state *state, int name, int64_t value)
{
    switch (name) {
    case CELL:
        state->cells[state->n_cells++] = (uint16_t)value;
        break;
    case SENSOR:
        state->sensors[state->n_sensors++] = (int32_t)value;
        break;
    case BALANCE:
        state->flags[state->n_flags++] = value;
        break;
    case FAULT:
        state->faults[value] = true;
        break;
    default:
        state->values[name] = value;
        state->named[name] = true;
    }
}

static int find_name(const char *line, size_t length)
{
    int name = 0;
    while (name < NAMES && (strlen(names[name].word) != length || memcmp(names[name].word, line, length) != 0))
        name++;
    return name;
}

/* Takes one line. `why` is filled where it is not understood, and then the state stays as it was. */
static bool take_line(struct state *state, const char *line, char *why, size_t room)
{
    size_t length = strcspn(line, " ");
    int name = find_name(line, length);
    if (name == NAMES) {
        snprintf(why, room, "no such name");
        return *line == '\0' || is_counts_line(line);
    }
    int64_t value;
    const struct name *known = &names[name];
    if (line[length] == '\0' || !is_whole(line + length + 1, known->least, known->most, &value)) {
        snprintf(why, room, "no whole number from %" PRId64 " to %" PRId64, known->least, known->most);
        return false;
    }
    struct state next = *state;
    uint8_t reply[DALY_FRAMES];
    put_value(&next, name, value);
    uint8_t refusal = write_reply(&next, known->command, reply).number;
    snprintf(why, room, "refused %u", refusal);
    if (refusal == DALY_DONE)
        *state = next;
    return refusal == DALY_DONE;
}

/* Where they are not named, there are as many cells and sensors as there are lines of them. */
static void put_unnamed(struct state *state)
{
    if (!state->named[CELLS])
        state->values[CELLS] = (int64_t)state->n_cells;
    if (!state->named[TEMPERATURE_SENSORS])
        state->values[TEMPERATURE_SENSORS] = (int64_t)state->n_sensors;
}

/* How many lines were not understood. Each is told, with its number. */
static size_t take_lines(struct state *state, FILE *file, const char *path)
{
    char *line = NULL, why[80];
    size_t room = 0, number = 0, strange = 0;
    for (ssize_t length; (length = getline(&line, &room, file)) >= 0;) {
        number++;
        if (length > 0 && line[length - 1] == '\n')
            line[--length] = '\0';
        bool understood = take_line(state, line, why, sizeof why);
        if (understood && strlen(line) == (size_t)length)
            continue;
        fprintf(stderr, "%s:%zu: %.60s: %s\n", path, number, line, understood ? "a byte 0" : why);
        strange++;
    }
    free(line);
    return strange;
}

enum { TAKEN = 0, UNREADABLE = 1, STRANGE = 2 };

static int read_state(const char *path, struct state *state)
{
    *state = (struct state){.n_cells = 0};
    errno = 0;
    FILE *file = fopen(path, "r");
    size_t strange = file == NULL ? 0 : take_lines(state, file, path);
    bool unreadable = file == NULL || ferror(file);
    if (unreadable)
        fprintf(stderr, "%s: %s\n", path, strerror(errno));
    if (file != NULL)
        fclose(file);
    put_unnamed(state);
    return unreadable ? UNREADABLE : strange > 0 ? STRANGE : TAKEN;
}

#endif
