/*
 * Writes replies as a Daly board sends them, for a bench that plays the board.
 *
 * Link libwriters.a, which `tools/build writers` writes to target/staticlib; pkg-config finds it as daly-writers. A
 * controller needs it not. What daly.h says for every function holds here too. What is written decodes to what was
 * meant, for every input that is accepted: this is proved (docs/PROMISES.md).
 *
 * For every function:
 * - The counts are the wire's own whole numbers.
 * - `address` is the sender's, byte 1 of every frame: any byte. A board has 01; 40 is the host.
 * - `room` is how many bytes `out` has. Done, `number` is 0, `count` bytes stand at the front of `out`, and those
 *   behind them are as they were. Lend a decoder these `count` bytes and no more: of a reply of one frame it sums
 *   the whole buffer.
 * - Refused, `count` is 0 and nothing is written. Refusals in this order: 11 CountTooLarge, 12 ValueOutOfRange,
 *   9 NoRoom.
 * - Bytes and bits without meaning are 0, and a true flag is 1.
 */
#ifndef DALY_WRITERS_H
#define DALY_WRITERS_H

#include "daly.h"

#ifdef __cplusplus
extern "C" {
#endif

/* ---- Replies of one frame: 13 bytes, or 9, of 93 also 12 */

/* 90: tenths of a volt, of an ampere and of a percent; the current 30,000 more than it is */
struct daly_soc_wire {
    uint16_t total_voltage;
    uint16_t current;
    uint16_t soc_percent;
};
struct daly_list daly_write_soc(uint8_t address, struct daly_soc_wire counts, uint8_t *out, size_t room);

/* 91: millivolts */
struct daly_cell_voltage_range_wire {
    uint16_t highest_voltage;
    uint8_t highest_cell;
    uint16_t lowest_voltage;
    uint8_t lowest_cell;
};
struct daly_list daly_write_cell_voltage_range(uint8_t address, struct daly_cell_voltage_range_wire counts,
                                               uint8_t *out, size_t room);

/* 92: degrees, all 256 values: a byte is 40 more, modulo 256 */
struct daly_temperature_range_wire {
    int8_t highest_temperature;
    uint8_t highest_sensor;
    int8_t lowest_temperature;
    uint8_t lowest_sensor;
};
struct daly_list daly_write_temperature_range(uint8_t address, struct daly_temperature_range_wire range,
                                              uint8_t *out, size_t room);

/* 93: the mode is 0 stationary, 1 charging, 2 discharging, and any other 12; capacity in thousandths of an Ah */
struct daly_mosfet_status_wire {
    uint8_t mode;
    bool charging_mosfet;
    bool discharging_mosfet;
    uint8_t bms_cycles;
    uint32_t capacity_ah;
};
struct daly_list daly_write_mosfet_status(uint8_t address, struct daly_mosfet_status_wire counts,
                                          uint8_t *out, size_t room);

/* 94 */
struct daly_status_wire {
    uint8_t cells;
    uint8_t temperature_sensors;
    bool charger_running;
    bool load_running;
    bool di1, di2, di3, di4;
    bool do1, do2, do3, do4;
    uint16_t cycles;
};
struct daly_list daly_write_status(uint8_t address, struct daly_status_wire status, uint8_t *out, size_t room);

/* ---- Lists */

/* 95: millivolts, 13 bytes for every 3 cells; 11 for more than 255 cells, then 9. No cells are 0 bytes. */
struct daly_list daly_write_cell_voltages(uint8_t address, const uint16_t *cells, size_t n_cells,
                                          uint8_t *out, size_t room);

/*
 * 96: degrees, 13 bytes for every 7 sensors; 11 for more than 255 sensors, 12 where one is not from -40 to 215,
 * then 9. No sensors are 0 bytes.
 */
struct daly_list daly_write_cell_temperatures(uint8_t address, const int32_t *degrees, size_t n_sensors,
                                              uint8_t *out, size_t room);

/* 97: a flag for each cell, in one frame; 12 unless there are 1 to 48, then 9 */
struct daly_list daly_write_cell_balance_state(uint8_t address, const bool *flags, size_t n_flags,
                                               uint8_t *out, size_t room);

/* 98: a flag for each fault, by its position in docs/FAULTS.md, in one frame; 9 */
struct daly_list daly_write_error_codes(uint8_t address, const bool faults[DALY_FAULTS], uint8_t *out, size_t room);

/* ---- The acknowledgements of D9, DA and 21: 13 bytes, or 9 */

struct daly_list daly_write_set_discharge_mosfet(uint8_t address, uint8_t *out, size_t room);
struct daly_list daly_write_set_charge_mosfet(uint8_t address, uint8_t *out, size_t room);
struct daly_list daly_write_set_soc(uint8_t address, uint8_t *out, size_t room);

#ifdef __cplusplus
}
#endif

#endif
