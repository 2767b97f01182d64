/*
 * Reads Daly battery boards: requests, replies, and the frames of a noisy serial line.
 *
 * Link libdaly.a, which `tools/build daly` writes to target/staticlib; `tools/install PREFIX` puts it where
 * pkg-config finds it. It runs on x86-64 Linux, needs nothing but the C library, allocates nothing, keeps
 * nothing between calls and never stops the program: every call answers, whatever it is given. What each
 * function answers is proved (docs/PROMISES.md).
 *
 * For every function:
 * - A pointer comes with a length, or to an array of the length in its declaration. It is never NULL, not
 *   even with length 0, and what it points to stays as it is, and stays alive, during the call.
 * - Memory that a function writes to overlaps nothing else that it is given.
 * - A `bool` is 0 or 1, also in a struct that you hand in.
 * - `number` is 0 for done, or a refusal. A refused record is all zero, and a refusal writes nothing into
 *   memory that you lent.
 * - Calls may run on several threads at once. While one writes to a reader, no other has that reader.
 */
#ifndef DALY_H
#define DALY_H

#include <stdbool.h>
#include <stddef.h>
#include <stdint.h>

#ifdef __cplusplus
extern "C" {
#endif

/* ---- The version, as in CHANGELOG.md */

#define DALY_VERSION "0.3.0"
#define DALY_VERSION_MAJOR 0
#define DALY_VERSION_MINOR 3
#define DALY_VERSION_PATCH 0

/* ---- Refusals */

enum {
    DALY_DONE = 0,
    DALY_REPLY_SIZE = 1,        /* the reply is shorter than needed; no full frame k */
    DALY_UNEXPECTED_FRAME = 2,  /* byte 0 is not A5, or byte 2 not the command; a push: over 512 bytes discarded */
    DALY_CHECK_SUM = 3,         /* the sum differs */
    DALY_FRAME_NO = 4,          /* byte 4 is not the frame's place */
    DALY_UNKNOWN_MODE = 5,      /* byte 4 of a 93 reply is over 2 */
    DALY_REPLY_TOO_LONG = 6,    /* a reader's reply size is over 1,105 */
    DALY_REQUEST_TOO_SHORT = 7, /* a reader's request has under 3 bytes */
    DALY_BAD_STATE = 8,         /* the reader's fields contradict one another */
    DALY_NO_ROOM = 9,           /* the lent places are too few */
    DALY_UNKNOWN_COMMAND = 10,  /* there is no request of this command */
    DALY_COUNT_TOO_LARGE = 11,  /* the pack check, or a list to be written, has over 255 values */
    DALY_VALUE_OUT_OF_RANGE = 12 /* a value to be written that no reply can say: a mode, a temperature, too few or too many flags */
};

/* ---- Commands, by the Rust's names */

enum {
    DALY_SOC = 0x90,
    DALY_CELL_VOLTAGE_RANGE = 0x91,
    DALY_TEMPERATURE_RANGE = 0x92,
    DALY_MOSFET_STATUS = 0x93,
    DALY_STATUS = 0x94,
    DALY_CELL_VOLTAGES = 0x95,
    DALY_CELL_TEMPERATURES = 0x96,
    DALY_CELL_BALANCE_STATE = 0x97,
    DALY_ERROR_CODE = 0x98,
    DALY_SET_DISCHARGE_MOSFET = 0xD9,
    DALY_SET_CHARGE_MOSFET = 0xDA,
    DALY_SET_SOC = 0x21,
    DALY_BMS_RESET = 0x00
};

/* ---- Sizes of arrays */

#define DALY_FRAME 13    /* bytes of a frame */
#define DALY_FRAMES 1105 /* bytes that a reader has room for: 85 frames */
#define DALY_CELLS 255   /* the most cells of 95, and of the pack check */
#define DALY_SENSORS 255 /* the most sensors of 96 */
#define DALY_FLAGS 48    /* the most flags of 97 */
#define DALY_FAULTS 48   /* the faults of 98 */

/* ---- Frames */

/* The sum of all bytes but the last, modulo 256; 0 for a buffer of 0 or 1 bytes. */
uint8_t daly_calc_crc(const uint8_t *buffer, size_t len);

/*
 * What the buffer is, where this command was asked. Three things are told apart: a right frame from another sender,
 * which is 0 and no echo; a right frame with our own address, 40 hexadecimal, in byte 1, which is 0 and an echo; and
 * what is no right frame, which is 1, 2 or 3, in this order, and no echo. It judges the replies that have nothing to
 * decode: those to D9, DA, 21 and 00.
 *
 * An echo is our own question: on two-wire lines the adapter returns what we sent. It has the right sum and the right
 * command, so a decoder takes it for a reply: an echoed 90 question is a pack at 0 V and -3000 A, an echoed 98 question
 * a pack without faults. To one who looks at `number` alone, an echoed D9 is its own acknowledgement. A strict reader
 * throws echoes away (daly_reader_new).
 */
struct daly_frame_kind {
    uint8_t number;
    bool echo; /* of a right frame alone; known by byte 1 and by nothing else */
};
struct daly_frame_kind daly_frame_check(const uint8_t *buffer, size_t len, uint8_t command);

/* Whether the buffer has a full frame k, counted from 0: 0 or 1. It begins at buffer + 13 * k. */
uint8_t daly_frame_refusal(const uint8_t *buffer, size_t len, size_t k);

/* ---- Requests */

/*
 * The 13 bytes to send: 0 and `out` filled, or 10 and `out` as it was.
 * 90 to 98 ask for a reply; D9 and DA switch the discharging and the charging MOSFET as `enable` says; 21
 * sets the charge to `soc_percent`, rounded to tenths, halves away from zero, within 0 to 100, a NaN as 0;
 * 00 resets the board. What a command does not use is ignored.
 *
 * Before you send, drop what has come in on the line (`tcflush(line, TCIFLUSH)`). Else a reply that came late
 * answers the next question of its command, the reply to that the one after, and so on.
 */
uint8_t daly_request(uint8_t command, bool enable, float soc_percent, uint8_t out[DALY_FRAME]);

/* ---- Replies of one frame: `number` is 0, 1, 2 or 3, of 93 also 5 */

/*
 * A decoder looks at the whole buffer: the sum is that of all bytes but the last, even past 13. It looks at no
 * address, so it takes echoes, too. The records with floats have what the Rust has, to the last bit; the `_counts`
 * have the board's own whole numbers.
 */

/* 90: volts, amperes (below 0 while charging, as the Rust has it), percent; as counts, tenths of each */
struct daly_soc {
    uint8_t number;
    float total_voltage;
    float current;
    float soc_percent;
};
struct daly_soc daly_soc(const uint8_t *reply, size_t len);

struct daly_soc_counts {
    uint8_t number;
    uint16_t total_voltage;
    int32_t current;
    uint16_t soc_percent;
};
struct daly_soc_counts daly_soc_counts(const uint8_t *reply, size_t len);

/* 91: volts; as counts, millivolts */
struct daly_cell_voltage_range {
    uint8_t number;
    float highest_voltage;
    uint8_t highest_cell;
    float lowest_voltage;
    uint8_t lowest_cell;
};
struct daly_cell_voltage_range daly_cell_voltage_range(const uint8_t *reply, size_t len);

struct daly_cell_voltage_range_counts {
    uint8_t number;
    uint16_t highest_voltage;
    uint8_t highest_cell;
    uint16_t lowest_voltage;
    uint8_t lowest_cell;
};
struct daly_cell_voltage_range_counts daly_cell_voltage_range_counts(const uint8_t *reply, size_t len);

/* 92: degrees. A byte is 40 more; what is over 127 wraps, as in the Rust */
struct daly_temperature_range {
    uint8_t number;
    int8_t highest_temperature;
    uint8_t highest_sensor;
    int8_t lowest_temperature;
    uint8_t lowest_sensor;
};
struct daly_temperature_range daly_temperature_range(const uint8_t *reply, size_t len);

/* 93: the mode is 0 stationary, 1 charging, 2 discharging, and any other refusal 5; capacity in Ah, as a
 * count in thousandths */
struct daly_mosfet_status {
    uint8_t number;
    uint8_t mode;
    bool charging_mosfet;
    bool discharging_mosfet;
    uint8_t bms_cycles;
    float capacity_ah;
};
struct daly_mosfet_status daly_mosfet_status(const uint8_t *reply, size_t len);

struct daly_mosfet_status_counts {
    uint8_t number;
    uint8_t mode;
    bool charging_mosfet;
    bool discharging_mosfet;
    uint8_t bms_cycles;
    uint32_t capacity_ah;
};
struct daly_mosfet_status_counts daly_mosfet_status_counts(const uint8_t *reply, size_t len);

/* 94 */
struct daly_status {
    uint8_t number;
    uint8_t cells;
    uint8_t temperature_sensors;
    bool charger_running;
    bool load_running;
    bool di1, di2, di3, di4;
    bool do1, do2, do3, do4;
    uint16_t cycles;
};
struct daly_status daly_status(const uint8_t *reply, size_t len);

/* ---- Lists, into lent places */

/*
 * No list says how many values it has: ask 94 first. `room` is how many places `out` has. Done, `count` values
 * stand at its front and the places behind them are as they were. Refusals: 1, 9, then frame by frame; of 95 and
 * 96: 4, 2, 3, of 97 and 98: 2, 3.
 */
struct daly_list {
    uint8_t number;
    size_t count;
};

/* 95: volts, or millivolts. 13 bytes for every 3 cells */
size_t daly_cell_voltages_reply_size(uint8_t n_cells);
struct daly_list daly_cell_voltages(const uint8_t *reply, size_t len, uint8_t n_cells, float *out, size_t room);
struct daly_list daly_cell_millivolts(const uint8_t *reply, size_t len, uint8_t n_cells, uint16_t *out, size_t room);

/* 96: degrees. 13 bytes for every 7 sensors */
size_t daly_cell_temperatures_reply_size(uint8_t n_sensors);
struct daly_list daly_cell_temperatures(const uint8_t *reply, size_t len, uint8_t n_sensors, int32_t *out, size_t room);

/* 97: a flag for each cell; 0 cells give one flag, over 48 give 48 */
struct daly_list daly_cell_balance_state(const uint8_t *reply, size_t len, uint8_t n_cells, bool *out, size_t room);

/* 98: the faults, as positions in docs/FAULTS.md; needs room for all 48. daly_faults.h has their names */
struct daly_list daly_error_codes(const uint8_t *reply, size_t len, uint8_t *out, size_t room);

/* ---- The pack check */

/*
 * Cells in millivolts, at most 255, against the total in tenths of a volt: 0 or 11. `difference` is the sum of
 * the cells less 100 times the total, in millivolts; `agrees` says whether it is from -50 to 50. A list of
 * no cells and a total of 0 agree: look at the count first.
 */
struct daly_pack {
    uint8_t number;
    bool agrees;
    int32_t difference;
};
struct daly_pack daly_pack_check(const uint16_t *cells, size_t n_cells, uint16_t total_voltage);

/* ---- The reader of a reply's frames */

/*
 * Why bytes were discarded: how many for each reason, modulo 2^32. A bad cable shows as noise and wrong sums, a second
 * master as frames of another command. Where the reader is not strict, `echo` is 0: there an echo is collected, or its
 * number is wrong.
 */
struct daly_discarded {
    uint32_t noise;   /* bytes before an A5 */
    uint32_t sum;     /* wrong sums, one byte each time: what follows it, up to the next A5, is noise */
    uint32_t command; /* right frames of another command, 13 bytes each */
    uint32_t number;  /* frames whose number is not the next, nor 1, 13 bytes each */
    uint32_t echo;    /* echoes, by a strict reader, 13 bytes each */
};

/* All bytes discarded: the sum of the five, modulo 2^32. */
uint32_t daly_discarded_all(struct daly_discarded discarded);

/*
 * Bytes come in any chunks; how they are cut does not matter. Bytes taken are at all times
 * held + 13 * collected + all discarded + 13 * cleared, modulo 2^32.
 */
struct daly_counts {
    uint8_t command;
    bool mark;        /* more than 512 bytes were ever discarded, all five counts together */
    bool strict;      /* echoes are discarded */
    uint32_t taken;   /* bytes, modulo 2^32 */
    struct daly_discarded discarded;
    uint32_t cleared; /* frames dropped because the board began again, modulo 2^32 */
    size_t wanted;    /* frames */
    size_t collected; /* frames */
    size_t held;      /* bytes */
};

/*
 * The collected frames stand at the front of `frames`, the held bytes behind them. 1,168 bytes, aligned to 8:
 * the counts at 0, in 56 bytes, the frames at 56, then 7 of padding.
 * You have it, and each call is lent it where it lies. One call a turn is enough: a push tells how many bytes the
 * next frame then still needs, as daly_reader_missing does of a new reader, and that is 0 when and only when the
 * reader is complete or bad. While it is more, read at most so many bytes and push them; examples/controller.c
 * does so.
 * No call of the library needs more than 316 bytes of stack. That is measured, by bench/stack, with the call's return
 * address; no proof speaks of it.
 */
struct daly_reader {
    struct daly_counts counts;
    uint8_t frames[DALY_FRAMES];
};

/*
 * Makes your reader one for the reply to `request`, of `reply_size` bytes: 0, or 7 or 6 with a reader that is
 * all zero, and so not strict. What lay in it before is not looked at.
 *
 * Strict mode is for two-wire lines, where the adapter returns what we sent. A strict reader discards an echo whole:
 * a right frame of the command with our own address, 40 hexadecimal, in byte 1. Its 13 bytes count as discarded, as
 * `echo`, also among the 512. Its number is not read, so an echo numbered 1 does not begin the reply again. A reader
 * that is not strict looks at no address: where one frame is wanted, the echo is the reply.
 */
uint8_t daly_reader_new(struct daly_reader *reader, const uint8_t *request, size_t len, size_t reply_size, bool strict);

/*
 * A push into your reader, which moves on where it lies. It says 0; 2 where more than 512 bytes were ever
 * discarded, with the chunk taken all the same; 8 where the reader's fields contradict one another, and then
 * it stays as it was. `missing` is what daly_reader_missing then tells. `took` is how many bytes of the chunk were
 * taken: a complete reader takes none.
 */
struct daly_said {
    uint8_t status;
    uint8_t missing;
    size_t took;
};
struct daly_said daly_reader_push(struct daly_reader *reader, const uint8_t *chunk, size_t len);

/* How many bytes the next frame still needs, 0 once complete: `number` is 0, or 8 with 0 bytes. */
struct daly_missing {
    uint8_t number;
    size_t missing;
};
struct daly_missing daly_reader_missing(const struct daly_reader *reader);

/* Whether all wanted frames are there: 0 or 8. */
struct daly_completed {
    uint8_t number;
    bool complete;
};
struct daly_completed daly_reader_is_complete(const struct daly_reader *reader);

/* The collected frames, one after the other, complete or not: 0, 8 or 9. The decoders read them. */
struct daly_list daly_reader_copy_out(const struct daly_reader *reader, uint8_t *out, size_t room);

#ifdef __cplusplus
}
#endif

#endif
