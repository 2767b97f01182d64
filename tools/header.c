/* What include/daly.h and include/daly_writers.h declare, held to libdaly.a and libwriters.a: an answer of every function.
 * (Sizes: tools/test_layouts; which name has which number: tools/test_names.) Expected values are worked out by hand from
 * documents 01 and 02. Closes with `N passed, M failed`. */
#include <stdio.h>
#include <string.h>

#include "daly.h"
#include "daly_faults.h"
#include "daly_writers.h"

static int passed, failed;

static void test(bool good, const char *what)
{
    good ? passed++ : failed++;
    printf("%s %s\n", good ? "ok    " : "FAILED", what);
}

/* A right frame as a board sends it. */
static void frame(uint8_t *to, uint8_t command, const uint8_t data[8])
{
    const uint8_t head[4] = {0xA5, 0x01, command, 0x08};
    memcpy(to, head, 4);
    memcpy(to + 4, data, 8);
    to[12] = 0;
    for (int i = 0; i < 12; i++)
        to[12] = (uint8_t)(to[12] + to[i]);
}

static const uint8_t soc[13] = {0xA5, 0x01, 0x90, 0x08, 0x02, 0x0B, 0x00, 0x00, 0x74, 0xB7, 0x03, 0x6A, 0xE3};

/* The 90 question, P1. On a two-wire line it comes back. */
static const uint8_t p1[13] = {0xA5, 0x40, 0x90, 0x08, 0, 0, 0, 0, 0, 0, 0, 0, 0x7D};

/* The 95 question, likewise. */
static const uint8_t ask_cells[13] = {0xA5, 0x40, 0x95, 0x08, 0, 0, 0, 0, 0, 0, 0, 0, 0x82};

static void requests_and_frames(void)
{
    const uint8_t p2[13] = {0xA5, 0x40, 0x21, 0x08, 0, 0, 0, 0, 0, 0, 0, 3, 0x11};
    const uint8_t on[13] = {0xA5, 0x40, 0xDA, 0x08, 1, 0, 0, 0, 0, 0, 0, 0, 0xC8};
    uint8_t out[DALY_FRAME];
    test(daly_request(0x90, false, 0, out) == DALY_DONE && memcmp(out, p1, 13) == 0, "daly_request: P1");
    test(daly_request(0x21, false, 0.25f, out) == DALY_DONE && memcmp(out, p2, 13) == 0, "daly_request: P2");
    test(daly_request(0xDA, true, 0, out) == DALY_DONE && memcmp(out, on, 13) == 0, "daly_request: a switch");
    test(daly_request(0x99, true, 0, out) == DALY_UNKNOWN_COMMAND && memcmp(out, on, 13) == 0, "daly_request: none");
    test(daly_calc_crc(soc, 13) == 0xE3 && daly_calc_crc(soc, 1) == 0, "daly_calc_crc");
    test(daly_frame_refusal(soc, 13, 0) == DALY_DONE && daly_frame_refusal(soc, 13, 1) == DALY_REPLY_SIZE, "daly_frame_refusal");
}

static bool kind_is(struct daly_frame_kind kind, uint8_t number, bool echo)
{
    return kind.number == number && kind.echo == echo;
}

/* A right frame from each address, with what a board says in it: one address is ours. */
static bool addresses_are_told(void)
{
    uint8_t from[DALY_FRAME];
    bool good = true;
    for (int address = 0; address < 256; address++) {
        memcpy(from, soc, DALY_FRAME);
        from[1] = (uint8_t)address;
        from[12] = daly_calc_crc(from, DALY_FRAME);
        good = good && kind_is(daly_frame_check(from, DALY_FRAME, 0x90), DALY_DONE, address == 0x40);
    }
    return good;
}

static void kinds(void)
{
    uint8_t longer[14], wrong[DALY_FRAME], elsewhere[DALY_FRAME];
    memcpy(longer, p1, DALY_FRAME);
    longer[13] = 0xFA;
    memcpy(wrong, p1, DALY_FRAME);
    wrong[12]++;
    frame(elsewhere, 0x90, (const uint8_t[8]){0x40, 0x40, 0x40, 0x40, 0x40, 0x40, 0x40, 0x40});
    test(kind_is(daly_frame_check(soc, 13, 0x90), DALY_DONE, false), "daly_frame_check: a frame from the board");
    test(kind_is(daly_frame_check(p1, 13, 0x90), DALY_DONE, true), "daly_frame_check: an echo");
    test(kind_is(daly_frame_check(longer, 14, 0x90), DALY_DONE, true), "daly_frame_check: an echo in a longer buffer");
    test(kind_is(daly_frame_check(soc, 12, 0x90), DALY_REPLY_SIZE, false) && kind_is(daly_frame_check(soc, 13, 0x91), DALY_UNEXPECTED_FRAME, false),
         "daly_frame_check: no right frame");
    test(kind_is(daly_frame_check(p1, 12, 0x90), DALY_REPLY_SIZE, false) && kind_is(daly_frame_check(p1, 13, 0x91), DALY_UNEXPECTED_FRAME, false) &&
             kind_is(daly_frame_check(wrong, 13, 0x90), DALY_CHECK_SUM, false),
         "daly_frame_check: our address, and no right frame");
    test(addresses_are_told(), "daly_frame_check: every address");
    test(kind_is(daly_frame_check(elsewhere, 13, 0x90), DALY_DONE, false), "daly_frame_check: 40 elsewhere is no echo");
    struct daly_soc s = daly_soc(p1, 13);
    struct daly_soc_counts c = daly_soc_counts(p1, 13);
    test(s.number == 0 && s.total_voltage == 0 && s.current == -3000 && c.number == 0 && c.current == -30000, "daly_soc, daly_soc_counts: an echo is taken");
}

static const uint8_t commands[] = {
    DALY_SOC, DALY_CELL_VOLTAGE_RANGE, DALY_TEMPERATURE_RANGE, DALY_MOSFET_STATUS, DALY_STATUS, DALY_CELL_VOLTAGES,
    DALY_CELL_TEMPERATURES, DALY_CELL_BALANCE_STATE, DALY_ERROR_CODE, DALY_SET_DISCHARGE_MOSFET, DALY_SET_CHARGE_MOSFET,
    DALY_SET_SOC, DALY_BMS_RESET,
};

/* What daly_request makes of a byte that is a command's name, or of one that is none. */
static bool request_is(uint8_t byte, bool named)
{
    uint8_t wanted[DALY_FRAME] = {0xA5, 0x40, byte, 0x08}, out[DALY_FRAME] = {0};
    const uint8_t none[DALY_FRAME] = {0};
    wanted[12] = daly_calc_crc(wanted, DALY_FRAME);
    if (named)
        return daly_request(byte, false, 0, out) == DALY_DONE && memcmp(out, wanted, DALY_FRAME) == 0;
    return daly_request(byte, false, 0, out) == DALY_UNKNOWN_COMMAND && memcmp(out, none, DALY_FRAME) == 0;
}

static void names(void)
{
    const uint8_t only_checked[] = {DALY_SET_DISCHARGE_MOSFET, DALY_SET_CHARGE_MOSFET, DALY_SET_SOC, DALY_BMS_RESET};
    char version[32];
    bool good = sizeof commands == 13;
    for (int byte = 0; byte < 256; byte++)
        good = good && request_is((uint8_t)byte, memchr(commands, byte, sizeof commands) != NULL);
    test(good, "daly_request: the thirteen names, and no other byte");

    good = true;
    for (size_t i = 0; i < sizeof only_checked; i++) {
        uint8_t reply[DALY_FRAME];
        frame(reply, only_checked[i], (const uint8_t[8]){0});
        good = good && kind_is(daly_frame_check(reply, DALY_FRAME, only_checked[i]), DALY_DONE, false);
        reply[12]++;
        good = good && kind_is(daly_frame_check(reply, DALY_FRAME, only_checked[i]), DALY_CHECK_SUM, false);
        good = good && daly_request(only_checked[i], true, 50, reply) == DALY_DONE &&
               kind_is(daly_frame_check(reply, DALY_FRAME, only_checked[i]), DALY_DONE, true);
    }
    test(good, "daly_frame_check: the replies that have nothing to decode");

    test(strcmp(daly_fault_name(17), "ChargeOvercurrentLevel2") == 0 && strcmp(daly_fault_name(DALY_FAULTS), "unknown") == 0,
         "daly_fault_name");
    snprintf(version, sizeof version, "%d.%d.%d", DALY_VERSION_MAJOR, DALY_VERSION_MINOR, DALY_VERSION_PATCH);
    test(strcmp(version, DALY_VERSION) == 0, "the version is one");
}

/* The arrays' sizes are just what the library needs. */
static void sizes(void)
{
    uint8_t reply[DALY_FRAME], faults[DALY_FAULTS];
    bool flags[DALY_FLAGS];
    const uint16_t cells[DALY_CELLS + 1] = {0};
    test(daly_cell_voltages_reply_size(DALY_CELLS) == DALY_FRAMES, "DALY_FRAMES");
    test(daly_cell_temperatures_reply_size(DALY_SENSORS) == 481, "DALY_SENSORS");
    test(daly_pack_check(cells, DALY_CELLS, 0).number == DALY_DONE && daly_pack_check(cells, DALY_CELLS + 1, 0).number == DALY_COUNT_TOO_LARGE,
         "DALY_CELLS");
    frame(reply, DALY_CELL_BALANCE_STATE, (const uint8_t[8]){0});
    test(daly_cell_balance_state(reply, DALY_FRAME, DALY_CELLS, flags, DALY_FLAGS).count == DALY_FLAGS &&
             daly_cell_balance_state(reply, DALY_FRAME, DALY_CELLS, flags, DALY_FLAGS - 1).number == DALY_NO_ROOM,
         "DALY_FLAGS");
    frame(reply, DALY_ERROR_CODE, (const uint8_t[8]){255, 255, 255, 255, 255, 255, 255, 255});
    test(daly_error_codes(reply, DALY_FRAME, faults, DALY_FAULTS).count == DALY_FAULTS &&
             daly_error_codes(reply, DALY_FRAME, faults, DALY_FAULTS - 1).number == DALY_NO_ROOM,
         "DALY_FAULTS");
}

static void records(void)
{
    uint8_t reply[14];
    memcpy(reply, soc, 13);
    reply[13] = 0;
    struct daly_soc_counts c = daly_soc_counts(soc, 13);
    test(c.number == 0 && c.total_voltage == 523 && c.current == -121 && c.soc_percent == 874, "daly_soc_counts: P6");
    test(daly_soc_counts(reply, 14).number == DALY_CHECK_SUM, "daly_soc_counts: P6 with a 00 appended");
    struct daly_soc s = daly_soc(soc, 13);
    test(s.number == 0 && s.total_voltage == 523 / 10.0f && s.current == -121 / 10.0f && s.soc_percent == 874 / 10.0f, "daly_soc");

    frame(reply, 0x91, (const uint8_t[8]){0x0C, 0xE5, 3, 0x0C, 0xE0, 8, 0, 0});
    struct daly_cell_voltage_range_counts vc = daly_cell_voltage_range_counts(reply, 13);
    test(vc.number == 0 && vc.highest_voltage == 3301 && vc.highest_cell == 3 && vc.lowest_voltage == 3296 && vc.lowest_cell == 8,
         "daly_cell_voltage_range_counts");
    struct daly_cell_voltage_range v = daly_cell_voltage_range(reply, 13);
    test(v.number == 0 && v.highest_voltage == 3301 / 1000.0f && v.highest_cell == 3 && v.lowest_voltage == 3296 / 1000.0f && v.lowest_cell == 8,
         "daly_cell_voltage_range");

    frame(reply, 0x92, (const uint8_t[8]){167, 1, 168, 2, 0, 0, 0, 0});
    struct daly_temperature_range t = daly_temperature_range(reply, 13);
    test(t.number == 0 && t.highest_temperature == 127 && t.highest_sensor == 1 && t.lowest_temperature == -128 && t.lowest_sensor == 2,
         "daly_temperature_range: P7");

    frame(reply, 0x93, (const uint8_t[8]){2, 1, 0, 23, 0x01, 0x00, 0x00, 0x03});
    struct daly_mosfet_status_counts mc = daly_mosfet_status_counts(reply, 13);
    test(mc.number == 0 && mc.mode == 2 && mc.charging_mosfet && !mc.discharging_mosfet && mc.bms_cycles == 23 && mc.capacity_ah == 16777219,
         "daly_mosfet_status_counts");
    struct daly_mosfet_status m = daly_mosfet_status(reply, 13);
    test(m.number == 0 && m.mode == 2 && m.bms_cycles == 23 && m.capacity_ah == 16777220.0f / 1000.0f, "daly_mosfet_status: P8");
    frame(reply, 0x93, (const uint8_t[8]){3, 1, 0, 23, 0, 0, 0, 3});
    test(daly_mosfet_status(reply, 13).number == DALY_UNKNOWN_MODE, "daly_mosfet_status: mode 3");

    frame(reply, 0x94, (const uint8_t[8]){8, 2, 1, 0, 0x21, 0x01, 0x2C, 0});
    struct daly_status st = daly_status(reply, 13);
    test(st.number == 0 && st.cells == 8 && st.temperature_sensors == 2 && st.charger_running && !st.load_running && st.di1 && !st.di2 &&
             !st.do1 && st.do2 && !st.do4 && st.cycles == 300,
         "daly_status");
}

static void lists(void)
{
    uint8_t reply[26];
    frame(reply, 0x95, (const uint8_t[8]){1, 0x0C, 0xE5, 0x0C, 0xE2, 0x0C, 0xE6, 0});
    frame(reply + 13, 0x95, (const uint8_t[8]){2, 0x0C, 0xE1, 0, 0, 0, 0, 0});
    uint16_t millivolts[5] = {9, 9, 9, 9, 9};
    struct daly_list l = daly_cell_millivolts(reply, 26, 4, millivolts, 5);
    test(l.number == 0 && l.count == 4 && millivolts[0] == 3301 && millivolts[3] == 3297 && millivolts[4] == 9, "daly_cell_millivolts");
    float volts[4];
    l = daly_cell_voltages(reply, 26, 4, volts, 4);
    test(l.number == 0 && l.count == 4 && volts[2] == 3302 / 1000.0f, "daly_cell_voltages");
    test(daly_cell_voltages(reply, 26, 4, volts, 3).number == DALY_NO_ROOM, "daly_cell_voltages: no room");
    reply[4] = 2;
    reply[12]++;
    test(daly_cell_voltages(reply, 26, 4, volts, 4).number == DALY_FRAME_NO, "daly_cell_voltages: not in order");
    test(daly_cell_voltages_reply_size(4) == 26 && daly_cell_temperatures_reply_size(8) == 26, "reply sizes");

    frame(reply, 0x96, (const uint8_t[8]){1, 65, 0, 255, 0, 0, 0, 0});
    int32_t degrees[3];
    l = daly_cell_temperatures(reply, 13, 3, degrees, 3);
    test(l.number == 0 && l.count == 3 && degrees[0] == 25 && degrees[1] == -40 && degrees[2] == 215, "daly_cell_temperatures");

    frame(reply, 0x97, (const uint8_t[8]){0x05, 0, 0, 0, 0, 0, 0, 0});
    bool flags[3];
    l = daly_cell_balance_state(reply, 13, 3, flags, 3);
    test(l.number == 0 && l.count == 3 && flags[0] && !flags[1] && flags[2], "daly_cell_balance_state");

    frame(reply, 0x98, (const uint8_t[8]){0, 0, 0x03, 0, 0, 0, 0, 0});
    uint8_t faults[48];
    l = daly_error_codes(reply, 13, faults, 48);
    test(l.number == 0 && l.count == 2 && faults[0] == 17 && faults[1] == 16, "daly_error_codes: P10");
}

static void pack(void)
{
    const uint16_t cells[4] = {3262, 3262, 3262, 3264}, less[4] = {3262, 3262, 3262, 3263};
    uint16_t many[256] = {0};
    struct daly_pack p = daly_pack_check(cells, 4, 131);
    test(p.number == 0 && p.agrees && p.difference == -50, "daly_pack_check: P14, 13,050");
    p = daly_pack_check(less, 4, 131);
    test(p.number == 0 && !p.agrees && p.difference == -51, "daly_pack_check: P14, 13,049");
    p = daly_pack_check(many, 256, 0);
    test(p.number == DALY_COUNT_TOO_LARGE && !p.agrees && p.difference == 0, "daly_pack_check: 256 cells");
    p = daly_pack_check(many, 0, 0);
    test(p.number == 0 && p.agrees && p.difference == 0, "daly_pack_check: no cells and a total of 0");
}

/* Whether bytes were discarded for these reasons, in the order of document 02's words, and the one count is their sum. */
static bool lost(const struct daly_reader *reader, uint32_t noise, uint32_t sum, uint32_t command, uint32_t number, uint32_t echo)
{
    struct daly_discarded d = reader->counts.discarded;
    return d.noise == noise && d.sum == sum && d.command == command && d.number == number && d.echo == echo &&
           daly_discarded_all(d) == noise + sum + command + number + echo;
}

/* Document 01's example, cut behind the noise; then a reader whose fields contradict one another. */
static struct daly_reader pushed(struct daly_reader reader)
{
    const uint8_t noise[2] = {0x00, 0xA5};
    struct daly_said said = daly_reader_push(&reader, noise, 2);
    struct daly_missing m = daly_reader_missing(&reader);
    test(said.status == 0 && said.missing == 12 && said.took == 2 && lost(&reader, 1, 0, 0, 0, 0) && reader.counts.held == 1, "daly_reader_push: noise and a start");
    test(m.number == 0 && m.missing == 12, "daly_reader_missing");

    said = daly_reader_push(&reader, soc, 13);
    const struct daly_counts *c = &reader.counts;
    test(said.status == 0 && said.missing == 0 && said.took == 13 && c->taken == 15 && lost(&reader, 1, 1, 0, 0, 0) && c->cleared == 0 && c->collected == 1 && c->held == 0 &&
             memcmp(reader.frames, soc, 13) == 0,
         "daly_reader_push: document 01's example");

    struct daly_reader bad = reader;
    bad.counts.held = 13;
    said = daly_reader_push(&bad, soc, 13);
    test(said.status == DALY_BAD_STATE && said.missing == 0 && said.took == 0 && bad.counts.held == 13 && bad.counts.taken == 15 &&
             memcmp(bad.frames, reader.frames, DALY_FRAMES) == 0,
         "daly_reader_push: a bad state");
    test(daly_reader_missing(&bad).number == DALY_BAD_STATE, "daly_reader_missing: a bad state");
    return reader;
}

/* Field by field, since padding is not specified. */
static bool same(const struct daly_reader *a, const struct daly_reader *b)
{
    const struct daly_counts *x = &a->counts, *y = &b->counts;
    const struct daly_discarded *d = &y->discarded;
    return x->command == y->command && x->mark == y->mark && x->strict == y->strict && x->taken == y->taken &&
           lost(a, d->noise, d->sum, d->command, d->number, d->echo) && x->cleared == y->cleared && x->wanted == y->wanted &&
           x->collected == y->collected && x->held == y->held && memcmp(a->frames, b->frames, DALY_FRAMES) == 0;
}

static void reader(void)
{
    uint8_t request[DALY_FRAME], out[DALY_FRAME];
    daly_request(0x90, false, 0, request);
    struct daly_reader r, zero = {0};
    memset(&r, 0x5A, sizeof r);
    test(daly_reader_new(&r, request, 2, 13, true) == DALY_REQUEST_TOO_SHORT && same(&r, &zero), "daly_reader_new: a short request");
    memset(&r, 0x5A, sizeof r);
    test(daly_reader_new(&r, request, 13, 1106, true) == DALY_REPLY_TOO_LONG && same(&r, &zero), "daly_reader_new: a long reply");
    memset(&r, 0x5A, sizeof r);
    zero.counts.command = 0x90;
    zero.counts.wanted = 1;
    test(daly_reader_new(&r, request, 13, 13, false) == 0 && same(&r, &zero), "daly_reader_new");

    r = pushed(r);
    struct daly_completed d = daly_reader_is_complete(&r);
    test(d.number == 0 && d.complete, "daly_reader_is_complete");
    struct daly_list l = daly_reader_copy_out(&r, out, 13);
    test(l.number == 0 && l.count == 13 && memcmp(out, soc, 13) == 0, "daly_reader_copy_out");
    test(daly_reader_copy_out(&r, out, 12).number == DALY_NO_ROOM, "daly_reader_copy_out: no room");
}

/* A new reader of so many frames, of the command in the question, and the line in chunks of one size pushed into it. */
static struct daly_said pushed_new(struct daly_reader *reader, const uint8_t *question, size_t frames, bool strict, const uint8_t *line, size_t len, size_t size)
{
    struct daly_said said = {0, 0, 0};
    if (daly_reader_new(reader, question, DALY_FRAME, DALY_FRAME * frames, strict) != DALY_DONE)
        return said;
    for (size_t at = 0; at < len; at += size)
        said = daly_reader_push(reader, line + at, len - at < size ? len - at : size);
    return said;
}

/* The 90 question, sent back, and then document 01's frame. */
static void echo_and_reply(void)
{
    uint8_t line[26];
    memcpy(line, p1, 13);
    memcpy(line + 13, soc, 13);
    struct daly_reader strict, cut, other, wanted = {.counts = {.command = 0x90, .strict = true, .taken = 26, .discarded = {.echo = 13}, .wanted = 1, .collected = 1}};
    memcpy(wanted.frames, soc, 13);
    struct daly_said said = pushed_new(&strict, p1, 1, true, line, 26, 26);
    test(said.status == 0 && said.missing == 0 && said.took == 26 && memcmp(strict.frames, soc, 13) == 0 && lost(&strict, 0, 0, 0, 0, 13),
         "strict: an echo is discarded, and the reply collected");
    bool good = same(&strict, &wanted);
    for (size_t size = 1; size < 26; size++) {
        pushed_new(&cut, p1, 1, true, line, 26, size);
        good = good && same(&cut, &wanted);
    }
    test(good, "strict: however it is cut");
    said = pushed_new(&other, p1, 1, false, line, 26, 26);
    test(said.status == 0 && said.missing == 0 && said.took == 13 && memcmp(other.frames, p1, 13) == 0 && lost(&other, 0, 0, 0, 0, 0) && !other.counts.strict,
         "not strict: the echo is collected");
}

/* Frames 1 and 2 of three, an echo numbered 1, and frame 3. */
static void echo_with_a_number(void)
{
    uint8_t line[52];
    frame(line, 0x95, (const uint8_t[8]){1});
    frame(line + 13, 0x95, (const uint8_t[8]){2});
    memcpy(line + 26, ask_cells, 13);
    line[26 + 4]++;
    line[26 + 12]++;
    frame(line + 39, 0x95, (const uint8_t[8]){3});
    struct daly_reader strict, other;
    struct daly_said said = pushed_new(&strict, ask_cells, 3, true, line, 52, 52);
    test(said.missing == 0 && said.took == 52 && strict.counts.cleared == 0 && lost(&strict, 0, 0, 0, 0, 13) && strict.counts.collected == 3,
         "strict: an echo numbered 1 drops nothing");
    said = pushed_new(&other, ask_cells, 3, false, line, 52, 52);
    test(said.missing == 13 && other.counts.cleared == 2 && lost(&other, 0, 0, 0, 13, 0) && other.counts.collected == 1,
         "not strict: it begins the reply again");
}

/* A start byte among its 13: a frame might begin there, if the echo were not thrown away whole. */
static void echo_with_a_start(void)
{
    const uint8_t line[13] = {0xA5, 0x40, 0x90, 0x08, 0, 0xA5, 0, 0, 0, 0, 0, 0, 0x22};
    struct daly_reader whole, cut;
    struct daly_said said = pushed_new(&whole, p1, 1, true, line, 13, 13);
    test(said.missing == 13 && lost(&whole, 0, 0, 0, 0, 13) && whole.counts.held == 0, "strict: an echo is discarded whole");
    said = pushed_new(&cut, p1, 1, true, line, 13, 1);
    test(said.missing == 13 && lost(&cut, 0, 0, 0, 0, 13) && cut.counts.held == 0, "strict: whole, in single bytes");
}

/* 39 echoes are 507 bytes, and 40 are 520. */
static void many_echoes(void)
{
    uint8_t line[40 * DALY_FRAME];
    for (int i = 0; i < 40; i++)
        memcpy(line + i * DALY_FRAME, p1, DALY_FRAME);
    struct daly_reader few, many;
    struct daly_said said = pushed_new(&few, p1, 1, true, line, 39 * DALY_FRAME, 39 * DALY_FRAME);
    test(said.status == DALY_DONE && said.missing == 13 && lost(&few, 0, 0, 0, 0, 507) && !few.counts.mark, "strict: 39 echoes");
    said = pushed_new(&many, p1, 1, true, line, sizeof line, sizeof line);
    test(said.status == DALY_UNEXPECTED_FRAME && said.missing == 13 && lost(&many, 0, 0, 0, 0, 520) && many.counts.mark, "strict: 40 echoes are over 512 bytes");
}

/*
 * A line that loses bytes for every reason, in this order: 3 of noise; a wrong sum, whose 12 other bytes are noise, twice;
 * three frames of another command, of which one is a question; frames 2 and 3, where 1 is the next; our own question. Frame
 * 1 is then collected. No two reasons have the same number, so none can stand for another.
 */
enum { NOISE = 3 + 2 * 12, SUMS = 2, OTHERS = 3 * DALY_FRAME, NUMBERS = 2 * DALY_FRAME, ECHOES = DALY_FRAME };

static size_t make_losses(uint8_t line[10 * DALY_FRAME])
{
    uint8_t *at = line;
    memcpy(at, (const uint8_t[3]){0x00, 0xFF, 0x3C}, 3);
    at += 3;
    for (int i = 0; i < 2; i++, at += DALY_FRAME) {
        frame(at, 0x95, (const uint8_t[8]){1});
        at[12]++;
    }
    memcpy(at, soc, DALY_FRAME);
    memcpy(at + 13, p1, DALY_FRAME);
    frame(at + 26, 0x96, (const uint8_t[8]){1});
    frame(at + 39, 0x95, (const uint8_t[8]){2});
    frame(at + 52, 0x95, (const uint8_t[8]){3});
    memcpy(at + 65, ask_cells, DALY_FRAME);
    frame(at + 78, 0x95, (const uint8_t[8]){1});
    return (size_t)(at - line) + 91;
}

static void reasons(void)
{
    uint8_t line[10 * DALY_FRAME];
    size_t len = make_losses(line);
    struct daly_reader whole, cut, other;
    struct daly_said said = pushed_new(&whole, ask_cells, 3, true, line, len, len);
    test(said.status == 0 && said.missing == 13 && said.took == len && whole.counts.taken == len && whole.counts.collected == 1 &&
             lost(&whole, NOISE, SUMS, OTHERS, NUMBERS, ECHOES),
         "struct daly_discarded: all five reasons");
    bool good = true;
    for (size_t size = 1; size < len; size++) {
        pushed_new(&cut, ask_cells, 3, true, line, len, size);
        good = good && same(&cut, &whole);
    }
    test(good, "struct daly_discarded: however it is cut");
    pushed_new(&other, ask_cells, 3, false, line, len, len);
    test(lost(&other, NOISE, SUMS, OTHERS, NUMBERS + ECHOES, 0), "struct daly_discarded: not strict, an echo has a wrong number");
}

/* A reader of 90 that stands with these counts. */
static struct daly_reader standing(struct daly_discarded discarded, bool mark)
{
    return (struct daly_reader){.counts = {.command = 0x90, .mark = mark, .wanted = 1, .discarded = discarded}};
}

/* The limit of 512 is on the sum, which wraps: no count alone has to pass it, and one that does may not. */
static void sums(void)
{
    const uint8_t noise[1] = {0x00};
    const struct daly_discarded at = {102, 103, 101, 102, 104}, over = {102, 103, 101, 103, 104}, wraps = {UINT32_MAX, 1, 2, 3, 4};
    test(daly_discarded_all(at) == 512 && daly_discarded_all(over) == 513 && daly_discarded_all(wraps) == 9, "daly_discarded_all");
    struct daly_reader r = standing(over, false);
    test(daly_reader_push(&r, noise, 1).status == DALY_BAD_STATE && lost(&r, 102, 103, 101, 103, 104) && r.counts.taken == 0,
         "daly_reader_push: 513 bytes by five reasons without the mark are a bad state");
    test(daly_reader_missing(&r).number == DALY_BAD_STATE && daly_reader_is_complete(&r).number == DALY_BAD_STATE, "and to the questions");
    r = standing(over, true);
    test(daly_reader_push(&r, noise, 1).status == DALY_UNEXPECTED_FRAME && lost(&r, 103, 103, 101, 103, 104), "daly_reader_push: with the mark they are not");
    r = standing(at, false);
    test(daly_reader_push(&r, noise, 0).status == DALY_DONE && !r.counts.mark, "daly_reader_push: 512 bytes by five reasons");
    test(daly_reader_push(&r, noise, 1).status == DALY_UNEXPECTED_FRAME && r.counts.mark && lost(&r, 103, 103, 101, 102, 104),
         "daly_reader_push: one more sets the mark");
    r = standing(wraps, false);
    test(daly_reader_push(&r, noise, 1).status == DALY_DONE && !r.counts.mark && lost(&r, 0, 1, 2, 3, 4), "daly_reader_push: each count wraps, and so does the sum");
}

/* What the writers are lent: the longest reply, and a byte more. */
static uint8_t lent[DALY_FRAMES + 1];

/* Whether just these frames were written, from the address 1. Every test makes the lent bytes anew. */
static bool wrote(struct daly_list told, size_t frames, uint8_t command, const uint8_t data[][8])
{
    uint8_t wanted[DALY_FRAMES + 1];
    memset(wanted, 0x5A, sizeof wanted);
    for (size_t k = 0; k < frames; k++)
        frame(wanted + DALY_FRAME * k, command, data[k]);
    bool good = told.number == DALY_DONE && told.count == DALY_FRAME * frames && memcmp(lent, wanted, sizeof wanted) == 0;
    memset(lent, 0x5A, sizeof lent);
    return good;
}

/* Whether it was refused so, and nothing was written. */
static bool refused(struct daly_list told, uint8_t number)
{
    for (size_t i = 0; i < sizeof lent; i++)
        if (lent[i] != 0x5A)
            return false;
    return told.number == number && told.count == 0;
}

static void written_records(void)
{
    const struct daly_soc_wire s = {523, 29879, 874};
    test(wrote(daly_write_soc(1, s, lent, 13), 1, 0x90, (const uint8_t[][8]){{0x02, 0x0B, 0, 0, 0x74, 0xB7, 0x03, 0x6A}}), "daly_write_soc: P6");
    daly_write_soc(0xFE, s, lent, 13);
    test(lent[1] == 0xFE && daly_soc_counts(lent, 13).current == -121, "daly_write_soc: another address, read back");
    memset(lent, 0x5A, sizeof lent);

    const struct daly_cell_voltage_range_wire v = {3301, 3, 3296, 8};
    test(wrote(daly_write_cell_voltage_range(1, v, lent, 14), 1, 0x91, (const uint8_t[][8]){{0x0C, 0xE5, 3, 0x0C, 0xE0, 8, 0, 0}}),
         "daly_write_cell_voltage_range");

    const struct daly_temperature_range_wire t = {127, 1, -128, 2};
    test(wrote(daly_write_temperature_range(1, t, lent, 14), 1, 0x92, (const uint8_t[][8]){{167, 1, 168, 2, 0, 0, 0, 0}}),
         "daly_write_temperature_range: P7");

    struct daly_mosfet_status_wire m = {2, true, false, 23, 16777219};
    test(wrote(daly_write_mosfet_status(1, m, lent, 14), 1, 0x93, (const uint8_t[][8]){{2, 1, 0, 23, 0x01, 0, 0, 0x03}}), "daly_write_mosfet_status");
    m.mode = 3;
    test(refused(daly_write_mosfet_status(1, m, lent, 0), DALY_VALUE_OUT_OF_RANGE), "daly_write_mosfet_status: mode 3, and no room");

    const struct daly_status_wire st = {8, 2, true, false, true, false, false, false, false, true, false, false, 300};
    test(wrote(daly_write_status(1, st, lent, 14), 1, 0x94, (const uint8_t[][8]){{8, 2, 1, 0, 0x21, 0x01, 0x2C, 0}}), "daly_write_status");

    test(refused(daly_write_soc(1, s, lent, 12), DALY_NO_ROOM) && refused(daly_write_cell_voltage_range(1, v, lent, 12), DALY_NO_ROOM) &&
             refused(daly_write_temperature_range(1, t, lent, 12), DALY_NO_ROOM) && refused(daly_write_status(1, st, lent, 12), DALY_NO_ROOM),
         "records to be written: no room");
}

static void written_lists(void)
{
    const uint16_t cells[256] = {3301, 3298, 3302, 3297};
    test(wrote(daly_write_cell_voltages(1, cells, 4, lent, 26), 2, 0x95,
               (const uint8_t[][8]){{1, 0x0C, 0xE5, 0x0C, 0xE2, 0x0C, 0xE6, 0}, {2, 0x0C, 0xE1, 0, 0, 0, 0, 0}}),
         "daly_write_cell_voltages");
    test(refused(daly_write_cell_voltages(1, cells, 4, lent, 25), DALY_NO_ROOM), "daly_write_cell_voltages: no room");
    test(refused(daly_write_cell_voltages(1, cells, 256, lent, 0), DALY_COUNT_TOO_LARGE), "daly_write_cell_voltages: 256 cells, and no room");
    test(refused(daly_write_cell_voltages(1, cells, 0, lent, 0), DALY_DONE), "daly_write_cell_voltages: no cells are no bytes");
    struct daly_list l = daly_write_cell_voltages(1, cells, DALY_CELLS, lent, DALY_FRAMES);
    test(l.number == DALY_DONE && l.count == DALY_FRAMES && lent[DALY_FRAMES] == 0x5A, "daly_write_cell_voltages: the most");
    memset(lent, 0x5A, sizeof lent);

    int32_t degrees[256] = {25, -40, 215};
    test(wrote(daly_write_cell_temperatures(1, degrees, 3, lent, 14), 1, 0x96, (const uint8_t[][8]){{1, 65, 0, 255, 0, 0, 0, 0}}),
         "daly_write_cell_temperatures");
    degrees[2] = 216;
    test(refused(daly_write_cell_temperatures(1, degrees, 255, lent, 0), DALY_VALUE_OUT_OF_RANGE), "daly_write_cell_temperatures: 216, and no room");
    test(refused(daly_write_cell_temperatures(1, degrees, 256, lent, 0), DALY_COUNT_TOO_LARGE), "daly_write_cell_temperatures: 256 sensors, and 216");

    const bool flags[49] = {true, false, true, [47] = true};
    test(wrote(daly_write_cell_balance_state(1, flags, 48, lent, 14), 1, 0x97, (const uint8_t[][8]){{0x05, 0, 0, 0, 0, 0x80, 0, 0}}),
         "daly_write_cell_balance_state");
    test(refused(daly_write_cell_balance_state(1, flags, 0, lent, 14), DALY_VALUE_OUT_OF_RANGE) &&
             refused(daly_write_cell_balance_state(1, flags, 49, lent, 0), DALY_VALUE_OUT_OF_RANGE),
         "daly_write_cell_balance_state: no flag, and 49");

    const bool faults[DALY_FAULTS] = {[17] = true, [27] = true, [28] = true, [47] = true};
    test(wrote(daly_write_error_codes(1, faults, lent, 14), 1, 0x98, (const uint8_t[][8]){{0, 0, 0x02, 0x08, 0x01, 0, 0x08, 0}}), "daly_write_error_codes");
    test(refused(daly_write_cell_temperatures(1, degrees, 2, lent, 12), DALY_NO_ROOM) && refused(daly_write_cell_balance_state(1, flags, 1, lent, 12), DALY_NO_ROOM) &&
             refused(daly_write_error_codes(1, faults, lent, 12), DALY_NO_ROOM),
         "lists to be written: no room");
}

static void written_acknowledgements(void)
{
    const uint8_t nothing[1][8] = {{0}};
    test(wrote(daly_write_set_discharge_mosfet(1, lent, 13), 1, DALY_SET_DISCHARGE_MOSFET, nothing), "daly_write_set_discharge_mosfet");
    test(wrote(daly_write_set_charge_mosfet(1, lent, 13), 1, DALY_SET_CHARGE_MOSFET, nothing), "daly_write_set_charge_mosfet");
    test(wrote(daly_write_set_soc(1, lent, 13), 1, DALY_SET_SOC, nothing), "daly_write_set_soc");
    test(refused(daly_write_set_discharge_mosfet(1, lent, 12), DALY_NO_ROOM) && refused(daly_write_set_charge_mosfet(1, lent, 12), DALY_NO_ROOM) &&
             refused(daly_write_set_soc(1, lent, 12), DALY_NO_ROOM),
         "acknowledgements to be written: no room");
}

int main(void)
{
    requests_and_frames();
    kinds();
    names();
    sizes();
    records();
    lists();
    pack();
    reader();
    echo_and_reply();
    echo_with_a_number();
    echo_with_a_start();
    many_echoes();
    reasons();
    sums();
    memset(lent, 0x5A, sizeof lent);
    written_records();
    written_lists();
    written_acknowledgements();
    printf("%d passed, %d failed\n", passed, failed);
    return failed != 0;
}
