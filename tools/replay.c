/*
 * Holds the library to answers that were stored before, with no Rust at hand.
 *
 *     replay LIST        asks every question of the list and compares the answer with the one beside it
 *     replay --numbers   prints document 01's P1 to P14 as the library answers them
 *
 * The list is data/answers; its head says what a line means. data/numbers is what `--numbers` is to print, written
 * by hand. tools/test_replay builds and runs this program, and spoils the library under it.
 */
#include <inttypes.h>
#include <math.h>
#include <stdio.h>
#include <string.h>

#include "daly.h"

enum { HOLDS = 0, DOES_NOT_HOLD = 1, USAGE = 2 };
enum { LIST_ROOM = 1 << 20, LINE_ROOM = 8192, QUESTION_ROOM = LINE_ROOM / 2 };
enum { MANY = 255 /* cells or sensors */, FLAGS = 48 /* of 97, and faults of 98 */ };
enum { NO_BYTE = 256 /* stands where an answer is none that a line can have */ };

struct bytes {
    const uint8_t *at;
    size_t length;
};

/* ---- A line's text, made anew from its question */

/* `length` goes on where the room ends: such a text is longer than any line that is looked at. */
struct text {
    uint8_t bytes[LINE_ROOM];
    size_t length;
};

static void put_code(struct text *out, uint8_t code)
{
    if (out->length < LINE_ROOM)
        out->bytes[out->length] = code;
    out->length++;
}

/* Two digits; for what is no byte a line end, which no line has. */
static void put_byte(struct text *out, size_t value)
{
    static const char digits[] = "0123456789ABCDEF";
    if (value >= NO_BYTE) {
        put_code(out, '\n');
        return;
    }
    put_code(out, (uint8_t)digits[value / 16]);
    put_code(out, (uint8_t)digits[value % 16]);
}

static void put_bytes(struct text *out, struct bytes bytes)
{
    for (size_t i = 0; i < bytes.length; i++)
        put_byte(out, bytes.at[i]);
}

static void put_two(struct text *out, uint16_t value)
{
    put_byte(out, value >> 8);
    put_byte(out, value & 0xFF);
}

static void put_four(struct text *out, uint32_t value)
{
    put_two(out, (uint16_t)(value >> 16));
    put_two(out, (uint16_t)value);
}

static void put_float(struct text *out, float value)
{
    uint32_t bits;
    memcpy(&bits, &value, sizeof bits);
    put_four(out, bits);
}

/* Whether values follow the number. */
static bool put_number(struct text *out, uint8_t number)
{
    put_byte(out, number);
    return number == DALY_DONE;
}

/* ---- Questions: a byte that one does not have reads as 0 */

static uint8_t byte_at(struct bytes question, size_t place)
{
    return place < question.length ? question.at[place] : 0;
}

static uint16_t two_at(struct bytes question, size_t place)
{
    return (uint16_t)(byte_at(question, place) << 8 | byte_at(question, place + 1));
}

static float float_of(uint32_t bits)
{
    float value;
    memcpy(&value, &bits, sizeof value);
    return value;
}

static float float_at(struct bytes question, size_t place)
{
    return float_of((uint32_t)two_at(question, place) << 16 | two_at(question, place + 2));
}

static struct bytes behind(struct bytes question, size_t place)
{
    size_t start = place < question.length ? place : question.length;
    return (struct bytes){question.at + start, question.length - start};
}

/* ---- Requests and replies of one frame */

static void put_request(struct text *out, struct bytes question)
{
    uint8_t request[DALY_FRAME] = {0};
    put_byte(out, daly_request(byte_at(question, 1), byte_at(question, 2) != 0, float_at(question, 2), request));
    put_bytes(out, (struct bytes){request, sizeof request});
}

static void put_soc(struct text *out, struct bytes reply)
{
    struct daly_soc soc = daly_soc(reply.at, reply.length);
    if (!put_number(out, soc.number))
        return;
    put_float(out, soc.total_voltage);
    put_float(out, soc.current);
    put_float(out, soc.soc_percent);
}

static void put_cell_voltage_range(struct text *out, struct bytes reply)
{
    struct daly_cell_voltage_range range = daly_cell_voltage_range(reply.at, reply.length);
    if (!put_number(out, range.number))
        return;
    put_float(out, range.highest_voltage);
    put_byte(out, range.highest_cell);
    put_float(out, range.lowest_voltage);
    put_byte(out, range.lowest_cell);
}

static void put_temperature_range(struct text *out, struct bytes reply)
{
    struct daly_temperature_range range = daly_temperature_range(reply.at, reply.length);
    if (!put_number(out, range.number))
        return;
    put_four(out, (uint32_t)range.highest_temperature);
    put_byte(out, range.highest_sensor);
    put_four(out, (uint32_t)range.lowest_temperature);
    put_byte(out, range.lowest_sensor);
}

static void put_mosfet_status(struct text *out, struct bytes reply)
{
    struct daly_mosfet_status status = daly_mosfet_status(reply.at, reply.length);
    if (!put_number(out, status.number))
        return;
    put_byte(out, status.mode);
    put_byte(out, status.charging_mosfet);
    put_byte(out, status.discharging_mosfet);
    put_byte(out, status.bms_cycles);
    put_float(out, status.capacity_ah);
}

static void put_status(struct text *out, struct bytes reply)
{
    struct daly_status status = daly_status(reply.at, reply.length);
    if (!put_number(out, status.number))
        return;
    const uint8_t fields[12] = {
        status.cells, status.temperature_sensors, status.charger_running, status.load_running,
        status.di1,   status.di2,                 status.di3,             status.di4,
        status.do1,   status.do2,                 status.do3,             status.do4,
    };
    put_bytes(out, (struct bytes){fields, sizeof fields});
    put_two(out, status.cycles);
}

/* The list has no echoes, since the Rust tells none; but its replies have addresses: only a sound one with ours is one. */
static void put_checked(struct text *out, struct bytes reply, uint8_t command)
{
    struct daly_frame_kind kind = daly_frame_check(reply.at, reply.length, command);
    bool ours = put_number(out, kind.number) && byte_at(reply, 1) == 0x40;
    if (kind.echo != ours)
        put_byte(out, NO_BYTE);
}

/* ---- Replies with many values */

/* Puts the number; how many values follow it. */
static size_t put_stored(struct text *out, struct daly_list list, size_t room)
{
    if (!put_number(out, list.number))
        return 0;
    if (list.count <= room)
        return list.count;
    put_byte(out, NO_BYTE);
    return 0;
}

/* The list has no sizes, but its refusals 1 say what they are: only a reply that is shorter has it. */
static void hold_size(struct text *out, uint8_t number, struct bytes reply, size_t reply_size)
{
    if ((number == DALY_REPLY_SIZE) != (reply.length < reply_size))
        put_byte(out, NO_BYTE);
}

static void put_cell_voltages(struct text *out, struct bytes reply, uint8_t n_cells)
{
    float values[MANY] = {0};
    struct daly_list list = daly_cell_voltages(reply.at, reply.length, n_cells, values, MANY);
    size_t count = put_stored(out, list, MANY);
    for (size_t i = 0; i < count; i++)
        put_float(out, values[i]);
    hold_size(out, list.number, reply, daly_cell_voltages_reply_size(n_cells));
}

static void put_cell_temperatures(struct text *out, struct bytes reply, uint8_t n_sensors)
{
    int32_t values[MANY] = {0};
    struct daly_list list = daly_cell_temperatures(reply.at, reply.length, n_sensors, values, MANY);
    size_t count = put_stored(out, list, MANY);
    for (size_t i = 0; i < count; i++)
        put_four(out, (uint32_t)values[i]);
    hold_size(out, list.number, reply, daly_cell_temperatures_reply_size(n_sensors));
}

static void put_cell_balance_state(struct text *out, struct bytes reply, uint8_t n_cells)
{
    bool values[FLAGS] = {0};
    struct daly_list list = daly_cell_balance_state(reply.at, reply.length, n_cells, values, FLAGS);
    size_t count = put_stored(out, list, FLAGS);
    for (size_t i = 0; i < count; i++)
        put_byte(out, values[i]);
}

static void put_error_codes(struct text *out, struct bytes reply)
{
    uint8_t values[FLAGS] = {0};
    struct daly_list list = daly_error_codes(reply.at, reply.length, values, FLAGS);
    put_bytes(out, (struct bytes){values, put_stored(out, list, FLAGS)});
}

static void put_decoded(struct text *out, struct bytes question)
{
    uint8_t command = byte_at(question, 1), count = byte_at(question, 2);
    struct bytes reply = behind(question, 3);
    switch (command) {
    case 0x90: put_soc(out, reply); break;
    case 0x91: put_cell_voltage_range(out, reply); break;
    case 0x92: put_temperature_range(out, reply); break;
    case 0x93: put_mosfet_status(out, reply); break;
    case 0x94: put_status(out, reply); break;
    case 0x95: put_cell_voltages(out, reply, count); break;
    case 0x96: put_cell_temperatures(out, reply, count); break;
    case 0x97: put_cell_balance_state(out, reply, count); break;
    case 0x98: put_error_codes(out, reply); break;
    default: put_checked(out, reply, command);
    }
}

/* ---- Readers */

/* The last status and what is then missing, and all bytes taken. An empty stream is pushed too, since even that has a status. */
static struct daly_said push_in_chunks(struct daly_reader *reader, struct bytes stream, size_t size)
{
    struct daly_said all = daly_reader_push(reader, stream.at, 0);
    for (size_t at = 0; at < stream.length; at += size) {
        size_t left = stream.length - at;
        struct daly_said said = daly_reader_push(reader, stream.at + at, left < size ? left : size);
        all.status = said.status;
        all.missing = said.missing;
        all.took += said.took;
    }
    return all;
}

static void put_collected(struct text *out, const struct daly_reader *reader)
{
    uint8_t frames[DALY_FRAMES] = {0};
    struct daly_list list = daly_reader_copy_out(reader, frames, DALY_FRAMES);
    put_bytes(out, (struct bytes){frames, put_stored(out, list, DALY_FRAMES)});
}

static void put_read(struct text *out, struct bytes question)
{
    const uint8_t request[3] = {0, 0, byte_at(question, 1)};
    struct daly_reader reader;
    uint8_t opened = daly_reader_new(&reader, request, sizeof request, two_at(question, 2), false);
    size_t size = two_at(question, 4);
    struct daly_said said = push_in_chunks(&reader, behind(question, 6), size > 0 ? size : 1);
    struct daly_completed completed = daly_reader_is_complete(&reader);
    struct daly_missing missing = daly_reader_missing(&reader);
    put_byte(out, opened);
    put_byte(out, said.took == reader.counts.taken && said.missing == missing.missing ? said.status : NO_BYTE);
    put_byte(out, completed.number == DALY_DONE ? completed.complete : NO_BYTE);
    put_byte(out, missing.number == DALY_DONE ? missing.missing : NO_BYTE);
    put_collected(out, &reader);
}

/* ---- The list */

static void put_answer(struct text *out, struct bytes question)
{
    switch (byte_at(question, 0)) {
    case 1: put_request(out, question); break;
    case 2: put_decoded(out, question); break;
    case 3: put_read(out, question); break;
    default: put_byte(out, NO_BYTE);
    }
}

/* What is no digit has some value too: the text made from it is then not the line. */
static unsigned digit_value(uint8_t code)
{
    return code <= '9' ? code - (unsigned)'0' : code - (unsigned)'A' + 10;
}

/* Up to the first space; into lent room for the question of the longest line. */
static struct bytes read_question(struct bytes line, uint8_t room[QUESTION_ROOM])
{
    size_t n = 0;
    for (; 2 * n + 1 < line.length && line.at[2 * n] != ' '; n++)
        room[n] = (uint8_t)(digit_value(line.at[2 * n]) * 16 + digit_value(line.at[2 * n + 1]));
    return (struct bytes){room, n};
}

static bool same(struct bytes line, const void *text, size_t length)
{
    return line.length == length && memcmp(line.at, text, length) == 0;
}

/* The whole line is made anew and compared, so that it holds in one spelling only. */
static bool line_holds(struct bytes line)
{
    uint8_t room[QUESTION_ROOM];
    struct text text = {.length = 0};
    if (line.length > LINE_ROOM)
        return false;
    struct bytes question = read_question(line, room);
    put_bytes(&text, question);
    put_code(&text, ' ');
    put_answer(&text, question);
    return same(line, text.bytes, text.length);
}

static bool is_end(struct bytes line, uint32_t sum)
{
    char end[sizeof "end 4294967295"];
    int length = snprintf(end, sizeof end, "end %" PRIu32, sum);
    return same(line, end, (size_t)length);
}

/* Case lines, how many of them hold, the number of the first that does not (0 where all do), and whether the
 * last line has the sum of all that stands before it, so that no byte can change unnoticed, in a comment either. */
struct found {
    size_t lines, held, first;
    bool whole;
};

static void judge(struct found *found, struct bytes line, size_t number, uint32_t sum)
{
    bool comment = line.length > 0 && line.at[0] == '#';
    found->whole = !comment && is_end(line, sum);
    if (comment || found->whole)
        return;
    found->lines++;
    if (line_holds(line))
        found->held++;
    else if (found->first == 0)
        found->first = number;
}

static struct found replay(struct bytes list)
{
    struct found found = {0, 0, 0, false};
    uint32_t sum = 0, before = 0;
    size_t start = 0, number = 0;
    for (size_t i = 0; i < list.length; i++) {
        sum += list.at[i];
        if (list.at[i] != '\n')
            continue;
        judge(&found, (struct bytes){list.at + start, i - start}, ++number, before);
        before = sum;
        start = i + 1;
    }
    found.whole = found.whole && start == list.length;
    return found;
}

/* A list that asks nothing shows nothing. */
static int tell(struct found found)
{
    printf("%zu answers of the Rust: %zu hold\n", found.lines, found.held);
    if (found.first != 0)
        printf("line %zu does not hold\n", found.first);
    if (!found.whole)
        printf("the list's sum is wrong\n");
    return found.lines > 0 && found.first == 0 && found.whole ? HOLDS : DOES_NOT_HOLD;
}

/* A list that fills the room may be longer, and is not cut. */
static int replay_file(const char *path)
{
    static uint8_t list[LIST_ROOM];
    FILE *file = fopen(path, "rb");
    if (file == NULL) {
        perror(path);
        printf("there is no list\n");
        return DOES_NOT_HOLD;
    }
    size_t length = fread(list, 1, LIST_ROOM, file);
    fclose(file);
    if (length == LIST_ROOM) {
        printf("the list is too large\n");
        return DOES_NOT_HOLD;
    }
    return tell(replay((struct bytes){list, length}));
}

/* ---- Document 01's numbers */

/* "the frame in the input above" */
static const uint8_t soc[DALY_FRAME] = {0xA5, 0x01, 0x90, 0x08, 0x02, 0x0B, 0x00, 0x00, 0x74, 0xB7, 0x03, 0x6A, 0xE3};

/* Whether values follow. */
static bool print_refused(uint8_t number)
{
    if (number != DALY_DONE)
        printf(" refused %u", number);
    return number == DALY_DONE;
}

/* A valid frame of the board. */
static void make_frame(uint8_t frame[DALY_FRAME], uint8_t command, const uint8_t data[8])
{
    const uint8_t head[4] = {0xA5, 0x01, command, 0x08};
    memcpy(frame, head, 4);
    memcpy(frame + 4, data, 8);
    frame[12] = daly_calc_crc(frame, DALY_FRAME);
}

static void print_request(uint8_t command, float soc_percent)
{
    uint8_t request[DALY_FRAME];
    if (!print_refused(daly_request(command, false, soc_percent, request)))
        return;
    printf(" ");
    for (int i = 0; i < DALY_FRAME; i++)
        printf("%02X", request[i]);
}

/* The count that `SetSoc` sends for a percentage. */
static void print_sent(float soc_percent)
{
    uint8_t request[DALY_FRAME];
    if (print_refused(daly_request(0x21, false, soc_percent, request)))
        printf(" %d", request[10] << 8 | request[11]);
}

static void print_requests(void)
{
    printf("P1");
    print_request(0x90, 0);
    printf("\nP2");
    print_request(0x21, 0.25f);
    print_request(0x21, 50.5f);
    printf("\nP3");
    print_sent(float_of(0x3D4CCCCC));
    printf("\nP4");
    print_sent(float_of(0x3D4CCCCD));
    printf("\nP5");
    print_sent(NAN);
    print_sent(INFINITY);
    print_sent(-0.04f);
    printf("\n");
}

static void print_soc_counts(const uint8_t *reply, size_t len)
{
    struct daly_soc_counts counts = daly_soc_counts(reply, len);
    if (print_refused(counts.number))
        printf(" %u %" PRId32 " %u", counts.total_voltage, counts.current, counts.soc_percent);
}

static void print_temperature(uint8_t byte)
{
    uint8_t reply[DALY_FRAME];
    make_frame(reply, 0x92, (const uint8_t[8]){byte, 1, 0, 2});
    struct daly_temperature_range range = daly_temperature_range(reply, DALY_FRAME);
    if (print_refused(range.number))
        printf(" %d", range.highest_temperature);
}

/* Which f32 the count became before it was divided, 0 where none of these. The library tells only the quotient;
 * but these four, all the f32 there are about P8's counts, have four different quotients. So a count that was
 * rounded the other way shows. So does 16,777,219 divided as it is, in one rounding: that has the quotient of
 * 16,777,218. (16,777,217 divided as it is has that of 16,777,216, and would not show.) */
static uint32_t divided(float capacity_ah)
{
    static const uint32_t about[4] = {16777216, 16777218, 16777220, 16777222};
    for (int i = 0; i < 4; i++) {
        float quotient = (float)about[i] / 1000.0f;
        if (memcmp(&quotient, &capacity_ah, sizeof quotient) == 0)
            return about[i];
    }
    return 0;
}

/* The count is 16,777,216 + `more`. */
static void print_capacity(uint8_t more)
{
    uint8_t reply[DALY_FRAME];
    make_frame(reply, 0x93, (const uint8_t[8]){0, 0, 0, 0, 1, 0, 0, more});
    struct daly_mosfet_status status = daly_mosfet_status(reply, DALY_FRAME);
    if (print_refused(status.number))
        printf(" %" PRIu32, divided(status.capacity_ah));
}

static void print_flag_count(uint8_t n_cells)
{
    uint8_t reply[DALY_FRAME];
    bool flags[FLAGS];
    make_frame(reply, 0x97, (const uint8_t[8]){0});
    struct daly_list list = daly_cell_balance_state(reply, DALY_FRAME, n_cells, flags, FLAGS);
    if (print_refused(list.number))
        printf(" %zu", list.count);
}

/* The faults of a 98 reply with this in byte 6. */
static void print_faults(uint8_t byte)
{
    uint8_t reply[DALY_FRAME], positions[FLAGS] = {0};
    make_frame(reply, 0x98, (const uint8_t[8]){0, 0, byte});
    struct daly_list list = daly_error_codes(reply, DALY_FRAME, positions, FLAGS);
    if (!print_refused(list.number))
        return;
    for (size_t i = 0; i < list.count && i < FLAGS; i++)
        printf(" %u", positions[i]);
}

static void print_replies(void)
{
    uint8_t longer[DALY_FRAME + 1] = {0};
    memcpy(longer, soc, DALY_FRAME);
    printf("P6");
    print_soc_counts(soc, DALY_FRAME);
    print_soc_counts(longer, sizeof longer);
    printf("\nP7");
    print_temperature(167);
    print_temperature(168);
    print_temperature(255);
    printf("\nP8");
    print_capacity(3);
    print_capacity(1);
    printf("\nP9");
    print_flag_count(0);
    print_flag_count(49);
    printf("\nP10");
    print_faults(0x03);
    printf("\n");
}

/* A new reader for the command's reply, and one push of the stream. */
static void print_read(uint8_t command, size_t reply_size, struct bytes stream)
{
    uint8_t request[DALY_FRAME];
    if (!print_refused(daly_request(command, false, 0, request)))
        return;
    struct daly_reader reader;
    uint8_t opened = daly_reader_new(&reader, request, DALY_FRAME, reply_size, false);
    struct daly_said said = daly_reader_push(&reader, stream.at, stream.length);
    struct daly_completed completed = daly_reader_is_complete(&reader);
    if (print_refused(opened) && print_refused(completed.number))
        printf(" complete %d status %u cleared %" PRIu32 " discarded %" PRIu32 " taken %" PRIu32, completed.complete, said.status,
               reader.counts.cleared, daly_discarded_all(reader.counts.discarded), reader.counts.taken);
}

/* As many zeros, then the wanted frame. */
static void print_after_zeros(size_t zeros)
{
    uint8_t stream[513 + DALY_FRAME] = {0};
    memcpy(stream + zeros, soc, DALY_FRAME);
    print_read(0x90, DALY_FRAME, (struct bytes){stream, zeros + DALY_FRAME});
}

static void print_streams(void)
{
    static const uint8_t order[5] = {1, 2, 1, 2, 3};
    uint8_t stream[5 * DALY_FRAME];
    for (int i = 0; i < 5; i++)
        make_frame(stream + i * DALY_FRAME, 0x95, (const uint8_t[8]){order[i]});
    printf("P11");
    print_read(0x95, daly_cell_voltages_reply_size(9), (struct bytes){stream, sizeof stream});
    printf("\nP12");
    print_after_zeros(512);
    printf("\nP13");
    print_after_zeros(513);
    printf("\n");
}

static void print_pack(const uint16_t cells[4])
{
    struct daly_pack pack = daly_pack_check(cells, 4, 131);
    if (print_refused(pack.number))
        printf(" %" PRId32 " %d", pack.difference, pack.agrees);
}

static void print_numbers(void)
{
    print_requests();
    print_replies();
    print_streams();
    printf("P14");
    print_pack((const uint16_t[4]){3262, 3262, 3263, 3263});
    print_pack((const uint16_t[4]){3262, 3262, 3262, 3263});
    printf("\n");
}

int main(int argc, char **argv)
{
    if (argc != 2) {
        fprintf(stderr, "replay LIST | --numbers\n");
        return USAGE;
    }
    if (strcmp(argv[1], "--numbers") != 0)
        return replay_file(argv[1]);
    print_numbers();
    return 0;
}
