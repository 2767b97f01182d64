/*
 * A board for the bench: it answers a controller's questions.
 *
 *     board STATE [--stdio] [--echo] [--noise N] [--cut] [--seed N]
 *
 * It opens a pseudo-terminal, prints its path and answers there until it is ended; with --stdio it answers on standard
 * input and output, as for socat, until its input ends. STATE is a text of lines `name value` in the words of readreply
 * (total_voltage 523, current -121, cell 3301, sensor 25, balance 1, fault 17, mode 2), so that what readreply prints
 * of captures is a state, and of `address 1`, which boards have. (64 is the host's: a strict reader, as both example
 * controllers have it, takes what such a board sends for echoes.) What is not named is 0, the address too; but `cells`
 * and `temperature_sensors` are then the number of lines `cell` and `sensor`. Of a name that stands twice the last value
 * counts, and lists grow. A line that is not understood is told, and the status is 2.
 *
 * It answers 90 to 98, and D9, DA and 21, which it obeys: 93 and 90 then show it. Nothing else gets an answer.
 * --echo sends back what is heard, as some adapters do; --noise N sends up to N drawn bytes before each answer; --cut
 * sends answers in drawn pieces, with pauses. One seed draws the same (--seed N; 0 where none is given). Build it by
 *
 *     gcc -I include -o board examples/board.c target/staticlib/libwriters.a target/staticlib/libdaly.a
 */
#define _DEFAULT_SOURCE
#define _XOPEN_SOURCE 700
#include <signal.h>

#include "board/line.h"
#include "board/state.h"

enum { USAGE = 2 };

/* ---- Requests */

/* What may begin a frame whose end has not come. */
struct ear {
    size_t length;
    uint8_t bytes[DALY_FRAME];
};

/* Takes a byte, as the reader of frames does: to the next A5, 13 bytes, a right sum, else one byte on. */
static bool hears_frame(struct ear *ear, uint8_t byte)
{
    ear->bytes[ear->length++] = byte;
    while (ear->length > 0 && (ear->bytes[0] != 0xA5 || ear->length == DALY_FRAME)) {
        if (ear->length == DALY_FRAME && daly_frame_check(ear->bytes, DALY_FRAME, ear->bytes[2]).number == DALY_DONE) {
            ear->length = 0;
            return true;
        }
        ear->length--;
        memmove(ear->bytes, ear->bytes + 1, ear->length);
    }
    return false;
}

/* A switch is on where byte 4 is not 0, as the decoders read a flag; a charge stands in bytes 10 and 11. */
static void obey(struct state *state, const uint8_t *request)
{
    switch (request[2]) {
    case DALY_SET_DISCHARGE_MOSFET:
        state->values[DISCHARGING_MOSFET] = request[4] != 0;
        break;
    case DALY_SET_CHARGE_MOSFET:
        state->values[CHARGING_MOSFET] = request[4] != 0;
        break;
    case DALY_SET_SOC:
        state->values[SOC_PERCENT] = request[10] << 8 | request[11];
        break;
    }
}

/*
 * The board's own frames, which the line sends back, are no requests: it would answer its answers, and obey its own
 * acknowledgements. All other senders are answered, the host too where the board has the host's address.
 */
static bool is_own(const struct state *state, const uint8_t *frame)
{
    enum { HOST = 0x40 };
    return frame[1] == state->values[ADDRESS] && frame[1] != HOST;
}

static int answer(struct line line, struct manner *manner, struct state *state, const uint8_t *request)
{
    uint8_t reply[DALY_FRAMES];
    if (is_own(state, request))
        return GOES_ON;
    obey(state, request);
    struct daly_list written = write_reply(state, request[2], reply);
    return written.count > 0 ? send_answer(line, manner, reply, written.count) : GOES_ON;
}

/* The exit status. */
static int serve(struct line line, struct manner *manner, struct state *state)
{
    struct ear ear = {.length = 0};
    uint8_t bytes[ROOM];
    size_t length;
    int status = GOES_ON;
    while (status == GOES_ON) {
        status = hear(line.in, bytes, &length);
        if (status == GOES_ON && manner->echo)
            status = send_bytes(line, bytes, length);
        for (size_t i = 0; i < length && status == GOES_ON; i++)
            if (hears_frame(&ear, bytes[i]))
                status = answer(line, manner, state, ear.bytes);
    }
    return status;
}

/* ---- The words */

struct words {
    const char *state;
    bool stdio;
    struct manner manner;
};

/* The value of an option: the word behind it. */
static bool take_number(char **given, int64_t most, int64_t *value)
{
    return given[1] != NULL && is_whole(given[1], 0, most, value);
}

/* How many words were taken, 0 where the first is not understood. */
static int take_word(char **given, struct words *words)
{
    const char *word = given[0];
    int64_t value;
    if (strcmp(word, "--stdio") == 0)
        words->stdio = true;
    else if (strcmp(word, "--echo") == 0)
        words->manner.echo = true;
    else if (strcmp(word, "--cut") == 0)
        words->manner.cut = true;
    else if (strcmp(word, "--noise") == 0 && take_number(given, MOST_NOISE, &value))
        words->manner.noise = (uint32_t)value;
    else if (strcmp(word, "--seed") == 0 && take_number(given, UINT32_MAX, &value))
        words->manner.drawn = (uint64_t)value;
    else if (strncmp(word, "--", 2) != 0 && words->state == NULL)
        words->state = word;
    else
        return 0;
    return strcmp(word, "--noise") == 0 || strcmp(word, "--seed") == 0 ? 2 : 1;
}

static bool parse(char **given, struct words *words)
{
    *words = (struct words){.state = NULL};
    for (int taken; *given != NULL; given += taken)
        if ((taken = take_word(given, words)) == 0)
            return false;
    return words->state != NULL;
}

int main(int number, char **given)
{
    struct words words;
    struct state state;
    struct line line = {.in = STDIN_FILENO, .out = STDOUT_FILENO};
    if (number < 1 || !parse(given + 1, &words)) {
        fprintf(stderr, "board STATE [--stdio] [--echo] [--noise N] [--cut] [--seed N]\n");
        return USAGE;
    }
    int read = read_state(words.state, &state);
    if (read != TAKEN)
        return read;
    signal(SIGPIPE, SIG_IGN); /* a line that nobody reads any more is an end like another */
    if (!words.stdio && !open_terminal(&line))
        return failed("pseudo-terminal");
    return serve(line, &words.manner, &state);
}
