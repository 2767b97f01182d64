/* A whole reading of cells by the C functions, as examples/controller.c has it, but not strict, since the Rust is not:
 * bench/reading.rs calls it. */
#include <string.h>

#include "daly.h"

size_t read_by_c(const uint8_t *wire, size_t step, uint8_t cells, float *volts)
{
    uint8_t request[DALY_FRAME], reply[DALY_FRAMES];
    struct daly_reader reader;
    if (daly_request(0x95, false, 0, request) != DALY_DONE)
        return 0;
    if (daly_reader_new(&reader, request, sizeof request, daly_cell_voltages_reply_size(cells), false) != DALY_DONE)
        return 0;
    for (size_t missing = daly_reader_missing(&reader).missing; missing > 0;) {
        size_t length = missing < step ? missing : step;
        struct daly_said said = daly_reader_push(&reader, wire, length);
        if (said.status != DALY_DONE)
            return 0;
        wire += length;
        missing = said.missing;
    }
    struct daly_list copied = daly_reader_copy_out(&reader, reply, sizeof reply);
    if (copied.number != DALY_DONE)
        return 0;
    struct daly_list list = daly_cell_voltages(reply, copied.count, cells, volts, cells);
    return list.number == DALY_DONE ? list.count : 0;
}
