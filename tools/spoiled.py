"""Faults that tools/test_board puts into examples/board.c, each with the test that has to notice it."""
# Names of tests.
SETS = "switches and a set charge"
SETS_ON_TERMINAL = "switches and a set charge over the pseudo-terminal"
NOBODY_READS = "a client that reads nothing"
STRANGE = "refuses 'mode 3'"
CIRCLE = "what readreply prints, no option: over standard input and output"

# What is wrong with a board, which test notices it, in which file, what is there and what stands there instead.
SPOILED = [
    ("a wrong sum is answered", "no answer: byte 4 is wrong", "board.c", "ear->bytes[2]).number == DALY_DONE",
     "ear->bytes[2]).number != DALY_REPLY_SIZE"),
    ("after a wrong sum all is thrown away", "drawn streams 1", "board.c", "ear->length--;", "ear->length = 0;"),
    ("it answers its own answers", "no answer: a reply of this board", "board.c", "if (is_own(state, request))", "if (!manner)"),
    ("a sender that is not the host is not answered", "another sender", "board.c", "frame[1] == state->values[ADDRESS] &&", ""),
    ("a switch is turned about", SETS, "board.c", "[CHARGING_MOSFET] = request[4] != 0",
     "[CHARGING_MOSFET] = request[4] == 0"),
    ("only 1 switches on", SETS, "board.c", "[DISCHARGING_MOSFET] = request[4] != 0",
     "[DISCHARGING_MOSFET] = request[4] == 1"),
    ("a charge in other bytes", SETS, "board.c", "request[10] << 8", "request[9] << 8"),
    ("no obedience", SETS_ON_TERMINAL, "board.c", "obey(state, request);", "(void)obey;"),
    ("what is sent back is heard no more", "an echo", "board.c", "i < length &&", "i < (manner->echo ? 0 : length) &&"),
    ("an echo nobody asked for", "several requests in one piece", "board.c", "&& manner->echo", "&& !manner->echo"),
    ("noise is one byte too long", "noise of 3 at most", "board/line.h", "manner->noise + 1)", "manner->noise + 2)"),
    ("noise is zeros", "noise of 12 at most", "board/line.h", "(uint8_t)draw(manner, 256)", "(uint8_t)draw(manner, 1)"),
    ("the seed is not looked at", "noise of 3 at most", "board.c", "drawn = (uint64_t)value", "drawn = 0"),
    ("nothing is cut", "a reply is cut", "board/line.h", "return manner->cut ?", "return manner->cut && length == 0 ?"),
    ("a line that changes bytes", "a raw line", "board/line.h", "cfmakeraw(&settings);", ""),
    ("a line that ends with its client", SETS_ON_TERMINAL, "board/line.h", "*line = (struct line){.in = board,",
     "close(port), *line = (struct line){.in = board,"),
    ("it waits until somebody reads", NOBODY_READS, "board/line.h", ".loses = true", ".loses = false"),
    ("a signal ends it", "nobody reads the output", "board.c", "signal(SIGPIPE, SIG_IGN);", ""),
    ("a current that is off by one", CIRCLE, "board/state.h", "v[CURRENT] + 30000", "v[CURRENT] + 29999"),
    ("another address", CIRCLE, "board/state.h", "(uint8_t)v[ADDRESS];", "(uint8_t)(v[ADDRESS] ^ 1);"),
    ("an input for another", CIRCLE, "board/state.h", ".di1 = v[DI1]", ".di1 = v[DI2]"),
    ("the line of counts is strange", CIRCLE, "board/state.h", "|| is_counts_line(line)", ""),
    ("an output for another", "what readreply prints, no option: over the pseudo-terminal", "board/state.h",
     ".do1 = v[DO1]", ".do1 = v[DO2]"),
    ("a mode for another", "what readreply prints, no option: the controller in C", "board/state.h",
     ".mode = (uint8_t)v[MODE]", ".mode = (uint8_t)(v[MODE] ^ 1)"),
    ("cycles for others", "what readreply prints, no option: the controller in Rust", "board/state.h",
     ".cycles = (uint16_t)v[CYCLES]", ".cycles = (uint16_t)v[BMS_CYCLES]"),
    ("cells are not counted", "a name twice, no option: over standard input and output", "board/state.h",
     "values[CELLS] = (int64_t)state->n_cells;", "values[CELLS] = 1;"),
    ("unnamed cells are not sent", "more cells told than named, no option: over standard input and output",
     "board/state.h", "return lines > (size_t)told ?", "return lines > 0 ?"),
    ("a strange line is passed over", STRANGE, "board/state.h", "strange > 0 ? STRANGE", "strange > 9 ? STRANGE"),
    ("lines are counted from 0", STRANGE, "board/state.h", "number = 0, strange", "number = -1, strange"),
    ("a refusal is not looked at", STRANGE, "board/state.h", "return refusal == DALY_DONE;", "return true;"),
]
