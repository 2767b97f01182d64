/*
 * How much stack the calls of the library need, on x86-64: each is made on a stack of its own, which is painted before and
 * looked at afterwards. The call's return address counts with it, and the caller's room for an answer in memory. What is set
 * aside and never written to does not show.
 */
#include <stdio.h>
#include <string.h>

#include "daly.h"

#define ROOM 65536
#define PAINT 0x5A

static _Alignas(16) uint8_t stack[ROOM];
static uint8_t request[DALY_FRAME], reply[DALY_FRAMES], collected[DALY_FRAMES], faults[48];
static float volts[255];
static uint16_t millivolts[255];
static int32_t degrees[255];
static bool flags[48];
static struct daly_reader reader;
static const uint8_t *chunk;
static size_t length;
static uint8_t command;
static bool strict;

__attribute__((noinline)) static size_t used(void (*call)(void))
{
    memset(stack, PAINT, sizeof stack);
    __asm__ volatile("mov %%rsp, %%rbx\n\tmov %0, %%rsp\n\tcall *%1\n\tmov %%rbx, %%rsp"
                     :
                     : "r"(stack + sizeof stack), "r"(call)
                     : "rax", "rbx", "rcx", "rdx", "rsi", "rdi", "r8", "r9", "r10", "r11", "memory", "cc", "xmm0", "xmm1", "xmm2", "xmm3", "xmm4",
                       "xmm5", "xmm6", "xmm7", "xmm8", "xmm9", "xmm10", "xmm11", "xmm12", "xmm13", "xmm14", "xmm15");
    size_t left = 0;
    while (left < sizeof stack && stack[left] == PAINT)
        left++;
    return sizeof stack - left;
}

/* A call that writes nothing but its return address: so much each of the callers below takes by itself. */
static void nothing(void) {}
static void (*volatile const none)(void) = nothing;
static void call_nothing(void) { none(); __asm__ volatile(""); }

static void call_request(void) { daly_request(command, true, 12.5f, request); __asm__ volatile(""); }
static void call_frame_check(void) { daly_frame_check(reply, length, command); __asm__ volatile(""); }
static void call_soc(void) { struct daly_soc told = daly_soc(reply, length); __asm__ volatile("" : : "r"(&told) : "memory"); }
static void call_mosfet(void) { struct daly_mosfet_status told = daly_mosfet_status(reply, length); __asm__ volatile("" : : "r"(&told) : "memory"); }
static void call_status(void) { struct daly_status told = daly_status(reply, length); __asm__ volatile("" : : "r"(&told) : "memory"); }
static void call_voltages(void) { daly_cell_voltages(reply, length, 255, volts, 255); __asm__ volatile(""); }
static void call_millivolts(void) { daly_cell_millivolts(reply, length, 255, millivolts, 255); __asm__ volatile(""); }
static void call_temperatures(void) { daly_cell_temperatures(reply, length, 255, degrees, 255); __asm__ volatile(""); }
static void call_balance(void) { daly_cell_balance_state(reply, length, 48, flags, 48); __asm__ volatile(""); }
static void call_faults(void) { daly_error_codes(reply, length, faults, 48); __asm__ volatile(""); }
static void call_pack(void) { daly_pack_check(millivolts, 255, 9000); __asm__ volatile(""); }
static void call_new(void) { daly_reader_new(&reader, request, sizeof request, length, strict); __asm__ volatile(""); }
static void call_push(void) { daly_reader_push(&reader, chunk, length); __asm__ volatile(""); }
static void call_missing(void) { daly_reader_missing(&reader); __asm__ volatile(""); }
static void call_complete(void) { daly_reader_is_complete(&reader); __asm__ volatile(""); }
static void call_copy_out(void) { daly_reader_copy_out(&reader, collected, sizeof collected); __asm__ volatile(""); }

static size_t deepest, base;

static void noted(size_t bytes)
{
    if (bytes > deepest)
        deepest = bytes;
}

static void told(const char *name)
{
    printf("| `%s` | %zu |\n", name, deepest);
    deepest = 0;
}

static void measured(void (*call)(void)) { noted(used(call) - base + sizeof(void *)); }

/* Right frames of a command, numbered from 1, in all 85 places. */
static void fill(uint8_t of)
{
    command = of;
    for (size_t i = 0; i < sizeof reply; i += DALY_FRAME) {
        uint8_t *frame = reply + i;
        for (int k = 0; k < DALY_FRAME; k++)
            frame[k] = (uint8_t)(7 * i + 31 * k);
        memcpy(frame, (const uint8_t[5]){0xA5, 0x01, of, 0x08, (uint8_t)(of == 0x93 ? 1 : i / DALY_FRAME + 1)}, 5);
        frame[12] = daly_calc_crc(frame, DALY_FRAME);
    }
}

static void decoders(void)
{
    static const struct {
        const char *name;
        void (*call)(void);
        uint8_t command;
        size_t length;
    } rows[] = {
        {"daly_frame_check", call_frame_check, 0x90, 13},         {"daly_soc", call_soc, 0x90, 13},
        {"daly_mosfet_status", call_mosfet, 0x93, 13},            {"daly_status", call_status, 0x94, 13},
        {"daly_cell_voltages", call_voltages, 0x95, 1105},        {"daly_cell_millivolts", call_millivolts, 0x95, 1105},
        {"daly_cell_temperatures", call_temperatures, 0x96, 481}, {"daly_cell_balance_state", call_balance, 0x97, 13},
        {"daly_error_codes", call_faults, 0x98, 13},              {"daly_pack_check", call_pack, 0x95, 13},
    };
    for (size_t i = 0; i < sizeof rows / sizeof *rows; i++) {
        fill(rows[i].command);
        length = rows[i].length;
        measured(rows[i].call);
        told(rows[i].name);
    }
}

static size_t asked[3];

/* The stream in chunks of one size into a new reader, each push measured, and then the asks. */
static void pushed(const uint8_t *stream, size_t size)
{
    static void (*const asks[3])(void) = {call_missing, call_complete, call_copy_out};
    command = 0x95;
    call_request();
    length = sizeof reply;
    call_new();
    for (size_t at = 0; at < sizeof reply; at += size) {
        chunk = stream + at;
        length = sizeof reply - at < size ? sizeof reply - at : size;
        measured(call_push);
    }
    size_t push = deepest;
    for (int i = 0; i < 3; i++) {
        deepest = asked[i];
        measured(asks[i]);
        asked[i] = deepest;
    }
    deepest = push;
}

/* The frames of the reply, as if we had sent them. */
static void echo(uint8_t echoes[DALY_FRAMES])
{
    memcpy(echoes, reply, sizeof reply);
    for (size_t i = 0; i < sizeof reply; i += DALY_FRAME) {
        echoes[i + 1] = 0x40;
        echoes[i + 12] = daly_calc_crc(echoes + i, DALY_FRAME);
    }
}

static void readers(void)
{
    static uint8_t starts[DALY_FRAMES], noise[DALY_FRAMES], echoes[DALY_FRAMES];
    memset(starts, 0xA5, sizeof starts);
    fill(0x95);
    echo(echoes);
    for (int mode = 0; mode < 2; mode++) {
        strict = mode == 1;
        for (size_t size = 1; size <= 64; size++) {
            pushed(reply, size);
            pushed(starts, size);
            pushed(noise, size);
            pushed(echoes, size);
        }
    }
    told("daly_reader_push");
    static const char *const names[3] = {"daly_reader_missing", "daly_reader_is_complete", "daly_reader_copy_out"};
    for (int i = 0; i < 3; i++) {
        deepest = asked[i];
        told(names[i]);
    }
}

int main(void)
{
    base = used(call_nothing);
    printf("| call | bytes of stack |\n|---|---|\n");
    for (int c = 0; c < 256; c++) {
        command = (uint8_t)c;
        measured(call_request);
    }
    told("daly_request");
    decoders();
    fill(0x95);
    length = sizeof reply;
    measured(call_new);
    told("daly_reader_new");
    readers();
    return 0;
}
