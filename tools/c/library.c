// What the stored cases do not show of the functions for C: lists without a place, NULL, room that is too short, many threads, and with `stack` how much of its stack each call uses.
#include "inglebreek.h"
#include <pthread.h>
#include <stdio.h>
#include <stdlib.h>
#include <string.h>
#include <sys/mman.h>

enum { THREADS = 8, ROUNDS = 200, RECORDS = 64, STACK = 16 << 20, MARK = 0xa5 };

static uint8_t file[65536];
static size_t file_octets;

// An option with a label of 120 runs: every second category.
static uint8_t scattered[40] = {134, 40, 0, 0, 0, 5, 1, 34, 0, 3};

static void expect(bool good, const char *what) {
    if (good) return;
    printf("%s: not as it should be\n", what);
    exit(1);
}

static void try_edges(void) {
    size_t pointer = 9, count = 9, place = 9, ports = 9, tables = 9, rows = 9, header = 9, payload = 9;
    uint32_t domain = 9, runs[3] = {7, 7, 7}, few[3] = {1, 2, 3};
    uint8_t level = 9, out[48], type = 9, code = 9, place_octet = 9;
    uint16_t flags = 9;
    bool known = true;
    expect(inglebreek_read_option(NULL, 0, &pointer, &domain, &level, &count, NULL, 0) == INGLEBREEK_BAD_OPTION_LENGTH && !pointer && !domain && !level && !count, "no option");
    expect(inglebreek_read_option(scattered, 40, &pointer, &domain, &level, &count, runs, 3) == 0 && count == 120 && runs[0] == 7 && runs[2] == 7, "too few places for the runs");
    expect(inglebreek_spell_label(5, 3, NULL, 0, true, false, true, true, out, 39, &count) == INGLEBREEK_BAD_SIZE && !count, "39 octets for an option");
    memset(out, 0xee, sizeof out);
    expect(inglebreek_spell_label(5, 3, NULL, 0, true, false, true, true, out, sizeof out, &count) == 0 && count == 10 && out[39] == 0 && out[40] == 0xee, "a label without runs");
    expect(inglebreek_spell_label(0, 3, NULL, 0, true, false, true, true, out, 40, &count) == INGLEBREEK_UNSOUND_RECORD, "domain 0");
    expect(inglebreek_spell_label(5, 3, NULL, 0, false, false, false, false, out, 40, &count) == INGLEBREEK_NO_SPELLING_OR_NO_ROOM, "nothing permitted");
    expect(inglebreek_read_basic(NULL, 0, &level, &flags) == INGLEBREEK_BAD_OPTION_130 && !level && !flags, "no option 130");
    expect(inglebreek_write_basic(0xab, 0, NULL, 0, &count) == INGLEBREEK_BAD_SIZE && !count, "no room for an option 130");
    expect(inglebreek_check_file(NULL, 0, &place, &ports, &tables, &rows) == INGLEBREEK_FILE_REFUSED && !place && !ports && !tables && !rows, "no file");
    expect(inglebreek_check_file(file, file_octets, &place, &ports, &tables, &rows) == INGLEBREEK_FILE_ACCEPTED && ports == 2 && tables == 1 && rows == 2, "the sample's file");
    expect(inglebreek_renew_file(NULL, 0, NULL, 0, &count) == INGLEBREEK_FILE_REFUSED && !count, "no file, anew");
    expect(inglebreek_renew_file(file, file_octets, NULL, 0, &count) == INGLEBREEK_BAD_SIZE && !count, "no room for a file");
    expect(inglebreek_read_message(NULL, 0, &type, &code, &place_octet, &header, &payload) == INGLEBREEK_NO_SUCH_MESSAGE && !type && !header && !payload, "no message");
    expect(inglebreek_build_message(6, 12, 1, 134, NULL, 0, NULL, 0, NULL, 0, NULL, 0, &header, &payload) == INGLEBREEK_UNSOUND_RECORD && !header && !payload, "no header");
    count = 3;
    expect(inglebreek_note_address(5, &count, few, 3, &known) == INGLEBREEK_BAD_SIZE && count == 3 && few[0] == 1 && !known, "a short memory");
    known = true;
    expect(inglebreek_ask_address(5, 0, NULL, 0, &known) == INGLEBREEK_BAD_SIZE && !known, "no memory");
    expect(inglebreek_forward_batch(NULL, 0, 0, 1, NULL, 0, NULL, 0) == 0, "no records");
    expect(!strcmp(inglebreek_words(INGLEBREEK_LABEL_MISSING), "label missing") && inglebreek_words(99) != NULL, "words");
}

static struct inglebreek_record records[RECORDS];

static void fill_records(void) {
    for (int i = 0; i < RECORDS; i++) {
        records[i].area_length = 12;
        memcpy(records[i].area, (const uint8_t[12]){134, 12, 0, 0, 0, 5, 2, 6, 0, 3, 0, (uint8_t)i}, 12);
    }
    for (int i = 10; i < 40; i++) scattered[i] = 0x55;
}

static size_t forward_all(struct inglebreek_slot *slots) {
    return inglebreek_forward_batch(file, file_octets, 0, 1, (const uint8_t *)records, sizeof records, (uint8_t *)slots, RECORDS * sizeof *slots);
}

// Every thread decides the same records again and again, and finds the same.
static void *decide(void *wanted) {
    struct inglebreek_slot *slots = calloc(RECORDS, sizeof *slots);
    bool same = true;
    for (int i = 0; i < ROUNDS; i++) same = same && forward_all(slots) == RECORDS && !memcmp(slots, wanted, RECORDS * sizeof *slots);
    free(slots);
    return same ? wanted : NULL;
}

static void try_threads(void) {
    static struct inglebreek_slot wanted[RECORDS];
    pthread_t threads[THREADS];
    expect(forward_all(wanted) == RECORDS && wanted[0].number == INGLEBREEK_PASSED && wanted[0].count == 12 && wanted[63].area[11] != wanted[0].area[11], "a batch");
    for (int i = 0; i < THREADS; i++) expect(!pthread_create(&threads[i], NULL, decide, wanted), "a thread");
    for (int i = 0; i < THREADS; i++) {
        void *same;
        expect(!pthread_join(threads[i], &same) && same, "threads side by side");
    }
}

// ---- the stack

static struct inglebreek_slot slots[RECORDS];
static size_t a, b, c, d;
static uint32_t numbers[INGLEBREEK_MAX_RUNS];
static uint8_t x, y, z, header[24] = {0x46, 0, 0, 24}, out[512];
static uint8_t renewed[65536];
static uint16_t w;
static bool known;

static void run_nothing(void) {}
static void run_forward_batch(void) { forward_all(slots); }
static void run_check_file(void) { inglebreek_check_file(file, file_octets, &a, &b, &c, &d); }
static void run_renew_file(void) { inglebreek_renew_file(file, file_octets, renewed, sizeof renewed, &a); }
static void run_read_option(void) { inglebreek_read_option(scattered, 40, &a, numbers, &x, &b, numbers, INGLEBREEK_MAX_RUNS); }
static void run_spell_label(void) { inglebreek_spell_label(5, 3, numbers, b, true, true, true, true, out, 40, &a); }
static void run_read_basic(void) { inglebreek_read_basic((const uint8_t[3]){130, 3, 0xab}, 3, &x, &w); }
static void run_write_basic(void) { inglebreek_write_basic(0xab, 9, out, 5, &a); }
static void run_build_message(void) { inglebreek_build_message(6, 12, 1, 134, header, sizeof header, out + 256, 8, out, 100, out + 128, 40, &a, &b); }
static void run_read_message(void) { inglebreek_read_message(out, 40, &x, &y, &z, &a, &b); }
static void run_note_address(void) { inglebreek_note_address(5, &c, numbers, 64, &known); }
static void run_ask_address(void) { inglebreek_ask_address(5, c, numbers, 64, &known); }
static void run_forget_address(void) { inglebreek_forget_address(5, &c, numbers, 64, &known); }
static void run_note_message(void) { inglebreek_note_message(out, 40, &c, numbers, 64, &known); }

static const struct { const char *name; void (*run)(void); } calls[] = {
    {"inglebreek_forward_batch", run_forward_batch}, {"inglebreek_check_file", run_check_file}, {"inglebreek_renew_file", run_renew_file}, {"inglebreek_read_option", run_read_option},
    {"inglebreek_spell_label", run_spell_label}, {"inglebreek_read_basic", run_read_basic}, {"inglebreek_write_basic", run_write_basic},
    {"inglebreek_build_message", run_build_message}, {"inglebreek_read_message", run_read_message}, {"inglebreek_note_address", run_note_address},
    {"inglebreek_ask_address", run_ask_address}, {"inglebreek_forget_address", run_forget_address}, {"inglebreek_note_message", run_note_message}};

static void *run(void *call) {
    (*(void (**)(void))call)();
    return NULL;
}

// How deep a call goes in a thread's stack: it is filled with a mark before, and looked at behind.
static size_t depth(void (*call)(void)) {
    uint8_t *stack = mmap(NULL, STACK, PROT_READ | PROT_WRITE, MAP_PRIVATE | MAP_ANONYMOUS, -1, 0);
    pthread_attr_t attributes;
    pthread_t thread;
    size_t left = 0;
    expect(stack != MAP_FAILED, "memory for a stack");
    memset(stack, MARK, STACK);
    expect(!pthread_attr_init(&attributes) && !pthread_attr_setstack(&attributes, stack, STACK) && !pthread_create(&thread, &attributes, run, &call), "a thread");
    pthread_join(thread, NULL);
    while (left < STACK && stack[left] == MARK) left++;
    munmap(stack, STACK);
    return STACK - left;
}

static void measure(void) {
    size_t thread = depth(run_nothing);
    run_check_file();
    expect(b == 2, "the gateway file is accepted");
    for (size_t i = 0; i < sizeof calls / sizeof *calls; i++) {
        size_t used = depth(calls[i].run);
        printf("%s %zu\n", calls[i].name, used > thread ? used - thread : 0);
        if (calls[i].run == run_read_option) memset(numbers, 0, sizeof numbers);
    }
}

int main(int count, char **words) {
    FILE *gateway = count > 1 ? fopen(words[1], "rb") : NULL;
    expect(gateway != NULL, "the gateway file");
    file_octets = fread(file, 1, sizeof file, gateway);
    fclose(gateway);
    fill_records();
    if (count > 2 && !strcmp(words[2], "stack")) {
        measure();
        return 0;
    }
    try_edges();
    try_threads();
    printf("lists without a place, short rooms and %d threads: all as they should be\n", THREADS);
    return 0;
}
