// Forwards three datagrams through a gateway file, and prints what is decided of each. To build and run it:
//
//   gcc -Iinclude -o forward examples/forward.c "$(tools/library)" && ./forward crates/sample/data/gateway.bin
#include <inglebreek.h>
#include <stdio.h>
#include <string.h>

enum { ARRIVING = 0, LEAVING = 1, MANY = 3 };

// Loads the file, and says where it is refused.
static size_t load(const char *name, uint8_t *file, size_t room) {
    size_t place, ports, tables, rows, octets;
    FILE *stream = fopen(name, "rb");
    if (!stream) {
        perror(name);
        return 0;
    }
    octets = fread(file, 1, room, stream);
    fclose(stream);
    switch (inglebreek_check_file(file, octets, &place, &ports, &tables, &rows)) {
    case INGLEBREEK_FILE_ACCEPTED: break;
    case INGLEBREEK_FILE_UNKNOWN_VERSION: fprintf(stderr, "%s: version %u is not known\n", name, file[2]); return 0;
    default: fprintf(stderr, "%s: refused at octet %zu\n", name, place); return 0;
    }
    printf("%zu ports, %zu tables, %zu rows\n", ports, tables, rows);
    return octets;
}

// The options area of a datagram: what stands in its IPv4 header behind the first 20 octets. All five facts are 0: a refusal is reported.
static void set_area(struct inglebreek_record *record, const void *area, uint8_t octets) {
    memset(record, 0, sizeof *record);
    record->area_length = octets;
    memcpy(record->area, area, octets);
}

static void print(const struct inglebreek_slot *slot) {
    printf("%2u %s", slot->number, inglebreek_words(slot->number));
    if (slot->number) printf("; ICMP type %u, code %u, pointer %u", slot->type, slot->code, slot->pointer);
    else {
        printf("; the leaving area is ");
        for (unsigned i = 0; i < slot->count; i++) printf("%02x", slot->area[i]);
    }
    printf("\n");
}

int main(int count, char **words) {
    static uint8_t file[65536];
    struct inglebreek_record records[MANY];
    struct inglebreek_slot slots[MANY];
    size_t octets = count == 2 ? load(words[1], file, sizeof file) : 0;
    if (!octets) return 1;

    // level 3 with category 0 in domain 5; level 2, which the table has no number for; no label
    set_area(&records[0], "\x86\x0c\0\0\0\5\2\6\0\3\0\0", 12);
    set_area(&records[1], "\x86\x0a\0\0\0\5\1\4\0\2\0\0", 12);
    set_area(&records[2], "", 0);

    size_t done = inglebreek_forward_batch(file, octets, ARRIVING, LEAVING, (const uint8_t *)records, sizeof records, (uint8_t *)slots, sizeof slots);
    for (size_t i = 0; i < done; i++) print(&slots[i]);
    return 0;
}
