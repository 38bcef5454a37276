/* inglebreek.h: the proved label gateway for C and C++. Made of the sources by tools/header.
 *
 * Every function is total: it answers for every input, and every number and octet that is lent is at exit what its contract says
 * (docs/CONTRACTS.md). Link with libinglebreek.a; it needs memcpy and memset, allocates nothing and opens nothing.
 *
 * How to call (x86-64 Linux, System V):
 * - A list is two arguments, a pointer and a count of elements, not of octets. The pointer may be NULL where the count is 0.
 * - A pointer to one number may not be NULL. What is written must not overlap anything else that is lent to the same call.
 * - A bool is 0 or 1; any other value is undefined.
 * - Nothing is shared between calls: any number of threads may call at the same time, each with its own buffers.
 * - The stack that a call needs stands with each function; tools/test-c measures it.
 */
#ifndef INGLEBREEK_H
#define INGLEBREEK_H

#include <stdbool.h>
#include <stddef.h>
#include <stdint.h>

#ifdef __cplusplus
extern "C" {
#define INGLEBREEK_ASSERT static_assert
#else
#define INGLEBREEK_ASSERT _Static_assert
#endif

#define INGLEBREEK_VERSION "4.0.0"

/* The numbers (docs/RULES.md). */
#define INGLEBREEK_PASSED 0
#define INGLEBREEK_BAD_SIZE 1
#define INGLEBREEK_UNSOUND_RECORD 2
#define INGLEBREEK_BAD_OPTION_LENGTH 3
#define INGLEBREEK_SECURITY_OPTION 4
#define INGLEBREEK_SECOND_LABEL 5
#define INGLEBREEK_LABEL_MISSING 6
#define INGLEBREEK_SHORT_OPTION 7
#define INGLEBREEK_FOREIGN_DOMAIN 8
#define INGLEBREEK_UNKNOWN_TAG 9
#define INGLEBREEK_BAD_TAG_LENGTH 10
#define INGLEBREEK_ALIGNMENT_NOT_ZERO 11
#define INGLEBREEK_BAD_CATEGORY 12
#define INGLEBREEK_OCTETS_AFTER_THE_TAG 13
#define INGLEBREEK_OUTSIDE_THE_ARRIVING_RANGE 14
#define INGLEBREEK_OUTSIDE_THE_HOSTS_RANGE 15
#define INGLEBREEK_NO_NUMBER_IN_THE_FAR_DOMAIN 16
#define INGLEBREEK_OUTSIDE_THE_LEAVING_RANGE 17
#define INGLEBREEK_NO_SPELLING_OR_NO_ROOM 18
#define INGLEBREEK_BAD_OPTION_130 19
#define INGLEBREEK_OPTION_130_MISSING 20
#define INGLEBREEK_OUTSIDE_THE_130_RANGE 21
#define INGLEBREEK_NO_ROUTE 22
#define INGLEBREEK_SLACK_SPELLING 23
#define INGLEBREEK_TOO_LITTLE_ROOM 24
#define INGLEBREEK_NO_SUCH_MESSAGE 25

/* What a number means, in words. */
static inline const char *inglebreek_words(unsigned number) {
    switch (number) {
    case INGLEBREEK_PASSED: return "passed";
    case INGLEBREEK_BAD_SIZE: return "bad size";
    case INGLEBREEK_UNSOUND_RECORD: return "unsound record";
    case INGLEBREEK_BAD_OPTION_LENGTH: return "bad option length";
    case INGLEBREEK_SECURITY_OPTION: return "security option";
    case INGLEBREEK_SECOND_LABEL: return "second label";
    case INGLEBREEK_LABEL_MISSING: return "label missing";
    case INGLEBREEK_SHORT_OPTION: return "short option";
    case INGLEBREEK_FOREIGN_DOMAIN: return "foreign domain";
    case INGLEBREEK_UNKNOWN_TAG: return "unknown tag";
    case INGLEBREEK_BAD_TAG_LENGTH: return "bad tag length";
    case INGLEBREEK_ALIGNMENT_NOT_ZERO: return "alignment not zero";
    case INGLEBREEK_BAD_CATEGORY: return "bad category";
    case INGLEBREEK_OCTETS_AFTER_THE_TAG: return "octets after the tag";
    case INGLEBREEK_OUTSIDE_THE_ARRIVING_RANGE: return "outside the arriving range";
    case INGLEBREEK_OUTSIDE_THE_HOSTS_RANGE: return "outside the host's range";
    case INGLEBREEK_NO_NUMBER_IN_THE_FAR_DOMAIN: return "no number in the far domain";
    case INGLEBREEK_OUTSIDE_THE_LEAVING_RANGE: return "outside the leaving range";
    case INGLEBREEK_NO_SPELLING_OR_NO_ROOM: return "no spelling or no room";
    case INGLEBREEK_BAD_OPTION_130: return "bad option 130";
    case INGLEBREEK_OPTION_130_MISSING: return "option 130 missing";
    case INGLEBREEK_OUTSIDE_THE_130_RANGE: return "outside the 130 range";
    case INGLEBREEK_NO_ROUTE: return "no route";
    case INGLEBREEK_SLACK_SPELLING: return "slack spelling";
    case INGLEBREEK_TOO_LITTLE_ROOM: return "too little room";
    case INGLEBREEK_NO_SUCH_MESSAGE: return "no such message";
    default: return "unknown number";
    }
}

/* Limits, and what a gateway file comes to. */
#define INGLEBREEK_MAX_RUNS 120 /* the most runs of a label: so many places are enough for every label */
#define INGLEBREEK_OPTION_OCTETS 40 /* the most octets of an option 134, and of an options area */
#define INGLEBREEK_BASIC_OCTETS 5 /* the most octets of an option 130 */
#define INGLEBREEK_MAX_PORTS 16 /* the most ports of a gateway file */
#define INGLEBREEK_MAX_TABLES 8 /* the most tables of a gateway file */
#define INGLEBREEK_SLOT 64 /* octets of a record, and of a slot */
#define INGLEBREEK_FILE_ACCEPTED 0 /* what a gateway file comes to: it is accepted */
#define INGLEBREEK_FILE_REFUSED 101 /* refused at a place */
#define INGLEBREEK_FILE_UNKNOWN_VERSION 102 /* its version is not known */
#define INGLEBREEK_FILE_NO_ROOM 103 /* its rows outgrow their room */
#define INGLEBREEK_FILE_TOO_LONG 104 /* it would be longer than its version allows */
#define INGLEBREEK_MEMORY_MOST 64 /* the most addresses of a memory, and the places that are lent for it */

/* A run of categories in a list of runs, as one number. */
#define INGLEBREEK_RUN(low, high) ((uint32_t)(low) << 16 | (uint32_t)(high))
#define INGLEBREEK_RUN_LOW(run) ((uint16_t)((run) >> 16))
#define INGLEBREEK_RUN_HIGH(run) ((uint16_t)((run) & 65535))

/* One datagram as a batch takes it. */
struct inglebreek_record {
    /* the five facts that silence a report, each 0 or not: an ICMP error message; a broadcast or multicast destination; a link-layer
       broadcast; a fragment other than the first; a source that is not one host */
    uint8_t error, group, link, fragment, source;
    uint8_t area_length; /* octets of the options area: over 56 counts as 56, and what is over 40 is answered by 1 */
    uint8_t unused[2];   /* not read */
    uint8_t area[56];
};
INGLEBREEK_ASSERT(sizeof(struct inglebreek_record) == INGLEBREEK_SLOT, "a record's size");
INGLEBREEK_ASSERT(offsetof(struct inglebreek_record, area) == 8, "a record's area");

/* Its answer. The octets of `kept` stay as they were. */
struct inglebreek_slot {
    uint8_t number;              /* 0 where it is forwarded, or the number of a refusal */
    uint8_t type, code, pointer; /* of the ICMP message that reports the refusal: all 0 where nothing is reported */
    uint8_t count;               /* octets of the leaving area */
    uint8_t kept[19];
    uint8_t area[40]; /* the leaving area, and zeros, where it is forwarded; else as it was */
};
INGLEBREEK_ASSERT(sizeof(struct inglebreek_slot) == INGLEBREEK_SLOT, "a slot's size");
INGLEBREEK_ASSERT(offsetof(struct inglebreek_slot, area) == 24, "a slot's area");

/* Forwards every whole record of 'input' that has a slot in 'output', from one port of the file to another, by the
 * first table for their two domains. Answers how many. Stack: 512 KiB. Writes: output. */
size_t inglebreek_forward_batch(const uint8_t *file, size_t file_count, size_t arriving, size_t leaving,
                                const uint8_t *input, size_t input_count, uint8_t *output, size_t output_count);

/* Builds the message of a refusal (its number, ICMP type, code and pointer) about a datagram with this header and
 * data, and the options area of the datagram that carries it. Answers 0, and 'written' and 'carried' get how many
 * octets of 'message' and of 'options' are written: both 0 where nothing is sent. Or answers 2 for a header or a
 * report that is not sound, 24 for too little room; both then get 0, and both buffers stay as they were. Stack: 16
 * KiB. Writes: message, options, written, carried. */
uint8_t inglebreek_build_message(uint8_t number, uint8_t kind, uint8_t code, uint8_t pointer, const uint8_t *header,
                                 size_t header_count, const uint8_t *payload, size_t payload_count, uint8_t *message,
                                 size_t message_count, uint8_t *options, size_t options_count, size_t *written,
                                 size_t *carried);

/* Reads a message that reports a refusal. Answers 0: 'kind', 'code' and 'pointer' get its type, code and pointer,
 * 'header' how many octets the quoted header has, which stands from octet 8 on, and 'payload' how many data octets
 * stand behind it. Or answers 25 for any other octets, and all five get 0. Stack: 16 KiB. Writes: kind, code,
 * pointer, header, payload. */
uint8_t inglebreek_read_message(const uint8_t *octets, size_t octets_count, uint8_t *kind, uint8_t *code,
                                uint8_t *pointer, size_t *header, size_t *payload);

/* Checks a gateway file. Answers 0 where it is accepted: 'ports', 'tables' and 'rows' get how many it has, and
 * 'place' gets 0. Answers 101 where it is refused: 'place' gets the place of the first octet of the first bad
 * field. Answers 102 where its version is not known: that is octet 2, and 'place' gets 2. Of a file that is not
 * accepted the three counts are 0. Stack: 64 KiB. Writes: place, ports, tables, rows. */
uint8_t inglebreek_check_file(const uint8_t *file, size_t file_count, size_t *place, size_t *ports, size_t *tables,
                              size_t *rows);

/* Writes a gateway file anew in the newest version, whatever version says it. Answers 0, and 'count' gets how many
 * octets of 'out' are written; the others stay. Or answers 101 or 102 as 'inglebreek_check_file' does, then 104
 * for a file that would be longer than its version allows, then 1 for an 'out' that is too short: 'count' then
 * gets 0, and 'out' stays as it was. Stack: 512 KiB. Writes: out, count. */
uint8_t inglebreek_renew_file(const uint8_t *file, size_t file_count, uint8_t *out, size_t out_count, size_t *count);

/* Notes an address in the memory: it becomes the newest, and where it is new and the memory is full, the oldest is
 * dropped. Answers 0, and 'known' gets whether it was there; or 1 for a list of under 64 places, 2 for a memory
 * that stands for no list: 'known' then gets 0, and the memory stays as it was. Stack: 16 KiB. Writes: count,
 * addresses, known. */
uint8_t inglebreek_note_address(uint32_t address, size_t *count, uint32_t *addresses, size_t addresses_count,
                                bool *known);

/* Asks whether an address is in the memory, which stays as it was. Answers 0, and 'known' gets whether it is; or 1
 * for a list of under 64 places, 2 for a memory that stands for no list: 'known' then gets 0. Stack: 16 KiB.
 * Writes: known. */
uint8_t inglebreek_ask_address(uint32_t address, size_t count, const uint32_t *addresses, size_t addresses_count,
                               bool *known);

/* Forgets an address. Answers 0, and 'known' gets whether it was in the memory; or 1 for a list of under 64
 * places, 2 for a memory that stands for no list: 'known' then gets 0, and the memory stays as it was. Stack: 16
 * KiB. Writes: count, addresses, known. */
uint8_t inglebreek_forget_address(uint32_t address, size_t *count, uint32_t *addresses, size_t addresses_count,
                                  bool *known);

/* Notes the destination in the header that a missing-option message (12/1/134) quotes. Answers 0, and 'known' gets
 * whether it was in the memory; or 1 for a list of under 64 places, 2 for a memory that stands for no list, 25 for
 * any other octets: 'known' then gets 0, and the memory stays as it was. Stack: 16 KiB. Writes: count, addresses,
 * known. */
uint8_t inglebreek_note_message(const uint8_t *octets, size_t octets_count, size_t *count, uint32_t *addresses,
                                size_t addresses_count, bool *known);

/* Reads one option 134 alone. Answers 0 and the label that it means: its domain, its level, the count of its runs,
 * and the runs in 'runs', which stays as it was where it has fewer places than the count says (120 are always
 * enough); or answers 3 or 7 to 13, and 'pointer' gets the place in the option, the label's numbers 0. Stack: 16
 * KiB. Writes: pointer, domain, level, count, runs. */
uint8_t inglebreek_read_option(const uint8_t *octets, size_t octets_count, size_t *pointer, uint32_t *domain,
                               uint8_t *level, size_t *count, uint32_t *runs, size_t runs_count);

/* Spells the label of a domain, a level and runs, as many as are lent, in its shortest option 134 among the
 * permitted ones: tag 1 in its shortest form, tag 1 with exactly ten bitmap octets, tag 2, tag 5. Answers 0, and
 * 'count' gets the option's length; 'out' gets the option, with zeros up to octet 39. Or answers 1 for an 'out' of
 * under 40 octets, 2 for an ill-formed label, 18 for one that no permitted option means; 'count' then gets 0, and
 * 'out' stays as it was. Stack: 16 KiB. Writes: out, count. */
uint8_t inglebreek_spell_label(uint32_t domain, uint8_t level, const uint32_t *runs, size_t runs_count, bool shortest,
                               bool ten, bool numbers, bool pairs, uint8_t *out, size_t out_count, size_t *count);

/* Reads one option 130 alone. Answers 0, its level octet and its flag field; or 19, and both get 0. Stack: 16 KiB.
 * Writes: level, flags. */
uint8_t inglebreek_read_basic(const uint8_t *octets, size_t octets_count, uint8_t *level, uint16_t *flags);

/* Writes the shortest option 130 of a level octet and a flag field. Answers 0, and 'count' gets the option's
 * length: only so many octets of 'out' change. Or answers 1 for an 'out' of under 5 octets, 19 for a level that is
 * none of the four or flags over 16383; 'count' then gets 0, and 'out' stays as it was. Stack: 16 KiB. Writes:
 * out, count. */
uint8_t inglebreek_write_basic(uint8_t level, uint16_t flags, uint8_t *out, size_t out_count, size_t *count);

#ifdef __cplusplus
}
#endif
#endif
