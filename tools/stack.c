// Measures how deep the library goes in a thread's stack: fills the stack with a mark, forwards the records in the thread, and looks how far the mark is
// gone. Arguments: a gateway file and records of the sample program.
#include <pthread.h>
#include <stdio.h>
#include <string.h>
#include <sys/mman.h>

enum { SLOT = 64, AREA = 8, LONGEST = 40, MOST = 4096, ROOM = 16 << 20, MARK = 0xa5 };

size_t inglebreek_forward_batch(const unsigned char *file, size_t file_length, size_t arriving, size_t leaving, const unsigned char *input,
                                size_t input_length, unsigned char *output, size_t output_length);

static unsigned char file[65536], input[SLOT * MOST], output[SLOT * MOST];
static size_t length, records;

static void *forward(void *unused) {
    inglebreek_forward_batch(file, length, 0, 1, input, SLOT * records, output, SLOT * records);
    return unused;
}

static void *nothing(void *unused) { return unused; }

static size_t depth(void *(*work)(void *)) {
    unsigned char *stack = mmap(NULL, ROOM, PROT_READ | PROT_WRITE, MAP_PRIVATE | MAP_ANONYMOUS, -1, 0);
    pthread_attr_t attributes;
    pthread_t thread;
    size_t left = 0;
    if (stack == MAP_FAILED) return 0;
    memset(stack, MARK, ROOM);
    if (pthread_attr_init(&attributes) || pthread_attr_setstack(&attributes, stack, ROOM) || pthread_create(&thread, &attributes, work, NULL)) return 0;
    pthread_join(thread, NULL);
    while (left < ROOM && stack[left] == MARK) left++;
    munmap(stack, ROOM);
    return ROOM - left;
}

int main(int count, char **words) {
    FILE *gateway = count == 3 ? fopen(words[1], "rb") : NULL, *stream = count == 3 ? fopen(words[2], "rb") : NULL;
    int size;
    if (!gateway || !stream) return 1;
    length = fread(file, 1, sizeof file, gateway);
    while (records < MOST && (size = fgetc(stream)) != EOF) {
        unsigned char area[256];
        if (fread(area, 1, size, stream) < (size_t)size) break;
        if (size > LONGEST) continue;
        input[SLOT * records + 5] = size;
        memcpy(input + SLOT * records + AREA, area, size);
        records++;
    }
    size_t whole = depth(forward), thread = depth(nothing);
    if (!records || !whole || !thread) return 1;
    printf("%zu octets of stack for %zu records, %zu of them for the thread itself\n", whole, records, thread);
    return 0;
}
