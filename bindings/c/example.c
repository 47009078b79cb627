/* example FILE: judges a journal, makes an operation on the machine after its entries, and looks at the object. */
#include "tongsthyme.h"
#include <stdio.h>
#include <stdlib.h>

static uint8_t *read_file(const char *path, size_t *length) {
    FILE *file = fopen(path, "rb");
    if (!file) return NULL;
    size_t room = 65536, read = 0, got;
    uint8_t *bytes = malloc(room);
    while (bytes && (got = fread(bytes + read, 1, room - read, file)) > 0) {
        read += got;
        if (read < room) continue;
        uint8_t *larger = realloc(bytes, room *= 2);
        if (!larger) free(bytes);
        bytes = larger;
    }
    fclose(file);
    *length = read;
    return bytes;
}

int main(int argc, char **argv) {
    if (argc != 2) {
        fputs("usage: example FILE\n", stderr);
        return 2;
    }
    size_t length;
    uint8_t *journal = read_file(argv[1], &length);
    if (!journal) {
        perror(argv[1]);
        return 2;
    }

    struct tongsthyme_machine machine = {0};
    struct tongsthyme_verdict verdict;
    uint32_t status = tongsthyme_machine_open(journal, length, &machine, &verdict);
    free(journal);
    switch (status) {
    case TONGSTHYME_LEGAL: printf("legal, %u events\n", verdict.events); break;
    case TONGSTHYME_ILLEGAL: printf("illegal at line %u\n", verdict.line); return 1;
    case TONGSTHYME_MALFORMED: printf("malformed at line %u, kind %u\n", verdict.line, verdict.kind); return 1;
    case TONGSTHYME_TOO_LONG: puts("too long"); return 1;
    default: puts("out of memory"); return 1;
    }

    /* Caller 0 posts event control block 0. */
    struct tongsthyme_operation post = {
        .caller = 0, .kind = TONGSTHYME_ECB, .object = 0, .operation = TONGSTHYME_ECB_POST, .a = 7};
    struct tongsthyme_answer answer;
    uint8_t line[TONGSTHYME_LINE_ROOM];
    if (tongsthyme_machine_step(&machine, &post, &answer) == TONGSTHYME_DONE &&
        tongsthyme_line(&post, &answer, line, sizeof line, &length) == TONGSTHYME_DONE)
        fwrite(line, 1, length, stdout);
    if (tongsthyme_machine_object(&machine, TONGSTHYME_ECB, 0, &answer) == TONGSTHYME_DONE)
        printf("the block has had %u events, and its word is %u\n", answer.place, answer.a);
    tongsthyme_machine_close(&machine);
    return 0;
}
