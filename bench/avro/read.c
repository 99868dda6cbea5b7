// Decodes the records of a container so many times, by avro-c or by a loop written for this one
// schema, and says how long it took.
#include <avro.h>
#include <stdint.h>
#include <stdio.h>
#include <stdlib.h>
#include <string.h>
#include <time.h>

static uint64_t now_us(void) {
    struct timespec t;
    clock_gettime(CLOCK_MONOTONIC, &t);
    return (uint64_t)t.tv_sec * 1000000 + t.tv_nsec / 1000;
}

static char *contents(const char *path, size_t *len) {
    FILE *f = fopen(path, "rb");
    if (!f) exit(2);
    fseek(f, 0, SEEK_END);
    *len = ftell(f);
    rewind(f);
    char *bytes = malloc(*len);
    if (fread(bytes, 1, *len, f) != *len) exit(2);
    fclose(f);
    return bytes;
}

static uint64_t by_avro_c(char *bytes, size_t len) {
    avro_file_reader_t reader;
    if (avro_file_reader_fp(fmemopen(bytes, len, "rb"), "input", 1, &reader)) exit(3);
    avro_schema_t schema = avro_file_reader_get_writer_schema(reader);
    avro_value_iface_t *iface = avro_generic_class_from_schema(schema);
    avro_value_t value;
    avro_generic_value_new(iface, &value);
    uint64_t count = 0;
    while (!avro_file_reader_read_value(reader, &value)) count++;
    avro_value_decref(&value);
    avro_value_iface_decref(iface);
    avro_schema_decref(schema);
    avro_file_reader_close(reader);
    return count;
}

struct entry {
    int64_t status, snapshot, sequence, file_sequence, content, day, records, size;
    char *path, *format;
};

static const unsigned char *at, *end;

static int64_t number(void) {
    uint64_t z = 0;
    for (int shift = 0; at < end && shift < 70; shift += 7) {
        unsigned char b = *at++;
        z |= (uint64_t)(b & 127) << shift;
        if (b < 128) return (int64_t)(z >> 1) ^ -(int64_t)(z & 1);
    }
    exit(4);
}

static char *text(void) {
    int64_t n = number();
    if (n < 0 || end - at < n) exit(4);
    char *copy = malloc(n + 1);
    memcpy(copy, at, n);
    copy[n] = 0;
    at += n;
    return copy;
}

static int64_t maybe(void) {
    int64_t branch = number();
    if (branch < 0 || branch > 1) exit(4);
    return branch ? number() : -1;
}

static uint64_t by_plain_loop(char *bytes, size_t len) {
    at = (unsigned char *)bytes + 4;
    end = (unsigned char *)bytes + len;
    for (int64_t pairs = number(); pairs; pairs--) {
        free(text());
        free(text());
    }
    number();
    at += 16;
    int64_t count = number();
    number();
    struct entry *entries = malloc(count * sizeof *entries);
    for (int64_t i = 0; i < count; i++) {
        struct entry *e = &entries[i];
        e->status = number();
        e->snapshot = maybe();
        e->sequence = maybe();
        e->file_sequence = maybe();
        e->content = number();
        e->path = text();
        e->format = text();
        e->day = maybe();
        e->records = number();
        e->size = number();
    }
    for (int64_t i = 0; i < count; i++) {
        free(entries[i].path);
        free(entries[i].format);
    }
    free(entries);
    return count;
}

int main(int argc, char **argv) {
    if (argc != 4) return 1;
    size_t len;
    char *bytes = contents(argv[2], &len);
    int rounds = atoi(argv[3]), plain = !strcmp(argv[1], "plain");
    uint64_t count = 0, start = now_us();
    for (int i = 0; i < rounds; i++) count = plain ? by_plain_loop(bytes, len) : by_avro_c(bytes, len);
    uint64_t took = now_us() - start;
    printf("%s: %lu records, %d rounds, %lu ms\n", argv[1], count, rounds, took / 1000);
}
