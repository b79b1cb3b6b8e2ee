/* serve: calls the library for a program that does not link it: tests/independent/, on any processor. Requests come on
 * standard input and are answered on standard output, one after the other, until the input ends.
 *
 * A request is a function's number, a number of bytes and 40 words, each of these 8 bytes, least first, and then those
 * bytes: the memory that the call lends. A word is an argument, in the function's order: a number, a length, or where
 * in that memory an array begins. The answer is what the function gives, in 8 bytes, and then that memory as the call
 * has left it. */
#define _DEFAULT_SOURCE
#include <stdio.h>
#include <stdlib.h>
#include <sys/mman.h>
#include <unistd.h>

#include "../../include/cmm.h"

enum { QUANTIFY, REPORT, READ_SHEET, WRITE_SHEET, READ_FLOW, QUANTIFY_VENTILATION, WORDS = 40 };

struct request {
    uint64_t function, size, word[WORDS];
};

static void need(int holds, const char *what)
{
    if (!holds) {
        fprintf(stderr, "serve: %s\n", what);
        exit(2);
    }
}

/* Room for so many bytes, a multiple of 8; the byte after the last one cannot be read or written. */
static uint8_t *fenced(size_t bytes)
{
    static uint8_t *end;
    static size_t room;
    const size_t page = (size_t)sysconf(_SC_PAGESIZE);
    if (end == NULL || bytes > room) {
        uint8_t *at;
        if (end != NULL)
            munmap(end - room, room + page);
        room = (2 * bytes + page) / page * page;
        at = mmap(NULL, room + page, PROT_READ | PROT_WRITE, MAP_PRIVATE | MAP_ANONYMOUS, -1, 0);
        need(at != MAP_FAILED && mprotect(at + room, page, PROT_NONE) == 0, "no memory");
        end = at + room;
    }
    return end - bytes;
}

/* The array that begins where word k says. */
#define ARRAY(type, k) ((type *)(void *)(memory + w[k]))

static uint64_t quantify(const uint64_t *w, uint8_t *memory)
{
    return cmm_quantify((uint32_t)w[0], (uint32_t)w[1], (uint32_t)w[2],
                        ARRAY(uint32_t, 3), w[4],   /* kinds */
                        ARRAY(uint32_t, 5), w[6],   /* counts */
                        ARRAY(uint32_t, 7), w[8],   /* positions */
                        ARRAY(int32_t, 9), w[10],   /* drifts */
                        ARRAY(uint16_t, 11), w[12], /* flow */
                        ARRAY(uint16_t, 13), w[14], /* content */
                        ARRAY(int16_t, 15), w[16],  /* temp */
                        ARRAY(uint32_t, 17), w[18], /* press */
                        ARRAY(uint8_t, 19), w[20],  /* status */
                        ARRAY(uint32_t, 21), w[22], /* quantity */
                        ARRAY(uint32_t, 23), w[24], /* factor */
                        ARRAY(uint8_t, 25), w[26],  /* outcome */
                        ARRAY(uint16_t, 27), w[28], /* flow_used */
                        ARRAY(uint16_t, 29), w[30], /* content_used */
                        ARRAY(uint64_t, 34),        /* accounts */
                        ARRAY(uint64_t, 31), ARRAY(int64_t, 32), ARRAY(uint64_t, 33)); /* amounts, balances, at */
}

static uint64_t quantify_ventilation(const uint64_t *w, uint8_t *memory)
{
    return cmm_quantify_ventilation((uint32_t)w[0], (uint32_t)w[1],
                                    ARRAY(uint16_t, 2), w[3],   /* inlet: flow */
                                    ARRAY(uint16_t, 4), w[5],   /* ppm */
                                    ARRAY(int16_t, 6), w[7],    /* temp */
                                    ARRAY(uint32_t, 8), w[9],   /* press */
                                    ARRAY(uint16_t, 10), w[11], /* exhaust: flow */
                                    ARRAY(uint16_t, 12), w[13], /* ppm */
                                    ARRAY(int16_t, 14), w[15],  /* temp */
                                    ARRAY(uint32_t, 16), w[17], /* press */
                                    ARRAY(uint8_t, 18), w[19],  /* status */
                                    ARRAY(uint32_t, 20), w[21], /* quantity */
                                    ARRAY(uint32_t, 22), w[23], /* factor */
                                    ARRAY(uint8_t, 24), w[25],  /* outcome */
                                    ARRAY(uint64_t, 29),        /* accounts */
                                    ARRAY(uint64_t, 26), ARRAY(int64_t, 27), ARRAY(uint64_t, 28)); /* amounts, balances, at */
}

static uint64_t report(const uint64_t *w, uint8_t *memory)
{
    return cmm_report(ARRAY(uint8_t, 0), w[1],    /* t */
                      ARRAY(uint16_t, 2), w[3],   /* flow */
                      ARRAY(uint16_t, 4), w[5],   /* content */
                      ARRAY(int16_t, 6), w[7],    /* temp */
                      ARRAY(uint32_t, 8), w[9],   /* press */
                      ARRAY(uint8_t, 10), w[11],  /* status */
                      ARRAY(uint8_t, 12), w[13],  /* outcome */
                      ARRAY(uint16_t, 14), w[15], /* flow_used */
                      ARRAY(uint16_t, 16), w[17], /* content_used */
                      ARRAY(uint8_t, 18));        /* out */
}

static uint64_t called(const struct request *r, uint8_t *memory)
{
    const uint64_t *w = r->word;
    switch (r->function) {
    case QUANTIFY: return quantify(w, memory);
    case QUANTIFY_VENTILATION: return quantify_ventilation(w, memory);
    case REPORT: return report(w, memory);
    case READ_SHEET:
        return cmm_read_sheet(ARRAY(uint8_t, 0), w[1], ARRAY(uint64_t, 2), ARRAY(int64_t, 3), ARRAY(uint64_t, 4));
    case WRITE_SHEET:
        return cmm_write_sheet(ARRAY(uint64_t, 0), ARRAY(int64_t, 1), ARRAY(uint8_t, 2), w[3], ARRAY(uint64_t, 4));
    case READ_FLOW: return cmm_read_flow(ARRAY(uint8_t, 0), w[1], ARRAY(uint16_t, 2), w[3], ARRAY(uint64_t, 4));
    }
    need(0, "no such function");
    return 0;
}

static int answered(uint64_t given, const uint8_t *memory, size_t size)
{
    return fwrite(&given, sizeof given, 1, stdout) == 1 && fwrite(memory, 1, size, stdout) == size
           && fflush(stdout) == 0;
}

int main(void)
{
    struct request r;
    while (fread(&r, sizeof r, 1, stdin) == 1) {
        uint8_t *memory = fenced(r.size);
        need(fread(memory, 1, r.size, stdin) == r.size, "the input ends too early");
        need(answered(called(&r, memory), memory, r.size), "the output cannot be written");
    }
    return 0;
}
