#include "flow.h"

#include <stdio.h>
#include <stdlib.h>
#include <string.h>

#include "say.h"
#include "words.h"

static const char *shown(const char *file)
{
    return strcmp(file, "-") == 0 ? "standard input" : file;
}

/* DEVICE is a decimal without leading zeros, so one digit or two; FILE is not empty. Gives the device, or -1. */
static int device_of(const char *option)
{
    size_t digits = strspn(option, "0123456789");
    int device;

    if (digits == 0 || digits > 2 || option[digits] != '=' || option[digits + 1] == '\0' || (digits == 2 && option[0] == '0'))
        return -1;
    device = atoi(option);
    return device < CMM_DEVICES_MOST ? device : -1;
}

int flow_take(struct flows *f, const char *command, const char *option)
{
    int device = device_of(option);

    if (device < 0) {
        fprintf(stderr, "%s: there is no flow '%s': a device, 0 to %d, and a file are wanted, as 0=flow.bin\n", command, option,
                CMM_DEVICES_MOST - 1);
        return TROUBLE;
    }
    if (f->file[device]) {
        fprintf(stderr, "%s: the flow of device %d is given twice\n", command, device);
        return TROUBLE;
    }
    f->file[device] = strchr(option, '=') + 1;
    return YES;
}

int flow_files(const struct flows *f)
{
    int device, files = 0;

    for (device = 0; device < CMM_DEVICES_MOST; ++device)
        files += f->file[device] != NULL;
    return files;
}

int flow_inputs(const struct flows *f)
{
    int device, inputs = 0;

    for (device = 0; device < CMM_DEVICES_MOST; ++device)
        inputs += f->file[device] && strcmp(f->file[device], "-") == 0;
    return inputs;
}

static int is_empty(const uint16_t *flow, size_t n)
{
    size_t i;

    for (i = 0; i < n; ++i)
        if (flow[i] != CMM_FLOW_MISSING)
            return 0;
    return 1;
}

/* One more byte than is right is read, and no further: the library refuses that as it refuses any longer export. */
static int read_one(const char *file, unsigned long device, size_t n, uint16_t *flow, const struct moment *start)
{
    struct text export;
    struct refusal r = { 0, 0, 0 };
    uint64_t place[1];
    int status = input_read(file, CMM_SAMPLE * n + 1, &export);

    if (status != YES)
        return status;
    r.number = cmm_read_flow(export.bytes, export.length, flow, n, place);
    r.place = place[0];
    if (r.number != 0) {
        status = put_refusal(&r);
        if (status == NO)
            say_export(&export, &r, device, n, start);
    }
    input_free(&export);
    return status;
}

int flow_read(const struct flows *f, const struct text *text, const struct record *record, struct rows *rows, const struct moment *start)
{
    size_t n = record->head[0], devices = record->head[1], d;
    int status = YES;

    for (d = devices; d < CMM_DEVICES_MOST; ++d)
        if (f->file[d]) {
            fprintf(stderr, "cmm: %s: there is no device %zu, whose flow %s has\n", text->name, d, shown(f->file[d]));
            return TROUBLE;
        }
    for (d = 0; d < devices; ++d)
        if (f->file[d] && !is_empty(rows->flow + d * n, n)) {
            say_flow_twice(text, d, shown(f->file[d]), start);
            return TROUBLE;
        }
    for (d = 0; d < devices && status == YES; ++d)
        if (f->file[d])
            status = read_one(f->file[d], d, n, rows->flow + d * n, start);
    return status;
}
