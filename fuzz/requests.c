#include "requests.h"

#include <stdlib.h>
#include <string.h>

/* What is left of the bytes. */
typedef struct {
    const uint8_t *at;
    size_t left;
} source;

static uint8_t next(source *from, uint8_t otherwise)
{
    if (from->left == 0)
        return otherwise;
    from->left--;
    return *from->at++;
}

static uint64_t next_number(source *from, int bytes)
{
    uint64_t number = 0;
    for (int i = 0; i < bytes; i++)
        number = number << 8 | next(from, 0);
    return number;
}

/* Values of this width that fit into a lent buffer. */
static size_t most_values(size_t width) { return MOST_BYTES / width - 1; }

/* A count; one that does not fit into a lent buffer is reduced. */
static size_t next_count(source *from, size_t width) { return next_number(from, 2) % (most_values(width) + 1); }

static void *allocate(size_t bytes)
{
    void *block = malloc(bytes);
    if (block == NULL)
        abort();
    return block;
}

static slice next_slice(source *from, size_t count, size_t width)
{
    uint8_t *bytes = allocate(count * width);
    for (size_t i = 0; i < count; i++) {
        uint8_t high = width == 2 ? next(from, 'a') : 0, low = next(from, 'a');
        uint16_t value = (uint16_t)(high << 8 | low);
        if (width == 2)
            memcpy(bytes + 2 * i, &value, 2);
        else
            bytes[i] = low;
    }
    return (slice){ bytes, count };
}

request read_request(const uint8_t *bytes, size_t size)
{
    source from = { bytes, size };
    request asked = { .call = next(&from, 0) % CALLS };
    const shape *form = &shapes[asked.call];
    size_t counts[SLICES];
    for (int i = 0; i < NUMBERS; i++)
        asked.numbers[i] = next_number(&from, form->numbers[i]);
    if (form->out_width > 0)
        asked.room = next_count(&from, form->out_width);
    for (int i = 0; i < form->slices; i++)
        counts[i] = next_count(&from, form->width);
    for (int i = 0; i < form->slices; i++)
        asked.in[i] = next_slice(&from, counts[i], form->width);
    return asked;
}

/* Where the bytes of a request go, as long as there is room. */
typedef struct {
    uint8_t *bytes;
    size_t size, most;
} sink;

static void put_number(sink *to, uint64_t number, int bytes)
{
    while (bytes-- > 0 && to->size < to->most)
        to->bytes[to->size++] = (uint8_t)(number >> 8 * bytes);
}

size_t write_request(const request *asked, uint8_t *bytes, size_t most)
{
    sink to = { bytes, 0, most };
    const shape *form = &shapes[asked->call];
    put_number(&to, asked->call, 1);
    for (int i = 0; i < NUMBERS; i++)
        put_number(&to, asked->numbers[i], form->numbers[i]);
    if (form->out_width > 0)
        put_number(&to, asked->room, 2);
    for (int i = 0; i < form->slices; i++)
        put_number(&to, asked->in[i].count, 2);
    for (int i = 0; i < form->slices; i++)
        for (size_t j = 0; j < asked->in[i].count; j++)
            if (form->width == 2)
                put_number(&to, ((const uint16_t *)asked->in[i].values)[j], 2);
            else
                put_number(&to, ((const uint8_t *)asked->in[i].values)[j], 1);
    return to.size;
}

/* A number below a limit, and the seed of the next. */
static size_t pick(unsigned *seed, size_t below)
{
    *seed = *seed * 1103515245u + 12345u;
    return (*seed >> 8) % below;
}

/* Gives a slice so many values: the first of its own, and 'a' in place of those that it does not have. */
static void resize(slice *changed, size_t count, size_t width)
{
    uint8_t *bytes = allocate(count * width);
    memset(bytes, 'a', count * width);
    memcpy(bytes, changed->values, (count < changed->count ? count : changed->count) * width);
    free((void *)changed->values);
    *changed = (slice){ bytes, count };
}

/* Repeats a piece of a slice right after itself, or takes it out. */
static void change_piece(slice *changed, size_t width, unsigned seed)
{
    /* attributes and wrapped keys are made of words */
    size_t grain = pick(&seed, 2) == 0 ? 1 : 4;
    size_t at = pick(&seed, changed->count + 1) / grain * grain;
    size_t tail = changed->count - at;
    size_t piece = grain * (1 + pick(&seed, 8));
    if (piece > tail)
        piece = tail;
    if (pick(&seed, 2) == 0 && changed->count + piece <= most_values(width)) {
        resize(changed, changed->count + piece, width);
        uint8_t *bytes = (uint8_t *)changed->values;
        memmove(bytes + (at + piece) * width, bytes + at * width, tail * width);
    } else {
        uint8_t *bytes = (uint8_t *)changed->values;
        memmove(bytes + at * width, bytes + (at + piece) * width, (tail - piece) * width);
        resize(changed, changed->count - piece, width);
    }
}

/* Gives a slice any count that its call accepts, or one at the edge. */
static void change_count(slice *changed, range accepted, size_t width, unsigned seed)
{
    size_t counts[] = { accepted.least, accepted.most, accepted.most + 1, accepted.least - (accepted.least > 0),
                        accepted.least + pick(&seed, accepted.most - accepted.least + 1) };
    size_t count = counts[pick(&seed, sizeof counts / sizeof *counts)];
    if (count <= most_values(width))
        resize(changed, count, width);
}

void accept_counts(request *asked)
{
    const shape *form = &shapes[asked->call];
    for (int i = 0; i < form->slices; i++) {
        if (asked->in[i].count < form->counts[i].least)
            resize(&asked->in[i], form->counts[i].least, form->width);
        if (asked->in[i].count > form->counts[i].most)
            resize(&asked->in[i], form->counts[i].most, form->width);
    }
    asked->room = form->room;
}

void change_request(request *asked, unsigned seed)
{
    const shape *form = &shapes[asked->call];
    size_t which = pick(&seed, (size_t)form->slices);
    switch (pick(&seed, 4)) {
    case 0: change_count(&asked->in[which], form->counts[which], form->width, seed); break;
    case 1: accept_counts(asked); break;
    default: change_piece(&asked->in[which], form->width, seed); break;
    }
    if (pick(&seed, 2) == 0)
        asked->room = form->room;
}

void free_request(request *asked)
{
    for (int i = 0; i < SLICES; i++)
        free((void *)asked->in[i].values);
}
