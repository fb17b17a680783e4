/* Asks every call for everything that fuzz/seeds has, then for the accepted ones of these with a bit spoilt, then at random; then
 * makes thousands of calls on slots, one after another. Prints sums of
 * the answers, which must be the same on every machine, and at the end which answers each call gave. perform() (fuzz/calls.h) makes
 * each request twice, with the buffers at other addresses, and checks what holds of every call. */
#include "port.h"
#include "requests.h"
#include "seeds.h"
#include "shift.h"

#ifndef ROUNDS
#define ROUNDS 10000
#endif
#define WALK 4000

static uint64_t state;

static uint32_t any(void)
{
    state ^= state << 13, state ^= state >> 7, state ^= state << 17;
    return (uint32_t)(state >> 24);
}

static uint32_t below(uint32_t limit) { return any() % limit; }

/* ---- what was answered: a sum (FNV-1a) and the tally */
static uint64_t sum;
static uint32_t seen[CALLS][LAST_REFUSAL + 1];

static void add_bytes(const void *bytes, size_t n)
{
    for (size_t i = 0; i < n; i++)
        sum = (sum ^ ((const uint8_t *)bytes)[i]) * 0x100000001b3u;
}

static void add_number(uint64_t number)
{
    for (int i = 0; i < 8; i++, number >>= 8)
        add_bytes(&(uint8_t){ (uint8_t)number }, 1);
}

static void add_answer(const request *asked, const answer *given)
{
    const shape *form = &shapes[asked->call];
    seen[asked->call][given->refusal]++;
    add_number(given->refusal);
    for (size_t i = 0; i < sizeof given->fields / sizeof *given->fields; i++)
        add_number(given->fields[i]);
    add_bytes(given->kek_id, sizeof given->kek_id);
    add_bytes(given->key_id, sizeof given->key_id);
    add_bytes(&given->slots, sizeof given->slots);
    add_number(given->written);
    add_number(given->changed_at);
    add_number(given->changed);
    add_bytes(given->out, given->written * form->out_width);
    if (form->changes)
        add_bytes(given->after, asked->in[form->slices - 1].count * form->width);
}

/* Makes a request with its buffers at addresses of any shift: any byte for bytes, any even one for values of two bytes. */
static uint32_t ask(const request *asked)
{
    static answer given;
    const shape *form = &shapes[asked->call];
    for (int i = 0; i < BUFFERS; i++) {
        size_t width = i < form->slices ? form->width : form->out_width;
        if (width == 2)
            shift_buffer(i, 2 * below(4), 6);
        else
            shift_buffer(i, below(8), 7);
    }
    perform(asked, &given);
    add_answer(asked, &given);
    return given.refusal;
}

/* ---- lines of text */
static void put_hex(uint64_t number)
{
    char text[17];
    for (int i = 0; i < 16; i++)
        text[i] = "0123456789abcdef"[number >> (60 - 4 * i) & 15];
    text[16] = 0;
    put(text);
}

static void put_number(uint32_t number)
{
    char text[11], *at = text + sizeof text;
    *--at = 0;
    do
        *--at = (char)('0' + number % 10);
    while (number /= 10);
    put(at);
}

static void put_sum(const char *what, uint32_t number)
{
    put(what);
    put(" ");
    put_number(number);
    put(" ");
    put_hex(sum);
    put("\n");
}

/* ---- the requests */
static size_t bytes_of(const request *asked)
{
    size_t bytes = 0;
    for (int i = 0; i < SLICES; i++)
        bytes += asked->in[i].count * shapes[asked->call].width;
    return bytes;
}

static void spoil(request *asked, int which, size_t byte, uint32_t bit) { ((uint8_t *)asked->in[which].values)[byte] ^= (uint8_t)(1u << bit); }

/* Each byte of each slice with a bit spoilt, one after another. */
static void ask_spoilt(request *asked)
{
    const shape *form = &shapes[asked->call];
    for (int i = 0; i < form->slices; i++)
        for (size_t j = 0; j < asked->in[i].count * form->width; j++) {
            spoil(asked, i, j, j % 8);
            ask(asked);
            spoil(asked, i, j, j % 8);
        }
}

/* A request of the seeds, changed at random. The room of `out` bounds the length of a key, and with it the time. */
static void ask_any(void)
{
    const seed *from = &seeds[below((uint32_t)seed_count)];
    request asked = read_request(from->bytes, from->size);
    const shape *form = &shapes[asked.call];
    for (uint32_t changes = below(4); changes > 0; changes--)
        change_request(&asked, any());
    for (uint32_t spoilt = below(3); spoilt > 0; spoilt--) {
        int which = (int)below((uint32_t)form->slices);
        size_t bytes = asked.in[which].count * form->width;
        if (bytes > 0)
            spoil(&asked, which, below((uint32_t)bytes), below(8));
    }
    int number = (int)below(NUMBERS);
    if (form->numbers[number] > 0 && below(4) == 0)
        asked.numbers[number] ^= (uint64_t)1 << below(8 * (uint32_t)form->numbers[number]);
    if (asked.room > 600 && below(100) > 0)
        asked.room = 600;
    ask(&asked);
    free_request(&asked);
}

/* A parent: mostly a slot, live or not, or none. */
static uint64_t any_parent(void) { return below(3) == 0 ? KV_NO_PARENT : below(KV_SLOTS + 2); }

/* Calls on slots, each on the slots that the one before returned: from empty to full and back, over and over. Returns 0 where the live
 * count is not the accepted puts less what the accepted drops returned. */
static int walk_slots(void)
{
    static kv_slots slots;
    uint32_t live = 0;
    for (uint32_t i = 1; i <= WALK; i++) {
        int put_one = below(16) < (i / 200 % 2 == 0 ? 15 : 2);
        kv_slots_outcome r = put_one ? kv_put_slot(slots, name_of((uint64_t)any() << 32 | any()), any_parent()) : kv_drop_slot(slots, below(KV_SLOTS + 2));
        if (r.refusal == KV_ACCEPTED)
            live += put_one ? 1 : -(uint32_t)r.value;
        slots = r.slots;
        add_number(r.refusal);
        add_number(r.value);
        add_bytes(&slots, sizeof slots);
        if (kv_live_slots(slots) != live)
            return 0;
        if (i % 200 == 0)
            put_sum("slots", i);
    }
    return 1;
}

/* Prints how often each call gave each answer. Returns how many answers of the header no request brought. */
static int put_tally(void)
{
    int missing = 0;
    for (int call = 0; call < CALLS; call++) {
        put(shapes[call].name);
        for (uint32_t refusal = 0; refusal <= LAST_REFUSAL; refusal++) {
            int may = refusal == 0 || (shapes[call].refusals >> refusal & 1);
            if (!may)
                continue;
            put(" ");
            put_number(refusal);
            put(":");
            put_number(seen[call][refusal]);
            missing += seen[call][refusal] == 0;
        }
        put("\n");
    }
    return missing;
}

int program(void)
{
    state = 0x9e3779b97f4a7c15u, sum = 0xcbf29ce484222325u;
    for (size_t i = 0; i < seed_count; i++) {
        request asked = read_request(seeds[i].bytes, seeds[i].size);
        if (ask(&asked) == KV_ACCEPTED && bytes_of(&asked) <= 400 && asked.room <= 600)
            ask_spoilt(&asked);
        put_sum(shapes[asked.call].name, (uint32_t)i);
        free_request(&asked);
    }
    for (uint32_t i = 1; i <= ROUNDS; i++) {
        ask_any();
        if (i % 200 == 0)
            put_sum("random", i);
    }
    int counted = walk_slots();
    if (!counted)
        put("slots: the live count is not the accepted puts less what the drops returned\n");
    return put_tally() == 0 && counted ? 0 : 1;
}
