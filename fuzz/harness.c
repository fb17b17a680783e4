/* A libFuzzer target over every call of ketvaulo.h. An input is one request (requests.h). It is performed (calls.h), and where it is
 * accepted the answer is compared with other calls of the library (relations.h).
 *
 * libFuzzer learns nothing from the archive, which has no counters. So the harness marks, call by call and refusal by refusal, how long
 * each slice and number was, which of them were accepted, what an area was made of, and how many entries of each kind two bundles gave; an
 * input that marks something new is kept. */
#include "calls.h"
#include "complete.h"
#include "relations.h"
#include "requests.h"

#include <stdio.h>
#include <stdlib.h>

/* What libFuzzer calls, and its own mutations. */
int LLVMFuzzerInitialize(int *argc, char ***argv);
int LLVMFuzzerTestOneInput(const uint8_t *data, size_t size);
size_t LLVMFuzzerCustomMutator(uint8_t *data, size_t size, size_t max_size, unsigned seed);
size_t LLVMFuzzerMutate(uint8_t *data, size_t size, size_t max_size);

/* What libFuzzer reads beside the compiler's counters. */
#define MARKS __attribute__((section("__libfuzzer_extra_counters"))) static uint8_t

/* The most refusals of one call. Acceptance and they have a place each in the marks, so that these stay few: libFuzzer reads all of them
 * after each execution. */
#define MOST_REFUSALS 15
#define PLACES (MOST_REFUSALS + 1)

/* How many bits each slice's count, the room and each number had, by call and answer. */
#define CLASSES 16
#define ROOM SLICES
#define NUMBER (ROOM + 1)
MARKS sizes[CALLS][PLACES][NUMBER + NUMBERS][CLASSES];

/* Which counts and numbers, by their low byte, an accepted request had. */
MARKS accepted[CALLS][NUMBER + NUMBERS][256];

/* How many attributes an area had, and how many of them were AT_KDF, by answer; the last stands for more. */
#define ATTRIBUTES 32
#define OFFERS 20
MARKS areas[PLACES][ATTRIBUTES][OFFERS];

/* How many entries of each kind an accepted comparison listed; the last stands for more. */
#define ENTRIES 4
MARKS comparisons[ENTRIES][ENTRIES][ENTRIES];

/* The place of an answer among those of its call: 0 for acceptance, then its refusals by their numbers. */
static int place_of(enum call call, uint32_t refusal)
{
    const refusal_set below = ((refusal_set)1 << refusal) - 1;
    return refusal == KV_ACCEPTED ? 0 : 1 + __builtin_popcountll(shapes[call].refusals & below);
}

static int bits_of(uint64_t number)
{
    int bits = 0;
    while (number >> bits != 0 && bits < CLASSES - 1)
        bits++;
    return bits;
}

/* Marks the attributes of an area up to the first that is not whole. */
static void mark_area(slice area, int answered)
{
    const uint8_t *bytes = area.values;
    int attributes = 0, offers = 0;
    for (size_t at = 0; area.count - at >= 2; at += 4 * (size_t)bytes[at + 1]) {
        size_t length = 4 * (size_t)bytes[at + 1];
        if (length == 0 || length > area.count - at)
            break;
        if (attributes < ATTRIBUTES - 1)
            attributes++;
        if (bytes[at] == 24 && offers < OFFERS - 1)
            offers++;
    }
    areas[answered][attributes][offers] = 1;
}

static size_t entries_of(uint64_t count) { return count < ENTRIES ? (size_t)count : ENTRIES - 1; }

/* Marks a count or number of the request. */
static void mark_size(const request *asked, int answered, int which, uint64_t size)
{
    sizes[asked->call][answered][which][bits_of(size)] = 1;
    if (answered == KV_ACCEPTED)
        accepted[asked->call][which][size & 0xff] = 1;
}

static void mark(const request *asked, const answer *given)
{
    const int answered = place_of(asked->call, given->refusal);
    for (int i = 0; i < shapes[asked->call].slices; i++)
        mark_size(asked, answered, i, asked->in[i].count);
    mark_size(asked, answered, ROOM, asked->room);
    for (int i = 0; i < NUMBERS; i++)
        mark_size(asked, answered, NUMBER + i, asked->numbers[i]);
    if (asked->call == READ_AREA || asked->call == READ_AREA_LENIENT)
        mark_area(asked->in[0], answered);
    if (asked->call == COMPARE_BUNDLES && given->refusal == KV_ACCEPTED)
        comparisons[entries_of(given->fields[0])][entries_of(given->fields[1])][entries_of(given->fields[2])] = 1;
}

/* How often each call gave each answer, told at the end: what the run has tried. */
static unsigned long answers[CALLS][LAST_REFUSAL + 1];

static void tell_answers(void)
{
    for (int call = 0; call < CALLS; call++) {
        fprintf(stderr, "%s: accepted %lu", shapes[call].name, answers[call][KV_ACCEPTED]);
        for (int refusal = 1; refusal <= LAST_REFUSAL; refusal++)
            if (shapes[call].refusals >> refusal & 1)
                fprintf(stderr, ", %d: %lu", refusal, answers[call][refusal]);
        fprintf(stderr, "\n");
    }
}

int LLVMFuzzerInitialize(int *argc, char ***argv)
{
    (void)argc;
    (void)argv;
    for (int call = 0; call < CALLS; call++)
        if (place_of(call, LAST_REFUSAL + 1) > PLACES) {
            fprintf(stderr, "%s: more than %d refusals\n", shapes[call].name, MOST_REFUSALS);
            exit(2);
        }
    get_pages();
    atexit(tell_answers);
    return 0;
}

int LLVMFuzzerTestOneInput(const uint8_t *data, size_t size)
{
    static answer given;
    request asked = read_request(data, size);
    perform(&asked, &given);
    if (given.refusal == KV_ACCEPTED)
        check_relations(&asked, &given);
    mark(&asked, &given);
    answers[asked.call][given.refusal]++;
    free_request(&asked);
    return 0;
}

/* Half of the mutations are libFuzzer's, which know nothing of slices; the others keep to them, and half of those complete what they have changed. */
size_t LLVMFuzzerCustomMutator(uint8_t *data, size_t size, size_t max_size, unsigned seed)
{
    if (seed % 2 == 0)
        return LLVMFuzzerMutate(data, size, max_size);
    request asked = read_request(data, size);
    change_request(&asked, seed);
    if (seed % 4 == 3)
        complete_request(&asked, seed);
    size = write_request(&asked, data, max_size);
    free_request(&asked);
    return size;
}
