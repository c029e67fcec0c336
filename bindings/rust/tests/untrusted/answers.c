/* A library with the calls of unix_path.h. Each call returns a random result, and writes random
 * values to the records and buffers to which a call with its signature may write. */
#define UNIX_PATH_EXPORTS_ONLY
#include "unix_path.h"

static _Thread_local uint64_t state = 88172645463325252u;

static uint64_t any(void)
{
    state ^= state << 13;
    state ^= state >> 7;
    state ^= state << 17;
    return state;
}

/* Returns a small number, or a number so large that a sum with it may overflow. */
static size_t any_size_t(void)
{
    switch (any() % 4) {
    case 0:
        return SIZE_MAX - any() % 8;
    case 1:
        return SIZE_MAX / 2 + any() % 3;
    default:
        return any() % 14;
    }
}

static bool any_bool(void)
{
    return any() % 2;
}

static int32_t any_int32_t(void)
{
    return (int32_t)any();
}

static uint32_t any_uint32_t(void)
{
    return (uint32_t)any();
}

static uint64_t any_uint64_t(void)
{
    return any();
}

static bool any_span(unix_path_span *span)
{
    span->start = any_size_t();
    span->length = any_size_t();
    return any() % 4 > 0;
}

static bool any_part(unix_path_walk *walk, unix_path_part *part)
{
    walk->front = any_size_t();
    walk->back = any_size_t();
    part->start = any_size_t();
    part->length = any_size_t();
    part->kind = (uint32_t)(any() % 6);
    return any() % 8 > 0;
}

static bool any_chunk(unix_path_chunk *chunk)
{
    chunk->start = any_size_t();
    chunk->valid_length = any_size_t();
    chunk->broken_length = any_size_t();
    return any() % 8 > 0;
}

static size_t any_bytes(void *room, size_t out_length)
{
    uint8_t *out = room;
    for (size_t at = 0; at < out_length; at++)
        out[at] = (uint8_t)any();
    return any_size_t();
}

static uint32_t any_refusal(unix_path_slot *slots, size_t slots_length, unix_path_refusal *refusal)
{
    for (size_t at = 0; at < slots_length; at++)
        slots[at] = (unix_path_slot){any(), any(), any(), any(), any()};
    refusal->entry = any_size_t();
    refusal->cause = any_size_t();
    refusal->reason = (uint32_t)(any() % 8);
    return (uint32_t)(any() % 6);
}

#define ONE const void *a, size_t a_length
#define TWO ONE, const void *b, size_t b_length
#define OUT void *out, size_t out_length
#define NONE_OF_ONE (void)a, (void)a_length
#define NONE_OF_TWO NONE_OF_ONE, (void)b, (void)b_length

#define BEGIN(name) \
    void unix_path_##name(ONE, unix_path_walk *walk) \
    { \
        NONE_OF_ONE; \
        walk->front = any_size_t(); \
        walk->back = any_size_t(); \
    }
#define LEFT(name) \
    void unix_path_##name(ONE, const unix_path_walk *walk, unix_path_span *span) \
    { NONE_OF_ONE, (void)walk, any_span(span); }
#define STEP(name) \
    bool unix_path_##name(ONE, unix_path_walk *walk, unix_path_part *part) \
    { return NONE_OF_ONE, any_part(walk, part); }
#define NEXT_SPAN(name) \
    bool unix_path_##name(ONE, size_t *next, unix_path_span *span) \
    { return NONE_OF_ONE, *next = any_size_t(), any_span(span); }
#define NEXT_CHUNK(name) \
    bool unix_path_##name(ONE, size_t *next, unix_path_chunk *chunk) \
    { return NONE_OF_ONE, *next = any_size_t(), any_chunk(chunk); }
#define FIND(name) \
    bool unix_path_##name(ONE, unix_path_span *span) { return NONE_OF_ONE, any_span(span); }
#define FIND_OF_TWO(name) \
    bool unix_path_##name(TWO, unix_path_span *span) { return NONE_OF_TWO, any_span(span); }
#define ASK_NOTHING(answer, name) answer unix_path_##name(void) { return any_##answer(); }
#define ASK(answer, name) answer unix_path_##name(ONE) { return NONE_OF_ONE, any_##answer(); }
#define ASK_TWO(answer, name) answer unix_path_##name(TWO) { return NONE_OF_TWO, any_##answer(); }
#define MAKE(name) \
    size_t unix_path_##name(ONE, OUT) { return NONE_OF_ONE, any_bytes(out, out_length); }
#define MAKE_OF_TWO(name) \
    size_t unix_path_##name(TWO, OUT) { return NONE_OF_TWO, any_bytes(out, out_length); }
#define COUNT_SLOTS(name) size_t unix_path_##name(ONE) { return NONE_OF_ONE, any_size_t(); }
#define CHECK_ENTRIES(name) \
    uint32_t unix_path_##name(ONE, unix_path_slot *slots, size_t slots_length, uint32_t level, \
                              unix_path_refusal *refusal) \
    { return NONE_OF_ONE, (void)level, any_refusal(slots, slots_length, refusal); }
#include "../../../../tests/calls.inc"
