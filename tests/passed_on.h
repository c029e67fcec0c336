/* Compares each function of unix_path.h with the library's own call, to which the function passes
 * its arguments: both have to return and write the same. For C and C++. */
#ifndef PASSED_ON_H
#define PASSED_ON_H

#include <stdio.h>
#include <string.h>

#include "unix_path.h"

#define ONE const void *a, size_t a_length
#define TWO ONE, const void *b, size_t b_length
#define OUT void *out, size_t out_length

/* The library's own calls, under other names. */
#ifdef __cplusplus
extern "C" {
#endif
#define EXPORTED(answer, name, ...) answer exported_##name(__VA_ARGS__) __asm__("unix_path_" #name);
#define BEGIN(name) EXPORTED(void, name, ONE, unix_path_walk *walk)
#define LEFT(name) EXPORTED(void, name, ONE, const unix_path_walk *walk, unix_path_span *span)
#define STEP(name) EXPORTED(bool, name, ONE, unix_path_walk *walk, unix_path_part *part)
#define NEXT_SPAN(name) EXPORTED(bool, name, ONE, size_t *next, unix_path_span *span)
#define NEXT_CHUNK(name) EXPORTED(bool, name, ONE, size_t *next, unix_path_chunk *chunk)
#define FIND(name) EXPORTED(bool, name, ONE, unix_path_span *span)
#define FIND_OF_TWO(name) EXPORTED(bool, name, TWO, unix_path_span *span)
#define ASK_NOTHING(answer, name) EXPORTED(answer, name, void)
#define ASK(answer, name) EXPORTED(answer, name, ONE)
#define ASK_TWO(answer, name) EXPORTED(answer, name, TWO)
#define MAKE(name) EXPORTED(size_t, name, ONE, OUT)
#define MAKE_OF_TWO(name) EXPORTED(size_t, name, TWO, OUT)
#define COUNT_SLOTS(name) EXPORTED(size_t, name, ONE)
#define CHECK_ENTRIES(name)                                                                        \
    EXPORTED(uint32_t, name, ONE, unix_path_slot *slots, size_t slots_length, uint32_t level,      \
             unix_path_refusal *refusal)
#include "calls.inc"
#ifdef __cplusplus
}
#endif

/* All that a call may write: a record of each kind, and bytes. */
typedef struct {
    unix_path_walk walk;
    unix_path_part part;
    unix_path_span span;
    unix_path_chunk chunk;
    size_t next;
    unix_path_slot slots[4];
    unix_path_refusal refusal;
    unsigned char out[64];
} written;

static inline bool same_written(const written *a, const written *b) {
    return a->walk.front == b->walk.front && a->walk.back == b->walk.back
           && a->part.start == b->part.start && a->part.length == b->part.length
           && a->part.kind == b->part.kind && a->span.start == b->span.start
           && a->span.length == b->span.length && a->chunk.start == b->chunk.start
           && a->chunk.valid_length == b->chunk.valid_length
           && a->chunk.broken_length == b->chunk.broken_length && a->next == b->next
           && memcmp(a->slots, b->slots, sizeof a->slots) == 0
           && a->refusal.entry == b->refusal.entry && a->refusal.cause == b->refusal.cause
           && a->refusal.reason == b->refusal.reason
           && memcmp(a->out, b->out, sizeof a->out) == 0;
}

/* Sets the contents before a call: bytes A5, and a walk over a path of this length. */
static inline void begin_anew(written *it, size_t path_length) {
    memset(it, 0xA5, sizeof *it);
    it->walk.front = it->next = 0;
    it->walk.back = path_length;
}

/* Returns 0 if a function and its call returned and wrote the same. Otherwise prints the function's
 * name and returns 1. */
static inline int difference(const char *name, bool same_answer, written *a, written *b,
                             size_t path_length) {
    bool is_same = same_answer && same_written(a, b);
    if (!is_same) {
        printf("unix_path_%s differs from its call\n", name);
    }
    begin_anew(a, path_length);
    begin_anew(b, path_length);
    return !is_same;
}

/* Returns how many functions differ from their calls on these paths, with a buffer of `room` bytes,
 * at most 64, and prints their names. Only the functions get null pointers, for paths and buffers
 * of no bytes. */
static inline int wrong_functions(ONE, const void *b, size_t b_length, size_t room) {
    const void *own_a = a_length == 0 ? "" : a, *own_b = b_length == 0 ? "" : b;
    written by_function, by_call;
    int wrong = 0;
    begin_anew(&by_function, a_length);
    begin_anew(&by_call, a_length);
    void *out = room == 0 ? NULL : by_function.out;
    unix_path_slot *slots = room == 0 ? NULL : by_function.slots;
    size_t slot_count = room == 0 ? 0 : 4;

#define A a, a_length
#define B b, b_length
#define OWN_A own_a, a_length
#define OWN_B own_b, b_length
#define FUNCTION_OUT out, room
#define OWN_OUT by_call.out, room
#define TRY(name, same_answer)                                                                     \
    wrong += difference(#name, same_answer, &by_function, &by_call, a_length);
#define BEGIN(name)                                                                                \
    TRY(name, (unix_path_##name(A, &by_function.walk), exported_##name(OWN_A, &by_call.walk), true))
#define LEFT(name)                                                                                 \
    TRY(name, (unix_path_##name(A, &by_function.walk, &by_function.span),                          \
               exported_##name(OWN_A, &by_call.walk, &by_call.span), true))
#define STEP(name)                                                                                 \
    TRY(name, unix_path_##name(A, &by_function.walk, &by_function.part)                            \
              == exported_##name(OWN_A, &by_call.walk, &by_call.part))
#define NEXT_SPAN(name)                                                                            \
    TRY(name, unix_path_##name(A, &by_function.next, &by_function.span)                            \
              == exported_##name(OWN_A, &by_call.next, &by_call.span))
#define NEXT_CHUNK(name)                                                                           \
    TRY(name, unix_path_##name(A, &by_function.next, &by_function.chunk)                           \
              == exported_##name(OWN_A, &by_call.next, &by_call.chunk))
#define FIND(name)                                                                                 \
    TRY(name, unix_path_##name(A, &by_function.span) == exported_##name(OWN_A, &by_call.span))
#define FIND_OF_TWO(name)                                                                          \
    TRY(name, unix_path_##name(A, B, &by_function.span)                                            \
              == exported_##name(OWN_A, OWN_B, &by_call.span))
#define ASK_NOTHING(answer, name) TRY(name, unix_path_##name() == exported_##name())
#define ASK(answer, name) TRY(name, unix_path_##name(A) == exported_##name(OWN_A))
#define ASK_TWO(answer, name) TRY(name, unix_path_##name(A, B) == exported_##name(OWN_A, OWN_B))
#define MAKE(name)                                                                                 \
    TRY(name, unix_path_##name(A, FUNCTION_OUT) == exported_##name(OWN_A, OWN_OUT))
#define MAKE_OF_TWO(name)                                                                          \
    TRY(name, unix_path_##name(A, B, FUNCTION_OUT) == exported_##name(OWN_A, OWN_B, OWN_OUT))
#define COUNT_SLOTS(name) TRY(name, unix_path_##name(A) == exported_##name(OWN_A))
#define CHECK_ENTRIES(name)                                                                        \
    TRY(name, unix_path_##name(A, slots, slot_count, UNIX_PATH_CLOSED, &by_function.refusal)       \
              == exported_##name(OWN_A, by_call.slots, slot_count, UNIX_PATH_CLOSED,               \
                                 &by_call.refusal))
#include "calls.inc"
#undef A
#undef B
#undef OWN_A
#undef OWN_B
#undef FUNCTION_OUT
#undef OWN_OUT
#undef TRY
    return wrong;
}

#undef ONE
#undef TWO
#undef OUT
#undef EXPORTED

#endif
