/* Shapes ("hidden classes") for C and C++: link libshapes_c.a.
 *
 * All shapes live in one image: an array of 32-bit words that you own, and lend to each call as a pointer and a count
 * of words. The library keeps nothing else and allocates nothing, so that an image can be copied or saved as words.
 * Your part: the pointer is valid for that many words, nothing else uses them during the call, and the two slices of
 * shapes_keys do not overlap. All else is tested.
 *
 * A shape is a number from 1 to S. A key is made by SHAPES_STRING, SHAPES_SYMBOL or SHAPES_INDEX. A prototype is any
 * number; 0 is none.
 *
 * Every call but shapes_format tests the whole image first. Each answers four numbers; if `refusal` is not 0, the
 * other three are 0 and no lent word has changed.
 */
#ifndef SHAPES_H
#define SHAPES_H

#include <stddef.h>
#include <stdint.h>

#ifdef __cplusplus
extern "C" {
#endif

struct shapes_reply {
    uint32_t refusal; /* 0, or one of enum shapes_refusal */
    uint32_t first;   /* these three: see each call; 0 where it says nothing */
    uint32_t second;
    uint32_t third;
};

/* Why a call said no. A call that has several reasons gives the first in this order, but for 12, which only
 * shapes_format gives; of 7 to 10 it gives the lowest that applies in the first step that meets one. */
enum shapes_refusal {
    SHAPES_DAMAGED = 1,        /* the image is not sound */
    SHAPES_BAD_KEY = 2,        /* the key's kind is 3 */
    SHAPES_BAD_ATTRIBUTES = 3, /* the attributes are above 31 */
    SHAPES_NO_SHAPE = 4,       /* the shape is 0, above S, free, or without holds */
    SHAPES_PRESENT = 5,        /* insert of a key that the shape has */
    SHAPES_ABSENT = 6,         /* change of a key that the shape lacks; removal of one from a shared shape */
    SHAPES_KEYS_FULL = 7,      /* a step must add a key to K keys */
    SHAPES_SHAPES_FULL = 8,    /* a shape is needed, and no place is free */
    SHAPES_TABLES_FULL = 9,    /* a table is needed, and no place is free */
    SHAPES_EDGES_FULL = 10,    /* an edge is needed, and none is free after this step's prunes */
    SHAPES_HOLDS_FULL = 11,    /* the result already has 65,535 holds */
    SHAPES_BAD_SIZE = 12,      /* a limit or the total is out of range, or the slice has another length */
    SHAPES_OUT_SHORT = 13      /* the key list is longer than the slice lent for it */
};

/* What a change asks of an object's storage: nothing, to take one place out, or to put one in. */
enum shapes_action {
    SHAPES_ACTION_NOTHING = 0,
    SHAPES_ACTION_REMOVE = 1, /* accessor became data: two places became one */
    SHAPES_ACTION_INSERT = 2  /* data became accessor: one place became two */
};

/* Attributes are any mixture of these bits. With GET or SET, or both, a key takes two storage places, else one. */
enum shapes_attribute {
    SHAPES_WRITABLE = 1,
    SHAPES_ENUMERABLE = 2,
    SHAPES_CONFIGURABLE = 4,
    SHAPES_GET = 8,
    SHAPES_SET = 16
};

/* How many words an image has for S shapes, T tables of K keys each, and E edges. */
#define SHAPES_WORDS(S, T, K, E) \
    ((size_t)8 + (size_t)10 * (S) + (size_t)(T) * ((size_t)1 + (size_t)3 * (K)) + (size_t)5 * (E))

/* Keys, each from an id below 2^30. */
#define SHAPES_STRING(id) ((uint32_t)(id))
#define SHAPES_SYMBOL(id) (((uint32_t)1 << 30) + (uint32_t)(id))
#define SHAPES_INDEX(id) (((uint32_t)2 << 30) + (uint32_t)(id))

/* ---- The image ---- */

/* Makes the slice an empty image. S, T, E are 1 to 65,535, K is 1 to 2,048, and `words` is SHAPES_WORDS(S, T, K, E),
 * at most 16,777,216. Answers zeros. Refused: 12 if not so. */
struct shapes_reply shapes_format(uint32_t *image, size_t words, uint32_t S, uint32_t T, uint32_t K, uint32_t E);

/* Is the image sound? Answers zeros if so. Refused: 1 if not. */
struct shapes_reply shapes_is_sound(const uint32_t *image, size_t words);

/* ---- Calls that give a shape: first is the shape, second the action, third its transition count ----
 * Each adds one hold to the shape that it gives: release it when you need it no more. The holds of the shape that
 * you started from stay. Go on with the shape that is given: a unique shape may have left its keys to a new one.
 * Each is refused with 1 if the image is not sound, and with 11 if the result already has 65,535 holds. */

/* A new root: shared, no keys, prototype 0. Refused: 8, 9. */
struct shapes_reply shapes_root(uint32_t *image, size_t words);

/* A new unique shape: no keys, prototype 0. Refused: 8, 9. */
struct shapes_reply shapes_unique(uint32_t *image, size_t words);

/* The shape with one key more, at the end. Refused: 2, 3, 4, 5 if it has the key, 7 to 10. */
struct shapes_reply shapes_insert(uint32_t *image, size_t words, uint32_t shape, uint32_t key, uint32_t attributes);

/* The shape with other attributes for a key that it has. Refused: 2, 3, 4, 6 if it lacks the key, 7 to 10. */
struct shapes_reply shapes_change(uint32_t *image, size_t words, uint32_t shape, uint32_t key, uint32_t attributes);

/* The shape without a key. A unique shape that lacks the key is given back as it is. Refused: 2, 4, 6 if a shared
 * shape lacks the key, 7 to 10. */
struct shapes_reply shapes_remove(uint32_t *image, size_t words, uint32_t shape, uint32_t key);

/* The shape with another prototype; 0 is allowed. Refused: 4, 7 to 10. */
struct shapes_reply shapes_set_prototype(uint32_t *image, size_t words, uint32_t shape, uint32_t to);

/* The same shape, held once more. Refused: 4. */
struct shapes_reply shapes_hold(uint32_t *image, size_t words, uint32_t shape);

/* The shape that this one was made from, held once more; a root or a unique shape has none, and zeros are the answer.
 * Refused: 4. */
struct shapes_reply shapes_previous(uint32_t *image, size_t words, uint32_t shape);

/* ---- Calls that give shapes back ---- */

/* Takes one hold from the shape. Answers zeros. Refused: 1, 4. */
struct shapes_reply shapes_release(uint32_t *image, size_t words, uint32_t shape);

/* Frees the shapes that are not held and that no held shape was made from. first: how many shapes were freed,
 * second: how many tables. Refused: 1. */
struct shapes_reply shapes_sweep(uint32_t *image, size_t words);

/* ---- Questions: they change no word of the image. Each is refused with 1 if the image is not sound ---- */

/* Where a key is stored. If the shape has it: first is 1, second the slot index, third the attributes. If not: zeros.
 * Refused: 2, 4. */
struct shapes_reply shapes_lookup(const uint32_t *image, size_t words, uint32_t shape, uint32_t key);

/* Writes the shape's keys at the front of `out`: strings in order, then symbols in order, no index keys. The rest of
 * `out` stays. first: how many keys. Refused: 4, 13. */
struct shapes_reply shapes_keys(const uint32_t *image, size_t words, uint32_t shape, uint32_t *out, size_t out_words);

/* first: the shape's prototype. Refused: 4. */
struct shapes_reply shapes_prototype(const uint32_t *image, size_t words, uint32_t shape);

/* first: 1 if the shape is shared, 0 if it is unique. Refused: 4. */
struct shapes_reply shapes_is_shared(const uint32_t *image, size_t words, uint32_t shape);

/* first: how many steps lead from the shape's root to it; 0 for a unique shape. Refused: 4. */
struct shapes_reply shapes_transition_count(const uint32_t *image, size_t words, uint32_t shape);

/* first: how many keys the shape has. Refused: 4. */
struct shapes_reply shapes_property_count(const uint32_t *image, size_t words, uint32_t shape);

#ifdef __cplusplus
}
#endif

#endif
