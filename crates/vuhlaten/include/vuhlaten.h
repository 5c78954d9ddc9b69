/* Marking of hand-ins against sealed rule books.

   The calls are in the static library of the crate `vuhlaten` (`rt lib` in its folder makes out/libvuhlaten.a). It needs
   nothing but memcpy, memmove and memset. What each call does is proved of the library's code. Nothing checks that a
   caller does what is required here.

   Bytes are a pointer and a length.
   - NULL with length 0 stands for no bytes. With any other length a pointer is not NULL.
   - The bytes that are read stay as they are during the call, and the buffer overlaps none of them.
   - Only the first 65,535 bytes of each input count.

   A call allocates nothing and keeps nothing, so calls from several threads may overlap. It needs 200 KB of stack. */

#ifndef VUHLATEN_H
#define VUHLATEN_H

#include <stddef.h>
#include <stdint.h>

#ifdef __cplusplus
extern "C" {
#endif

/* A buffer of this many bytes has room for every line. */
#define VUHLATEN_LINE 33

/* Marks a tableau: `book` is a sealed book and `steps` are the steps, five bytes each. Writes the line of the verdict,
   with its line feed and no zero after it, at the front of `out`, and returns its length; bytes past it stay unchanged.
   If the buffer has less than VUHLATEN_LINE bytes, nothing is written and 0 is returned. The line is one of

       closed, entries used 4
       refused 13 at 7

   A closed tableau says that the live entries of the book have no finite preferential model. */
size_t vuhlaten_mark_tableau(const uint8_t *book, size_t book_length, const uint8_t *steps, size_t steps_length,
                             uint8_t *out, size_t out_length);

/* Marks a model: `model` is an interpretation of 2,337 bytes, and `pairs` has its "better", four bytes for each element.
   Otherwise as vuhlaten_mark_tableau; the line is one of

       satisfied, elements 2
       refused 18 at 0

   A satisfied book has the model that is handed in: all its live entries are true in it. */
size_t vuhlaten_mark_model(const uint8_t *book, size_t book_length, const uint8_t *model, size_t model_length,
                           const uint8_t *pairs, size_t pairs_length, uint8_t *out, size_t out_length);

/* The kinds of verdict. */
#define VUHLATEN_CLOSED 1
#define VUHLATEN_SATISFIED 2
#define VUHLATEN_REFUSED 3

/* A verdict as numbers. */
struct vuhlaten_verdict {
    uint32_t kind;   /* VUHLATEN_CLOSED, VUHLATEN_SATISFIED or VUHLATEN_REFUSED */
    uint32_t number; /* the number of the refusal, otherwise 0 */
    uint32_t place;  /* the place of the refusal, otherwise 0 */
    uint32_t count;  /* how many entries the tableau used, or how many elements the model has; 0 if refused */
};

/* Marks a tableau as vuhlaten_mark_tableau does, and returns the verdict as numbers. */
struct vuhlaten_verdict vuhlaten_judge_tableau(const uint8_t *book, size_t book_length, const uint8_t *steps,
                                               size_t steps_length);

/* Marks a model as vuhlaten_mark_model does, and returns the verdict as numbers. */
struct vuhlaten_verdict vuhlaten_judge_model(const uint8_t *book, size_t book_length, const uint8_t *model,
                                             size_t model_length, const uint8_t *pairs, size_t pairs_length);

/* The functions of the library require a pointer that is not NULL, also if the length is 0. Each call goes through a
   macro of the same name, which passes another pointer in place of NULL. A call that does not go through a macro, such as
   one by a function pointer or from another language, must do the same. */
static inline const uint8_t *vuhlaten_bytes(const uint8_t *bytes)
{
    static const uint8_t none = 0;
    return bytes != NULL ? bytes : &none;
}

static inline uint8_t *vuhlaten_buffer(uint8_t *out)
{
    static uint8_t none;
    return out != NULL ? out : &none;
}

#define vuhlaten_mark_tableau(book, book_length, steps, steps_length, out, out_length) \
    vuhlaten_mark_tableau(vuhlaten_bytes(book), book_length, vuhlaten_bytes(steps), steps_length, vuhlaten_buffer(out), \
                          out_length)

#define vuhlaten_mark_model(book, book_length, model, model_length, pairs, pairs_length, out, out_length) \
    vuhlaten_mark_model(vuhlaten_bytes(book), book_length, vuhlaten_bytes(model), model_length, vuhlaten_bytes(pairs), \
                        pairs_length, vuhlaten_buffer(out), out_length)

#define vuhlaten_judge_tableau(book, book_length, steps, steps_length) \
    vuhlaten_judge_tableau(vuhlaten_bytes(book), book_length, vuhlaten_bytes(steps), steps_length)

#define vuhlaten_judge_model(book, book_length, model, model_length, pairs, pairs_length) \
    vuhlaten_judge_model(vuhlaten_bytes(book), book_length, vuhlaten_bytes(model), model_length, \
                         vuhlaten_bytes(pairs), pairs_length)

#ifdef __cplusplus
}
#endif

#endif
