/* Bokdrez for C and C++: a document with its style sheets, which takes edits and keeps the styles of its elements.
 *
 * The calls are proved, this header is not: that it says what the library takes is tried by checks/c_interface.
 *
 * SESSIONS. A handle is begun as BOKDREZ_NONE, is never copied, and holds what bokdrez_open put into it until
 * bokdrez_close, which gives all memory back. No call keeps a pointer that it was given, but for the handle's own.
 * One call at a time on a session, from any thread; calls on several sessions may run at once.
 *
 * BUFFERS are the caller's. A pointer is good for its length, and no two arguments of a call overlap; where a length is
 * 0, its pointer may be null. A call that fills a buffer says in `needed` how much the whole is, also where it found no
 * room: then the content of the buffer is not said. `needed` is 0 where there is nothing to tell. To learn how much is
 * needed costs as much as to read, so a buffer is best kept, and made larger where it lacked room. Texts are UTF-8
 * without a zero at the end.
 *
 * STATUSES. Each call says how it ended; at any status but BOKDREZ_DONE the session is as it was before the call. After
 * BOKDREZ_NO_MEMORY the same call may be made again.
 *
 * TRUSTED is that the caller keeps to this, that `malloc`, `realloc` and `free` are one allocator's and align blocks to
 * each power of two up to 16 that divides their size, that a call finds 136 KiB of stack (the double of what bench/stack
 * has measured), and that no call is made in a signal handler or in the forked child of a process with threads. */
#ifndef BOKDREZ_H
#define BOKDREZ_H

#include <stddef.h>
#include <stdint.h>

#ifdef __cplusplus
extern "C" {
#endif

/* The number of this header. It is another one where a call is. */
#define BOKDREZ_VERSION 1u

/* How a call ended. */
#define BOKDREZ_DONE 0u
/* The bytes are not UTF-8, or no JSON value. */
#define BOKDREZ_NOT_JSON 3u
/* The value is no job, or no edit: `path` has the JSON pointer (RFC 6901) of the first place that is absent or of
 * another shape. */
#define BOKDREZ_NOT_A_JOB 4u
/* A limit of a job is passed: `why` says which. */
#define BOKDREZ_LIMIT 5u
#define BOKDREZ_NO_MEMORY 7u
/* The edit is refused: `why` says why. */
#define BOKDREZ_REFUSED 8u
/* The handle has no session. This comes before all other statuses. */
#define BOKDREZ_NO_SESSION 9u
/* The buffer has no room for the whole. */
#define BOKDREZ_NO_ROOM 10u
/* Edits since the last restyle can have changed the style of the element, or that of one above it. */
#define BOKDREZ_STALE 11u
/* No element has the number. */
#define BOKDREZ_NO_NODE 12u
/* A name has not 1 to 256 bytes, or has a character up to U+0020 or U+007F; or a name or value is not UTF-8, or has more
 * than 67,108,864 bytes; or `which` is above 2, or `on` above 1. This comes before REFUSED. */
#define BOKDREZ_BAD_ARGUMENT 13u

/* What stands in `what` of a bokdrez_why. */
#define BOKDREZ_UNKNOWN_NODE 1u
#define BOKDREZ_UNKNOWN_SHEET 2u
#define BOKDREZ_BAD_PLACE 3u
#define BOKDREZ_LIMIT_PASSED 4u

/* What stands in `kind`, where it is a limit. */
#define BOKDREZ_KIND_INPUT 1u
#define BOKDREZ_KIND_ELEMENTS 2u
#define BOKDREZ_KIND_NUMBERS 3u
#define BOKDREZ_KIND_DEPTH 4u
#define BOKDREZ_KIND_ATTRIBUTES 5u
#define BOKDREZ_KIND_VALUE 6u
#define BOKDREZ_KIND_SHEETS 7u
#define BOKDREZ_KIND_TEXT 8u
#define BOKDREZ_KIND_BATCHES 9u

/* The states of an element. */
#define BOKDREZ_HOVER 0u
#define BOKDREZ_ACTIVE 1u
#define BOKDREZ_FOCUS 2u

/* A handle of a session, or of none. */
typedef struct bokdrez_session {
  void *held;
} bokdrez_session;

/* What a handle is begun as: `bokdrez_session session = BOKDREZ_NONE;` */
#define BOKDREZ_NONE \
  { NULL }

/* Why a job or an edit was refused: what, and of a limit its kind; and the number of the element or sheet, or of the
 * limit. All is 0 at any status but BOKDREZ_LIMIT and BOKDREZ_REFUSED. */
typedef struct bokdrez_why {
  uint32_t what;
  uint32_t kind;
  uint64_t number;
} bokdrez_why;

/* How many elements a restyle went to: those whose rules were matched, and those that were cascaded. */
typedef struct bokdrez_counts {
  uint64_t matched;
  uint64_t cascaded;
} bokdrez_counts;

/* The number of the header that fits the library: BOKDREZ_VERSION. */
uint32_t bokdrez_version(void);

/* Opens a session over the nodes and sheets of a job (docs/PROFILE.md); its batches are read and not applied. Once it is
 * there, the one that the handle had is closed. A job of more than 67,108,864 bytes is not read.
 * DONE, NOT_JSON, NOT_A_JOB, LIMIT, NO_MEMORY. At NOT_A_JOB `path` has the pointer where it fits, and `needed` its length;
 * at any other status `needed` is 0. */
uint32_t bokdrez_open(const uint8_t *job, size_t length, bokdrez_session *session, bokdrez_why *why, uint8_t *path,
                      size_t room, uint64_t *needed);

/* Makes one edit of the ten, in JSON, as a batch of a job has it. The pointer in `path` begins at the edit; `needed` is 0
 * at any status but NOT_A_JOB. New elements and sheets get the next numbers, in their order.
 * DONE, NOT_JSON, NOT_A_JOB, LIMIT (of the input alone), NO_MEMORY, REFUSED, NO_SESSION. */
uint32_t bokdrez_edit(bokdrez_session *session, const uint8_t *json, size_t length, bokdrez_why *why, uint8_t *path,
                      size_t room, uint64_t *needed);

/* Gives an attribute of an element a value, takes it away, puts an element into a state (`on` 1) or out of it (0): the
 * edits `set`, `unset` and `state` without JSON.
 * DONE, NO_MEMORY, REFUSED, NO_SESSION, BAD_ARGUMENT. */
uint32_t bokdrez_set(bokdrez_session *session, uint64_t node, const uint8_t *name, size_t name_length,
                     const uint8_t *value, size_t value_length, bokdrez_why *why);
uint32_t bokdrez_unset(bokdrez_session *session, uint64_t node, const uint8_t *name, size_t name_length,
                       bokdrez_why *why);
uint32_t bokdrez_state(bokdrez_session *session, uint64_t node, uint32_t which, uint32_t on, bokdrez_why *why);

/* Styles again what edits since the last restyle can have changed, on the calling thread. The first one styles all.
 * DONE, NO_MEMORY, NO_SESSION. At any status but DONE the counts are 0. */
uint32_t bokdrez_restyle(bokdrez_session *session, bokdrez_counts *counts);

/* Copies the line of an element, as the program prints it, with its line feed.
 * DONE, NO_MEMORY, NO_SESSION, NO_ROOM, STALE, NO_NODE. `needed` is 0 at any status but DONE and NO_ROOM. */
uint32_t bokdrez_style(bokdrez_session *session, uint64_t node, uint8_t *buffer, size_t room, uint64_t *needed);

/* Copies the lines of all elements, in tree order. STALE where any element is.
 * DONE, NO_MEMORY, NO_SESSION, NO_ROOM, STALE. */
uint32_t bokdrez_text(bokdrez_session *session, uint8_t *buffer, size_t room, uint64_t *needed);

/* Copies the numbers of the elements that the last restyle cascaded, each once, in tree order as it was then: none before
 * the first. One that was removed since stays on the list.
 * DONE, NO_SESSION, NO_ROOM. `room` and `needed` count numbers. */
uint32_t bokdrez_changed(bokdrez_session *session, uint32_t *numbers, size_t room, uint64_t *needed);

/* Gives back all that the session has. Nothing happens where there is none. That all memory is given back is tried by
 * checks/c_interface, not proved. */
void bokdrez_close(bokdrez_session *session);

#ifdef __cplusplus
}
#endif

#endif
