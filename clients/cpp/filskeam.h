/* The proved component table of a test case, and the program `ttrun`, in process. No thread is started and no lock is taken
   here: a table is passive, and the caller wakes a run that waits.

       filskeam_case c = FILSKEAM_CLOSED;
       char reply[FILSKEAM_REPLY];
       size_t size;
       filskeam_open(&c, 2);
       filskeam_play(&c, "0 create", 8, reply, sizeof reply, &size);   // "made 1"

   `./ttrun --library` builds it, and prints its folder: `cc -I$FOLDER bench.c $FOLDER/libfilskeam.a`. With -lfilskeam the loader
   must find libfilskeam.so when the program starts, as that of the Debian package. docs/texts.md has all moves and replies.
   A text is a pointer and a length, without a zero at its end, and no pointer is null, even with the length 0. The texts, the
   room and the count of one call do not overlap. The C library's malloc aligns as C demands, and no call is made in a signal handler. */
#ifndef FILSKEAM_H
#define FILSKEAM_H

#include <stdbool.h>
#include <stddef.h>
#include <stdint.h>

#ifdef __cplusplus
extern "C" {
#endif

/* A place for a test case. It is begun with FILSKEAM_CLOSED, and from then on only the calls below read or write it. It is
   neither copied nor moved while it is open. One call at a time on one place; another thread may make the next one, if a
   lock, a start or a join orders the two. Calls on different places may overlap. */
typedef struct {
    void *at;
    bool is_open;
} filskeam_case;

#define FILSKEAM_CLOSED { 0, false }

/* What the calls answer. The proofs say of each number when it comes. If it is not FILSKEAM_DONE, the test case and the room
   are as they were. */
enum {
    FILSKEAM_DONE = 0,
    FILSKEAM_NOT_OPEN = 1,  /* exactly if the place holds no test case: it was never opened, or was closed */
    FILSKEAM_UNSPELLED = 2, /* exactly if the text spells no call, or the name is none */
    FILSKEAM_NO_ROOM = 3,   /* the room is too small; the count says how many bytes there are */
    FILSKEAM_NO_MEMORY = 4,
    FILSKEAM_OPEN = 5,      /* exactly if the place holds a test case already */
    FILSKEAM_NO_NUMBER = 6, /* exactly if no test case has that many behaviours: there are 1 to 256 */
    FILSKEAM_NONE = 255     /* of `overall` and `is_over`: exactly if the place holds no test case */
};

/* No reply has more bytes. */
#define FILSKEAM_REPLY 32

/* Opens a test case. Its runs have the numbers from 0 on, below that of the behaviours; run 0 is started. */
uint8_t filskeam_open(filskeam_case *place, uint16_t behaviours);

/* Makes a call, as "0 setverdict pass", and writes the table's reply, as "ok". The history has one entry more. */
uint8_t filskeam_play(filskeam_case *place, const void *move, size_t move_size, void *room, size_t room_size, size_t *count);

/* Writes the reply that `filskeam_play` would write, and makes no call. Of a run that waits, ask its wake, as "0 wake done 1":
   unless the reply is "parked", play it. That reply answers the wait: "matched", "ended" or an error. The table takes a wake
   at any time, so keep a lock from the question to the wake: otherwise two threads may play it. */
uint8_t filskeam_would(filskeam_case *place, const void *move, size_t move_size, void *room, size_t room_size, size_t *count);

/* The overall verdict: none 0, pass 1, inconc 2, fail 3, error 4. */
uint8_t filskeam_overall(filskeam_case *place);

/* Whether the test case is over: 1 or 0, and FILSKEAM_NONE if there is none, as of `filskeam_overall`. */
uint8_t filskeam_is_over(filskeam_case *place);

/* Writes the history, which `ttrun check` reads and finds legal, under this name. Ask with a room of 0 bytes how many it has. */
uint8_t filskeam_history(filskeam_case *place, const void *name, size_t name_size, void *room, size_t room_size, size_t *count);

/* Closes the test case, and gives back its memory. */
uint8_t filskeam_close(filskeam_case *place);

/* Answers as `ttrun` does to these arguments, each ended by a zero byte, and this input: `check`, `replay`, `explore`,
   `report`, `model`. It begins no run. Returns the exit status. Each output is copied if it has room; the counts say in
   any case how many bytes there are. */
uint8_t filskeam_answer(const void *arguments, size_t arguments_size, const void *input, size_t input_size,
                        void *output, size_t output_size, size_t *output_count,
                        void *errors, size_t errors_size, size_t *errors_count);

#ifdef __cplusplus
}
#endif
#endif
