/* The library tclsafe for C: interpreters of the Tcl 8.6 command language for scripts that nobody
   trusts. docs/C.md says how it is built, and has a first program.

   Handles. A handle is two words that the caller keeps. Zero words hold nothing (`= {0}`), and
   `tclsafe_free` brings any handle back to that. Copy none, and read and write no field. Handles
   that are passed to one call are different ones. A handle is given to one call at a time, and
   stays on its thread. A handle holds a tree, a record or a saved interpreter; one of another kind
   than a call wants is refused (423).

   Texts that go in are a pointer and a length in bytes, of UTF-8, and are copied where they are
   kept. A path is a list of names from the root downward; that of the root is the empty text.
   Where a length is 0, nothing is read or written through the pointer, and it may be NULL. Every
   other pointer is to as much memory as its call says, and no memory that is written is passed
   twice to one call.

   Texts that come out are written into room of the caller, as snprintf does: as much as fits, and a
   NUL behind it, unless the size of the room is 0. The length that is answered is that of the whole
   text, without the NUL; a text may have bytes 0 within it. So a call with NULL and 0 asks for the
   length. A text that is cut off may end within a character.

   Calls answer 0, or another number below 100 where that is said, or the number of a refusal.
   A refused call changes nothing, but where that is said. `tclsafe_error_text` has the texts. Each
   call that takes a handle may answer
     421  the handle holds nothing              423  it holds something of another kind
   and each that takes a text or a path, or wants memory,
     122  a text longer than 16777216 bytes     265  a text that isn't UTF-8
     101 to 104  a path or words that spell no list
     401  memory was wanted
   No call aborts, prints or blocks. */
#ifndef TCLSAFE_H
#define TCLSAFE_H

#include <stdbool.h>
#include <stddef.h>
#include <stdint.h>

#ifdef __cplusplus
extern "C" {
#endif

/* A tree, a record or a saved interpreter, or nothing. */
typedef struct {
    void *at;
    bool live;
} tclsafe_handle;

/* What calls that evaluate answer; the others answer TCLSAFE_DONE where they did what they say. */
enum {
    TCLSAFE_DONE = 0,    /* it is done; of a script, by whatever code it completed */
    TCLSAFE_OPEN = 1,    /* a call left the tree, and waits for tclsafe_answer */
    TCLSAFE_STOPPED = 2, /* a limit of the root was met, or no step was left */
    TCLSAFE_EXITED = 3,  /* the script ended the run with a status */
    TCLSAFE_ENDED = 4,   /* tclsafe_replay: a call was answered by an end from outside */
    TCLSAFE_MISFIT = 5   /* tclsafe_replay: something didn't fit */
};

/* No limit of steps. */
#define TCLSAFE_NO_LIMIT UINT64_MAX

/* -- Trees ------------------------------------------------------------------------------------ */

/* Makes a tree of a root alone, trusted, with a host in memory, and puts it into a handle that
   holds nothing. Integer texts are read as Tcl 8 does (010 is 8) or as Tcl 9 does (010 is 10).
     422  the handle holds something            426  the version is neither 8 nor 9 */
int32_t tclsafe_new(tclsafe_handle *tree, int32_t version);

/* Frees what a handle holds, whatever its kind. It holds nothing from then on. */
void tclsafe_free(tclsafe_handle *handle);

/* Makes a child of this name in the interpreter at the path, safe or trusted; every child of a safe
   one is safe. A safe child has no command that reaches the host.
     238  no name of a command                  301  nobody stands at the path
     302  a command has that name               307  256 children are there
     424  a call is open */
int32_t tclsafe_create(tclsafe_handle *tree, const char *path, size_t path_length,
                       const char *name, size_t name_length, bool safe);

/* Deletes the child of this name of the interpreter at the path, with all below it.
     301  it isn't there                        424  a call is open */
int32_t tclsafe_delete(tclsafe_handle *tree, const char *path, size_t path_length,
                       const char *name, size_t name_length);

/* Makes a name of the interpreter at the path an alias: a call of it calls, in the interpreter at
   the path `target`, the command of the words, which are a list, with the words of the call behind
   them. Whether somebody stands there is looked at when it is called. An alias or another command
   that has the name goes.
     238  no name of a command                  301  nobody stands at the path
     302  a child has that name                 424  a call is open */
int32_t tclsafe_alias(tclsafe_handle *tree, const char *path, size_t path_length,
                      const char *name, size_t name_length,
                      const char *target, size_t target_length,
                      const char *words, size_t words_length);

/* Makes a name of the interpreter at the path an alias that leaves the tree: a call of it is open
   (TCLSAFE_OPEN) until tclsafe_answer, with the words, which are a list, and those of the call.
     238, 301, 302, 424  as tclsafe_alias */
int32_t tclsafe_alias_out(tclsafe_handle *tree, const char *path, size_t path_length,
                          const char *name, size_t name_length,
                          const char *words, size_t words_length);

/* Takes an alias of the interpreter at the path away.
     301  nobody stands at the path             305  the name is no alias
     424  a call is open */
int32_t tclsafe_alias_clear(tclsafe_handle *tree, const char *path, size_t path_length,
                            const char *name, size_t name_length);

/* -- Limits ----------------------------------------------------------------------------------- */

/* Gives the interpreter at the path a limit of steps, which its count of all its life may not pass,
   or none (TCLSAFE_NO_LIMIT). A step is a command that is called or a turn of a loop; those below
   an interpreter count in it too. Where the limit of a child is met, its script ends, which is an
   error to whoever called it.
     245  more than 9223372036854775807         301  nobody stands at the path
     304  it is the root                        424  a call is open */
int32_t tclsafe_set_limit(tclsafe_handle *tree, const char *path, size_t path_length,
                          uint64_t limit);

/* Gives the interpreter at the path a limit of the evaluations that may be in one another in it. A
   new child has 200, and the root 1000.
     301  nobody stands at the path             304  it is the root
     309  not from 1 to 1000                    424  a call is open */
int32_t tclsafe_set_depth_limit(tclsafe_handle *tree, const char *path, size_t path_length,
                                uint64_t limit);

/* How many steps the interpreter at the path has made; its limit of steps, TCLSAFE_NO_LIMIT where
   it has none; its limit of depth. They write the number where they answer 0.
     301  nobody stands at the path */
int32_t tclsafe_count(tclsafe_handle *tree, const char *path, size_t path_length,
                      uint64_t *count);
int32_t tclsafe_limit(tclsafe_handle *tree, const char *path, size_t path_length,
                      uint64_t *limit);
int32_t tclsafe_depth_limit(tclsafe_handle *tree, const char *path, size_t path_length,
                            uint64_t *limit);

/* -- Evaluation ------------------------------------------------------------------------------- */

/* Evaluates a script in the interpreter at the path, with at most so many steps in the whole tree.
   TCLSAFE_DONE, TCLSAFE_OPEN, TCLSAFE_STOPPED or TCLSAFE_EXITED; the tree is copied before, so that
   it is as before where a call is open, and after a refusal.
     401  memory was wanted; the host may have been asked for something before
     403  nobody stands at the path             404  the count would pass 9223372036854775807
     424  a call is open */
int32_t tclsafe_eval(tclsafe_handle *tree, const char *path, size_t path_length,
                     const char *script, size_t script_length, uint64_t limit);

/* The same, and what crosses the boundary of the interpreter at the path `watched` is recorded, for
   tclsafe_take_record.
     403  also where nobody stands at the path `watched` */
int32_t tclsafe_eval_watched(tclsafe_handle *tree, const char *path, size_t path_length,
                             const char *script, size_t script_length, uint64_t limit,
                             const char *watched, size_t watched_length);

/* The code with which the last evaluation completed (TCLSAFE_DONE): 0 ok, 1 error, 2 return,
   3 break, 4 continue, or another; its status (TCLSAFE_EXITED); else 0. */
int64_t tclsafe_code(tclsafe_handle *tree);

/* The result or the message of the last evaluation (TCLSAFE_DONE); which limit was met
   (TCLSAFE_STOPPED); the words of the call, a list (TCLSAFE_OPEN). Answers its length. */
size_t tclsafe_result(tclsafe_handle *tree, char *room, size_t size);

/* The options with which the last evaluation completed, a dictionary with -code, -level and, of an
   error, -errorcode; else empty. Answers its length. */
size_t tclsafe_options(tclsafe_handle *tree, char *room, size_t size);

/* -- Calls that left the tree ----------------------------------------------------------------- */

/* This library never calls back. A call of an alias that leaves the tree ends the evaluation with
   TCLSAFE_OPEN; the tree is as before the evaluation, and only reads, files, tclsafe_answer,
   tclsafe_abandon and tclsafe_free are served until it is answered. tclsafe_answer evaluates the
   script again from its beginning, on a copy, with all answers so far, on to its next call or its
   end. What the host was asked for is not asked again: its replies are kept and told again. So an
   evaluation with n calls costs the steps of n evaluations, and n calls cost n times n. A
   program in Rattle that calls out often has functions of its own (`tcl_functions`), for which its
   evaluation waits. */

/* Ends the open call by this code and this text: 0 and the result; 1 and the message of an error;
   2 as `return` of the text, 3 as `break`, 4 as `continue` of whoever called; or another code.
   Answers as tclsafe_eval.
     401  memory was wanted, and the evaluation is given up
     425  no call is open */
int32_t tclsafe_answer(tclsafe_handle *tree, int64_t code, const char *text, size_t text_length);

/* Gives up the evaluation whose call is open. The tree is as before it; what the host was asked for
   stays done.
     425  no call is open */
int32_t tclsafe_abandon(tclsafe_handle *tree);

/* The path of the interpreter whose call is open, a list; else empty. Answers its length. */
size_t tclsafe_caller(tclsafe_handle *tree, char *room, size_t size);

/* How many words the open call has, the words of its alias first; 0 where no call is open. */
size_t tclsafe_word_count(tclsafe_handle *tree);

/* A word of the open call, the first of which is 0; else an empty text. Answers its length. */
size_t tclsafe_word(tclsafe_handle *tree, size_t index, char *room, size_t size);

/* -- The host in memory ----------------------------------------------------------------------- */

/* Puts a file there that scripts can open, in the place of any that has its name. Its bytes may be
   any, and as many as there is memory for. */
int32_t tclsafe_put_file(tclsafe_handle *tree, const char *name, size_t name_length,
                         const char *bytes, size_t bytes_length);

/* What a file holds, which was put there or written by scripts, and its length.
     267  there is none of that name */
int32_t tclsafe_file(tclsafe_handle *tree, const char *name, size_t name_length,
                     char *room, size_t size, size_t *length);

/* Puts bytes at the end of what scripts can read from stdin. */
int32_t tclsafe_put_input(tclsafe_handle *tree, const char *bytes, size_t bytes_length);

/* What scripts wrote to stdout and to stderr, from the byte `from` on. Answers its length. */
size_t tclsafe_output(tclsafe_handle *tree, size_t from, char *room, size_t size);
size_t tclsafe_errors(tclsafe_handle *tree, size_t from, char *room, size_t size);

/* Puts a host with no files in place of the host; its channels, and what was written, go with it.
     424  a call is open */
int32_t tclsafe_renew_host(tclsafe_handle *tree);

/* -- Records and saved interpreters ----------------------------------------------------------- */

/* Takes the record of the last evaluation out of a tree, and puts it into a handle that holds
   nothing.
     411  the watched interpreter was deleted   422  the handle holds something
     424  a call is open                        427  it wasn't watched, or the record was taken */
int32_t tclsafe_take_record(tclsafe_handle *tree, tclsafe_handle *record);

/* The crossings of a record, a line for each, and their length. */
int32_t tclsafe_record_lines(tclsafe_handle *record, char *room, size_t size, size_t *length);

/* Copies the interpreter at the path with all below it, by itself, into a handle that holds
   nothing.
     403  nobody stands at the path             422  the handle holds something
     424  a call is open */
int32_t tclsafe_save(tclsafe_handle *tree, const char *path, size_t path_length,
                     tclsafe_handle *saved);

/* Plays what a record handed in to a saved interpreter by itself, with at most so many steps, and
   puts what it then is into the handle `after`, which holds nothing. TCLSAFE_DONE: all was used,
   and no call is open; TCLSAFE_OPEN: one is; TCLSAFE_STOPPED: no step was left; TCLSAFE_EXITED,
   TCLSAFE_ENDED, TCLSAFE_MISFIT.
     404  the count would pass 9223372036854775807
     412  a replay left it at an open call      422  the handle holds something */
int32_t tclsafe_replay(tclsafe_handle *saved, tclsafe_handle *record, uint64_t limit,
                       tclsafe_handle *after);

/* What an interpreter told in the replay that left it, a line for each, last what came of it, and
   the length of all.
     423  also where no replay left it */
int32_t tclsafe_replay_lines(tclsafe_handle *after, char *room, size_t size, size_t *length);

/* Whether two saved interpreters, in two handles, are equal in all that they have. */
int32_t tclsafe_same(tclsafe_handle *one, tclsafe_handle *other, bool *same);

/* -- Texts ------------------------------------------------------------------------------------ */

/* What is said of the refusal of that number; empty where none has it. Answers its length. */
size_t tclsafe_error_text(int32_t number, char *room, size_t size);

/* A text as one element of a list, and its length. Put paths, words and scripts together with it,
   where their texts come from somebody else. */
int32_t tclsafe_quote(const char *text, size_t text_length, char *room, size_t size,
                      size_t *length);

#ifdef __cplusplus
}
#endif

#endif
