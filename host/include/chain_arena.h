/* The proved calls of the chain arena, for C and C++ on x86-64 Linux. `bash archives OUT` writes the archives into the folder
 * OUT. docs/REFERENCE.md is the manual; the sections named below in brackets are its own. Licence: MIT OR Apache-2.0, NOTICE.
 *
 * An arena is lent as five slices of words, each a pointer and an element count. Slot s has index s - 1 in the columns:
 *   prev, next   the neighbours of a link, 0 for none; the next of a free slot is the freelist pointer
 *   generation   the generation of a link; 0 in a free slot
 *   payload      the user's word
 * The header is four words: stack length, link count, freelist root (0 for none), current generation. (Arena)
 *
 * A pointer is a slot and a generation. It is good if that slot of the stack has a link of that very generation, else it is
 * stale. (Pointers and generations)
 *
 * Each C pointer must be aligned for its elements and good for as many of them as its count says, and must not be null,
 * also where the count is 0. Slices of one call must not overlap where the call writes to one of them. Nothing is asked of
 * the words: every call ends and answers on any columns, any header and any arguments.
 *
 * Every result begins with its number, and that of a call on an arena with two words more (Replies):
 *   number   0: done; 100: done, and the generation overflowed; any other: refused, and why
 *   broken   with number 11 the lowest slot at which rule 11 fails, else 0
 *   side     with number 11 where it fails there, CHAIN_ARENA_SIDE_..: 1 at the prev, 2 at the next alone (with 1 the next
 *            may be wrong too); else 0
 * Every call on an arena begins with the check, which goes over the whole stack, and gives its refusal, 1 to 11. A refused
 * call has written nothing, and the further words of its result are 0; only a step answers its state, as it got it.
 *
 * The numbers (Numbers). A constant CHAIN_ARENA_REFUSED_.. stands below for each refusal, CHAIN_ARENA_DONE for 0 and
 * CHAIN_ARENA_OVERFLOWED for 100.
 *  number  name                  of every call, and from 1 on of calls on an arena; a call named below a meaning gives it too:
 *       0  DONE                  nothing is wrong: done
 *       1  SHAPE                 two columns differ in length or are longer than 1,048,576, or the header has not four words
 *                                  small_arena
 *       2  CURRENT_GENERATION    the current generation is 0 or 1
 *       3  OVER_CAPACITY         the stack length or the link count exceeds the capacity
 *       4  LINK_COUNT            the link count differs from how many links the stack has
 *       5  ROOT                  there is a root but no free slot, or a free slot but no root
 *       6  FREELIST_ZERO         the freelist names 0 where it must name a slot
 *       7  FREELIST_ABOVE_STACK  the freelist names a slot above the stack
 *       8  FREELIST_LINK         the freelist names a link
 *       9  FREELIST_ENDLESS      the freelist has no end, that is no slot that points at itself
 *      10  FREELIST_INCOMPLETE   the freelist ends and has missed a free slot
 *      11  BROKEN_LINK           a link names a neighbour that is above the stack or free, or does not name it in turn
 *  number  name                  of some calls, which are named below the meaning:
 *      12  STALE_POINTER         a pointer is stale: in its slot there is no link, or one of another generation
 *                                  get_link, get_link_no_gen, walk_start, due_count, due_events, connect, break_prev,
 *                                  break_next, exchange_next, remove, drain; in the answers of run
 *      13  NEIGHBOR              a neighbour is in the way, or one is missing
 *                                  connect, break_prev, break_next, exchange_next; in the answers of run
 *      14  SLICE_LENGTH          the slice to be filled is too short, or the where-from column has not the columns'
 *                                length
 *                                  due_events, drain, run, compress_with, compress_canonical, small_arena
 *      15  GENERATION_TOO_LOW    generation 0 or 1 was to be set
 *                                  set_generation
 *      16  COMMAND               the command words are no whole commands, or a code or a kind of insertion is unknown
 *                                  insert, run; in the answers of run
 *      17  LINK_REQUIREMENT      what a kind of insertion asks does not hold, or one of its pointers is stale
 *                                  insert; in the answers of run
 *      18  NOT_WITHIN_CAPACITY   there is no room for a link: every slot of the columns holds one
 *                                  insert; in the answers of run
 *      19  OUT_OF_FRAME          out of the frame: a dot is over 89,341, a window's end over 89,342, or a line over 261
 *                                  line_of_dot, line_dots, due_count, due_events
 *     100  OVERFLOWED            nothing is wrong: done, and the current generation overflowed
 *                                  remove, inc_generation, compress_with, compress_canonical; in the answers of run
 */
#ifndef CHAIN_ARENA_H
#define CHAIN_ARENA_H

#include <stddef.h>
#include <stdint.h>

/* The numbers; the table above tells what each means. */
#define CHAIN_ARENA_DONE                         0u
#define CHAIN_ARENA_REFUSED_SHAPE                1u
#define CHAIN_ARENA_REFUSED_CURRENT_GENERATION   2u
#define CHAIN_ARENA_REFUSED_OVER_CAPACITY        3u
#define CHAIN_ARENA_REFUSED_LINK_COUNT           4u
#define CHAIN_ARENA_REFUSED_ROOT                 5u
#define CHAIN_ARENA_REFUSED_FREELIST_ZERO        6u
#define CHAIN_ARENA_REFUSED_FREELIST_ABOVE_STACK 7u
#define CHAIN_ARENA_REFUSED_FREELIST_LINK        8u
#define CHAIN_ARENA_REFUSED_FREELIST_ENDLESS     9u
#define CHAIN_ARENA_REFUSED_FREELIST_INCOMPLETE  10u
#define CHAIN_ARENA_REFUSED_BROKEN_LINK          11u
#define CHAIN_ARENA_REFUSED_STALE_POINTER        12u
#define CHAIN_ARENA_REFUSED_NEIGHBOR             13u
#define CHAIN_ARENA_REFUSED_SLICE_LENGTH         14u
#define CHAIN_ARENA_REFUSED_GENERATION_TOO_LOW   15u
#define CHAIN_ARENA_REFUSED_COMMAND              16u
#define CHAIN_ARENA_REFUSED_LINK_REQUIREMENT     17u
#define CHAIN_ARENA_REFUSED_NOT_WITHIN_CAPACITY  18u
#define CHAIN_ARENA_REFUSED_OUT_OF_FRAME         19u
#define CHAIN_ARENA_OVERFLOWED                   100u

/* The sides of a link, as the word side has them. */
#define CHAIN_ARENA_SIDE_PREV 1u
#define CHAIN_ARENA_SIDE_NEXT 2u

/* The frame: how many lines it has, how many dots each of them has, and how many dots that makes. Lines and dots are counted
 * from 0. A payload is due in a window if it is a dot of the frame, not before the window's start and before its end, which
 * may be CHAIN_ARENA_FRAME_DOTS. An end before the start makes a window that crosses the end of the frame; equal ends make
 * an empty one. (Frame clock) */
#define CHAIN_ARENA_FRAME_LINES 262u
#define CHAIN_ARENA_FRAME_LINE_DOTS 341u
#define CHAIN_ARENA_FRAME_DOTS 89342u

/* How many words a column may have at most: the check refuses longer ones. (Arena) */
#define CHAIN_ARENA_CAPACITY_LIMIT 1048576u

/* How many words the header, a command, the item of a drain and the item of an order-preserving compression have. */
#define CHAIN_ARENA_HEADER_WORDS 4u
#define CHAIN_ARENA_COMMAND_WORDS 6u
#define CHAIN_ARENA_DRAIN_WORDS 5u
#define CHAIN_ARENA_COMPRESS_WORDS 4u

/* The codes of commands; chain_arena_run tells what each does. The kinds of insertion below are codes too. */
#define CHAIN_ARENA_COMMAND_CONNECT 1u
#define CHAIN_ARENA_COMMAND_BREAK_PREV 2u
#define CHAIN_ARENA_COMMAND_BREAK_NEXT 3u
#define CHAIN_ARENA_COMMAND_EXCHANGE_NEXT 4u
#define CHAIN_ARENA_COMMAND_REMOVE 5u

/* The kinds of insertion. A kind names links, p and q, by pointers, which must be good; or, if it ends in INX, by slots, which
 * must hold links, and no generation is looked at. (Insert)
 *   kind                names   asks beside that               the new link stands
 *   DISCONNECTED                                               alone
 *   SINGLE_LINK_CYCLIC                                         alone, its own prev and next
 *   CHAIN_END           p       p has no next                  behind p
 *   CHAIN_START         p       p has no prev                  before p
 *   NEXT_TO             p                                      between p and its next, if it has one
 *   PREV_TO             p                                      between p and its prev, if it has one
 *   AT_INTERLINK        p, q    the next of p is q             between p and q
 *   BRIDGE              p, q    p has no next, q has no prev   between p and q */
#define CHAIN_ARENA_INSERT_DISCONNECTED 6u
#define CHAIN_ARENA_INSERT_SINGLE_LINK_CYCLIC 7u
#define CHAIN_ARENA_INSERT_CHAIN_END 8u
#define CHAIN_ARENA_INSERT_CHAIN_END_INX 9u
#define CHAIN_ARENA_INSERT_CHAIN_START 10u
#define CHAIN_ARENA_INSERT_CHAIN_START_INX 11u
#define CHAIN_ARENA_INSERT_NEXT_TO 12u
#define CHAIN_ARENA_INSERT_NEXT_TO_INX 13u
#define CHAIN_ARENA_INSERT_PREV_TO 14u
#define CHAIN_ARENA_INSERT_PREV_TO_INX 15u
#define CHAIN_ARENA_INSERT_AT_INTERLINK 16u
#define CHAIN_ARENA_INSERT_AT_INTERLINK_INX 17u
#define CHAIN_ARENA_INSERT_BRIDGE 18u
#define CHAIN_ARENA_INSERT_BRIDGE_INX 19u

#ifdef __cplusplus
extern "C" {
#endif

/* The answer of a call that answers a number and nothing else. */
typedef struct chain_arena_plain_result {
    uint32_t number;
    uint32_t broken;
    uint32_t side;
} chain_arena_plain_result;

/* A link with its neighbours' generations; a neighbour that is not there has slot 0 and generation 0. */
typedef struct chain_arena_link_result {
    uint32_t number;
    uint32_t broken;
    uint32_t side;
    uint32_t prev;
    uint32_t prev_generation;
    uint32_t next;
    uint32_t next_generation;
    uint32_t payload;
} chain_arena_link_result;

/* A link, as it is or as it was before it was removed; slot 0 where there is no neighbour. */
typedef struct chain_arena_link_no_gen_result {
    uint32_t number;
    uint32_t broken;
    uint32_t side;
    uint32_t prev;
    uint32_t next;
    uint32_t payload;
} chain_arena_link_no_gen_result;

/* Whether two links are neighbours: 1 or 0. */
typedef struct chain_arena_neighbors_result {
    uint32_t number;
    uint32_t broken;
    uint32_t side;
    uint32_t yes;
} chain_arena_neighbors_result;

/* The state of a walk: the slot it began at, the slot that the next step will answer (0: the walk is over), the direction
 * (0: along next, any other word: along prev), and how many more steps may advance. Any words are a state. */
typedef struct chain_arena_walk_result {
    uint32_t number;
    uint32_t broken;
    uint32_t side;
    uint32_t start;
    uint32_t position;
    uint32_t direction;
    uint32_t left;
} chain_arena_walk_result;

/* What a step answers, slot 0 and generation 0 for none, and the state after it. */
typedef struct chain_arena_step_result {
    uint32_t number;
    uint32_t broken;
    uint32_t side;
    uint32_t slot;
    uint32_t generation;
    uint32_t start;
    uint32_t position;
    uint32_t direction;
    uint32_t left;
} chain_arena_step_result;

/* How many links a drain removed, and which of them, counted from 1, made the generation overflow; 0 if none did. */
typedef struct chain_arena_drain_result {
    uint32_t number;
    uint32_t broken;
    uint32_t side;
    uint32_t items;
    uint32_t overflowed;
} chain_arena_drain_result;

/* The pointer of a link that was inserted. */
typedef struct chain_arena_insert_result {
    uint32_t number;
    uint32_t broken;
    uint32_t side;
    uint32_t slot;
    uint32_t generation;
} chain_arena_insert_result;

/* The line of a dot. */
typedef struct chain_arena_line_result {
    uint32_t number;
    uint32_t line;
} chain_arena_line_result;

/* The first and the last dot of a line. */
typedef struct chain_arena_line_dots_result {
    uint32_t number;
    uint32_t first;
    uint32_t last;
} chain_arena_line_dots_result;

/* How many links of a chain are due. */
typedef struct chain_arena_due_result {
    uint32_t number;
    uint32_t broken;
    uint32_t side;
    uint32_t count;
} chain_arena_due_result;

/* Whether there is a small arena of the index, 1 or 0, and its stack length: how many words of each column are its own. */
typedef struct chain_arena_small_arena_result {
    uint32_t number;
    uint32_t found;
    uint32_t length;
} chain_arena_small_arena_result;

/* Level One: liblevel_one.a */

/* Whether the arena can be worked with: 0, else the first rule that fails, 1 to 11. (Check) */
chain_arena_plain_result chain_arena_check(
    const uint32_t *prev, size_t prev_len,
    const uint32_t *next, size_t next_len,
    const uint32_t *generation, size_t generation_len,
    const uint32_t *payload, size_t payload_len,
    const uint32_t *header, size_t header_len);

/* The link at p and its neighbours with their generations. 12: p is stale. (Reading) */
chain_arena_link_result chain_arena_get_link(
    const uint32_t *prev, size_t prev_len,
    const uint32_t *next, size_t next_len,
    const uint32_t *generation, size_t generation_len,
    const uint32_t *payload, size_t payload_len,
    const uint32_t *header, size_t header_len,
    uint32_t p_slot, uint32_t p_generation);

/* The link at p. 12: p is stale. */
chain_arena_link_no_gen_result chain_arena_get_link_no_gen(
    const uint32_t *prev, size_t prev_len,
    const uint32_t *next, size_t next_len,
    const uint32_t *generation, size_t generation_len,
    const uint32_t *payload, size_t payload_len,
    const uint32_t *header, size_t header_len,
    uint32_t p_slot, uint32_t p_generation);

/* Whether the next of p_prev is p_next; 0 if one of them is stale. */
chain_arena_neighbors_result chain_arena_are_neighbors(
    const uint32_t *prev, size_t prev_len,
    const uint32_t *next, size_t next_len,
    const uint32_t *generation, size_t generation_len,
    const uint32_t *payload, size_t payload_len,
    const uint32_t *header, size_t header_len,
    uint32_t p_prev_slot, uint32_t p_prev_generation, uint32_t p_next_slot, uint32_t p_next_generation);

/* A walk that begins at p. 12: p is stale. (Walk) */
chain_arena_walk_result chain_arena_walk_start(
    const uint32_t *prev, size_t prev_len,
    const uint32_t *next, size_t next_len,
    const uint32_t *generation, size_t generation_len,
    const uint32_t *payload, size_t payload_len,
    const uint32_t *header, size_t header_len,
    uint32_t p_slot, uint32_t p_generation);

/* One step of a walk: the link at the position, or none, and the state after it. A walk goes from its start to the end of
 * the chain, then from the link before the start back to the beginning; a closed chain is gone round once. */
chain_arena_step_result chain_arena_walk_step(
    const uint32_t *prev, size_t prev_len,
    const uint32_t *next, size_t next_len,
    const uint32_t *generation, size_t generation_len,
    const uint32_t *payload, size_t payload_len,
    const uint32_t *header, size_t header_len,
    uint32_t start, uint32_t position, uint32_t direction, uint32_t left);

/* The line of a dot of the frame. 19: the frame has no such dot. (Frame clock) */
chain_arena_line_result chain_arena_line_of_dot(
    uint32_t dot);

/* The first and the last dot of a line of the frame. 19: the frame has no such line. (Frame clock) */
chain_arena_line_dots_result chain_arena_line_dots(
    uint32_t line);

/* How many links of p's chain are due in the window from a dot up to, but not including, another one or the end of the frame.
 * 12: p is stale; 19: the frame has no such window. (Frame clock) */
chain_arena_due_result chain_arena_due_count(
    const uint32_t *prev, size_t prev_len,
    const uint32_t *next, size_t next_len,
    const uint32_t *generation, size_t generation_len,
    const uint32_t *payload, size_t payload_len,
    const uint32_t *header, size_t header_len,
    uint32_t p_slot, uint32_t p_generation, uint32_t from, uint32_t to);

/* Writes the slots of those links into the report, in the order of a walk from p, and answers how many they are. 12: p is
 * stale; 19: the frame has no such window; 14: the report has fewer words than the chain has links, due or not.
 * (Frame clock) */
chain_arena_due_result chain_arena_due_events(
    const uint32_t *prev, size_t prev_len,
    const uint32_t *next, size_t next_len,
    const uint32_t *generation, size_t generation_len,
    const uint32_t *payload, size_t payload_len,
    const uint32_t *header, size_t header_len,
    uint32_t p_slot, uint32_t p_generation, uint32_t from, uint32_t to,
    uint32_t *report, size_t report_len);

/* Level Two: liblevel_two.a */

/* Makes p_next the next of p_prev. First 12 or 13: p_prev is stale, or has a next; then 12 or 13: p_next is stale, or has a
 * prev. (Connect) */
chain_arena_plain_result chain_arena_connect(
    uint32_t *prev, size_t prev_len,
    uint32_t *next, size_t next_len,
    const uint32_t *generation, size_t generation_len,
    const uint32_t *payload, size_t payload_len,
    const uint32_t *header, size_t header_len,
    uint32_t p_prev_slot, uint32_t p_prev_generation, uint32_t p_next_slot, uint32_t p_next_generation);

/* Parts the link at p from the one before it. 12: p is stale; 13: there is none. (Break) */
chain_arena_plain_result chain_arena_break_prev(
    uint32_t *prev, size_t prev_len,
    uint32_t *next, size_t next_len,
    const uint32_t *generation, size_t generation_len,
    const uint32_t *payload, size_t payload_len,
    const uint32_t *header, size_t header_len,
    uint32_t p_slot, uint32_t p_generation);

/* Parts the link at p from the one after it. 12: p is stale; 13: there is none. (Break) */
chain_arena_plain_result chain_arena_break_next(
    uint32_t *prev, size_t prev_len,
    uint32_t *next, size_t next_len,
    const uint32_t *generation, size_t generation_len,
    const uint32_t *payload, size_t payload_len,
    const uint32_t *header, size_t header_len,
    uint32_t p_slot, uint32_t p_generation);

/* Gives each of the links at p0 and p1 the other one's next. 12: one is stale; 13: one has no next. (Exchange) */
chain_arena_plain_result chain_arena_exchange_next(
    uint32_t *prev, size_t prev_len,
    uint32_t *next, size_t next_len,
    const uint32_t *generation, size_t generation_len,
    const uint32_t *payload, size_t payload_len,
    const uint32_t *header, size_t header_len,
    uint32_t p0_slot, uint32_t p0_generation, uint32_t p1_slot, uint32_t p1_generation);

/* Inserts a link with a payload where the kind says, CHAIN_ARENA_INSERT_.., and answers its pointer. A pointer that the kind
 * does not name is ignored. The slot is the freelist's root, or the one after the stack if no slot is free; the generation
 * is the current one, which stays. 16: there is no such kind; 17: what it asks does not hold; 18: there is no room.
 * (Insert) */
chain_arena_insert_result chain_arena_insert(
    uint32_t *prev, size_t prev_len,
    uint32_t *next, size_t next_len,
    uint32_t *generation, size_t generation_len,
    uint32_t *payload, size_t payload_len,
    uint32_t *header, size_t header_len,
    uint32_t kind,
    uint32_t p_slot, uint32_t p_generation, uint32_t q_slot, uint32_t q_generation,
    uint32_t new_payload);

/* Takes the link at p out, joins its neighbours, raises the generation (100: it overflowed) and answers what the link was.
 * 12: p is stale. (Remove) */
chain_arena_link_no_gen_result chain_arena_remove(
    uint32_t *prev, size_t prev_len,
    uint32_t *next, size_t next_len,
    uint32_t *generation, size_t generation_len,
    uint32_t *payload, size_t payload_len,
    uint32_t *header, size_t header_len,
    uint32_t p_slot, uint32_t p_generation);

/* Removes all links of p's chain in the order of a walk from p. The report gets five words for each: slot, generation, prev
 * and next when its turn comes, payload. 12: p is stale; 14: the report is too short. (Drain) */
chain_arena_drain_result chain_arena_drain(
    uint32_t *prev, size_t prev_len,
    uint32_t *next, size_t next_len,
    uint32_t *generation, size_t generation_len,
    uint32_t *payload, size_t payload_len,
    uint32_t *header, size_t header_len,
    uint32_t p_slot, uint32_t p_generation,
    uint32_t *report, size_t report_len);

/* Sets the current generation. 15: it was to be 0 or 1. (Generation) */
chain_arena_plain_result chain_arena_set_generation(
    const uint32_t *prev, size_t prev_len,
    const uint32_t *next, size_t next_len,
    const uint32_t *generation, size_t generation_len,
    const uint32_t *payload, size_t payload_len,
    uint32_t *header, size_t header_len,
    uint32_t new_generation);

/* Raises the current generation. 100: it overflowed, from 4,294,967,295 to 2. (Generation) */
chain_arena_plain_result chain_arena_inc_generation(
    const uint32_t *prev, size_t prev_len,
    const uint32_t *next, size_t next_len,
    const uint32_t *generation, size_t generation_len,
    const uint32_t *payload, size_t payload_len,
    uint32_t *header, size_t header_len);

/* Pops the free slots above the highest link and links the others in rising order from the root on. (Freelist) */
chain_arena_plain_result chain_arena_canonicalize_freelist(
    uint32_t *prev, size_t prev_len,
    uint32_t *next, size_t next_len,
    uint32_t *generation, size_t generation_len,
    uint32_t *payload, size_t payload_len,
    uint32_t *header, size_t header_len);

/* Applies a list of edits after one check. A command is six words: its code, slot and generation of two pointers, a payload.
 *   1         connect: the link at the first becomes the prev of the link at the second
 *   2         break prev, at the first
 *   3         break next, at the first
 *   4         exchange next, of both
 *   5         remove the link at the first
 *   6 to 19   insert a link with the payload; the code is the kind, CHAIN_ARENA_INSERT_.., the first is p, the second q
 * Words that an edit does not need are ignored. The answer word of a command is the number that the edit's own call would
 * give, or 16 for an unknown code. After a command that is refused the next one is applied all the same. A run does not
 * answer where a link was inserted: in the slot that was the root when its turn came, or where there was no root in the slot
 * after the stack, with the current generation; so later commands can name it. Of the whole run
 * 16: the number of command words is not divisible by six; 14: there are more commands than answer words. (Run) */
chain_arena_plain_result chain_arena_run(
    uint32_t *prev, size_t prev_len,
    uint32_t *next, size_t next_len,
    uint32_t *generation, size_t generation_len,
    uint32_t *payload, size_t payload_len,
    uint32_t *header, size_t header_len,
    const uint32_t *commands, size_t commands_len,
    uint32_t *answers, size_t answers_len);

/* Level Three: liblevel_three.a */

/* Moves the links into the first slots and keeps their order. The report gets four words for each link: its slot and
 * generation before, and its slot and generation afterwards. The generation is raised (100: it overflowed), but stays if
 * there is no link; if reset is not 0 it becomes 2. 14: the report is too short. (Order-preserving compression) */
chain_arena_plain_result chain_arena_compress_with(
    uint32_t *prev, size_t prev_len,
    uint32_t *next, size_t next_len,
    uint32_t *generation, size_t generation_len,
    uint32_t *payload, size_t payload_len,
    uint32_t *header, size_t header_len,
    uint32_t reset,
    uint32_t *report, size_t report_len);

/* Lays the chains out from slot 1 on, one behind the other, each along next. The where-from column gets the slot that each
 * link had before, then zeros for the other slots that the stack had. The generation is raised (100: it overflowed), but
 * stays if there is no link; if reset is not 0 it becomes 2. 14: the where-from column has not the columns' length.
 * (Canonical compression) */
chain_arena_plain_result chain_arena_compress_canonical(
    uint32_t *prev, size_t prev_len,
    uint32_t *next, size_t next_len,
    uint32_t *generation, size_t generation_len,
    uint32_t *payload, size_t payload_len,
    uint32_t *header, size_t header_len,
    uint32_t reset,
    uint32_t *where_from, size_t where_from_len);

/* Small arenas: libsmall_arenas.a */

/* Writes the small arena of an index, 0 to 89, at the front of the columns and into the header: found is 1, and length is its
 * stack length. Lend the header and the columns on with length as their count; the words behind stay. With an index over 89
 * found is 0 and nothing is written. It is no call on an arena: no word that was there is looked at.
 * A small arena passes the check; its stack has at most three slots and fills the columns; its links and its header have
 * generation 2; the payload of a link is its slot; and what nobody reads is 0. The shorter stack comes first, then the lower
 * root; after that the words of slot 1, 2 and 3 decide, of each slot generation before prev and prev before next.
 * 1: two columns differ in length or are longer than 1,048,576, or the header has not four words; 14: there is such an arena,
 * and its stack is longer than the columns. (Small arenas) */
chain_arena_small_arena_result chain_arena_small_arena(
    uint32_t *prev, size_t prev_len,
    uint32_t *next, size_t next_len,
    uint32_t *generation, size_t generation_len,
    uint32_t *payload, size_t payload_len,
    uint32_t *header, size_t header_len,
    uint32_t index);

#ifdef __cplusplus
}
#endif

#endif
