/* The domain store: working memory that comes back after a fault exactly as it stood.
 *
 * A store lives in three buffers that the program lends to every call:
 *
 *   memory   64 * m bytes, m from 1 to 65,536: the working memory. Cell c is the 64 bytes from 64 * c on.
 *   bodies   64 * B bytes, B from 1 to 4,096: the kept copies of cells.
 *   table    36 + 6 * E words, E from 1 to 4,096: the contents.
 *
 * Every function takes any contents and any numbers. It returns DS_DONE, or DS_STOPPED where its budget stopped it, or else the number of the question
 * that refused it (DS_REFUSED_.., below); a refused call changes no byte of any buffer. Out parameters are set in every case, to 0 where there is
 * nothing to tell.
 *
 * A budget is the number of stores that a changing call may make; UINT64_MAX lets it finish. (A constant is fine over the boundary of this archive; do
 * not compile its code together with the program, where the compiler could see through it: docs/DECISIONS.md.) A call that was stopped, and a call in
 * which the program ended, is followed by ds_open on the same buffers, which finds it wholly made or not made. Two exceptions: a make that was cut may
 * leave no store; and a restore that was cut and is found not made may leave memory mixed in the cells that it was putting back. After ds_open restore
 * the same domain again, or one around it: going back to a domain inside it promises nothing until then.
 *
 * Stack of a call at the largest sizes: ds_make 5 KB; ds_create, ds_delete, ds_list, ds_look 74 KB;
 * ds_open, ds_restore 107 KB; ds_add, ds_add_ranges, ds_commit 108 KB; ds_advance 127 KB.
 *
 * What the caller owes, and no proof can see:
 *
 * - Each pointer points to so many elements (lengths are in elements, table_len in words), aligned for its type.
 * - No pointer is NULL, with one exception: a buffer of length 0 may be, and the call is then refused with DS_REFUSED_LENGTHS without looking at it.
 *   So may a list of ranges of length 0: the call is refused without looking at it, with
 *   DS_REFUSED_NUMBER_OF_RANGES where no earlier question refuses it.
 *   Out parameters (steps, handle, handles, count, place, offset, rule) are stored to by every call, refused ones too, so none of them is ever NULL.
 * - Buffers, out parameters and the list of ranges do not overlap. A pointer is to const where the call
 *   never stores into what it points to.
 * - One call at a time is made on a store, with nothing else storing into its buffers meanwhile.
 */
#ifndef DOMAIN_STORE_H
#define DOMAIN_STORE_H

#include <stddef.h>
#include <stdint.h>

#ifdef __cplusplus
extern "C" {
#endif

/* A call that was carried out. */
#define DS_DONE 0u

/* A call that was stopped by its budget: ds_open comes next. */
#define DS_STOPPED 255u

/* Why a call was refused: the first of these that holds, in this order (20 is asked after 6, 18 and 19
 * after 12). ds_add_ranges asks 7, 8, 11, 12, 18 and 19 of one range after the other, each as those
 * before it left the store, and then 16 and 17 once for all of them. */

/* A buffer's length is not allowed. */
#define DS_REFUSED_LENGTHS 1u
/* The table is no store's for buffers of these lengths. First see that they are the buffers that the store was made in, in their order and whole. Where
 * a store was made in them, the table is damaged: lend an intact copy of all three. Only where none was ever made in them, or a make was cut, ds_make is
 * due: it forgets whatever stands there. */
#define DS_REFUSED_NO_STORE 2u
/* A call was cut, and what it changes is still pending: ds_open first, then make this call again; the cut one is then made or not made. */
#define DS_REFUSED_PENDING 3u
/* The table is corrupt: lend an intact copy of all three buffers. */
#define DS_REFUSED_CORRUPT 4u
/* The handle names no live domain. */
#define DS_REFUSED_NO_SUCH_DOMAIN 5u
/* The domain is not the innermost. */
#define DS_REFUSED_NOT_INNERMOST 6u
/* A list of no ranges, or of more than 64. */
#define DS_REFUSED_NUMBER_OF_RANGES 20u
/* Kind is not 0 to 2, or label is not 0 or 1. */
#define DS_REFUSED_KIND_OR_LABEL 7u
/* The range of cells is empty or ends past memory. */
#define DS_REFUSED_RANGE 8u
/* Eight domains live already. */
#define DS_REFUSED_TOO_MANY_DOMAINS 9u
/* Every handle has been given out. */
#define DS_REFUSED_NO_HANDLE_LEFT 10u
/* Via parent: the parent does not hold a newly held cell, or there is no parent. */
#define DS_REFUSED_PARENT_LACKS_CELL 11u
/* Via parent: memory differs from the parent's value in a newly held cell. */
#define DS_REFUSED_MEMORY_DIFFERS 12u
/* By a rule: there is no such rule (it is above 3), or memory differs from the rule's bytes in a newly held cell. */
#define DS_REFUSED_PATTERN_DIFFERS 18u
/* Via parent: the parent holds a newly held cell by a rule, on which via parent never rests. Hold the cell by the same rule, or by copy. */
#define DS_REFUSED_PARENT_HOLDS_BY_RULE 19u
/* The domain does not hold a cell that is to be deleted. */
#define DS_REFUSED_NOT_HELD 13u
/* The next domain in holds, via this one, a cell that is to be deleted. */
#define DS_REFUSED_CHILD_RELIES 14u
/* Retired: no call answers 15 any more. It told that the parent did not hold every read-write cell of the domain that was to advance; such an
 * advance is done now if there is room, and gives the parent the changed cells that it lacks (ds_advance). No other number has moved, and this one is not
 * used again. */
#define DS_REFUSED_PARENT_LACKS_READ_WRITE 15u
/* Too few free entries for the new cells: in an advance one for each cell that is given to the parent. */
#define DS_REFUSED_NO_FREE_ENTRY 16u
/* Too few free bodies for the new copies: in an advance one for each read-write cell that changed. */
#define DS_REFUSED_NO_FREE_BODY 17u

/* Kinds and labels of ds_add, and of a range. */
#define DS_COPY 0u
#define DS_VIA_PARENT 1u
#define DS_PATTERN 2u
#define DS_READ_ONLY 0u
#define DS_READ_WRITE 1u

/* Rules of a pattern: what the 64 bytes of a cell are that is held with DS_PATTERN. */
/* All 0. */
#define DS_RULE_ZEROS 0u
/* All 255: every bit is one. */
#define DS_RULE_ONES 1u
/* Byte i is i. */
#define DS_RULE_INDEX 2u
/* 0, 0, 128, 63 over and over: sixteen little-endian floats of 1, a scale of one. */
#define DS_RULE_SCALE 3u

/* A range of cells for ds_add_ranges: five numbers, each as ds_add takes the one of this name. */
struct ds_range {
    uint32_t first;
    uint32_t count;
    uint32_t kind;
    uint32_t rule;
    uint32_t label;
};

/* Places of ds_look. */
#define DS_IN_MEMORY 1u
#define DS_IN_BODIES 2u
#define DS_BY_RULE 3u

/* Makes a fresh store: no domains, next handle 1, no entries. Whatever the table held before is gone once the first store is made. */
uint32_t ds_make(const uint8_t *memory, size_t memory_len, const uint8_t *bodies, size_t bodies_len, uint32_t *table, size_t table_len,
                 uint64_t budget, uint64_t *steps);

/* Opens a store after a cut: puts the pending pairs in place. Takes no step where nothing is pending. */
uint32_t ds_open(const uint8_t *memory, size_t memory_len, const uint8_t *bodies, size_t bodies_len, uint32_t *table, size_t table_len,
                 uint64_t budget, uint64_t *steps);

/* Adds a domain inside the innermost one. *handle is its handle; 0 where the call was not done (after a cut and ds_open,
 * ds_list tells whether it lives, and its handle). */
uint32_t ds_create(const uint8_t *memory, size_t memory_len, const uint8_t *bodies, size_t bodies_len, uint32_t *table, size_t table_len,
                   uint64_t budget, uint64_t *steps, uint32_t *handle);

/* Holds `count` cells from `first` on in the innermost domain, which `handle` names (0 means the innermost). A cell not yet held is held with memory's
 * bytes (DS_COPY), by the parent's value (DS_VIA_PARENT) or by a rule (DS_PATTERN), which takes no body: memory has to have the bytes of `rule`
 * (DS_RULE_..). Other kinds ignore `rule`. A cell already held keeps kind and value, and becomes read-write if the label is. */
uint32_t ds_add(const uint8_t *memory, size_t memory_len, uint8_t *bodies, size_t bodies_len, uint32_t *table, size_t table_len,
                uint32_t handle, uint32_t first, uint32_t count, uint32_t kind, uint32_t rule, uint32_t label, uint64_t budget,
                uint64_t *steps);

/* Holds several ranges of cells, `ranges_len` of them (1 to 64) from `ranges` on, each as ds_add does, and
 * all of them or none, also where the call was cut. They act in their order, so a later one finds the cells
 * that an earlier one has just taken: these keep kind and value of the first range that names them, and
 * become read-write if a later one is. Where one range is refused nothing changes. Ranges may touch,
 * overlap and stand in any order. Takes 64 steps for each new copy, 6 for each entry taken or made
 * read-write, and 2 for the call; none where there is no such entry. */
uint32_t ds_add_ranges(const uint8_t *memory, size_t memory_len, uint8_t *bodies, size_t bodies_len,
                       uint32_t *table, size_t table_len, uint32_t handle, const struct ds_range *ranges,
                       size_t ranges_len, uint64_t budget, uint64_t *steps);

/* Frees `count` cells from `first` on of the named domain, and of no other. */
uint32_t ds_delete(const uint8_t *memory, size_t memory_len, const uint8_t *bodies, size_t bodies_len, uint32_t *table, size_t table_len,
                   uint32_t handle, uint32_t first, uint32_t count, uint64_t budget, uint64_t *steps);

/* Ends the innermost domain: its cells go to the parent where that lacks them; where both hold a cell the parent's value stays, and its label becomes
 * read-write if the child's was. */
uint32_t ds_commit(const uint8_t *memory, size_t memory_len, const uint8_t *bodies, size_t bodies_len, uint32_t *table, size_t table_len,
                   uint32_t handle, uint64_t budget, uint64_t *steps);

/* Moves the innermost domain's point to now: every read-write cell takes memory's bytes. One whose value memory has no more takes them as a copy, in a
 * body that was free, which costs 70 steps, and 2 for the call. Where the parent lacks such a cell, it is given the cell as it was held, with kind, value
 * and label, in an entry that was free: the old body is then the parent's, and going back to the parent still brings what stood at its own point. That
 * costs 6 steps more. A cell that did not change is not given and keeps how it is held: it costs a comparison of 64 bytes, and no body, no entry and no
 * step. Where none changed, the call is done with 0 steps at every budget. */
uint32_t ds_advance(const uint8_t *memory, size_t memory_len, uint8_t *bodies, size_t bodies_len, uint32_t *table, size_t table_len,
                    uint32_t handle, uint64_t budget, uint64_t *steps);

/* Puts memory back: each cell held by the named domain or one inside it gets the value of the outermost of these holders. The domains inside are
 * ended. Where it was cut, see above. Where a channel is still bad after its restore, restore the cycle around it: with nothing written between the two,
 * that leaves the same memory, live domains, holdings and values as restoring the cycle alone; so it does where the first restore was cut and the store
 * opened. Restoring a domain twice is restoring it once. */
uint32_t ds_restore(uint8_t *memory, size_t memory_len, const uint8_t *bodies, size_t bodies_len, uint32_t *table, size_t table_len,
                    uint32_t handle, uint64_t budget, uint64_t *steps);

/* Lists the live domains: *count of them, their handles in `handles`, outermost first, with zeros after them. */
uint32_t ds_list(const uint8_t *memory, size_t memory_len, const uint8_t *bodies, size_t bodies_len, const uint32_t *table, size_t table_len,
                 uint32_t handles[8], uint32_t *count);

/* Tells where the 64 bytes stand that ds_restore of this handle would leave in this cell: *place is DS_IN_MEMORY or DS_IN_BODIES (0 where refused),
 * *offset the first of them in that buffer. Or they stand nowhere, since the cell is held by a rule: *place is DS_BY_RULE, *offset 0 and *rule the
 * rule's number (DS_RULE_..; 0 elsewhere). */
uint32_t ds_look(const uint8_t *memory, size_t memory_len, const uint8_t *bodies, size_t bodies_len, const uint32_t *table, size_t table_len,
                 uint32_t handle, uint32_t cell, uint32_t *place, uint64_t *offset, uint32_t *rule);

#ifdef __cplusplus
}
#endif

#endif
