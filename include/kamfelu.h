/* Kamfelu: LUT covers with moved registers; classes of three-input LUTs; captures of running units. docs/FORMATS.md
   explains net records and cover records. */
#ifndef KAMFELU_H
#define KAMFELU_H

#include <stddef.h>
#include <stdint.h>

#ifdef __cplusplus
extern "C" {
#endif

/* What holds for all functions:

   - An answer below 0 is minus the number of a refusal; kamfelu_class refuses nothing. Nothing is assumed of the
     contents of any argument.
   - Each pointer points to as many bytes as the length behind it says, for the whole call. A pointer may be NULL where
     its length is 0.
   - Areas that are written (cover, scratch, loader, contents) overlap no other area, and no other thread uses them
     during the call. Net, pairs and record are only read.
   - A call takes less than 256 KiB of the calling thread's stack.
   - The library keeps nothing between calls; calls on different areas may run at the same time.
   - A net record has at most 803 bytes. It may end with a section, the nodes' values before step 0, from which the bench
     program and the change-over start and forward map's contents come; bit 7 of its first byte says so. All other answers
     and areas are then those for the net without it.

   Refusals. Map checks 1 to 12, and 20 between 3 and 4 where a loader area is lent; forward map 1 to 11, 20 in the same
   way, then 21 where a contents area is lent, then 22; the change-over as forward map, and 3 where no contents area is
   lent; mark 1, 3 to 11 and 13 to 18, find root 19, align 23; the bench program 1, 4 to 11, then 21. The first that fails
   is told, of 4 to 8 the first met in one walk over the net's bytes.

    1  k is not 2 to 6.
    2  The target is above 32.
    3  The cover area has fewer than 962 bytes (map, forward map and change-over only), the scratch fewer than 65,536, a
       contents area is lent that has fewer than 20,592 (forward map and change-over only), or none is lent (change-over
       only).
    4  The net ends where a byte is still due.
    5  The number of inputs is not 1 to 16, that of gates not 1 to 32, or that of outputs not 1 to 16.
    6  A byte of the net has a value that its place forbids: a pin map that is 0 or above 63, a register map with a
       bit that the pin map lacks, a source that is no node, a count that is not 1 to 3, a table with spare bits set,
       an output's map above 1, a section byte above 7.
    7  A gate has more pins than k.
    8  Bytes follow the net's last output, or its section.
    9  A loop of gates has no register.
   10  Some gate is reached from no input.
   11  Some gate leads to no output.
   12  No cover meets the target.
   13  The record breaks the layout: it ends early, or bytes follow its last LUT; its period or its number of LUTs is
       not 1 to 32; a root is no gate, or is not above the root before it, as with two LUTs of one root; a LUT has no
       leaf, or more leaves than k; a leaf is no node, or the leaves do not rise by node and then by d, as with two
       equal leaves; a map has a bit for a leaf that is not there, or bit 7; a stored d or lag is 0; a table has spare
       bits set.
   14  The leaves of some LUT are no cut of its root.
   15  The table of some LUT is wrong.
   16  A gate that a leaf or an output reads has no LUT.
   17  Some connection has fewer than 0 registers.
   18  Some chain of LUTs without a register between them is longer than the period.
   19  The record ends or breaks its layout before a root that is not below the gate, or before its last LUT's end (find
       root only).
   20  A loader area is lent that has fewer than 256 bytes (map with a loader area, forward map and change-over only).
   21  A run or contents are wanted of a net without a section (bench, forward map and change-over only).
   22  No forward cover meets the target (forward map and change-over only).
   23  A capture has more than 4,096 words (align only). */

/* Map: a cover of a net for LUTs with k inputs that meets the target, or the least period for target 0.

   net      a net record
   k        2 to 6, else refusal 1
   target   1 to 32, or 0 for the least period; above 32: refusal 2
   cover    the cover area, at least 962 bytes, else refusal 3
   scratch  at least 65,536 bytes, else refusal 3

   Returns the length of the cover record, which then stands in front of the cover area; or minus the number of the
   refusal, and the cover area is as it was. Bytes behind the record are kept. After refusals 1 to 3 the scratch is as
   it was; after every other outcome its first 65,536 bytes are 0 and the rest is kept. -12 says that no cover meets the
   target. */
int64_t kamfelu_map(const uint8_t *net, size_t net_length, uint32_t k, uint32_t target, uint8_t *cover, size_t cover_length,
                    uint8_t *scratch, size_t scratch_length);

/* Map with a loader area: the same, and an image of the cover's tables for the chip's loader.

   net, k, target, cover, scratch   as for kamfelu_map
   loader                           the loader area, at least 256 bytes, else refusal 20; with length 0 none is lent, and
                                    the call is kamfelu_map

   Returns what kamfelu_map returns, and leaves the same in cover area and scratch. If a loader area is lent and the record
   has n LUTs (its second byte), the first 8 n bytes of the loader area are then the image: eight bytes for each LUT, in
   the record's order, the first byte lowest. Bit x of a LUT's 64 bits is bit x mod 2^m of its table, m being the number of
   its leaves: the table repeated until they are full, so that inputs 0 to m - 1 are its leaves and what stands on the
   others changes nothing. Bytes behind the image are kept, and all of the loader area after a refusal. Refusal 20 is told
   after 3 and before 4; the scratch's first 65,536 bytes are then 0. */
int64_t kamfelu_map_loader(const uint8_t *net, size_t net_length, uint32_t k, uint32_t target, uint8_t *cover,
                           size_t cover_length, uint8_t *scratch, size_t scratch_length, uint8_t *loader,
                           size_t loader_length);

/* Forward map: a forward cover of a net for LUTs with k inputs that meets the target, and what the registers of its board
   hold at first. A cover is forward if for each LUT its lag and the largest d of the gates inside it together are at most
   0: registers have moved forward only.

   net, k, cover, scratch   as for kamfelu_map
   target                   as for kamfelu_map; 0 asks for the least period that a forward cover meets
   loader                   as for kamfelu_map_loader; with length 0 none is lent
   contents                 the contents area, at least 20,592 bytes, else refusal 3; with length 0 none is lent. The net
                            then needs a section, else refusal 21

   Returns the length of the cover record, and leaves record, image and scratch as kamfelu_map_loader does; or minus the
   number of the refusal, and cover area, loader area and contents area are as they were. -22 says that no forward cover
   meets the target; it stands in place of -12, and 21 is told before it.

   If a contents area is lent, the first contents then stand in front of it: a byte 0 or 1 for each register, connection by
   connection, and of one connection the newest register first. Connections are the leaves of the record's LUTs, in its
   order, then the net's outputs, in their order, those that read an input too. A leaf u:d of a LUT with lag r has
   d + r - q registers and as many bytes, where q is the lag of the LUT with root u, or 0 if u is an input; an output that
   reads u through w registers in the net has w - q. Register i of a connection, 1 the newest, holds the value that u has
   in the net at step -i - q; below step 0 that is the section's. Bytes behind the contents are kept.

   A board that starts with these contents has at every step from 0 on, for all inputs, the outputs of the net that starts
   from its section. */
int64_t kamfelu_map_forward(const uint8_t *net, size_t net_length, uint32_t k, uint32_t target, uint8_t *cover,
                            size_t cover_length, uint8_t *scratch, size_t scratch_length, uint8_t *loader,
                            size_t loader_length, uint8_t *contents, size_t contents_length);

/* Change-over: forward map for a board that takes over from a running unit. The net first runs on input pairs from its
   section, and the contents are those of the step behind them.

   net, target, cover, scratch, loader   as for kamfelu_map_forward
   k                                     as for kamfelu_map_forward, the new board's
   pairs                                 two bytes for each step from 0 on, low first, input i in bit i; higher bits are
                                         ignored, and a lone last byte is no step. Any number of steps; the length is in
                                         bytes
   contents                              the contents area, at least 20,592 bytes, else refusal 3, with length 0 too. The
                                         net needs a section, else refusal 21

   Returns what kamfelu_map_forward with this contents area returns, and leaves the same in cover area, scratch and loader
   area: the pairs change no cover. A refusal leaves cover area, loader area and contents area as they were.

   The contents stand in front of the contents area in the same order, and as many. With T the number of whole pairs,
   register i of a connection, 1 the newest, holds the value that u has in the net at step T - i - q; below step 0 that is
   the section's. Where that is step T or later no input from step T on plays a part. Without a whole pair the call is
   kamfelu_map_forward. Bytes behind the contents are kept. The pairs are only read.

   A board that starts with these contents at step T has at every step from T on, for all inputs, the outputs of the net
   that ran on the pairs and goes on. */
int64_t kamfelu_change_over(const uint8_t *net, size_t net_length, uint32_t k, uint32_t target, const uint8_t *pairs,
                            size_t pairs_length, uint8_t *cover, size_t cover_length, uint8_t *scratch,
                            size_t scratch_length, uint8_t *loader, size_t loader_length, uint8_t *contents,
                            size_t contents_length);

/* Mark: whether a record is that of a cover of a net for LUTs with k inputs that meets the period it states, and by how
   much that period is above the least one.

   net      a net record
   k        2 to 6, else refusal 1
   record   the candidate's cover record
   scratch  at least 65,536 bytes, else refusal 3

   Returns the excess, the stated period minus the least period, 0 or more; or minus the number of the refusal: 4 to 11
   for the net, 13 to 18 for the record. After refusals 1 and 3 the scratch is as it was; after every other outcome its
   first 65,536 bytes are 0 and the rest is kept. Every record that kamfelu_map, kamfelu_map_forward or kamfelu_change_over
   writes is accepted for the same net and k. */
int64_t kamfelu_mark(const uint8_t *net, size_t net_length, uint32_t k, const uint8_t *record, size_t record_length,
                     uint8_t *scratch, size_t scratch_length);

/* Find root: whether a gate has a LUT in a stored cover record; no net is needed.

   record   a cover record
   g        the gate's number

   Returns the byte offset of the LUT's root in the record, at least 2; 0 if gate g has no LUT; or -19. Roots rise, so the
   record is read up to the first root that is not below g, and nothing behind that root is looked at. -19 says that the
   record ends or breaks the layout of refusal 13 before that root, or before its last LUT's end if there is no such root;
   leaf counts may be 1 to 6, roots and leaves any numbers, and bytes behind the last LUT do no harm. A record that
   kamfelu_mark accepts, for some net and k, is never answered by -19. The record is only read. No scratch is needed. */
int64_t kamfelu_find_root(const uint8_t *record, size_t record_length, uint16_t g);

/* Map and mark of the short course. k is 2 to 4, else refusal 1; a net has at most 8 gates, else refusal 5. All else is
   as for kamfelu_map and kamfelu_mark: where k is at most 4 and the net has at most 8 gates both courses give the same
   answer and leave the same bytes. */
int64_t kamfelu_short_map(const uint8_t *net, size_t net_length, uint32_t k, uint32_t target, uint8_t *cover,
                          size_t cover_length, uint8_t *scratch, size_t scratch_length);

int64_t kamfelu_short_mark(const uint8_t *net, size_t net_length, uint32_t k, const uint8_t *record, size_t record_length,
                           uint8_t *scratch, size_t scratch_length);

/* Class: the smallest table that a table of three leaves can be turned into by reordering leaves, inverting leaves and
   inverting the output. Bit i of a table is its value where leaf j carries bit j of i.

   Tables have the same class exactly when one can be turned into the other. There are 14 classes. */
uint8_t kamfelu_class(uint8_t table);

/* Align: two captures of one unit's outputs, one word a step, each begun at its own moment: by how many steps the second
   began after the first.

   first    words, at most 4,096, else refusal 23
   second   words, at most 4,096, else refusal 23

   Returns the smallest shift from 0 to 255 at which at least 16 steps overlap and all overlapping words agree, where
   word i of the second is held against word i + shift of the first; 256 if there is none; or -23. Lengths are in words.
   A capture without words may be NULL. Both are only read, and may overlap. No scratch is needed. */
int64_t kamfelu_align(const uint16_t *first, size_t first_length, const uint16_t *second, size_t second_length);

#ifdef __cplusplus
}
#endif

#endif
