/* Weszlagyo: a Fluent resolver whose every operation is proved.
 *
 * `tools/archive` proves these functions and writes
 * target/staticlib/libexports.a; link that. It needs nothing but memcpy and
 * memset of the C library, allocates nothing, keeps no pointer, and has no
 * state: calls on different slices may run at the same time.
 *
 * Every function answers 0 if it is done, or else the number of its refusal
 * (below, in the order in which they are met). It is proved that the answer,
 * the lent numbers and every lent byte are those of a written definition,
 * whatever bytes it is lent; there is nothing that a caller must have checked.
 * docs/01-scope.md has the layouts, docs/02-change-requests.md that of a sheet
 * (Card 1) and the order of arguments (Card 2).
 *
 * What the proof takes for granted of the caller, as of any C function:
 *  - a pointer and the length after it are a slice that is there, readable,
 *    and writable where the pointer is not const; for a length of 0 the
 *    pointer may be any that is not null;
 *  - a slice or number that is written overlaps no other one of the call;
 *  - there is stack enough: 64 KiB for the additions; for weszlagyo_format
 *    some kilobytes with ordinary messages, and 2.75 MiB with the deepest that
 *    are allowed (100 references inside each other, each nested to depth 32);
 *    for weszlagyo_format_sheet what its deepest message needs, within the
 *    same 2.75 MiB. rust/tests/stack measures them.
 */
#ifndef WESZLAGYO_H
#define WESZLAGYO_H

#include <stdbool.h>
#include <stddef.h>
#include <stdint.h>

#ifdef __cplusplus
extern "C" {
#endif

/* A new bundle at the front of a slice, whose later bytes stay as they are.
 *
 * locale: 0 en, 1 da, 2 ru, 3 cy. isolating: 1 sets placeables between U+2068
 * and U+2069, 0 does not.
 *
 * Refusals, which change nothing: 1 the slice is under 9 bytes; 2 locale above
 * 3; 3 isolating above 1. */
uint8_t weszlagyo_new(uint8_t *slice, size_t slice_length, uint8_t locale, uint8_t isolating);

/* Adds a resource image whose entries yield to those that have their ids.
 *
 * slice: a bundle's; the item is put after the others. list: gets the error
 * list, one Overriding record for each entry that yields, at its front; later
 * bytes stay. *count: gets the number of these records.
 *
 * Refusals, which change nothing, *count included: 4 the slice holds no
 * well-formed store; 5 the image is malformed; 6 no room: used length and item
 * above slice_length or 1,048,576, or 256 items; 7 the list is too short. */
uint8_t weszlagyo_add_resource(uint8_t *slice, size_t slice_length,
                               const uint8_t *image, size_t image_length,
                               uint8_t *list, size_t list_length,
                               size_t *count);

/* Adds a resource image whose entries take their ids.
 *
 * Refusals, which change nothing: 4, 5, 6 as for weszlagyo_add_resource. */
uint8_t weszlagyo_add_resource_overriding(uint8_t *slice, size_t slice_length,
                                          const uint8_t *image, size_t image_length);

/* Adds a function under an id (its bare bytes) that has no entry.
 *
 * code: 1 is NUMBER, and there is no other.
 *
 * Refusals, which change nothing: 4; 8 not an id (a letter, then letters,
 * digits, - and _; 1 to 255 bytes); 9 code is not 1; 10 the id has an entry;
 * 6. */
uint8_t weszlagyo_add_function(uint8_t *slice, size_t slice_length,
                               const uint8_t *id, size_t id_length,
                               uint8_t code);

/* Formats the value of a message, or an attribute of it.
 *
 * store: a bundle's slice, which is checked in every call. id, and attribute
 * where has_attribute is true: bare bytes. arguments: an arguments image, see
 * "Arguments in name order" below; none is 00 00 00 07 01 00 00. text, list:
 * get the text (UTF-8) and the error list at their front; later bytes stay. A
 * number in the text ends in a digit: a minimumFractionDigits of 0 writes no
 * dot, one above 0 a dot and zeros up to it. work: the workspace, zeros
 * afterwards.
 *
 * *written: bytes of text. *errors: errors in the list. *begun: placeables
 * begun, 0 to 101. *unfound: lookups of an id without an entry, for a reference
 * to a message, term or function. *used: the most bytes of work in use at a
 * time, exactly; see "Choosing a workspace" below.
 *
 * Refusals, which change nothing: 4 the store is malformed; 8 id, or the
 * attribute that is asked for, is not an id; 11 no such message; 12 no such
 * value or attribute; 13 the arguments are malformed; 19 they are not in order:
 * names not strictly ascending, or a scale above 0 with digits divisible by 10;
 * 7 list_length is under 5. Then, whichever comes first, and these fill text,
 * list and work with zeros and leave the five numbers: 15 text is too short; 7
 * list is too short; 16 work is too short; 17 minimumFractionDigits is above
 * 19. */
uint8_t weszlagyo_format(const uint8_t *store, size_t store_length,
                         const uint8_t *id, size_t id_length,
                         bool has_attribute,
                         const uint8_t *attribute, size_t attribute_length,
                         const uint8_t *arguments, size_t arguments_length,
                         uint8_t *text, size_t text_length,
                         uint8_t *list, size_t list_length,
                         uint8_t *work, size_t work_length,
                         size_t *written, size_t *errors, size_t *begun,
                         uint64_t *unfound, size_t *used);

/* Formats the messages of a sheet, one behind the other, in one call.
 *
 * store: a bundle's slice, which is checked once for the whole sheet. sheet: a
 * sheet image, the slice exactly that, at most 1,048,576 bytes: u32 whole
 * length, version 1 (a byte), u16 count, then for each message its Id (u16
 * length and bytes), an attribute Flag (0 or 1) and, where it is 1, the
 * attribute's Id, and an arguments image (which begins with its u32 length; see
 * "Arguments in name order" below). No message at all is 00 00 00 07 01 00 00.
 *
 * text: gets the joining of the texts that the messages give alone; list: the
 * joining of their records, under one header; both at their front, later bytes
 * stay. work: the workspace, which is empty at each message's start, zeros
 * afterwards.
 *
 * *written, *errors, *begun, *unfound: as of weszlagyo_format, and the sums
 * over the messages; the limit of 100 placeables is each message's own. *used:
 * exactly the largest of the messages'.
 *
 * Refusals, which change nothing: 4 the store is malformed; 18 the sheet is
 * malformed (of an arguments image only its length is judged, 7 to 65,536 and
 * inside the sheet); 7 list_length is under 5. Then message by message, the
 * first that one meets, and these fill text, list and work with zeros: 11 no
 * such message; 12 no such value or attribute; 13 its arguments are malformed;
 * 19 they are not in order, as of weszlagyo_format; 15, 7, 16 and 17 as there,
 * 15 and 7 by what the messages before left of text and list. No refusal
 * changes the five numbers. */
uint8_t weszlagyo_format_sheet(const uint8_t *store, size_t store_length,
                               const uint8_t *sheet, size_t sheet_length,
                               uint8_t *text, size_t text_length,
                               uint8_t *list, size_t list_length,
                               uint8_t *work, size_t work_length,
                               size_t *written, size_t *errors, size_t *begun,
                               uint64_t *unfound, size_t *used);

/* Arguments in name order.
 *
 * An arguments image, the slice exactly that, at most 65,536 bytes: u32 whole
 * length, version 1 (a byte), u16 count, then for each argument its name, an Id
 * (u16 length and bytes), and its value: 1 and a text (u16 length and UTF-8); 2
 * and a number (sign Flag, 1 for minus; u64 digits below 10^15; scale byte 0 to
 * 14: the digits over 10^scale); or 3, none. Any other is refused with 13.
 *
 * An image that is so is refused with 19 unless
 *  - the names stand in strictly ascending order: compared byte by byte, without
 *    their lengths, `a` before `ab`, and no name twice;
 *  - every number has the least scale that gives it: where the scale is above
 *    0, the digits are not divisible by 10, so 2.50 is 25 over 10; zero and
 *    minus zero have scale 0.
 * 13 is judged of the whole image first, and 19 directly after it. It is proved
 * that two images that are accepted, with the same names and values, are the
 * same bytes; zero and minus zero are two values. So sort the names, and drop
 * zeros at the end of a fraction, when an image is made.
 *
 * n = 2.5 is 00 00 00 15 01 00 01 00 01 6E 02 00 00 00 00 00 00 00 00 19 01. */

/* Choosing a workspace.
 *
 * In the workspace stand the texts of selectors and arguments, while they are
 * needed: what a message, a term, an inline placeable or a string literal with
 * a backslash gives there. *used is exactly the most bytes that were in use at
 * a time, as document 01 defines it, of a sheet the largest of its messages'.
 * It follows from store, id, attribute and arguments (from store and sheet),
 * and not from the buffers. It is proved that, text and list being as long,
 *  - with work_length *used, or more, all is the same: the answer, the five
 *    numbers, and every byte written to text and list; where *used is 0,
 *    work_length may be 0;
 *  - with any work_length below *used the call is refused with 16;
 *  - where *unfound is 0, no calls of weszlagyo_add_resource and
 *    weszlagyo_add_function on the store, done or refused, change *used, as
 *    they change nothing else of the formatting.
 * So format once with a long workspace, keep *used, and lend that from then on.
 *
 * Another message or attribute, other arguments, additions by
 * weszlagyo_add_resource_overriding and, where *unfound is above 0, any
 * additions may need a longer workspace. For a device take the largest over the
 * messages and arguments that it prints: one by one, or *used of a sheet of them
 * all. */

/* Isolation marks.
 *
 * A bundle that isolates sets what is filled in between U+2068 (E2 81 A8) and
 * U+2069 (E2 81 A9), so that a name in another script does not turn the
 * sentence around it; but not the only element of a pattern, nor a direct
 * string literal, message or term, as in fluent-bundle: give a name of its own
 * some text beside it. It is proved that they nest. Where no text element of the
 * store's resources (the entries that nothing finds included), no string
 * literal once its escapes are read, and no string argument contains either of
 * them, the text of every call of weszlagyo_format and weszlagyo_format_sheet
 * that answers 0 has them paired: no prefix of its *written bytes, or of the
 * Unicode scalars that these are, has more closing than opening marks, and the
 * whole has as many of each. That includes texts that are cut short at the
 * 101st placeable, and whole sheets.
 *
 * So look at the strings that are to be filled in (the bytes E2 81 A8 and
 * E2 81 A9 stand in UTF-8 for nothing else), and at a resource when it is made,
 * where a string literal may also have a mark as an escape (\u2069, \U002069):
 * a mark in either is written as it is read, and may close an isolate too early
 * or leave one open. Nothing is said of other directional characters; U+2066
 * and U+2067 open isolates that U+2069 closes, so a name that is to stay in its
 * isolate has none of these either. */

#ifdef __cplusplus
}
#endif

#endif
