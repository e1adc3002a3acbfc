/* Reading mail headers in the form of RFC 733, and address lists in that of RFC 822 too.
 *
 * Memory is lent as a pointer and a length; nothing is kept. A pointer may not be null, not even with the length 0.
 * The lent parts of one call may not overlap. `told` is an array of three: the answer's number, position and count, and
 * where said more numbers after them, of a symbol others after the position; of a shorter one the front is filled. A
 * refusal changes no byte of a table, text or path.
 *
 * Numbers: 0 accepted; 1 message over 32,768 bytes; 2 fault in a field name; 3 byte above 127; 4 header ends without CRLF;
 * 5 quoted-string not closed; 6 comment not closed; 7 stray control byte; 8 no list goes on with this symbol;
 * 9 body ends too soon; 10 level 65 opened; 11 too little room, the count says what is needed; 12 date of wrong form;
 * 13 positions out of order, or a touched place outside the body; 14 date of right form, impossible; 19 an Include leads
 * to no stored list; 20 a 65th opening of a stored list; 21 an edition other than 733 and 822; 23 domain literal not
 * closed, or with a bare "[" in it.
 */
#ifndef RFC733_H
#define RFC733_H

#include <stddef.h>
#include <stdint.h>

#ifdef __cplusplus
extern "C" {
#endif

/* The fields of a message: records of 8 bytes in the table, two bytes each, high byte first:
 * name start, name end, body start, body end. The count is the number of fields. */
void rfc733_split(const uint8_t *message, size_t message_length, uint8_t *table, size_t table_length,
                  uint64_t *told, size_t told_length);

/* Which known field name a name is, case ignored: 1 Date, 2 From, 3 Reply-To, 4 To, 5 cc, 6 Bcc; 0 any other. Stored in
 * `*compared`: how many known names were compared with it letter by letter, 1 if one has that length and, case ignored,
 * first letter, else 0. */
uint32_t rfc733_known_name(const uint8_t *name, size_t name_length, uint64_t *compared);

/* Scans the body of a message from start up to end: accepted, or its first fault. The count is 0. */
void rfc733_scan(const uint8_t *message, size_t message_length, size_t start, size_t end,
                 uint64_t *told, size_t told_length);

/* The next symbol of the body of a message up to end, at or after the position `at`. Told, seven numbers: number and
 * position of a fault, or 0 0; class: 1 atom, 2 quoted-string, 3 "@" or the atom "at" in any case of letters, 4 "<",
 * 5 ">", 6 ",", 7 ";", 8 ":", 9 any other, that is a lone ")" or backslash, 0 at the end of the body or with a fault;
 * start; end; length of the meaning in bytes, 1 for a special; 1 if white space, a fold too, or a comment stands right
 * before it, else 0. At the end of the body and with a fault the last five are 0.
 * Scanning begins at `at` as if the body began there: nothing before is looked at. To step through a body, begin at its
 * start and go on from the end of each symbol: what is told so is what the scan of the whole body tells, as is proved.
 * 1 comes first, then 13 (`at` after end, or end after the message), then a fault of scanning that is met before a
 * symbol is complete. */
void rfc733_next_symbol(const uint8_t *message, size_t message_length, size_t at, size_t end,
                        uint64_t *told, size_t told_length);

/* The address list in the body of a message from start up to end, by an edition, 733 or 822: records of 12 bytes in the
 * table: kind, depth, then two bytes each, high byte first: parent's record number plus 1 or 0, start, end, name start,
 * name end. The count is the number of addresses.
 * Edition 733, RFC 733: kind 1 mailbox, 2 angle list, 3 group, 4 quoted-string, 5 Include, 6 Postal, 7 other typed.
 * Edition 822, RFC 822: kind 1 local-part and domain, the local-part its name; 2 phrase and route-addr, with a kind 1 in
 * it, after any route; 3 group of mailboxes. Only this edition answers 23, at the literal's first "[", in scanning order
 * with 3, 5, 6 and 7; it never answers 10.
 * Any other edition is 21 at 0, tested after 1 and before 13. All other functions read by RFC 733. */
void rfc733_addresses(const uint8_t *message, size_t message_length, size_t start, size_t end, size_t edition,
                      uint8_t *table, size_t table_length, uint64_t *told, size_t told_length);

/* Edition 733 by a second reader, for a board with a small stack: no function of it calls itself, it keeps its levels in
 * an array, and takes as much stack at 64 levels as at one (measured: less than 4,096 bytes). For every message, positions
 * and table it gives the number, position, count and table bytes of rfc733_addresses with edition 733, which is proved. */
void rfc733_addresses_by_table(const uint8_t *message, size_t message_length, size_t start, size_t end,
                               uint8_t *table, size_t table_length, uint64_t *told, size_t told_length);

/* What the byte at a place of the address list from start up to end is, and the records around it. Told, five numbers:
 * number, position, count; what the byte is: 1 white space, 2 comment, 3 part of a word, 4 "at", 5 a bracket or mark, 0
 * with a refusal; and with 8, 9 or 10, wherever the body is touched, what could have stood at the refused place, a sum:
 * 1 word, 2 "at", 4 "<", 8 ">", 16 "@", 32 ",", 64 ";", 128 ":", 256 the end. A thing is in it exactly if some list of
 * at most 64 levels goes on with it there, or, for the end, if what stands before is such a list; which is proved.
 * The path: numbers, from 0, of the records of rfc733_addresses, edition 733, that cover the byte, from the last of them
 * to the outermost; the count tells how many, at most 65, and of a shorter path the front is filled. More than 2,048
 * records are 11, after that a place outside the body is 13. */
void rfc733_touch(const uint8_t *message, size_t message_length, size_t start, size_t end, size_t place,
                  uint64_t *path, size_t path_length, uint64_t *told, size_t told_length);

/* The date in the body of a message from start up to end: seconds from 1 January 1900, 00:00 GMT; 0 with a refusal. */
void rfc733_date(const uint8_t *message, size_t message_length, size_t start, size_t end,
                 uint64_t *told, size_t told_length, int64_t *seconds);

/* Writes plainly the address list in the body of a message from start up to end. The count is the text's length.
 * In a quoted-string a line end that a backslash takes, with white space after it, is data: CR and LF, each written
 * after a backslash of its own. Any other goes, and the white space after it stays.
 * Two lists have the same text exactly if they have the same addresses: kinds, nesting, names and nodes word by word,
 * case counting. A comment exchanged for another, at the same place of the body, changes neither acceptance nor text,
 * as long as the message stays within its limit. */
void rfc733_plain(const uint8_t *message, size_t message_length, size_t start, size_t end,
                  uint8_t *text, size_t text_length, uint64_t *told, size_t told_length);

/* Writes plainly the address list in the body of a message from start up to end, each Include in it replaced by a stored
 * list. The store is records of 512 bytes: 64 of name, padded with zeros, and 448 of list, padded with spaces; a tail
 * short of a record is ignored. An Include holds a mailbox or an angle list of mailboxes, with or without a phrase: the
 * first of these whose plain text is the name of a record, byte for byte, leads to its list, the lowest such record
 * winning. Lists are opened in text order and depth first, at most 64. No Include is left in the text, which is proved.
 * Told, four numbers: number, position, count, which is the text's length, and openings: the lists opened, with a refusal
 * at an Include those before it, with 11 all, with a refused body 0. A refused body has the number and position of
 * rfc733_plain. At one Include the order is: 19 (none found, another kind inside, or directly inside another typed
 * address); 20; the stored list's own number, with the record's number, from 0, as position; 10 (the levels open around
 * the Include and those of the list, its own Includes counted with what they hold, pass 64). The position of 19, 20 and
 * this 10 is that of the Include in the body that led there. 11 comes last. */
void rfc733_expand(const uint8_t *message, size_t message_length, size_t start, size_t end,
                   const uint8_t *store, size_t store_length, uint8_t *text, size_t text_length,
                   uint64_t *told, size_t told_length);

/* Which of two bodies to reply to: 0 for Reply-To's, 1 for From's. */
uint32_t rfc733_reply(const uint8_t *reply, size_t reply_length, const uint8_t *from, size_t from_length);

#ifdef __cplusplus
}
#endif

#endif
