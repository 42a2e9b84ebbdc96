/*
 * The ten functions of the proved archive (libabi.a), for C.
 *
 * A slice passes as a pointer and then a length, counted in its own numbers. A pointer must be
 * valid for that many numbers, aligned and not null, even with length 0; what can be written must
 * not overlap anything else lent. Nothing is kept after a call.
 *
 * Each function gives 0 or more, or minus the number of a refusal:
 *
 *   1  the card, its revision or its scan is unsound, or its offer is one that no Type 3 could leave
 *   2  a sheet is unsound
 *   3  the values are not 128, or one is out of range or off its step
 *   4  a word lent is above 256
 *   5  room too short
 *   6  the bytes are not one whole reply
 *   7  what is asked for isn't a heard message
 *   8  cards that can't share one pair: two alike, more than 32, or open messages that differ
 *
 * A refused call changes nothing lent. Nothing behind the last number written changes.
 *
 * A card is 23 numbers: 0 letter ('L' or 'R', with no parity), 1 address, 2 count of open characters,
 * 3 to 12 the characters (0 behind), 13 mark of an offer (1, or 0 for none), 14 its identifier, 15 its
 * value (0, 0 where there is none), 16 count of the identifiers that a query on ']' answers with (0, 4
 * or 5), 17 to 21 those identifiers in order, the same again allowed (what stands behind the count isn't
 * looked at), 22 the revision, 1 or 2. The first treats minus zero as zero, the second answers a Type 3 of
 * minus zero with 'N'; in all else they are alike. Another length, or numbers 0 to 12 or 22 that no sound
 * card has, is number 1 before the sheets are looked at. Numbers 13 to 21 that no sound offer or scan has
 * (a mark of 2, an identifier of 300, a mark of 0 with a value, a count of 3, a named identifier that has
 * no row or can't be read) are number 1 after the sheets: with an unsound sheet it is number 2. A row for
 * ']' in either sheet, whatever the card names, is number 1 in that place too. A served call writes back
 * numbers 2 to 15 and nothing else.
 * A sheet is 0 to 64 rows of six numbers: identifier, access (1 read only, 2 read and write, 3 write
 * only), decimals, step, least, greatest. Values are 128 numbers, one for each character code.
 * A Type 3 of minus zero (data 0000 with code 5 to 8) is another message than one of zero, and is written,
 * listed and kept in the normal form as such. No card replies with minus zero.
 */
#ifndef KAVTZIRON_H
#define KAVTZIRON_H

#include <stddef.h>
#include <stdint.h>

#ifdef __cplusplus
extern "C" {
#endif

#define KAV_CARD 23   /* numbers of a card */
#define KAV_CARDS 32  /* no bench has more cards */
#define KAV_VALUES 128 /* values */
#define KAV_ROW 6     /* numbers of a row */
#define KAV_ANSWER 15 /* numbers of an answer */
#define KAV_REPLY 33  /* no reply is longer, in bytes */
#define KAV_CAUSE 2   /* numbers of a cause */
#define KAV_LINE 35   /* no line of the listing is longer, in bytes */
#define KAV_NOTE 5    /* numbers of a note */
#define KAV_SHEET 384 /* no sheet has more numbers */
#define KAV_SETUP 7   /* numbers of an instrument's setup */
#define KAV_SILENCE 256 /* the word for a silence longer than the timeout */

/*
 * Why a word drew 'N' or silence. Codes 1 to 6 go with 'N', 7 to 10 with silence. For a message that is
 * heard, the first that holds of 7, 8, 1, 2, 3, 4, 5, 6 is given; 9 where the word closed no message, 10 where
 * the one it closed isn't well formed.
 */
#define KAV_CAUSE_NONE 0             /* the reply is 'A' or 'I' */
#define KAV_CAUSE_IDENTIFIER 1       /* no such identifier */
#define KAV_CAUSE_ACCESS 2           /* access forbids it */
#define KAV_CAUSE_DECIMALS 3         /* wrong decimals, Type 3 */
#define KAV_CAUSE_MINUS_ZERO 4       /* minus zero, Type 3, at a card of revision 2 */
#define KAV_CAUSE_RANGE 5            /* out of range, Type 3 */
#define KAV_CAUSE_LIMIT 6            /* at the limit, '+' and '-' */
#define KAV_CAUSE_OTHER_CARD 7       /* not for this card */
#define KAV_CAUSE_NO_OFFER 8         /* Type 4 without its offer */
#define KAV_CAUSE_NOT_CLOSED 9       /* no message closed by this word */
#define KAV_CAUSE_NOT_WELL_FORMED 10 /* the message closed isn't well formed, whatever its address */

/*
 * Takes one word. Gives the count of bytes replied into out; 0 is silence.
 * The card and the values are changed in their place. out: at least 33 bytes, whatever the card and the
 * word. cause: at least two numbers. A served call writes the code into cause[0], and into cause[1] the
 * position; what stands behind is left as it was. The position is that of the first character that no
 * well-formed message could have there after those before it, counted from 0 at the letter, the '*'
 * counting as a character: 1 to 9 with KAV_CAUSE_NOT_WELL_FORMED, 0 with every other code.
 * On ']', a Type 2 or 3 answered 'N' has KAV_CAUSE_ACCESS at a card with a scan and
 * KAV_CAUSE_IDENTIFIER at one without; a Type 4 for the card has KAV_CAUSE_NO_OFFER.
 * Refused with 1 (card), 2, 1 (offer and scan), 3, 4, 5, in this order; a cause shorter than two is number
 * 5, behind all the others.
 */
int64_t kav_step(int32_t *card, size_t card_length,
                 const int32_t *bench, size_t bench_length,
                 const int32_t *maker, size_t maker_length,
                 int32_t *values, size_t values_length,
                 uint16_t word,
                 uint8_t *out, size_t out_length,
                 int32_t *cause, size_t cause_length);

/*
 * Takes words until all are taken or the next word's reply no longer fits in out, which isn't a
 * refusal. Gives 0, with counts[0] words taken and counts[1] bytes written.
 * Refused with 1 (card), 2, 1 (offer and scan), 3, 4, and 5 where counts is shorter than two.
 */
int64_t kav_run(int32_t *card, size_t card_length,
                const int32_t *bench, size_t bench_length,
                const int32_t *maker, size_t maker_length,
                int32_t *values, size_t values_length,
                const uint16_t *words, size_t words_length,
                uint8_t *out, size_t out_length,
                uint64_t *counts, size_t counts_length);

/*
 * The same, and a note of every word taken that closed a message, in order, at the front of notes. A note is five numbers:
 * the place of that word among the words lent, from 0; how many characters the message had before its '*'; how
 * many bytes were replied, 0 for silence; and the cause's code and position, as kav_step gives them for that word.
 * Gives 0, with counts[0] words taken, counts[1] bytes written and counts[2] messages noted.
 * Refused as kav_run is, and then with 5 where notes has fewer than five numbers for each word lent, or counts is
 * shorter than three.
 */
int64_t kav_trace(int32_t *card, size_t card_length,
                  const int32_t *bench, size_t bench_length,
                  const int32_t *maker, size_t maker_length,
                  int32_t *values, size_t values_length,
                  const uint16_t *words, size_t words_length,
                  uint8_t *out, size_t out_length,
                  uint64_t *notes, size_t notes_length,
                  uint64_t *counts, size_t counts_length);

/*
 * The same as kav_run for several cards on one pair, none to 32, with one pair of sheets for all: cards holds their
 * rows back to back, values 128 numbers for each card in the same order. Every word goes to every card,
 * and at most one replies. Where its reply no longer fits in out, no card takes the word; that isn't a
 * refusal. Gives 0, with counts[0] words taken and counts[1] bytes written, whoever wrote them: letter and
 * address of a reply say who spoke. Every card's row is written back as by kav_run. With no card every
 * word is taken and nothing written.
 * Refused with, in this order: 1 where the length of cards isn't that of whole rows, or a card by itself is
 * unsound, those behind the 32nd too; 8 where two cards have the same letter and the same address, whatever
 * else they have, where there are more than 32, or where not all have the same message open; 2; 1 (offers
 * and scans of all cards); 3 where the values are not 128 for each card, or a card's break the rules; 4; and
 * 5 where counts is shorter than two.
 */
int64_t kav_bus_run(int32_t *cards, size_t cards_length,
                    const int32_t *bench, size_t bench_length,
                    const int32_t *maker, size_t maker_length,
                    int32_t *values, size_t values_length,
                    const uint16_t *words, size_t words_length,
                    uint8_t *out, size_t out_length,
                    uint64_t *counts, size_t counts_length);

/*
 * Writes the messages heard in a recording in their normal form, one byte to a word. Gives the
 * count of words written, never more than the recording has: an out as long as words is always room
 * enough. No shorter recording is heard as the same messages in the same order, and no other as short.
 * Refused with 4, 5.
 */
int64_t kav_normal_form(const uint16_t *words, size_t words_length,
                        uint16_t *out, size_t out_length);

/*
 * Writes one message in bytes with parity. kind is the body's first character: '?', '+', '-', '#'
 * or 'I'; '?' with identifier '?' is Type 1. number, decimals and minus_zero count for '#' alone.
 * minus_zero is 1 for minus zero and otherwise 0; any other, or 1 beside a number that isn't 0, is number 7.
 * Gives the count of bytes written, at most 11. Refused with 7, 5.
 */
int64_t kav_write(uint8_t letter, uint32_t address, uint8_t identifier, uint8_t kind,
                  int32_t number, uint32_t decimals, uint32_t minus_zero,
                  uint8_t *out, size_t out_length);

/*
 * Reads one whole reply. Gives 15, with answer holding letter, address, identifier, 'A', 'I' or 'N',
 * count of numbers (0, 1, or 4 or 5 of a scan), and five pairs: a number in units of its last decimal, and
 * its decimals (0, 0 behind the count). A reply with minus zero is number 6. Refused with 6, and 5 where
 * answer is shorter than fifteen.
 */
int64_t kav_read(const uint8_t *bytes, size_t bytes_length,
                 int32_t *answer, size_t answer_length);

/*
 * Writes one line of the listing, line feed included, in plain ASCII; at is the position of the
 * message's '*'. Parameters as for kav_write. Gives the count of bytes written, at most 35.
 * Refused with 7, 5.
 */
int64_t kav_line(uint64_t at,
                 uint8_t letter, uint32_t address, uint8_t identifier, uint8_t kind,
                 int32_t number, uint32_t decimals, uint32_t minus_zero,
                 uint8_t *out, size_t out_length);

/*
 * Copies the row of an identifier: the bench sheet's where it has one, otherwise the maker's. Gives
 * 6, or 0 where there is no row or a sheet is unsound. A row shorter than six is refused with 5.
 */
int64_t kav_lookup(const int32_t *bench, size_t bench_length,
                   const int32_t *maker, size_t maker_length,
                   uint8_t identifier,
                   int32_t *row, size_t row_length);

/*
 * An instrument of the makers' manuals: 1 is the DCP 100 controller, 2 the DCP 100 programmer, 3 the UDI 1500.
 * Gives the count of its sheet's numbers (168, 132, 114), with these at the front of sheet, its 128 initial values at
 * the front of values, and at the front of setup seven numbers: its letter, and numbers 16 to 21 of a card, the count of
 * its scan's identifiers (5, 0, 5) and five of them, 0 behind the count. Lent as the maker's sheet with these values, a card
 * with this letter and scan, any address from 1 to 99 and either revision isn't refused.
 * Any other number gives 0 whatever the room, and nothing is written. Refused with 5 where sheet, values or setup is
 * too short.
 */
int64_t kav_model(uint32_t model,
                  int32_t *sheet, size_t sheet_length,
                  int32_t *values, size_t values_length,
                  int32_t *setup, size_t setup_length);

#ifdef __cplusplus
}
#endif

#endif
