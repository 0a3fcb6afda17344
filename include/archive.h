/*
 * A ticket archive on write-once media, as a library of proved functions.
 *
 * The archive is two runs of 32-bit words that the caller owns and lends to each call:
 *
 *   table   ARCHIVE_TABLE_WORDS words. It says which servers there are, their weights and how many entries of each are
 *           used, keeps the archive's salt, and counts for each tenant the servers that its lookups opened. archive_start makes
 *           one; the caller keeps it from call to call, and may store it and lend it again later. archive_encode turns it into
 *           an image, a shorter form to be stored or carried, and archive_decode turns an image into a table.
 *   medium  the discs, as one run of words. Server k has ARCHIVE_SERVER_WORDS(capacity) words from
 *           k * ARCHIVE_SERVER_WORDS(capacity) on. Before its server is added every word must be ARCHIVE_BLANK.
 *
 * No function allocates, keeps a pointer, or touches anything but the words it is lent. A run is passed as a pointer and the
 * number of its words; the pointer must not be null, even for no words. Runs that a call writes to must not overlap others.
 * Two calls at the same time must not share a table or a medium that one of them writes to. Lookups and batches write to the
 * table, since they count there what they open: up to version 3 two of them could share a table at the same time, and from
 * version 4 on they must not. They only read the medium, and may share it.
 *
 * Nothing here needs to be checked beforehand: every function ends for every table, medium and argument, and refuses by a
 * number what it cannot do. A refused call leaves table and medium as they were, with one exception: a lookup that opened servers
 * and then was refused, by ARCHIVE_NOT_FOUND or ARCHIVE_CORRUPT, is counted in the table.
 */
#ifndef ARCHIVE_H
#define ARCHIVE_H

#include <stddef.h>
#include <stdint.h>

#ifdef __cplusplus
extern "C" {
#endif

/*
 * The version of this interface. It grows when a signature or an encoding changes or a function is added; archive_abi() answers
 * the library's own. The number of a call or of a refusal never gets another meaning. Version 2 has tenants: word 1 of a call, an
 * argument of archive_lookup_batch, and refusal 11. Version 3 has a salt: an argument of archive_start, archive_replay and
 * archive_picks, and word 1 of the table. Version 2 filed as salt 0 does: its tables are those of version 3 once a 0 is put in
 * after their first word. Version 4 has counters: eight words more at the end of the table, which lookups and
 * archive_lookup_batch change, so that the latter takes a table that it may write to. The tables of version 3 are those of
 * version 4 once eight zeros are put after their last word. Version 5 has images: archive_encode, archive_decode, and refusals 12
 * and 13. Nothing of version 4 changed: its tables, calls and replies are those of version 5. Version 6 has archive_call_some,
 * with word 6 of its call, and archive_recover. A write or a delete now burns its marks lowest first, where it burned those of
 * the highest server first: what it leaves is the same. The tables, calls and replies of version 5 are those of version 6.
 */
#define ARCHIVE_ABI 6u

/* How many words a table, a call and a reply have. */
#define ARCHIVE_TABLE_WORDS 1035u
#define ARCHIVE_CALL_WORDS 8u
#define ARCHIVE_REPLY_WORDS 8u

/* A word of the medium that was never written. */
#define ARCHIVE_BLANK 0xFFFFFFFFu

/* How many words of the medium a server has, by the table's capacity: the entries of each server, 1 to 65,536. */
#define ARCHIVE_SERVER_WORDS(capacity) ((size_t)3 * (size_t)(capacity))

/* The most servers, entries of a server, and ids of a batch; ids, values and salts are below ARCHIVE_CONTENT_RANGE. */
#define ARCHIVE_MAX_SERVERS 256u
#define ARCHIVE_MAX_CAPACITY 65536u
#define ARCHIVE_MAX_IDS 256u
#define ARCHIVE_CONTENT_RANGE 1073741824u

/*
 * Several tenants share an archive. An id belongs to the tenant that the top three of its 30 bits say, 0 to 7: tenant t has the
 * ids from t * 2^27 up to but not including (t + 1) * 2^27. A call that names an id says which tenant makes it, and is refused
 * for another tenant's id.
 */
#define ARCHIVE_TENANTS 8u
#define ARCHIVE_TENANT_OF(id) ((uint32_t)(id) >> 27)

/*
 * The table counts for each tenant how many servers its lookups opened: word ARCHIVE_TABLE_COUNTERS + t is the counter of tenant
 * t, and the caller may read it between calls. A counter begins at 0. Each lookup adds what its reply has as OPENED to the
 * counter of the tenant that makes it, and a batch adds what each of its replies has; no other call changes a counter. A counter
 * stops at ARCHIVE_MAX_COUNTER and stays there. No call brings one above it, and a table that has one is unsound. In a sound
 * table the counters have no bearing on any reply, on the medium or on the other words of the table.
 */
#define ARCHIVE_TABLE_COUNTERS 1027u
#define ARCHIVE_MAX_COUNTER 1073741823u

/*
 * An image is what counts of a sound table, as a run of words to be kept on the caller's disc from one run of a program to the
 * next, or carried elsewhere with the medium. The servers that were never added are not in it, so that a table of few servers has
 * a short one. The top two bits of each word are its tag, and the low 30 its content:
 *
 *   tag 0 capacity, tag 1 salt;
 *   for each server, from server 0 on: tag 1 weight, tag 2 entries used, tag 0 and tag 1 the numerator and the denominator of the
 *   fraction that says which ids are looked for there;
 *   tag 2 the counter of each tenant, from tenant 0 on.
 *
 * How many servers there are is told by the length alone: the image of a table of `count` servers has ARCHIVE_IMAGE_WORDS(count)
 * words, and that of 256 servers has the most. Words whose number, tags or contents are no sound table's are refused as a whole,
 * by ARCHIVE_BAD_IMAGE. This tells most damage, such as a word that was lost, moved or put in the place of another. It is no
 * checksum: a counter that was changed to another counter makes the image of another table. In which order the bytes of a word
 * are stored is up to the caller.
 *
 * Calls take tables and no images: a table that is lent has the layout of archive_start, and words that are stored in that layout
 * may still be lent again.
 */
#define ARCHIVE_IMAGE_WORDS(count) ((size_t)10 + (size_t)4 * (size_t)(count))
#define ARCHIVE_MAX_IMAGE_WORDS 1034u

/*
 * A call is eight words. The number, word 0, says which of the others count; those that do not count are not read.
 *
 *   number               TENANT   SUBJECT   AMOUNT   what it does, and what its reply has
 *   ARCHIVE_ADD_SERVER                      weight   adds a server; SERVER is its number, 0 for the first, then 1 and so on
 *   ARCHIVE_REWEIGHT              server    weight   sets a server's weight (its share of new writes); SERVER is that server
 *   ARCHIVE_WRITE        tenant   id        value    writes; SERVER is where it went, INVALIDATED how many earlier entries of
 *                                                    the id it marked as replaced
 *   ARCHIVE_DELETE       tenant   id                 deletes; INVALIDATED is how many entries it marked as deleted
 *   ARCHIVE_LOOKUP       tenant   id                 looks up; VALUE is the value last written, OPENED how many servers were
 *                                                    opened, which the tenant's counter grows by, also where the lookup is
 *                                                    refused after it opened them
 *
 * Word ARCHIVE_CALL_BURNS counts for archive_call_some alone. The other words are for later calls. A number that is no call's
 * gets ARCHIVE_NO_CALL and changes nothing.
 *
 * A write burns the word of its value, then that of its id, then the marks; a delete burns its marks alone. The marks go lowest
 * server first, and within a server lowest entry first. So a writer that burns one word after another may be cut off anywhere, as
 * by a power failure: see archive_recover.
 */
#define ARCHIVE_ADD_SERVER 1u
#define ARCHIVE_REWEIGHT 2u
#define ARCHIVE_WRITE 3u
#define ARCHIVE_DELETE 4u
#define ARCHIVE_LOOKUP 5u

/* Which word of a call is which. */
#define ARCHIVE_CALL_NUMBER 0
#define ARCHIVE_CALL_TENANT 1
#define ARCHIVE_CALL_SUBJECT 2
#define ARCHIVE_CALL_AMOUNT 3
#define ARCHIVE_CALL_BURNS 6

/* Which word of a reply is which. A word that the call does not carry is 0. */
#define ARCHIVE_REPLY_REFUSAL 0
#define ARCHIVE_REPLY_SERVER 1
#define ARCHIVE_REPLY_VALUE 2
#define ARCHIVE_REPLY_OPENED 4
#define ARCHIVE_REPLY_INVALIDATED 5

/*
 * Refusal numbers, each with the word that the paper has for it. 0 is no refusal: the call was carried out. Of several that apply
 * the lowest is given, but for 11, which is tested right after 2. Only archive_decode gives 12, and only archive_encode 13.
 */
#define ARCHIVE_ACCEPTED 0u
#define ARCHIVE_UNSOUND_TABLE 1u      /* foreign table: its words are no table that calls can have made */
#define ARCHIVE_OUT_OF_RANGE 2u       /* out of range: a capacity, salt, weight, tenant, id or value, or a list of over 256 ids */
#define ARCHIVE_NO_SUCH_SERVER 3u     /* no such shelf: no server has that number, or there is none at all */
#define ARCHIVE_TOO_MANY_SERVERS 4u   /* rack full: there are 256 servers already */
#define ARCHIVE_SHORT_MEDIUM 5u       /* short medium: the medium has too few words for the servers */
#define ARCHIVE_SERVER_FULL 6u        /* shelf full: the server that the write goes to has no entry left */
#define ARCHIVE_NOT_BLANK 7u          /* not blank: a word that would be written, or a new server's, is not blank */
#define ARCHIVE_NOT_FOUND 8u          /* absent: the id was never written, or was deleted since */
#define ARCHIVE_EXCEEDS_FREE 9u       /* over free: the weight is more than the server has free entries */
#define ARCHIVE_CORRUPT 10u           /* damaged: the value word found is no value */
#define ARCHIVE_OTHER_TENANT 11u      /* another club's ticket: the id belongs to another tenant than the caller */
#define ARCHIVE_BAD_IMAGE 12u         /* bad sheet: the words are no sound table's image */
#define ARCHIVE_SHORT_DESTINATION 13u /* destination short: the run has too few words for the image */

/* Numbers that no call gives. */
#define ARCHIVE_SHORT 4294967294u     /* a run that was lent is too short; nothing was done */
#define ARCHIVE_NO_CALL 4294967295u   /* word 0 of a call is no call's number; nothing was done */

/* The version of the library's interface, to be compared with ARCHIVE_ABI. */
uint32_t archive_abi(void);

/* How many words a table has, to be compared with ARCHIVE_TABLE_WORDS. */
size_t archive_table_words(void);

/*
 * Makes a table of no server, whose servers will have `capacity` entries each, and whose counters are 0.
 * The salt is a number of the caller's choice, below ARCHIVE_CONTENT_RANGE, that is added to every id where the rule says which
 * servers it may go to. Two archives with different salts file the same ids differently, so that the ids that crowd a server of
 * one do not all crowd the same server of the other; salts drawn at random serve best. 0 is the plain rule. The table keeps the
 * salt for all later calls.
 * Answers ARCHIVE_ACCEPTED; ARCHIVE_OUT_OF_RANGE for a capacity of 0 or above 65,536 or a salt of ARCHIVE_CONTENT_RANGE or more,
 * and the table is then all zeros, on which every call is refused; or ARCHIVE_SHORT.
 */
uint32_t archive_start(uint32_t capacity, uint32_t salt, uint32_t *table, size_t table_words);

/*
 * Runs one call and stores its reply.
 * Answers the reply's refusal number, or ARCHIVE_SHORT if table, call or reply have too few words: then no word is changed.
 */
uint32_t archive_call(uint32_t *table, size_t table_words,
                      uint32_t *medium, size_t medium_words,
                      const uint32_t *call, size_t call_words,
                      uint32_t *reply, size_t reply_words);

/*
 * Runs one write or delete with a number of burns, word ARCHIVE_CALL_BURNS of the call: it makes that many of the call's burns,
 * first to last, and all where there are no more. The reply is that of archive_call, whatever the number is, with what it has as
 * INVALIDATED. Where burns are left over, the table is as lent; where none is, this is archive_call. With it a caller can try
 * what a writer that is cut off leaves.
 * It also tells the order of the burns: the n-th is the word in which n - 1 and n burns differ, each made on a copy of the same
 * words. In which order one call stores its words in memory is left to the compiler.
 * Answers the reply's refusal number; ARCHIVE_NO_CALL for any other call; or ARCHIVE_SHORT if table, call or reply have too few
 * words: then no word is changed.
 */
uint32_t archive_call_some(uint32_t *table, size_t table_words,
                           uint32_t *medium, size_t medium_words,
                           const uint32_t *call, size_t call_words,
                           uint32_t *reply, size_t reply_words);

/*
 * Sets from the medium how many entries of each server are used: one past the last that has a word which is not blank. No other
 * word of the table is changed, and the medium is only read.
 * It is to be called, before any other call, where a write or a delete was cut off between its burns or in one of them, with the
 * table as it was before that call. The word that was being burned may then be blank, right, or any word but ARCHIVE_BLANK whose
 * top two bits are ones; the words burned before it must stand, and those after it be blank. From then on the id of a write that
 * was cut off shows its old answer or the new value, that of a delete its old answer or none, and every other id its own. An
 * entry that such a write left not wholly blank stays used. Where no call was cut off, archive_recover changes nothing.
 * Answers ARCHIVE_ACCEPTED; ARCHIVE_UNSOUND_TABLE; ARCHIVE_SHORT_MEDIUM; or ARCHIVE_SHORT, if `table` has too few words. Unless
 * it is accepted, no word is changed.
 */
uint32_t archive_recover(uint32_t *table, size_t table_words,
                         const uint32_t *medium, size_t medium_words);

/*
 * Looks up to 256 ids up together for one tenant, and opens each server at most once for all of them. Repeats are allowed.
 * replies  eight words for each id, in the order of the ids: what ARCHIVE_LOOKUP alone would reply to this tenant
 * order    one word for each id: the positions in the list, in the order in which they are found, server by server
 * mounts   one word: how many different servers were opened
 * The table is left as those lookups, made one after another, would leave it: the tenant's counter grows by the sum of what the
 * replies have as OPENED, not by the mounts, and stops at ARCHIVE_MAX_COUNTER. No other word of it is changed.
 * Answers ARCHIVE_ACCEPTED, whatever the ids' own refusals are; ARCHIVE_OUT_OF_RANGE, or ARCHIVE_UNSOUND_TABLE, for a list of
 * more than 256 ids; or ARCHIVE_SHORT. Unless it is accepted, no word of any run is changed.
 */
uint32_t archive_lookup_batch(uint32_t *table, size_t table_words,
                              const uint32_t *medium, size_t medium_words,
                              uint32_t tenant,
                              const uint32_t *ids, size_t ids_words,
                              uint32_t *replies, size_t replies_words,
                              uint32_t *order, size_t order_words,
                              uint32_t *mounts, size_t mounts_words);

/*
 * Runs a list of calls, eight words each, one after another on a new table of this capacity and salt, and stores their replies.
 * Answers how many were run: as many as both `calls` and `replies` have room for, and none if the capacity or the salt is out of
 * range.
 */
size_t archive_replay(uint32_t capacity, uint32_t salt,
                      const uint32_t *calls, size_t calls_words,
                      uint32_t *medium, size_t medium_words,
                      uint32_t *replies, size_t replies_words);

/*
 * The same on a table that is lent, and that has the table after the calls afterwards.
 * Answers how many were run; none if the table has too few words.
 */
size_t archive_resume(uint32_t *table, size_t table_words,
                      const uint32_t *calls, size_t calls_words,
                      uint32_t *medium, size_t medium_words,
                      uint32_t *replies, size_t replies_words);

/*
 * Where writes would go: for each id the server that the rule picks among servers of these weights in an archive with this salt.
 * No table, no medium.
 * Answers how many servers were stored: as many as both `ids` and `servers` have room for, and none if there is no weight,
 * there are more than 256, one is above 65,536, or the salt is ARCHIVE_CONTENT_RANGE or more.
 */
size_t archive_picks(const uint32_t *weights, size_t weights_words,
                     uint32_t salt,
                     const uint32_t *ids, size_t ids_words,
                     uint32_t *servers, size_t servers_words);

/*
 * Writes the image of a table to the front of `image`, and how many words it has to the first word of `length`: they are
 * ARCHIVE_IMAGE_WORDS of the number of servers, and ARCHIVE_MAX_IMAGE_WORDS words have room for every image. The words of both
 * runs after these keep their content. What the table has for servers that were never added is not read.
 * Answers ARCHIVE_ACCEPTED; ARCHIVE_UNSOUND_TABLE; ARCHIVE_SHORT_DESTINATION if the table is sound and `image` has too few words;
 * or ARCHIVE_SHORT, if `table` or `length` has. Unless it is accepted, no word of any run is changed.
 */
uint32_t archive_encode(const uint32_t *table, size_t table_words,
                        uint32_t *image, size_t image_words,
                        uint32_t *length, size_t length_words);

/*
 * Reads a table from an image. The run `image` is all of it, no word more or less, so its length says how many servers there are.
 * The table answers every call as the one that the image was made of, and has zeros for servers that were never added; the words
 * after it keep their content. The image read is made of it again by archive_encode.
 * Answers ARCHIVE_ACCEPTED; ARCHIVE_BAD_IMAGE if the words are no sound table's image, and the table is then all zeros, on which
 * every call is refused; or ARCHIVE_SHORT, if `table` has too few words: then no word is changed.
 */
uint32_t archive_decode(const uint32_t *image, size_t image_words,
                        uint32_t *table, size_t table_words);

#ifdef __cplusplus
}
#endif

#endif
