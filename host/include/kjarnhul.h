/*
** kjarnhul.h: the C interface of Kjarnhul, a proved Aleph Filter.
**
** A filter holds 64-bit mother hashes and answers whether a hash may be among them. For hashes
** that were inserted and not deleted the answer is always yes, as long as Delete and Rejuvenate
** are called with held hashes only; for others it is mostly no. The host hashes its values
** itself. Two equal hashes are the same value held twice.
**
** Link with libkjarnhul.a. The library allocates nothing, keeps nothing between two calls, and
** calls nothing but memcpy and memset: all that a call reads and writes is what it is lent.
**
** WHAT A FILTER IS
**
**   - a record, the kj_filter below, which the calls keep up to date;
**   - main, the table of slots: exactly 2^k words, where k is in the record;
**   - queue, what Delete and Rejuvenate leave for Settle to do;
**   - annex, the tables of stored mother hashes.
**
** The host lends all four to each call. It changes none of them itself, but may move or copy
** them between calls, and may store them: a word is a uint32_t in the machine's own byte order.
**
** HOW MUCH MEMORY TO LEND
**
**   - main: exactly 2^k words. Start begins at k = start_power, and each Double adds 1 to k.
**   - queue: a word for each Delete or Rejuvenate of a void entry from one Settle to the next,
**     at most KJ_QUEUE_MOST. KJ_QUEUE says when they are used up.
**   - annex: as many words as main has slots are always enough; for Double, as many as new_main
**     has. Fewer will often do: KJ_ANNEX says when they do not. None are used before the third
**     Double.
**
** Queue and annex may be longer from one call to the next, with the same words first. No pointer
** may be NULL, not even that of a part with length 0. Words are aligned as a uint32_t is. The
** parts lent to one call do not overlap one another or the record.
**
** WHAT RUNS WHEN
**
** kj_query, kj_insert, kj_delete and kj_rejuvenate are quick and run by day. kj_audit, kj_settle
** and kj_double are slow and run by night: Settle first, then Double, which refuses a queue that
** is not empty. kj_insert says KJ_FULL once seven eighths of the slots are used: then it is time
** for both.
**
** THREADS
**
** A filter has one writer: while a call that takes the record without `const` runs, no other
** call may run on that filter. Any number of kj_query may run at once while no writer does. The
** front page reads bytes of its own by kj_query_bytes, which takes no lock and needs none as
** long as nobody writes those bytes while it runs. Calls on different filters never disturb each
** other.
** kj_audit, kj_settle and kj_double use about 104 KiB of the thread's stack.
**
** WHAT IS PROVED
**
** Each call is proved to meet a contract that says its number, the record and every lent word,
** for all input that keeps to the rules above, refused calls too. The only exception are
** kj_insert, kj_delete and kj_rejuvenate on a state that is not sound, to which no call leads from
** a sound one: what they do then is told at each call. kj_audit says whether a state is sound.
*/
#ifndef KJARNHUL_H
#define KJARNHUL_H

#include <stddef.h>
#include <stdint.h>

#ifdef __cplusplus
extern "C" {
#endif

/*
** NUMBERS THAT CALLS RETURN
**
** 0 is success. Any number from 2 on is a refusal: the call then has changed no word and nothing
** of the record. Where several refusals apply, a call gives the first of those that are listed
** with it, in the order in which they are listed. kj_query and kj_query_bytes answer KJ_NO or
** KJ_YES, and kj_width answers a width.
*/
#define KJ_OK 0        /* it is done */
#define KJ_NO 0        /* no: the hash is not held */
#define KJ_YES 1       /* yes: the hash may be held */
#define KJ_RECORD 2    /* the record is out of range; kj_query_bytes: k or w is */
#define KJ_LENGTH 3    /* a lent part is not of its length, or shorter than the record uses */
#define KJ_UNSOUND 4   /* the state is not sound */
#define KJ_FULL 5      /* used slots are at the load limit, 2^k - 2^(k-3) */
#define KJ_NOTHING 6   /* no entry matches */
#define KJ_QUEUE 7     /* the longest match is void, and the queue is full */
#define KJ_UNSETTLED 8 /* the queue is not empty */
#define KJ_LARGEST 9   /* k is 20 already */
#define KJ_ANNEX 10    /* the new annex table does not fit behind the tables in use */
#define KJ_SETTINGS 11 /* start power, fingerprint length or regime is out of range */

/*
** LIMITS AND REGIMES
*/
#define KJ_POWER_MOST 20      /* the largest k */
#define KJ_PLACES 15          /* the annex tables of a filter, at most */
#define KJ_QUEUE_MOST 1048576 /* the queue words in use, at most: 2^20 */
#define KJ_REGIME_FIXED 0     /* fresh fingerprints keep their length */
#define KJ_REGIME_WIDENING 1  /* fresh fingerprints grow as the filter does */

/*
** THE RECORD
**
** An annex table for mother hashes of `length` bits has 2^size_power words and holds `count` of
** them. The places in use come first, and the others are all zero. A host reads the record
** freely and writes it by these calls only. Before kj_start its contents do not matter.
*/
typedef struct kj_place {
  uint32_t length;
  uint32_t size_power;
  uint32_t count;
} kj_place;

typedef struct kj_filter {
  uint32_t k;            /* main has 2^k slots */
  uint32_t start_power;  /* k at the start */
  uint32_t fingerprint;  /* F: the length of fresh fingerprints at the start */
  uint32_t regime;       /* KJ_REGIME_FIXED or KJ_REGIME_WIDENING */
  uint32_t used;         /* used slots of main, void entries and tombstones too */
  uint32_t queue_length; /* queue words in use */
  kj_place annex[KJ_PLACES];
} kj_filter;

/*
** START
**
** Makes an empty filter: k is start_power, main is all zero, the queue is empty and there are no
** annex tables. start_power is 3 to 10, fingerprint 3 to 15, regime 0 or 1. The words of queue
** and annex keep their values.
**
**   KJ_OK         the record and main are those of an empty filter
**   KJ_SETTINGS   start_power, fingerprint or regime is out of range
**   KJ_LENGTH     main is not 2^start_power words
**
** Refused, the record stays as it was: a filter that was in it lives on, with its words.
*/
uint32_t kj_start(kj_filter *filter, uint32_t *main, size_t main_words, uint32_t *queue,
                  size_t queue_words, uint32_t *annex, size_t annex_words, uint32_t start_power,
                  uint32_t fingerprint, uint32_t regime);

/*
** QUERY
**
** Says whether an entry matches the hash. Writes nothing, whatever it returns.
**
**   KJ_NO         no entry matches: the hash is not held
**   KJ_YES        an entry matches: the hash may be held
**   KJ_RECORD     the record is out of range
**   KJ_LENGTH     main is not 2^k words, or queue or annex is shorter than the record uses
**
** On a state that is not sound the answer goes by what the run of the hash in main decodes to.
*/
uint32_t kj_query(const kj_filter *filter, const uint32_t *main, size_t main_words,
                  const uint32_t *queue, size_t queue_words, const uint32_t *annex,
                  size_t annex_words, uint64_t hash);

/*
** INSERT
**
** Adds an entry with a fresh fingerprint of the hash.
**
**   KJ_OK         the entry is in main, and `used` is one more; queue and annex keep their
**                 values
**   KJ_RECORD     the record is out of range
**   KJ_LENGTH     main is not 2^k words, or queue or annex is shorter than the record uses
**   KJ_FULL       `used` is at the load limit: Settle, then Double
**
** On a state that is not sound KJ_OK does not say that the entry is in main. The record keeps its
** settings and its directory, and the annex its words; refused, nothing is changed.
*/
uint32_t kj_insert(kj_filter *filter, uint32_t *main, size_t main_words, uint32_t *queue,
                   size_t queue_words, uint32_t *annex, size_t annex_words, uint64_t hash);

/*
** DELETE
**
** Takes the longest match of the hash. Only a hash that is held may be deleted: the filter can't
** tell, and deleting another may take the entry of a hash that is held.
**
**   KJ_OK         an entry with fingerprint bits is removed from main, and `used` is one less;
**                 or a void entry has become a tombstone, and the queue has one word more for
**                 Settle
**   KJ_RECORD     the record is out of range
**   KJ_LENGTH     main is not 2^k words, or queue or annex is shorter than the record uses
**   KJ_NOTHING    no entry matches
**   KJ_QUEUE      the longest match is void, and the queue is full: lend a longer one, or Settle
**
** On a state that is not sound the call may say KJ_NOTHING for another reason. The record keeps
** its settings and its directory, and the annex its words; refused, nothing is changed.
*/
uint32_t kj_delete(kj_filter *filter, uint32_t *main, size_t main_words, uint32_t *queue,
                   size_t queue_words, uint32_t *annex, size_t annex_words, uint64_t hash);

/*
** REJUVENATE
**
** Gives the longest match of the hash a fresh fingerprint of this hash, if it is shorter than
** fresh ones, so that later answers are sharper. Only a hash that is held may be rejuvenated: the
** filter can't tell, and rejuvenating another may take the entry of a hash that is held.
**
**   KJ_OK         the longest match is a fresh entry of the hash; if it was void, the queue has
**                 one word more for Settle. A match of full length stays, and nothing is changed
**   KJ_RECORD     the record is out of range
**   KJ_LENGTH     main is not 2^k words, or queue or annex is shorter than the record uses
**   KJ_NOTHING    no entry matches
**   KJ_QUEUE      the longest match is void, and the queue is full: lend a longer one, or Settle
**
** On a state that is not sound the call may say KJ_NOTHING for another reason. The record keeps
** its settings and its directory, and the annex its words; refused, nothing is changed.
*/
uint32_t kj_rejuvenate(kj_filter *filter, uint32_t *main, size_t main_words, uint32_t *queue,
                       size_t queue_words, uint32_t *annex, size_t annex_words, uint64_t hash);

/*
** AUDIT
**
** Says whether the state is sound: whether main and the annex tables are the layouts of what
** they hold, and queue, tombstones, void entries and mother hashes agree. Changes nothing,
** whatever it returns. To be called on words that come from elsewhere, as from a file.
**
**   KJ_OK         the state is sound
**   KJ_RECORD     the record is out of range
**   KJ_LENGTH     main is not 2^k words, or queue or annex is shorter than the record uses
**   KJ_UNSOUND    the state is not sound
*/
uint32_t kj_audit(kj_filter *filter, uint32_t *main, size_t main_words, uint32_t *queue,
                  size_t queue_words, uint32_t *annex, size_t annex_words);

/*
** SETTLE
**
** Does what the queue words ask, first to last: takes the mother hashes of deleted and
** rejuvenated void entries out of the annex, and their other void entries and all tombstones out
** of main.
**
**   KJ_OK         `queue_length` is 0, and empty tables at the end of the annex are dropped;
**                 queue words keep their values, and a table that was emptied is all zero
**   KJ_RECORD     the record is out of range
**   KJ_LENGTH     main is not 2^k words, or queue or annex is shorter than the record uses
**   KJ_UNSOUND    the state is not sound
*/
uint32_t kj_settle(kj_filter *filter, uint32_t *main, size_t main_words, uint32_t *queue,
                   size_t queue_words, uint32_t *annex, size_t annex_words);

/*
** DOUBLE
**
** Writes a main table of twice the slots to new_main. Its entries give one fingerprint bit each
** to their addresses; those that had one bit left become void, and if there are any, one annex
** table is added for them.
**
**   KJ_OK         k is one more, and new_main is the filter's main from now on; main keeps its
**                 words, and the host may use it again
**   KJ_RECORD     the record is out of range
**   KJ_LARGEST    k is 20
**   KJ_LENGTH     main is not 2^k words, new_main is not 2^(k+1) words, or queue or annex is
**                 shorter than the record uses
**   KJ_UNSOUND    the state is not sound
**   KJ_UNSETTLED  the queue is not empty: Settle first
**   KJ_ANNEX      the new annex table does not fit: lend a longer annex
*/
uint32_t kj_double(kj_filter *filter, uint32_t *main, size_t main_words, uint32_t *queue,
                   size_t queue_words, uint32_t *annex, size_t annex_words, uint32_t *new_main,
                   size_t new_main_words);

/*
** WIDTH
**
** The width of payloads: what kj_query_bytes takes besides k. It is fingerprint + 1 + extra, where
** extra is 0 in the fixed regime, and in the widening regime goes by k - start_power, from 0 on:
** 0 2 4 4 6 6 6 6 8 8 8 8 8 8 8 8 10 10. It changes by kj_double and kj_start only. Writes nothing.
**
**   4 to 26       the width
**   0             the record is out of range: where other calls give KJ_RECORD
*/
uint32_t kj_width(const kj_filter *filter);

/*
** QUERY ON BYTES
**
** For a front page that has main as bytes, four to a slot, the lowest first, and no record. w is
** the width of payloads, which kj_width gives. Writes nothing.
**
**   KJ_NO         no entry matches: the hash is not held
**   KJ_YES        an entry matches: the hash may be held
**   KJ_RECORD     k is not 3 to 20, or w is not 4 to 26
**   KJ_LENGTH     bytes is not 4 * 2^k
**
** The answer is that of kj_query on the same table. On any other bytes it goes by what the run
** of the hash in them decodes to, and nothing but them is read.
*/
uint32_t kj_query_bytes(uint32_t k, uint32_t w, uint64_t hash, const uint8_t *main, size_t bytes);

#ifdef __cplusplus
}
#endif

#endif
