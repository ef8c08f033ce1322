/* The two words of a version of MV/L, as hek_word and hek_changes read and change them.
 *
 * A function takes words as numbers and keeps nothing but what hek_note writes into its caller's memory. Its caller owes nothing:
 * to a number that is not a word, and to a change that the lock does not allow, it answers 0 or a status. Changes are not atomic:
 * an engine loads a word, computes the new one, and exchanges the two.
 */
#ifndef HEK_H
#define HEK_H

#include <stdbool.h>
#include <stddef.h>
#include <stdint.h>

#ifdef __cplusplus
extern "C" {
#endif

/* No time: what hek_begin_time and hek_end_time answer where the word holds none. */
#define HEK_NO_TIME UINT64_MAX

/* Begin words: a time, 0 to 2^63 - 1, or a transaction, 1 to 2^54 - 2. */

bool hek_is_begin(uint64_t number);
uint64_t hek_begin_time(uint64_t number); /* HEK_NO_TIME: none */
uint64_t hek_begin_txn(uint64_t number);  /* 0: none */

/* End words: a time, 0 to 2^63 - 1, or a record lock. The time 2^63 - 1 is infinity, the word of the latest version while
 * no transaction holds it. A number that is not an End word has no time, reader, writer or flag. */

bool hek_is_end(uint64_t number);
uint64_t hek_end_time(uint64_t number);  /* HEK_NO_TIME: none */
uint64_t hek_readers(uint64_t number);   /* ReadLockCount, 0 to 255 */
uint64_t hek_writer(uint64_t number);    /* WriteLock; 0: none */
bool hek_no_more_reads(uint64_t number); /* NoMoreReadLocks */

/* Changes of a record lock: the new word, which is never 0, or 0 where the number is no End word or the change isn't
 * allowed. */

uint64_t hek_infinity(void);

/* Not of a time before infinity, nor of a lock with NoMoreReadLocks or 255 readers. */
uint64_t hek_add_reader(uint64_t number);

/* Not of a word without reader. Where the last reader goes, the new word is infinity, or its writer stands alone in it
 * under NoMoreReadLocks, and waits for no reader of this version any more. */
uint64_t hek_drop_reader(uint64_t number);

/* Not of a time before infinity or a lock with a writer, nor for a txn beside 1 to 2^54 - 2. */
uint64_t hek_take_writer(uint64_t number, uint64_t txn);

/* Not of a word without writer. NoMoreReadLocks goes with it. */
uint64_t hek_clear_writer(uint64_t number);

enum hek_status {
    HEK_RELEASED = 0,
    HEK_NO_READER = 1, /* the word has no reader */
    HEK_BAD_WAITS = 2, /* the last reader goes under a writer that is said to wait for nobody */
    HEK_NO_WORD = 3    /* the number is no End word */
};

struct hek_release {
    uint64_t word;
    uint64_t waits;
    uint32_t status;
};

/* Gives up one read lock of a word whose writer waits for so many others. Word and waits are the new ones where it is
 * released, else those that were given. The waits fall by one where the last reader goes under a writer. */
struct hek_release hek_release(uint64_t number, uint64_t waits);

/* Which change by a transaction leads from one word to the next: an engine checks its own exchanges with it. HEK_NO_CHANGE
 * if none does, or if a number is no word. From one word to another at most one change of a transaction leads. */

#define HEK_NO_CHANGE 0

/* Of a Begin word that names the transaction. */
enum hek_begin_changes {
    HEK_BEGIN_STAMPED = 1, /* the transaction has committed: the new word is its end time */
    HEK_BEGIN_VOIDED = 2   /* the transaction has aborted: the new word is infinity */
};

/* Of an End word. */
enum hek_end_changes {
    HEK_READER_CAME = 1,
    HEK_READER_WENT = 2,
    HEK_WRITER_CAME = 3,
    HEK_WRITER_WENT = 4, /* the transaction is the writer, and gives the word back */
    HEK_CLEARED = 5,     /* the name of another writer, which has aborted, is taken out */
    HEK_STAMPED = 6,     /* the transaction is the writer and has committed: the new word is its end time */

    /* more changes in one exchange */
    HEK_CLEARED_THEN_READ = 7,
    HEK_CLEARED_THEN_WRITTEN = 8,
    HEK_READER_BECAME_WRITER = 9, /* the transaction gives up its own read lock */
    HEK_CLEARED_THEN_READER_BECAME_WRITER = 10
};

uint32_t hek_begin_change(uint64_t old_word, uint64_t new_word, uint64_t txn);
uint32_t hek_end_change(uint64_t old_word, uint64_t new_word, uint64_t txn);

/* Who holds what. A book is memory of the engine's: a `struct hek_word` for each of its End words, and an array `over` of bytes,
 * one for each transaction by its ID. All are 0 at first. The engine
 *
 *   - notes each exchange of an End word by hek_note. Notes of a word must come in the order of its exchanges, so an exchange and
 *     its note are made under one lock;
 *   - sets over[T] when transaction T has committed or aborted, under the same lock, and before another transaction may take the
 *     name of T out of a word. What T holds it may still give up afterwards;
 *   - asks hek_leaked of each word when nobody runs any more.
 *
 * Nothing here takes memory or a lock. An engine that doesn't know who is over passes NULL and 0: then of no writer is said that it
 * lives. A transaction past the end of `over` lives. */

#define HEK_SLOTS 126

struct hek_word {
    uint64_t last;               /* what the last exchange left */
    uint32_t noted;              /* 0 until an exchange is noted */
    uint32_t reads;              /* how many read locks are known: readers[0] to readers[reads - 1] hold them */
    uint64_t readers[HEK_SLOTS]; /* the writer is hek_writer(last) */
};

enum hek_faults {
    HEK_FINE = 0,
    HEK_BROKEN = 1,       /* the exchange before it left another word, which is `wanted` */
    HEK_NO_RULE = 2,      /* no change leads there. `change` comes nearest, and `wanted` is the word that it leaves */
    HEK_WRITER_LIVES = 3, /* the name of a writer is taken out that is not over */
    HEK_NEVER_CAME = 4,   /* a read lock is given up by a transaction that holds none, while all that are counted are known */
    HEK_CAME_TWICE = 5,   /* a lock is taken by a transaction that read-locks the version already */
    HEK_IS_OVER = 6,      /* a lock is taken by a transaction that is over */
    HEK_NO_ROOM = 7,      /* no fault of the engine: HEK_SLOTS read locks are known, and this one isn't noted */
    HEK_NO_BOOK = 8       /* `reads` is past HEK_SLOTS: something else than hek_note wrote it. Nothing was noted */
};

struct hek_noted {
    uint64_t wanted; /* the word that would have been right: without a fault the new one; the old one where nothing may change */
    uint32_t fault;  /* of enum hek_faults: the first that applies */
    uint32_t change; /* of enum hek_end_changes: the change that the exchange is; of a HEK_NO_RULE what comes nearest, or 0 */
};

/* Notes that a transaction exchanged old_word for new_word. With a fault too it is noted: what the word is now, and who came and
 * went. */
struct hek_noted hek_note(struct hek_word *word, uint64_t txn, uint64_t old_word, uint64_t new_word, const uint8_t *over, size_t txns);

/* The first known reader of the word that is over, else its writer if that is over; 0: none. Of it the word keeps a lock for ever. */
uint64_t hek_leaked(const struct hek_word *word, const uint8_t *over, size_t txns);

#ifdef __cplusplus
}
#endif

#endif
