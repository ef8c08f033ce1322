/* An engine's own lock words beside the proved ones of hek_c. It checks rows that were worked out on paper, and prints which
 * failed, and how many there were. Its exit status is 0 where all held. With the word `time` it prints what one checked
 * exchange takes, and one that is noted in a book. */
#include "hek.h"

#include <inttypes.h>
#include <stddef.h>
#include <stdio.h>
#include <string.h>
#include <time.h>

static int rows = 0;
static int failures = 0;

static void is(const char *what, uint64_t number, uint64_t got, uint64_t want) {
    rows++;
    if (got != want) {
        failures++;
        printf("%s of %016" PRIX64 ": %016" PRIX64 " and not %016" PRIX64 "\n", what, number, got, want);
    }
}

/* What an End word says. */
struct reading {
    uint64_t number;
    bool is_end, is_begin;
    uint64_t end_time, readers, writer;
    bool no_more_reads;
    uint64_t begin_time, begin_txn;
};

static const struct reading readings[] = {
    /* locks: readers, writer, flag */
    {0x8040000000000002, true, false, HEK_NO_TIME, 1, 2, false, HEK_NO_TIME, 0},
    {0xC000000000000002, true, false, HEK_NO_TIME, 0, 2, true, HEK_NO_TIME, 0},
    {0xBFFFFFFFFFFFFFFF, true, false, HEK_NO_TIME, 255, 0, false, HEK_NO_TIME, 0},
    {0x807FFFFFFFFFFFFF, true, false, HEK_NO_TIME, 1, 0, false, HEK_NO_TIME, 0},
    /* a writer without readers has the number of a Begin word that names it */
    {0x8000000000000002, true, true, HEK_NO_TIME, 0, 2, false, HEK_NO_TIME, 2},
    /* times */
    {0x0000000000000002, true, true, 2, 0, 0, false, 2, 0},
    {0x7FFFFFFFFFFFFFFF, true, true, 0x7FFFFFFFFFFFFFFF, 0, 0, false, 0x7FFFFFFFFFFFFFFF, 0},
    /* no words: a lock without holder, all ones, a writer 0 */
    {0x803FFFFFFFFFFFFF, false, false, HEK_NO_TIME, 0, 0, false, HEK_NO_TIME, 0},
    {0xFFFFFFFFFFFFFFFF, false, false, HEK_NO_TIME, 0, 0, false, HEK_NO_TIME, 0},
    {0x8040000000000000, false, false, HEK_NO_TIME, 0, 0, false, HEK_NO_TIME, 0},
};

static void check_readings(void) {
    for (size_t i = 0; i < sizeof readings / sizeof readings[0]; i++) {
        const struct reading *r = &readings[i];
        is("is_end", r->number, hek_is_end(r->number), r->is_end);
        is("is_begin", r->number, hek_is_begin(r->number), r->is_begin);
        is("end_time", r->number, hek_end_time(r->number), r->end_time);
        is("readers", r->number, hek_readers(r->number), r->readers);
        is("writer", r->number, hek_writer(r->number), r->writer);
        is("no_more_reads", r->number, hek_no_more_reads(r->number), r->no_more_reads);
        is("begin_time", r->number, hek_begin_time(r->number), r->begin_time);
        is("begin_txn", r->number, hek_begin_txn(r->number), r->begin_txn);
    }
}

static const struct release {
    uint64_t number, waits;
    struct hek_release want;
} releases[] = {
    {0x8040000000000002, 1, {0xC000000000000002, 0, HEK_RELEASED}},
    {0x8080000000000002, 1, {0x8040000000000002, 1, HEK_RELEASED}},
    {0x80BFFFFFFFFFFFFF, 0, {0x807FFFFFFFFFFFFF, 0, HEK_RELEASED}},
    {0x807FFFFFFFFFFFFF, 0, {0x7FFFFFFFFFFFFFFF, 0, HEK_RELEASED}},
    {0x8000000000000002, 0, {0x8000000000000002, 0, HEK_NO_READER}},
    {0x7FFFFFFFFFFFFFFF, 0, {0x7FFFFFFFFFFFFFFF, 0, HEK_NO_READER}},
    {0x8040000000000002, 0, {0x8040000000000002, 0, HEK_BAD_WAITS}},
    {0x803FFFFFFFFFFFFF, 1, {0x803FFFFFFFFFFFFF, 1, HEK_NO_WORD}},
    {0xFFFFFFFFFFFFFFFF, 1, {0xFFFFFFFFFFFFFFFF, 1, HEK_NO_WORD}},
};

static void check_releases(void) {
    for (size_t i = 0; i < sizeof releases / sizeof releases[0]; i++) {
        const struct release *r = &releases[i];
        struct hek_release got = hek_release(r->number, r->waits);
        is("released word", r->number, got.word, r->want.word);
        is("waits", r->number, got.waits, r->want.waits);
        is("status", r->number, got.status, r->want.status);
    }
}

/* What changes an End word to what; 0: not allowed. */
static const struct change {
    uint64_t number, add_reader, drop_reader, take_writer_2, clear_writer;
} changes[] = {
    {0x7FFFFFFFFFFFFFFF, 0x807FFFFFFFFFFFFF, 0, 0x8000000000000002, 0},
    {0x807FFFFFFFFFFFFF, 0x80BFFFFFFFFFFFFF, 0x7FFFFFFFFFFFFFFF, 0x8040000000000002, 0},
    {0x8040000000000002, 0x8080000000000002, 0xC000000000000002, 0, 0x807FFFFFFFFFFFFF},
    {0x8000000000000002, 0x8040000000000002, 0, 0, 0x7FFFFFFFFFFFFFFF},
    {0xC000000000000002, 0, 0, 0, 0x7FFFFFFFFFFFFFFF},
    {0xBFFFFFFFFFFFFFFF, 0, 0xBFBFFFFFFFFFFFFF, 0xBFC0000000000002, 0},
    {0x0000000000000002, 0, 0, 0, 0},
    {0x803FFFFFFFFFFFFF, 0, 0, 0, 0},
};

static void check_changes(void) {
    is("infinity", 0, hek_infinity(), 0x7FFFFFFFFFFFFFFF);
    for (size_t i = 0; i < sizeof changes / sizeof changes[0]; i++) {
        const struct change *r = &changes[i];
        is("add_reader", r->number, hek_add_reader(r->number), r->add_reader);
        is("drop_reader", r->number, hek_drop_reader(r->number), r->drop_reader);
        is("take_writer", r->number, hek_take_writer(r->number, 2), r->take_writer_2);
        is("take_writer 0", r->number, hek_take_writer(r->number, 0), 0);
        is("take_writer 2^54 - 1", r->number, hek_take_writer(r->number, 0x003FFFFFFFFFFFFF), 0);
        is("clear_writer", r->number, hek_clear_writer(r->number), r->clear_writer);
    }
}

/* Which change leads from a word to the next. */
struct exchange {
    uint64_t old_word, new_word, txn;
    uint32_t change;
};

static const struct exchange end_exchanges[] = {
    {0x7FFFFFFFFFFFFFFF, 0x807FFFFFFFFFFFFF, 2, HEK_READER_CAME},
    {0x807FFFFFFFFFFFFF, 0x80BFFFFFFFFFFFFF, 2, HEK_READER_CAME},
    {0x8040000000000003, 0x8080000000000003, 2, HEK_READER_CAME},
    {0x8040000000000003, 0x8080000000000003, 3, HEK_NO_CHANGE},
    {0x80BFFFFFFFFFFFFF, 0x807FFFFFFFFFFFFF, 2, HEK_READER_WENT},
    {0x807FFFFFFFFFFFFF, 0x7FFFFFFFFFFFFFFF, 2, HEK_READER_WENT},
    {0x8040000000000003, 0xC000000000000003, 2, HEK_READER_WENT},
    {0x8040000000000003, 0x8000000000000003, 2, HEK_NO_CHANGE},
    {0x7FFFFFFFFFFFFFFF, 0x8000000000000002, 2, HEK_WRITER_CAME},
    {0x807FFFFFFFFFFFFF, 0x8040000000000002, 2, HEK_WRITER_CAME},
    {0x807FFFFFFFFFFFFF, 0x8040000000000002, 3, HEK_NO_CHANGE},
    {0x8000000000000002, 0x7FFFFFFFFFFFFFFF, 2, HEK_WRITER_WENT},
    {0x8040000000000002, 0x807FFFFFFFFFFFFF, 2, HEK_WRITER_WENT},
    {0xC000000000000002, 0x7FFFFFFFFFFFFFFF, 2, HEK_WRITER_WENT},
    {0x8000000000000002, 0x7FFFFFFFFFFFFFFF, 3, HEK_CLEARED},
    {0x8040000000000002, 0x807FFFFFFFFFFFFF, 3, HEK_CLEARED},
    {0x8000000000000002, 0x0000000000000019, 2, HEK_STAMPED},
    {0xC000000000000002, 0x0000000000000019, 2, HEK_STAMPED},
    {0x8040000000000002, 0x0000000000000019, 2, HEK_NO_CHANGE},
    {0x8000000000000002, 0x0000000000000019, 3, HEK_NO_CHANGE},
    {0x8000000000000002, 0x0000000000000000, 2, HEK_NO_CHANGE},
    {0x8000000000000002, 0x807FFFFFFFFFFFFF, 3, HEK_CLEARED_THEN_READ},
    {0x8040000000000002, 0x80BFFFFFFFFFFFFF, 3, HEK_CLEARED_THEN_READ},
    {0xC000000000000002, 0x807FFFFFFFFFFFFF, 3, HEK_CLEARED_THEN_READ},
    {0x8000000000000002, 0x807FFFFFFFFFFFFF, 2, HEK_NO_CHANGE},
    {0x8000000000000002, 0x8000000000000003, 3, HEK_CLEARED_THEN_WRITTEN},
    {0x8040000000000002, 0x8040000000000003, 3, HEK_CLEARED_THEN_WRITTEN},
    {0x807FFFFFFFFFFFFF, 0x8000000000000002, 2, HEK_READER_BECAME_WRITER},
    {0x80BFFFFFFFFFFFFF, 0x8040000000000002, 2, HEK_READER_BECAME_WRITER},
    {0x8040000000000002, 0x8000000000000003, 3, HEK_CLEARED_THEN_READER_BECAME_WRITER},
    {0x8080000000000002, 0x8040000000000003, 3, HEK_CLEARED_THEN_READER_BECAME_WRITER},
    {0x8080000000000002, 0x8080000000000002, 3, HEK_NO_CHANGE},
    {0x0000000000000005, 0x7FFFFFFFFFFFFFFF, 2, HEK_NO_CHANGE},
    {0x803FFFFFFFFFFFFF, 0x7FFFFFFFFFFFFFFF, 2, HEK_NO_CHANGE},
    {0x7FFFFFFFFFFFFFFF, 0xFFFFFFFFFFFFFFFF, 2, HEK_NO_CHANGE},
};

static const struct exchange begin_exchanges[] = {
    {0x8000000000000002, 0x0000000000000019, 2, HEK_BEGIN_STAMPED},
    {0x8000000000000002, 0x7FFFFFFFFFFFFFFF, 2, HEK_BEGIN_VOIDED},
    {0x8000000000000002, 0x0000000000000019, 3, HEK_NO_CHANGE},
    {0x8000000000000002, 0x0000000000000000, 2, HEK_NO_CHANGE},
    {0x0000000000000005, 0x0000000000000019, 2, HEK_NO_CHANGE},
    {0x8000000000000002, 0x8000000000000003, 2, HEK_NO_CHANGE},
    {0x8040000000000002, 0x0000000000000019, 2, HEK_NO_CHANGE},
};

static void check_exchanges(void) {
    for (size_t i = 0; i < sizeof end_exchanges / sizeof end_exchanges[0]; i++) {
        const struct exchange *r = &end_exchanges[i];
        is("end_change", r->old_word, hek_end_change(r->old_word, r->new_word, r->txn), r->change);
    }
    for (size_t i = 0; i < sizeof begin_exchanges / sizeof begin_exchanges[0]; i++) {
        const struct exchange *r = &begin_exchanges[i];
        is("begin_change", r->old_word, hek_begin_change(r->old_word, r->new_word, r->txn), r->change);
    }
}

/* A line of a log: an exchange of one of two words, with the answer to its note; or a transaction that is over, without a word. */
struct line {
    int word; /* 0 or 1; OVER: none */
    uint64_t txn, old_word, new_word;
    uint32_t fault, change;
    uint64_t wanted; /* of a fault */
};

#define OVER (-1)
#define MOST_LINES 12

/* A log, and who is leaked of each of the two words at its end. */
struct log {
    const char *name;
    struct line lines[MOST_LINES];
    uint64_t leaked[2];
};

#define FREE 0x7FFFFFFFFFFFFFFF
#define READERS_1 0x807FFFFFFFFFFFFF
#define READERS_2 0x80BFFFFFFFFFFFFF

static const struct log logs[] = {
    {"a right run",
     {{0, 1, FREE, READERS_1, HEK_FINE, HEK_READER_CAME, 0},
      {0, 2, READERS_1, READERS_2, HEK_FINE, HEK_READER_CAME, 0},
      {0, 3, READERS_2, 0x8080000000000003, HEK_FINE, HEK_WRITER_CAME, 0},
      {1, 1, FREE, READERS_1, HEK_FINE, HEK_READER_CAME, 0},
      {0, 1, 0x8080000000000003, 0x8040000000000003, HEK_FINE, HEK_READER_WENT, 0},
      {1, 1, READERS_1, FREE, HEK_FINE, HEK_READER_WENT, 0},
      {OVER, 1, 0, 0, 0, 0, 0},
      {0, 2, 0x8040000000000003, 0xC000000000000003, HEK_FINE, HEK_READER_WENT, 0},
      {OVER, 2, 0, 0, 0, 0, 0},
      {0, 3, 0xC000000000000003, 0x0000000000000005, HEK_FINE, HEK_STAMPED, 0},
      {OVER, 3, 0, 0, 0, 0, 0}},
     {0, 0}},
    {"a decrement lost",
     {{0, 1, FREE, READERS_1, HEK_FINE, HEK_READER_CAME, 0},
      {0, 2, READERS_1, READERS_2, HEK_FINE, HEK_READER_CAME, 0},
      {0, 3, READERS_2, 0x8080000000000003, HEK_FINE, HEK_WRITER_CAME, 0},
      {OVER, 1, 0, 0, 0, 0, 0},
      {0, 2, 0x8080000000000003, 0x8040000000000003, HEK_FINE, HEK_READER_WENT, 0},
      {OVER, 2, 0, 0, 0, 0, 0}},
     {1, 0}},
    {"never came",
     {{0, 2, FREE, READERS_1, HEK_FINE, HEK_READER_CAME, 0},
      {0, 3, READERS_1, 0x8040000000000003, HEK_FINE, HEK_WRITER_CAME, 0},
      {0, 9, 0x8040000000000003, 0xC000000000000003, HEK_NEVER_CAME, HEK_READER_WENT, 0x8040000000000003},
      {OVER, 2, 0, 0, 0, 0, 0}},
     {2, 0}},
    {"came twice",
     {{0, 1, FREE, READERS_1, HEK_FINE, HEK_READER_CAME, 0},
      {0, 1, READERS_1, READERS_2, HEK_CAME_TWICE, HEK_READER_CAME, READERS_1},
      {0, 1, READERS_2, READERS_1, HEK_FINE, HEK_READER_WENT, 0},
      {OVER, 1, 0, 0, 0, 0, 0}},
     {1, 0}},
    {"two writers",
     {{0, 3, FREE, 0x8000000000000003, HEK_FINE, HEK_WRITER_CAME, 0},
      {0, 4, 0x8000000000000003, 0x8000000000000004, HEK_WRITER_LIVES, HEK_CLEARED_THEN_WRITTEN, 0x8000000000000003},
      {0, 4, 0x8000000000000004, 0x0000000000000006, HEK_FINE, HEK_STAMPED, 0},
      {OVER, 4, 0, 0, 0, 0, 0},
      {OVER, 3, 0, 0, 0, 0, 0}},
     {0, 0}},
    {"a writer that is over",
     {{0, 3, FREE, 0x8000000000000003, HEK_FINE, HEK_WRITER_CAME, 0},
      {OVER, 3, 0, 0, 0, 0, 0},
      {0, 4, 0x8000000000000003, 0x8000000000000004, HEK_FINE, HEK_CLEARED_THEN_WRITTEN, 0},
      {0, 4, 0x8000000000000004, 0x0000000000000006, HEK_FINE, HEK_STAMPED, 0},
      {OVER, 4, 0, 0, 0, 0, 0}},
     {0, 0}},
    {"a write lock leaked",
     {{0, 2, FREE, READERS_1, HEK_FINE, HEK_READER_CAME, 0},
      {0, 2, READERS_1, 0x8000000000000002, HEK_FINE, HEK_READER_BECAME_WRITER, 0},
      {OVER, 2, 0, 0, 0, 0, 0},
      {1, 5, FREE, READERS_1, HEK_FINE, HEK_READER_CAME, 0},
      {1, 5, READERS_1, FREE, HEK_FINE, HEK_READER_WENT, 0},
      {OVER, 5, 0, 0, 0, 0, 0}},
     {2, 0}},
    {"NoMoreReadLocks forgotten",
     {{0, 2, FREE, READERS_1, HEK_FINE, HEK_READER_CAME, 0},
      {0, 3, READERS_1, 0x8040000000000003, HEK_FINE, HEK_WRITER_CAME, 0},
      {0, 2, 0x8040000000000003, 0x8000000000000003, HEK_NO_RULE, HEK_READER_WENT, 0xC000000000000003}},
     {0, 0}},
    {"the writer reads",
     {{0, 3, FREE, 0x8000000000000003, HEK_FINE, HEK_WRITER_CAME, 0},
      {0, 3, 0x8000000000000003, 0x8040000000000003, HEK_NO_RULE, HEK_READER_CAME, 0x8000000000000003}},
     {0, 0}},
    {"over before it takes a lock; a chain that is broken; no End word",
     {{OVER, 1, 0, 0, 0, 0, 0},
      {0, 1, FREE, READERS_1, HEK_IS_OVER, HEK_READER_CAME, FREE},
      {0, 2, FREE, READERS_1, HEK_BROKEN, HEK_READER_CAME, READERS_1},
      {1, 4, 0x803FFFFFFFFFFFFF, FREE, HEK_NO_RULE, HEK_NO_CHANGE, 0x803FFFFFFFFFFFFF}},
     {1, 0}},
};

static struct hek_word book[2];

static void check_log(const struct log *log) {
    uint8_t over[10] = {0};
    memset(book, 0, sizeof book);
    for (const struct line *r = log->lines; r < log->lines + MOST_LINES && (r->word == OVER || r->old_word != 0); r++) {
        if (r->word == OVER) {
            over[r->txn] = 1;
            continue;
        }
        struct hek_noted noted = hek_note(&book[r->word], r->txn, r->old_word, r->new_word, over, sizeof over);
        is(log->name, r->old_word, noted.fault, r->fault);
        is(log->name, r->old_word, noted.change, r->change);
        is(log->name, r->old_word, noted.wanted, r->fault == HEK_FINE ? r->new_word : r->wanted);
    }
    for (int i = 0; i < 2; i++)
        is(log->name, book[i].last, hek_leaked(&book[i], over, sizeof over), log->leaked[i]);
}

/* A book in which nobody is said to be over, one that is full, and one that something else wrote. */
static void check_book(void) {
    for (size_t i = 0; i < sizeof logs / sizeof logs[0]; i++)
        check_log(&logs[i]);
    memset(book, 0, sizeof book);
    is("a writer", FREE, hek_note(book, 3, FREE, 0x8000000000000003, NULL, 0).fault, HEK_FINE);
    is("another writer", FREE, hek_note(book, 4, 0x8000000000000003, 0x8000000000000004, NULL, 0).fault, HEK_FINE);
    is("leaked", FREE, hek_leaked(book, NULL, 0), 0);
    memset(book, 0, sizeof book);
    uint64_t word = FREE;
    for (uint64_t txn = 1; txn <= HEK_SLOTS + 1; txn++) {
        uint64_t next = hek_add_reader(word);
        struct hek_noted noted = hek_note(book, txn, word, next, NULL, 0);
        is("a reader", txn, noted.fault, txn <= HEK_SLOTS ? HEK_FINE : HEK_NO_ROOM);
        is("a reader's word", txn, noted.wanted, txn <= HEK_SLOTS ? next : word);
        word = next;
    }
    is("readers known", word, book->reads, HEK_SLOTS);
    is("a reader that isn't known", word, hek_note(book, HEK_SLOTS + 1, word, hek_drop_reader(word), NULL, 0).fault, HEK_FINE);
    book->reads = HEK_SLOTS + 1;
    word = book->last;
    is("no book", word, hek_note(book, 1, word, hek_drop_reader(word), NULL, 0).fault, HEK_NO_BOOK);
    is("a book as it was", word, book->last, word);
}

/* An engine's own word, packed by its own macros, beside the proved one. */
#define LOCK (1ULL << 63)
#define READER (1ULL << 54)
#define NOBODY ((1ULL << 54) - 1)

static uint64_t engine_add_reader(uint64_t word) {
    return word & LOCK ? word + READER : LOCK + READER + NOBODY;
}

static void check_engine(void) {
    uint64_t word = hek_infinity();
    for (int reader = 1; reader <= 255; reader++) {
        is("the engine's reader", word, engine_add_reader(word), hek_add_reader(word));
        word = engine_add_reader(word);
    }
    is("the full word", word, word, 0xBFFFFFFFFFFFFFFF);
    is("a reader more", word, hek_add_reader(word), 0);
}

/* What one call of hek_end_change takes, in nanoseconds: the mean over the exchanges above. */
static void time_exchanges(void) {
    const size_t count = sizeof end_exchanges / sizeof end_exchanges[0], rounds = 1000000;
    uint32_t sum = 0;
    clock_t began = clock();
    for (size_t round = 0; round < rounds; round++) {
        for (size_t i = 0; i < count; i++) {
            const struct exchange *r = &end_exchanges[i];
            sum += hek_end_change(r->old_word, r->new_word, r->txn);
        }
    }
    double seconds = (double)(clock() - began) / CLOCKS_PER_SEC;
    printf("%.1f nanoseconds for a checked exchange (sum %" PRIu32 ")\n", seconds / (double)(rounds * count) * 1e9, sum);
}

/* What one call of hek_note takes, in nanoseconds: four readers and a writer come to a word and go, over and over. */
static void time_notes(void) {
    static uint8_t over[1024];
    const uint64_t rounds = 2000000;
    uint64_t faults = 0, calls = 0;
    memset(book, 0, sizeof book);
    clock_t began = clock();
    for (uint64_t round = 0; round < rounds; round++) {
        uint64_t word = FREE;
        for (uint64_t txn = 1; txn <= 4; txn++, calls++) {
            uint64_t next = word == FREE ? READERS_1 : word + READER;
            faults += hek_note(book, txn, word, next, over, sizeof over).fault;
            word = next;
        }
        uint64_t next = (word & ~NOBODY) | 5;
        faults += hek_note(book, 5, word, next, over, sizeof over).fault;
        word = next;
        for (uint64_t txn = 1; txn <= 4; txn++, calls++) {
            next = txn == 4 ? 0xC000000000000005 : word - READER;
            faults += hek_note(book, txn, word, next, over, sizeof over).fault;
            word = next;
        }
        faults += hek_note(book, 5, word, FREE, over, sizeof over).fault;
        calls += 2;
    }
    double seconds = (double)(clock() - began) / CLOCKS_PER_SEC;
    printf("%.1f nanoseconds for a noted exchange (faults %" PRIu64 ")\n", seconds / (double)calls * 1e9, faults);
}

int main(int count, char **words) {
    if (count > 1 && strcmp(words[1], "time") == 0) {
        time_exchanges();
        time_notes();
        return 0;
    }
    check_readings();
    check_releases();
    check_changes();
    check_exchanges();
    check_book();
    check_engine();
    printf("%d rows, %d failed\n", rows, failures);
    return failures == 0 ? 0 : 1;
}
