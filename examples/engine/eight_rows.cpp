// A small engine with the End words of MV/L: 8 rows, threads with random transactions, and seven bugs to plant. It notes each exchange of
// a word in a book of libhek_c, and writes it to a log for `hek word --changes` if one is asked for. check_all builds it and shows who finds
// which bug.
//
//     eight_rows [--bug NAME] [--threads N] [--lines N] [--seed N] [--log FILE]
//
// It ends after so many lines of the log, exchanges and ends of transactions. The status is 3 if the book found a fault; then the fault of
// the first line that has one is told.
#include "hek.h"
#include <algorithm>
#include <atomic>
#include <cinttypes>
#include <cstdio>
#include <mutex>
#include <random>
#include <string>
#include <thread>
#include <vector>
using Word = uint64_t;
using Txn = uint64_t;

constexpr Word LOCK = 1ull << 63, FLAG = 1ull << 62, READER = 1ull << 54, NOBODY = READER - 1, FREE = LOCK - 1;
enum Bug { NONE, NO_FLAG, NO_HOLDER, OWN_READ, LOST_DECREMENT, TWO_WRITERS, NEVER_CAME, NEVER_GOES } bug = NONE;
const char *const BUGS[] = {"none", "no-flag", "no-holder", "own-read", "lost-decrement", "two-writers", "never-came", "never-goes"};
const char *const FAULTS[] = {"", "broken", "none", "writer lives", "never came", "came twice", "is over", "no room", "no book", "leaked"};

// ---- words
uint64_t readers(Word w) { return w & LOCK ? w >> 54 & 255 : 0; }
Txn writer(Word w) { return w & LOCK ? w & NOBODY : NOBODY; }
bool has_ended(Word w) { return !(w & LOCK) && w != FREE; }
Word lock(uint64_t readers, Txn writer, bool no_more_reads) {
    if (readers == 0 && writer == NOBODY && bug != NO_HOLDER) return FREE;
    return LOCK | (no_more_reads ? FLAG : 0) | readers << 54 | writer;
}
Word with_reader(Word w) { return lock(readers(w) + 1, writer(w), false); }
Word without_reader(Word w) { return lock(readers(w) - 1, writer(w), readers(w) == 1 && writer(w) != NOBODY && bug != NO_FLAG); }
Word with_writer(Word w, Txn t) { return lock(readers(w), t, false); }
Word without_writer(Word w) { return lock(readers(w), NOBODY, false); }

// ---- the engine: each row is the place of its latest version
struct Engine {
    const uint64_t most;
    std::vector<std::atomic<Word>> end;
    std::vector<std::atomic<bool>> aborted;
    std::atomic<size_t> rows[8], versions{8};
    std::atomic<uint64_t> txns{1}, clock{1}, lines{0}, exchanges{0};
    std::mutex notes; // of the book and the log
    std::vector<hek_word> book;
    std::vector<uint8_t> over;
    std::vector<uint64_t> over_line;
    FILE *log = nullptr;
    uint64_t faults = 0, first_line = 0;
    std::string first;

    explicit Engine(uint64_t most) : most(most), end(most + 64), aborted(2 * most), book(most + 64), over(2 * most), over_line(2 * most) {
        for (auto &word : end) word = FREE;
        for (size_t row = 0; row < 8; row++) rows[row] = row;
    }
    void fault(const char *what, uint64_t line, size_t version, Txn t) {
        if (faults++ > 0 && line >= first_line) return;
        first_line = line;
        first = "line " + std::to_string(line) + ": " + what + ": end-" + std::to_string(version) + " by " + std::to_string(t);
    }
    // Exchanges a word, and notes that under one lock.
    bool exchange(size_t version, Word before, Word after, Txn t) {
        std::lock_guard<std::mutex> hold(notes);
        if (!end[version].compare_exchange_strong(before, after)) return false;
        uint64_t line = ++lines;
        exchanges++;
        if (log) fprintf(log, "end-%zu %016" PRIX64 " %016" PRIX64 " %" PRIu64 "\n", version, before, after, t);
        hek_noted noted = hek_note(&book[version], t, before, after, over.data(), over.size());
        if (noted.fault != HEK_FINE) fault(FAULTS[noted.fault], line, version, t);
        return true;
    }
    // From here on others may take the name of an aborted transaction out of a word.
    void end_of(Txn t, bool has_aborted) {
        std::lock_guard<std::mutex> hold(notes);
        over_line[t] = ++lines;
        if (log) fprintf(log, "over %" PRIu64 "\n", t);
        over[t] = 1;
        aborted[t] = has_aborted;
    }
    // Whether a transaction that is over holds a version: this one, or any if it is 0. An aborted one may still be giving back.
    void find_leak(size_t version, Txn only) {
        std::lock_guard<std::mutex> hold(notes);
        Txn t = hek_leaked(&book[version], over.data(), over.size());
        if (t != 0 && (t == only || only == 0)) fault("leaked", over_line[t], version, t);
    }
};

struct Transaction {
    Engine &engine;
    Txn t;
    std::vector<size_t> reads, writes;

    // Takes a read lock or the write lock of a version; false if the transaction must abort. A name of an aborted writer goes out.
    bool take(size_t version, bool to_write) {
        for (;;) {
            Word before = engine.end[version], word = before;
            auto own = std::find(reads.begin(), reads.end(), version);
            if (has_ended(word)) return false;
            if (writer(word) == t && (to_write || bug != OWN_READ)) return true;
            if (!to_write && own != reads.end()) return true;
            if (writer(word) != NOBODY && (engine.aborted[writer(word)] || (bug == TWO_WRITERS && t % 16 == 0))) word = without_writer(word);
            if (to_write ? writer(word) != NOBODY : word & FLAG && word & LOCK) return false;
            if (to_write && own != reads.end()) word = without_reader(word);
            if (!engine.exchange(version, before, to_write ? with_writer(word, t) : with_reader(word), t)) continue;
            if (to_write && own != reads.end()) reads.erase(own);
            (to_write ? writes : reads).push_back(version);
            return true;
        }
    }
    void drop_reads() {
        for (size_t version : reads)
            for (bool done = false; !done;) {
                Word before = engine.end[version];
                if (bug == LOST_DECREMENT) std::this_thread::yield();
                done = readers(before) == 0 || engine.exchange(version, before, without_reader(before), t) || bug == LOST_DECREMENT;
            }
        if (bug != NEVER_CAME || reads.empty() || t % 16 != 0) return;
        Word before = engine.end[reads[0]];
        if (readers(before) > 0) engine.exchange(reads[0], before, without_reader(before), t);
    }
    void abort() {
        engine.end_of(t, true);
        if (bug != NEVER_GOES) drop_reads();
        for (size_t version : writes)
            for (Word before; writer(before = engine.end[version]) == t;) engine.exchange(version, before, without_writer(before), t);
    }
    // Waits until nobody else reads what it wrote over; not for ever, since two may wait for one another.
    bool may_commit() {
        for (int tries = 0; tries < 200; tries++, std::this_thread::yield()) {
            bool waits = false;
            for (size_t version : writes) waits |= readers(engine.end[version]) > 0;
            if (!waits) return true;
        }
        return false;
    }
    void commit() {
        Word time = engine.clock++;
        drop_reads();
        for (size_t version : writes) {
            int tries = 1000000; // a reader that came meanwhile goes soon
            for (Word before; tries-- > 0 && writer(before = engine.end[version]) == t; std::this_thread::yield())
                if (readers(before) == 0) engine.exchange(version, before, time, t);
            size_t next = engine.versions++;
            for (auto &row : engine.rows)
                if (row == version) row = next;
        }
        engine.end_of(t, false);
    }
    void run(std::mt19937_64 &draw) {
        for (int operations = 1 + draw() % 4; operations > 0; operations--, std::this_thread::yield())
            if (!take(engine.rows[draw() % 8], draw() % 2)) return finish(false);
        finish(may_commit());
    }
    void finish(bool commits) {
        commits ? commit() : abort();
        for (size_t version : reads) engine.find_leak(version, t);
        for (size_t version : writes) engine.find_leak(version, t);
    }
};

int main(int words, char **word) {
    uint64_t threads = 4, lines = 32000, seed = 1;
    const char *log = nullptr;
    for (int i = 1; i + 1 < words; i += 2) {
        std::string name = word[i], value = word[i + 1];
        if (name == "--threads") threads = std::stoull(value);
        if (name == "--lines") lines = std::stoull(value);
        if (name == "--seed") seed = std::stoull(value);
        if (name == "--log") log = word[i + 1];
        for (int b = 0; name == "--bug" && b < 8; b++)
            if (value == BUGS[b]) bug = Bug(b);
    }
    Engine engine(lines);
    if (log) engine.log = fopen(log, "w");
    std::vector<std::thread> all;
    for (uint64_t n = 0; n < threads; n++)
        all.emplace_back([&, n] {
            std::mt19937_64 draw(seed * 1000 + n);
            while (engine.lines < lines) Transaction{engine, engine.txns++, {}, {}}.run(draw);
        });
    for (auto &thread : all) thread.join();
    for (size_t version = 0; version < engine.book.size(); version++) engine.find_leak(version, 0);
    if (engine.log) fclose(engine.log);
    if (engine.faults) fprintf(stderr, "%s\n", engine.first.c_str());
    printf("%" PRIu64 " exchanges, %" PRIu64 " transactions\n", engine.exchanges.load(), engine.txns - 1);
    return engine.faults ? 3 : 0;
}
