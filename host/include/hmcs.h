/* Lyumadeon: a proved step model of the hierarchical MCS lock, for C (99 and later) and C++.
 *
 * The library is for x86-64 Linux. Its code has no unwind tables: no exception can pass through it, and a debugger or profiler that walks the
 * stack may stop in it. Every function returns for every input, writes only what its description names, and keeps no state: no allocation, no
 * globals, no locks. A plugin should not export it: the CMake target hmcs::hmcs and the flags of pkg-config see to that.
 *
 * Pointers are the only thing that no function can test. A buffer must be valid for its length, and may be null if the length is 0. The
 * pointers to a state, a place, a length, allowances or numbers under way must be valid, aligned and not null. What the pointers of one call
 * point to must not overlap. Two calls may run at once unless one writes what the other reads or writes. hmcs_run_file and hmcs_run_many need
 * 160 KB of stack, hmcs_check_steps 64 KB, hmcs_run_waits, hmcs_run_waits_on and hmcs_run_kinds 56 KB, every other function at most 36 KB.
 * Arguments and result take up to 19 KB more in the caller.
 *
 * Compare two states field by field, never by memcmp: struct hmcs_state has padding, and so do struct hmcs_text_reply, struct hmcs_journal_answer,
 * struct hmcs_waits_reply, struct hmcs_kinds_reply and struct hmcs_steps_reply.
 */
#ifndef HMCS_H
#define HMCS_H

#include <stddef.h>
#include <stdint.h>

/* The version, defined only here. HMCS_VERSION is the version as text, such as "3.0.0". */
#define HMCS_VERSION_MAJOR 3
#define HMCS_VERSION_MINOR 0
#define HMCS_VERSION_PATCH 0
#define HMCS_VERSION_TEXT(major, minor, patch) #major "." #minor "." #patch
#define HMCS_VERSION_OF(major, minor, patch) HMCS_VERSION_TEXT(major, minor, patch)
#define HMCS_VERSION HMCS_VERSION_OF(HMCS_VERSION_MAJOR, HMCS_VERSION_MINOR, HMCS_VERSION_PATCH)
#define HMCS_VERSION_NUMBER (HMCS_VERSION_MAJOR * 10000 + HMCS_VERSION_MINOR * 100 + HMCS_VERSION_PATCH) /* as hmcs_version() returns it */

/* Texts are inline functions of this header. The installed library also exports them as functions, for other languages. */
#ifndef HMCS_TEXT
#define HMCS_TEXT static inline
#endif

#ifdef __cplusplus
extern "C" {
#endif

enum {
    HMCS_DOMAINS = 64,          /* slots for domains; domain 0 is the root */
    HMCS_THREADS = 256,         /* slots for threads */
    HMCS_RECORDS = 320,         /* a thread's record has the thread's number, domain d's is 256 + d */
    HMCS_SCHEDULE_ROOM = 32768, /* most turns in the schedule of a lock file */
    HMCS_LISTING_ROOM = 131111  /* enough bytes of output for the listing of every lock file: proved never to give 14 */
};

/* A tree with its threads. Unused slots, and the root's parent and threshold, are not read. */
typedef struct hmcs_tree {
    uint32_t domains;                  /* 1 to 64 */
    uint32_t threads;                  /* 1 to 256 */
    uint8_t parents[HMCS_DOMAINS];     /* of each domain but the root, one with a lower number */
    uint16_t thresholds[HMCS_DOMAINS]; /* of each domain but the root, 1 to 65,535 */
    uint8_t homes[HMCS_THREADS];       /* of each thread, a domain without child domains; each such domain is some thread's home */
    uint32_t ticket_root;              /* 0: the root is a queue; any other number: a ticket lock */
} hmcs_tree;

/* Rows of the step table (SPECIFICATION.md). A thread's place names one. */
enum hmcs_row {
    HMCS_ROW_IDLE = 0,
    HMCS_ROW_PREP = 1,
    HMCS_ROW_SWAP = 2,
    HMCS_ROW_LINK = 3,
    HMCS_ROW_WAIT = 4,
    HMCS_ROW_INSIDE = 5,
    HMCS_ROW_CHECK = 6,
    HMCS_ROW_HELP = 7,
    HMCS_ROW_CAS = 8,
    HMCS_ROW_LINGER = 9,
    HMCS_ROW_GRANT = 10,
    HMCS_ROW_DRAW = 11,  /* this and the next two only at a ticket root: takes a ticket */
    HMCS_ROW_WATCH = 12, /* waits until the grant is its ticket */
    HMCS_ROW_RAISE = 13  /* shows the next ticket */
};

/* The name of a row, and what the next step of a thread there does, as text. */
HMCS_TEXT const char *hmcs_row_name(uint32_t row) {
    switch (row) {
    case HMCS_ROW_IDLE: return "Idle";
    case HMCS_ROW_PREP: return "Prep";
    case HMCS_ROW_SWAP: return "Swap";
    case HMCS_ROW_LINK: return "Link";
    case HMCS_ROW_WAIT: return "Wait";
    case HMCS_ROW_INSIDE: return "Inside";
    case HMCS_ROW_CHECK: return "Check";
    case HMCS_ROW_HELP: return "Help";
    case HMCS_ROW_CAS: return "Cas";
    case HMCS_ROW_LINGER: return "Linger";
    case HMCS_ROW_GRANT: return "Grant";
    case HMCS_ROW_DRAW: return "Draw";
    case HMCS_ROW_WATCH: return "Watch";
    case HMCS_ROW_RAISE: return "Raise";
    default: return "no row has this number";
    }
}

HMCS_TEXT const char *hmcs_row_text(uint32_t row) {
    switch (row) {
    case HMCS_ROW_IDLE: return "sets out";
    case HMCS_ROW_PREP: return "prepares its record";
    case HMCS_ROW_SWAP: return "joins the queue";
    case HMCS_ROW_LINK: return "links itself to the one ahead";
    case HMCS_ROW_WAIT: return "looks at its status";
    case HMCS_ROW_INSIDE: return "leaves";
    case HMCS_ROW_CHECK: return "compares its count with the threshold";
    case HMCS_ROW_HELP: return "looks for the next in the queue";
    case HMCS_ROW_CAS: return "empties the queue if it is the last";
    case HMCS_ROW_LINGER: return "waits for the next to link itself";
    case HMCS_ROW_GRANT: return "grants the next in the queue";
    case HMCS_ROW_DRAW: return "draws a ticket";
    case HMCS_ROW_WATCH: return "looks at the grant";
    case HMCS_ROW_RAISE: return "raises the grant";
    default: return "no row has this number";
    }
}

/* Where the threads are: one array for each part of a place, indexed by thread. A part that the row does not have is 0. */
typedef struct hmcs_places {
    uint8_t rows[HMCS_THREADS];    /* enum hmcs_row */
    uint8_t domains[HMCS_THREADS]; /* 0 for Idle and Inside, and for Draw, Watch and Raise, which are at the root */
    uint16_t peers[HMCS_THREADS];  /* Link: the record before; Grant: the granted record. The record's number itself, not + 1 */
    uint64_t words[HMCS_THREADS];  /* Grant: the status word to write */
} hmcs_places;

/* The largest value of a counter of a lock state, 2^63. */
#define HMCS_MOST_COUNTED (UINT64_C(1) << 63)

/* A lock state. A tail or a next is 0 for none, else a record's number + 1. ticket and grant belong to a ticket lock at the root; they are 0 at a
 * queue root. A tenure of a domain is a period at the head of the queue above it (at a ticket root, one in which the grant is its ticket). Its length
 * is how many of the domain's members, one after another, have the lock in that period, counted when it is passed on. No step reads the counters
 * entries, tenures and longest; those of the root and of unused slots are 0. A state of zeros is fresh; at a ticket root it has start 0. */
typedef struct hmcs_state {
    uint16_t tails[HMCS_DOMAINS];
    uint16_t nexts[HMCS_RECORDS];
    uint64_t statuses[HMCS_RECORDS];
    hmcs_places places;
    uint16_t ticket;                /* the next ticket to draw; the one after 65,535 is 0 */
    uint16_t grant;                 /* the ticket that may enter */
    uint64_t entries[HMCS_DOMAINS]; /* of each domain but the root, the entries of the threads under it */
    uint64_t tenures[HMCS_DOMAINS]; /* how many tenures have started */
    uint64_t longest[HMCS_DOMAINS]; /* the longest of them, including the current one; at most the threshold */
} hmcs_state;

/* Status words. */
#define HMCS_STATUS_COHORT_START UINT64_C(1)
#define HMCS_STATUS_ACQUIRE_PARENT (UINT64_MAX - 1)
#define HMCS_STATUS_WAIT UINT64_MAX
#define HMCS_STATUS_UNLOCKED UINT64_C(0) /* at the root */
#define HMCS_STATUS_LOCKED UINT64_C(1)   /* at the root */

/* What an answer's number means; 0 means accepted. The sentence says what the place is; otherwise it is 0. */
enum hmcs_refusal {
    HMCS_ACCEPTED = 0,
    HMCS_FILE_TOO_LONG = 1,       /* The lock file is longer than 65,536 bytes, or would be. */
    HMCS_FILE_CUT = 2,            /* The lock file ends inside a field or where one is still due, the place being its length. */
    HMCS_FILE_BIT = 3,            /* A bit map has a bit set that has no meaning, the place being its byte. */
    HMCS_BAD_DOMAINS = 4,         /* There are no domains, or more than 64. */
    HMCS_BAD_THREADS = 5,         /* There are no threads, or more than 256. */
    HMCS_BAD_PARENT = 6,          /* A domain other than 0 has a parent not below its own number, the place being the domain. */
    HMCS_TOO_DEEP = 7,            /* A domain lies deeper than level 6, the root being level 1, the place being the domain. */
    HMCS_NO_THRESHOLD = 8,        /* A domain other than 0 has threshold 0, the place being the domain. For a rate: a threshold is 0, place 1 or 2. */
    HMCS_BAD_HOME = 9,            /* A home is not a domain of the tree or has child domains, the place being the thread. */
    HMCS_BAD_STATE = 10,          /* The state handed in is not well formed (SPECIFICATION.md); or a counter of the root or of an unused slot
                                * is not 0, a longest tenure is above the threshold, or a counter is above HMCS_MOST_COUNTED. */
    HMCS_SCHEDULE_LONG = 11,      /* The schedule has more than 65,536 turns. */
    HMCS_BAD_ENTRY = 12,          /* A thread number is not below the number of threads, the place being its position in the schedule from 0. */
    HMCS_TRACE_SHORT = 13,        /* The trace buffer has fewer elements than the schedule. */
    HMCS_OUTPUT_SHORT = 14,       /* The output buffer is shorter than the listing. */
    HMCS_TEXT_WRONG = 15,         /* The text leaves the grammar, the place being the first byte that no text could continue with, or the length. */
    HMCS_EMPTY_DOMAIN = 16,       /* A domain has no thread under it, the place being the lowest such domain. Tested directly after 9. */
    HMCS_FILE_SHORT = 17,         /* The file buffer is shorter than the lock file. */
    HMCS_WAITS_BUFFER_SHORT = 18, /* The row buffer of waits holds fewer rows than threads plus one. */
    HMCS_COUNTER_FULL = 19,       /* A step would push a counter past HMCS_MOST_COUNTED, the place being its position in the schedule from 0. Tested last. */
    HMCS_CHAIN_SHORT = 20,        /* The chain buffer has fewer elements than there are threads. */
    HMCS_NO_CHAIN = 21,           /* A thread of the chain waits for nobody, for several, or for one that is already on it. */
    HMCS_LENGTHS_WRONG = 22,      /* The schedules' lengths do not add up to the turns given. */
    HMCS_ROWS_SHORT = 23,         /* The row buffer holds fewer rows than there are schedules. */
    HMCS_BAD_TIME = 24,           /* A passing time is not a number from 1/1024 to 1,048,576, the place being 1 to 3. */
    HMCS_JOURNAL_BROKEN = 25,     /* A journal entry is cut off or has another bit set, the place being its first byte. */
    HMCS_OTHER_KIND = 26,         /* The kind that is named for a step is not the step's, the place being the journal entry's first byte, or its position from 0
                                * in a list of steps. */
    HMCS_BAD_UNDER_WAY = 27,      /* A number of an attempt under way is above HMCS_MOST_COUNTED, or is not 0 after the last thread, the place being the
                                * thread. Tested last before 19. */
    HMCS_KINDS_SHORT = 28,        /* The buffer of kinds holds fewer rows than the schedule has turns. Tested last before 19. */
    HMCS_OTHER_DOMAIN = 29,       /* The domain that is named for a step is not the step's, the place being its position from 0. */
    HMCS_LISTS_UNEQUAL = 30       /* Lists that belong together are not of one length. */
};

/* The sentence of a refusal number. */
HMCS_TEXT const char *hmcs_refusal_text(uint32_t number) {
    switch (number) {
    case HMCS_ACCEPTED: return "accepted";
    case HMCS_FILE_TOO_LONG: return "the lock file is longer than 65,536 bytes";
    case HMCS_FILE_CUT: return "the lock file ends inside a field or where one is still due";
    case HMCS_FILE_BIT: return "a bit map has a bit set that has no meaning";
    case HMCS_BAD_DOMAINS: return "there are no domains, or more than 64";
    case HMCS_BAD_THREADS: return "there are no threads, or more than 256";
    case HMCS_BAD_PARENT: return "a domain other than 0 has a parent not below its own number";
    case HMCS_TOO_DEEP: return "a domain lies deeper than level 6";
    case HMCS_NO_THRESHOLD: return "a domain other than 0 has threshold 0, or a threshold of a rate is 0";
    case HMCS_BAD_HOME: return "a home is not a domain of the tree or has child domains";
    case HMCS_BAD_STATE: return "the state handed in is not well formed, or its counters are not";
    case HMCS_SCHEDULE_LONG: return "the schedule has more than 65,536 turns";
    case HMCS_BAD_ENTRY: return "a thread number is not below the number of threads";
    case HMCS_TRACE_SHORT: return "the trace buffer has fewer elements than the schedule";
    case HMCS_OUTPUT_SHORT: return "the output buffer is shorter than the listing";
    case HMCS_TEXT_WRONG: return "the text leaves the grammar of trees";
    case HMCS_EMPTY_DOMAIN: return "a domain has no thread under it";
    case HMCS_FILE_SHORT: return "the file buffer is shorter than the lock file";
    case HMCS_WAITS_BUFFER_SHORT: return "the row buffer holds fewer rows than threads plus one";
    case HMCS_COUNTER_FULL: return "a step would push a counter past 2^63";
    case HMCS_CHAIN_SHORT: return "the chain buffer has fewer elements than there are threads";
    case HMCS_NO_CHAIN: return "a thread of the chain waits for nobody, for several, or for one that is already on it";
    case HMCS_LENGTHS_WRONG: return "the lengths do not add up to the turns given";
    case HMCS_ROWS_SHORT: return "the row buffer holds fewer rows than there are schedules";
    case HMCS_BAD_TIME: return "a passing time is not a number from 1/1024 to 1,048,576";
    case HMCS_JOURNAL_BROKEN: return "a journal entry is cut off or has another bit set";
    case HMCS_OTHER_KIND: return "the kind that a journal entry names is not the step's";
    case HMCS_BAD_UNDER_WAY: return "a number of an attempt under way is above 2^63, or is not 0 after the last thread";
    case HMCS_KINDS_SHORT: return "the buffer of kinds holds fewer rows than the schedule has turns";
    case HMCS_OTHER_DOMAIN: return "the domain that is named for a step is not the step's";
    case HMCS_LISTS_UNEQUAL: return "lists that belong together are not of one length";
    default: return "no refusal has this number";
    }
}

/* Only number and place. */
typedef struct hmcs_answer {
    uint32_t number;
    uint32_t place;
} hmcs_answer;

/* What a step was, by its kind. */
enum hmcs_kind {
    HMCS_STAY = 0,          /* it changed nothing */
    HMCS_OTHER_MOVE = 1,    /* any other move */
    HMCS_ROOT_ENTRY = 2,    /* the thread entered through the root */
    HMCS_PASSED_ENTRY = 3,  /* it entered; the lock was passed on within its home */
    HMCS_CROSSED_ENTRY = 4, /* it entered; the lock was passed on within a domain between its home and the root */
    HMCS_LEAVING = 5        /* it was inside and left */
};

/* A kind as text. */
HMCS_TEXT const char *hmcs_kind_text(uint32_t kind) {
    switch (kind) {
    case HMCS_STAY: return "stays";
    case HMCS_OTHER_MOVE: return "moves on";
    case HMCS_ROOT_ENTRY: return "enters through the root";
    case HMCS_PASSED_ENTRY: return "enters, passed on at home";
    case HMCS_CROSSED_ENTRY: return "enters, passed on between home and root";
    case HMCS_LEAVING: return "leaves";
    default: return "no kind has this number";
    }
}

/* What a step in place returns: number and place, the kind, and the domain where the step happened (the thread's home if it was idle or inside). If
 * refused, kind and domain are 0. */
typedef struct hmcs_step_answer {
    uint32_t number;
    uint32_t place;
    uint32_t kind;
    uint32_t domain;
} hmcs_step_answer;

/* What the fresh call returns. Below it, what a step by value returns: the same as a step in place, and the state. */
typedef struct hmcs_fresh_reply {
    uint32_t number;
    uint32_t place;
    hmcs_state state;
} hmcs_fresh_reply;

typedef struct hmcs_step_reply {
    uint32_t number;
    uint32_t place;
    uint32_t kind;
    uint32_t domain;
    hmcs_state state;
} hmcs_step_reply;

/* What a run returns: its steps (including stays), entries and stays, and how the entries split. Root entries came through the root, passed entries
 * were passed on within the thread's home, crossed entries within a domain between home and root. If refused, all counts are 0. */
typedef struct hmcs_run_reply {
    uint32_t number;
    uint32_t place;
    uint32_t steps;
    uint32_t entries;
    uint32_t stays;
    uint32_t root;
    uint32_t passed;
    uint32_t crossed;
    hmcs_state state;
} hmcs_run_reply;

/* A fresh lock of the tree. At a ticket root both counters are the start, which may be any number; at a queue root the start is not used. Refused by
 * 4 to 9 and 16. Even if refused, the state is fresh, with start 0. */
hmcs_fresh_reply hmcs_fresh(hmcs_tree tree, uint16_t start);

/* One step of a thread. Refused by 4 to 9, 16, 10, 12 and 19; then kind and domain are 0 and the state is unchanged. */
hmcs_step_reply hmcs_step(hmcs_tree tree, hmcs_state state, uint16_t thread);

/* The steps of a schedule, one after another. If accepted, the first reply.entries elements of the trace are the entering threads, and the rest is
 * not written. The trace must have at least as many elements as the schedule. Refused by 4 to 9, 16, 10 to 13 and 19; then no step is taken, the
 * counts are 0, and state and trace are unchanged. */
hmcs_run_reply hmcs_run(hmcs_tree tree, hmcs_state state, const uint16_t *schedule, size_t schedule_length, uint16_t *trace, size_t trace_length);

/* Whether the calls accept a state that a host kept: refused only by 4 to 9, 16 and 10. The answer is that of hmcs_run for a schedule without turns.
 * An accepted state may still be refused by 19, which depends on the steps. */
hmcs_answer hmcs_check_state(hmcs_tree tree, hmcs_state state);

/* The numbers in a row of kinds: the step's kind and its domain, in this order, as in hmcs_step_answer. */
enum { HMCS_NUMBERS_PER_KINDS_ROW = 2 };

/* What a run with kinds returns: what hmcs_run returns, and how many rows were written, one for each turn; 0 if refused. */
typedef struct hmcs_kinds_reply {
    uint32_t number;
    uint32_t place;
    uint32_t steps;
    uint32_t entries;
    uint32_t stays;
    uint32_t root;
    uint32_t passed;
    uint32_t crossed;
    uint32_t rows;
    hmcs_state state;
} hmcs_kinds_reply;

/* Takes the steps of a schedule as hmcs_run does, and writes a row with kind and domain for each step: what hmcs_step would return for it. There is
 * one row for each turn, in schedule order, at the front of the rows; nothing after them is written. A buffer of k numbers holds k / 2 rows, rounded
 * down. Refused as hmcs_run is, with 28 between 13 and 19; then the counts are 0, and state, trace and rows are unchanged. */
hmcs_kinds_reply hmcs_run_kinds(hmcs_tree tree, hmcs_state state, const uint16_t *schedule, size_t schedule_length, uint16_t *trace, size_t trace_length,
                                uint16_t *rows, size_t rows_length);

/* The numbers in a row of waits: attempts finished, total wait, largest wait, and the mean's numerator and denominator, in this order. */
enum { HMCS_NUMBERS_PER_WAITS_ROW = 5 };

/* What a run with waits returns: what hmcs_run returns, and how many rows were written, one more than there are threads; 0 if refused. */
typedef struct hmcs_waits_reply {
    uint32_t number;
    uint32_t place;
    uint32_t steps;
    uint32_t entries;
    uint32_t stays;
    uint32_t root;
    uint32_t passed;
    uint32_t crossed;
    uint32_t rows;
    hmcs_state state;
} hmcs_waits_reply;

/* Takes the steps of a schedule as hmcs_run does, and reports the waits of the attempts that begin and finish within the run. An attempt of a thread
 * begins with its Swap at home (with its Draw if its home is a ticket root) and finishes with its next entry, which may be the same step. Its wait is
 * the number of other threads' entries between the two. At the front of the rows there is a row for each thread, in order, then one for all threads
 * together; nothing after them is written. A mean is total over attempts in lowest terms. A row without an attempt is all 0, and a total of 0 over
 * some attempts has the mean 0 over 1. A buffer of k numbers holds k / 5 rows, rounded down. Refused as hmcs_run is, with 18 between 13 and 19; then
 * the counts are 0, and state, trace and rows are unchanged. */
hmcs_waits_reply hmcs_run_waits(hmcs_tree tree, hmcs_state state, const uint16_t *schedule, size_t schedule_length, uint16_t *trace, size_t trace_length,
                                uint64_t *rows, size_t rows_length);

/* The same, starting with attempts under way. So a history may take several calls, each from the state and the numbers that the previous call left.
 * under_way has HMCS_THREADS elements and is read and written: under_way[i] is 0 if thread i has no attempt under way, and otherwise one more than
 * the other threads' entries since that attempt began. All 0 is the start of a history, and then the rows are those of hmcs_run_waits. The rows cover
 * the attempts that finish within the run, whenever they began. Several calls give what one call on all their turns would give: attempts and totals
 * add up, the largest wait is the largest of all calls, and the numbers under way are the same. In the last row, UINT64_MAX also stands for a larger
 * total, and the mean is then computed from UINT64_MAX. No total is larger if the numbers passed in, plus the run's entries times the number of
 * threads, add up to at most UINT64_MAX. Refused as hmcs_run_waits is, with 27 between 18 and 19; then under_way is unchanged too. */
hmcs_waits_reply hmcs_run_waits_on(hmcs_tree tree, hmcs_state state, const uint16_t *schedule, size_t schedule_length, uint16_t *trace, size_t trace_length,
                                   uint64_t *rows, size_t rows_length, uint64_t *under_way);

/* Writes a fresh lock to the host's own state; the start is as above. Refused by 4 to 9 and 16; then the state is unchanged. */
hmcs_answer hmcs_fresh_in_place(hmcs_tree tree, hmcs_state *state, uint16_t start);

/* One step of the host's own state, in place: the same as hmcs_step. If refused, the state is unchanged. */
hmcs_step_answer hmcs_step_in_place(hmcs_tree tree, hmcs_state *state, uint16_t thread);

/* Why a thread waits: writes the chain of threads it waits for, itself first, at the front of the chain buffer, and nothing after it. A thread
 * waiting in a queue waits for the thread that acts for the record ahead of its own; in Linger, for the thread that is in Link with its record; in
 * Watch, for the thread that acts at the root with the ticket just before its own (SPECIFICATION.md, "Why a thread waits"). The chain ends at a
 * thread whose next step is not a stay, so the chain of a thread that can move is that thread alone. The buffer must have at least as many elements
 * as there are threads. Returns the number; *place is its place, *length the chain's length, 0 if refused. Refused by 4 to 9, 16, 10, 12, 20 and 21;
 * then the buffer is unchanged. No state that is reached from a fresh one is refused by 21, and from such a state each thread of the chain can only
 * stay while the next one in the chain takes no step. */
uint32_t hmcs_chain(hmcs_tree tree, hmcs_state state, uint16_t thread, uint16_t *chain, size_t chain_length, uint32_t *place, uint32_t *length);

/* The allowances of a tree: allowances[d] becomes the allowance of domain d, the number of entries that the threads under d may make while another
 * member of its parent is waiting for its grant. For a domain without child domains it is the threshold, otherwise the threshold times the largest
 * allowance of a child domain, or UINT64_MAX if that is larger. The root's becomes 0, since the root is not a member, and so do those after the last
 * domain. The buffer has HMCS_DOMAINS elements. Refused by 4 to 9 and 16; then it is unchanged. */
hmcs_answer hmcs_allowances(hmcs_tree tree, uint64_t *allowances);

/* The longest wait of each thread, W: bounds[i] becomes the largest number of entries of others that thread i waits for in one attempt as long as
 * nobody stalls, or UINT64_MAX if that is larger; those after the last thread become 0. It is proved for every schedule from a fresh lock: just
 * before another thread enters, the chain of hmcs_chain says which thread i waits for in the end, and at most W entries during an attempt are made by
 * that thread. Any other entry bypasses a thread that could have moved and had no turn, and no number bounds those. So if a thread enters only when
 * all others wait for it, W is the longest wait. W is the sum, from the thread's home up, of how often the other members of each domain may enter
 * (SPECIFICATION.md). The buffer has HMCS_THREADS elements. Refused by 4 to 9 and 16; then it is unchanged. */
hmcs_answer hmcs_wait_bounds(hmcs_tree tree, uint64_t *bounds);

/* What hmcs_rounds returns: number and place, rounds and turns; if refused, rounds and turns are 0. */
typedef struct hmcs_rounds_reply {
    uint32_t number;
    uint32_t place;
    uint64_t rounds;
    uint64_t turns;
} hmcs_rounds_reply;

/* The number of rounds within which every thread enters. A round is a stretch of a schedule in which every thread takes one or more turns. From every
 * state that is reached from a fresh one, any reply.rounds consecutive rounds contain an entry of every thread. With round robin, where each thread
 * has one turn per round, that is reply.turns turns, the rounds times the threads. UINT64_MAX also stands for any larger number. Fewer rounds may be
 * enough. A turn is one step of a thread, of any duration. Refused by 4 to 9 and 16. */
hmcs_rounds_reply hmcs_rounds(hmcs_tree tree);

/* The numbers in a row: number, place, steps, entries, stays, root, passed and crossed, in this order, as in hmcs_run_reply. */
enum { HMCS_NUMBERS_PER_MANY_ROW = 8 };

/* What a call with many schedules returns: number and place of the whole call, and how many rows were written, one for each schedule; 0 if refused. */
typedef struct hmcs_many_reply {
    uint32_t number;
    uint32_t place;
    size_t rows;
} hmcs_many_reply;

/* Runs many schedules on one tree. Their turns are concatenated in entries: lengths_length schedules, the first with lengths[0] turns, and so on.
 * Each runs from its own fresh lock (of start 0). Its row is what hmcs_run would answer for it alone, with a trace buffer of its length. The rows are
 * in the order of the schedules, at the front of the buffer; nothing after them is written, and no trace is kept. If a schedule has more than 65,536
 * turns (11) or a turn that names no thread (12, the place being its position in that schedule), its row says so, with counts 0, and the others still
 * run. The whole call is refused by 4 to 9 and 16, then by 22, then by 23; then the rows are unchanged. A buffer of k numbers holds k / 8 rows,
 * rounded down. No schedules and no turns are accepted too. */
hmcs_many_reply hmcs_run_many(hmcs_tree tree, const uint32_t *lengths, size_t lengths_length, const uint16_t *entries, size_t entries_length, uint32_t *rows,
                              size_t rows_length);

/* What the check of a journal returns: number and place. The place is a position in the journal, which may have any length. */
typedef struct hmcs_journal_answer {
    uint32_t number;
    size_t place;
} hmcs_journal_answer;

/* Bits of a journal entry's bit map. */
enum {
    HMCS_JOURNAL_THREAD = 1, /* two bytes follow, low first: the thread; else it is the previous journal entry's, 0 at first */
    HMCS_JOURNAL_KIND = 2    /* then one byte follows: the step's kind, HMCS_STAY to HMCS_LEAVING; else it is HMCS_STAY */
};

/* Checks a journal that a host wrote of its own steps. Each journal entry is a bit map followed by the fields whose bit is set. The journal is
 * accepted exactly if the named threads, stepped one after another from a fresh lock (of start 0), give the named kinds; an empty one is accepted. It
 * may have any length. Refused by 4 to 9 and 16 for the tree, then at the first wrong journal entry, the place being its first byte: by 25 if it is
 * cut off or has another bit set, else by 12 if its thread is not in the tree, else by 26 if its kind is not the step's. */
hmcs_journal_answer hmcs_check_journal(hmcs_tree tree, const uint8_t *journal, size_t journal_length);

/* What the check of steps returns: number and place, how many steps were right, and the state after those. */
typedef struct hmcs_steps_reply {
    uint32_t number;
    size_t place;
    size_t checked;
    hmcs_state state;
} hmcs_steps_reply;

/* Checks steps that a host recorded, from a given state. Each step is a thread, a kind and a domain. The three lists have the same length, which may
 * be any number, and are accepted exactly if the threads' steps, one after another, have these kinds and domains. Refused by 4 to 9, 16 and 10, then
 * by 30 if the lengths differ; then nothing is checked and the state is unchanged. Otherwise refused at the first wrong step, the place being its
 * position from 0: by 12 if its thread is not in the tree, else by 19 if it would push a counter past HMCS_MOST_COUNTED, else by 26 if its kind is
 * not the step's, else by 29 if its domain is not. Then reply.checked is the place too, and the state is the one before that step, so hmcs_chain can
 * say why threads wait there. If accepted, reply.checked is the lists' length and the state is the one after the last step. The next piece of a trace
 * is checked from it, and the pieces give the same answer as the whole. */
hmcs_steps_reply hmcs_check_steps(hmcs_tree tree, hmcs_state state, const uint16_t *threads, size_t threads_length, const uint16_t *kinds, size_t kinds_length,
                                  const uint16_t *domains, size_t domains_length);

/* The file call: reads a lock file, runs its schedule from a fresh lock (of start 0), and writes the listing at the front of the output. Returns the
 * number; *place is its place, *length the listing's length, 0 if refused. Refused by 1 to 9, 16, 12 and 14; then the output is unchanged. With
 * HMCS_LISTING_ROOM bytes of output 14 does not occur. */
uint32_t hmcs_run_file(const uint8_t *file, size_t file_length, uint8_t *output, size_t output_length, uint32_t *place, uint32_t *length);

/* What reading a lock file returns: number and place, how many turns its schedule has, and its tree. If refused, length and all fields of the tree
 * are 0. */
typedef struct hmcs_read_reply {
    uint32_t number;
    uint32_t place;
    uint32_t length;
    hmcs_tree tree;
} hmcs_read_reply;

/* Reads a lock file without running it: returns its tree, and writes its schedule at the front of the schedule buffer, nothing after it. A buffer
 * with fewer than reply.length elements is not written; HMCS_SCHEDULE_ROOM elements are always enough. Refused by 1 to 3; then the buffer is
 * unchanged. The calls above may still refuse a tree or a schedule that was read. */
hmcs_read_reply hmcs_read_file(const uint8_t *file, size_t file_length, uint16_t *schedule, size_t schedule_length);

/* Writes the lock file of a tree and a schedule at the front of the file buffer, and nothing after it. A field is written only if its value differs
 * from what its absence means, so no lock file for them is shorter, and reading it gives the same tree, threads and schedule. A buffer of 65,536
 * bytes is always long enough. Returns the number; *place is its place, *length the file's length, 0 if refused. Refused by 4 to 9, 16, 11 and 12,
 * then by 1 if the file would be longer than 65,536 bytes, then by 17; then the buffer is unchanged. */
uint32_t hmcs_write_file(hmcs_tree tree, const uint16_t *schedule, size_t schedule_length, uint8_t *file, size_t file_length, uint32_t *place,
                         uint32_t *length);

/* What reading a text returns: number and place, and the tree. If refused, all its fields are 0. The place is a position in the text, which may have
 * any length. */
typedef struct hmcs_text_reply {
    uint32_t number;
    size_t place;
    hmcs_tree tree;
} hmcs_text_reply;

/* Reads a tree from its text, such as `(2(#2) 16(#1))`: parentheses contain either `#` and a thread count, or domains separated by one space. Each
 * domain is a threshold followed by parentheses of the same form, down to level 6. Numbers are decimal, from 1, without leading zeros, thresholds at
 * most 65,535. Domains are numbered in the order of their opening parentheses, threads leaf by leaf. No byte may come before or after the tree, not
 * even a line feed. The root is a queue. Refused by 15, 4 and 5, in this order; an accepted tree passes 4 to 9 and 16. */
hmcs_text_reply hmcs_read_text(const uint8_t *text, size_t text_length);

/* How long it takes to pass the lock on in a tree of three levels: p1 between two threads of one home, p2 between two homes below one domain, p3
 * between two such domains, across the root. All three use the same unit, which may be any; each is from 1/1024 to 1,048,576. */
typedef struct hmcs_passing_times {
    double p1;
    double p2;
    double p3;
} hmcs_passing_times;

/* The rate in entries per unit of the times; 0 if refused. */
typedef struct hmcs_rate_reply {
    uint32_t number;
    uint32_t place;
    double rate;
} hmcs_rate_reply;

/* The rate of a busy three-level lock: h1 * h2 / (p3 + (h2 - 1) * p2 + h2 * (h1 - 1) * p1). The whole-number parts are exact, then each operation is
 * rounded once, from left to right (RATE.md). h1 is the threshold of the threads' homes, h2 that of the domains between them and the root. Every bit
 * of the rate is fixed if the calling thread rounds to nearest, which is the default; flushing subnormals to zero changes nothing. Refused by 8
 * (place 1 for h1, 2 for h2), then 24 (place 1 to 3 for p1 to p3). */
hmcs_rate_reply hmcs_rate(uint16_t h1, uint16_t h2, hmcs_passing_times times);

/* The version of the linked library: HMCS_VERSION_NUMBER of its own header. */
uint32_t hmcs_version(void);

/* The structs of this header, by their index in the array that hmcs_sizes fills. */
enum hmcs_struct {
    HMCS_STRUCT_TREE = 0,
    HMCS_STRUCT_STATE = 1,
    HMCS_STRUCT_ANSWER = 2,
    HMCS_STRUCT_STEP_ANSWER = 3,
    HMCS_STRUCT_FRESH_REPLY = 4,
    HMCS_STRUCT_STEP_REPLY = 5,
    HMCS_STRUCT_RUN_REPLY = 6,
    HMCS_STRUCT_WAITS_REPLY = 7,
    HMCS_STRUCT_MANY_REPLY = 8,
    HMCS_STRUCT_ROUNDS_REPLY = 9,
    HMCS_STRUCT_JOURNAL_ANSWER = 10,
    HMCS_STRUCT_READ_REPLY = 11,
    HMCS_STRUCT_TEXT_REPLY = 12,
    HMCS_STRUCT_PASSING_TIMES = 13,
    HMCS_STRUCT_RATE_REPLY = 14,
    HMCS_STRUCT_KINDS_REPLY = 15,
    HMCS_STRUCT_STEPS_REPLY = 16,
    HMCS_STRUCTS = 32 /* unused ones have size 0 */
};

/* The size in bytes of each struct in the linked library. */
void hmcs_sizes(uint32_t sizes[HMCS_STRUCTS]);

/* The sizes according to this header, in the same order. */
static inline void hmcs_header_sizes(uint32_t sizes[HMCS_STRUCTS]) {
    int k;
    for (k = 0; k < HMCS_STRUCTS; ++k) {
        sizes[k] = 0;
    }
    sizes[HMCS_STRUCT_TREE] = sizeof(hmcs_tree);
    sizes[HMCS_STRUCT_STATE] = sizeof(hmcs_state);
    sizes[HMCS_STRUCT_ANSWER] = sizeof(hmcs_answer);
    sizes[HMCS_STRUCT_STEP_ANSWER] = sizeof(hmcs_step_answer);
    sizes[HMCS_STRUCT_FRESH_REPLY] = sizeof(hmcs_fresh_reply);
    sizes[HMCS_STRUCT_STEP_REPLY] = sizeof(hmcs_step_reply);
    sizes[HMCS_STRUCT_RUN_REPLY] = sizeof(hmcs_run_reply);
    sizes[HMCS_STRUCT_WAITS_REPLY] = sizeof(hmcs_waits_reply);
    sizes[HMCS_STRUCT_MANY_REPLY] = sizeof(hmcs_many_reply);
    sizes[HMCS_STRUCT_ROUNDS_REPLY] = sizeof(hmcs_rounds_reply);
    sizes[HMCS_STRUCT_JOURNAL_ANSWER] = sizeof(hmcs_journal_answer);
    sizes[HMCS_STRUCT_READ_REPLY] = sizeof(hmcs_read_reply);
    sizes[HMCS_STRUCT_TEXT_REPLY] = sizeof(hmcs_text_reply);
    sizes[HMCS_STRUCT_PASSING_TIMES] = sizeof(hmcs_passing_times);
    sizes[HMCS_STRUCT_RATE_REPLY] = sizeof(hmcs_rate_reply);
    sizes[HMCS_STRUCT_KINDS_REPLY] = sizeof(hmcs_kinds_reply);
    sizes[HMCS_STRUCT_STEPS_REPLY] = sizeof(hmcs_steps_reply);
}

/* Whether this header matches the linked library: the same major version, not a later one, and the same structs. If not, call no other function. */
static inline int hmcs_library_fits(void) {
    uint32_t here[HMCS_STRUCTS], there[HMCS_STRUCTS];
    const uint32_t library = hmcs_version();
    int k;
    if (library / 10000 != HMCS_VERSION_MAJOR || library / 100 < HMCS_VERSION_NUMBER / 100) {
        return 0;
    }
    hmcs_header_sizes(here);
    hmcs_sizes(there);
    for (k = 0; k < HMCS_STRUCTS; ++k) {
        if (here[k] != 0 && here[k] != there[k]) {
            return 0;
        }
    }
    return 1;
}

#ifdef __cplusplus
}
#endif

/* The layout that the library was compiled for, checked when this header is compiled as C11 or later or as C++11 or later. */
#if defined(__cplusplus) && __cplusplus >= 201103L
#define HMCS_LAYOUT(type, size, alignment) static_assert(sizeof(type) == (size) && alignof(type) == (alignment), "layout of " #type)
#define HMCS_OFFSET(type, member, offset) static_assert(offsetof(type, member) == (offset), "layout of " #type)
#elif !defined(__cplusplus) && defined(__STDC_VERSION__) && __STDC_VERSION__ >= 201112L
#define HMCS_LAYOUT(type, size, alignment) _Static_assert(sizeof(type) == (size) && _Alignof(type) == (alignment), "layout of " #type)
#define HMCS_OFFSET(type, member, offset) _Static_assert(offsetof(type, member) == (offset), "layout of " #type)
#endif
#ifdef HMCS_LAYOUT
HMCS_LAYOUT(hmcs_tree, 460, 4);
HMCS_OFFSET(hmcs_tree, parents, 8);
HMCS_OFFSET(hmcs_tree, thresholds, 72);
HMCS_OFFSET(hmcs_tree, homes, 200);
HMCS_OFFSET(hmcs_tree, ticket_root, 456);
HMCS_LAYOUT(hmcs_places, 3072, 8);
HMCS_OFFSET(hmcs_places, domains, 256);
HMCS_OFFSET(hmcs_places, peers, 512);
HMCS_OFFSET(hmcs_places, words, 1024);
HMCS_LAYOUT(hmcs_state, 7944, 8);
HMCS_OFFSET(hmcs_state, nexts, 128);
HMCS_OFFSET(hmcs_state, statuses, 768);
HMCS_OFFSET(hmcs_state, places, 3328);
HMCS_OFFSET(hmcs_state, ticket, 6400);
HMCS_OFFSET(hmcs_state, grant, 6402);
HMCS_OFFSET(hmcs_state, entries, 6408);
HMCS_OFFSET(hmcs_state, tenures, 6920);
HMCS_OFFSET(hmcs_state, longest, 7432);
HMCS_LAYOUT(hmcs_answer, 8, 4);
HMCS_OFFSET(hmcs_answer, place, 4);
HMCS_LAYOUT(hmcs_step_answer, 16, 4);
HMCS_OFFSET(hmcs_step_answer, domain, 12);
HMCS_LAYOUT(hmcs_fresh_reply, 7952, 8);
HMCS_OFFSET(hmcs_fresh_reply, state, 8);
HMCS_LAYOUT(hmcs_step_reply, 7960, 8);
HMCS_OFFSET(hmcs_step_reply, domain, 12);
HMCS_OFFSET(hmcs_step_reply, state, 16);
HMCS_LAYOUT(hmcs_run_reply, 7976, 8);
HMCS_OFFSET(hmcs_run_reply, crossed, 28);
HMCS_OFFSET(hmcs_run_reply, state, 32);
HMCS_LAYOUT(hmcs_waits_reply, 7984, 8);
HMCS_OFFSET(hmcs_waits_reply, rows, 32);
HMCS_OFFSET(hmcs_waits_reply, state, 40);
HMCS_LAYOUT(hmcs_kinds_reply, 7984, 8);
HMCS_OFFSET(hmcs_kinds_reply, rows, 32);
HMCS_OFFSET(hmcs_kinds_reply, state, 40);
HMCS_LAYOUT(hmcs_steps_reply, 7968, 8);
HMCS_OFFSET(hmcs_steps_reply, place, 8);
HMCS_OFFSET(hmcs_steps_reply, checked, 16);
HMCS_OFFSET(hmcs_steps_reply, state, 24);
HMCS_LAYOUT(hmcs_many_reply, 16, 8);
HMCS_OFFSET(hmcs_many_reply, place, 4);
HMCS_OFFSET(hmcs_many_reply, rows, 8);
HMCS_LAYOUT(hmcs_rounds_reply, 24, 8);
HMCS_OFFSET(hmcs_rounds_reply, place, 4);
HMCS_OFFSET(hmcs_rounds_reply, rounds, 8);
HMCS_OFFSET(hmcs_rounds_reply, turns, 16);
HMCS_LAYOUT(hmcs_journal_answer, 16, 8);
HMCS_OFFSET(hmcs_journal_answer, place, 8);
HMCS_LAYOUT(hmcs_read_reply, 472, 4);
HMCS_OFFSET(hmcs_read_reply, length, 8);
HMCS_OFFSET(hmcs_read_reply, tree, 12);
HMCS_LAYOUT(hmcs_text_reply, 480, 8);
HMCS_OFFSET(hmcs_text_reply, place, 8);
HMCS_OFFSET(hmcs_text_reply, tree, 16);
HMCS_LAYOUT(hmcs_passing_times, 24, 8);
HMCS_OFFSET(hmcs_passing_times, p3, 16);
HMCS_LAYOUT(hmcs_rate_reply, 16, 8);
HMCS_OFFSET(hmcs_rate_reply, place, 4);
HMCS_OFFSET(hmcs_rate_reply, rate, 8);
#undef HMCS_LAYOUT
#undef HMCS_OFFSET
#endif

#endif
