/*
 * csed.h: the stream editor sed (POSIX.1-2024, in the profile of docs/USING.md) as a C library.
 *
 * A script is run over bytes in memory, within limits that the caller sets. Nothing else is read or written: no file,
 * no stream, no environment, no locale, no clock. A byte is a character.
 *
 * Compile and link with what `pkg-config --cflags --libs csed` prints after `./install --library PREFIX`;
 * docs/EMBEDDING.md has the commands.
 *
 * Pointers. Each must be valid for the bytes that its length names, and none may be NULL, also where the length is 0. The
 * output and the report may not overlap each other or anything else that the call is given; the script, the input and the
 * limits, which are only read, may overlap. The output and the report need not be initialised.
 *
 * Ownership. All that is passed stays the caller's. Nothing is kept from one call to the next, and nothing has to be
 * released: what a call allocates it frees before it returns.
 *
 * Memory. A call asks malloc and realloc of the C library (or of the allocator that stands for them), and gives back by
 * free. The three must be those of one allocator. A run asks for 3 * space + look + 8 * queue + room bytes, for searches
 * 48 KiB and about 73 * nodes bytes, space / 8 more where the script has an expression, space / 8 and some
 * 16 * sqrt(space) * (nodes / 64 + 1) more where it has an s with the flag g or a number above 1, and for what the script
 * takes. Here nodes is what the script's largest expression has. None of it grows with the input.
 *
 * Threads. There is no state that calls share: any number of threads may call at once, each with its own output and report.
 * Don't call from a signal handler, or in the child of a fork of a process that has several threads.
 *
 * Stack. 128 KiB are enough; the tests run in 96 KiB.
 */
#ifndef CSED_H
#define CSED_H

#include <stddef.h>
#include <stdint.h>

#ifdef __cplusplus
extern "C" {
#endif

/* Flags of a call. Any other is refused (SED_BAD_LIMITS). */
#define SED_EXTENDED 1u /* the script has extended regular expressions, as with -E */
#define SED_QUIET 2u    /* default output is suppressed, as with -n */

/* What a call answers. */
enum {
    SED_DONE = 0,       /* the script ran over the whole input; of sed_check, the script may run */
    SED_REFUSED = 1,    /* the script is refused: report->fault, ->place and ->expression say why */
    SED_BAD_LIMITS = 2, /* a flag isn't known, or a limit is out of its range */
    SED_NO_MEMORY = 3,  /* a request for memory was refused */
    SED_STOPPED = 4     /* the run stopped before its time: report->cause and ->line say why */
};

/*
 * How much a run may hold and do. The program has 1048576, 4096, 65536, 16384 and UINT64_MAX.
 */
struct sed_limits {
    size_t space;   /* bytes in the pattern space, the hold space and the build space each, 1 to 2^30 */
    size_t queue;   /* entries of a and r that wait for the end of a cycle, 0 to 2^24 */
    size_t look;    /* bytes of the input that are taken at once, 1 to 2^30; 4096 is plenty */
    size_t nodes;   /* nodes of one regular expression written out, 1 to 65536 */
    uint64_t turns; /* turns of a run: starts of cycles, and commands reached; 0 to UINT64_MAX */
};

/*
 * What a call reports besides. Every call sets every field, and one that doesn't apply is 0.
 */
struct sed_report {
    size_t written;      /* bytes of the output that were written, from its front; at most room */
    size_t place;        /* SED_REFUSED: the byte of the script where the fault is, counted from 0 */
    uint64_t line;       /* SED_STOPPED: the line of the input, counted from 1, where the cause has one */
    uint32_t fault;      /* SED_REFUSED: one of SED_FAULT_.. */
    uint32_t expression; /* SED_REFUSED with SED_FAULT_EXPRESSION: one of SED_EXPRESSION_.. */
    uint32_t cause;      /* SED_STOPPED: one of SED_CAUSE_.. */
    uint32_t spare;      /* 0 */
};

/*
 * Why a script is refused: its first fault from left to right. docs/USING.md has each with its place, as S1 to S21 and
 * S23. The last is this library's own, with the place 0: a host's files aren't the script's to write, so a script with
 * `w FILE` or the flag `w FILE` is refused, unless FILE is /dev/stdout.
 */
enum {
    SED_FAULT_UNKNOWN_COMMAND = 1,
    SED_FAULT_TOO_MANY_ADDRESSES = 2,
    SED_FAULT_BAD_ADDRESS = 3,
    SED_FAULT_MISSING_TEXT = 4,
    SED_FAULT_OPEN_DELIMITER = 5,
    SED_FAULT_BAD_DELIMITER = 6,
    SED_FAULT_UNKNOWN_FLAG = 7,
    SED_FAULT_REPEATED_FLAG = 8,
    SED_FAULT_BAD_NUMBER = 9,
    SED_FAULT_UNKNOWN_LABEL = 10,
    SED_FAULT_REPEATED_LABEL = 11,
    SED_FAULT_MISSING_LABEL = 12,
    SED_FAULT_OPEN_BLOCK = 13,
    SED_FAULT_STRAY_CLOSE = 14,
    SED_FAULT_TRAILING_BYTES = 15,
    SED_FAULT_LENGTHS_DIFFER = 16,
    SED_FAULT_REPEATED_BYTE = 17,
    SED_FAULT_BAD_ESCAPE = 18,
    SED_FAULT_MISSING_NAME = 19,
    SED_FAULT_GROUP_ABSENT = 20,
    SED_FAULT_EXPRESSION = 21,
    SED_FAULT_FLAG_ON_EMPTY = 23,
    SED_FAULT_WRITES_FILES = 100
};

/* What is wrong with a regular expression: E1 to E13 of docs/USING.md. */
enum {
    SED_EXPRESSION_OPEN_BRACKET = 1,
    SED_EXPRESSION_UNKNOWN_CLASS = 2,
    SED_EXPRESSION_LONG_COLLATING = 3,
    SED_EXPRESSION_BAD_RANGE = 4,
    SED_EXPRESSION_OPEN_GROUP = 5,
    SED_EXPRESSION_STRAY_CLOSE = 6,
    SED_EXPRESSION_BAD_INTERVAL = 7,
    SED_EXPRESSION_NOTHING_TO_REPEAT = 8,
    SED_EXPRESSION_LAST_BACKSLASH = 9,
    SED_EXPRESSION_UNKNOWN_ESCAPE = 10,
    SED_EXPRESSION_BACK_REFERENCE = 11,
    SED_EXPRESSION_TOO_MANY_NODES = 12,
    SED_EXPRESSION_TOO_DEEP = 13
};

/*
 * Why a run stopped: F1 to F5 and F8 of docs/USING.md. F6 and F7, the ends by devices that fail, don't come from memory.
 */
enum {
    SED_CAUSE_PATTERN_FULL = 1, /* a line, or what a command makes of it, is longer than space; at report->line */
    SED_CAUSE_HOLD_FULL = 2,    /* what a command makes for the hold space is longer than space; at report->line */
    SED_CAUSE_QUEUE_FULL = 3,   /* a or r has an entry more than queue; at report->line */
    SED_CAUSE_TURNS_SPENT = 4,  /* turns were taken, and a further one is due */
    SED_CAUSE_NO_PREVIOUS = 5,  /* an empty expression stands for the one last used, and none was; at report->line */
    SED_CAUSE_OUTPUT_FULL = 8   /* room bytes were written, and a further one is due: call again with more room */
};

/*
 * Reads a script, and runs nothing.
 *
 * script, script_len  the script's bytes, which need not end with a newline or a zero byte
 * flags               SED_EXTENDED and SED_QUIET, or 0
 * limits              of which nodes is heeded; all must be in their ranges
 * report              what is reported
 *
 * SED_DONE        the script may run: sed_edit with these flags and limits doesn't answer SED_REFUSED or SED_BAD_LIMITS
 * SED_REFUSED, SED_BAD_LIMITS, SED_NO_MEMORY  as sed_edit does
 */
int32_t sed_check(const uint8_t *script, size_t script_len, uint32_t flags, const struct sed_limits *limits,
                  struct sed_report *report);

/*
 * Runs a script over the input into the output.
 *
 * script, script_len  the script's bytes, which need not end with a newline or a zero byte
 * flags               SED_EXTENDED and SED_QUIET, or 0
 * input, input_len    the input's bytes; a newline is taken to follow them where they don't end with one
 * output, room        where to write, and how many bytes at most
 * limits              what the run may hold and do
 * report              what is reported
 *
 * SED_DONE        the first report->written bytes of the output are all that the script writes
 * SED_STOPPED     they are a beginning of it, and report->cause is true; with SED_CAUSE_OUTPUT_FULL they are exactly room
 * SED_REFUSED     the script is refused, and nothing is written
 * SED_BAD_LIMITS  a flag isn't known, or a limit is out of its range, and nothing is written
 * SED_NO_MEMORY   a request for memory was refused, and nothing is written
 *
 * The bytes of the output past report->written stay as they were. A file that the script reads (`r FILE`) is an empty one,
 * whatever its name; one that it writes (`w FILE`) refuses the script, but for /dev/stdout, which is the output.
 */
int32_t sed_edit(const uint8_t *script, size_t script_len, uint32_t flags, const uint8_t *input, size_t input_len,
                 uint8_t *output, size_t room, const struct sed_limits *limits, struct sed_report *report);

#ifdef __cplusplus
}
#endif

#endif
