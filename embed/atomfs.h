/** @file
 * AtomFS for C and C++: a file tree in memory with concurrent calls by path. Each call is proved to be atomic.
 *
 * Begin with atomfs_open_with, atomfs_seat and the typed calls, for example atomfs_mkdir. docs/EMBEDDING.md has an
 * example, and says what is proved of these functions. Nothing checks the C side, so a caller must keep to this:
 *   - One call at a time uses a handle. The handle may go from thread to thread, for example under a mutex or with
 *     atomfs_shared_lock.
 *   - A handle is made with ATOMFS_INIT and is never copied. Its fields are for the library alone.
 *   - An open handle owns its tree and its journal. atomfs_close frees both, and nothing else does.
 *   - A pointer leads to as many bytes as its length says, and no two pointers of one call overlap.
 *
 * Statuses: comments name them without ATOMFS_, so OK is ATOMFS_OK. Two of them are not repeated below. A null pointer
 * returns ATOMFS_NULL, and a length of 2^63 or more returns ATOMFS_BAD_LENGTH. The function has done nothing then. Null
 * is allowed if the length beside it is 0, and for a number that you do not need: that of a call, or of a session's
 * seat.
 *
 * Buffers: a function that returns a text or bytes writes them to out, which has room for so many bytes, and their
 * length to *count. No byte 0 follows them. If out is too small, it stays as it was, and *count is the length that is
 * needed. Nothing is lost: ask again with more room. Apart from that, a function writes through a pointer only what its
 * comment says for the status that it returns.
 *
 * Paths are bytes with their length. They are absolute, and names are between slashes. A name has any bytes except 0
 * and the slash. docs/FORMATS.md has the form of lines, replies, journals, trees and scripts. */
#ifndef ATOMFS_H
#define ATOMFS_H

#include <stddef.h>
#include <stdint.h>

#ifdef __cplusplus
extern "C" {
#endif

/** The version of this header. atomfs_version returns that of the library. */
#define ATOMFS_VERSION "0.3.0"

/** A handle: one tree with its journal. Its fields are the library's own. */
typedef struct atomfs {
    uint8_t is_open;
    uint32_t most;
    void *at;
} atomfs;

/** A closed handle: atomfs fs = ATOMFS_INIT; */
#define ATOMFS_INIT                                                                                                    \
    { 0, 0, 0 }

/** The greatest limit of nodes with ATOMFS_V1 and ATOMFS_V2. */
#define ATOMFS_NODE_LIMIT 1048576
/** The greatest limit of nodes with ATOMFS_V3. */
#define ATOMFS_V3_NODE_LIMIT 16777216
/** The most names that a call returns. */
#define ATOMFS_LIST_LIMIT 256
/** The most bytes that a call returns. */
#define ATOMFS_READ_LIMIT 1048576
/** Given this number, atomfs_keep keeps all calls. */
#define ATOMFS_KEEP_ALL 4294967295
/** The first line of the journal of a tree that began empty with ATOMFS_V1. */
#define ATOMFS_JOURNAL_HEADER "atomfs-journal 1\n"

/** The status that a function returns: one of these, or ATOMFS_FAILED plus the error of a call. */
enum {
    ATOMFS_OK = 0,
    /* From here to ATOMFS_WAITS the call or the question was done, or the call is pending. */

    /** Done, but the *count bytes do not fit into out, which is as before. Ask again with more room. To ask again for
       the reply of a call, use an atomfs_reply_ function: the call itself would be made a second time. */
    ATOMFS_TOO_SMALL = 1,
    /** The call has returned, but its reply could not be delivered. Either memory ran out, and an atomfs_reply_
       function can be asked again, or the reply has another type than the function returns. */
    ATOMFS_UNTOLD = 2,
    /** The call *number is pending. It waits for a node that a call of another seat has locked. */
    ATOMFS_WAITS = 3,

    /* From here to ATOMFS_FAILED nothing has changed. A tree with atomfs_keep may have forgotten old calls. */

    ATOMFS_CLOSED = 4,       /**< the handle is closed */
    ATOMFS_ALREADY_OPEN = 5, /**< the handle is open */
    ATOMFS_BAD_LIMIT = 6,  /**< the limit is 0, or above ATOMFS_NODE_LIMIT, with ATOMFS_V3 above ATOMFS_V3_NODE_LIMIT */
    ATOMFS_NO_MEMORY = 7,  /**< out of memory */
    ATOMFS_NO_SEAT = 8,    /**< there is no such seat */
    ATOMFS_SEAT_BUSY = 9,  /**< the seat has a pending call */
    ATOMFS_FULL = 10,      /**< the call needs a node, and all are in use; or a tree has more nodes than its limit */
    ATOMFS_NO_REPLY = 11,  /**< no call of this number has returned */
    ATOMFS_UNDER_WAY = 12, /**< a call is pending; *number is the smallest number of such a call */
    /** The limits are not ATOMFS_V1, ATOMFS_V2 or ATOMFS_V3, or the tree has other limits than the call needs. */
    ATOMFS_BAD_VERSION = 13,
    ATOMFS_NULL = 14,       /**< a pointer is null, and may not be */
    ATOMFS_BAD_LENGTH = 15, /**< a length is 2^63 or more */
    /* Faults of what is read: a path, a request, a line, or a script or a journal, where *count is the line. */
    ATOMFS_BAD_HEADER = 16,   /**< the first line is not that of such a text */
    ATOMFS_BAD_LINE = 17,     /**< this line is not valid here, or the call of a request is not one of ATOMFS_CALL_ */
    ATOMFS_BAD_THREAD = 18,   /**< this is not a valid name of a thread */
    ATOMFS_THREAD_TWICE = 19, /**< a thread has two blocks */
    ATOMFS_BAD_PATH = 20,     /**< a word, or the bytes of a typed call, is not a path: atomfs_status_text says why */
    ATOMFS_BAD_NUMBER = 21,   /**< a word is not a number */
    ATOMFS_BAD_HEX = 22,      /**< a word is neither - nor pairs of hexadecimal digits */
    ATOMFS_NO_SCHEDULE = 23,  /**< a script ends without a line schedule */
    ATOMFS_BAD_WORD = 24,     /**< a word of a schedule is not valid */
    ATOMFS_TOO_LARGE = 25,    /**< a limit of a text is exceeded */
    ATOMFS_BAD_REPLY = 26,    /**< a reply in a journal is not valid */
    ATOMFS_BAD_START = 27,    /**< the start tree of a journal is not valid */
    /* Why bytes are not a path, the first check that fails: only atomfs_check_path returns these. */
    ATOMFS_PATH_NOT_ABSOLUTE = 28,   /**< the first byte is not a slash, or there is none */
    ATOMFS_PATH_NUL = 29,            /**< there is a byte 0 */
    ATOMFS_PATH_NAME_TOO_LONG = 30,  /**< a name has more bytes than the limits allow */
    ATOMFS_PATH_TOO_MANY_NAMES = 31, /**< there are more than 64 names, with ATOMFS_V3 more than 2,048 */
    ATOMFS_PATH_DOT = 32,            /**< a name is . or .. */
    ATOMFS_PATH_TRAILING_SLASH = 33, /**< there is a name, and a slash at the end */
    /* From a tool on a text. */
    ATOMFS_NO_CALL = 34,    /**< no call has the number that is to be drawn */
    ATOMFS_BAD_CHOICE = 35, /**< a schedule, a number or a word is not one of those that are allowed */
    /** The call returned with an error, which is in the journal, and the tree is as before. The status is this plus
       Linux's number of the error, for example ATOMFS_FAILED + ENOENT. Errors are ENOENT, ENOTDIR, EEXIST, ENOTEMPTY,
       EISDIR, EINVAL, EBUSY, EPERM, ENOSPC (too many entries), EFBIG and EOVERFLOW (more names than a call returns). */
    ATOMFS_FAILED = 128
};

/** The limits of names, paths, directories and files of a tree. Use ATOMFS_V3, unless you read old texts. */
enum {
    /** Names of at most 32 bytes, paths of 64 names, directories of 256 entries, files of 65,536 bytes. */
    ATOMFS_V1 = 1,
    /** Names of at most 64 bytes, paths of 64 names, directories of 256 entries, files of 1,048,576 bytes. */
    ATOMFS_V2 = 2,
    /** Names of at most 255 bytes, paths of 2,048 names, directories of 1,048,576 entries, files of 2,147,483,648
       bytes. Only a tree with these has atomfs_list. */
    ATOMFS_V3 = 3
};

/** What a step of a call did. *about is the number of the node or the call that is named so here, and otherwise 0. */
enum {
    ATOMFS_DID_IDLE = 0,      /**< nothing, because no call is pending on the seat */
    ATOMFS_DID_TAKE = 1,      /**< the call locked the node *about */
    ATOMFS_DID_WAIT = 2,      /**< nothing, because the call *about has locked the node that this one wants */
    ATOMFS_DID_LET_GO = 3,    /**< it unlocked the node *about */
    ATOMFS_DID_HELP = 4,      /**< it helped the call *about, which has committed now */
    ATOMFS_DID_COMMIT = 5,    /**< it committed, made its change and fixed its reply */
    ATOMFS_DID_CARRY_OUT = 6, /**< it had been helped before; now it made its change and fixed its reply */
    ATOMFS_DID_RETURN = 7,    /**< it returned: an atomfs_reply_ function returns its reply */
    ATOMFS_DID_BEGIN = 8      /**< the call *about began, which only a gate sees */
};

/** What is wrong with an entry of a journal (*kind of atomfs_verdict). */
enum {
    ATOMFS_FAULT_NONE = 0,               /**< nothing: the journal is lawful */
    ATOMFS_FAULT_BEGIN_TWICE = 1,        /**< a call of this number began before */
    ATOMFS_FAULT_SEAT_BUSY = 2,          /**< the last call of the seat has not returned */
    ATOMFS_FAULT_COMMIT_UNBEGUN = 3,     /**< no call of this number has begun */
    ATOMFS_FAULT_COMMIT_TWICE = 4,       /**< the call has committed before */
    ATOMFS_FAULT_RETURN_UNCOMMITTED = 5, /**< the call has not committed */
    ATOMFS_FAULT_RETURN_TWICE = 6,       /**< the call has returned before */
    ATOMFS_FAULT_WRONG_REPLY = 7         /**< the reply is not the one that the sequential tree gives */
};

/** Which call an atomfs_request asks for. */
enum {
    ATOMFS_CALL_MKDIR = 0,
    ATOMFS_CALL_MKNOD = 1,
    ATOMFS_CALL_UNLINK = 2,
    ATOMFS_CALL_RMDIR = 3,
    ATOMFS_CALL_RENAME = 4,
    ATOMFS_CALL_EXCHANGE = 5,
    ATOMFS_CALL_STAT = 6,
    ATOMFS_CALL_READDIR = 7,
    ATOMFS_CALL_READ = 8,
    ATOMFS_CALL_WRITE = 9,
    ATOMFS_CALL_TRUNCATE = 10,
    ATOMFS_CALL_LIST = 11
};

/** With which schedule a script runs. */
enum {
    ATOMFS_GIVEN = 0,       /**< its own */
    ATOMFS_ROUND_ROBIN = 1, /**< one event of each thread in turn */
    ATOMFS_SEEDED = 2       /**< threads at random, from a seed */
};

/** Given this number, atomfs_draw draws all calls. */
#define ATOMFS_WHOLE UINT64_MAX

/** What atomfs_linearize found of a history (*found). */
enum {
    ATOMFS_FOUND_LAWFUL = 0, /**< an order of its calls explains it; the text is the journal with its commits */
    /** No order explains it. The text is `none`, the place of the first return up to which no order explains the
       entries, and its call (docs/TEST-A-FILE-SYSTEM.md). */
    ATOMFS_FOUND_NO_ORDER = 1,
    ATOMFS_FOUND_NO_HISTORY = 2, /**< an entry cannot come next; the text is `fault`, its place and its kind */
    ATOMFS_FOUND_UNKNOWN = 3     /**< the limit was reached; the text is `unknown` and how far the search had come */
};

/** What atomfs_linearize writes about a history that is not lawful. */
enum {
    ATOMFS_TELL_LINE = 0,  /**< the line of the result */
    ATOMFS_TELL_FRONT = 1, /**< in place of a line `none` a journal up to that return, like the option --front */
    /** The line, and then in words which entry `none` or `fault` means. After `none` come up to ten replies that the
       call could have had, and an earlier entry that the replies of later lines exclude, if there is one. */
    ATOMFS_TELL_WORDS = 2
};

/** What is at a path: a directory with so many entries, or a file with so many bytes. */
struct atomfs_stat {
    uint8_t is_dir;
    uint64_t size;
};

/** A call for atomfs_begin_call. Fields that its call does not have are ignored. */
typedef struct atomfs_request {
    uint8_t call;     /**< one of ATOMFS_CALL_ */
    const char *path; /**< the path; of a rename and an exchange the first one */
    size_t length;
    /** The second path of a rename and an exchange. For a list the path whose last name comes before the first one
       that is wanted. */
    const char *other;
    size_t other_length;
    uint64_t offset; /**< where a read and a write begin */
    /** How many bytes a read asks for, how many a truncate leaves, or how many names a list asks for. More than
       4,294,967,295 names count as that many. */
    uint64_t size;
    const void *bytes; /**< the bytes of a write */
    size_t bytes_length;
} atomfs_request;

/** @name Handles and seats
 * @{ */

/** Opens a closed handle: an empty tree for at most limit nodes, including its root, with the limits ATOMFS_V1.
 *
 * Returns OK, ALREADY_OPEN, BAD_LIMIT, NO_MEMORY. After an error the handle is as it was. */
uint8_t atomfs_open(atomfs *fs, size_t limit);

/** Opens a closed handle like atomfs_open, with the limits of a version: ATOMFS_V1, ATOMFS_V2 or ATOMFS_V3. They bound
 * paths, lines and files of the tree, and its journal has their version.
 *
 * Returns OK, ALREADY_OPEN, BAD_LIMIT, BAD_VERSION, NO_MEMORY. After an error the handle is as it was. */
uint8_t atomfs_open_with(atomfs *fs, size_t limit, uint8_t version);

/** Opens a closed handle at a tree that a text describes, with the limits of a version. The text is one that
 * atomfs_tree wrote, or a journal with these limits. If it is a journal, the handle opens at the start tree of that
 * journal: its entries are read, but not made again. The handle has no seats and no calls, and its own journal begins
 * at that tree. The time grows with the bytes of the text.
 *
 * Returns OK, ALREADY_OPEN, BAD_LIMIT, BAD_VERSION, NO_MEMORY; FULL if the tree has more nodes than limit; or a fault
 * of the text (BAD_HEADER and so on), with its line in *line, counted from 1. After NO_MEMORY *line may have changed
 * too, and means nothing. After an error the handle is as it was. */
uint8_t atomfs_open_from(atomfs *fs, size_t limit, uint8_t version, const char *text, size_t length, size_t *line);

/** Opens a closed handle at the current tree of another handle, with the limits of that one. The new handle has a copy
 * of its own, and the other one is as it was.
 *
 * Returns OK, ALREADY_OPEN, BAD_LIMIT, NO_MEMORY; CLOSED if the other handle is closed; UNDER_WAY if a call is pending
 * there, where *number is the smallest number of such a call; FULL as above. After an error the handle is as it was. */
uint8_t atomfs_open_at(atomfs *fs, size_t limit, atomfs *other, uint64_t *number);

/** Closes a handle, and frees its tree and its journal. Returns OK, CLOSED. */
uint8_t atomfs_close(atomfs *fs);

/** Adds a seat, which is a slot for one pending call. *seat is its number: 0, 1, 2 and so on.
 *
 * Returns OK, CLOSED, NO_MEMORY. After an error there is no new seat. */
uint8_t atomfs_seat(atomfs *fs, uint64_t *seat);

/** @} */
/** @name Typed calls
 * Each begins its call on a seat and steps it until it returns. *number is the call's number: 1, 2, 3 and so on. Each
 * of these functions returns
 *   - OK, or ATOMFS_FAILED + an error, if the call has returned. *number is written.
 *   - WAITS if the call is pending on its seat. *number is written. atomfs_step continues the call, and after its
 *     return an atomfs_reply_ function returns its reply.
 *   - CLOSED, NO_SEAT, SEAT_BUSY, FULL, NO_MEMORY or BAD_PATH if no call began. Tree and journal are as they were.
 *
 * The comment of a function has what else it returns.
 * @{ */

/** Makes an empty directory. */
uint8_t atomfs_mkdir(atomfs *fs, uint64_t seat, const char *path, size_t length, uint64_t *number);

/** Makes an empty file. */
uint8_t atomfs_mknod(atomfs *fs, uint64_t seat, const char *path, size_t length, uint64_t *number);

/** Removes the entry of a file. */
uint8_t atomfs_unlink(atomfs *fs, uint64_t seat, const char *path, size_t length, uint64_t *number);

/** Removes the entry of an empty directory. */
uint8_t atomfs_rmdir(atomfs *fs, uint64_t seat, const char *path, size_t length, uint64_t *number);

/** Moves what is at path, with everything below it, to other, and removes what was at other. */
uint8_t atomfs_rename(atomfs *fs, uint64_t seat, const char *path, size_t length, const char *other,
                      size_t other_length, uint64_t *number);

/** Exchanges what is at two paths, each with everything below it. */
uint8_t atomfs_exchange(atomfs *fs, uint64_t seat, const char *path, size_t length, const char *other,
                        size_t other_length, uint64_t *number);

/** Says what is at a path. After OK *stat is written. */
uint8_t atomfs_stat(atomfs *fs, uint64_t seat, const char *path, size_t length, struct atomfs_stat *stat,
                    uint64_t *number);

/** Returns all names of a directory, in byte order, with a byte 0 after each. *count is the number of bytes, including
 * these zeros. A directory with more than ATOMFS_LIST_LIMIT names, which only ATOMFS_V3 allows, returns ATOMFS_FAILED +
 * EOVERFLOW: use atomfs_list for it.
 *
 * Also returns TOO_SMALL and UNTOLD. The call has returned all the same, and atomfs_reply_names returns its names, as
 * many at a time as there is room for. */
uint8_t atomfs_readdir(atomfs *fs, uint64_t seat, const char *path, size_t length, char *out, size_t room,
                       size_t *count, uint64_t *number);

/** Returns some names of a directory: up to most names, and at most ATOMFS_LIST_LIMIT, that sort after the last name of
 * the path after. They are in byte order, with a byte 0 after each, and *count is the number of bytes, including these
 * zeros. Pass "/" to start. To go on, pass a path that ends with the last name that you got; nothing has to be there.
 * At the end no name comes.
 *
 * Also returns TOO_SMALL and UNTOLD, like atomfs_readdir, and BAD_VERSION if the tree has other limits than ATOMFS_V3.
 * BAD_VERSION is checked after NO_SEAT and BAD_PATH, and before everything else. */
uint8_t atomfs_list(atomfs *fs, uint64_t seat, const char *path, size_t length, const char *after, size_t after_length,
                    uint32_t most, char *out, size_t room, size_t *count, uint64_t *number);

/** Reads bytes of a file from an offset on: as many as there are and out has room for, but at most ATOMFS_READ_LIMIT.
 * *count is their number. */
uint8_t atomfs_read(atomfs *fs, uint64_t seat, const char *path, size_t length, uint64_t offset, void *out, size_t room,
                    size_t *count, uint64_t *number);

/** Writes bytes into a file at an offset. A gap before them reads as zeros. After OK *wrote is their number: all were
 * written. */
uint8_t atomfs_write(atomfs *fs, uint64_t seat, const char *path, size_t length, uint64_t offset, const void *bytes,
                     size_t bytes_length, uint64_t *wrote, uint64_t *number);

/** Cuts a file to a size, or adds zeros up to it. */
uint8_t atomfs_truncate(atomfs *fs, uint64_t seat, const char *path, size_t length, uint64_t size, uint64_t *number);

/** @} */
/** @name Whole files and branches
 * Each of these functions makes several typed calls on a seat, and returns the first error among them. It is C over the
 * proved functions, tested and not proved. Nothing comes between its calls, since one call at a time uses a handle.
 * Besides what its comment says, each returns
 *   - WAITS if its first call is pending on the seat. Step that call to its return with atomfs_step, and ask again.
 *   - CLOSED, NO_SEAT, SEAT_BUSY or BAD_PATH if no call was made.
 *   - NO_MEMORY, the only status after which something half-done may stay.
 * @{ */

/** Reads all bytes of a file, with stat and reads. Returns OK, TOO_SMALL, ATOMFS_FAILED + an error. */
uint8_t atomfs_read_file(atomfs *fs, uint64_t seat, const char *path, size_t length, void *out, size_t room,
                         size_t *count);

/** Gives a file these bytes and no others, and makes it if it is missing: with write and truncate, or with write, mknod
 * and write.
 *
 * Returns OK; or FULL or ATOMFS_FAILED + an error, and then the tree is as before. */
uint8_t atomfs_write_file(atomfs *fs, uint64_t seat, const char *path, size_t length, const void *bytes,
                          size_t bytes_length);

/** Makes a directory, and those above it that are missing, like `mkdir -p`, with a stat and a mkdir for each.
 *
 * Returns OK, also if the directory was there; ATOMFS_FAILED + EEXIST if a file is at the path; ATOMFS_FAILED + ENOTDIR
 * if a file is above it; FULL; or ATOMFS_FAILED + another error. After anything but OK the tree is as before. */
uint8_t atomfs_mkdirs(atomfs *fs, uint64_t seat, const char *path, size_t length);

/** @} */
/** @name Calls step by step
 * @{ */

/** Begins a call on a seat. *number is its number.
 *
 * Returns OK, CLOSED, NO_SEAT, SEAT_BUSY, FULL, NO_MEMORY, BAD_PATH, BAD_LINE, and BAD_VERSION like atomfs_list. After
 * an error nothing has changed. */
uint8_t atomfs_begin_call(atomfs *fs, uint64_t seat, const atomfs_request *request, uint64_t *number);

/** Makes one step of the call on a seat. *did says what it did: one of the numbers ATOMFS_DID_, which say what *about
 * is.
 *
 * Returns OK, CLOSED, NO_SEAT. After an error nothing has changed. */
uint8_t atomfs_step(atomfs *fs, uint64_t seat, uint8_t *did, uint64_t *about);

/** Makes one step of some call that does not wait. *seat is the seat of that call, *did and *about are as with
 * atomfs_step, and *did is never ATOMFS_DID_WAIT. If no call is pending, and only then, *did is ATOMFS_DID_IDLE and
 * *seat is as it was. While calls are pending it always makes progress, so calling it in a loop completes all of them.
 *
 * Such a loop ends. A begin adds two steps for each name in the paths of its call, and twelve. Each call of this function
 * takes at least one away, and with no call pending none are left. So after n begins of calls with m names in their
 * paths, counted since no call was pending, ATOMFS_DID_IDLE comes after at most 2 * m + 12 * n steps.
 *
 * Returns OK, CLOSED. After an error nothing has changed. */
uint8_t atomfs_step_any(atomfs *fs, uint64_t *seat, uint8_t *did, uint64_t *about);

/** @} */
/** @name Replies of calls that have returned
 * Each of these functions returns the reply of the call with this number, as often as you ask. It looks through the
 * journal from the last entry back, so the reply of an old call takes longer. It returns OK; ATOMFS_FAILED + an error
 * if the call failed; UNTOLD if its reply is of another type; CLOSED; or NO_REPLY if no call with this number has
 * returned since the journal began. Nothing changes.
 * @{ */

/** The reply of a call that returns no more than OK: mkdir, mknod, unlink, rmdir, rename, exchange, truncate. */
uint8_t atomfs_reply_done(atomfs *fs, uint64_t number);

/** Returns the reply of a stat. */
uint8_t atomfs_reply_stat(atomfs *fs, uint64_t number, struct atomfs_stat *stat);

/** Returns the names of a readdir or a list that sort after the name after, in byte order, with a byte 0 after each: as
 * many whole names as out has room for. After OK *count is their length, and 0 if there are no more. Pass a name of
 * length 0 to start, and the last name that you got to go on.
 *
 * Also returns TOO_SMALL if out has no room for the first of these names, which needs *count bytes, and UNTOLD if
 * memory ran out. */
uint8_t atomfs_reply_names(atomfs *fs, uint64_t number, const char *after, size_t after_length, char *out, size_t room,
                           size_t *count);

/** Returns the bytes of a read. Also returns TOO_SMALL. */
uint8_t atomfs_reply_bytes(atomfs *fs, uint64_t number, void *out, size_t room, size_t *count);

/** Returns how many bytes a write wrote. */
uint8_t atomfs_reply_wrote(atomfs *fs, uint64_t number, uint64_t *wrote);

/** @} */
/** @name Words for statuses
 * @{ */

/** The version of the library, for example "0.3.0". */
const char *atomfs_version(void);

/** The name of the error of a status from ATOMFS_FAILED on, for example "ENOENT"; null for any other status. */
const char *atomfs_errno_name(uint8_t status);

/** What a status means, in words; never null. For ATOMFS_BAD_PATH it says what was wrong with the last path that a
 * typed call refused in this thread, unless a text has been refused for a path since. */
const char *atomfs_status_text(uint8_t status);

/** @} */
/** @name The journal and the tree
 * @{ */

/** Returns the lines of the journal from the entry first on, where the first entry is 0. atomfs_opening has what comes
 * before the entries. *entries is how many entries there are: pass it as first to get what has come since.
 *
 * Returns OK, TOO_SMALL, CLOSED, NO_MEMORY. Nothing changes. */
uint8_t atomfs_journal(atomfs *fs, size_t first, char *out, size_t room, size_t *count, size_t *entries);

/** Returns what comes before the first entry of the journal: its header, and its start tree if that is more than the
 * root. Together with the lines of atomfs_journal it is a journal that atomfs_check reads.
 *
 * Returns OK, TOO_SMALL, CLOSED, NO_MEMORY. Nothing changes. */
uint8_t atomfs_opening(atomfs *fs, char *out, size_t room, size_t *count);

/** Returns the whole journal as a text, and gives its memory back. The journal begins again at the current tree, with
 * no entries and with call numbers from 1. Handle, seats and tree stay.
 *
 * Returns OK, where *number is how many calls the journal had; CLOSED, NO_MEMORY, TOO_SMALL; or UNDER_WAY, where
 * *number is the smallest number of a pending call. After anything but OK nothing has changed. */
uint8_t atomfs_checkpoint(atomfs *fs, char *out, size_t room, size_t *count, uint64_t *number);

/** Begins the journal again like atomfs_checkpoint, but without a text: its calls are forgotten.
 *
 * Returns OK, where *number is how many calls they were; CLOSED, NO_MEMORY; or UNDER_WAY, where *number is the smallest
 * number of a pending call. After anything but OK nothing has changed. */
uint8_t atomfs_forget(atomfs *fs, uint64_t *number);

/** From now on the tree forgets old calls by itself: if a call begins while no call is pending and the journal has more
 * than most calls, the tree does what atomfs_forget does first. So you can always ask for the reply of the last call;
 * with most = 0 you can ask for no other. If memory runs out, the calls stay, and the next call tries again. A handle
 * is opened with ATOMFS_KEEP_ALL, which forgets none.
 *
 * To forget, the tree plays the calls that change something on a second copy of itself, which it keeps for the next
 * time. So forgetting takes the time of these calls, however large the tree is. The copy is made anew if there were
 * more of them than a quarter of the nodes.
 *
 * Returns OK, CLOSED. */
uint8_t atomfs_keep(atomfs *fs, uint32_t most);

/** Checks the journal as it is now. If it is lawful, *place is 0 and *kind is ATOMFS_FAULT_NONE. That is always so, and
 * proved. Otherwise *place would be the place of the first entry that does not fit, counted from 1, and *kind one of
 * the numbers ATOMFS_FAULT_. Calls may be pending. It takes memory for a tree, and some words for each call.
 *
 * Returns OK, CLOSED, NO_MEMORY. Nothing changes. */
uint8_t atomfs_verdict(atomfs *fs, uint64_t *place, uint8_t *kind);

/** Returns the current tree as a text.
 *
 * Returns OK, TOO_SMALL, CLOSED, NO_MEMORY. Nothing changes. */
uint8_t atomfs_tree(atomfs *fs, char *out, size_t room, size_t *count);

/** @} */
/** @name Calls as lines of a script
 * @{ */

/** Begins the call of a line, for example "rename /a /b". *number is its number.
 *
 * Returns OK, CLOSED, NO_SEAT, SEAT_BUSY, FULL, NO_MEMORY, and the faults of a line: BAD_LINE, BAD_PATH, BAD_NUMBER,
 * BAD_HEX. After an error nothing has changed. */
uint8_t atomfs_begin(atomfs *fs, uint64_t seat, const char *line, size_t length, uint64_t *number);

/** Begins the call of a line and steps it until it returns. *number is its number, and out has the text of its reply,
 * for example "stat file 5" or "failed ENOENT". A call that fails returns OK and such a text.
 *
 * Returns OK; TOO_SMALL or UNTOLD, after which the call has returned all the same, and atomfs_reply returns its reply;
 * WAITS if the call is pending on its seat, and atomfs_step continues it; and otherwise what atomfs_begin returns. */
uint8_t atomfs_call(atomfs *fs, uint64_t seat, const char *line, size_t length, char *out, size_t room, size_t *count,
                    uint64_t *number);

/** Returns the text of the reply of a call that has returned, as often as it is asked.
 *
 * Returns OK, TOO_SMALL, CLOSED, NO_REPLY, NO_MEMORY. Nothing changes. */
uint8_t atomfs_reply(atomfs *fs, uint64_t number, char *out, size_t room, size_t *count);

/** @} */
/** @name Whole scripts and journals, without a handle
 * @{ */

/** Runs a script with its own schedule, and returns its journal, its tree and its counts, as `atomfs run` prints them.
 *
 * Returns OK, TOO_SMALL, NO_MEMORY; UNDER_WAY, where *count is the number of the call that a checkpoint found pending;
 * and the faults of a script, where *count is the line of the fault. */
uint8_t atomfs_run(const char *script, size_t length, char *out, size_t room, size_t *count);

/** Checks a journal, and returns the line of the verdict, as `atomfs check` prints it.
 *
 * Returns OK, TOO_SMALL, NO_MEMORY, and the faults of a journal, where *count is the line of the fault. */
uint8_t atomfs_check(const char *journal, size_t length, char *out, size_t room, size_t *count);

/** @} */
/** @name Tools on texts, without a handle
 * Each of these functions returns what the command of its name prints. A schedule is ATOMFS_GIVEN, ATOMFS_ROUND_ROBIN
 * or ATOMFS_SEEDED, and only the last one uses seed. Each returns OK, TOO_SMALL, NO_MEMORY; BAD_CHOICE if schedule is
 * none of these; UNDER_WAY and the faults of a script like atomfs_run.
 * @{ */

/** Runs a script, and returns its trace: what each event did, in words. If every is not 0, the trace also has idle
 * turns and repeated waits. */
uint8_t atomfs_trace(const char *script, size_t length, uint8_t schedule, uint64_t seed, uint8_t every, char *out,
                     size_t room, size_t *count);

/** Draws the run of a script, or a journal, as an SVG file. A journal has no schedule, so that is ignored. If around is
 * ATOMFS_WHOLE it draws all calls, and otherwise the call with this number and those that overlap it. Also returns
 * NO_CALL and the faults of a journal. */
uint8_t atomfs_draw(const char *text, size_t length, uint8_t schedule, uint64_t seed, uint64_t around, char *out,
                    size_t room, size_t *count);

/** Makes the page that plays the run of a script, or a journal, event by event in a browser: one HTML file in ASCII, as
 * `atomfs draw --html` prints it (docs/PLAYER.md). A journal has no schedule, so that is ignored. Also returns the
 * faults of a journal. */
uint8_t atomfs_page(const char *text, size_t length, uint8_t schedule, uint64_t seed, char *out, size_t room,
                    size_t *count);

/** Runs a script, and returns it again with the events of the run as its schedule. Words !checkpoint stay only with
 * ATOMFS_GIVEN. Also returns TOO_LARGE, with the line 0, if a script cannot have so many events. */
uint8_t atomfs_schedule(const char *script, size_t length, uint8_t schedule, uint64_t seed, char *out, size_t room,
                        size_t *count);

/** Runs a script with random schedules: as many as runs says, the first from seed, the second from the next number, and
 * so on. Returns a line with the verdict on each. Also returns BAD_CHOICE if runs is not 1 to 10,000, or if seed is
 * 2^63 or more. */
uint8_t atomfs_seeds(const char *script, size_t length, uint64_t seed, uint64_t runs, char *out, size_t room,
                     size_t *count);

/** Finds an order in which the calls of a history can have taken effect (docs/TEST-A-FILE-SYSTEM.md). It returns the
 * journal with their commits, or why there is no order, in the form that tell chooses (ATOMFS_TELL_). After OK and
 * TOO_SMALL *found is one of the numbers ATOMFS_FOUND_.
 *
 * limit bounds the search: it makes so many configurations, or few more. It is 1 to 1,000,000,000; the command uses
 * 1,000,000. A search may take long, and asking again searches again. So give out twice the length of the history.
 *
 * Returns OK, TOO_SMALL, NO_MEMORY; BAD_CHOICE if tell or limit is not valid; and the faults of a journal. */
uint8_t atomfs_linearize(const char *history, size_t length, uint64_t limit, uint8_t tell, char *out, size_t room,
                         size_t *count, uint8_t *found);

/** Returns what the word of a fault means, for example BadHex or WrongReply, and what to write instead. Returns OK,
 * TOO_SMALL, and BAD_CHOICE if there is no such word. */
uint8_t atomfs_explain(const char *word, size_t length, char *out, size_t room, size_t *count);

/** @} */
/** @name Trees that threads share
 * @{ */

/** A tree that threads share. This part is C over the proved functions, tested and not proved; whom an unlocked node
 * wakes is proved. Link with -pthread.
 *
 * A shared tree has a lock, and each thread has a session in it with a seat of its own. A call of a session takes the
 * lock for its begin and for each of its steps, and releases it between them. So calls of several sessions overlap, and
 * a rename helps those below what it moves. If a call wants a node that another call has locked, its thread sleeps
 * until the node is unlocked. Some call can always go on, so each of them returns.
 *
 * Set both pointers to null before you open them: atomfs_shared *shared = NULL; atomfs_session *session = NULL;
 *
 * What may happen during a call:
 *   - pthread_cancel of its thread. The cancellation waits until the call has returned, and until the thread has given
 *     back the handle of atomfs_shared_lock. Leave threads at the deferred type of cancellation, with which they begin.
 *     The session of a cancelled thread stays, for another thread or for atomfs_shared_end.
 *   - A signal. Its handler must call no function of this library, since it could wait for the very call that it
 *     interrupts.
 *   - fork. The tree of the parent goes on as it was. The child has a copy in which a call may be half-way and the lock
 *     taken for ever, so it must call no function of this library.
 *   - atomfs_shared_close. It returns UNDER_WAY, and closes nothing, while a call is pending, the handle is lent, or a
 *     thread waits for either. It frees every session of the tree. A call that begins after it reads freed memory, so
 *     end the threads before you close.
 *   - The end of its thread, for example in a gate that does not return. Then its call is left half-way, or the handle
 *     stays lent, and another thread may give it back. Other calls may wait for this one: atomfs_shared_wait_most
 *     bounds how long, atomfs_shared_holders says who holds what, and atomfs_shared_finish completes such calls. */
typedef struct atomfs_shared atomfs_shared;
/** A session of a thread in a shared tree. */
typedef struct atomfs_session atomfs_session;

/** Opens a shared tree, as atomfs_open_with does.
 *
 * Returns OK; ALREADY_OPEN if *shared is not null; BAD_LIMIT, BAD_VERSION, NO_MEMORY; BAD_CHOICE if ATOMFS_PAUSES in
 * the environment is not a number. */
uint8_t atomfs_shared_open(atomfs_shared **shared, size_t limit, uint8_t version);

/** Opens a shared tree with the tree, the journal and the seats of an open handle, and closes that handle. So a tree of
 * atomfs_open_from can be shared. Pending calls are stepped to their returns first.
 *
 * Returns OK; ALREADY_OPEN if *shared is not null; CLOSED if *fs is closed; NO_MEMORY, BAD_CHOICE as above. After an
 * error *fs is as it was. */
uint8_t atomfs_shared_from(atomfs_shared **shared, atomfs *fs);

/** Closes a shared tree, and ends and frees its sessions. No other thread may use it any more.
 *
 * Returns OK, CLOSED, UNDER_WAY. */
uint8_t atomfs_shared_close(atomfs_shared **shared);

/** Adds a session. *seat, unless seat is null, is the number of its seat: a new one, or that of a session that has
 * ended.
 *
 * Returns OK; ALREADY_OPEN if *session is not null; CLOSED, NO_MEMORY; WAITS if atomfs_shared_wait_most says so. */
uint8_t atomfs_shared_session(atomfs_shared *shared, atomfs_session **session, uint64_t *seat);

/** Ends a session, and sets *session to null. Other pointers to it stay valid until the tree is closed, and each call
 * on them returns NO_SEAT. For that, 32 bytes of it stay until then. If the wait of its call was given up
 * (atomfs_shared_wait_most), the call still comes to its return, and no session gets the seat before that.
 *
 * Returns OK; SEAT_BUSY if a thread is in a call of it; NO_SEAT if it has ended. */
uint8_t atomfs_shared_end(atomfs_session **session);

/** Waits until no call is pending, and lends the handle to this thread. Until atomfs_shared_unlock no other call
 * begins. So *fs can be used for everything that a handle can do: for checkpoints, and on a seat of atomfs_seat for
 * calls between which nothing may come. Meanwhile the thread must not call a session, and must not close *fs.
 *
 * Returns OK, CLOSED; WAITS if atomfs_shared_wait_most says so. */
uint8_t atomfs_shared_lock(atomfs_shared *shared, atomfs **fs);

/** Gives the handle back. Calls that are still pending on it are stepped to their returns, as with atomfs_step_any.
 *
 * Returns OK; CLOSED if the handle is not lent. */
uint8_t atomfs_shared_unlock(atomfs_shared *shared);

/** A function that is called after each event of a call, with the seat of the call and with what the event did: did and
 * about are as with atomfs_step, and did is never ATOMFS_DID_WAIT. It runs in the thread of the call, without the lock,
 * and cannot be cancelled. It must use neither its own session nor the handle, and must not wait for anything that
 * waits for this call. */
typedef void (*atomfs_gate)(void *context, uint64_t seat, uint8_t did, uint64_t about);

/** From now on the calls of sessions call gate after each of their events: the begin, each step that does not wait, the
 * return. So a test can stop a call where it wants. Each call of the gate gets context. A tree is opened without a
 * gate, and null removes it.
 *
 * Returns OK, CLOSED. */
uint8_t atomfs_shared_gate(atomfs_shared *shared, atomfs_gate gate, void *context);

/** Given this seed, atomfs_shared_pauses makes no pauses. */
#define ATOMFS_NO_PAUSES UINT64_MAX
/** From now on the calls of sessions pause after some of their events, before the gate: they yield, or sleep for some
 * microseconds, at random from seed and the seat. So calls of threads overlap that would hardly meet otherwise. The
 * system still decides which calls meet: the same seed gives the same pauses, but not the same run. ATOMFS_NO_PAUSES
 * ends the pauses. The variable ATOMFS_PAUSES of the environment is the seed with which trees are opened.
 *
 * Returns OK, CLOSED. */
uint8_t atomfs_shared_pauses(atomfs_shared *shared, uint64_t seed);

/** Bounds how many milliseconds a thread sleeps for a node, for the handle, or for the return of the last pending call.
 * 0 is no bound, and a tree is opened with it. A function that has slept so long returns WAITS. If it is a call,
 * *number is written. If that is not 0, the call is pending, and its session returns SEAT_BUSY until it has returned.
 * The thread of a call that it waits for makes its steps too, without a gate, when that call goes on. So it keeps
 * nobody waiting for ever, and atomfs_shared_finish completes it at once. If *number is 0, and in atomfs_shared_lock
 * and atomfs_shared_session, nothing was done.
 *
 * Returns OK, CLOSED. */
uint8_t atomfs_shared_wait_most(atomfs_shared *shared, uint32_t milliseconds);

/** Says who has locked what: a line for each pending call of a session, for example `call 5 on seat 2 holds 0 3, waits
 * for call 4`, where 0 and 3 are numbers of nodes. If the handle is lent, a line `the handle is lent` comes first.
 *
 * Returns OK, TOO_SMALL, CLOSED. Nothing changes. */
uint8_t atomfs_shared_holders(atomfs_shared *shared, char *out, size_t room, size_t *count);

/** Steps all pending calls of sessions to their returns, as with atomfs_step_any, also those whose threads have ended.
 * A thread that still waits for its call gets its result as usual, unless the journal begins again before. *count is
 * how many calls there were.
 *
 * Returns OK, CLOSED. */
uint8_t atomfs_shared_finish(atomfs_shared *shared, uint64_t *count);

/** @} */
/** @name Typed calls of a session
 * Each of these functions returns what the typed call of its name returns, with three differences. A call that would
 * wait sleeps, and returns WAITS only as atomfs_shared_wait_most says. SEAT_BUSY means that a call of the session is
 * pending, and NO_SEAT that the session has ended.
 * @{ */

/** Does on a session what atomfs_mkdir does on a seat. */
uint8_t atomfs_shared_mkdir(atomfs_session *session, const char *path, size_t length, uint64_t *number);
/** Does on a session what atomfs_mknod does on a seat. */
uint8_t atomfs_shared_mknod(atomfs_session *session, const char *path, size_t length, uint64_t *number);
/** Does on a session what atomfs_unlink does on a seat. */
uint8_t atomfs_shared_unlink(atomfs_session *session, const char *path, size_t length, uint64_t *number);
/** Does on a session what atomfs_rmdir does on a seat. */
uint8_t atomfs_shared_rmdir(atomfs_session *session, const char *path, size_t length, uint64_t *number);
/** Does on a session what atomfs_rename does on a seat. */
uint8_t atomfs_shared_rename(atomfs_session *session, const char *path, size_t length, const char *other,
                             size_t other_length, uint64_t *number);
/** Does on a session what atomfs_exchange does on a seat. */
uint8_t atomfs_shared_exchange(atomfs_session *session, const char *path, size_t length, const char *other,
                               size_t other_length, uint64_t *number);
/** Does on a session what atomfs_stat does on a seat. */
uint8_t atomfs_shared_stat(atomfs_session *session, const char *path, size_t length, struct atomfs_stat *stat,
                           uint64_t *number);
/** Does on a session what atomfs_readdir does on a seat. */
uint8_t atomfs_shared_readdir(atomfs_session *session, const char *path, size_t length, char *out, size_t room,
                              size_t *count, uint64_t *number);
/** Does on a session what atomfs_list does on a seat. */
uint8_t atomfs_shared_list(atomfs_session *session, const char *path, size_t length, const char *after,
                           size_t after_length, uint32_t most, char *out, size_t room, size_t *count, uint64_t *number);
/** Does on a session what atomfs_read does on a seat. */
uint8_t atomfs_shared_read(atomfs_session *session, const char *path, size_t length, uint64_t offset, void *out,
                           size_t room, size_t *count, uint64_t *number);
/** Does on a session what atomfs_write does on a seat. */
uint8_t atomfs_shared_write(atomfs_session *session, const char *path, size_t length, uint64_t offset,
                            const void *bytes, size_t bytes_length, uint64_t *wrote, uint64_t *number);
/** Does on a session what atomfs_truncate does on a seat. */
uint8_t atomfs_shared_truncate(atomfs_session *session, const char *path, size_t length, uint64_t size,
                               uint64_t *number);

/** @} */
/** @name Paths, without a handle
 * @{ */

/** Says whether bytes are a path with the limits of a version, for example ATOMFS_V3. If they are not, the status is
 * the first check that they fail; other functions return BAD_PATH for all of these.
 *
 * Returns OK, PATH_NOT_ABSOLUTE, PATH_NUL, PATH_NAME_TOO_LONG, PATH_TOO_MANY_NAMES, PATH_DOT, PATH_TRAILING_SLASH,
 * BAD_VERSION, NO_MEMORY. */
uint8_t atomfs_check_path(const char *path, size_t length, uint8_t version);
/** @} */

#ifdef __cplusplus
}
#endif
#endif
