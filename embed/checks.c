/* What stands between C and the proved functions: each function of atomfs.h that the proofs do not have themselves.
 *
 * The proved functions take references, which C cannot be held to: that no pointer is null, and that no length passes half
 * of the memory that a program can have. This file answers such calls by a status, hands the others on, and gives words for
 * statuses. Nothing here is proved, so it decides nothing else. embed/build gives the proved functions the names below. */
#include "checks.h"
#include "proved.h"

/* What stands at null for no bytes: nothing reads or writes it. */
static char nothing;

static const void *from(const void *bytes) { return bytes != NULL ? bytes : &nothing; }

static void *into(void *bytes) { return bytes != NULL ? bytes : &nothing; }

/* Of a function that runs or begins a call whose path, or whose line, has these bytes. */
static uint8_t may_call(const atomfs *fs, const void *bytes, size_t length) {
    uint8_t status = there(fs);
    return refused(status) ? status : bytes_there(bytes, length);
}

/* Of one that tells bytes too. */
static uint8_t may_call_and_tell(const atomfs *fs, const void *bytes, size_t length, const void *out, size_t room,
                                 const size_t *count) {
    uint8_t status = may_call(fs, bytes, length);
    return refused(status) ? status : may_tell(fs, out, room, count);
}

/* Of one that takes more bytes. */
static uint8_t may_call_with(const atomfs *fs, const void *bytes, size_t length, const void *other,
                             size_t other_length) {
    uint8_t status = may_call(fs, bytes, length);
    return refused(status) ? status : bytes_there(other, other_length);
}

/* Which fault the last path had that a typed call refused in this thread: what atomfs_status_text says of ATOMFS_BAD_PATH. A kernel
 * has no memory of a thread, so there it is the last one of all. */
#ifdef ATOMFS_FREESTANDING
static uint8_t path_fault;
#else
static __thread uint8_t path_fault;
#endif

/* Notes it, and hands the status on. What the handle's limits are is not known here, so the fault is one that the wider limits
 * find, if they find any: it is a fault by all narrower ones, too. */
static uint8_t noted(uint8_t status, const char *path, size_t length, const char *other, size_t other_length) {
    if (status != ATOMFS_BAD_PATH) return status;
    path_fault = ATOMFS_OK;
    for (uint8_t version = ATOMFS_V3; version >= ATOMFS_V1 && path_fault == ATOMFS_OK; version--) {
        path_fault = PROVED(check_path)(from(path), length, version);
        if (path_fault == ATOMFS_OK && other != NULL) path_fault = PROVED(check_path)(other, other_length, version);
    }
    return status;
}

/* The same of a status that speaks of a word in a line: which fault that has is not known. */
static uint8_t of_text(uint8_t status) {
    if (status == ATOMFS_BAD_PATH) path_fault = ATOMFS_OK;
    return status;
}

uint8_t atomfs_open(atomfs *fs, size_t limit) {
    uint8_t status = there(fs);
    return refused(status) ? status : PROVED(open)(fs, limit);
}

uint8_t atomfs_open_with(atomfs *fs, size_t limit, uint8_t version) {
    uint8_t status = there(fs);
    return refused(status) ? status : PROVED(open_with)(fs, limit, version);
}

uint8_t atomfs_open_from(atomfs *fs, size_t limit, uint8_t version, const char *text, size_t length, size_t *line) {
    uint8_t status;
    if (refused(status = there(fs)) || refused(status = bytes_there(text, length)) || refused(status = there(line)))
        return status;
    return of_text(PROVED(open_from)(fs, limit, version, from(text), length, line));
}

/* The proved function takes two handles. Of one that is given as both, a step on a seat that is not there says whether it is open. */
uint8_t atomfs_open_at(atomfs *fs, size_t limit, atomfs *other, uint64_t *number) {
    uint8_t status;
    if (refused(status = there(fs)) || refused(status = there(other))) return status;
    if (fs == other) {
        uint8_t did;
        uint64_t about;
        return PROVED(step)(fs, UINT64_MAX, &did, &about) == ATOMFS_CLOSED ? ATOMFS_CLOSED : ATOMFS_ALREADY_OPEN;
    }
    return PROVED(open_at)(fs, limit, other, NUMBER_TO(number));
}

uint8_t atomfs_close(atomfs *fs) {
    uint8_t status = there(fs);
    return refused(status) ? status : PROVED(close)(fs);
}

uint8_t atomfs_seat(atomfs *fs, uint64_t *seat) {
    uint8_t status;
    if (refused(status = there(fs)) || refused(status = there(seat))) return status;
    return PROVED(seat)(fs, seat);
}

#define ON_PATH(name)                                                                                                  \
    uint8_t atomfs_##name(atomfs *fs, uint64_t seat, const char *path, size_t length, uint64_t *number) {              \
        uint8_t status = may_call(fs, path, length);                                                                   \
        if (refused(status)) return status;                                                                            \
        status = PROVED(name)(fs, seat, from(path), length, NUMBER_TO(number));                                        \
        return noted(status, path, length, NULL, 0);                                                                   \
    }

ON_PATH(mkdir)
ON_PATH(mknod)
ON_PATH(unlink)
ON_PATH(rmdir)

uint8_t atomfs_begin(atomfs *fs, uint64_t seat, const char *line, size_t length, uint64_t *number) {
    uint8_t status = may_call(fs, line, length);
    return refused(status) ? status : of_text(PROVED(begin)(fs, seat, from(line), length, NUMBER_TO(number)));
}

#define ON_BOTH(name)                                                                                                  \
    uint8_t atomfs_##name(atomfs *fs, uint64_t seat, const char *path, size_t length, const char *other,               \
                          size_t other_length, uint64_t *number) {                                                     \
        uint8_t status = may_call_with(fs, path, length, other, other_length);                                         \
        if (refused(status)) return status;                                                                            \
        status = PROVED(name)(fs, seat, from(path), length, from(other), other_length, NUMBER_TO(number));             \
        return noted(status, path, length, from(other), other_length);                                                 \
    }

ON_BOTH(rename)
ON_BOTH(exchange)

uint8_t atomfs_stat(atomfs *fs, uint64_t seat, const char *path, size_t length, struct atomfs_stat *stat,
                    uint64_t *number) {
    uint8_t status;
    if (refused(status = may_call(fs, path, length)) || refused(status = there(stat))) return status;
    return noted(PROVED(stat)(fs, seat, from(path), length, stat, NUMBER_TO(number)), path, length, NULL, 0);
}

uint8_t atomfs_readdir(atomfs *fs, uint64_t seat, const char *path, size_t length, char *out, size_t room,
                       size_t *count, uint64_t *number) {
    uint8_t status = may_call_and_tell(fs, path, length, out, room, count);
    if (refused(status)) return status;
    status = PROVED(readdir)(fs, seat, from(path), length, into(out), room, count, NUMBER_TO(number));
    return noted(status, path, length, NULL, 0);
}

uint8_t atomfs_call(atomfs *fs, uint64_t seat, const char *line, size_t length, char *out, size_t room, size_t *count,
                    uint64_t *number) {
    uint8_t status = may_call_and_tell(fs, line, length, out, room, count);
    if (refused(status)) return status;
    return of_text(PROVED(call)(fs, seat, from(line), length, into(out), room, count, NUMBER_TO(number)));
}

uint8_t atomfs_list(atomfs *fs, uint64_t seat, const char *path, size_t length, const char *after, size_t after_length,
                    uint32_t most, char *out, size_t room, size_t *count, uint64_t *number) {
    uint8_t status;
    if (refused(status = may_call_with(fs, path, length, after, after_length))) return status;
    if (refused(status = may_tell(fs, out, room, count))) return status;
    status = PROVED(list)(fs, seat, from(path), length, from(after), after_length, most, into(out), room, count,
                          NUMBER_TO(number));
    return noted(status, path, length, from(after), after_length);
}

uint8_t atomfs_read(atomfs *fs, uint64_t seat, const char *path, size_t length, uint64_t offset, void *out, size_t room,
                    size_t *count, uint64_t *number) {
    uint8_t status = may_call_and_tell(fs, path, length, out, room, count);
    if (refused(status)) return status;
    status = PROVED(read)(fs, seat, from(path), length, offset, into(out), room, count, NUMBER_TO(number));
    return noted(status, path, length, NULL, 0);
}

uint8_t atomfs_write(atomfs *fs, uint64_t seat, const char *path, size_t length, uint64_t offset, const void *bytes,
                     size_t bytes_length, uint64_t *wrote, uint64_t *number) {
    uint8_t status;
    if (refused(status = may_call_with(fs, path, length, bytes, bytes_length))) return status;
    if (refused(status = there(wrote))) return status;
    status = PROVED(write)(fs, seat, from(path), length, offset, from(bytes), bytes_length, wrote, NUMBER_TO(number));
    return noted(status, path, length, NULL, 0);
}

uint8_t atomfs_truncate(atomfs *fs, uint64_t seat, const char *path, size_t length, uint64_t size, uint64_t *number) {
    uint8_t status = may_call(fs, path, length);
    if (refused(status)) return status;
    return noted(PROVED(truncate)(fs, seat, from(path), length, size, NUMBER_TO(number)), path, length, NULL, 0);
}

uint8_t atomfs_begin_call(atomfs *fs, uint64_t seat, const atomfs_request *request, uint64_t *number) {
    uint8_t status;
    if (refused(status = there(request))) return status;
    if (refused(status = may_call(fs, request->path, request->length))) return status;
    int on_both = request->call == ATOMFS_CALL_RENAME || request->call == ATOMFS_CALL_EXCHANGE ||
                  request->call == ATOMFS_CALL_LIST;
    int writes = request->call == ATOMFS_CALL_WRITE;
    const char *other = on_both ? request->other : NULL;
    size_t other_length = on_both ? request->other_length : 0;
    const void *bytes = writes ? request->bytes : NULL;
    size_t bytes_length = writes ? request->bytes_length : 0;
    if (refused(status = bytes_there(other, other_length))) return status;
    if (refused(status = bytes_there(bytes, bytes_length))) return status;
    status =
        PROVED(begin_call)(fs, seat, request->call, from(request->path), request->length, from(other), other_length,
                           request->offset, request->size, from(bytes), bytes_length, NUMBER_TO(number));
    return noted(status, request->path, request->length, on_both ? from(other) : NULL, other_length);
}

uint8_t atomfs_step(atomfs *fs, uint64_t seat, uint8_t *did, uint64_t *about) {
    uint8_t status;
    if (refused(status = there(fs)) || refused(status = there(did)) || refused(status = there(about))) return status;
    return PROVED(step)(fs, seat, did, about);
}

uint8_t atomfs_step_any(atomfs *fs, uint64_t *seat, uint8_t *did, uint64_t *about) {
    uint8_t status;
    if (refused(status = there(fs)) || refused(status = there(seat))) return status;
    if (refused(status = there(did)) || refused(status = there(about))) return status;
    return PROVED(step_any)(fs, seat, did, about);
}

uint8_t atomfs_reply_done(atomfs *fs, uint64_t number) {
    uint8_t status = there(fs);
    return refused(status) ? status : PROVED(reply_done)(fs, number);
}

uint8_t atomfs_reply_stat(atomfs *fs, uint64_t number, struct atomfs_stat *stat) {
    uint8_t status;
    if (refused(status = there(fs)) || refused(status = there(stat))) return status;
    return PROVED(reply_stat)(fs, number, stat);
}

uint8_t atomfs_reply_names(atomfs *fs, uint64_t number, const char *after, size_t after_length, char *out, size_t room,
                           size_t *count) {
    uint8_t status;
    if (refused(status = may_tell(fs, out, room, count)) || refused(status = bytes_there(after, after_length)))
        return status;
    return PROVED(reply_names)(fs, number, from(after), after_length, into(out), room, count);
}

uint8_t atomfs_reply_bytes(atomfs *fs, uint64_t number, void *out, size_t room, size_t *count) {
    uint8_t status = may_tell(fs, out, room, count);
    return refused(status) ? status : PROVED(reply_bytes)(fs, number, into(out), room, count);
}

uint8_t atomfs_reply_wrote(atomfs *fs, uint64_t number, uint64_t *wrote) {
    uint8_t status;
    if (refused(status = there(fs)) || refused(status = there(wrote))) return status;
    return PROVED(reply_wrote)(fs, number, wrote);
}

uint8_t atomfs_journal(atomfs *fs, size_t first, char *out, size_t room, size_t *count, size_t *entries) {
    uint8_t status;
    if (refused(status = may_tell(fs, out, room, count)) || refused(status = there(entries))) return status;
    return PROVED(journal)(fs, first, into(out), room, count, entries);
}

#define TELL(name)                                                                                                     \
    uint8_t atomfs_##name(atomfs *fs, char *out, size_t room, size_t *count) {                                         \
        uint8_t status = may_tell(fs, out, room, count);                                                               \
        return refused(status) ? status : PROVED(name)(fs, into(out), room, count);                                    \
    }

TELL(opening)
TELL(tree)

uint8_t atomfs_checkpoint(atomfs *fs, char *out, size_t room, size_t *count, uint64_t *number) {
    uint8_t status;
    if (refused(status = may_tell(fs, out, room, count)) || refused(status = there(number))) return status;
    return PROVED(checkpoint)(fs, into(out), room, count, number);
}

uint8_t atomfs_forget(atomfs *fs, uint64_t *number) {
    uint8_t status;
    if (refused(status = there(fs)) || refused(status = there(number))) return status;
    return PROVED(forget)(fs, number);
}

uint8_t atomfs_keep(atomfs *fs, uint32_t most) {
    uint8_t status = there(fs);
    return refused(status) ? status : PROVED(keep)(fs, most);
}

uint8_t atomfs_verdict(atomfs *fs, uint64_t *place, uint8_t *kind) {
    uint8_t status;
    if (refused(status = there(fs)) || refused(status = there(place)) || refused(status = there(kind))) return status;
    return PROVED(verdict)(fs, place, kind);
}

uint8_t atomfs_reply(atomfs *fs, uint64_t number, char *out, size_t room, size_t *count) {
    uint8_t status = may_tell(fs, out, room, count);
    return refused(status) ? status : PROVED(reply)(fs, number, into(out), room, count);
}

/* Of one that makes a text of a text. */
static uint8_t may_make(const char *text, size_t length, const char *out, size_t room, const size_t *count) {
    uint8_t status;
    if (refused(status = bytes_there(text, length)) || refused(status = bytes_there(out, room))) return status;
    return there(count);
}

#define ON_TEXT(name)                                                                                                  \
    uint8_t atomfs_##name(const char *text, size_t length, char *out, size_t room, size_t *count) {                    \
        uint8_t status = may_make(text, length, out, room, count);                                                     \
        return refused(status) ? status : of_text(PROVED(name)(from(text), length, into(out), room, count));           \
    }

ON_TEXT(run)
ON_TEXT(check)
ON_TEXT(explain)

uint8_t atomfs_trace(const char *script, size_t length, uint8_t schedule, uint64_t seed, uint8_t every, char *out,
                     size_t room, size_t *count) {
    uint8_t status = may_make(script, length, out, room, count);
    if (refused(status)) return status;
    return of_text(PROVED(trace)(from(script), length, schedule, seed, every, into(out), room, count));
}

uint8_t atomfs_draw(const char *text, size_t length, uint8_t schedule, uint64_t seed, uint64_t around, char *out,
                    size_t room, size_t *count) {
    uint8_t status = may_make(text, length, out, room, count);
    if (refused(status)) return status;
    return of_text(PROVED(draw)(from(text), length, schedule, seed, around, into(out), room, count));
}

uint8_t atomfs_page(const char *text, size_t length, uint8_t schedule, uint64_t seed, char *out, size_t room,
                    size_t *count) {
    uint8_t status = may_make(text, length, out, room, count);
    if (refused(status)) return status;
    return of_text(PROVED(page)(from(text), length, schedule, seed, into(out), room, count));
}

uint8_t atomfs_schedule(const char *script, size_t length, uint8_t schedule, uint64_t seed, char *out, size_t room,
                        size_t *count) {
    uint8_t status = may_make(script, length, out, room, count);
    if (refused(status)) return status;
    return of_text(PROVED(schedule)(from(script), length, schedule, seed, into(out), room, count));
}

uint8_t atomfs_seeds(const char *script, size_t length, uint64_t seed, uint64_t runs, char *out, size_t room,
                     size_t *count) {
    uint8_t status = may_make(script, length, out, room, count);
    if (refused(status)) return status;
    return of_text(PROVED(seeds)(from(script), length, seed, runs, into(out), room, count));
}

uint8_t atomfs_linearize(const char *history, size_t length, uint64_t limit, uint8_t tell, char *out, size_t room,
                         size_t *count, uint8_t *found) {
    uint8_t status;
    if (refused(status = may_make(history, length, out, room, count)) || refused(status = there(found))) return status;
    return of_text(PROVED(linearize)(from(history), length, limit, tell, into(out), room, count, found));
}

uint8_t atomfs_check_path(const char *path, size_t length, uint8_t version) {
    uint8_t status = bytes_there(path, length);
    return refused(status) ? status : PROVED(check_path)(from(path), length, version);
}

const char *atomfs_version(void) { return ATOMFS_VERSION; }

const char *atomfs_errno_name(uint8_t status) {
    switch (status - ATOMFS_FAILED) {
    case 1: return "EPERM";
    case 2: return "ENOENT";
    case 16: return "EBUSY";
    case 17: return "EEXIST";
    case 20: return "ENOTDIR";
    case 21: return "EISDIR";
    case 22: return "EINVAL";
    case 27: return "EFBIG";
    case 28: return "ENOSPC";
    case 39: return "ENOTEMPTY";
    case 75: return "EOVERFLOW";
    default: return NULL;
    }
}

static const char *failed_text(uint8_t status) {
    switch (status - ATOMFS_FAILED) {
    case 1: return "a directory cannot be unlinked (EPERM)";
    case 2: return "no such file or directory (ENOENT)";
    case 16: return "the root can be neither removed nor renamed (EBUSY)";
    case 17: return "the name exists already (EEXIST)";
    case 20: return "not a directory (ENOTDIR)";
    case 21: return "a directory, where a file is needed (EISDIR)";
    case 22: return "a directory cannot be moved below itself (EINVAL)";
    case 27:
        return "the file would have more than 65,536 bytes, 1,048,576 by the second limits or 2,147,483,648 by the "
               "third (EFBIG)";
    case 28:
        return "the directory has 256 entries, or 1,048,576 by the third limits, and no more may be made in it "
               "(ENOSPC)";
    case 39: return "the directory is not empty (ENOTEMPTY)";
    case 75: return "the directory has more names than a call answers, which are 256 (EOVERFLOW)";
    default: return "no status of this library";
    }
}

/* What the last path was that this thread was refused. */
static const char *no_path_text(void) {
    switch (path_fault) {
    case ATOMFS_PATH_NOT_ABSOLUTE: return "no path: it does not begin with a slash";
    case ATOMFS_PATH_NUL: return "no path: it has a byte 0";
    case ATOMFS_PATH_NAME_TOO_LONG: return "no path: a name has more bytes than the limits allow";
    case ATOMFS_PATH_TOO_MANY_NAMES: return "no path: it has more names than the limits allow";
    case ATOMFS_PATH_DOT: return "no path: a name of it is . or ..";
    case ATOMFS_PATH_TRAILING_SLASH: return "no path: it ends with a slash";
    default: return "no path";
    }
}

const char *atomfs_status_text(uint8_t status) {
    switch (status) {
    case ATOMFS_OK: return "done";
    case ATOMFS_TOO_SMALL: return "there is no room for what is told";
    case ATOMFS_UNTOLD: return "the call returned, and its reply is not told";
    case ATOMFS_WAITS: return "the call is under way, and waits for a call of another seat";
    case ATOMFS_CLOSED: return "the handle is closed";
    case ATOMFS_ALREADY_OPEN: return "the handle is open already";
    case ATOMFS_BAD_LIMIT: return "no tree has this limit of nodes";
    case ATOMFS_NO_MEMORY: return "out of memory";
    case ATOMFS_NO_SEAT: return "there is no such seat";
    case ATOMFS_SEAT_BUSY: return "the seat has a call under way";
    case ATOMFS_FULL: return "all nodes are in use";
    case ATOMFS_NO_REPLY: return "no call of this number has returned";
    case ATOMFS_UNDER_WAY: return "a call is under way";
    case ATOMFS_BAD_VERSION: return "no limits have this version, or those of the tree have no such call";
    case ATOMFS_NULL: return "a pointer is null";
    case ATOMFS_BAD_LENGTH: return "a length is 2^63 or more";
    case ATOMFS_BAD_HEADER: return "the first line is another than it has to be";
    case ATOMFS_BAD_LINE: return "a line has no form of its place, or a request no call";
    case ATOMFS_BAD_THREAD: return "the name of a thread is none";
    case ATOMFS_THREAD_TWICE: return "a thread has two blocks";
    case ATOMFS_BAD_PATH: return no_path_text();
    case ATOMFS_BAD_NUMBER: return "no number";
    case ATOMFS_BAD_HEX: return "no bytes in hexadecimal digits";
    case ATOMFS_NO_SCHEDULE: return "the script has no schedule";
    case ATOMFS_BAD_WORD: return "no word of a schedule";
    case ATOMFS_TOO_LARGE: return "a limit of a text is passed";
    case ATOMFS_BAD_REPLY: return "no reply";
    case ATOMFS_BAD_START: return "the start tree is none";
    case ATOMFS_PATH_NOT_ABSOLUTE: return "the path does not begin with a slash";
    case ATOMFS_PATH_NUL: return "the path has a byte 0";
    case ATOMFS_PATH_NAME_TOO_LONG: return "a name of the path is too long";
    case ATOMFS_PATH_TOO_MANY_NAMES: return "the path has more than 64 names, or than 2,048 by the third limits";
    case ATOMFS_PATH_DOT: return "a name of the path is . or ..";
    case ATOMFS_PATH_TRAILING_SLASH: return "the path ends with a slash";
    case ATOMFS_NO_CALL: return "no call has this number";
    case ATOMFS_BAD_CHOICE: return "no schedule, number or word that there is";
    default: return failed_text(status);
    }
}
