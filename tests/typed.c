/* The typed calls of the library for C, and calls that break its rules as far as it answers them: what each answers, writes
 * and leaves. */
#include "is.h"

static atomfs fs = ATOMFS_INIT;
static uint64_t seat, other_seat, number, wrote;
static size_t count, entries;
static char out[9000];
static struct atomfs_stat stat_;

static void open_fs(size_t limit) {
    IS(atomfs_open(&fs, limit), ATOMFS_OK);
    IS(atomfs_seat(&fs, &seat), ATOMFS_OK);
    IS(seat, 0);
    IS(atomfs_seat(&fs, &other_seat), ATOMFS_OK);
    IS(other_seat, 1);
}

static void each_call(void) {
    open_fs(100);
    IS(atomfs_mkdir(&fs, seat, PATH("/a"), &number), ATOMFS_OK);
    IS(number, 1);
    IS(atomfs_mknod(&fs, seat, PATH("/a/f"), &number), ATOMFS_OK);
    IS(atomfs_write(&fs, seat, PATH("/a/f"), 2, "h\0llo", 5, &wrote, &number), ATOMFS_OK);
    IS(wrote, 5);
    IS(number, 3);
    IS(atomfs_read(&fs, seat, PATH("/a/f"), 1, out, sizeof out, &count, &number), ATOMFS_OK);
    SAYS(out, count, "\0h\0llo");
    IS(atomfs_stat(&fs, seat, PATH("/a/f"), &stat_, &number), ATOMFS_OK);
    IS(stat_.is_dir, 0);
    IS(stat_.size, 7);
    IS(atomfs_truncate(&fs, seat, PATH("/a/f"), 3, &number), ATOMFS_OK);
    IS(atomfs_read(&fs, seat, PATH("/a/f"), 0, out, sizeof out, &count, &number), ATOMFS_OK);
    SAYS(out, count, "\0\0h");
    IS(atomfs_rename(&fs, seat, PATH("/a/f"), PATH("/g"), &number), ATOMFS_OK);
    IS(atomfs_exchange(&fs, seat, PATH("/a"), PATH("/g"), &number), ATOMFS_OK);
    IS(atomfs_stat(&fs, seat, PATH("/g"), &stat_, &number), ATOMFS_OK);
    IS(stat_.is_dir, 1);
    IS(stat_.size, 0);
    IS(atomfs_readdir(&fs, seat, PATH("/"), out, sizeof out, &count, &number), ATOMFS_OK);
    SAYS(out, count, "a\0g\0");
    IS(atomfs_readdir(&fs, seat, PATH("/g"), out, sizeof out, &count, &number), ATOMFS_OK);
    IS(count, 0);
    IS(atomfs_rmdir(&fs, seat, PATH("/g"), &number), ATOMFS_OK);
    IS(atomfs_unlink(&fs, seat, PATH("/a"), &number), ATOMFS_OK);
    IS(atomfs_tree(&fs, out, sizeof out, &count), ATOMFS_OK);
    SAYS(out, count, "tree\ndir /\n");
    IS(atomfs_close(&fs), ATOMFS_OK);
}

/* Paths are bytes: no escape is read, and any byte may stand but 0 and the slash. */
static void plain_paths(void) {
    open_fs(10);
    IS(atomfs_mkdir(&fs, seat, PATH("/a b%20\n\377"), &number), ATOMFS_OK);
    IS(atomfs_mkdir(&fs, seat, PATH("//a b%20\n\377///x"), &number), ATOMFS_OK);
    IS(atomfs_readdir(&fs, seat, PATH("/"), out, sizeof out, &count, &number), ATOMFS_OK);
    SAYS(out, count, "a b%20\n\377\0");
    IS(atomfs_call(&fs, seat, PATH("stat /a%20b%2520%0a%ff"), out, sizeof out, &count, &number), ATOMFS_OK);
    SAYS(out, count, "stat dir 1");
    IS(atomfs_close(&fs), ATOMFS_OK);
}

static void each_error(void) {
    open_fs(1000);
    IS(atomfs_mkdir(&fs, seat, PATH("/d"), &number), ATOMFS_OK);
    IS(atomfs_mkdir(&fs, seat, PATH("/d/e"), &number), ATOMFS_OK);
    IS(atomfs_mknod(&fs, seat, PATH("/f"), &number), ATOMFS_OK);
    FAILS(atomfs_mkdir(&fs, seat, PATH("/x/y"), &number), ENOENT_);
    FAILS(atomfs_mkdir(&fs, seat, PATH("/f/y"), &number), ENOTDIR_);
    FAILS(atomfs_mknod(&fs, seat, PATH("/d"), &number), EEXIST_);
    FAILS(atomfs_rmdir(&fs, seat, PATH("/d"), &number), ENOTEMPTY_);
    FAILS(atomfs_rmdir(&fs, seat, PATH("/"), &number), EBUSY_);
    FAILS(atomfs_unlink(&fs, seat, PATH("/d"), &number), EPERM_);
    FAILS(atomfs_rename(&fs, seat, PATH("/d"), PATH("/d/e/x"), &number), EINVAL_);
    FAILS(atomfs_exchange(&fs, seat, PATH("/f"), PATH("/x"), &number), ENOENT_);
    FAILS(atomfs_stat(&fs, seat, PATH("/x"), &stat_, &number), ENOENT_);
    FAILS(atomfs_readdir(&fs, seat, PATH("/f"), out, sizeof out, &count, &number), ENOTDIR_);
    FAILS(atomfs_read(&fs, seat, PATH("/d"), 0, out, sizeof out, &count, &number), EISDIR_);
    FAILS(atomfs_write(&fs, seat, PATH("/f"), UINT64_MAX, "x", 1, &wrote, &number), EFBIG_);
    FAILS(atomfs_truncate(&fs, seat, PATH("/f"), UINT64_MAX, &number), EFBIG_);
    char name[] = "/d/n000";
    for (int i = 0; i < 255; i++) {
        snprintf(name + 4, 4, "%03d", i);
        IS(atomfs_mknod(&fs, seat, name, 7, &number), ATOMFS_OK);
    }
    FAILS(atomfs_mknod(&fs, seat, PATH("/d/more"), &number), ENOSPC_);
    FAILS(atomfs_reply_done(&fs, number), ENOSPC_);
    FAILS(atomfs_reply_bytes(&fs, number, out, sizeof out, &count), ENOSPC_);
    IS(atomfs_reply(&fs, number, out, sizeof out, &count), ATOMFS_OK);
    SAYS(out, count, "failed ENOSPC");
    IS(atomfs_close(&fs), ATOMFS_OK);
}

/* Every refusal leaves the journal as it was. */
static void refusals(void) {
    open_fs(2);
    static const char *const bad[] = { "",   "a",     "a/b",    "/a/",
                                       "/.", "/a/..", "/a/./b", "/123456789012345678901234567890123" };
    for (size_t i = 0; i < sizeof bad / sizeof *bad; i++) {
        IS(atomfs_mkdir(&fs, seat, bad[i], strlen(bad[i]), &number), ATOMFS_BAD_PATH);
        IS(atomfs_rename(&fs, seat, PATH("/a"), bad[i], strlen(bad[i]), &number), ATOMFS_BAD_PATH);
    }
    char many[2 * 65];
    for (int i = 0; i < 65; i++) memcpy(many + 2 * i, "/a", 2);
    IS(atomfs_stat(&fs, seat, many, sizeof many, &stat_, &number), ATOMFS_BAD_PATH);
    IS(atomfs_check_path(many, sizeof many, ATOMFS_V1), ATOMFS_PATH_TOO_MANY_NAMES);
    IS(atomfs_check_path(many, sizeof many - 2, ATOMFS_V1), ATOMFS_OK);
    FAILS(atomfs_stat(&fs, seat, many, sizeof many - 2, &stat_, &number), ENOENT_);
    IS(atomfs_unlink(&fs, seat, "/a\0b", 4, &number), ATOMFS_BAD_PATH);
    IS(atomfs_mkdir(&fs, 2, PATH("/a"), &number), ATOMFS_NO_SEAT);
    IS(atomfs_mkdir(&fs, UINT64_MAX, PATH("/a"), &number), ATOMFS_NO_SEAT);
    IS(atomfs_mkdir(&fs, seat, PATH("/a"), &number), ATOMFS_OK);
    IS(atomfs_mkdir(&fs, seat, PATH("/b"), &number), ATOMFS_FULL);
    atomfs_request request = { ATOMFS_CALL_STAT, PATH("/"), NULL, 0, 0, 0, NULL, 0 };
    IS(atomfs_begin_call(&fs, seat, &request, &number), ATOMFS_OK);
    IS(atomfs_begin_call(&fs, seat, &request, &number), ATOMFS_SEAT_BUSY);
    IS(atomfs_rmdir(&fs, seat, PATH("/a"), &number), ATOMFS_SEAT_BUSY);
    request.call = ATOMFS_CALL_LIST + 1;
    IS(atomfs_begin_call(&fs, other_seat, &request, &number), ATOMFS_BAD_LINE);
    IS(atomfs_journal(&fs, 0, out, sizeof out, &count, &entries), ATOMFS_OK);
    IS(entries, 7);
    IS(atomfs_close(&fs), ATOMFS_OK);
}

#define TOLD_AS(status, text)                                                                                          \
    do {                                                                                                               \
        IS(status, ATOMFS_BAD_PATH);                                                                                   \
        IS(strcmp(atomfs_status_text(ATOMFS_BAD_PATH), "no path: " text), 0);                                          \
    } while (0)

/* After a refusal the text of the status says which fault the path has; of two paths it is that of the wrong one. */
static void refused_paths(void) {
    static char long_path[] = "/123456789012345678901234567890123", many[2 * 65], list_out[16];
    for (int i = 0; i < 65; i++) memcpy(many + 2 * i, "/a", 2);
    atomfs_request request = { ATOMFS_CALL_RENAME, PATH("/a"), PATH("/b/"), 0, 0, NULL, 0 };
    open_fs(2);
    TOLD_AS(atomfs_mkdir(&fs, seat, PATH("a"), &number), "it does not begin with a slash");
    TOLD_AS(atomfs_mknod(&fs, seat, "/a\0b", 4, &number), "it has a byte 0");
    TOLD_AS(atomfs_unlink(&fs, seat, PATH("/a/../b"), &number), "a name of it is . or ..");
    TOLD_AS(atomfs_rmdir(&fs, seat, PATH("/a/"), &number), "it ends with a slash");
    TOLD_AS(atomfs_stat(&fs, seat, long_path, strlen(long_path), &stat_, &number),
            "a name has more bytes than the limits allow");
    TOLD_AS(atomfs_readdir(&fs, seat, many, sizeof many, out, sizeof out, &count, &number),
            "it has more names than the limits allow");
    TOLD_AS(atomfs_read(&fs, seat, PATH(""), 0, out, sizeof out, &count, &number), "it does not begin with a slash");
    TOLD_AS(atomfs_write(&fs, seat, PATH("/."), 0, "x", 1, &wrote, &number), "a name of it is . or ..");
    TOLD_AS(atomfs_truncate(&fs, seat, PATH("/a//"), 0, &number), "it ends with a slash");
    TOLD_AS(atomfs_rename(&fs, seat, PATH("/a"), PATH("b"), &number), "it does not begin with a slash");
    TOLD_AS(atomfs_exchange(&fs, seat, PATH("/a/."), PATH("/b"), &number), "a name of it is . or ..");
    TOLD_AS(atomfs_rename(&fs, seat, long_path, strlen(long_path), PATH("/b"), &number),
            "a name has more bytes than the limits allow");
    TOLD_AS(atomfs_begin_call(&fs, seat, &request, &number), "it ends with a slash");
    IS(atomfs_mkdir(&fs, seat, PATH("/a"), &number), ATOMFS_OK);
    /* Of a word in a line it is not known. */
    IS(atomfs_begin(&fs, seat, PATH("mkdir a"), &number), ATOMFS_BAD_PATH);
    IS(strcmp(atomfs_status_text(ATOMFS_BAD_PATH), "no path"), 0);
    TOLD_AS(atomfs_mkdir(&fs, seat, PATH("a"), &number), "it does not begin with a slash");
    IS(atomfs_check(PATH("atomfs-journal 1\nbegin 1 0 mkdir /a/\n"), out, sizeof out, &count), ATOMFS_BAD_PATH);
    IS(strcmp(atomfs_status_text(ATOMFS_BAD_PATH), "no path"), 0);
    IS(atomfs_close(&fs), ATOMFS_OK);
    IS(atomfs_open_with(&fs, 10, ATOMFS_V3), ATOMFS_OK);
    IS(atomfs_seat(&fs, &seat), ATOMFS_OK);
    /* By these limits the first path is one, so the second has the fault. */
    TOLD_AS(atomfs_rename(&fs, seat, long_path, strlen(long_path), PATH("/b/."), &number), "a name of it is . or ..");
    TOLD_AS(atomfs_list(&fs, seat, PATH("/"), PATH("x"), 9, list_out, sizeof list_out, &count, &number),
            "it does not begin with a slash");
    IS(atomfs_close(&fs), ATOMFS_OK);
}

static void step_to_return(uint64_t on) {
    uint8_t did = ATOMFS_DID_IDLE;
    uint64_t about;
    do {
        IS(atomfs_step(&fs, on, &did, &about), ATOMFS_OK);
        if (did == ATOMFS_DID_IDLE) IS(did, ATOMFS_DID_RETURN);
    } while (did != ATOMFS_DID_RETURN);
}

static uint64_t begun(const atomfs_request *request) {
    IS(atomfs_begin_call(&fs, seat, request, &number), ATOMFS_OK);
    step_to_return(seat);
    return number;
}

/* Each call by its request, and its reply by its number. */
static void step_by_step(void) {
    open_fs(100);
    atomfs_request request = { ATOMFS_CALL_MKDIR, PATH("/d"), NULL, 9, 0, 0, NULL, 9 };
    IS(atomfs_reply_done(&fs, begun(&request)), ATOMFS_OK);
    request.call = ATOMFS_CALL_MKNOD;
    FAILS(atomfs_reply_done(&fs, begun(&request)), EEXIST_);
    request.path = "/f";
    IS(atomfs_reply_done(&fs, begun(&request)), ATOMFS_OK);
    request.call = ATOMFS_CALL_WRITE;
    request.offset = 1;
    request.bytes = "xyz";
    request.bytes_length = 3;
    IS(atomfs_reply_wrote(&fs, begun(&request), &wrote), ATOMFS_OK);
    IS(wrote, 3);
    request.call = ATOMFS_CALL_READ;
    request.size = 2;
    IS(atomfs_reply_bytes(&fs, begun(&request), out, 2, &count), ATOMFS_OK);
    SAYS(out, count, "xy");
    IS(atomfs_reply_bytes(&fs, number, out, 1, &count), ATOMFS_TOO_SMALL);
    IS(count, 2);
    IS(atomfs_reply_stat(&fs, number, &stat_), ATOMFS_UNTOLD);
    IS(atomfs_reply_done(&fs, number), ATOMFS_UNTOLD);
    IS(atomfs_reply_names(&fs, number, NULL, 0, out, sizeof out, &count), ATOMFS_UNTOLD);
    IS(atomfs_reply_wrote(&fs, number, &wrote), ATOMFS_UNTOLD);
    request.call = ATOMFS_CALL_TRUNCATE;
    IS(atomfs_reply_done(&fs, begun(&request)), ATOMFS_OK);
    request.call = ATOMFS_CALL_STAT;
    IS(atomfs_reply_stat(&fs, begun(&request), &stat_), ATOMFS_OK);
    IS(stat_.is_dir, 0);
    IS(stat_.size, 2);
    IS(atomfs_reply_bytes(&fs, number, out, sizeof out, &count), ATOMFS_UNTOLD);
    request.call = ATOMFS_CALL_EXCHANGE;
    request.other = "/d";
    request.other_length = 2;
    IS(atomfs_reply_done(&fs, begun(&request)), ATOMFS_OK);
    request.call = ATOMFS_CALL_RENAME;
    request.path = "/d";
    request.other = "/e";
    IS(atomfs_reply_done(&fs, begun(&request)), ATOMFS_OK);
    request.call = ATOMFS_CALL_READDIR;
    request.path = "/";
    request.length = 1;
    IS(atomfs_reply_names(&fs, begun(&request), NULL, 0, out, sizeof out, &count), ATOMFS_OK);
    SAYS(out, count, "e\0f\0");
    request.call = ATOMFS_CALL_UNLINK;
    request.path = "/e";
    request.length = 2;
    IS(atomfs_reply_done(&fs, begun(&request)), ATOMFS_OK);
    request.call = ATOMFS_CALL_RMDIR;
    request.path = "/f";
    IS(atomfs_reply_done(&fs, begun(&request)), ATOMFS_OK);
    IS(atomfs_reply_done(&fs, 0), ATOMFS_NO_REPLY);
    IS(atomfs_reply_done(&fs, number + 1), ATOMFS_NO_REPLY);
    IS(atomfs_reply_done(&fs, UINT64_MAX), ATOMFS_NO_REPLY);
    IS(atomfs_close(&fs), ATOMFS_OK);
}

/* A typed call waits for one of another seat, goes on, and its reply is asked for. */
static void waits(void) {
    uint8_t did;
    uint64_t about;
    open_fs(100);
    IS(atomfs_begin(&fs, other_seat, PATH("mkdir /a"), &number), ATOMFS_OK);
    IS(atomfs_step(&fs, other_seat, &did, &about), ATOMFS_OK);
    IS(did, ATOMFS_DID_TAKE);
    IS(atomfs_readdir(&fs, seat, PATH("/"), out, sizeof out, &count, &number), ATOMFS_WAITS);
    IS(number, 2);
    IS(atomfs_reply_names(&fs, number, NULL, 0, out, sizeof out, &count), ATOMFS_NO_REPLY);
    IS(atomfs_step(&fs, seat, &did, &about), ATOMFS_OK);
    IS(did, ATOMFS_DID_WAIT);
    IS(about, 1);
    step_to_return(other_seat);
    step_to_return(seat);
    IS(atomfs_reply_names(&fs, number, NULL, 0, out, sizeof out, &count), ATOMFS_OK);
    SAYS(out, count, "a\0");
    IS(atomfs_close(&fs), ATOMFS_OK);
}

/* Of two calls, the first of which waits for the second, the one that goes on is stepped, until both have returned. */
static void some_step(void) {
    uint8_t did = ATOMFS_DID_WAIT;
    uint64_t about, stepped = 7;
    open_fs(100);
    IS(atomfs_step_any(&fs, &stepped, &did, &about), ATOMFS_OK);
    IS(stepped, 7);
    IS(did, ATOMFS_DID_IDLE);
    IS(about, 0);
    IS(atomfs_begin(&fs, other_seat, PATH("mkdir /a"), &number), ATOMFS_OK);
    IS(atomfs_step(&fs, other_seat, &did, &about), ATOMFS_OK);
    IS(atomfs_begin(&fs, seat, PATH("stat /a"), &number), ATOMFS_OK);
    IS(atomfs_step_any(&fs, &stepped, &did, &about), ATOMFS_OK);
    IS(stepped, other_seat);
    IS(did, ATOMFS_DID_COMMIT);
    IS(about, 0);
    int steps = 0;
    do {
        IS(atomfs_step_any(&fs, &stepped, &did, &about), ATOMFS_OK);
        IS(did == ATOMFS_DID_WAIT, 0);
        steps++;
    } while (did != ATOMFS_DID_IDLE);
    IS(steps, 9);
    IS(atomfs_reply_done(&fs, 1), ATOMFS_OK);
    IS(atomfs_reply_stat(&fs, 2, &stat_), ATOMFS_OK);
    IS(stat_.is_dir, 1);
    IS(atomfs_close(&fs), ATOMFS_OK);
}

/* Why bytes are no path, by each set of limits, and its words. */
static void checked_paths(void) {
    static const struct {
        const char *path;
        size_t length;
        uint8_t first, others;
    } rows[] = {
        { PATH("/"), ATOMFS_OK, ATOMFS_OK },
        { PATH("//a/...//b"), ATOMFS_OK, ATOMFS_OK },
        { NULL, 0, ATOMFS_PATH_NOT_ABSOLUTE, ATOMFS_PATH_NOT_ABSOLUTE },
        { PATH("a/"), ATOMFS_PATH_NOT_ABSOLUTE, ATOMFS_PATH_NOT_ABSOLUTE },
        { PATH("/./\0"), ATOMFS_PATH_NUL, ATOMFS_PATH_NUL },
        { PATH("/123456789012345678901234567890123"), ATOMFS_PATH_NAME_TOO_LONG, ATOMFS_OK },
        { PATH("/123456789012345678901234567890123/."), ATOMFS_PATH_NAME_TOO_LONG, ATOMFS_PATH_DOT },
        { PATH("/a/../"), ATOMFS_PATH_DOT, ATOMFS_PATH_DOT },
        { PATH("/a//"), ATOMFS_PATH_TRAILING_SLASH, ATOMFS_PATH_TRAILING_SLASH },
    };
    for (size_t i = 0; i < sizeof rows / sizeof *rows; i++) {
        IS(atomfs_check_path(rows[i].path, rows[i].length, ATOMFS_V1), rows[i].first);
        IS(atomfs_check_path(rows[i].path, rows[i].length, ATOMFS_V2), rows[i].others);
        IS(atomfs_check_path(rows[i].path, rows[i].length, ATOMFS_V3), rows[i].others);
    }
    IS(atomfs_check_path(PATH("/"), 0), ATOMFS_BAD_VERSION);
    IS(atomfs_check_path(PATH("a"), 4), ATOMFS_BAD_VERSION);
    /* The longest name by each set of limits, and one byte more. */
    static const size_t longest[] = { 32, 64, 255 };
    char name[2 + 255];
    memset(name, 'n', sizeof name);
    name[0] = '/';
    for (uint8_t version = ATOMFS_V1; version <= ATOMFS_V3; version++) {
        IS(atomfs_check_path(name, 1 + longest[version - 1], version), ATOMFS_OK);
        IS(atomfs_check_path(name, 2 + longest[version - 1], version), ATOMFS_PATH_NAME_TOO_LONG);
    }
    char many[2 * 2049];
    for (int i = 0; i < 2049; i++) memcpy(many + 2 * i, "/a", 2);
    IS(atomfs_check_path(many, 2 * 64, ATOMFS_V2), ATOMFS_OK);
    IS(atomfs_check_path(many, 2 * 65, ATOMFS_V2), ATOMFS_PATH_TOO_MANY_NAMES);
    IS(atomfs_check_path(many, 2 * 2048, ATOMFS_V3), ATOMFS_OK);
    IS(atomfs_check_path(many, 2 * 2049, ATOMFS_V3), ATOMFS_PATH_TOO_MANY_NAMES);
    for (uint8_t status = ATOMFS_PATH_NOT_ABSOLUTE; status <= ATOMFS_PATH_TRAILING_SLASH; status++)
        for (int other = 0; other < 256; other++)
            if (other != status) IS(strcmp(atomfs_status_text(status), atomfs_status_text((uint8_t)other)) != 0, 1);
}

/* Bytes with no room change nothing, and all names come through a small buffer. */
static void small_buffers(void) {
    open_fs(100);
    IS(atomfs_mkdir(&fs, seat, PATH("/a"), &number), ATOMFS_OK);
    IS(atomfs_mkdir(&fs, seat, PATH("/bcd"), &number), ATOMFS_OK);
    IS(atomfs_mkdir(&fs, seat, PATH("/c"), &number), ATOMFS_OK);
    memset(out, '#', sizeof out);
    IS(atomfs_readdir(&fs, seat, PATH("/"), out, 7, &count, &number), ATOMFS_TOO_SMALL);
    IS(count, 8);
    SAYS(out, (size_t)8, "########");
    IS(atomfs_readdir(&fs, seat, PATH("/"), NULL, 0, &count, &number), ATOMFS_TOO_SMALL);
    IS(atomfs_reply_names(&fs, number, NULL, 0, out, 7, &count), ATOMFS_OK);
    SAYS(out, count, "a\0bcd\0");
    IS(out[6], '#');
    IS(atomfs_reply_names(&fs, number, PATH("a"), out, 5, &count), ATOMFS_OK);
    SAYS(out, count, "bcd\0");
    IS(atomfs_reply_names(&fs, number, PATH("a"), out, 3, &count), ATOMFS_TOO_SMALL);
    IS(count, 4);
    IS(atomfs_reply_names(&fs, number, PATH("bcd"), out, 2, &count), ATOMFS_OK);
    SAYS(out, count, "c\0");
    IS(atomfs_reply_names(&fs, number, PATH("c"), NULL, 0, &count), ATOMFS_OK);
    IS(count, 0);
    IS(atomfs_reply_names(&fs, number, PATH("bc"), out, 4, &count), ATOMFS_OK);
    SAYS(out, count, "bcd\0");
    IS(atomfs_mknod(&fs, seat, PATH("/f"), &number), ATOMFS_OK);
    IS(atomfs_write(&fs, seat, PATH("/f"), 0, "12345", 5, &wrote, &number), ATOMFS_OK);
    memset(out, '#', sizeof out);
    IS(atomfs_read(&fs, seat, PATH("/f"), 0, out, 4, &count, &number), ATOMFS_OK);
    SAYS(out, count, "1234");
    IS(out[4], '#');
    IS(atomfs_read(&fs, seat, PATH("/f"), 0, NULL, 0, &count, &number), ATOMFS_OK);
    IS(count, 0);
    IS(atomfs_read(&fs, seat, PATH("/f"), UINT64_MAX, out, 4, &count, &number), ATOMFS_OK);
    IS(count, 0);
    IS(atomfs_write(&fs, seat, PATH("/f"), 1, NULL, 0, &wrote, &number), ATOMFS_OK);
    IS(wrote, 0);
    IS(atomfs_close(&fs), ATOMFS_OK);
}

/* A checkpoint hands the journal out, and it begins again; by any other answer nothing has changed. */
static void checkpoints(void) {
    static const char first[] = "atomfs-journal 1\nbegin 1 0 mkdir /a\ncommit 1\nreturn 1 ok\n";
    static const char opening[] = "atomfs-journal 2\nstart\ndir /\ndir /a\nentries\n";
    static const char second[] =
        "atomfs-journal 2\nstart\ndir /\ndir /a\nentries\nbegin 1 1 rmdir /a\ncommit 1\nreturn 1 ok\n";
    size_t length = sizeof first - 1;
    open_fs(10);
    IS(atomfs_opening(&fs, out, sizeof out, &count), ATOMFS_OK);
    SAYS(out, count, ATOMFS_JOURNAL_HEADER);
    IS(atomfs_mkdir(&fs, seat, PATH("/a"), &number), ATOMFS_OK);
    IS(atomfs_checkpoint(&fs, NULL, 0, &count, &number), ATOMFS_TOO_SMALL);
    IS(count, length);
    memset(out, '#', sizeof out);
    IS(atomfs_checkpoint(&fs, out, length - 1, &count, &number), ATOMFS_TOO_SMALL);
    IS(count, length);
    IS(out[0], '#');
    IS(atomfs_begin(&fs, other_seat, PATH("stat /"), &number), ATOMFS_OK);
    IS(atomfs_begin(&fs, seat, PATH("stat /a"), &number), ATOMFS_OK);
    IS(atomfs_checkpoint(&fs, out, sizeof out, &count, &number), ATOMFS_UNDER_WAY);
    IS(number, 2);
    IS(out[0], '#');
    step_to_return(other_seat);
    step_to_return(seat);
    IS(atomfs_checkpoint(&fs, out, sizeof out, &count, &number), ATOMFS_OK);
    SAYS(out, length, first);
    IS(count > length, 1);
    IS(atomfs_opening(&fs, out, sizeof out, &count), ATOMFS_OK);
    SAYS(out, count, opening);
    IS(atomfs_opening(&fs, out, 3, &count), ATOMFS_TOO_SMALL);
    IS(count, sizeof opening - 1);
    IS(atomfs_journal(&fs, 0, out, sizeof out, &count, &entries), ATOMFS_OK);
    IS(count, 0);
    IS(entries, 0);
    IS(atomfs_reply_done(&fs, 1), ATOMFS_NO_REPLY);
    IS(atomfs_stat(&fs, seat, PATH("/a"), &stat_, &number), ATOMFS_OK);
    IS(number, 1);
    IS(atomfs_checkpoint(&fs, out, sizeof out, &count, &number), ATOMFS_OK);
    IS(atomfs_rmdir(&fs, other_seat, PATH("/a"), &number), ATOMFS_OK);
    IS(number, 1);
    IS(atomfs_checkpoint(&fs, out, sizeof out, &count, &number), ATOMFS_OK);
    SAYS(out, count, second);
    IS(atomfs_checkpoint(&fs, out, sizeof out, &count, &number), ATOMFS_OK);
    SAYS(out, count, ATOMFS_JOURNAL_HEADER);
    IS(atomfs_close(&fs), ATOMFS_OK);
}

/* How many entries the journal has. */
static size_t entries_now(void) {
    IS(atomfs_journal(&fs, SIZE_MAX / 2, NULL, 0, &count, &entries), ATOMFS_OK);
    return entries;
}

/* The verdict is told without a text, also amid calls; calls are forgotten when they are asked to be, but not amid one. */
static void forgets(void) {
    uint64_t place = 9;
    uint8_t kind = 9;
    open_fs(10);
    IS(atomfs_verdict(&fs, &place, &kind), ATOMFS_OK);
    IS(place, 0);
    IS(kind, ATOMFS_FAULT_NONE);
    IS(atomfs_forget(&fs, &number), ATOMFS_OK);
    IS(number, 0);
    IS(atomfs_mkdir(&fs, seat, PATH("/a"), &number), ATOMFS_OK);
    FAILS(atomfs_rmdir(&fs, seat, PATH("/b"), &number), ENOENT_);
    IS(atomfs_begin(&fs, other_seat, PATH("stat /a"), &number), ATOMFS_OK);
    place = kind = 9;
    IS(atomfs_verdict(&fs, &place, &kind), ATOMFS_OK);
    IS(place, 0);
    IS(kind, ATOMFS_FAULT_NONE);
    IS(atomfs_forget(&fs, &number), ATOMFS_UNDER_WAY);
    IS(number, 3);
    IS(entries_now(), 7);
    step_to_return(other_seat);
    IS(atomfs_forget(&fs, &number), ATOMFS_OK);
    IS(number, 3);
    IS(entries_now(), 0);
    IS(atomfs_verdict(&fs, &place, &kind), ATOMFS_OK);
    IS(atomfs_stat(&fs, seat, PATH("/a"), &stat_, &number), ATOMFS_OK);
    IS(number, 1);
    IS(atomfs_close(&fs), ATOMFS_OK);
    IS(atomfs_verdict(&fs, &place, &kind), ATOMFS_CLOSED);
    IS(atomfs_forget(&fs, &number), ATOMFS_CLOSED);
}

/* A tree forgets by itself: before a call, where more stand than it keeps and none is under way. */
static void keeps(void) {
    open_fs(10);
    for (int call = 1; call <= 5; call++) {
        IS(atomfs_stat(&fs, seat, PATH("/"), &stat_, &number), ATOMFS_OK);
        IS(number, call);
    }
    IS(atomfs_keep(&fs, 5), ATOMFS_OK);
    IS(atomfs_mkdir(&fs, seat, PATH("/a"), &number), ATOMFS_OK);
    IS(number, 6);
    IS(atomfs_mkdir(&fs, seat, PATH("/b"), &number), ATOMFS_OK);
    IS(number, 1);
    IS(entries_now(), 3);
    IS(atomfs_keep(&fs, 0), ATOMFS_OK);
    IS(atomfs_begin(&fs, other_seat, PATH("rmdir /a"), &number), ATOMFS_OK);
    IS(number, 1);
    IS(atomfs_rmdir(&fs, seat, PATH("/b"), &number), ATOMFS_OK);
    IS(number, 2);
    step_to_return(other_seat);
    IS(atomfs_reply_done(&fs, 1), ATOMFS_OK);
    IS(entries_now(), 6);
    IS(atomfs_call(&fs, seat, PATH("stat /"), out, sizeof out, &count, &number), ATOMFS_OK);
    IS(number, 1);
    SAYS(out, count, "stat dir 0");
    IS(atomfs_keep(&fs, ATOMFS_KEEP_ALL), ATOMFS_OK);
    IS(atomfs_stat(&fs, seat, PATH("/"), &stat_, &number), ATOMFS_OK);
    IS(number, 2);
    IS(atomfs_keep(&fs, 0), ATOMFS_OK);
    IS(atomfs_close(&fs), ATOMFS_OK);
    IS(atomfs_keep(&fs, 0), ATOMFS_CLOSED);
    open_fs(10);
    IS(atomfs_stat(&fs, seat, PATH("/"), &stat_, &number), ATOMFS_OK);
    IS(atomfs_stat(&fs, seat, PATH("/"), &stat_, &number), ATOMFS_OK);
    IS(number, 2);
    IS(atomfs_close(&fs), ATOMFS_OK);
}

/* Pieces of a journal are journals, and scripts have checkpoints. */
static void texts(void) {
    static const char piece[] =
        "atomfs-journal 2\nstart\ndir /\ndir /a\nentries\nbegin 1 1 rmdir /a\ncommit 1\nreturn 1 ok\n";
    static const char no_start[] = "atomfs-journal 2\nstart\ndir /a\nentries\n";
    static const char early[] = "atomfs 1\nthread t\nmkdir /a\nschedule\nt*2 !checkpoint\n";
    static const char late[] = "atomfs 1\nthread t\nmkdir /a\nschedule\nt*9 !checkpoint\n";
    IS(atomfs_check(PATH(piece), out, sizeof out, &count), ATOMFS_OK);
    SAYS(out, count, "lawful\n");
    IS(atomfs_check(PATH(piece), out, 6, &count), ATOMFS_TOO_SMALL);
    IS(count, 7);
    IS(atomfs_check(PATH(no_start), out, sizeof out, &count), ATOMFS_BAD_START);
    IS(count, 3);
    IS(atomfs_run(PATH(early), out, sizeof out, &count), ATOMFS_UNDER_WAY);
    IS(count, 1);
    IS(atomfs_run(PATH(late), out, sizeof out, &count), ATOMFS_OK);
    SAYS(out, (size_t)17, "atomfs-journal 2\n");
}

/* Tools over texts: what they refuse, and that they tell a text as the others do. tests/embedded.py has what they tell. */
static void tools(void) {
    static const char script[] = "atomfs 1\nthread t\nmkdir /a\nschedule\nt*9\n";
    static const char fault[] = "atomfs 1\nthread t\nmkdr /a\nschedule\n";
    static const char early[] = "atomfs 1\nthread t\nmkdir /a\nschedule\nt*2 !checkpoint\n";
    static const char journal[] = "atomfs-journal 1\nbegin 1 0 mkdir\n";
    static const char traced[] = "atomfs-trace 2\nthread t\n";
    static const uint8_t none = ATOMFS_SEEDED + 1;
    IS(atomfs_trace(PATH(script), ATOMFS_GIVEN, 0, 0, out, sizeof out, &count), ATOMFS_OK);
    SAYS(out, sizeof traced - 1, "atomfs-trace 2\nthread t\n");
    size_t length = count;
    memset(out, '#', sizeof out);
    IS(atomfs_trace(PATH(script), ATOMFS_GIVEN, 0, 0, out, length - 1, &count), ATOMFS_TOO_SMALL);
    IS(count, length);
    IS(out[0], '#');
    IS(atomfs_trace(PATH(script), ATOMFS_GIVEN, 0, 255, out, sizeof out, &count), ATOMFS_OK);
    IS(count > length, 1);
    IS(atomfs_trace(PATH(script), none, 0, 0, out, sizeof out, &count), ATOMFS_BAD_CHOICE);
    IS(atomfs_trace(PATH(fault), ATOMFS_ROUND_ROBIN, 0, 0, out, sizeof out, &count), ATOMFS_BAD_LINE);
    IS(count, 3);
    IS(atomfs_trace(PATH(early), ATOMFS_GIVEN, 0, 0, out, sizeof out, &count), ATOMFS_UNDER_WAY);
    IS(count, 1);
    IS(atomfs_draw(PATH(script), ATOMFS_SEEDED, 7, ATOMFS_WHOLE, out, sizeof out, &count), ATOMFS_OK);
    SAYS(out, (size_t)5, "<svg ");
    IS(atomfs_draw(PATH(script), ATOMFS_GIVEN, 0, ATOMFS_WHOLE, NULL, 0, &count), ATOMFS_TOO_SMALL);
    IS(atomfs_draw(PATH(script), ATOMFS_GIVEN, 0, 1, out, sizeof out, &count), ATOMFS_OK);
    IS(atomfs_draw(PATH(script), ATOMFS_GIVEN, 0, 0, out, sizeof out, &count), ATOMFS_NO_CALL);
    IS(atomfs_draw(PATH(script), ATOMFS_GIVEN, 0, 2, out, sizeof out, &count), ATOMFS_NO_CALL);
    IS(atomfs_draw(PATH(script), none, 0, 2, out, sizeof out, &count), ATOMFS_BAD_CHOICE);
    IS(atomfs_draw(PATH(journal), ATOMFS_GIVEN, 0, ATOMFS_WHOLE, out, sizeof out, &count), ATOMFS_BAD_LINE);
    IS(count, 2);
    IS(atomfs_draw(PATH(early), ATOMFS_GIVEN, 0, ATOMFS_WHOLE, out, sizeof out, &count), ATOMFS_UNDER_WAY);
    IS(count, 1);
    /* A page is larger than `out`; how large does not depend on the room. */
    IS(atomfs_page(PATH(script), ATOMFS_SEEDED, 7, out, sizeof out, &count), ATOMFS_TOO_SMALL);
    length = count;
    IS(atomfs_page(PATH(script), ATOMFS_SEEDED, 7, NULL, 0, &count), ATOMFS_TOO_SMALL);
    IS(count, length);
    char *page = (char *)malloc(length);
    IS(page != NULL, 1);
    IS(atomfs_page(PATH(script), ATOMFS_SEEDED, 7, page, length, &count), ATOMFS_OK);
    SAYS(page, (size_t)15, "<!DOCTYPE html>");
    SAYS(page + length - 8, (size_t)8, "</html>\n");
    free(page);
    IS(atomfs_page(PATH(script), none, 0, out, sizeof out, &count), ATOMFS_BAD_CHOICE);
    IS(atomfs_page(PATH(journal), ATOMFS_GIVEN, 0, out, sizeof out, &count), ATOMFS_BAD_LINE);
    IS(count, 2);
    IS(atomfs_page(PATH(early), ATOMFS_GIVEN, 0, out, sizeof out, &count), ATOMFS_UNDER_WAY);
    IS(count, 1);
    IS(atomfs_schedule(PATH(script), ATOMFS_ROUND_ROBIN, 0, out, sizeof out, &count), ATOMFS_OK);
    SAYS(out, count, "atomfs 1\nthread t\nmkdir /a\nschedule\nt*5\n");
    IS(atomfs_schedule(PATH(script), ATOMFS_GIVEN, 0, out, count - 1, &count), ATOMFS_TOO_SMALL);
    IS(atomfs_schedule(PATH(script), none, 0, out, sizeof out, &count), ATOMFS_BAD_CHOICE);
    IS(atomfs_schedule(PATH(fault), ATOMFS_SEEDED, 1, out, sizeof out, &count), ATOMFS_BAD_LINE);
    IS(count, 3);
    IS(atomfs_seeds(PATH(script), INT64_MAX, 2, out, sizeof out, &count), ATOMFS_OK);
    SAYS(out, count, "seed 9223372036854775807 lawful\nseed 9223372036854775808 lawful\n");
    IS(atomfs_seeds(PATH(script), 0, 1, NULL, 0, &count), ATOMFS_TOO_SMALL);
    IS(count, 14);
    IS(atomfs_seeds(PATH(script), (uint64_t)INT64_MAX + 1, 1, out, sizeof out, &count), ATOMFS_BAD_CHOICE);
    IS(atomfs_seeds(PATH(script), 0, 0, out, sizeof out, &count), ATOMFS_BAD_CHOICE);
    IS(atomfs_seeds(PATH(script), 0, 10001, out, sizeof out, &count), ATOMFS_BAD_CHOICE);
    IS(atomfs_seeds(PATH(fault), 0, 1, out, sizeof out, &count), ATOMFS_BAD_LINE);
    IS(count, 3);
    IS(atomfs_explain(PATH("Nul"), out, sizeof out, &count), ATOMFS_OK);
    SAYS(out, (size_t)28, "Nul: a path has a byte zero\n");
    IS(atomfs_explain(PATH("Nul"), out, 5, &count), ATOMFS_TOO_SMALL);
    IS(atomfs_explain(PATH("Null"), out, sizeof out, &count), ATOMFS_BAD_CHOICE);
    IS(atomfs_explain(PATH("\xff"), out, sizeof out, &count), ATOMFS_BAD_CHOICE);
    IS(atomfs_explain(NULL, 0, NULL, 0, &count), ATOMFS_BAD_CHOICE);
}

/* What is found of histories: the journal, or the line that says why there is none, by each of the forms. */
static void histories(void) {
    static const char lawful[] = "atomfs-journal 1\nbegin 1 0 mkdir /a\nreturn 1 ok\n";
    static const char none[] = "atomfs-journal 1\nbegin 1 0 mkdir /a\nreturn 1 failed ?\n";
    static const char no_history[] = "atomfs-journal 1\nbegin 1 0 mkdir /a\nbegin 2 0 stat /\n";
    static const char bad[] = "atomfs-journal 1\nbegin 1 0 mkdir /a\ncommit 1\n";
    static const char journal[] = "atomfs-journal 1\nbegin 1 0 mkdir /a\ncommit 1\nreturn 1 ok\n";
    static const uint64_t most = 1000000000;
    uint8_t found = 9;
    for (uint8_t tell = ATOMFS_TELL_LINE; tell <= ATOMFS_TELL_WORDS; tell++) {
        IS(atomfs_linearize(PATH(lawful), most, tell, out, sizeof out, &count, &found), ATOMFS_OK);
        SAYS(out, count, "atomfs-journal 1\nbegin 1 0 mkdir /a\ncommit 1\nreturn 1 ok\n");
        IS(found, ATOMFS_FOUND_LAWFUL);
        IS(atomfs_linearize(PATH(lawful), 1, tell, out, sizeof out, &count, &found), ATOMFS_OK);
        SAYS(out, count, "unknown 2\n");
        IS(found, ATOMFS_FOUND_UNKNOWN);
    }
    IS(atomfs_linearize(PATH(none), most, ATOMFS_TELL_LINE, out, sizeof out, &count, &found), ATOMFS_OK);
    SAYS(out, count, "none 2 1\n");
    IS(found, ATOMFS_FOUND_NO_ORDER);
    IS(atomfs_linearize(PATH(none), most, ATOMFS_TELL_FRONT, out, sizeof out, &count, &found), ATOMFS_OK);
    SAYS(out, count, "atomfs-journal 1\nbegin 1 0 mkdir /a\nreturn 1 failed ENOENT\n");
    IS(found, ATOMFS_FOUND_NO_ORDER);
    IS(atomfs_linearize(PATH(no_history), most, ATOMFS_TELL_WORDS, out, sizeof out, &count, &found), ATOMFS_OK);
    SAYS(out, count, "fault 2 SeatBusy\nline 3: begin 2 0 stat /; call 2 is stat / on seat 0\n");
    IS(found, ATOMFS_FOUND_NO_HISTORY);
    IS(atomfs_linearize(PATH(no_history), most, ATOMFS_TELL_FRONT, out, sizeof out, &count, &found), ATOMFS_OK);
    SAYS(out, count, "fault 2 SeatBusy\n");
    memset(out, '#', sizeof out);
    IS(atomfs_linearize(PATH(none), most, ATOMFS_TELL_WORDS, out, 10, &count, &found), ATOMFS_TOO_SMALL);
    IS(found, ATOMFS_FOUND_NO_ORDER);
    IS(out[0], '#');
    size_t length = count;
    IS(atomfs_linearize(PATH(none), most, ATOMFS_TELL_WORDS, out, length, &count, &found), ATOMFS_OK);
    SAYS(out, count,
         "none 2 1\nline 3: return 1 failed ?; call 1 is mkdir /a on seat 0\nthe call could have replied: ok\n");
    IS(atomfs_linearize(PATH(lawful), most, ATOMFS_TELL_LINE, NULL, 0, &count, &found), ATOMFS_TOO_SMALL);
    IS(count, sizeof journal - 1);
    IS(found, ATOMFS_FOUND_LAWFUL);
    found = 9;
    IS(atomfs_linearize(PATH(bad), most, ATOMFS_TELL_LINE, out, sizeof out, &count, &found), ATOMFS_BAD_LINE);
    IS(count, 3);
    IS(atomfs_linearize(NULL, 0, most, ATOMFS_TELL_LINE, NULL, 0, &count, &found), ATOMFS_BAD_HEADER);
    IS(count, 1);
    IS(atomfs_linearize(PATH(lawful), 0, ATOMFS_TELL_LINE, out, sizeof out, &count, &found), ATOMFS_BAD_CHOICE);
    IS(atomfs_linearize(PATH(lawful), most + 1, ATOMFS_TELL_LINE, out, sizeof out, &count, &found), ATOMFS_BAD_CHOICE);
    IS(atomfs_linearize(PATH(lawful), most, ATOMFS_TELL_WORDS + 1, out, sizeof out, &count, &found), ATOMFS_BAD_CHOICE);
    IS(atomfs_linearize(NULL, 1, most, ATOMFS_TELL_LINE, out, sizeof out, &count, &found), ATOMFS_NULL);
    IS(atomfs_linearize("", 0, most, ATOMFS_TELL_LINE, NULL, 1, &count, &found), ATOMFS_NULL);
    IS(atomfs_linearize("", 0, most, ATOMFS_TELL_LINE, out, sizeof out, NULL, &found), ATOMFS_NULL);
    IS(atomfs_linearize(PATH(lawful), most, ATOMFS_TELL_LINE, out, sizeof out, &count, NULL), ATOMFS_NULL);
    IS(atomfs_linearize("", SIZE_MAX / 2 + 1, most, ATOMFS_TELL_LINE, out, sizeof out, &count, &found),
       ATOMFS_BAD_LENGTH);
    IS(found, 9);
}

/* Nulls and lengths that are none: a status, and nothing happens. */
static void nulls(void) {
    atomfs_request request = { ATOMFS_CALL_MKDIR, NULL, 2, NULL, 0, 0, 0, NULL, 0 };
    uint8_t did;
    uint64_t about;
    open_fs(100);
    IS(atomfs_open(NULL, 1), ATOMFS_NULL);
    IS(atomfs_close(NULL), ATOMFS_NULL);
    IS(atomfs_seat(NULL, &seat), ATOMFS_NULL);
    IS(atomfs_seat(&fs, NULL), ATOMFS_NULL);
    IS(atomfs_mkdir(NULL, seat, PATH("/a"), &number), ATOMFS_NULL);
    IS(atomfs_mkdir(&fs, seat, NULL, 2, &number), ATOMFS_NULL);
    IS(atomfs_mkdir(&fs, seat, NULL, 0, &number), ATOMFS_BAD_PATH);
    IS(atomfs_mknod(&fs, seat, NULL, 2, &number), ATOMFS_NULL);
    IS(atomfs_unlink(&fs, seat, NULL, 2, &number), ATOMFS_NULL);
    IS(atomfs_rmdir(&fs, seat, NULL, 2, &number), ATOMFS_NULL);
    IS(atomfs_rename(&fs, seat, NULL, 2, PATH("/a"), &number), ATOMFS_NULL);
    IS(atomfs_rename(&fs, seat, PATH("/a"), NULL, 2, &number), ATOMFS_NULL);
    IS(atomfs_exchange(&fs, seat, PATH("/a"), NULL, 2, &number), ATOMFS_NULL);
    IS(atomfs_truncate(&fs, seat, NULL, 2, 0, &number), ATOMFS_NULL);
    IS(atomfs_stat(&fs, seat, PATH("/"), NULL, &number), ATOMFS_NULL);
    IS(atomfs_readdir(&fs, seat, PATH("/"), NULL, 1, &count, &number), ATOMFS_NULL);
    IS(atomfs_readdir(&fs, seat, PATH("/"), out, 1, NULL, &number), ATOMFS_NULL);
    IS(atomfs_read(&fs, seat, PATH("/f"), 0, NULL, 1, &count, &number), ATOMFS_NULL);
    IS(atomfs_write(&fs, seat, PATH("/f"), 0, NULL, 1, &wrote, &number), ATOMFS_NULL);
    IS(atomfs_write(&fs, seat, PATH("/f"), 0, "x", 1, NULL, &number), ATOMFS_NULL);
    IS(atomfs_read_file(NULL, seat, PATH("/f"), out, 1, &count), ATOMFS_NULL);
    IS(atomfs_read_file(&fs, seat, NULL, 2, out, 1, &count), ATOMFS_NULL);
    IS(atomfs_read_file(&fs, seat, PATH("/f"), NULL, 1, &count), ATOMFS_NULL);
    IS(atomfs_read_file(&fs, seat, PATH("/f"), out, 1, NULL), ATOMFS_NULL);
    IS(atomfs_write_file(NULL, seat, PATH("/f"), "x", 1), ATOMFS_NULL);
    IS(atomfs_write_file(&fs, seat, NULL, 2, "x", 1), ATOMFS_NULL);
    IS(atomfs_write_file(&fs, seat, PATH("/f"), NULL, 1), ATOMFS_NULL);
    IS(atomfs_mkdirs(NULL, seat, PATH("/a")), ATOMFS_NULL);
    IS(atomfs_mkdirs(&fs, seat, NULL, 2), ATOMFS_NULL);
    IS(atomfs_begin_call(&fs, seat, NULL, &number), ATOMFS_NULL);
    IS(atomfs_begin_call(&fs, seat, &request, &number), ATOMFS_NULL);
    request.path = "/a";
    request.call = ATOMFS_CALL_RENAME;
    request.other_length = 1;
    IS(atomfs_begin_call(&fs, seat, &request, &number), ATOMFS_NULL);
    request.call = ATOMFS_CALL_WRITE;
    request.bytes_length = 1;
    IS(atomfs_begin_call(&fs, seat, &request, &number), ATOMFS_NULL);
    IS(atomfs_begin_call(NULL, seat, &request, &number), ATOMFS_NULL);
    IS(atomfs_step(NULL, seat, &did, &about), ATOMFS_NULL);
    IS(atomfs_step(&fs, seat, NULL, &about), ATOMFS_NULL);
    IS(atomfs_step(&fs, seat, &did, NULL), ATOMFS_NULL);
    IS(atomfs_step_any(NULL, &number, &did, &about), ATOMFS_NULL);
    IS(atomfs_step_any(&fs, NULL, &did, &about), ATOMFS_NULL);
    IS(atomfs_step_any(&fs, &number, NULL, &about), ATOMFS_NULL);
    IS(atomfs_step_any(&fs, &number, &did, NULL), ATOMFS_NULL);
    IS(atomfs_reply_done(NULL, 1), ATOMFS_NULL);
    IS(atomfs_reply_stat(&fs, 1, NULL), ATOMFS_NULL);
    IS(atomfs_reply_names(&fs, 1, NULL, 1, out, sizeof out, &count), ATOMFS_NULL);
    IS(atomfs_reply_bytes(&fs, 1, NULL, 1, &count), ATOMFS_NULL);
    IS(atomfs_reply_bytes(&fs, 1, out, 1, NULL), ATOMFS_NULL);
    IS(atomfs_reply_wrote(&fs, 1, NULL), ATOMFS_NULL);
    IS(atomfs_journal(&fs, 0, NULL, 1, &count, &entries), ATOMFS_NULL);
    IS(atomfs_journal(&fs, 0, out, 1, &count, NULL), ATOMFS_NULL);
    IS(atomfs_tree(&fs, NULL, 1, &count), ATOMFS_NULL);
    IS(atomfs_opening(&fs, NULL, 1, &count), ATOMFS_NULL);
    IS(atomfs_checkpoint(&fs, NULL, 1, &count, &number), ATOMFS_NULL);
    IS(atomfs_checkpoint(&fs, out, 1, &count, NULL), ATOMFS_NULL);
    IS(atomfs_forget(NULL, &number), ATOMFS_NULL);
    IS(atomfs_forget(&fs, NULL), ATOMFS_NULL);
    IS(atomfs_keep(NULL, 1), ATOMFS_NULL);
    IS(atomfs_verdict(NULL, &about, &did), ATOMFS_NULL);
    IS(atomfs_verdict(&fs, NULL, &did), ATOMFS_NULL);
    IS(atomfs_verdict(&fs, &about, NULL), ATOMFS_NULL);
    IS(atomfs_begin(&fs, seat, NULL, 1, &number), ATOMFS_NULL);
    IS(atomfs_begin(&fs, seat, NULL, 0, &number), ATOMFS_BAD_LINE);
    IS(atomfs_call(&fs, seat, NULL, 1, out, sizeof out, &count, &number), ATOMFS_NULL);
    IS(atomfs_reply(&fs, 1, NULL, 1, &count), ATOMFS_NULL);
    IS(atomfs_run(NULL, 1, out, sizeof out, &count), ATOMFS_NULL);
    IS(atomfs_run("", 0, out, sizeof out, NULL), ATOMFS_NULL);
    IS(atomfs_run(NULL, 0, NULL, 0, &count), ATOMFS_BAD_HEADER);
    IS(atomfs_check(NULL, 1, out, sizeof out, &count), ATOMFS_NULL);
    IS(atomfs_check(NULL, 0, NULL, 0, &count), ATOMFS_BAD_HEADER);
    IS(atomfs_trace(NULL, 1, ATOMFS_GIVEN, 0, 0, out, sizeof out, &count), ATOMFS_NULL);
    IS(atomfs_trace("", 0, ATOMFS_GIVEN, 0, 0, NULL, 1, &count), ATOMFS_NULL);
    IS(atomfs_trace("", 0, ATOMFS_GIVEN, 0, 0, out, sizeof out, NULL), ATOMFS_NULL);
    IS(atomfs_trace(NULL, 0, ATOMFS_GIVEN, 0, 0, NULL, 0, &count), ATOMFS_BAD_HEADER);
    IS(atomfs_draw(NULL, 1, ATOMFS_GIVEN, 0, ATOMFS_WHOLE, out, sizeof out, &count), ATOMFS_NULL);
    IS(atomfs_draw("", 0, ATOMFS_GIVEN, 0, ATOMFS_WHOLE, out, sizeof out, NULL), ATOMFS_NULL);
    IS(atomfs_page(NULL, 1, ATOMFS_GIVEN, 0, out, sizeof out, &count), ATOMFS_NULL);
    IS(atomfs_page("", 0, ATOMFS_GIVEN, 0, out, sizeof out, NULL), ATOMFS_NULL);
    IS(atomfs_schedule(NULL, 1, ATOMFS_GIVEN, 0, out, sizeof out, &count), ATOMFS_NULL);
    IS(atomfs_schedule("", 0, ATOMFS_GIVEN, 0, out, sizeof out, NULL), ATOMFS_NULL);
    IS(atomfs_seeds(NULL, 1, 0, 1, out, sizeof out, &count), ATOMFS_NULL);
    IS(atomfs_seeds("", 0, 0, 1, out, sizeof out, NULL), ATOMFS_NULL);
    IS(atomfs_explain(NULL, 1, out, sizeof out, &count), ATOMFS_NULL);
    IS(atomfs_explain("", 0, out, sizeof out, NULL), ATOMFS_NULL);
    IS(atomfs_check_path(NULL, 1, ATOMFS_V1), ATOMFS_NULL);
    size_t bad = SIZE_MAX / 2 + 1;
    IS(atomfs_mkdir(&fs, seat, "/a", bad, &number), ATOMFS_BAD_LENGTH);
    IS(atomfs_mkdir(&fs, seat, NULL, SIZE_MAX, &number), ATOMFS_BAD_LENGTH);
    IS(atomfs_rename(&fs, seat, PATH("/a"), "/b", bad, &number), ATOMFS_BAD_LENGTH);
    IS(atomfs_read(&fs, seat, PATH("/a"), 0, out, bad, &count, &number), ATOMFS_BAD_LENGTH);
    IS(atomfs_write(&fs, seat, PATH("/a"), 0, "x", bad, &wrote, &number), ATOMFS_BAD_LENGTH);
    IS(atomfs_read_file(&fs, seat, PATH("/f"), out, bad, &count), ATOMFS_BAD_LENGTH);
    IS(atomfs_write_file(&fs, seat, PATH("/f"), "x", bad), ATOMFS_BAD_LENGTH);
    IS(atomfs_mkdirs(&fs, seat, "/a", bad), ATOMFS_BAD_LENGTH);
    IS(atomfs_journal(&fs, 0, out, bad, &count, &entries), ATOMFS_BAD_LENGTH);
    IS(atomfs_check("", bad, out, sizeof out, &count), ATOMFS_BAD_LENGTH);
    IS(atomfs_trace("", bad, ATOMFS_GIVEN, 0, 0, out, sizeof out, &count), ATOMFS_BAD_LENGTH);
    IS(atomfs_draw("", 0, ATOMFS_GIVEN, 0, ATOMFS_WHOLE, out, bad, &count), ATOMFS_BAD_LENGTH);
    IS(atomfs_page("", 0, ATOMFS_GIVEN, 0, out, bad, &count), ATOMFS_BAD_LENGTH);
    IS(atomfs_check_path("/", bad, ATOMFS_V1), ATOMFS_BAD_LENGTH);
    IS(atomfs_journal(&fs, 0, NULL, 0, &count, &entries), ATOMFS_OK);
    IS(entries, 0);
    IS(atomfs_close(&fs), ATOMFS_OK);
}

/* Where a call's number is not asked for, the call is made all the same. */
static void no_numbers(void) {
    atomfs_request request = { ATOMFS_CALL_STAT, PATH("/"), NULL, 0, 0, 0, NULL, 0 };
    open_fs(100);
    IS(atomfs_mkdir(&fs, seat, PATH("/a"), NULL), ATOMFS_OK);
    FAILS(atomfs_mkdir(&fs, seat, PATH("/a"), NULL), EEXIST_);
    IS(atomfs_mkdir(&fs, seat, PATH("a"), NULL), ATOMFS_BAD_PATH);
    IS(atomfs_mknod(&fs, seat, PATH("/f"), NULL), ATOMFS_OK);
    IS(atomfs_write(&fs, seat, PATH("/f"), 0, "hello", 5, &wrote, NULL), ATOMFS_OK);
    IS(atomfs_truncate(&fs, seat, PATH("/f"), 4, NULL), ATOMFS_OK);
    IS(atomfs_read(&fs, seat, PATH("/f"), 0, out, sizeof out, &count, NULL), ATOMFS_OK);
    SAYS(out, count, "hell");
    IS(atomfs_rename(&fs, seat, PATH("/f"), PATH("/g"), NULL), ATOMFS_OK);
    IS(atomfs_exchange(&fs, seat, PATH("/a"), PATH("/g"), NULL), ATOMFS_OK);
    IS(atomfs_stat(&fs, seat, PATH("/g"), &stat_, NULL), ATOMFS_OK);
    IS(stat_.is_dir, 1);
    IS(atomfs_readdir(&fs, seat, PATH("/"), out, sizeof out, &count, NULL), ATOMFS_OK);
    SAYS(out, count, "a\0g\0");
    IS(atomfs_unlink(&fs, seat, PATH("/a"), NULL), ATOMFS_OK);
    IS(atomfs_rmdir(&fs, seat, PATH("/g"), NULL), ATOMFS_OK);
    IS(atomfs_call(&fs, seat, PATH("stat /"), out, sizeof out, &count, NULL), ATOMFS_OK);
    SAYS(out, count, "stat dir 0");
    IS(atomfs_begin(&fs, seat, PATH("stat /"), NULL), ATOMFS_OK);
    IS(atomfs_mkdir(&fs, seat, PATH("/a"), NULL), ATOMFS_SEAT_BUSY);
    step_to_return(seat);
    IS(atomfs_begin_call(&fs, seat, &request, NULL), ATOMFS_OK);
    step_to_return(seat);
    IS(atomfs_mkdir(&fs, seat, PATH("/a"), &number), ATOMFS_OK);
    IS(number, 16);
    IS(atomfs_close(&fs), ATOMFS_OK);
}

/* Files that are read and written whole. */
static void whole_files(void) {
    open_fs(3);
    FAILS(atomfs_read_file(&fs, seat, PATH("/f"), out, sizeof out, &count), ENOENT_);
    FAILS(atomfs_write_file(&fs, seat, PATH("/d/f"), "hello", 5), ENOENT_);
    IS(atomfs_write_file(&fs, seat, PATH("/f"), "hello", 5), ATOMFS_OK);
    IS(atomfs_read_file(&fs, seat, PATH("/f"), out, sizeof out, &count), ATOMFS_OK);
    SAYS(out, count, "hello");
    IS(atomfs_write_file(&fs, seat, PATH("/f"), "a\0b", 3), ATOMFS_OK);
    memset(out, '.', 3);
    IS(atomfs_read_file(&fs, seat, PATH("/f"), out, 2, &count), ATOMFS_TOO_SMALL);
    SAYS(out, count, "...");
    IS(atomfs_read_file(&fs, seat, PATH("/f"), out, 3, &count), ATOMFS_OK);
    SAYS(out, count, "a\0b");
    IS(atomfs_write_file(&fs, seat, PATH("/f"), NULL, 0), ATOMFS_OK);
    IS(atomfs_read_file(&fs, seat, PATH("/f"), NULL, 0, &count), ATOMFS_OK);
    IS(count, 0);
    FAILS(atomfs_read_file(&fs, seat, PATH("/"), NULL, 0, &count), EISDIR_);
    FAILS(atomfs_write_file(&fs, seat, PATH("/"), "x", 1), EISDIR_);
    FAILS(atomfs_read_file(&fs, seat, PATH("/f/g"), out, 3, &count), ENOTDIR_);
    FAILS(atomfs_write_file(&fs, seat, PATH("/f/g"), "x", 1), ENOTDIR_);
    IS(atomfs_mkdir(&fs, seat, PATH("/d"), NULL), ATOMFS_OK);
    IS(atomfs_write_file(&fs, seat, PATH("/d/g"), "x", 1), ATOMFS_FULL);
    IS(atomfs_write_file(&fs, seat, PATH("/f"), "full", 4), ATOMFS_OK);
    IS(atomfs_close(&fs), ATOMFS_OK);
}

/* What is too large leaves the tree as it was, and what waits is asked again. */
static void whole_files_later(void) {
    static const char large[65537] = "";
    uint64_t under_way;
    uint8_t did;
    open_fs(10);
    FAILS(atomfs_write_file(&fs, seat, PATH("/f"), large, sizeof large), EFBIG_);
    IS(atomfs_write_file(&fs, seat, PATH("/g"), "g", 1), ATOMFS_OK);
    FAILS(atomfs_write_file(&fs, seat, PATH("/g"), large, sizeof large), EFBIG_);
    IS(atomfs_tree(&fs, out, sizeof out, &count), ATOMFS_OK);
    SAYS(out, count, "tree\ndir /\nfile /g 67\n");
    IS(atomfs_write_file(&fs, seat, PATH("/f"), large, sizeof large - 1), ATOMFS_OK);
    IS(atomfs_read_file(&fs, seat, PATH("/f"), out, sizeof out, &count), ATOMFS_TOO_SMALL);
    IS(count, 65536);
    IS(atomfs_begin(&fs, other_seat, PATH("mkdir /d"), NULL), ATOMFS_OK);
    IS(atomfs_step(&fs, other_seat, &did, &under_way), ATOMFS_OK);
    IS(did, ATOMFS_DID_TAKE);
    IS(atomfs_write_file(&fs, seat, PATH("/g"), "hello", 5), ATOMFS_WAITS);
    IS(atomfs_write_file(&fs, seat, PATH("/g"), "hello", 5), ATOMFS_SEAT_BUSY);
    step_to_return(other_seat);
    step_to_return(seat);
    IS(atomfs_write_file(&fs, seat, PATH("/g"), "hello", 5), ATOMFS_OK);
    IS(atomfs_read_file(&fs, seat, PATH("/g"), out, sizeof out, &count), ATOMFS_OK);
    SAYS(out, count, "hello");
    IS(atomfs_close(&fs), ATOMFS_OK);
}

/* Directories that are made with those above them. */
static void branches(void) {
    open_fs(6);
    IS(atomfs_mkdirs(&fs, seat, PATH("/")), ATOMFS_OK);
    IS(atomfs_mkdirs(&fs, seat, PATH("/a/b")), ATOMFS_OK);
    IS(atomfs_mkdirs(&fs, seat, PATH("/a/b")), ATOMFS_OK);
    IS(atomfs_mkdirs(&fs, seat, PATH("//a///c")), ATOMFS_OK);
    IS(atomfs_mknod(&fs, seat, PATH("/f"), NULL), ATOMFS_OK);
    FAILS(atomfs_mkdirs(&fs, seat, PATH("/f")), EEXIST_);
    FAILS(atomfs_mkdirs(&fs, seat, PATH("/f/x/y")), ENOTDIR_);
    IS(atomfs_mkdirs(&fs, seat, PATH("/a/d/e")), ATOMFS_FULL);
    IS(atomfs_mkdirs(&fs, seat, PATH("/a/c")), ATOMFS_OK);
    IS(atomfs_mkdirs(&fs, seat, PATH("/x/./y")), ATOMFS_BAD_PATH);
    IS(atomfs_mkdirs(&fs, seat, PATH("/a/")), ATOMFS_BAD_PATH);
    IS(atomfs_mkdirs(&fs, seat, PATH("")), ATOMFS_BAD_PATH);
    IS(atomfs_tree(&fs, out, sizeof out, &count), ATOMFS_OK);
    SAYS(out, count, "tree\ndir /\ndir /a\ndir /a/b\ndir /a/c\nfile /f -\n");
    IS(atomfs_mkdirs(&fs, seat, PATH("//x")), ATOMFS_OK);
    IS(atomfs_close(&fs), ATOMFS_OK);
}

/* A tree that goes in by its text, or by the journal that starts at it, is the one that was told, and calls go on on it. */
static void trees_in(void) {
    uint8_t did;
    uint64_t about;
    static const char tree[] = "tree\ndir /\ndir /a\nfile /a/f 0068\ndir /b%20c\n";
    static const char journal[] = "atomfs-journal 3\nstart\ndir /\ndir /a\nfile /a/f 0068\ndir /b%20c\nentries\n";
    static const char first[] =
        "atomfs-journal 2\nstart\ndir /\ndir /a\nentries\nbegin 1 0 mkdir /b\ncommit 1\nreturn 1 ok\n";
    IS(atomfs_open_from(&fs, 100, ATOMFS_V2, PATH(tree), &count), ATOMFS_OK);
    IS(atomfs_tree(&fs, out, sizeof out, &count), ATOMFS_OK);
    SAYS(out, count, tree);
    IS(atomfs_opening(&fs, out, sizeof out, &count), ATOMFS_OK);
    SAYS(out, count, journal);
    IS(atomfs_step(&fs, 0, &did, &about), ATOMFS_NO_SEAT);
    IS(atomfs_seat(&fs, &seat), ATOMFS_OK);
    IS(seat, 0);
    IS(atomfs_rename(&fs, seat, PATH("/a"), PATH("/b c/d"), &number), ATOMFS_OK);
    IS(number, 1);
    IS(atomfs_read(&fs, seat, PATH("/b c/d/f"), 0, out, sizeof out, &count, &number), ATOMFS_OK);
    SAYS(out, count, "\0h");
    IS(atomfs_verdict(&fs, &about, &did), ATOMFS_OK);
    IS(did, ATOMFS_FAULT_NONE);
    IS(atomfs_open_from(&fs, 100, ATOMFS_V2, PATH(tree), &count), ATOMFS_ALREADY_OPEN);
    IS(atomfs_close(&fs), ATOMFS_OK);
    IS(atomfs_open_from(&fs, 4, ATOMFS_V2, PATH(journal), &count), ATOMFS_OK);
    IS(atomfs_seat(&fs, &seat), ATOMFS_OK);
    IS(atomfs_mkdir(&fs, seat, PATH("/e"), &number), ATOMFS_FULL);
    IS(atomfs_unlink(&fs, seat, PATH("/a/f"), &number), ATOMFS_OK);
    IS(atomfs_mkdir(&fs, seat, PATH("/e"), &number), ATOMFS_OK);
    IS(atomfs_close(&fs), ATOMFS_OK);
    /* The calls of a journal are not made again. */
    IS(atomfs_open_from(&fs, 100, ATOMFS_V1, PATH(first), &count), ATOMFS_OK);
    IS(atomfs_tree(&fs, out, sizeof out, &count), ATOMFS_OK);
    SAYS(out, count, "tree\ndir /\ndir /a\n");
    IS(atomfs_close(&fs), ATOMFS_OK);
    /* Empty lines, comments, and a last line without its end. */
    IS(atomfs_open_from(&fs, 100, ATOMFS_V1, PATH("tree\n# all\n\ndir /\nfile /f -"), &count), ATOMFS_OK);
    IS(atomfs_tree(&fs, out, sizeof out, &count), ATOMFS_OK);
    SAYS(out, count, "tree\ndir /\nfile /f -\n");
    IS(atomfs_close(&fs), ATOMFS_OK);
}

#define REFUSES(text, status, line)                                                                                    \
    do {                                                                                                               \
        count = 0;                                                                                                     \
        IS(atomfs_open_from(&fs, 3, ATOMFS_V1, PATH(text), &count), status);                                           \
        IS(count, line);                                                                                               \
        IS(atomfs_seat(&fs, &seat), ATOMFS_CLOSED);                                                                    \
    } while (0)

/* What is no tree is told with its line, and the handle stays closed. */
static void trees_refused(void) {
    REFUSES("", ATOMFS_BAD_HEADER, 1);
    REFUSES("trees", ATOMFS_BAD_HEADER, 1);
    REFUSES("tree", ATOMFS_BAD_START, 2);
    REFUSES("atomfs 1\n", ATOMFS_BAD_HEADER, 1);
    REFUSES("atomfs-journal 3\nstart\ndir /\nentries\n", ATOMFS_BAD_HEADER, 1);
    REFUSES("tree\n", ATOMFS_BAD_START, 2);
    REFUSES("tree\ndir /a\n", ATOMFS_BAD_START, 2);
    REFUSES("tree\nentries\n", ATOMFS_BAD_START, 2);
    REFUSES("tree\ndir /\nentries\n", ATOMFS_BAD_START, 3);
    REFUSES("tree\ndir /\ndir /a\nentries\nbegin 1 0 mkdir /b\n", ATOMFS_BAD_START, 4);
    REFUSES("tree\ndir /\ndir a\nentries\n", ATOMFS_BAD_START, 3);
    REFUSES("tree\ndir /\ndir /a\ndir /a\n", ATOMFS_BAD_START, 4);
    REFUSES("tree\ndir /\ndir /b\ndir /a\n", ATOMFS_BAD_START, 4);
    REFUSES("tree\ndir /\nfile /f -\ndir /f/a\n", ATOMFS_BAD_START, 4);
    REFUSES("tree\ndir /\nfile /f 0\n", ATOMFS_BAD_START, 3);
    REFUSES("tree\ndir /\ndir  /a\n", ATOMFS_BAD_START, 3);
    REFUSES("tree\ndir /\ndir /012345678901234567890123456789012\n", ATOMFS_BAD_START, 3);
    REFUSES("atomfs-journal 2\nstart\ndir /\ndir /a\n", ATOMFS_BAD_START, 5);
    REFUSES("atomfs-journal 2\nstart\ndir /\ndir /a\nentries\nbegin\n", ATOMFS_BAD_LINE, 6);
    REFUSES("tree\ndir /\ndir /a\ndir /a/b\ndir /c\n", ATOMFS_FULL, 0);
    IS(atomfs_open_from(&fs, 0, ATOMFS_V1, PATH("tree\ndir /\n"), &count), ATOMFS_BAD_LIMIT);
    IS(atomfs_open_from(&fs, ATOMFS_NODE_LIMIT + 1, ATOMFS_V1, PATH("tree\ndir /\n"), &count), ATOMFS_BAD_LIMIT);
    IS(atomfs_open_from(&fs, 1, 4, PATH("tree\ndir /\n"), &count), ATOMFS_BAD_VERSION);
    IS(atomfs_open_from(&fs, ATOMFS_V3_NODE_LIMIT + 1, ATOMFS_V3, PATH("tree\ndir /\n"), &count), ATOMFS_BAD_LIMIT);
    IS(atomfs_open_from(&fs, 9, ATOMFS_V3, PATH("atomfs-journal 3\nstart\ndir /\nentries\n"), &count),
       ATOMFS_BAD_HEADER);
    IS(atomfs_open_from(&fs, 9, ATOMFS_V2, PATH("atomfs-journal 4\nstart\ndir /\nentries\n"), &count),
       ATOMFS_BAD_HEADER);
    IS(atomfs_open_from(NULL, 1, ATOMFS_V1, PATH("tree\ndir /\n"), &count), ATOMFS_NULL);
    IS(atomfs_open_from(&fs, 1, ATOMFS_V1, NULL, 1, &count), ATOMFS_NULL);
    IS(atomfs_open_from(&fs, 1, ATOMFS_V1, PATH("tree\ndir /\n"), NULL), ATOMFS_NULL);
    IS(atomfs_open_from(&fs, 1, ATOMFS_V1, "", SIZE_MAX / 2 + 1, &count), ATOMFS_BAD_LENGTH);
}

/* A second tree begins where another stands, and neither sees what the other does from then on. */
static void second_trees(void) {
    atomfs copy = ATOMFS_INIT, third = ATOMFS_INIT;
    IS(atomfs_open_with(&fs, 100, ATOMFS_V2), ATOMFS_OK);
    IS(atomfs_seat(&fs, &seat), ATOMFS_OK);
    IS(atomfs_mkdir(&fs, seat, PATH("/a"), &number), ATOMFS_OK);
    IS(atomfs_write_file(&fs, seat, PATH("/a/f"), "hello", 5), ATOMFS_OK);
    IS(atomfs_open_at(&copy, 3, &fs, &number), ATOMFS_OK);
    IS(atomfs_tree(&copy, out, sizeof out, &count), ATOMFS_OK);
    SAYS(out, count, "tree\ndir /\ndir /a\nfile /a/f 68656c6c6f\n");
    IS(atomfs_journal(&copy, 0, out, sizeof out, &count, &entries), ATOMFS_OK);
    IS(entries, 0);
    IS(atomfs_seat(&copy, &other_seat), ATOMFS_OK);
    IS(other_seat, 0);
    IS(atomfs_write_file(&copy, 0, PATH("/a/f"), "j", 1), ATOMFS_OK);
    IS(atomfs_mkdir(&copy, 0, PATH("/b"), &number), ATOMFS_FULL);
    IS(atomfs_unlink(&fs, seat, PATH("/a/f"), &number), ATOMFS_OK);
    IS(atomfs_read_file(&copy, 0, PATH("/a/f"), out, sizeof out, &count), ATOMFS_OK);
    SAYS(out, count, "j");
    IS(atomfs_tree(&fs, out, sizeof out, &count), ATOMFS_OK);
    SAYS(out, count, "tree\ndir /\ndir /a\n");
    /* Of the copy that began at a tree, too, and by its limits. */
    IS(atomfs_open_at(&third, 100, &copy, NULL), ATOMFS_OK);
    IS(atomfs_opening(&third, out, sizeof out, &count), ATOMFS_OK);
    SAYS(out, count, "atomfs-journal 3\nstart\ndir /\ndir /a\nfile /a/f 6a\nentries\n");
    IS(atomfs_open_at(&third, 100, &copy, NULL), ATOMFS_ALREADY_OPEN);
    IS(atomfs_open_at(&third, 100, &third, NULL), ATOMFS_ALREADY_OPEN);
    IS(atomfs_close(&third), ATOMFS_OK);
    IS(atomfs_open_at(&third, 100, &third, NULL), ATOMFS_CLOSED);
    IS(atomfs_seat(&third, &other_seat), ATOMFS_CLOSED);
    IS(atomfs_open_at(&third, 2, &copy, NULL), ATOMFS_FULL);
    IS(atomfs_open_at(&third, 0, &copy, NULL), ATOMFS_BAD_LIMIT);
    IS(atomfs_begin(&copy, 0, PATH("mkdir /a/g"), &number), ATOMFS_FULL);
    IS(atomfs_begin(&copy, 0, PATH("rmdir /a"), &number), ATOMFS_OK);
    wrote = 0;
    IS(atomfs_open_at(&third, 100, &copy, &wrote), ATOMFS_UNDER_WAY);
    IS(wrote, number);
    IS(atomfs_close(&copy), ATOMFS_OK);
    IS(atomfs_open_at(&third, 100, &copy, NULL), ATOMFS_CLOSED);
    IS(atomfs_open_at(NULL, 100, &fs, NULL), ATOMFS_NULL);
    IS(atomfs_open_at(&third, 100, NULL, NULL), ATOMFS_NULL);
    IS(atomfs_close(&fs), ATOMFS_OK);
}

/* A closed handle is told to be closed, by every function with a handle. */
static void closed(void) {
    atomfs_request request = { ATOMFS_CALL_STAT, PATH("/"), NULL, 0, 0, 0, NULL, 0 };
    uint8_t did;
    uint64_t about;
    IS(atomfs_close(&fs), ATOMFS_CLOSED);
    IS(atomfs_seat(&fs, &seat), ATOMFS_CLOSED);
    IS(atomfs_mkdir(&fs, 0, PATH("/a"), &number), ATOMFS_CLOSED);
    IS(atomfs_mknod(&fs, 0, PATH("/a"), &number), ATOMFS_CLOSED);
    IS(atomfs_unlink(&fs, 0, PATH("/a"), &number), ATOMFS_CLOSED);
    IS(atomfs_rmdir(&fs, 0, PATH("/a"), &number), ATOMFS_CLOSED);
    IS(atomfs_rename(&fs, 0, PATH("/a"), PATH("/b"), &number), ATOMFS_CLOSED);
    IS(atomfs_exchange(&fs, 0, PATH("/a"), PATH("/b"), &number), ATOMFS_CLOSED);
    IS(atomfs_truncate(&fs, 0, PATH("/a"), 0, &number), ATOMFS_CLOSED);
    IS(atomfs_stat(&fs, 0, PATH("/a"), &stat_, &number), ATOMFS_CLOSED);
    IS(atomfs_readdir(&fs, 0, PATH("/a"), out, sizeof out, &count, &number), ATOMFS_CLOSED);
    IS(atomfs_read(&fs, 0, PATH("/a"), 0, out, sizeof out, &count, &number), ATOMFS_CLOSED);
    IS(atomfs_write(&fs, 0, PATH("/a"), 0, "x", 1, &wrote, &number), ATOMFS_CLOSED);
    IS(atomfs_read_file(&fs, 0, PATH("/a"), out, sizeof out, &count), ATOMFS_CLOSED);
    IS(atomfs_write_file(&fs, 0, PATH("/a"), "x", 1), ATOMFS_CLOSED);
    IS(atomfs_mkdirs(&fs, 0, PATH("/a")), ATOMFS_CLOSED);
    IS(atomfs_begin_call(&fs, 0, &request, &number), ATOMFS_CLOSED);
    IS(atomfs_step(&fs, 0, &did, &about), ATOMFS_CLOSED);
    IS(atomfs_step_any(&fs, &number, &did, &about), ATOMFS_CLOSED);
    IS(atomfs_reply_done(&fs, 1), ATOMFS_CLOSED);
    IS(atomfs_reply_stat(&fs, 1, &stat_), ATOMFS_CLOSED);
    IS(atomfs_reply_names(&fs, 1, NULL, 0, out, sizeof out, &count), ATOMFS_CLOSED);
    IS(atomfs_reply_bytes(&fs, 1, out, sizeof out, &count), ATOMFS_CLOSED);
    IS(atomfs_reply_wrote(&fs, 1, &wrote), ATOMFS_CLOSED);
    IS(atomfs_journal(&fs, 0, out, sizeof out, &count, &entries), ATOMFS_CLOSED);
    IS(atomfs_tree(&fs, out, sizeof out, &count), ATOMFS_CLOSED);
    IS(atomfs_opening(&fs, out, sizeof out, &count), ATOMFS_CLOSED);
    IS(atomfs_checkpoint(&fs, out, sizeof out, &count, &number), ATOMFS_CLOSED);
    IS(atomfs_begin(&fs, 0, PATH("stat /"), &number), ATOMFS_CLOSED);
    IS(atomfs_call(&fs, 0, PATH("stat /"), out, sizeof out, &count, &number), ATOMFS_CLOSED);
    IS(atomfs_reply(&fs, 1, out, sizeof out, &count), ATOMFS_CLOSED);
    IS(atomfs_open(&fs, 0), ATOMFS_BAD_LIMIT);
    IS(atomfs_open(&fs, ATOMFS_NODE_LIMIT + 1), ATOMFS_BAD_LIMIT);
    IS(atomfs_open(&fs, SIZE_MAX), ATOMFS_BAD_LIMIT);
    IS(atomfs_open(&fs, ATOMFS_NODE_LIMIT), ATOMFS_OK);
    IS(atomfs_open(&fs, 1), ATOMFS_ALREADY_OPEN);
    IS(atomfs_close(&fs), ATOMFS_OK);
}

/* A tree by the limits of a version: what a name and a file have at most, and how its journal begins. */
static void by_limits(uint8_t version, size_t name, uint64_t file, const char *opening) {
    char path[2 + 255];
    path[0] = '/';
    memset(path + 1, 'n', sizeof path - 1);
    IS(atomfs_open_with(&fs, 100, version), ATOMFS_OK);
    IS(atomfs_open_with(&fs, 100, version), ATOMFS_ALREADY_OPEN);
    IS(atomfs_seat(&fs, &seat), ATOMFS_OK);
    IS(atomfs_opening(&fs, out, sizeof out, &count), ATOMFS_OK);
    says(opening, __LINE__, out, count, opening, strlen(opening));
    IS(atomfs_mknod(&fs, seat, path, 2 + name, &number), ATOMFS_BAD_PATH);
    IS(atomfs_mknod(&fs, seat, path, 1 + name, &number), ATOMFS_OK);
    IS(atomfs_write(&fs, seat, path, 1 + name, file - 1, "xy", 2, &wrote, &number), ATOMFS_FAILED + EFBIG_);
    IS(atomfs_write(&fs, seat, path, 1 + name, file - 1, "x", 1, &wrote, &number), ATOMFS_OK);
    IS(atomfs_truncate(&fs, seat, path, 1 + name, file + 1, &number), ATOMFS_FAILED + EFBIG_);
    IS(atomfs_read(&fs, seat, path, 1 + name, file - 2, out, sizeof out, &count, &number), ATOMFS_OK);
    SAYS(out, count, "\0x");
    IS(atomfs_close(&fs), ATOMFS_OK);
}

static void each_set_of_limits(void) {
    by_limits(ATOMFS_V1, 32, 65536, ATOMFS_JOURNAL_HEADER);
    by_limits(ATOMFS_V2, 64, 1048576, "atomfs-journal 3\nstart\ndir /\nentries\n");
    by_limits(ATOMFS_V3, 255, 2147483648u, "atomfs-journal 4\nstart\ndir /\nentries\n");
    IS(atomfs_open_with(&fs, 100, 0), ATOMFS_BAD_VERSION);
    IS(atomfs_open_with(&fs, 100, 4), ATOMFS_BAD_VERSION);
    IS(atomfs_open_with(&fs, 0, ATOMFS_V2), ATOMFS_BAD_LIMIT);
    IS(atomfs_open_with(&fs, ATOMFS_NODE_LIMIT + 1, ATOMFS_V2), ATOMFS_BAD_LIMIT);
    IS(atomfs_open_with(&fs, 0, ATOMFS_V3), ATOMFS_BAD_LIMIT);
    IS(atomfs_open_with(&fs, ATOMFS_V3_NODE_LIMIT + 1, ATOMFS_V3), ATOMFS_BAD_LIMIT);
    IS(atomfs_open_with(&fs, ATOMFS_V3_NODE_LIMIT, ATOMFS_V3), ATOMFS_OK);
    atomfs copy = ATOMFS_INIT;
    IS(atomfs_open_at(&copy, ATOMFS_V3_NODE_LIMIT + 1, &fs, NULL), ATOMFS_BAD_LIMIT);
    IS(atomfs_open_at(&copy, ATOMFS_NODE_LIMIT + 1, &fs, NULL), ATOMFS_OK);
    IS(atomfs_close(&copy), ATOMFS_OK);
    IS(atomfs_close(&fs), ATOMFS_OK);
    IS(atomfs_open_with(&fs, 100, ATOMFS_V2), ATOMFS_OK);
    IS(atomfs_open_at(&copy, ATOMFS_NODE_LIMIT + 1, &fs, NULL), ATOMFS_BAD_LIMIT);
    IS(atomfs_close(&fs), ATOMFS_OK);
    IS(atomfs_open_with(NULL, 100, ATOMFS_V2), ATOMFS_NULL);
    IS(atomfs_close(&fs), ATOMFS_CLOSED);
}

/* What a request asks for beyond 32 bits counts as the greatest count, and a line has none beyond. */
static void great_counts(atomfs_request *request) {
    static const uint64_t sizes[] = { UINT32_MAX, (uint64_t)UINT32_MAX + 1, (uint64_t)UINT32_MAX + 2, UINT64_MAX };
    static const char began[] = " 1 list /d /297 4294967295\n";
    for (size_t i = 0; i < sizeof sizes / sizeof *sizes; i++) {
        size_t before = entries_now();
        request->size = sizes[i];
        IS(atomfs_begin_call(&fs, other_seat, request, &number), ATOMFS_OK);
        IS(atomfs_journal(&fs, before, out, sizeof out, &count, &entries), ATOMFS_OK);
        IS(entries, before + 1);
        IS(memcmp(out + count - (sizeof began - 1), began, sizeof began - 1), 0);
        step_to_return(other_seat);
        IS(atomfs_reply_names(&fs, number, NULL, 0, out, sizeof out, &count), ATOMFS_OK);
        SAYS(out, count,
             "298\000"
             "299\000");
    }
    IS(atomfs_call(&fs, seat, PATH("list /d /298 4294967295"), out, sizeof out, &count, &number), ATOMFS_OK);
    SAYS(out, count, "names 299");
    IS(atomfs_call(&fs, seat, PATH("list /d /298 4294967296"), out, sizeof out, &count, &number), ATOMFS_BAD_NUMBER);
    IS(atomfs_begin(&fs, seat, PATH("list /d /298 18446744073709551615"), &number), ATOMFS_BAD_NUMBER);
}

/* A directory of more names than a call answers: no readdir tells it, and lists tell it in pieces. */
static void lists(void) {
    char name[] = "/d/000", last[] = "/255";
    IS(atomfs_open_with(&fs, 1000, ATOMFS_V3), ATOMFS_OK);
    IS(atomfs_seat(&fs, &seat), ATOMFS_OK);
    IS(atomfs_seat(&fs, &other_seat), ATOMFS_OK);
    IS(atomfs_mkdir(&fs, seat, PATH("/d"), &number), ATOMFS_OK);
    for (int i = 0; i < 300; i++) {
        if (i == 256) IS(atomfs_readdir(&fs, seat, PATH("/d"), out, sizeof out, &count, &number), ATOMFS_OK);
        if (i == 256) IS(count, 4 * 256);
        snprintf(name + 3, 4, "%03d", i);
        IS(atomfs_mknod(&fs, seat, PATH(name), &number), ATOMFS_OK);
    }
    FAILS(atomfs_readdir(&fs, seat, PATH("/d"), out, sizeof out, &count, &number), EOVERFLOW_);
    FAILS(atomfs_reply_names(&fs, number, NULL, 0, out, sizeof out, &count), EOVERFLOW_);
    IS(atomfs_list(&fs, seat, PATH("/d"), PATH("/"), UINT32_MAX, out, sizeof out, &count, &number), ATOMFS_OK);
    IS(count, 4 * ATOMFS_LIST_LIMIT);
    SAYS(out, (size_t)8,
         "000\000"
         "001\000");
    IS(strcmp(out + count - 4, last + 1), 0);
    IS(atomfs_list(&fs, seat, PATH("/d"), PATH(last), ATOMFS_LIST_LIMIT, out, sizeof out, &count, &number), ATOMFS_OK);
    IS(count, 4 * (300 - ATOMFS_LIST_LIMIT));
    SAYS(out, (size_t)4, "256\000");
    IS(atomfs_list(&fs, seat, PATH("/d"), PATH("/x/y/298"), 9, out, sizeof out, &count, &number), ATOMFS_OK);
    SAYS(out, count, "299\000");
    IS(atomfs_list(&fs, seat, PATH("/d"), PATH("/2985"), 9, out, 4, &count, &number), ATOMFS_OK);
    SAYS(out, count, "299\000");
    IS(atomfs_list(&fs, seat, PATH("/d"), PATH("/299"), 9, NULL, 0, &count, &number), ATOMFS_OK);
    IS(count, 0);
    IS(atomfs_list(&fs, seat, PATH("/d"), PATH("/"), 0, NULL, 0, &count, NULL), ATOMFS_OK);
    IS(count, 0);
    IS(atomfs_list(&fs, seat, PATH("/d"), PATH("/"), 2, out, 7, &count, &number), ATOMFS_TOO_SMALL);
    IS(count, 8);
    IS(atomfs_reply_names(&fs, number, PATH("000"), out, 7, &count), ATOMFS_OK);
    SAYS(out, count, "001\000");
    IS(atomfs_reply_bytes(&fs, number, out, sizeof out, &count), ATOMFS_UNTOLD);
    FAILS(atomfs_list(&fs, seat, PATH("/x"), PATH("/"), 9, out, sizeof out, &count, &number), ENOENT_);
    FAILS(atomfs_list(&fs, seat, PATH("/d/000"), PATH("/"), 9, out, sizeof out, &count, &number), ENOTDIR_);
    IS(atomfs_list(&fs, seat, PATH("d"), PATH("/"), 9, out, sizeof out, &count, &number), ATOMFS_BAD_PATH);
    IS(atomfs_list(&fs, seat, PATH("/d"), PATH("a"), 9, out, sizeof out, &count, &number), ATOMFS_BAD_PATH);
    IS(atomfs_list(&fs, seat, PATH("/d"), NULL, 0, 9, out, sizeof out, &count, &number), ATOMFS_BAD_PATH);
    IS(atomfs_list(&fs, 9, PATH("/d"), PATH("/"), 9, out, sizeof out, &count, &number), ATOMFS_NO_SEAT);
    IS(atomfs_list(NULL, seat, PATH("/d"), PATH("/"), 9, out, sizeof out, &count, &number), ATOMFS_NULL);
    IS(atomfs_list(&fs, seat, NULL, 2, PATH("/"), 9, out, sizeof out, &count, &number), ATOMFS_NULL);
    IS(atomfs_list(&fs, seat, PATH("/d"), NULL, 1, 9, out, sizeof out, &count, &number), ATOMFS_NULL);
    IS(atomfs_list(&fs, seat, PATH("/d"), PATH("/"), 9, NULL, 1, &count, &number), ATOMFS_NULL);
    IS(atomfs_list(&fs, seat, PATH("/d"), PATH("/"), 9, out, 1, NULL, &number), ATOMFS_NULL);
    IS(atomfs_list(&fs, seat, PATH("/d"), "/", SIZE_MAX / 2 + 1, 9, out, 1, &count, &number), ATOMFS_BAD_LENGTH);
    atomfs_request request = { ATOMFS_CALL_LIST, PATH("/d"), PATH("/297"), 0, 9, NULL, 0 };
    IS(atomfs_begin_call(&fs, other_seat, &request, &number), ATOMFS_OK);
    step_to_return(other_seat);
    IS(atomfs_reply_names(&fs, number, NULL, 0, out, sizeof out, &count), ATOMFS_OK);
    SAYS(out, count,
         "298\000"
         "299\000");
    IS(atomfs_call(&fs, seat, PATH("list /d /298 9"), out, sizeof out, &count, &number), ATOMFS_OK);
    SAYS(out, count, "names 299");
    great_counts(&request);
    request.other = NULL;
    IS(atomfs_begin_call(&fs, other_seat, &request, &number), ATOMFS_NULL);
    IS(atomfs_close(&fs), ATOMFS_OK);
    IS(atomfs_list(&fs, 0, PATH("/"), PATH("/"), 9, out, sizeof out, &count, &number), ATOMFS_CLOSED);
    /* The other limits have no such call. */
    open_fs(10);
    IS(atomfs_list(&fs, seat, PATH("/"), PATH("/"), 9, out, sizeof out, &count, &number), ATOMFS_BAD_VERSION);
    request.other = "/";
    request.other_length = 1;
    IS(atomfs_begin_call(&fs, seat, &request, &number), ATOMFS_BAD_VERSION);
    IS(atomfs_call(&fs, seat, PATH("list / / 9"), out, sizeof out, &count, &number), ATOMFS_BAD_LINE);
    IS(entries_now(), 0);
    IS(atomfs_close(&fs), ATOMFS_OK);
}

/* As many names as a call answers, each as long as there are. */
static void long_names(void) {
    enum { LONG = 255, ALL = ATOMFS_LIST_LIMIT * (LONG + 1) };
    static char path[2 + LONG], all[ALL];
    memset(path, '0', sizeof path - 1);
    path[0] = '/';
    IS(atomfs_open_with(&fs, 300, ATOMFS_V3), ATOMFS_OK);
    IS(atomfs_seat(&fs, &seat), ATOMFS_OK);
    IS(atomfs_seat(&fs, &other_seat), ATOMFS_OK);
    for (int i = 0; i < ATOMFS_LIST_LIMIT; i++) {
        snprintf(path + LONG - 2, 4, "%03d", i);
        IS(atomfs_mknod(&fs, seat, path, 1 + LONG, &number), ATOMFS_OK);
    }
    IS(atomfs_readdir(&fs, seat, PATH("/"), all, ALL - 1, &count, &number), ATOMFS_TOO_SMALL);
    IS(count, ALL);
    IS(atomfs_list(&fs, seat, PATH("/"), PATH("/"), ATOMFS_LIST_LIMIT, all, ALL, &count, &number), ATOMFS_OK);
    IS(count, ALL);
    for (int i = 0; i < ATOMFS_LIST_LIMIT; i++) {
        snprintf(path + LONG - 2, 4, "%03d", i);
        IS(strcmp(all + i * (LONG + 1), path + 1), 0);
    }
    /* The last names come behind the one before them, through a buffer that has room for one. */
    IS(atomfs_reply_names(&fs, number, all + ALL - 3 * (LONG + 1), LONG, out, LONG + 1, &count), ATOMFS_OK);
    IS(count, LONG + 1);
    IS(memcmp(out, all + ALL - 2 * (LONG + 1), LONG + 1), 0);
    IS(atomfs_reply_names(&fs, number, all + ALL - 2 * (LONG + 1), LONG, out, LONG, &count), ATOMFS_TOO_SMALL);
    IS(count, LONG + 1);
    IS(atomfs_list(&fs, seat, PATH("/"), path, 1 + LONG, 9, all, ALL, &count, &number), ATOMFS_OK);
    IS(count, 0);
    /* A move, step by step, is found where it went, and not where it was. */
    atomfs_request request = { ATOMFS_CALL_RENAME, path, 1 + LONG, PATH("/short"), 0, 0, NULL, 0 };
    IS(atomfs_begin_call(&fs, other_seat, &request, &number), ATOMFS_OK);
    step_to_return(other_seat);
    FAILS(atomfs_stat(&fs, seat, path, 1 + LONG, &stat_, &number), ENOENT_);
    IS(atomfs_rename(&fs, seat, PATH("/short"), path, 1 + LONG, &number), ATOMFS_OK);
    IS(atomfs_stat(&fs, seat, path, 1 + LONG, &stat_, &number), ATOMFS_OK);
    IS(atomfs_mkdirs(&fs, seat, path, LONG), ATOMFS_OK);
    IS(atomfs_unlink(&fs, seat, path, 1 + LONG, &number), ATOMFS_OK);
    uint64_t place;
    uint8_t kind;
    IS(atomfs_verdict(&fs, &place, &kind), ATOMFS_OK);
    IS(kind, ATOMFS_FAULT_NONE);
    IS(atomfs_close(&fs), ATOMFS_OK);
}

/* A read tells so many bytes at most, and whole files are read by as many reads as they take. */
static void long_reads(void) {
    static char large[ATOMFS_READ_LIMIT + 9];
    IS(atomfs_open_with(&fs, 10, ATOMFS_V3), ATOMFS_OK);
    IS(atomfs_seat(&fs, &seat), ATOMFS_OK);
    memset(large, 'x', sizeof large);
    IS(atomfs_write_file(&fs, seat, PATH("/f"), large, sizeof large), ATOMFS_OK);
    memset(large, '#', sizeof large);
    IS(atomfs_read(&fs, seat, PATH("/f"), 2, large, sizeof large, &count, &number), ATOMFS_OK);
    IS(count, ATOMFS_READ_LIMIT);
    SAYS(large + ATOMFS_READ_LIMIT - 1, (size_t)2, "x#");
    IS(atomfs_read_file(&fs, seat, PATH("/f"), large, sizeof large - 1, &count), ATOMFS_TOO_SMALL);
    IS(count, sizeof large);
    IS(atomfs_read_file(&fs, seat, PATH("/f"), large, sizeof large, &count), ATOMFS_OK);
    IS(count, sizeof large);
    SAYS(large + ATOMFS_READ_LIMIT, (size_t)9, "xxxxxxxxx");
    IS(atomfs_close(&fs), ATOMFS_OK);
}

static void words(void) {
    IS(strcmp(atomfs_version(), ATOMFS_VERSION), 0);
    IS(strcmp(atomfs_errno_name(ATOMFS_FAILED + ENOENT_), "ENOENT"), 0);
    IS(strcmp(atomfs_errno_name(ATOMFS_FAILED + ENOTEMPTY_), "ENOTEMPTY"), 0);
    IS(strcmp(atomfs_errno_name(ATOMFS_FAILED + EOVERFLOW_), "EOVERFLOW"), 0);
    IS(atomfs_errno_name(ATOMFS_OK) == NULL, 1);
    IS(atomfs_errno_name(ENOENT_) == NULL, 1);
    IS(atomfs_errno_name(255) == NULL, 1);
    IS(strcmp(atomfs_status_text(ATOMFS_CLOSED), "the handle is closed"), 0);
    IS(strcmp(atomfs_status_text(ATOMFS_PATH_DOT), "a name of the path is . or .."), 0);
    IS(strcmp(atomfs_status_text(ATOMFS_FAILED + ENOENT_), "no such file or directory (ENOENT)"), 0);
    for (int status = 0; status < 256; status++) IS(atomfs_status_text((uint8_t)status)[0] != '\0', 1);
}

int main(void) {
    each_call();
    plain_paths();
    each_error();
    refusals();
    refused_paths();
    step_by_step();
    waits();
    some_step();
    checked_paths();
    small_buffers();
    checkpoints();
    forgets();
    keeps();
    texts();
    tools();
    histories();
    nulls();
    no_numbers();
    whole_files();
    whole_files_later();
    branches();
    trees_in();
    trees_refused();
    second_trees();
    closed();
    each_set_of_limits();
    lists();
    long_names();
    long_reads();
    words();
    puts("typed calls: as they are to be");
    return 0;
}
