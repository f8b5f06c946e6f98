/* The calls of a tree that are made often, in C: what `_calls.py` does by ctypes, call for call, and with its errors.
 *
 * It is by the stable ABI of CPython 3.11, so one build serves 3.11 and all later ones. It links no library: ctypes has loaded
 * the shared object, and says where its functions are.
 *
 * Each method takes the tree first, whose lock it holds. Python's own lock (the GIL) is kept for a call on a few bytes, which takes
 * less time than to let it go, and let go for one on more than LONG bytes. Of those the bytes are Python's `bytes`, which nobody
 * changes meanwhile. What is rare goes to methods of the tree in Python: a path of a strange type, a status that is no error of a
 * call, a read of many pieces. */
#include "_fast.h"

#include <errno.h>
#include <stdint.h>
#include <string.h>

#include "atomfs.h"

/* From so many bytes on, other threads of Python run during a call. */
#define LONG 65537
#define CAPSULE "atomfs._fast.functions"

/* The functions that are called, each as atomfs.h declares it. */
#define EACH_FUNCTION(DO)                                                                                              \
    DO(mkdir)                                                                                                          \
    DO(mknod)                                                                                                          \
    DO(unlink)                                                                                                         \
    DO(rmdir)                                                                                                          \
    DO(rename)                                                                                                         \
    DO(exchange) DO(stat) DO(readdir) DO(list) DO(read) DO(write) DO(truncate) DO(begin_call) DO(step) DO(reply_bytes)

#define FIELD(name) __typeof__(atomfs_##name) *name;

typedef struct {
    EACH_FUNCTION(FIELD)
} Functions;

typedef __typeof__(atomfs_mkdir) *OnPath;
typedef __typeof__(atomfs_rename) *OnPaths;

typedef struct {
    PyObject_HEAD PyObject *capsule;
    const Functions *of;
    /* The handle, the number of the last call, that of the last one that was noted, which no `obj` means is not, and how many nodes
     * there are, or -1 where that is not known. */
    Py_buffer handle, number, last, nodes;
    PyObject *acquire, *release, *mine, *standing;
    /* The types and the values of answers. */
    PyObject *stat, *step, *did;
    /* What Python does with what is given. */
    PyObject *encoded, *number_of, *bytes_of;
    PyObject *word_number;
    char *room;
    size_t room_size;
} Calls;

/* ---- The functions of a shared object */

static void free_functions(PyObject *capsule) { PyMem_Free(PyCapsule_GetPointer(capsule, CAPSULE)); }

static int found(PyObject *addresses, const char *name, void **to) {
    PyObject *address = PyMapping_GetItemString(addresses, name);
    if (address == NULL) return -1;
    *to = PyLong_AsVoidPtr(address);
    Py_DECREF(address);
    if (*to == NULL && !PyErr_Occurred()) PyErr_SetString(PyExc_ValueError, "a function is at null");
    return *to == NULL ? -1 : 0;
}

/* Of a dictionary the addresses of functions by their names, as ctypes has found them. */
static PyObject *functions(PyObject *Py_UNUSED(module), PyObject *addresses) {
    Functions *of = PyMem_Malloc(sizeof *of);
    if (of == NULL) return PyErr_NoMemory();
    int failed = 0;
#define FIND(name) failed = failed || found(addresses, #name, (void **)&of->name) < 0;
    EACH_FUNCTION(FIND)
    PyObject *capsule = failed ? NULL : PyCapsule_New(of, CAPSULE, free_functions);
    if (capsule == NULL) PyMem_Free(of);
    return capsule;
}

/* ---- What is given, as the library takes it */

typedef struct {
    const char *at;
    size_t length;
    PyObject *held;
} Bytes;

static int path_of(Calls *self, PyObject *given, Bytes *path) {
    Py_ssize_t length;
    path->held = NULL;
    if (PyUnicode_CheckExact(given)) {
        path->at = PyUnicode_AsUTF8AndSize(given, &length);
        if (path->at != NULL) {
            path->length = (size_t)length;
            return 0;
        }
        /* Bytes that are no UTF-8 are surrogates in it. */
        if (!PyErr_ExceptionMatches(PyExc_UnicodeEncodeError)) return -1;
        PyErr_Clear();
    }
    path->held = PyObject_CallFunctionObjArgs(self->encoded, given, NULL);
    if (path->held == NULL) return -1;
    char *at;
    if (PyBytes_AsStringAndSize(path->held, &at, &length) < 0) {
        Py_CLEAR(path->held);
        return -1;
    }
    path->at = at;
    path->length = (size_t)length;
    return 0;
}

/* Whether a path is of bytes, which its names are then too; -1 where it is none. */
static int is_bytes(PyObject *given) {
    if (PyUnicode_CheckExact(given)) return 0;
    PyObject *path = PyOS_FSPath(given);
    if (path == NULL) return -1;
    int is = PyBytes_Check(path);
    Py_DECREF(path);
    return is;
}

static int number_of(Calls *self, PyObject *given, const char *what, uint64_t *number) {
    if (PyLong_CheckExact(given)) {
        int overflow;
        long long value = PyLong_AsLongLongAndOverflow(given, &overflow);
        if (value >= 0 && !overflow) {
            *number = (uint64_t)value;
            return 0;
        }
    }
    PyObject *made = PyObject_CallFunction(self->number_of, "Os", given, what);
    if (made == NULL) return -1;
    *number = PyLong_AsUnsignedLongLong(made);
    Py_DECREF(made);
    return PyErr_Occurred() ? -1 : 0;
}

/* ---- Around a call */

static int takes(Py_ssize_t given, Py_ssize_t due) {
    if (given == due) return 1;
    PyErr_Format(PyExc_TypeError, "%zd arguments are taken, and %zd are given", due, given);
    return 0;
}

static atomfs *handle_of(Calls *self) { return self->handle.buf; }

static uint64_t *number_at(Calls *self) { return self->number.buf; }

static int enter(Calls *self) {
    if (self->of == NULL || self->handle.obj == NULL || self->nodes.obj == NULL) {
        PyErr_SetString(PyExc_RuntimeError, "these calls are of no tree");
        return -1;
    }
    PyObject *done = PyObject_CallNoArgs(self->acquire);
    Py_XDECREF(done);
    return done == NULL ? -1 : 0;
}

/* Lets the tree's lock go, and hands the answer on, or the error that is set. */
static PyObject *leave(Calls *self, PyObject *answer) {
    PyObject *type = NULL, *value = NULL, *trace = NULL;
    if (answer == NULL) PyErr_Fetch(&type, &value, &trace);
    PyObject *done = PyObject_CallNoArgs(self->release);
    if (done == NULL) {
        Py_XDECREF(type);
        Py_XDECREF(value);
        Py_XDECREF(trace);
        Py_XDECREF(answer);
        return NULL;
    }
    Py_DECREF(done);
    if (answer == NULL) PyErr_Restore(type, value, trace);
    return answer;
}

/* The seat of this thread. */
static int seat_of(Calls *self, uint64_t *seat) {
    PyObject *number = PyObject_GetAttr(self->mine, self->word_number);
    if (number == NULL) return -1;
    *seat = PyLong_AsUnsignedLongLong(number);
    Py_DECREF(number);
    return *seat == UINT64_MAX && PyErr_Occurred() ? -1 : 0;
}

/* Notes a call that has begun, of a tree that forgets by itself: those before it have gone where its number is no greater. */
static int noted(Calls *self, uint8_t status) {
    if (self->last.obj == NULL || (status > ATOMFS_WAITS && status < ATOMFS_FAILED)) return 0;
    uint64_t *last = self->last.buf;
    if (*number_at(self) <= *last) {
        PyObject *done = PyObject_CallMethod(self->standing, "begin_again", "K", (unsigned long long)*last);
        if (done == NULL) return -1;
        Py_DECREF(done);
    }
    *last = *number_at(self);
    return 0;
}

/* Counts the nodes behind a call that makes one or takes one away. Behind a call that waits, or may have replaced one, they are not
 * known. */
static void counted(Calls *self, uint8_t status, int more) {
    int64_t *nodes = self->nodes.buf;
    if (status == ATOMFS_OK && *nodes >= 0) *nodes += more;
    if (status == ATOMFS_WAITS || status == ATOMFS_UNTOLD || (status == ATOMFS_OK && more == 0)) *nodes = -1;
}

/* Raises what a status is. The tree has words of its own for limits, and knows what to do where a call waits. */
static PyObject *fail(PyObject *tree, uint8_t status, int call, PyObject *path, PyObject *other) {
    int number = status - ATOMFS_FAILED;
    if (number > 0 && number != ENOSPC && number != EFBIG && number != EOVERFLOW) {
        errno = number;
        return PyErr_SetFromErrnoWithFilenameObjects(PyExc_OSError, path, other);
    }
    PyObject *error = path == NULL    ? PyObject_CallMethod(tree, "_error", "ii", status, call)
                      : other == NULL ? PyObject_CallMethod(tree, "_error", "iiO", status, call, path)
                                      : PyObject_CallMethod(tree, "_error", "iiOO", status, call, path, other);
    if (error == NULL) return NULL;
    PyErr_SetObject((PyObject *)Py_TYPE(error), error);
    Py_DECREF(error);
    return NULL;
}

/* Behind a call that answers nothing more: none, or its error. */
static PyObject *done_or_error(Calls *self, PyObject *tree, uint8_t status, int call, PyObject *path, PyObject *other) {
    if (noted(self, status) < 0) return NULL;
    if (status != ATOMFS_OK) return fail(tree, status, call, path, other);
    Py_RETURN_NONE;
}

/* A named tuple of two, whose values it takes. */
static PyObject *pair(PyObject *type, PyObject *first, PyObject *second) {
    PyObject *made = first != NULL && second != NULL ? PyType_GenericAlloc((PyTypeObject *)type, 2) : NULL;
    if (made == NULL) {
        Py_XDECREF(first);
        Py_XDECREF(second);
        return NULL;
    }
    if (PyTuple_SetItem(made, 0, first) < 0) {
        Py_DECREF(second);
        Py_CLEAR(made);
    } else if (PyTuple_SetItem(made, 1, second) < 0) {
        Py_CLEAR(made);
    }
    return made;
}

/* ---- Calls on paths: tree, path */

static PyObject *on_path(Calls *self, PyObject *const *given, Py_ssize_t count, OnPath function, int call, int more) {
    Bytes path;
    uint64_t seat;
    if (!takes(count, 2) || path_of(self, given[1], &path) < 0) return NULL;
    PyObject *answer = NULL;
    if (enter(self) == 0) {
        if (seat_of(self, &seat) == 0) {
            uint8_t status = function(handle_of(self), seat, path.at, path.length, number_at(self));
            counted(self, status, more);
            answer = done_or_error(self, given[0], status, call, given[1], NULL);
        }
        answer = leave(self, answer);
    }
    Py_XDECREF(path.held);
    return answer;
}

#define ON_PATH(name, CALL, more)                                                                                      \
    static PyObject *calls_##name(Calls *self, PyObject *const *given, Py_ssize_t count) {                             \
        return on_path(self, given, count, self->of->name, CALL, more);                                                \
    }

ON_PATH(mkdir, ATOMFS_CALL_MKDIR, 1)
ON_PATH(mknod, ATOMFS_CALL_MKNOD, 1)
ON_PATH(unlink, ATOMFS_CALL_UNLINK, -1)
ON_PATH(rmdir, ATOMFS_CALL_RMDIR, -1)

static PyObject *on_paths(Calls *self, PyObject *const *given, Py_ssize_t count, OnPaths function, int call) {
    Bytes path, other;
    uint64_t seat;
    if (!takes(count, 3) || path_of(self, given[1], &path) < 0) return NULL;
    PyObject *answer = NULL;
    if (path_of(self, given[2], &other) == 0) {
        if (enter(self) == 0) {
            if (seat_of(self, &seat) == 0) {
                uint8_t status =
                    function(handle_of(self), seat, path.at, path.length, other.at, other.length, number_at(self));
                counted(self, call == ATOMFS_CALL_EXCHANGE && status == ATOMFS_OK ? ATOMFS_FAILED : status, 0);
                answer = done_or_error(self, given[0], status, call, given[1], given[2]);
            }
            answer = leave(self, answer);
        }
        Py_XDECREF(other.held);
    }
    Py_XDECREF(path.held);
    return answer;
}

#define ON_PATHS(name, CALL)                                                                                           \
    static PyObject *calls_##name(Calls *self, PyObject *const *given, Py_ssize_t count) {                             \
        return on_paths(self, given, count, self->of->name, CALL);                                                     \
    }

ON_PATHS(rename, ATOMFS_CALL_RENAME)
ON_PATHS(exchange, ATOMFS_CALL_EXCHANGE)

/* What stands at a path, and whether the call came to an answer; else its status, with an error set only where there is none. */
static int looked(Calls *self, PyObject *given, struct atomfs_stat *found, uint8_t *status) {
    Bytes path;
    uint64_t seat;
    if (path_of(self, given, &path) < 0) return -1;
    int done = seat_of(self, &seat);
    if (done == 0) {
        *status = self->of->stat(handle_of(self), seat, path.at, path.length, found, number_at(self));
        done = noted(self, *status);
    }
    Py_XDECREF(path.held);
    return done;
}

static PyObject *calls_stat(Calls *self, PyObject *const *given, Py_ssize_t count) {
    struct atomfs_stat found;
    uint8_t status;
    if (!takes(count, 2) || enter(self) < 0) return NULL;
    PyObject *answer = NULL;
    if (looked(self, given[1], &found, &status) == 0)
        answer = status != ATOMFS_OK
                     ? fail(given[0], status, ATOMFS_CALL_STAT, given[1], NULL)
                     : pair(self->stat, PyBool_FromLong(found.is_dir), PyLong_FromUnsignedLongLong(found.size));
    return leave(self, answer);
}

/* Whether a directory stands at a path, or none of both: tree, path. */
static PyObject *calls_kind(Calls *self, PyObject *const *given, Py_ssize_t count) {
    struct atomfs_stat found;
    uint8_t status;
    if (!takes(count, 2) || enter(self) < 0) return NULL;
    PyObject *answer = NULL;
    if (looked(self, given[1], &found, &status) == 0) {
        if (status == ATOMFS_FAILED + ENOENT || status == ATOMFS_FAILED + ENOTDIR)
            answer = Py_NewRef(Py_None);
        else if (status != ATOMFS_OK)
            fail(given[0], status, ATOMFS_CALL_STAT, given[1], NULL);
        else
            answer = PyBool_FromLong(found.is_dir);
    }
    return leave(self, answer);
}

/* ---- Names */

/* The names of a text in which a byte 0 is behind each, as strings or as bytes. */
static PyObject *names_in(const char *text, size_t size, int of_bytes) {
    Py_ssize_t count = 0, place = 0;
    const char *at = text, *end = text + size;
    for (const char *one = at; one < end; one++) count += *one == 0;
    PyObject *names = PyList_New(count);
    while (names != NULL && at < end) {
        const char *behind = memchr(at, 0, (size_t)(end - at));
        if (behind == NULL) break;
        PyObject *name = of_bytes ? PyBytes_FromStringAndSize(at, behind - at)
                                  : PyUnicode_DecodeUTF8(at, behind - at, "surrogateescape");
        if (name == NULL || PyList_SetItem(names, place++, name) < 0) Py_CLEAR(names);
        at = behind + 1;
    }
    return names;
}

/* The names that a call has told, or that the tree asks for in pieces where there was no room for all. */
static PyObject *names_told(Calls *self, PyObject *tree, uint8_t status, size_t size, int call, PyObject *path,
                            int of_bytes) {
    if (noted(self, status) < 0) return NULL;
    if (status == ATOMFS_TOO_SMALL || status == ATOMFS_UNTOLD)
        return PyObject_CallMethod(tree, "_names_behind", "KO", (unsigned long long)*number_at(self), path);
    return status != ATOMFS_OK ? fail(tree, status, call, path, NULL) : names_in(self->room, size, of_bytes);
}

static int with_room(Calls *self) {
    if (self->room == NULL) self->room = PyMem_Malloc(self->room_size);
    if (self->room != NULL) return 0;
    PyErr_NoMemory();
    return -1;
}

static PyObject *calls_readdir(Calls *self, PyObject *const *given, Py_ssize_t count) {
    Bytes path;
    uint64_t seat;
    size_t size = 0;
    int of_bytes;
    if (!takes(count, 2) || (of_bytes = is_bytes(given[1])) < 0 || path_of(self, given[1], &path) < 0) return NULL;
    PyObject *answer = NULL;
    if (enter(self) == 0) {
        if (with_room(self) == 0 && seat_of(self, &seat) == 0) {
            uint8_t status = self->of->readdir(handle_of(self), seat, path.at, path.length, self->room, self->room_size,
                                               &size, number_at(self));
            answer = names_told(self, given[0], status, size, ATOMFS_CALL_READDIR, given[1], of_bytes);
        }
        answer = leave(self, answer);
    }
    Py_XDECREF(path.held);
    return answer;
}

/* tree, path, after, count */
static PyObject *calls_list(Calls *self, PyObject *const *given, Py_ssize_t count) {
    Bytes path, after;
    uint64_t seat, most;
    size_t size = 0;
    int of_bytes;
    if (!takes(count, 4) || path_of(self, given[2], &after) < 0) return NULL;
    PyObject *answer = NULL;
    if (number_of(self, given[3], "count", &most) == 0 && (of_bytes = is_bytes(given[1])) >= 0 &&
        path_of(self, given[1], &path) == 0) {
        if (enter(self) == 0) {
            if (with_room(self) == 0 && seat_of(self, &seat) == 0) {
                uint8_t status = self->of->list(handle_of(self), seat, path.at, path.length, after.at, after.length,
                                                most > UINT32_MAX ? UINT32_MAX : (uint32_t)most, self->room,
                                                self->room_size, &size, number_at(self));
                answer = names_told(self, given[0], status, size, ATOMFS_CALL_LIST, given[1], of_bytes);
            }
            answer = leave(self, answer);
        }
        Py_XDECREF(path.held);
    }
    Py_XDECREF(after.held);
    return answer;
}

/* ---- Bytes */

/* Reads at most so many bytes to a place, and again what was not told for want of memory. */
static uint8_t read_into(Calls *self, uint64_t seat, const Bytes *path, uint64_t offset, char *out, size_t room,
                         size_t *got) {
    uint8_t status =
        self->of->read(handle_of(self), seat, path->at, path->length, offset, out, room, got, number_at(self));
    return status != ATOMFS_UNTOLD ? status : self->of->reply_bytes(handle_of(self), *number_at(self), out, room, got);
}

/* The bytes that one call reads, straight into what is answered, within the tree's lock. */
static PyObject *piece(Calls *self, PyObject *tree, PyObject *given, const Bytes *path, uint64_t offset, size_t room) {
    uint64_t seat;
    size_t got = 0;
    uint8_t status;
    if (seat_of(self, &seat) < 0) return NULL;
    PyObject *bytes = PyBytes_FromStringAndSize(NULL, (Py_ssize_t)room);
    if (bytes == NULL) return NULL;
    char *out = PyBytes_AsString(bytes);
    if (room < LONG) {
        status = read_into(self, seat, path, offset, out, room, &got);
    } else {
        Py_BEGIN_ALLOW_THREADS;
        status = read_into(self, seat, path, offset, out, room, &got);
        Py_END_ALLOW_THREADS;
    }
    int failed = noted(self, status) < 0 || (status != ATOMFS_OK && !fail(tree, status, ATOMFS_CALL_READ, given, NULL));
    if (!failed && got == room) return bytes;
    PyObject *shorter = failed ? NULL : PyBytes_FromStringAndSize(out, (Py_ssize_t)got);
    Py_DECREF(bytes);
    return shorter;
}

/* Reads at most so many bytes by one call: tree, path, offset, count. */
static PyObject *calls_piece(Calls *self, PyObject *const *given, Py_ssize_t count) {
    Bytes path;
    uint64_t offset, room;
    if (!takes(count, 4) || number_of(self, given[2], "offset", &offset) < 0 ||
        number_of(self, given[3], "count", &room) < 0 || path_of(self, given[1], &path) < 0)
        return NULL;
    PyObject *answer = NULL;
    if (room > PY_SSIZE_T_MAX)
        PyErr_NoMemory();
    else if (enter(self) == 0)
        answer = leave(self, piece(self, given[0], given[1], &path, offset, (size_t)room));
    Py_XDECREF(path.held);
    return answer;
}

/* Reads a whole file of fewer bytes than there is room for, by one call; the tree goes on where there may be more. */
static PyObject *whole(Calls *self, PyObject *const *given, const Bytes *path, uint64_t offset) {
    uint64_t seat;
    size_t got = 0;
    if (with_room(self) < 0 || seat_of(self, &seat) < 0) return NULL;
    uint8_t status = read_into(self, seat, path, offset, self->room, self->room_size, &got);
    if (noted(self, status) < 0) return NULL;
    if (status != ATOMFS_OK) return fail(given[0], status, ATOMFS_CALL_READ, given[1], NULL);
    PyObject *bytes = PyBytes_FromStringAndSize(self->room, (Py_ssize_t)got);
    if (bytes == NULL || got < self->room_size) return bytes;
    PyObject *all = PyObject_CallMethod(given[0], "_read_pieces", "OOOO", given[1], given[2], Py_None, bytes);
    Py_DECREF(bytes);
    return all;
}

/* Reads at most so many bytes, or all where none is said: tree, path, offset, count. */
static PyObject *calls_read(Calls *self, PyObject *const *given, Py_ssize_t count) {
    Bytes path;
    uint64_t offset, wanted = 0;
    int overflow = 0, all = count == 4 && given[3] == Py_None && self->room_size == LONG;
    if (!takes(count, 4)) return NULL;
    if (PyLong_CheckExact(given[3])) {
        long long value = PyLong_AsLongLongAndOverflow(given[3], &overflow);
        wanted = value < 0 || overflow ? UINT64_MAX : (uint64_t)value;
    }
    if (!all && (!PyLong_CheckExact(given[3]) || wanted > self->room_size))
        return PyObject_CallMethod(given[0], "_read_pieces", "OOO", given[1], given[2], given[3]);
    if (path_of(self, given[1], &path) < 0) return NULL;
    PyObject *answer = NULL;
    if (number_of(self, given[2], "offset", &offset) == 0 && enter(self) == 0)
        answer = leave(self, all ? whole(self, given, &path, offset)
                                 : piece(self, given[0], given[1], &path, offset, (size_t)wanted));
    Py_XDECREF(path.held);
    return answer;
}

static PyObject *wrote(Calls *self, PyObject *const *given, const Bytes *path, uint64_t offset, const void *bytes,
                       size_t size) {
    uint64_t seat, count = 0;
    uint8_t status;
    if (seat_of(self, &seat) < 0) return NULL;
    if (size < LONG) {
        status = self->of->write(handle_of(self), seat, path->at, path->length, offset, bytes, size, &count,
                                 number_at(self));
    } else {
        Py_BEGIN_ALLOW_THREADS;
        status = self->of->write(handle_of(self), seat, path->at, path->length, offset, bytes, size, &count,
                                 number_at(self));
        Py_END_ALLOW_THREADS;
    }
    if (noted(self, status) < 0) return NULL;
    return status != ATOMFS_OK ? fail(given[0], status, ATOMFS_CALL_WRITE, given[1], NULL)
                               : PyLong_FromUnsignedLongLong(count);
}

/* tree, path, offset, data. The bytes of what others may change are taken as they are where no other thread runs meanwhile. */
static PyObject *calls_write(Calls *self, PyObject *const *given, Py_ssize_t count) {
    Bytes path;
    uint64_t offset;
    Py_buffer data;
    if (!takes(count, 4) || path_of(self, given[1], &path) < 0) return NULL;
    PyObject *answer = NULL, *held = NULL;
    if (number_of(self, given[2], "offset", &offset) < 0) goto end;
    int got = PyUnicode_Check(given[3]) ? -1 : PyObject_GetBuffer(given[3], &data, PyBUF_SIMPLE);
    if (got == 0 && data.len >= LONG && !PyBytes_CheckExact(given[3])) {
        PyBuffer_Release(&data);
        got = -1;
    }
    if (got < 0) {
        PyErr_Clear();
        held = PyObject_CallFunctionObjArgs(self->bytes_of, given[3], NULL);
        if (held == NULL || PyObject_GetBuffer(held, &data, PyBUF_SIMPLE) < 0) goto end;
    }
    if (enter(self) == 0) answer = leave(self, wrote(self, given, &path, offset, data.buf, (size_t)data.len));
    PyBuffer_Release(&data);
end:
    Py_XDECREF(held);
    Py_XDECREF(path.held);
    return answer;
}

/* tree, path, size */
static PyObject *calls_truncate(Calls *self, PyObject *const *given, Py_ssize_t count) {
    Bytes path;
    uint64_t seat, size;
    if (!takes(count, 3) || path_of(self, given[1], &path) < 0) return NULL;
    PyObject *answer = NULL;
    if (number_of(self, given[2], "size", &size) == 0 && enter(self) == 0) {
        if (seat_of(self, &seat) == 0) {
            uint8_t status = self->of->truncate(handle_of(self), seat, path.at, path.length, size, number_at(self));
            answer = done_or_error(self, given[0], status, ATOMFS_CALL_TRUNCATE, given[1], NULL);
        }
        answer = leave(self, answer);
    }
    Py_XDECREF(path.held);
    return answer;
}

/* ---- Calls step by step */

/* The number of a call that begins: tree, seat, call, path, other, offset, size, data. There may be no other path. */
static PyObject *calls_begin(Calls *self, PyObject *const *given, Py_ssize_t count) {
    Bytes path, other = { NULL, 0, NULL };
    uint64_t seat, call, offset, size;
    char *data;
    Py_ssize_t length;
    if (!takes(count, 8) || number_of(self, given[1], "seat", &seat) < 0 ||
        number_of(self, given[2], "call", &call) < 0 || number_of(self, given[5], "offset", &offset) < 0 ||
        number_of(self, given[6], "size", &size) < 0 || PyBytes_AsStringAndSize(given[7], &data, &length) < 0 ||
        path_of(self, given[3], &path) < 0)
        return NULL;
    PyObject *answer = NULL, *second = given[4] == Py_None ? NULL : given[4];
    if ((second == NULL || path_of(self, second, &other) == 0) && enter(self) == 0) {
        atomfs_request request = { (uint8_t)call, path.at, path.length, other.at,      other.length,
                                   offset,        size,    data,        (size_t)length };
        uint8_t status = self->of->begin_call(handle_of(self), seat, &request, number_at(self));
        if (noted(self, status) == 0)
            answer = status != ATOMFS_OK ? fail(given[0], status, (int)call, given[3], second)
                                         : PyLong_FromUnsignedLongLong(*number_at(self));
        answer = leave(self, answer);
    }
    Py_XDECREF(other.held);
    Py_XDECREF(path.held);
    return answer;
}

/* What a step did, and what that speaks of: tree, seat. */
static PyObject *calls_step(Calls *self, PyObject *const *given, Py_ssize_t count) {
    uint64_t seat, about = 0;
    uint8_t did = 0;
    if (!takes(count, 2) || number_of(self, given[1], "seat", &seat) < 0 || enter(self) < 0) return NULL;
    uint8_t status = self->of->step(handle_of(self), seat, &did, &about);
    PyObject *answer = NULL;
    if (status != ATOMFS_OK)
        fail(given[0], status, 0, NULL, NULL);
    else
        answer = pair(self->step, PySequence_GetItem(self->did, did), PyLong_FromUnsignedLongLong(about));
    return leave(self, answer);
}

/* ---- The type */

static void release(Py_buffer *buffer) {
    if (buffer->obj != NULL) PyBuffer_Release(buffer);
    buffer->obj = NULL;
}

static int held(PyObject *from, Py_ssize_t size, Py_buffer *to) {
    Py_buffer made;
    if (PyObject_GetBuffer(from, &made, PyBUF_WRITABLE) < 0) return -1;
    if (made.len != size) {
        PyBuffer_Release(&made);
        PyErr_SetString(PyExc_TypeError, "a place in memory of another size is wanted");
        return -1;
    }
    release(to);
    *to = made;
    return 0;
}

/* Lets the calls go to a handle, on the seats of threads, be noted in what stands in its journal, or not be, and count nodes. */
static PyObject *calls_on(Calls *self, PyObject *const *given, Py_ssize_t count) {
    if (!takes(count, 5) || held(given[0], sizeof(atomfs), &self->handle) < 0) return NULL;
    if (held(given[4], sizeof(int64_t), &self->nodes) < 0) return NULL;
    release(&self->last);
    if (given[3] != Py_None && held(given[3], sizeof(uint64_t), &self->last) < 0) return NULL;
    PyObject *mine = self->mine, *standing = self->standing;
    self->mine = Py_NewRef(given[1]);
    self->standing = Py_NewRef(given[2]);
    Py_XDECREF(mine);
    Py_XDECREF(standing);
    Py_RETURN_NONE;
}

/* Of a module `functions`, the place of numbers, a lock, the room for names, and what Python makes and does. */
static PyObject *calls_new(PyTypeObject *type, PyObject *given, PyObject *named) {
    PyObject *capsule, *number, *lock, *stat, *step, *did, *encoded, *of_number, *of_bytes;
    Py_ssize_t room;
    (void)named;
    if (!PyArg_ParseTuple(given, "OOOnOOOOOO", &capsule, &number, &lock, &room, &stat, &step, &did, &encoded,
                          &of_number, &of_bytes))
        return NULL;
    const Functions *of = PyCapsule_GetPointer(capsule, CAPSULE);
    if (of == NULL) return NULL;
    if (!PyType_Check(stat) || !PyType_Check(step) || !PyType_IsSubtype((PyTypeObject *)stat, &PyTuple_Type) ||
        !PyType_IsSubtype((PyTypeObject *)step, &PyTuple_Type)) {
        PyErr_SetString(PyExc_TypeError, "answers are named tuples");
        return NULL;
    }
    Calls *self = (Calls *)PyType_GenericAlloc(type, 0);
    if (self == NULL) return NULL;
    self->capsule = Py_NewRef(capsule);
    self->of = of;
    self->stat = Py_NewRef(stat);
    self->step = Py_NewRef(step);
    self->did = Py_NewRef(did);
    self->encoded = Py_NewRef(encoded);
    self->number_of = Py_NewRef(of_number);
    self->bytes_of = Py_NewRef(of_bytes);
    self->room_size = room < 1 ? 1 : (size_t)room;
    self->acquire = PyObject_GetAttrString(lock, "acquire");
    self->release = PyObject_GetAttrString(lock, "release");
    self->word_number = PyUnicode_InternFromString("number");
    if (self->acquire == NULL || self->release == NULL || self->word_number == NULL ||
        held(number, sizeof(uint64_t), &self->number) < 0)
        Py_CLEAR(self);
    return (PyObject *)self;
}

#define EACH_OBJECT(DO)                                                                                                \
    DO(capsule)                                                                                                        \
    DO(acquire)                                                                                                        \
    DO(release) DO(mine) DO(standing) DO(stat) DO(step) DO(did) DO(encoded) DO(number_of) DO(bytes_of) DO(word_number)
#define VISIT(name) Py_VISIT(self->name);
#define CLEAR(name) Py_CLEAR(self->name);

static int calls_traverse(Calls *self, visitproc visit, void *arg) {
    Py_VISIT(Py_TYPE((PyObject *)self));
    Py_VISIT(self->handle.obj);
    Py_VISIT(self->number.obj);
    Py_VISIT(self->last.obj);
    Py_VISIT(self->nodes.obj);
    EACH_OBJECT(VISIT)
    return 0;
}

static int calls_clear(Calls *self) {
    self->of = NULL;
    release(&self->handle);
    release(&self->number);
    release(&self->last);
    release(&self->nodes);
    EACH_OBJECT(CLEAR)
    return 0;
}

static void calls_dealloc(Calls *self) {
    PyTypeObject *type = Py_TYPE((PyObject *)self);
    PyObject_GC_UnTrack(self);
    calls_clear(self);
    PyMem_Free(self->room);
    ((freefunc)PyType_GetSlot(type, Py_tp_free))(self);
    Py_DECREF(type);
}

#define METHOD(name) { #name, (PyCFunction)(void (*)(void))calls_##name, METH_FASTCALL, NULL },

static PyMethodDef calls_methods[] = { METHOD(on) METHOD(mkdir) METHOD(mknod) METHOD(unlink) METHOD(rmdir)
                                           METHOD(rename) METHOD(exchange) METHOD(stat) METHOD(kind) METHOD(readdir)
                                               METHOD(list) METHOD(piece) METHOD(read) METHOD(write) METHOD(truncate)
                                                   METHOD(begin) METHOD(step){ NULL, NULL, 0, NULL } };

static PyType_Slot calls_slots[] = { { Py_tp_new, calls_new },
                                     { Py_tp_dealloc, calls_dealloc },
                                     { Py_tp_traverse, calls_traverse },
                                     { Py_tp_clear, calls_clear },
                                     { Py_tp_methods, calls_methods },
                                     { Py_tp_doc, "The calls of a tree that are made often." },
                                     { 0, NULL } };

static PyType_Spec calls_spec = { "atomfs._fast.Calls", sizeof(Calls), 0, Py_TPFLAGS_DEFAULT | Py_TPFLAGS_HAVE_GC,
                                  calls_slots };

/* ---- Where names are, for the patch */

#define SLOTS 4096

/* A set of addresses: at most half of its slots are taken. */
typedef struct {
    void *at[SLOTS];
} Addresses;

static void **slot_of(Addresses *set, void *address) {
    size_t slot = ((uintptr_t)address >> 4) % SLOTS;
    while (set->at[slot] != NULL && set->at[slot] != address) slot = (slot + 1) % SLOTS;
    return &set->at[slot];
}

/* The places, each a dictionary and a key, at which one of these objects stands: a list of dictionaries, and one with the numbers of
 * the objects, as `id` has them, as its keys. No object is touched, which spares a walk through the memory of Python. */
static PyObject *places(PyObject *Py_UNUSED(module), PyObject *const *given, Py_ssize_t count) {
    if (!takes(count, 2)) return NULL;
    if (!PyList_Check(given[0]) || !PyDict_Check(given[1]) || PyDict_Size(given[1]) > SLOTS / 2) {
        PyErr_SetString(PyExc_TypeError, "a list of dictionaries and a dictionary of few numbers are taken");
        return NULL;
    }
    PyObject *found = PyList_New(0), *key, *value;
    Addresses *set = PyMem_Calloc(1, sizeof *set);
    if (found == NULL || set == NULL) goto failed;
    for (Py_ssize_t at = 0; PyDict_Next(given[1], &at, &key, &value);) {
        void *address = PyLong_AsVoidPtr(key);
        if (address == NULL && PyErr_Occurred()) goto failed;
        *slot_of(set, address) = address;
    }
    for (Py_ssize_t place = 0; place < PyList_Size(given[0]); place++) {
        PyObject *space = PyList_GetItem(given[0], place);
        if (!PyDict_Check(space)) {
            PyErr_SetString(PyExc_TypeError, "one is no dictionary");
            goto failed;
        }
        for (Py_ssize_t at = 0; PyDict_Next(space, &at, &key, &value);) {
            if (*slot_of(set, value) == NULL) continue;
            PyObject *one = PyTuple_Pack(2, space, key);
            if (one == NULL || PyList_Append(found, one) < 0) {
                Py_XDECREF(one);
                goto failed;
            }
            Py_DECREF(one);
        }
    }
    PyMem_Free(set);
    return found;
failed:
    if (set == NULL && !PyErr_Occurred()) PyErr_NoMemory();
    PyMem_Free(set);
    Py_XDECREF(found);
    return NULL;
}

static PyMethodDef module_methods[] = {
    { "functions", functions, METH_O, "The functions at these addresses." },
    { "places", (PyCFunction)(void (*)(void))places, METH_FASTCALL, "Where objects are in dictionaries." },
    { "kept", (PyCFunction)(void (*)(void))atomfs_kept, METH_FASTCALL, "What is kept of the node at a path." },
    { NULL, NULL, 0, NULL }
};

int atomfs_add_types(PyObject *module, PyType_Spec **specs, int count) {
    for (int at = 0; at < count; at++) {
        PyObject *type = PyType_FromModuleAndSpec(module, specs[at], NULL);
        int done = type == NULL ? -1 : PyModule_AddType(module, (PyTypeObject *)type);
        Py_XDECREF(type);
        if (done < 0) return -1;
    }
    return 0;
}

static int module_exec(PyObject *module) {
    PyType_Spec *specs[] = { &calls_spec };
    return atomfs_add_types(module, specs, 1) < 0 || atomfs_add_door(module) < 0 ? -1 : atomfs_add_files(module);
}

static PyModuleDef_Slot module_slots[] = { { Py_mod_exec, module_exec }, { 0, NULL } };

static PyModuleDef module = { PyModuleDef_HEAD_INIT, "atomfs._fast", NULL, 0,   module_methods,
                              module_slots,          NULL,           NULL, NULL };

PyMODINIT_FUNC PyInit__fast(void) { return PyModuleDef_Init(&module); }
