/* Descriptors of a patch in C: as `PureNode`, `PureDescription` and the methods of `Descriptors` in `_descriptors.py`, which do what is not
 * done here: of directories, of files without an entry, of what is not open so, and of errors. */
#include "_fast.h"

#include <errno.h>
#include <fcntl.h>
#include <stddef.h>
#include <string.h>
#include <unistd.h>

/* What a descriptor speaks of. */
typedef struct {
    PyObject_HEAD PyObject *path, *inode, *data, *weak;
    Py_ssize_t opened;
    char is_dir;
} Node;

/* A node that was opened, and a position in it. */
typedef struct {
    PyObject_HEAD Node *node;
    PyObject *weak;
    long long at;
    Py_ssize_t opened;
    int flags;
    char reads, writes, appends;
} Description;

#define EACH_WORD(DO) DO(read) DO(write) DO(seek) DO(stat) DO(of) DO(root) DO(entries)
#define WORD(name) PyObject *word_##name;

/* The descriptors of a tree, by their numbers, and the nodes by their paths; what gives a number away; and what does the rest. */
typedef struct {
    PyObject_HEAD PyObject *tree, *acquire, *release, *numbers, *nodes, *kept, *rest, *node_type, *description_type;
    EACH_WORD(WORD)
    PyObject *word_metadata, *word_read_into, *word_close;
} Files;

#define EACH_OF_FILES(DO)                                                                                              \
    DO(tree) DO(acquire) DO(release) DO(numbers) DO(nodes) DO(kept) DO(rest) DO(node_type) DO(description_type)
#define EACH_NAME(DO) EACH_WORD(DO) DO(metadata) DO(read_into) DO(close)
#define VISIT(name) Py_VISIT(self->name);
#define CLEAR(name) Py_CLEAR(self->name);
#define CLEAR_WORD(name) Py_CLEAR(self->word_##name);

/* The flags of what is there and stays as it is; of all others the rest speaks. */
#define OF_WHAT_IS_THERE (O_ACCMODE | O_CLOEXEC | O_APPEND)

static void freed(PyObject *self) {
    PyTypeObject *type = Py_TYPE(self);
    ((freefunc)PyType_GetSlot(type, Py_tp_free))(self);
    Py_DECREF(type);
}

/* ---- Nodes */

static PyObject *node_made(PyObject *type, PyObject *path, int is_dir, PyObject *inode) {
    PyObject *data = PyByteArray_FromStringAndSize(NULL, 0);
    Node *self = data == NULL ? NULL : (Node *)PyType_GenericAlloc((PyTypeObject *)type, 0);
    if (self == NULL) {
        Py_XDECREF(data);
        return NULL;
    }
    self->path = Py_NewRef(path);
    self->inode = Py_NewRef(inode);
    self->data = data;
    self->is_dir = (char)is_dir;
    return (PyObject *)self;
}

static PyObject *node_new(PyTypeObject *type, PyObject *given, PyObject *named) {
    PyObject *path, *inode;
    int is_dir;
    (void)named;
    if (!PyArg_ParseTuple(given, "OpO", &path, &is_dir, &inode)) return NULL;
    return node_made((PyObject *)type, path, is_dir, inode);
}

static int node_traverse(Node *self, visitproc visit, void *arg) {
    Py_VISIT(Py_TYPE((PyObject *)self));
    Py_VISIT(self->path);
    Py_VISIT(self->inode);
    Py_VISIT(self->data);
    return 0;
}

static int node_clear(Node *self) {
    Py_CLEAR(self->path);
    Py_CLEAR(self->inode);
    Py_CLEAR(self->data);
    return 0;
}

static void node_dealloc(Node *self) {
    PyObject_GC_UnTrack(self);
    if (self->weak != NULL) PyObject_ClearWeakRefs((PyObject *)self);
    node_clear(self);
    freed((PyObject *)self);
}

static PyMemberDef node_members[] = { { "path", T_OBJECT, offsetof(Node, path), 0, NULL },
                                      { "is_dir", T_BOOL, offsetof(Node, is_dir), 0, NULL },
                                      { "inode", T_OBJECT, offsetof(Node, inode), 0, NULL },
                                      { "data", T_OBJECT, offsetof(Node, data), 0, NULL },
                                      { "opened", T_PYSSIZET, offsetof(Node, opened), 0, NULL },
                                      { "__weaklistoffset__", T_PYSSIZET, offsetof(Node, weak), READONLY, NULL },
                                      { NULL, 0, 0, 0, NULL } };

static PyType_Slot node_slots[] = { { Py_tp_new, node_new },
                                    { Py_tp_dealloc, node_dealloc },
                                    { Py_tp_traverse, node_traverse },
                                    { Py_tp_clear, node_clear },
                                    { Py_tp_members, node_members },
                                    { Py_tp_doc, "What a descriptor speaks of." },
                                    { 0, NULL } };

static PyType_Spec node_spec = { "atomfs._fast.Node", sizeof(Node), 0, Py_TPFLAGS_DEFAULT | Py_TPFLAGS_HAVE_GC,
                                 node_slots };

/* Nothing else has this destructor. */
static int is_node(PyObject *one) { return PyType_GetSlot(Py_TYPE(one), Py_tp_dealloc) == (void *)node_dealloc; }

/* ---- Descriptions */

static PyObject *description_made(PyObject *type, PyObject *node, int flags) {
    Description *self = (Description *)PyType_GenericAlloc((PyTypeObject *)type, 0);
    if (self == NULL) return NULL;
    int mode = flags & O_ACCMODE;
    self->node = (Node *)Py_NewRef(node);
    self->flags = flags;
    self->reads = mode != O_WRONLY;
    self->writes = mode != O_RDONLY;
    self->appends = (flags & O_APPEND) != 0;
    return (PyObject *)self;
}

static PyObject *description_new(PyTypeObject *type, PyObject *given, PyObject *named) {
    PyObject *node;
    int flags;
    (void)named;
    if (!PyArg_ParseTuple(given, "Oi", &node, &flags)) return NULL;
    if (!is_node(node)) {
        PyErr_SetString(PyExc_TypeError, "a node is taken");
        return NULL;
    }
    return description_made((PyObject *)type, node, flags);
}

static int description_traverse(Description *self, visitproc visit, void *arg) {
    Py_VISIT(Py_TYPE((PyObject *)self));
    Py_VISIT(self->node);
    return 0;
}

static int description_clear(Description *self) {
    Py_CLEAR(self->node);
    return 0;
}

static void description_dealloc(Description *self) {
    PyObject_GC_UnTrack(self);
    if (self->weak != NULL) PyObject_ClearWeakRefs((PyObject *)self);
    description_clear(self);
    freed((PyObject *)self);
}

static PyMemberDef description_members[] = { { "node", T_OBJECT, offsetof(Description, node), READONLY, NULL },
                                             { "at", T_LONGLONG, offsetof(Description, at), 0, NULL },
                                             { "opened", T_PYSSIZET, offsetof(Description, opened), 0, NULL },
                                             { "flags", T_INT, offsetof(Description, flags), 0, NULL },
                                             { "reads", T_BOOL, offsetof(Description, reads), READONLY, NULL },
                                             { "writes", T_BOOL, offsetof(Description, writes), READONLY, NULL },
                                             { "appends", T_BOOL, offsetof(Description, appends), 0, NULL },
                                             { "__weaklistoffset__", T_PYSSIZET, offsetof(Description, weak), READONLY,
                                               NULL },
                                             { NULL, 0, 0, 0, NULL } };

static PyType_Slot description_slots[] = { { Py_tp_new, description_new },
                                           { Py_tp_dealloc, description_dealloc },
                                           { Py_tp_traverse, description_traverse },
                                           { Py_tp_clear, description_clear },
                                           { Py_tp_members, description_members },
                                           { Py_tp_doc, "A node that was opened, and a position in it." },
                                           { 0, NULL } };

static PyType_Spec description_spec = { "atomfs._fast.Description", sizeof(Description), 0,
                                        Py_TPFLAGS_DEFAULT | Py_TPFLAGS_HAVE_GC, description_slots };

/* ---- What is kept of a node */

/* What is kept of the node at a path, held, from what is kept of the root on; none, without an error, where nothing is, or of the other kind.
 * Of a directory its entries are an attribute of this name, and of a file that is none. */
static PyObject *kept_below(PyObject *root, PyObject *word, PyObject *path, int is_dir) {
    Py_ssize_t size;
    const char *at = PyUnicode_AsUTF8AndSize(path, &size), *end = at + size;
    PyObject *one = at == NULL ? NULL : Py_NewRef(root), *entries = NULL;
    if (one != NULL) entries = PyObject_GetAttr(one, word);
    while (entries != NULL && at < end) {
        const char *behind = memchr(at, '/', (size_t)(end - at));
        Py_ssize_t length = (behind == NULL ? end : behind) - at;
        if (length > 0) {
            PyObject *name = PyUnicode_FromStringAndSize(at, length);
            PyObject *below = name != NULL && PyDict_Check(entries) ? PyDict_GetItemWithError(entries, name) : NULL;
            Py_XDECREF(name);
            Py_XINCREF(below);
            Py_DECREF(one);
            Py_DECREF(entries);
            one = below;
            entries = one == NULL ? NULL : PyObject_GetAttr(one, word);
        }
        at += length + 1;
    }
    if (entries == NULL || (entries != Py_None) != is_dir) Py_CLEAR(one);
    Py_XDECREF(entries);
    PyErr_Clear();
    return one;
}

PyObject *atomfs_kept(PyObject *Py_UNUSED(module), PyObject *const *given, Py_ssize_t count) {
    if (count != 4 || !PyUnicode_Check(given[0]) || !PyUnicode_Check(given[2])) {
        PyErr_SetString(PyExc_TypeError,
                        "the name of an attribute, a root, a path, and whether it is of a directory are taken");
        return NULL;
    }
    int is_dir = PyObject_IsTrue(given[3]);
    PyObject *one = is_dir < 0 ? NULL : kept_below(given[1], given[0], given[2], is_dir);
    return is_dir < 0 ? NULL : one != NULL ? one : Py_NewRef(Py_None);
}

/* ---- Around a call */

static int enter(Files *self) {
    if (self->tree == NULL) {
        PyErr_SetString(PyExc_RuntimeError, "these descriptors are of no tree");
        return -1;
    }
    PyObject *done = PyObject_CallNoArgs(self->acquire);
    Py_XDECREF(done);
    return done == NULL ? -1 : 0;
}

/* Lets the tree's lock go, and hands the answer on, or the error that is set. */
static PyObject *leave(Files *self, PyObject *answer) {
    PyObject *type = NULL, *value = NULL, *trace = NULL;
    if (answer == NULL) PyErr_Fetch(&type, &value, &trace);
    PyObject *done = PyObject_CallNoArgs(self->release);
    if (done == NULL) {
        Py_XDECREF(type);
        Py_XDECREF(value);
        Py_XDECREF(trace);
        Py_XDECREF(answer);
        return NULL;
    }
    Py_DECREF(done);
    if (answer == NULL) PyErr_Restore(type, value, trace);
    return answer;
}

static int takes_two(Py_ssize_t given) {
    if (given == 2) return 1;
    PyErr_Format(PyExc_TypeError, "2 arguments are taken, and %zd are given", given);
    return 0;
}

/* The description of a number where it is one of a file with an entry, held; none, without an error, of any other. */
static Description *file_of(Files *self, PyObject *number) {
    PyObject *found = PyDict_GetItemWithError(self->numbers, number);
    if (found == NULL || PyType_GetSlot(Py_TYPE(found), Py_tp_dealloc) != (void *)description_dealloc) return NULL;
    Description *one = (Description *)found;
    if (one->node == NULL || one->node->is_dir || one->node->path == NULL || !PyUnicode_Check(one->node->path))
        return NULL;
    Py_INCREF(found);
    return one;
}

/* ---- Reads and writes: a number, and a buffer */

static PyObject *read_file(Files *self, Description *file, Py_buffer *room) {
    PyObject *at = PyLong_FromLongLong(file->at), *size = PyLong_FromSsize_t(room->len), *data = NULL, *count = NULL;
    PyObject *path = Py_NewRef(file->node->path);
    char *bytes;
    Py_ssize_t length;
    if (at != NULL && size != NULL)
        data = PyObject_CallMethodObjArgs(self->tree, self->word_read, path, at, size, NULL);
    if (data != NULL && PyBytes_AsStringAndSize(data, &bytes, &length) == 0) {
        /* It is never more than was asked for. */
        if (length > room->len) length = room->len;
        memcpy(room->buf, bytes, (size_t)length);
        file->at += length;
        count = PyLong_FromSsize_t(length);
    }
    Py_DECREF(path);
    Py_XDECREF(data);
    Py_XDECREF(size);
    Py_XDECREF(at);
    return count;
}

static PyObject *files_read_into(Files *self, PyObject *const *given, Py_ssize_t count) {
    Py_buffer room;
    if (!takes_two(count) || enter(self) < 0) return NULL;
    PyObject *answer = NULL;
    Description *file = file_of(self, given[0]);
    int rest = file == NULL || !file->reads || PyObject_GetBuffer(given[1], &room, PyBUF_WRITABLE) < 0;
    if (!rest) {
        answer = read_file(self, file, &room);
        PyBuffer_Release(&room);
    } else {
        PyErr_Clear();
        answer = PyObject_CallMethodObjArgs(self->rest, self->word_read_into, given[0], given[1], NULL);
    }
    Py_XDECREF((PyObject *)file);
    return leave(self, answer);
}

static PyObject *write_file(Files *self, Description *file, PyObject *data) {
    PyObject *at = PyLong_FromLongLong(file->at), *path = Py_NewRef(file->node->path), *count = NULL;
    if (at != NULL) count = PyObject_CallMethodObjArgs(self->tree, self->word_write, path, at, data, NULL);
    if (count != NULL) {
        long long wrote = PyLong_AsLongLong(count);
        if (wrote < 0 && PyErr_Occurred())
            Py_CLEAR(count);
        else
            file->at += wrote;
    }
    Py_DECREF(path);
    Py_XDECREF(at);
    return count;
}

static PyObject *files_write(Files *self, PyObject *const *given, Py_ssize_t count) {
    if (!takes_two(count)) return NULL;
    /* Of what is no bytes, and of no bytes, the rest speaks. */
    PyObject *data = PyObject_CheckBuffer(given[1]) ? PyBytes_FromObject(given[1]) : NULL, *answer;
    PyErr_Clear();
    if (enter(self) < 0) {
        Py_XDECREF(data);
        return NULL;
    }
    Description *file = data == NULL || PyBytes_Size(data) == 0 ? NULL : file_of(self, given[0]);
    if (file != NULL && file->writes && !file->appends) {
        answer = write_file(self, file, data);
    } else {
        PyErr_Clear();
        answer = PyObject_CallMethodObjArgs(self->rest, self->word_write, given[0], given[1], NULL);
    }
    Py_XDECREF((PyObject *)file);
    Py_XDECREF(data);
    return leave(self, answer);
}

/* A number, an offset, and from where that counts. */
static PyObject *files_seek(Files *self, PyObject *const *given, Py_ssize_t count) {
    if (count != 3) {
        PyErr_Format(PyExc_TypeError, "3 arguments are taken, and %zd are given", count);
        return NULL;
    }
    int known = PyLong_CheckExact(given[1]) && PyLong_CheckExact(given[2]), over = 0;
    long long offset = known ? PyLong_AsLongLongAndOverflow(given[1], &over) : 0, at = -1;
    long whence = known ? PyLong_AsLong(given[2]) : -1;
    PyErr_Clear();
    if (enter(self) < 0) return NULL;
    Description *file = file_of(self, given[0]);
    if (file != NULL && known && !over && whence == SEEK_SET) at = offset;
    if (file != NULL && known && !over && whence == SEEK_CUR && __builtin_add_overflow(file->at, offset, &at)) at = -1;
    PyObject *answer;
    if (at >= 0) {
        file->at = at;
        answer = PyLong_FromLongLong(at);
    } else {
        PyErr_Clear();
        answer = PyObject_CallMethodObjArgs(self->rest, self->word_seek, given[0], given[1], given[2], NULL);
    }
    Py_XDECREF((PyObject *)file);
    return leave(self, answer);
}

/* ---- Open and close */

/* The node at a path, held; none, without an error, where the rest is to find it. */
static PyObject *node_at(Files *self, PyObject *path, int is_dir) {
    PyObject *node = PyDict_GetItemWithError(self->nodes, path);
    if (node == NULL && PyErr_Occurred()) return NULL;
    if (node != NULL && is_node(node) && ((Node *)node)->is_dir == is_dir) return Py_NewRef(node);
    PyObject *metadata = PyObject_GetAttr(self->tree, self->word_metadata), *inode = NULL;
    node = NULL;
    PyObject *root = metadata == NULL || metadata == Py_None ? NULL : PyObject_GetAttr(metadata, self->word_root);
    if (root != NULL) inode = kept_below(root, self->word_entries, path, is_dir);
    Py_XDECREF(root);
    if (inode == NULL && metadata != NULL && metadata != Py_None)
        inode = PyObject_CallMethodObjArgs(metadata, self->word_of, path, is_dir ? Py_True : Py_False, NULL);
    if (inode != NULL) node = node_made(self->node_type, path, is_dir, inode);
    if (node != NULL && PyDict_SetItem(self->nodes, path, node) < 0) Py_CLEAR(node);
    Py_XDECREF(inode);
    Py_XDECREF(metadata);
    return node;
}

/* A new descriptor of what is at a path. */
static PyObject *opened(Files *self, PyObject *path, int is_dir, int flags) {
    PyObject *node = node_at(self, path, is_dir), *number = NULL;
    if (node == NULL) return PyErr_Occurred() ? NULL : Py_NewRef(Py_None);
    PyObject *description = description_made(self->description_type, node, flags);
    if (description != NULL) number = PyObject_CallNoArgs(self->kept);
    if (number != NULL && PyDict_SetItem(self->numbers, number, description) < 0) Py_CLEAR(number);
    if (number != NULL) {
        ((Node *)node)->opened += 1;
        ((Description *)description)->opened = 1;
    }
    Py_XDECREF(description);
    Py_DECREF(node);
    return number;
}

/* A path of the tree and flags: a new descriptor of what is there, or none where the rest is to open it. */
static PyObject *files_open_there(Files *self, PyObject *const *given, Py_ssize_t count) {
    if (!takes_two(count)) return NULL;
    long flags = PyLong_CheckExact(given[1]) ? PyLong_AsLong(given[1]) : -1;
    PyErr_Clear();
    if (!PyUnicode_CheckExact(given[0]) || (flags & ~(long)OF_WHAT_IS_THERE) != 0) Py_RETURN_NONE;
    if (enter(self) < 0) return NULL;
    PyObject *found = PyObject_CallMethodObjArgs(self->tree, self->word_stat, given[0], NULL), *answer = NULL;
    PyObject *kind = found == NULL || !PyTuple_Check(found) ? NULL : PyTuple_GetItem(found, 0);
    if (kind == Py_True && (flags & O_ACCMODE) != O_RDONLY) {
        errno = EISDIR;
        PyErr_SetFromErrnoWithFilenameObject(PyExc_OSError, given[0]);
    } else if (kind == Py_False || kind == Py_True)
        answer = opened(self, given[0], kind == Py_True, (int)flags);
    else if (found != NULL)
        answer = Py_NewRef(Py_None);
    Py_XDECREF(found);
    return leave(self, answer);
}

/* Nobody has a node open any more: it is forgotten where it has an entry. */
static int let_go(Files *self, Node *node) {
    node->opened -= 1;
    if (node->opened != 0 || node->path == NULL || !PyUnicode_Check(node->path)) return 0;
    PyObject *path = Py_NewRef(node->path), *there = PyDict_GetItemWithError(self->nodes, path);
    int done = there == (PyObject *)node           ? PyDict_DelItem(self->nodes, path)
               : there == NULL && PyErr_Occurred() ? -1
                                                   : 0;
    Py_DECREF(path);
    return done;
}

static PyObject *files_close(Files *self, PyObject *number) {
    if (enter(self) < 0) return NULL;
    PyObject *found = PyLong_CheckExact(number) ? PyDict_GetItemWithError(self->numbers, number) : NULL;
    if (found == NULL || PyType_GetSlot(Py_TYPE(found), Py_tp_dealloc) != (void *)description_dealloc) {
        PyErr_Clear();
        return leave(self, PyObject_CallMethodObjArgs(self->rest, self->word_close, number, NULL));
    }
    Description *one = (Description *)Py_NewRef(found);
    PyObject *node = one->node == NULL ? NULL : Py_NewRef((PyObject *)one->node);
    int failed = PyDict_DelItem(self->numbers, number) < 0;
    if (!failed) {
        /* As any other it is closed, whatever the system says. */
        close((int)PyLong_AsLong(number));
        one->opened -= 1;
        failed = one->opened == 0 && node != NULL && let_go(self, (Node *)node) < 0;
    }
    Py_XDECREF(node);
    Py_DECREF((PyObject *)one);
    return leave(self, failed ? NULL : Py_NewRef(Py_None));
}

/* ---- The type */

/* The tree, the two dictionaries, what gives a number away, what does the rest, and the types of nodes and descriptions. */
static PyObject *files_new(PyTypeObject *type, PyObject *given, PyObject *named) {
    PyObject *tree, *numbers, *nodes, *kept, *rest, *node_type, *description_type;
    (void)named;
    if (!PyArg_ParseTuple(given, "OO!O!OOOO", &tree, &PyDict_Type, &numbers, &PyDict_Type, &nodes, &kept, &rest,
                          &node_type, &description_type))
        return NULL;
    if (!PyType_Check(node_type) || !PyType_Check(description_type) ||
        PyType_GetSlot((PyTypeObject *)node_type, Py_tp_dealloc) != (void *)node_dealloc ||
        PyType_GetSlot((PyTypeObject *)description_type, Py_tp_dealloc) != (void *)description_dealloc) {
        PyErr_SetString(PyExc_TypeError, "the types of this module are taken");
        return NULL;
    }
    Files *self = (Files *)PyType_GenericAlloc(type, 0);
    if (self == NULL) return NULL;
    self->tree = Py_NewRef(tree);
    self->numbers = Py_NewRef(numbers);
    self->nodes = Py_NewRef(nodes);
    self->kept = Py_NewRef(kept);
    self->rest = Py_NewRef(rest);
    self->node_type = Py_NewRef(node_type);
    self->description_type = Py_NewRef(description_type);
    PyObject *lock = PyObject_GetAttrString(tree, "_door");
    int failed = lock == NULL || (self->acquire = PyObject_GetAttrString(lock, "acquire")) == NULL ||
                 (self->release = PyObject_GetAttrString(lock, "release")) == NULL ||
                 (self->word_metadata = PyUnicode_InternFromString("_metadata")) == NULL ||
                 (self->word_read_into = PyUnicode_InternFromString("read_into")) == NULL ||
                 (self->word_close = PyUnicode_InternFromString("close")) == NULL;
#define INTERN(name) failed = failed || (self->word_##name = PyUnicode_InternFromString(#name)) == NULL;
    EACH_WORD(INTERN)
    Py_XDECREF(lock);
    if (failed) Py_CLEAR(self);
    return (PyObject *)self;
}

static int files_traverse(Files *self, visitproc visit, void *arg) {
    Py_VISIT(Py_TYPE((PyObject *)self));
    EACH_OF_FILES(VISIT)
    return 0;
}

static int files_clear(Files *self) {
    EACH_OF_FILES(CLEAR)
    EACH_NAME(CLEAR_WORD)
    return 0;
}

static void files_dealloc(Files *self) {
    PyObject_GC_UnTrack(self);
    files_clear(self);
    freed((PyObject *)self);
}

#define METHOD(name) { #name, (PyCFunction)(void (*)(void))files_##name, METH_FASTCALL, NULL },

static PyMethodDef files_methods[] = { METHOD(read_into) METHOD(write) METHOD(seek) METHOD(open_there){
                                           "close", (PyCFunction)(void (*)(void))files_close, METH_O, NULL },
                                       { NULL, NULL, 0, NULL } };

static PyType_Slot files_slots[] = { { Py_tp_new, files_new },
                                     { Py_tp_dealloc, files_dealloc },
                                     { Py_tp_traverse, files_traverse },
                                     { Py_tp_clear, files_clear },
                                     { Py_tp_methods, files_methods },
                                     { Py_tp_doc,
                                       "The descriptors of a tree, as far as they are of files with an entry." },
                                     { 0, NULL } };

static PyType_Spec files_spec = { "atomfs._fast.Files", sizeof(Files), 0, Py_TPFLAGS_DEFAULT | Py_TPFLAGS_HAVE_GC,
                                  files_slots };

int atomfs_add_files(PyObject *module) {
    PyType_Spec *specs[] = { &node_spec, &description_spec, &files_spec };
    return atomfs_add_types(module, specs, 3);
}
