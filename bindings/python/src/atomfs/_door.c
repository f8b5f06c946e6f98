/* The functions that a patch puts in the place of those of the disk, in C: as `_Replaced` and what it is made of in `_patch.py`, for the
 * calls that are made often.
 *
 * A path that leads to the disk for certain, and a descriptor of the disk, go to the real function as they were given. A path that leads into
 * the tree for certain, as `Places.plain` has it, goes to the function over the tree. All else is left to the function in Python. */
#include "_fast.h"

#include <stddef.h>
#include <string.h>

/* What a function takes: nothing that is looked at, one path, two, a descriptor, or what `open` takes. */
enum { OTHER, PATH, PATHS, DESCRIPTOR, OPEN };

/* Where a path leads, as far as it is said here. */
enum { FAILED = -1, UNKNOWN, OUTSIDE, INSIDE };

/* What all functions of a patch have: the patch, the descriptors and the places of it, the type of a place, the paths at which the tree is,
 * their last name, and whether anything of the disk is there, which may be what a link leads to. */
#define EACH_WORD(DO)                                                                                                  \
    DO(active, "_active")                                                                                              \
    DO(tree, "tree")                                                                                                   \
    DO(metadata, "_metadata")                                                                                          \
    DO(links, "links")                                                                                                 \
    DO(working, "working")                                                                                             \
    DO(numbers, "_of")                                                                                                 \
    DO(filename, "filename")                                                                                           \
    DO(filename2, "filename2") DO(opener, "opener") DO(directory, "dir_fd") DO(outside, "outside")
#define WORD(name, text) PyObject *word_##name;

typedef struct {
    PyObject_HEAD PyObject *patch, *files, *places, *place, *roots, *name;
    EACH_WORD(WORD)
    int shadows;
} Door;

typedef struct {
    PyObject_HEAD Door *door;
    /* The function in Python, that of the disk, and that over the tree. */
    PyObject *made, *real, *inside;
    PyObject *dict, *weak;
    int kind, pathless;
} Function;

/* ---- What is asked of objects of Python */

/* Whether an attribute is true; -1 where there is an error. */
static int is_true(PyObject *of, PyObject *word) {
    PyObject *value = PyObject_GetAttr(of, word);
    int is = value == NULL ? -1 : PyObject_IsTrue(value);
    Py_XDECREF(value);
    return is;
}

/* Whether the tree has symbolic links: through one of these a path leads elsewhere. */
static int has_links(Door *door) {
    PyObject *tree = PyObject_GetAttr(door->patch, door->word_tree), *metadata = NULL;
    int has = -1;
    if (tree != NULL && (metadata = PyObject_GetAttr(tree, door->word_metadata)) != NULL)
        has = metadata == Py_None ? 1 : is_true(metadata, door->word_links);
    Py_XDECREF(metadata);
    Py_XDECREF(tree);
    return has;
}

/* Whether the working directory is one of the tree. */
static int works_inside(Door *door) {
    PyObject *working = PyObject_GetAttr(door->files, door->word_working);
    int inside = working == NULL ? -1 : working != Py_None;
    Py_XDECREF(working);
    return inside;
}

/* ---- Where a path leads */

/* The path as a string; none, without an error, of what is no path, or is one by whose own words. */
static PyObject *text_of(PyObject *given) {
    if (PyUnicode_CheckExact(given)) return Py_NewRef(given);
    if (PyLong_Check(given) || given == Py_None) return NULL;
    PyObject *path = PyOS_FSPath(given), *text = NULL;
    if (path != NULL && PyUnicode_Check(path)) return path;
    char *bytes;
    Py_ssize_t size;
    if (path != NULL && PyBytes_AsStringAndSize(path, &bytes, &size) == 0)
        text = PyUnicode_DecodeFSDefaultAndSize(bytes, size);
    Py_XDECREF(path);
    PyErr_Clear();
    return text;
}

/* Whether what is behind the path of the tree is empty or one plain name behind the other, each after one slash. */
static int is_plain(const char *rest, Py_ssize_t size) {
    if (size == 0) return 1;
    if (rest[size - 1] == '/' || memchr(rest, 0, (size_t)size) != NULL) return 0;
    for (const char *at = rest, *end = rest + size; at < end; at++) {
        if (*at != '/') continue;
        /* Behind the last slash there is something. */
        const char *name = at + 1, *behind = memchr(name, '/', (size_t)(end - name));
        Py_ssize_t length = (behind == NULL ? end : behind) - name;
        if (length == 0 || (name[0] == '.' && (length == 1 || (length == 2 && name[1] == '.')))) return 0;
    }
    return 1;
}

/* The path in the tree of a plain one below one of its roots; none, without an error, of any other. */
static PyObject *below_root(Door *door, PyObject *text) {
    Py_ssize_t size, root_size;
    const char *at = PyUnicode_AsUTF8AndSize(text, &size);
    for (Py_ssize_t place = 0; at != NULL && place < PyTuple_Size(door->roots); place++) {
        PyObject *root = PyTuple_GetItem(door->roots, place);
        const char *start = PyUnicode_AsUTF8AndSize(root, &root_size);
        if (start == NULL) break;
        if (size < root_size || memcmp(at, start, (size_t)root_size) != 0) continue;
        if (size > root_size && at[root_size] != '/') continue;
        if (!is_plain(at + root_size, size - root_size)) return NULL;
        if (size == root_size) return PyUnicode_FromString("/");
        return PyUnicode_Substring(text, PyUnicode_GetLength(root), PyUnicode_GetLength(text));
    }
    PyErr_Clear();
    return NULL;
}

/* Where a path leads that is given without a directory: of one inside, the place. */
static int leads(Door *door, PyObject *given, PyObject **place) {
    PyObject *text = text_of(given);
    if (text == NULL) return UNKNOWN;
    int to = UNKNOWN, named = PyUnicode_Contains(text, door->name);
    int absolute = PyUnicode_GetLength(text) > 0 && PyUnicode_ReadChar(text, 0) == '/';
    if (named == 0 && PyUnicode_GetLength(text) > 0) {
        int elsewhere = door->shadows ? 1 : absolute ? 0 : works_inside(door);
        to = elsewhere < 0 ? FAILED : elsewhere ? UNKNOWN : OUTSIDE;
    } else if (named > 0 && absolute) {
        PyObject *inside = below_root(door, text);
        int linked = inside == NULL ? 1 : has_links(door);
        if (linked == 0) {
            *place = PyType_GenericAlloc((PyTypeObject *)door->place, 5);
            if (*place == NULL || PyTuple_SetItem(*place, 0, Py_NewRef(inside)) < 0 ||
                PyTuple_SetItem(*place, 1, Py_NewRef(given)) < 0 ||
                PyTuple_SetItem(*place, 2, Py_NewRef(Py_False)) < 0 ||
                PyTuple_SetItem(*place, 3, Py_NewRef(Py_False)) < 0 ||
                PyTuple_SetItem(*place, 4, PyUnicode_FromStringAndSize(NULL, 0)) < 0)
                Py_CLEAR(*place);
        }
        to = linked < 0 || (linked == 0 && *place == NULL) ? FAILED : linked ? UNKNOWN : INSIDE;
        Py_XDECREF(inside);
    } else if (named < 0) {
        to = FAILED;
    }
    Py_DECREF(text);
    return to;
}

/* ---- The calls */

/* Lets an error of the system name the paths as they were given. */
static void name_paths(Door *door, PyObject *path, PyObject *other) {
    PyObject *type, *value, *trace, *words[] = { path, other };
    PyObject *fields[] = { door->word_filename, door->word_filename2 };
    if (!PyErr_ExceptionMatches(PyExc_OSError)) return;
    PyErr_Fetch(&type, &value, &trace);
    PyErr_NormalizeException(&type, &value, &trace);
    for (int at = 0; at < 2 && words[at] != NULL; at++) {
        PyObject *said =
            PyObject_HasAttrString(words[at], "__fspath__") ? PyOS_FSPath(words[at]) : Py_NewRef(words[at]);
        if (said == NULL || PyObject_SetAttr(value, fields[at], said) < 0) PyErr_Clear();
        Py_XDECREF(said);
    }
    PyErr_Restore(type, value, trace);
}

/* The arguments behind so many, with others in front. */
static PyObject *behind(PyObject *given, Py_ssize_t from, PyObject *first, PyObject *second) {
    Py_ssize_t in_front = second == NULL ? 1 : 2, size = PyTuple_Size(given) - from;
    PyObject *made = PyTuple_New(in_front + size);
    if (made == NULL) return NULL;
    int failed = PyTuple_SetItem(made, 0, Py_NewRef(first)) < 0;
    failed = failed || (second != NULL && PyTuple_SetItem(made, 1, Py_NewRef(second)) < 0);
    for (Py_ssize_t at = 0; !failed && at < size; at++)
        failed = PyTuple_SetItem(made, in_front + at, Py_NewRef(PyTuple_GetItem(given, from + at))) < 0;
    if (failed) Py_CLEAR(made);
    return made;
}

static int has(PyObject *named, PyObject *word) { return named == NULL ? 0 : PyDict_Contains(named, word); }

/* One path first: it may lead from a directory only where it is given without one. `open` takes the path too, and another way to open it
 * leaves the choice to that. */
static PyObject *on_path(Function *self, PyObject *given, PyObject *named) {
    PyObject *place = NULL, *path = PyTuple_GetItem(given, 0);
    int opens = self->kind == OPEN, other = has(named, opens ? self->door->word_opener : self->door->word_directory);
    int to = other < 0 || other ? (other < 0 ? FAILED : UNKNOWN) : leads(self->door, path, &place);
    if (to == FAILED) return NULL;
    if (opens && PyTuple_Size(given) > 7) to = UNKNOWN;
    if (to != INSIDE) {
        Py_XDECREF(place);
        return PyObject_Call(to == OUTSIDE ? self->real : self->made, given, named);
    }
    PyObject *words = behind(given, 1, place, opens ? path : NULL);
    PyObject *answer = words == NULL ? NULL : PyObject_Call(self->inside, words, named);
    if (answer == NULL) name_paths(self->door, self->pathless ? Py_None : path, NULL);
    Py_XDECREF(words);
    Py_DECREF(place);
    return answer;
}

static PyObject *on_paths(Function *self, PyObject *given, PyObject *named) {
    PyObject *one = NULL, *other = NULL, *answer = NULL;
    PyObject *path = PyTuple_GetItem(given, 0), *aim = PyTuple_GetItem(given, 1);
    int from = named != NULL ? UNKNOWN : leads(self->door, path, &one);
    int to = from <= UNKNOWN ? from : leads(self->door, aim, &other);
    if (from == INSIDE && to == INSIDE) {
        answer = PyObject_CallFunctionObjArgs(self->inside, one, other, NULL);
        if (answer == NULL) name_paths(self->door, path, aim);
    } else if (from != FAILED && to != FAILED) {
        answer = PyObject_Call(from == OUTSIDE && to == OUTSIDE ? self->real : self->made, given, named);
    }
    Py_XDECREF(one);
    Py_XDECREF(other);
    return answer;
}

/* An error names a path of the tree: it is said where that is on the disk. */
static void name_outside(Door *door) {
    PyObject *type, *value, *trace;
    if (!PyErr_ExceptionMatches(PyExc_OSError)) return;
    PyErr_Fetch(&type, &value, &trace);
    PyErr_NormalizeException(&type, &value, &trace);
    PyObject *said = PyObject_GetAttr(value, door->word_filename), *whole = NULL;
    if (said != NULL && PyUnicode_Check(said))
        whole = PyObject_CallMethodObjArgs(door->places, door->word_outside, said, NULL);
    if (whole != NULL) PyObject_SetAttr(value, door->word_filename, whole);
    PyErr_Clear();
    Py_XDECREF(whole);
    Py_XDECREF(said);
    PyErr_Restore(type, value, trace);
}

static PyObject *on_descriptor(Function *self, PyObject *given, PyObject *named) {
    PyObject *number = PyTuple_GetItem(given, 0);
    if (!PyLong_CheckExact(number)) return PyObject_Call(self->made, given, named);
    PyObject *numbers = PyObject_GetAttr(self->door->files, self->door->word_numbers);
    int in_tree = numbers == NULL ? -1 : PyDict_Contains(numbers, number);
    Py_XDECREF(numbers);
    if (in_tree < 0) return NULL;
    PyObject *answer = PyObject_Call(in_tree ? self->inside : self->real, given, named);
    if (answer == NULL && in_tree) name_outside(self->door);
    return answer;
}

static PyObject *function_call(Function *self, PyObject *given, PyObject *named) {
    if (self->door == NULL || self->door->patch == NULL) {
        PyErr_SetString(PyExc_RuntimeError, "this function is of no patch");
        return NULL;
    }
    int active = is_true(self->door->patch, self->door->word_active);
    if (active < 0) return NULL;
    if (!active) return PyObject_Call(self->real, given, named);
    Py_ssize_t count = PyTuple_Size(given);
    if ((self->kind == PATH || self->kind == OPEN) && count > 0) return on_path(self, given, named);
    if (self->kind == PATHS && count == 2) return on_paths(self, given, named);
    if (self->kind == DESCRIPTOR && count > 0) return on_descriptor(self, given, named);
    return PyObject_Call(self->made, given, named);
}

/* ---- The types */

/* The patch, its descriptors, its places, the type of a place, the roots, their last name, and whether something is there. */
static PyObject *door_new(PyTypeObject *type, PyObject *given, PyObject *named) {
    PyObject *patch, *files, *places, *place, *roots, *name;
    int shadows;
    (void)named;
    if (!PyArg_ParseTuple(given, "OOOOO!Up", &patch, &files, &places, &place, &PyTuple_Type, &roots, &name, &shadows))
        return NULL;
    if (!PyType_Check(place) || !PyType_IsSubtype((PyTypeObject *)place, &PyTuple_Type)) {
        PyErr_SetString(PyExc_TypeError, "a place is a named tuple");
        return NULL;
    }
    Door *self = (Door *)PyType_GenericAlloc(type, 0);
    if (self == NULL) return NULL;
    self->patch = Py_NewRef(patch);
    self->files = Py_NewRef(files);
    self->places = Py_NewRef(places);
    self->place = Py_NewRef(place);
    self->roots = Py_NewRef(roots);
    self->name = Py_NewRef(name);
    self->shadows = shadows;
#define INTERN(name, text) failed = failed || (self->word_##name = PyUnicode_InternFromString(text)) == NULL;
    int failed = 0;
    EACH_WORD(INTERN)
    if (failed) Py_CLEAR(self);
    return (PyObject *)self;
}

#define EACH_OF_DOOR(DO) DO(patch) DO(files) DO(places) DO(place) DO(roots) DO(name)
#define VISIT(name) Py_VISIT(self->name);
#define CLEAR(name) Py_CLEAR(self->name);
#define CLEAR_WORD(name, text) Py_CLEAR(self->word_##name);

static int door_traverse(Door *self, visitproc visit, void *arg) {
    Py_VISIT(Py_TYPE((PyObject *)self));
    EACH_OF_DOOR(VISIT)
    return 0;
}

static int door_clear(Door *self) {
    EACH_OF_DOOR(CLEAR)
    EACH_WORD(CLEAR_WORD)
    return 0;
}

static void freed(PyObject *self) {
    PyTypeObject *type = Py_TYPE(self);
    ((freefunc)PyType_GetSlot(type, Py_tp_free))(self);
    Py_DECREF(type);
}

static void door_dealloc(Door *self) {
    PyObject_GC_UnTrack(self);
    door_clear(self);
    freed((PyObject *)self);
}

static PyType_Slot door_slots[] = { { Py_tp_new, door_new },
                                    { Py_tp_dealloc, door_dealloc },
                                    { Py_tp_traverse, door_traverse },
                                    { Py_tp_clear, door_clear },
                                    { Py_tp_doc, "What the functions of a patch have in common." },
                                    { 0, NULL } };

static PyType_Spec door_spec = { "atomfs._fast.Door", sizeof(Door), 0, Py_TPFLAGS_DEFAULT | Py_TPFLAGS_HAVE_GC,
                                 door_slots };

/* The door, the kind, the function in Python, that of the disk, that over the tree, and whether an error names no path. */
static PyObject *function_new(PyTypeObject *type, PyObject *given, PyObject *named) {
    PyObject *door, *made, *real, *inside;
    int kind, pathless;
    (void)named;
    if (!PyArg_ParseTuple(given, "OiOOOp", &door, &kind, &made, &real, &inside, &pathless)) return NULL;
    /* Nothing else has this destructor. */
    if (PyType_GetSlot(Py_TYPE(door), Py_tp_dealloc) != (void *)door_dealloc || kind < OTHER || kind > OPEN) {
        PyErr_SetString(PyExc_TypeError, "a door and a kind are taken");
        return NULL;
    }
    Function *self = (Function *)PyType_GenericAlloc(type, 0);
    if (self == NULL) return NULL;
    self->door = (Door *)Py_NewRef(door);
    self->made = Py_NewRef(made);
    self->real = Py_NewRef(real);
    self->inside = Py_NewRef(inside);
    self->kind = kind;
    self->pathless = pathless;
    return (PyObject *)self;
}

#define EACH_OF_FUNCTION(DO) DO(door) DO(made) DO(real) DO(inside) DO(dict)

static int function_traverse(Function *self, visitproc visit, void *arg) {
    Py_VISIT(Py_TYPE((PyObject *)self));
    EACH_OF_FUNCTION(VISIT)
    return 0;
}

static int function_clear(Function *self) {
    EACH_OF_FUNCTION(CLEAR)
    return 0;
}

static void function_dealloc(Function *self) {
    PyObject_GC_UnTrack(self);
    if (self->weak != NULL) PyObject_ClearWeakRefs((PyObject *)self);
    function_clear(self);
    freed((PyObject *)self);
}

static PyObject *function_repr(Function *self) {
    return self->real == NULL ? PyUnicode_FromString("<no function>") : PyObject_Repr(self->real);
}

/* A copy is the same, and a pickle names it, as of any function. */
static PyObject *function_reduce(PyObject *self, PyObject *Py_UNUSED(none)) {
    return PyObject_GetAttrString(self, "__qualname__");
}

static PyMethodDef function_methods[] = { { "__reduce__", function_reduce, METH_NOARGS, NULL },
                                          { NULL, NULL, 0, NULL } };

static PyMemberDef function_members[] = { { "__dictoffset__", T_PYSSIZET, offsetof(Function, dict), READONLY, NULL },
                                          { "__weaklistoffset__", T_PYSSIZET, offsetof(Function, weak), READONLY,
                                            NULL },
                                          { NULL, 0, 0, 0, NULL } };

static PyGetSetDef function_dict[] = { { "__dict__", PyObject_GenericGetDict, PyObject_GenericSetDict, NULL, NULL },
                                       { NULL, NULL, NULL, NULL, NULL } };

static PyType_Slot function_slots[] = { { Py_tp_new, function_new },
                                        { Py_tp_dealloc, function_dealloc },
                                        { Py_tp_traverse, function_traverse },
                                        { Py_tp_clear, function_clear },
                                        { Py_tp_call, function_call },
                                        { Py_tp_repr, function_repr },
                                        { Py_tp_methods, function_methods },
                                        { Py_tp_members, function_members },
                                        { Py_tp_getset, function_dict },
                                        { Py_tp_doc, "A function in the place of one of the disk." },
                                        { 0, NULL } };

static PyType_Spec function_spec = { "atomfs._fast.Function", sizeof(Function), 0,
                                     Py_TPFLAGS_DEFAULT | Py_TPFLAGS_HAVE_GC, function_slots };

int atomfs_add_door(PyObject *module) {
    PyType_Spec *specs[] = { &door_spec, &function_spec };
    return atomfs_add_types(module, specs, 2);
}
