/* What the files of the extension have in common: Python by its stable ABI, and what one adds to the module of the other. */
#ifndef ATOMFS_FAST_H
#define ATOMFS_FAST_H

#ifndef Py_LIMITED_API
#define Py_LIMITED_API 0x030B0000
#endif
#define PY_SSIZE_T_CLEAN
#include <Python.h>
#include <structmember.h>

/* Adds so many types. */
int atomfs_add_types(PyObject *module, PyType_Spec **specs, int count);
/* Adds those of `_door.c`, and those of `_files.c`. */
int atomfs_add_door(PyObject *module);
int atomfs_add_files(PyObject *module);
/* A function of the module. */
PyObject *atomfs_kept(PyObject *module, PyObject *const *given, Py_ssize_t count);

#endif
