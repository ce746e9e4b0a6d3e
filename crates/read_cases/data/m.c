#include "cyc_set.h"
static PyObject *cyc_m;
static PyObject *cyc_d;
static PyObject *cyc_b;
static int cyc_r;
PyObject *cyc_f_0_0(PyObject *p0, PyObject *p1)
{
    PyObject *r = NULL;
    PyObject *t0 = NULL;
    t0 = PyNumber_Add(p0, p1);
    if (t0 == NULL) goto L0;
    r = t0;
L0:
    return r;
}
static PyObject *cyc_w_0_0(PyObject *self, PyObject *const *args, Py_ssize_t nargs)
{
    PyObject *r = NULL;
    if (nargs != 2) goto L0;
    r = cyc_f_0_0(args[0], args[1]);
    return r;
L0:
    PyErr_SetString(PyExc_TypeError, "f() takes 2 arguments");
    return r;
}
static PyMethodDef cyc_md[] = {
    {"f", (PyCFunction)(void (*)(void))cyc_w_0_0, METH_FASTCALL, NULL},
    {NULL, NULL, 0, NULL}
};
static struct PyModuleDef cyc_def = { PyModuleDef_HEAD_INIT, "m", NULL, -1, cyc_md };
PyMODINIT_FUNC PyInit_m(void)
{
    PyObject *r = NULL;
    PyObject *t0 = NULL;
    PyObject *t1 = NULL;
    t0 = PyModule_Create(&cyc_def);
    if (t0 == NULL) goto L0;
    cyc_m = t0;
    t0 = PyModule_GetDict(cyc_m);
    Py_INCREF(t0);
    cyc_d = t0;
    t0 = PyImport_ImportModule("builtins");
    if (t0 == NULL) goto L0;
    t1 = PyModule_GetDict(t0);
    Py_INCREF(t1);
    cyc_b = t1;
    Py_DECREF(t0);
    cyc_r = 1;
    Py_INCREF(cyc_m);
    r = cyc_m;
L0:
    return r;
}
