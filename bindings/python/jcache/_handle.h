/* A handle of the extension with its lock, and how its methods take their arguments. */
#define PY_SSIZE_T_CLEAN
#include <Python.h>
#include "jcache.h"

/* The longest row of a walk has 65,609 bytes. */
enum { ROOM = 1 << 17 };

typedef struct {
    PyObject_HEAD struct jc_manager manager;
    PyThread_type_lock lock;
    uint8_t *room; /* what is read lies here while the lock is held */
} Handle;

struct text {
    const uint8_t *at;
    size_t len;
};

/* The arguments of a call: a cache's id, a moment, other numbers, texts. */
struct taken {
    uint64_t number[7];
    struct text text[3];
};

/* Holds the lock, under which no object is made that the collector knows of: it may run a finalizer that calls. */
static void hold(Handle *self) {
    if (PyThread_acquire_lock(self->lock, NOWAIT_LOCK))
        return;
    Py_BEGIN_ALLOW_THREADS PyThread_acquire_lock(self->lock, WAIT_LOCK);
    Py_END_ALLOW_THREADS
}

static void let_go(Handle *self) { PyThread_release_lock(self->lock); }

static int take_number(PyObject *from, uint64_t most, uint64_t *to) {
    *to = PyLong_AsUnsignedLongLong(from);
    if (*to == UINT64_MAX && PyErr_Occurred())
        return 0;
    if (*to > most)
        PyErr_SetString(PyExc_OverflowError, "a number is out of range");
    return *to <= most;
}

static int take_text(PyObject *from, struct text *to) {
    Py_ssize_t len;
    to->at = (const uint8_t *)PyUnicode_AsUTF8AndSize(from, &len);
    to->len = (size_t)len;
    return to->at != NULL;
}

static int take_bytes(PyObject *from, struct text *to) {
    if (!PyBytes_Check(from)) {
        PyErr_Format(PyExc_TypeError, "a value is bytes, not %s", Py_TYPE(from)->tp_name);
        return 0;
    }
    to->at = (const uint8_t *)PyBytes_AS_STRING(from);
    to->len = (size_t)PyBytes_GET_SIZE(from);
    return 1;
}

/* Takes arguments by a letter each: i a number of 32 bits, n of 64, b of 8, s a str, v bytes. Whether they are such. */
static int take(struct taken *to, const char *shape, PyObject *const *from, Py_ssize_t count) {
    size_t numbers = 0, texts = 0;
    if (count != (Py_ssize_t)strlen(shape)) {
        PyErr_Format(PyExc_TypeError, "%zu arguments are wanted", strlen(shape));
        return 0;
    }
    for (Py_ssize_t k = 0; k < count; k++) {
        int is_taken;
        if (shape[k] == 's')
            is_taken = take_text(from[k], &to->text[texts++]);
        else if (shape[k] == 'v')
            is_taken = take_bytes(from[k], &to->text[texts++]);
        else
            is_taken = take_number(from[k], shape[k] == 'n' ? UINT64_MAX : shape[k] == 'i' ? UINT32_MAX : UINT8_MAX,
                                   &to->number[numbers++]);
        if (!is_taken)
            return 0;
    }
    return 1;
}
