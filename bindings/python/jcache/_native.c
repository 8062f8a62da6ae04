/* The functions of jcache.h for _calls.py, which says what each takes and gives. A handle's lock is held for each call. The
 * interpreter's lock is let go where a call may take long: all but those that look one key up or answer a request. */
#include "_handle.h"

/* A method that gives a call's status. The call sees its arguments as ID, NOW, N(k), and texts as K(0), K(1), .. */
#define ID (uint32_t)it.number[0]
#define NOW it.number[1]
#define K(k) it.text[k].at, it.text[k].len
#define M &self->manager
#define BRIEF(name, shape, call)                                                                                      \
    static PyObject *do_##name(Handle *self, PyObject *const *arguments, Py_ssize_t count) {                          \
        struct taken it;                                                                                              \
        if (!take(&it, shape, arguments, count))                                                                      \
            return NULL;                                                                                              \
        hold(self);                                                                                                   \
        jc_status status = call;                                                                                      \
        let_go(self);                                                                                                 \
        return PyLong_FromUnsignedLong(status);                                                                       \
    }
#define LONG(name, shape, call)                                                                                       \
    static PyObject *do_##name(Handle *self, PyObject *const *arguments, Py_ssize_t count) {                          \
        struct taken it;                                                                                              \
        jc_status status;                                                                                             \
        if (!take(&it, shape, arguments, count))                                                                      \
            return NULL;                                                                                              \
        hold(self);                                                                                                   \
        Py_BEGIN_ALLOW_THREADS status = call;                                                                         \
        let_go(self);                                                                                                 \
        Py_END_ALLOW_THREADS return PyLong_FromUnsignedLong(status);                                                  \
    }
#define LENGTHS (const uint32_t *)(const void *)it.text[0].at, it.text[0].len / 4, K(1)
#define PAIR_LENGTHS (const struct jc_pair_lengths *)(const void *)it.text[0].at, it.text[0].len / 8, K(1)

BRIEF(open, "n", jc_open(M, it.number[0]))
LONG(close, "", jc_close(M))
LONG(destroy, "i", jc_destroy(M, ID))
BRIEF(contains, "ins", jc_contains(M, ID, NOW, K(0)))
LONG(remove, "ins", jc_remove(M, ID, NOW, K(0)))
LONG(get_and_remove, "ins", jc_get_and_remove(M, ID, NOW, K(0)))
LONG(put, "insv", jc_put(M, ID, NOW, K(0), K(1)))
LONG(get_and_put, "insv", jc_get_and_put(M, ID, NOW, K(0), K(1)))
LONG(put_if_absent, "insv", jc_put_if_absent(M, ID, NOW, K(0), K(1)))
LONG(replace, "insv", jc_replace(M, ID, NOW, K(0), K(1)))
LONG(get_and_replace, "insv", jc_get_and_replace(M, ID, NOW, K(0), K(1)))
LONG(remove_if, "insv", jc_remove_if(M, ID, NOW, K(0), K(1)))
LONG(replace_if, "insvv", jc_replace_if(M, ID, NOW, K(0), K(1), K(2)))
LONG(invoke, "insb", jc_invoke(M, ID, NOW, K(0), (uint8_t)it.number[2], JC_EMPTY))
LONG(get_all, "invv", jc_get_all(M, ID, NOW, LENGTHS))
LONG(put_all, "invv", jc_put_all(M, ID, NOW, PAIR_LENGTHS))
LONG(remove_keys, "invv", jc_remove_keys(M, ID, NOW, LENGTHS))
LONG(load_all, "invvb", jc_load_all(M, ID, NOW, LENGTHS, (uint32_t)it.number[2]))
LONG(invoke_all, "invvb", jc_invoke_all(M, ID, NOW, LENGTHS, (uint8_t)it.number[2], JC_EMPTY))
LONG(remove_all, "in", jc_remove_all(M, ID, NOW))
LONG(clear, "in", jc_clear(M, ID, NOW))
LONG(entries, "in", jc_entries(M, ID, NOW))
BRIEF(stats, "in", jc_stats(M, ID, NOW))
BRIEF(clear_stats, "in", jc_clear_stats(M, ID, NOW))
LONG(loaded, "iv", jc_loaded(M, ID, K(0)))
LONG(loaded_nothing, "i", jc_loaded_nothing(M, ID))
LONG(load_failed, "i", jc_load_failed(M, ID))
LONG(written, "i", jc_written(M, ID))
LONG(write_failed, "i", jc_write_failed(M, ID))
LONG(processed, "iiv", jc_processed(M, ID, (uint32_t)it.number[1], K(0), 0, JC_EMPTY))
LONG(process_failed, "i", jc_process_failed(M, ID))
LONG(told, "i", jc_told(M, ID))
LONG(give_up, "i", jc_give_up(M, ID))

static PyObject *none(void) { Py_RETURN_NONE; }

static PyObject *number_of(jc_status status) { return PyLong_FromUnsignedLong(status); }

static PyObject *bytes_of(const Handle *self, size_t len) {
    return PyBytes_FromStringAndSize((const char *)self->room, (Py_ssize_t)len);
}

/* Reads into the handle's room, where the lock is held. */
#define OUT self->room, (size_t)ROOM, &len

static PyObject *do_open_secret(Handle *self, PyObject *const *arguments, Py_ssize_t count) {
    struct taken it;
    if (!take(&it, "v", arguments, count))
        return NULL;
    if (it.text[0].len != 16) {
        PyErr_SetString(PyExc_ValueError, "a secret has 16 bytes");
        return NULL;
    }
    hold(self);
    jc_status status = jc_open_secret(M, it.text[0].at);
    let_go(self);
    return number_of(status);
}

static PyObject *do_create(Handle *self, PyObject *const *arguments, Py_ssize_t count) {
    struct taken it;
    if (!take(&it, "siinbbbiv", arguments, count))
        return NULL;
    struct jc_settings settings = {.duration = it.number[2], .capacity = (uint32_t)it.number[0],
                                   .policy = (uint32_t)it.number[1], .loader = (uint8_t)it.number[3],
                                   .writer = (uint8_t)it.number[4], .listeners = (uint8_t)it.number[5],
                                   .max_value = (uint32_t)it.number[6]};
    uint32_t id = 0;
    jc_status status;
    hold(self);
    Py_BEGIN_ALLOW_THREADS status = jc_create(M, K(0), &settings, K(1), &id);
    let_go(self);
    Py_END_ALLOW_THREADS return Py_BuildValue("(II)", status, id);
}

static PyObject *do_find(Handle *self, PyObject *const *arguments, Py_ssize_t count) {
    struct taken it;
    uint32_t id = 0;
    if (!take(&it, "s", arguments, count))
        return NULL;
    hold(self);
    jc_status status = jc_find(M, K(0), &id);
    let_go(self);
    return Py_BuildValue("(II)", status, id);
}

static PyObject *do_names(Handle *self, PyObject *const *Py_UNUSED(arguments), Py_ssize_t Py_UNUSED(count)) {
    size_t len = 0;
    hold(self);
    jc_status status = jc_names(M, OUT);
    PyObject *names = status == JC_DONE ? bytes_of(self, len) : number_of(status);
    let_go(self);
    return names;
}

static PyObject *do_settings(Handle *self, PyObject *const *arguments, Py_ssize_t count) {
    struct taken it;
    struct jc_settings is = {0};
    size_t len = 0;
    if (!take(&it, "i", arguments, count))
        return NULL;
    hold(self);
    jc_status status = jc_settings_of(M, ID, &is, OUT);
    PyObject *wants = bytes_of(self, len);
    let_go(self);
    return Py_BuildValue("(IIIK(bbb)N)", status, is.capacity, is.policy, is.duration, is.loader, is.writer, is.listeners, wants);
}

/* Saves into the room, or what is longer into bytes of its length. */
static PyObject *do_save(Handle *self, PyObject *const *arguments, Py_ssize_t count) {
    struct taken it;
    size_t len = 0;
    jc_status status;
    if (!take(&it, "i", arguments, count))
        return NULL;
    hold(self);
    Py_BEGIN_ALLOW_THREADS status = jc_save(M, ID, OUT);
    Py_END_ALLOW_THREADS PyObject *saved = status == JC_DONE           ? bytes_of(self, len)
                                           : status == JC_SHORT_BUFFER ? PyBytes_FromStringAndSize(NULL, (Py_ssize_t)len)
                                                                       : number_of(status);
    if (status == JC_SHORT_BUFFER && saved) {
        uint8_t *to = (uint8_t *)PyBytes_AS_STRING(saved);
        Py_BEGIN_ALLOW_THREADS jc_save(M, ID, to, len, &len);
        Py_END_ALLOW_THREADS
    }
    let_go(self);
    return saved;
}

static PyObject *do_restore(Handle *self, PyObject *const *arguments, Py_ssize_t count) {
    struct taken it;
    uint32_t id = 0;
    size_t place = 0;
    jc_status status;
    if (!take(&it, "svi", arguments, count))
        return NULL;
    hold(self);
    Py_BEGIN_ALLOW_THREADS status = jc_restore(M, K(0), K(1), (uint32_t)it.number[0], &id, &place);
    let_go(self);
    Py_END_ALLOW_THREADS return Py_BuildValue("(IIn)", status, id, (Py_ssize_t)place);
}

static PyObject *do_get(Handle *self, PyObject *const *arguments, Py_ssize_t count) {
    struct taken it;
    size_t len = 0;
    if (!take(&it, "ins", arguments, count))
        return NULL;
    hold(self);
    jc_status status = jc_get_into(M, ID, NOW, K(0), OUT);
    PyObject *found = status == JC_FOUND ? bytes_of(self, len) : number_of(status);
    let_go(self);
    return found;
}

static PyObject *do_peek(Handle *self, PyObject *const *arguments, Py_ssize_t count) {
    struct taken it;
    size_t len = 0;
    uint64_t expires = 0;
    if (!take(&it, "ins", arguments, count))
        return NULL;
    hold(self);
    jc_status status = jc_peek(M, ID, NOW, K(0), &expires, OUT);
    PyObject *found = status == JC_FOUND ? bytes_of(self, len) : number_of(status);
    let_go(self);
    return status == JC_FOUND ? Py_BuildValue("(NK)", found, expires) : found;
}

/* A part of an item that is shown, or None. */
static PyObject *part(Handle *self, uint32_t id, size_t item,
                      jc_status (*read)(struct jc_manager *, uint32_t, size_t, uint8_t *, size_t, size_t *)) {
    size_t len = 0;
    hold(self);
    PyObject *found = read(M, id, item, OUT) == JC_DONE ? bytes_of(self, len) : none();
    let_go(self);
    return found;
}

static PyObject *shown_item(Handle *self, uint32_t id, size_t item) {
    size_t len = 0;
    hold(self);
    jc_status status = jc_key(M, id, item, OUT);
    PyObject *key = PyUnicode_DecodeUTF8((const char *)self->room, status == JC_DONE ? (Py_ssize_t)len : 0, NULL);
    let_go(self);
    return Py_BuildValue("(NNN)", key, part(self, id, item, jc_value), part(self, id, item, jc_before));
}

static PyObject *do_shown(Handle *self, PyObject *const *arguments, Py_ssize_t count) {
    struct taken it;
    size_t items = 0;
    if (!take(&it, "i", arguments, count))
        return NULL;
    hold(self);
    jc_items(M, ID, &items);
    let_go(self);
    PyObject *shown = PyList_New((Py_ssize_t)items);
    for (size_t k = 0; shown && k < items; k++) {
        PyObject *item = shown_item(self, ID, k);
        if (item)
            PyList_SET_ITEM(shown, (Py_ssize_t)k, item);
        else
            Py_CLEAR(shown);
    }
    return shown;
}

static PyObject *do_numbers(Handle *self, PyObject *const *arguments, Py_ssize_t count) {
    struct taken it;
    uint64_t number = 0;
    if (!take(&it, "i", arguments, count))
        return NULL;
    PyObject *numbers = PyList_New(0);
    for (size_t place = 0; numbers; place++) {
        hold(self);
        jc_status status = jc_number(M, ID, place, &number);
        let_go(self);
        if (status != JC_DONE)
            break;
        PyObject *made = PyLong_FromUnsignedLongLong(number);
        if (!made || PyList_Append(numbers, made))
            Py_CLEAR(numbers);
        Py_XDECREF(made);
    }
    return numbers;
}

static PyObject *do_rows(Handle *self, PyObject *const *arguments, Py_ssize_t count) {
    struct taken it;
    size_t rows = 0;
    if (!take(&it, "i", arguments, count))
        return NULL;
    hold(self);
    jc_status status = jc_rows(M, ID, &rows);
    let_go(self);
    return Py_BuildValue("(In)", status, (Py_ssize_t)rows);
}

static PyObject *do_byte_count(Handle *self, PyObject *const *arguments, Py_ssize_t count) {
    struct taken it;
    uint64_t bytes = 0;
    jc_status status;
    if (!take(&it, "i", arguments, count))
        return NULL;
    hold(self);
    Py_BEGIN_ALLOW_THREADS status = jc_bytes(M, ID, &bytes);
    let_go(self);
    Py_END_ALLOW_THREADS return Py_BuildValue("(IK)", status, bytes);
}

static PyObject *do_walk(Handle *self, PyObject *const *arguments, Py_ssize_t count) {
    struct taken it;
    uint32_t next = 0;
    size_t len = 0;
    jc_status status;
    if (!take(&it, "ii", arguments, count))
        return NULL;
    hold(self);
    Py_BEGIN_ALLOW_THREADS status = jc_walk(M, ID, (uint32_t)it.number[1], OUT, &next);
    Py_END_ALLOW_THREADS PyObject *found = status == JC_LISTED ? bytes_of(self, len) : number_of(status);
    let_go(self);
    return status == JC_LISTED ? Py_BuildValue("(NI)", found, next) : found;
}

static PyObject *handle_new(PyTypeObject *type, PyObject *Py_UNUSED(arguments), PyObject *Py_UNUSED(options)) {
    Handle *self = (Handle *)type->tp_alloc(type, 0);
    if (!self)
        return NULL;
    self->lock = PyThread_allocate_lock();
    self->room = PyMem_Malloc(ROOM);
    if (self->lock && self->room)
        return (PyObject *)self;
    Py_DECREF(self);
    return PyErr_NoMemory();
}

static void handle_dealloc(Handle *self) {
    jc_close(M);
    if (self->lock)
        PyThread_free_lock(self->lock);
    PyMem_Free(self->room);
    Py_TYPE(self)->tp_free((PyObject *)self);
}

#define METHOD(name) {#name, (PyCFunction)(void (*)(void))do_##name, METH_FASTCALL, NULL}
static PyMethodDef methods[] = {
    METHOD(open), METHOD(open_secret), METHOD(close), METHOD(create), METHOD(destroy), METHOD(find), METHOD(get),
    METHOD(contains), METHOD(remove), METHOD(get_and_remove), METHOD(put), METHOD(get_and_put), METHOD(put_if_absent),
    METHOD(replace), METHOD(get_and_replace), METHOD(remove_if), METHOD(replace_if), METHOD(invoke), METHOD(get_all),
    METHOD(put_all), METHOD(remove_keys), METHOD(load_all), METHOD(invoke_all), METHOD(remove_all), METHOD(clear),
    METHOD(entries), METHOD(stats), METHOD(clear_stats), METHOD(loaded), METHOD(loaded_nothing), METHOD(load_failed),
    METHOD(written), METHOD(write_failed), METHOD(processed), METHOD(process_failed), METHOD(told), METHOD(give_up),
    METHOD(shown), METHOD(numbers), METHOD(peek), METHOD(rows), METHOD(byte_count), METHOD(walk),
    METHOD(names), METHOD(settings), METHOD(save), METHOD(restore), {0},
};

static PyTypeObject handle_type = {
    PyVarObject_HEAD_INIT(NULL, 0).tp_name = "jcache._native.Handle",
    .tp_basicsize = sizeof(Handle),
    .tp_dealloc = (destructor)handle_dealloc,
    .tp_flags = Py_TPFLAGS_DEFAULT,
    .tp_doc = "A handle, with a lock that is held for each call.",
    .tp_methods = methods,
    .tp_new = handle_new,
};

static PyObject *do_version(PyObject *Py_UNUSED(module), PyObject *Py_UNUSED(none)) {
    return PyLong_FromUnsignedLong(jc_version());
}

static PyMethodDef functions[] = {{"version", do_version, METH_NOARGS, "The library's version."}, {0}};
static struct PyModuleDef module = {PyModuleDef_HEAD_INIT, .m_name = "jcache._native", .m_size = -1,
                                    .m_methods = functions};

PyMODINIT_FUNC PyInit__native(void) {
    PyObject *made = PyType_Ready(&handle_type) ? NULL : PyModule_Create(&module);
    Py_INCREF(&handle_type);
    if (made && PyModule_AddObject(made, "Handle", (PyObject *)&handle_type)) {
        Py_DECREF(&handle_type);
        Py_CLEAR(made);
    }
    return made;
}
