/* vt220._calls: the calls of the library that programs make most, without ctypes. For Python 3.11 and later, by the limited API.
 *
 * It is linked with no library: `bind` gets the addresses of the calls that ctypes has loaded, so there is one library in a process. A terminal
 * is the struct of ctypes that holds its handle. The interpreter's lock is held during a call, so all threads share the buffers. */
#define Py_LIMITED_API 0x030B0000
#define PY_SSIZE_T_CLEAN
#include <Python.h>
#include <stdbool.h>
#include <string.h>
#include <vt220.h>

enum { PIECE = 65536 /* the most bytes that one call plays: other threads wait for its end */, REPORTS = 4096 };

/* The calls, in the order in which `bind` gets their addresses. */
#define CALLS(_) _(is_open) _(feed) _(scratch_open) _(scratch_fit) _(text) _(show) _(picture) _(row_text) _(repaint_as) _(update) _(draw)

#define FIELD(name) __typeof__(vt220_##name) *name;
static struct { CALLS(FIELD) } of;

static PyObject *refuse; /* raises the error of a status */
static vt220_scratch scratch;
static uint8_t *out; /* what a call writes; larger if a screen of another size than a VT220's needs it */
static size_t out_size;

/* Makes the output buffer larger. Returns false without memory. */
static bool grow(size_t size) {
    uint8_t *larger = PyMem_Realloc(out, size);
    if (larger == NULL) return false;
    out = larger, out_size = size;
    return true;
}

/* Returns whether a call is made again, with other buffers: a scratch buffer of the terminal's size, and a larger output buffer. */
static bool is_again(uint32_t status, const vt220 *t, size_t written, bool *fitted) {
    if (status == VT220_ROOM) return grow(written);
    if (status != VT220_SIZE || *fitted) return false;
    *fitted = true;
    return of.scratch_fit(&scratch, t) == VT220_OK;
}

/* An argument that is a terminal, or None. */
struct terminal {
    Py_buffer view;
    vt220 *handle;
};

static bool take_terminal(PyObject *from, struct terminal *it) {
    if (PyObject_GetBuffer(from, &it->view, PyBUF_WRITABLE) < 0) return false;
    it->handle = it->view.buf;
    if (it->view.len == sizeof(vt220)) return true;
    PyBuffer_Release(&it->view);
    PyErr_SetString(PyExc_TypeError, "this isn't the handle of a terminal");
    return false;
}

static bool has(Py_ssize_t count, Py_ssize_t wanted) {
    if (of.feed == NULL) PyErr_SetString(PyExc_RuntimeError, "the library isn't bound");
    else if (count != wanted) PyErr_SetString(PyExc_TypeError, "another number of arguments is needed");
    return of.feed != NULL && count == wanted;
}

/* Returns what a call wrote, or raises the error of its status. */
static PyObject *result(uint32_t status, size_t written) {
    if (status == VT220_OK) return PyBytes_FromStringAndSize((char *)out, (Py_ssize_t)written);
    PyObject *none = PyObject_CallFunction(refuse, "I", (unsigned)status);
    if (none != NULL) PyErr_SetString(PyExc_RuntimeError, "an error isn't raised");
    Py_XDECREF(none);
    return NULL;
}

/* Plays all bytes, and gives the lock up after each piece. Returns whether the terminal was open. */
static bool play(vt220 *t, const uint8_t *bytes, size_t len, PyObject *parts) {
    uint8_t reports[REPORTS];
    size_t written;
    if (!of.is_open(t)) return false;
    for (size_t at = 0; at < len;) {
        size_t played = of.feed(t, bytes + at, len - at < PIECE ? len - at : PIECE, reports, sizeof reports, &written);
        PyObject *part = written > 0 ? PyBytes_FromStringAndSize((char *)reports, (Py_ssize_t)written) : NULL;
        if (part != NULL) PyList_Append(parts, part);
        Py_XDECREF(part);
        if (played == 0 || PyErr_Occurred()) return false; /* another thread has closed the terminal */
        at += played;
        if (at < len) {
            Py_BEGIN_ALLOW_THREADS
            Py_END_ALLOW_THREADS
        }
    }
    return true;
}

static PyObject *joined(PyObject *parts) {
    PyObject *nothing = PyBytes_FromStringAndSize(NULL, 0);
    PyObject *whole = nothing == NULL || PyList_Size(parts) == 0 ? Py_XNewRef(nothing) : PyObject_CallMethod(nothing, "join", "O", parts);
    Py_XDECREF(nothing);
    return whole;
}

static PyObject *feed(PyObject *self, PyObject *const *words, Py_ssize_t count) {
    struct terminal t;
    char *bytes;
    Py_ssize_t len;
    (void)self;
    if (!has(count, 2) || PyBytes_AsStringAndSize(words[1], &bytes, &len) < 0 || !take_terminal(words[0], &t)) return NULL;
    PyObject *parts = PyList_New(0), *whole = NULL;
    if (parts != NULL && play(t.handle, (uint8_t *)bytes, (size_t)len, parts)) whole = joined(parts);
    else if (!PyErr_Occurred()) whole = result(VT220_CLOSED, 0);
    Py_XDECREF(parts);
    PyBuffer_Release(&t.view);
    return whole;
}

/* Defines a call on one terminal that writes to `out`. */
#define WRITES(name)                                                              \
    static PyObject *name(PyObject *self, PyObject *const *words, Py_ssize_t count) { \
        struct terminal t;                                                        \
        size_t written;                                                           \
        (void)self;                                                               \
        if (!has(count, 1) || !take_terminal(words[0], &t)) return NULL;          \
        uint32_t status;                                                          \
        bool fitted = false;                                                      \
        do status = of.name(t.handle, &scratch, out, out_size, &written);         \
        while (is_again(status, t.handle, written, &fitted));                     \
        PyBuffer_Release(&t.view);                                                \
        return result(status, written);                                           \
    }

WRITES(text)
WRITES(show)
WRITES(picture)

/* Defines a call on one terminal and a number. */
#define WRITES_BY_NUMBER(name, type, call)                                        \
    static PyObject *name(PyObject *self, PyObject *const *words, Py_ssize_t count) { \
        struct terminal t;                                                        \
        size_t written;                                                           \
        (void)self;                                                               \
        if (!has(count, 2)) return NULL;                                          \
        type number = (type)PyLong_AsUnsignedLong(words[1]);                      \
        if (PyErr_Occurred() || !take_terminal(words[0], &t)) return NULL;        \
        uint32_t status;                                                          \
        bool fitted = false;                                                      \
        do status = call;                                                         \
        while (is_again(status, t.handle, written, &fitted));                     \
        PyBuffer_Release(&t.view);                                                \
        return result(status, written);                                           \
    }

WRITES_BY_NUMBER(row_text, size_t, of.row_text(t.handle, &scratch, number, out, out_size, &written))
WRITES_BY_NUMBER(repaint_as, uint32_t, of.repaint_as(t.handle, number, &scratch, out, out_size, &written))

/* Defines a call on two terminals, the first of which may be None. */
#define WRITES_BETWEEN(name)                                                      \
    static PyObject *name(PyObject *self, PyObject *const *words, Py_ssize_t count) { \
        struct terminal shown = {.handle = NULL}, to;                             \
        size_t written;                                                           \
        (void)self;                                                               \
        if (!has(count, 2) || (words[0] != Py_None && !take_terminal(words[0], &shown))) return NULL; \
        bool is_taken = take_terminal(words[1], &to);                             \
        uint32_t status = VT220_OK;                                               \
        bool fitted = false;                                                      \
        if (is_taken)                                                             \
            do status = of.name(shown.handle, to.handle, &scratch, out, out_size, &written); \
            while (is_again(status, to.handle, written, &fitted));                \
        if (shown.handle != NULL) PyBuffer_Release(&shown.view);                  \
        if (!is_taken) return NULL;                                               \
        PyBuffer_Release(&to.view);                                               \
        return result(status, written);                                           \
    }

WRITES_BETWEEN(update)
WRITES_BETWEEN(draw)

/* Takes what raises the error of a status, and the addresses of the calls. */
static PyObject *bind(PyObject *self, PyObject *const *words, Py_ssize_t count) {
    (void)self;
    if (count != 1 + (Py_ssize_t)(sizeof of / sizeof(void *))) {
        PyErr_SetString(PyExc_TypeError, "the address of each call is needed");
        return NULL;
    }
    Py_ssize_t at = 0;
#define TAKE(name) of.name = (__typeof__(of.name))PyLong_AsVoidPtr(words[++at]);
    CALLS(TAKE)
    if (PyErr_Occurred()) return NULL;
    Py_XDECREF(refuse);
    refuse = Py_NewRef(words[0]);
    if (out == NULL && !grow(VT220_PICTURE_LIMIT)) return PyErr_NoMemory();
    uint32_t status = of.scratch_open(&scratch);
    if (status != VT220_OK && status != VT220_IN_USE) return result(status, 0);
    return Py_NewRef(Py_None);
}

#define METHOD(name) {#name, (PyCFunction)(void (*)(void))name, METH_FASTCALL, NULL}
static PyMethodDef methods[] = {METHOD(bind),     METHOD(feed),       METHOD(text),   METHOD(show), METHOD(picture),
                                METHOD(row_text), METHOD(repaint_as), METHOD(update), METHOD(draw), {0}};
static PyModuleDef definition = {PyModuleDef_HEAD_INIT, "vt220._calls", NULL, -1, methods, NULL, NULL, NULL, NULL};

PyMODINIT_FUNC PyInit__calls(void) {
    PyObject *module = PyModule_Create(&definition);
#define NAME(name) #name "\0"
    static const char names[] = CALLS(NAME);
    PyObject *list = module != NULL ? PyList_New(0) : NULL;
    for (const char *name = names; list != NULL && *name != 0; name += strlen(name) + 1) {
        PyObject *text = PyUnicode_FromString(name);
        if (text == NULL || PyList_Append(list, text) < 0) Py_CLEAR(list);
        Py_XDECREF(text);
    }
    if (list == NULL || PyModule_AddObjectRef(module, "CALLS", list) < 0) Py_CLEAR(module);
    Py_XDECREF(list);
    return module;
}
