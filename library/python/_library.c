/* The functions of resb.h for the package `resb` alone, which describes them; _library.pyi has their types.
 *
 * A call holds the interpreter's lock, and runs no other code of Python, while it uses an engine or a prepared bundle: so calls of
 * threads, signal handlers and finalizers never meet, and a forked child finds each engine whole. What takes long uses neither, and
 * lets other threads run. */
#define PY_SSIZE_T_CLEAN
#define Py_LIMITED_API 0x030b0000
#include <Python.h>
#include <stdlib.h>

#include "resb.h"

#define NAME(name) (name).at, (size_t)(name).len
#define BYTES(buffer) (buffer).len ? (buffer).buf : "", (size_t)(buffer).len /* resb.h allows no NULL */
#define OUT(out) (out).at, (out).capacity, &(out).len

static const char ENGINE[] = "resb", BUNDLE[] = "resb_bundle";
enum { FILE_FORM, TEXT_FORM, JSON_FORM };

typedef struct {
    const char *at;
    Py_ssize_t len;
} Name;

/* Raises resb.Error. The locale is a str, or NULL. */
static PyObject *fail(uint32_t error, uint64_t line, PyObject *locale) {
    PyObject *package = PyImport_AddModule("resb");
    PyObject *class = package ? PyObject_GetAttrString(package, "Error") : NULL;
    PyObject *arguments = Py_BuildValue(locale ? "IKO" : "IK", error, (unsigned long long)line, locale);
    if (class && arguments)
        PyErr_SetObject(class, arguments);
    Py_XDECREF(class);
    Py_XDECREF(arguments);
    return NULL;
}

static PyObject *none_or_fail(uint32_t error) {
    if (error)
        return fail(error, 0, NULL);
    Py_RETURN_NONE;
}

/* ---- handles ---- */

static void free_engine(PyObject *capsule) {
    resb *engine = PyCapsule_GetPointer(capsule, ENGINE);
    resb_close(engine);
    free(engine);
}

static void free_bundle(PyObject *capsule) {
    resb_bundle *bundle = PyCapsule_GetPointer(capsule, BUNDLE);
    resb_discard(bundle);
    free(bundle);
}

static int engine_of(PyObject *capsule, void *engine) {
    return (*(resb **)engine = PyCapsule_GetPointer(capsule, ENGINE)) != NULL;
}

static int bundle_of(PyObject *capsule, void *bundle) {
    return (*(resb_bundle **)bundle = PyCapsule_GetPointer(capsule, BUNDLE)) != NULL;
}

/* Returns a capsule with a handle that is closed, or has no bundle: its bytes are zero. */
static PyObject *capsule_of(size_t size, const char *name, PyCapsule_Destructor destructor, void *handle) {
    void *zeroed = calloc(1, size);
    PyObject *capsule = zeroed ? PyCapsule_New(zeroed, name, destructor) : PyErr_NoMemory();
    if (!capsule)
        free(zeroed);
    *(void **)handle = zeroed;
    return capsule;
}

/* ---- what calls write ---- */

/* A buffer on the stack, then one of the length that the call asks for. */
typedef struct {
    char *at;
    size_t capacity, len;
    char first[1024];
} Out;

static void begin(Out *out) {
    out->at = out->first;
    out->capacity = sizeof out->first;
}

static void end(Out *out) {
    if (out->at != out->first)
        free(out->at);
}

/* Returns whether to call again. */
static bool is_short(Out *out, uint32_t *error) {
    if (*error != RESB_NO_ROOM)
        return false;
    end(out);
    out->capacity = out->len;
    out->at = malloc(out->capacity);
    if (!out->at)
        *error = RESB_MEMORY;
    return out->at != NULL;
}

static PyObject *written(Out *out, uint32_t error) {
    PyObject *bytes = error ? fail(error, 0, NULL) : PyBytes_FromStringAndSize(out->at, (Py_ssize_t)out->len);
    end(out);
    return bytes;
}

/* ---- files and texts ---- */

static PyObject *error_name(PyObject *module, PyObject *args) {
    unsigned error;
    return PyArg_ParseTuple(args, "I", &error) ? PyUnicode_FromString(resb_error_name(error)) : NULL;
}

static PyObject *check(PyObject *module, PyObject *args) {
    Py_buffer file;
    int for_icu;
    uint32_t error;
    if (!PyArg_ParseTuple(args, "y*p", &file, &for_icu))
        return NULL;
    Py_BEGIN_ALLOW_THREADS
    error = for_icu ? resb_check_for_icu(BYTES(file)) : resb_check(BYTES(file));
    Py_END_ALLOW_THREADS
    PyBuffer_Release(&file);
    return none_or_fail(error);
}

static PyObject *alias_targets(PyObject *module, PyObject *args) {
    Py_buffer file;
    uint32_t error;
    Out out;
    if (!PyArg_ParseTuple(args, "y*", &file))
        return NULL;
    begin(&out);
    Py_BEGIN_ALLOW_THREADS
    do
        error = resb_alias_targets(BYTES(file), OUT(out));
    while (is_short(&out, &error));
    Py_END_ALLOW_THREADS
    PyBuffer_Release(&file);
    return written(&out, error);
}

static PyObject *list_of_findings(const resb_finding *found, size_t count) {
    PyObject *list = PyList_New((Py_ssize_t)count);
    for (size_t i = 0; list && i < count; i++) {
        const resb_finding *one = &found[i];
        PyObject *tuple = Py_BuildValue("KKNss", (unsigned long long)one->line, (unsigned long long)one->column,
                                        PyBool_FromLong(one->error != 0), one->rule, one->message);
        if (!tuple || PyList_SetItem(list, (Py_ssize_t)i, tuple))
            Py_CLEAR(list);
    }
    return list;
}

static PyObject *lint(PyObject *module, PyObject *args) {
    Py_buffer text;
    Name name;
    Py_ssize_t limit;
    size_t count;
    uint64_t more;
    uint32_t error = RESB_MEMORY;
    if (!PyArg_ParseTuple(args, "s*s#n", &text, &name.at, &name.len, &limit))
        return NULL;
    size_t capacity = (size_t)limit + 1;
    resb_finding *found = calloc(capacity, sizeof *found);
    Py_BEGIN_ALLOW_THREADS
    if (found)
        error = resb_lint(BYTES(text), NAME(name), found, capacity, &count, &more);
    Py_END_ALLOW_THREADS
    PyBuffer_Release(&text);
    PyObject *list = error ? fail(error, 0, NULL) : list_of_findings(found, count);
    free(found);
    return list ? Py_BuildValue("NK", list, (unsigned long long)more) : NULL;
}

/* ---- prepared bundles ---- */

static PyObject *prepare(PyObject *module, PyObject *args) {
    Py_buffer bytes;
    int form;
    uint32_t error;
    uint64_t line;
    resb_bundle *bundle;
    if (!PyArg_ParseTuple(args, "s*i", &bytes, &form))
        return NULL;
    PyObject *capsule = capsule_of(sizeof *bundle, BUNDLE, free_bundle, &bundle);
    if (capsule) {
        Py_BEGIN_ALLOW_THREADS
        error = form == JSON_FORM ? resb_prepare_json(BYTES(bytes), bundle, &line)
                                  : resb_prepare(BYTES(bytes), form == TEXT_FORM, bundle, &line);
        Py_END_ALLOW_THREADS
        if (error) {
            fail(error, line, NULL);
            Py_CLEAR(capsule);
        }
    }
    PyBuffer_Release(&bytes);
    return capsule;
}

static PyObject *copy_bundle(PyObject *module, PyObject *args) {
    resb_bundle *bundle, *copy;
    if (!PyArg_ParseTuple(args, "O&", bundle_of, &bundle))
        return NULL;
    PyObject *capsule = capsule_of(sizeof *copy, BUNDLE, free_bundle, &copy);
    uint32_t error = capsule ? resb_copy_bundle(bundle, copy) : RESB_OK;
    if (error) {
        fail(error, 0, NULL);
        Py_CLEAR(capsule);
    }
    return capsule;
}

static PyObject *snapshot(PyObject *module, PyObject *args) {
    resb *engine, *other;
    Name seed;
    if (!PyArg_ParseTuple(args, "O&y#", engine_of, &engine, &seed.at, &seed.len))
        return NULL;
    PyObject *capsule = capsule_of(sizeof *other, ENGINE, free_engine, &other);
    uint32_t error = capsule ? resb_snapshot(engine, NAME(seed), other) : RESB_OK;
    if (error) {
        fail(error, 0, NULL);
        Py_CLEAR(capsule);
    }
    return capsule;
}

static PyObject *write_bundle(PyObject *module, PyObject *args) {
    resb_bundle *bundle;
    int form;
    Name locale;
    uint32_t error;
    Out out;
    if (!PyArg_ParseTuple(args, "O&is#", bundle_of, &bundle, &form, &locale.at, &locale.len))
        return NULL;
    begin(&out);
    do
        error = form == FILE_FORM   ? resb_bundle_file(bundle, OUT(out))
                : form == TEXT_FORM ? resb_bundle_text(bundle, NAME(locale), OUT(out))
                                    : resb_bundle_json(bundle, OUT(out));
    while (is_short(&out, &error));
    return written(&out, error);
}

/* ---- engines ---- */

static PyObject *locale_of(PyObject *pairs, uint64_t index) {
    return PyTuple_GetItem(PyList_GetItem(pairs, (Py_ssize_t)index), 0);
}

static bool read_entry(PyObject *pair, resb_entry *entry, Py_buffer *bytes) {
    Name locale;
    if (!PyArg_ParseTuple(pair, "s#s*", &locale.at, &locale.len, bytes))
        return false;
    *entry = (resb_entry){NAME(locale), BYTES(*bytes), PyUnicode_Check(PyTuple_GetItem(pair, 1))};
    return true;
}

static PyObject *open_engine(PyObject *module, PyObject *args) {
    PyObject *icudata;
    Name seed, parents;
    uint32_t error;
    uint64_t place;
    resb *engine;
    if (!PyArg_ParseTuple(args, "y#O!s#", &seed.at, &seed.len, &PyList_Type, &icudata, &parents.at, &parents.len))
        return NULL;
    Py_ssize_t count = PyList_Size(icudata), taken = 0;
    PyObject *capsule = capsule_of(sizeof *engine, ENGINE, free_engine, &engine);
    resb_entry *entries = calloc((size_t)count + 1, sizeof *entries);
    Py_buffer *files = calloc((size_t)count + 1, sizeof *files);
    if (!entries || !files)
        PyErr_NoMemory();
    while (!PyErr_Occurred() && taken < count)
        taken += read_entry(PyList_GetItem(icudata, taken), &entries[taken], &files[taken]);
    if (!PyErr_Occurred()) {
        Py_BEGIN_ALLOW_THREADS
        error = resb_open_with(engine, NAME(seed), entries, (size_t)count, NAME(parents), &place);
        Py_END_ALLOW_THREADS
        if (error == RESB_BAD_LOCALE || error == RESB_BAD_TEXT || error == RESB_BAD_FILE || error == RESB_TWICE)
            fail(error, 0, locale_of(icudata, place));
        else if (error)
            fail(error, place, NULL);
    }
    while (taken)
        PyBuffer_Release(&files[--taken]);
    free(files);
    free(entries);
    if (PyErr_Occurred())
        Py_CLEAR(capsule);
    return capsule;
}

static PyObject *close_engine(PyObject *module, PyObject *args) {
    resb *engine;
    if (!PyArg_ParseTuple(args, "O&", engine_of, &engine))
        return NULL;
    resb_close(engine);
    Py_RETURN_NONE;
}

/* Installs a bundle, or replaces one: prepares it while other threads run. */
static PyObject *put(PyObject *module, PyObject *args) {
    resb *engine;
    Name app, locale;
    Py_buffer bytes;
    int replaces;
    uint32_t error;
    uint64_t line;
    resb_bundle bundle = RESB_DISCARDED;
    if (!PyArg_ParseTuple(args, "O&s#s#s*p", engine_of, &engine, &app.at, &app.len, &locale.at, &locale.len, &bytes, &replaces))
        return NULL;
    bool is_text = PyUnicode_Check(PyTuple_GetItem(args, 3));
    Py_BEGIN_ALLOW_THREADS
    error = resb_prepare(BYTES(bytes), is_text, &bundle, &line);
    Py_END_ALLOW_THREADS
    PyBuffer_Release(&bytes);
    if (!error)
        error = (replaces ? resb_replace_bundle : resb_install_bundle)(engine, NAME(app), NAME(locale), &bundle);
    else if (error != RESB_MEMORY) /* one without bytes is wrong too: its error comes after those of names */
        error = resb_install(engine, NAME(app), NAME(locale), "", 0, is_text);
    resb_discard(&bundle);
    return none_or_fail(error);
}

static PyObject *remove_bundle(PyObject *module, PyObject *args) {
    resb *engine;
    Name app, locale;
    if (!PyArg_ParseTuple(args, "O&s#s#", engine_of, &engine, &app.at, &app.len, &locale.at, &locale.len))
        return NULL;
    return none_or_fail(resb_remove(engine, NAME(app), NAME(locale)));
}

/* Reads an edit, and takes its bundle. */
static void read_edit(PyObject *pair, resb_edit *edit) {
    Name locale;
    PyObject *capsule;
    resb_bundle *bundle;
    if (!PyArg_ParseTuple(pair, "s#O", &locale.at, &locale.len, &capsule))
        return;
    edit->locale = locale.at;
    edit->locale_len = (size_t)locale.len;
    if (capsule == Py_None || !bundle_of(capsule, &bundle))
        return;
    if (!bundle->is_prepared)
        fail(RESB_NOT_OPEN, 0, PyTuple_GetItem(pair, 0));
    edit->bundle = *bundle;
    *bundle = (resb_bundle)RESB_DISCARDED;
}

static PyObject *release(PyObject *module, PyObject *args) {
    resb *engine;
    Name app;
    PyObject *pairs;
    size_t place;
    if (!PyArg_ParseTuple(args, "O&s#O!", engine_of, &engine, &app.at, &app.len, &PyList_Type, &pairs))
        return NULL;
    size_t count = (size_t)PyList_Size(pairs), taken = 0;
    resb_edit *edits = calloc(count + 1, sizeof *edits);
    if (!edits)
        return PyErr_NoMemory();
    for (; !PyErr_Occurred() && taken < count; taken++)
        read_edit(PyList_GetItem(pairs, (Py_ssize_t)taken), &edits[taken]);
    if (!PyErr_Occurred()) {
        uint32_t error = resb_release(engine, NAME(app), edits, count, &place);
        bool is_of_edit = error == RESB_BAD_LOCALE || error == RESB_ABSENT || error == RESB_FULL;
        if (error)
            fail(error, 0, is_of_edit ? locale_of(pairs, place) : NULL);
    }
    while (taken)
        resb_discard(&edits[--taken].bundle);
    free(edits);
    return PyErr_Occurred() ? NULL : none_or_fail(RESB_OK);
}

static PyObject *list(PyObject *module, PyObject *args) {
    resb *engine;
    Name app;
    uint32_t error;
    Out out;
    if (!PyArg_ParseTuple(args, "O&s#", engine_of, &engine, &app.at, &app.len))
        return NULL;
    begin(&out);
    do
        error = resb_list(engine, NAME(app), OUT(out));
    while (is_short(&out, &error));
    return written(&out, error);
}

static PyObject *usage(PyObject *module, PyObject *args) {
    resb *engine;
    Name app;
    uint64_t bytes, bundles;
    if (!PyArg_ParseTuple(args, "O&s#", engine_of, &engine, &app.at, &app.len))
        return NULL;
    uint32_t error = resb_usage(engine, NAME(app), &bytes, &bundles);
    return error ? fail(error, 0, NULL) : Py_BuildValue("KK", (unsigned long long)bytes, (unsigned long long)bundles);
}

static PyObject *apps(PyObject *module, PyObject *args) {
    resb *engine;
    uint64_t count;
    if (!PyArg_ParseTuple(args, "O&", engine_of, &engine))
        return NULL;
    uint32_t error = resb_apps(engine, &count);
    return error ? fail(error, 0, NULL) : PyLong_FromUnsignedLongLong(count);
}

/* ---- lookups ---- */

static PyObject *text_of(const uint16_t *units, size_t count) {
    char narrow[256];
    uint16_t bits = count > sizeof narrow ? UINT16_MAX : 0;
    int little_endian = -1;
    for (size_t i = 0; i < count && bits < 256; i++) {
        bits |= units[i];
        narrow[i] = (char)units[i];
    }
    if (bits < 256) /* faster than UTF-16 */
        return PyUnicode_DecodeLatin1(narrow, (Py_ssize_t)count, NULL);
    return PyUnicode_DecodeUTF16((const char *)units, (Py_ssize_t)(2 * count), "surrogatepass", &little_endian);
}

static PyObject *list_of_ints(const int32_t *numbers, size_t count) {
    PyObject *list = PyList_New((Py_ssize_t)count);
    for (size_t i = 0; list && i < count; i++) {
        PyObject *number = PyLong_FromLong(numbers[i]);
        if (!number || PyList_SetItem(list, (Py_ssize_t)i, number))
            Py_CLEAR(list);
    }
    return list;
}

/* Returns an item as str, bytes, int or list of int; a table, an array or an alias as its kind, its count and its text. */
static PyObject *value_of(const resb_found *item) {
    switch (item->kind) {
    case RESB_STRING:
        return text_of(item->at, item->count);
    case RESB_INT:
        return PyLong_FromLong((long)(item->number ^ 1 << 27) - (1 << 27));
    case RESB_BINARY:
        return PyBytes_FromStringAndSize(item->at, (Py_ssize_t)item->count);
    case RESB_INT_VECTOR:
        return list_of_ints(item->at, item->count);
    case RESB_ALIAS:
        return Py_BuildValue("InN", item->kind, (Py_ssize_t)item->count, text_of(item->at, item->count));
    default:
        return Py_BuildValue("Ins", item->kind, (Py_ssize_t)item->count, "");
    }
}

static bool read_name(PyObject *object, Name *name) {
    name->at = PyUnicode_AsUTF8AndSize(object, &name->len);
    if (!name->at && !PyUnicode_Check(object))
        PyErr_Format(PyExc_TypeError, "a str is needed, not %R", (PyObject *)Py_TYPE(object));
    return name->at;
}

/* Has the arguments engine, app, locale, path and at times steps. */
static PyObject *look(PyObject *module, PyObject *const *args, Py_ssize_t count) {
    resb *engine;
    Name app, locale, path;
    resb_found found;
    if (count < 4 || count > 5)
        return PyErr_Format(PyExc_TypeError, "look takes 4 or 5 arguments");
    if (!engine_of(args[0], &engine) || !read_name(args[1], &app) || !read_name(args[2], &locale) || !read_name(args[3], &path))
        return NULL;
    unsigned long long steps = count == 5 ? PyLong_AsUnsignedLongLongMask(args[4]) : 0;
    if (count == 5 && PyErr_Occurred())
        return NULL;
    uint32_t error = count == 5 ? resb_look_within(engine, NAME(app), NAME(locale), NAME(path), steps, &found)
                                : resb_look(engine, NAME(app), NAME(locale), NAME(path), &found);
    if (error)
        return fail(error, 0, NULL);
    int collects = PyGC_Disable(); /* finalizers could change the engine */
    PyObject *value = value_of(&found);
    if (collects)
        PyGC_Enable();
    return value;
}

static PyObject *list_of_children(const resb_child *found, size_t count) {
    PyObject *list = PyList_New((Py_ssize_t)count);
    for (size_t i = 0; list && i < count; i++) {
        const char *key = found[i].key_len ? found[i].key : "";
        PyObject *child = Py_BuildValue("s#N", key, (Py_ssize_t)found[i].key_len, value_of(&found[i].item));
        if (!child || PyList_SetItem(list, (Py_ssize_t)i, child))
            Py_CLEAR(list);
    }
    return list;
}

static PyObject *children(PyObject *module, PyObject *args) {
    resb *engine;
    Name app, locale, path;
    resb_child none, *found = NULL;
    size_t count;
    if (!PyArg_ParseTuple(args, "O&s#s#s#", engine_of, &engine, &app.at, &app.len, &locale.at, &locale.len, &path.at, &path.len))
        return NULL;
    uint32_t error = resb_children(engine, NAME(app), NAME(locale), NAME(path), &none, 0, &count);
    if (error == RESB_NO_ROOM) {
        found = malloc(count * sizeof *found);
        error = found ? resb_children(engine, NAME(app), NAME(locale), NAME(path), found, count, &count) : RESB_MEMORY;
    }
    int collects = PyGC_Disable();
    PyObject *list = error ? NULL : list_of_children(found, count);
    if (collects)
        PyGC_Enable();
    free(found);
    return error ? fail(error, 0, NULL) : list;
}

static PyObject *json(PyObject *module, PyObject *args) {
    resb *engine;
    Name app, locale, path;
    unsigned long long steps, size;
    int is_tree;
    uint32_t error;
    Out out;
    if (!PyArg_ParseTuple(args, "O&s#s#s#KKp", engine_of, &engine, &app.at, &app.len, &locale.at, &locale.len, &path.at, &path.len,
                          &steps, &size, &is_tree))
        return NULL;
    begin(&out);
    do
        error = (is_tree ? resb_tree_json_within : resb_item_json_within)(engine, NAME(app), NAME(locale), NAME(path), steps, size,
                                                                          OUT(out));
    while (is_short(&out, &error));
    return written(&out, error);
}

static PyMethodDef functions[] = {
    {"error_name", error_name, METH_VARARGS, NULL},
    {"check", check, METH_VARARGS, NULL},
    {"alias_targets", alias_targets, METH_VARARGS, NULL},
    {"lint", lint, METH_VARARGS, NULL},
    {"prepare", prepare, METH_VARARGS, NULL},
    {"copy", copy_bundle, METH_VARARGS, NULL},
    {"write", write_bundle, METH_VARARGS, NULL},
    {"open", open_engine, METH_VARARGS, NULL},
    {"snapshot", snapshot, METH_VARARGS, NULL},
    {"close", close_engine, METH_VARARGS, NULL},
    {"put", put, METH_VARARGS, NULL},
    {"remove", remove_bundle, METH_VARARGS, NULL},
    {"release", release, METH_VARARGS, NULL},
    {"list", list, METH_VARARGS, NULL},
    {"usage", usage, METH_VARARGS, NULL},
    {"apps", apps, METH_VARARGS, NULL},
    {"look", (PyCFunction)(void (*)(void))look, METH_FASTCALL, NULL},
    {"children", children, METH_VARARGS, NULL},
    {"json", json, METH_VARARGS, NULL},
    {NULL, NULL, 0, NULL},
};

static PyModuleDef definition = {PyModuleDef_HEAD_INIT, .m_name = "resb._library", .m_methods = functions};

PyMODINIT_FUNC PyInit__library(void) { return PyModuleDef_Init(&definition); }
