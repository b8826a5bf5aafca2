/* The rules of one supervisor for Python, over libsapyguendo and the limited API of CPython 3.9: what foreign.py does by ctypes.
 *
 * The interpreter's lock is held all the time but while the start function runs, so no thread comes into a call of the library. */
#define Py_LIMITED_API 0x03090000
#include <Python.h>
#include "sapyguendo.h"

typedef struct {
    PyObject_HEAD
    struct sup sup;
    uint64_t stamp; /* how many entries there were */
    PyObject *start;
} Core;

/* What makes a named tuple without its own `__new__`: its arguments are kept for the next one of as many parts. */
static newfunc tuple_new;
static PyObject *spares[9];

/* Taken from words.py. The last four are tuples of words. */
static PyObject *fault_type, *entry_type, *reason_type, *answer_type, *reply_type, *row_type, *running, *ignore, *refuse;
static PyObject *operations, *reasons, *replies, *statuses;

static struct sup *sup_of(PyObject *self) { return &((Core *)self)->sup; }

/* Raises a fault. Each call that is refused returns NULL or false. */
static void *fails(uint32_t fault, const char *field) {
    PyObject *parts = Py_BuildValue("Is", fault, field);
    if (parts) PyErr_SetObject(fault_type, parts);
    Py_XDECREF(parts);
    return NULL;
}

/* Names the field of an entry that the library refused, though its words and numbers are in range. */
static void *refuses(uint32_t fault, const struct sup_entry *e) {
    const char *of = e->answer > SUP_FAILED ? "answer" : e->operation == SUP_START ? "text" : e->operation == SUP_EXIT ? "reason" : "";
    return fails(fault, fault == SUP_BAD_LINE ? of : "");
}

static bool is_number(PyObject *value, const char *field, uint64_t *to) {
    if (!PyLong_CheckExact(value)) return fails(SUP_BAD_LINE, field);
    *to = PyLong_AsUnsignedLongLong(value);
    if (*to != UINT64_MAX || !PyErr_Occurred()) return true;
    PyErr_Clear();
    return fails(SUP_BAD_LINE, field);
}

static bool is_small(PyObject *value, const char *field, uint32_t *to) {
    uint64_t number;
    if (!is_number(value, field, &number)) return false;
    *to = (uint32_t)number;
    return number <= UINT32_MAX || fails(SUP_BAD_LINE, field);
}

static bool is_word(PyObject *value, PyObject *words, const char *field, uint32_t *to) {
    for (Py_ssize_t i = PyTuple_Size(words); i-- > 0;) {
        int same = PyObject_RichCompareBool(value, PyTuple_GetItem(words, i), Py_EQ);
        *to = (uint32_t)i;
        if (same) return same > 0;
    }
    return fails(SUP_BAD_LINE, field);
}

static bool is_text(PyObject *value, const char *field, struct sup_text *to) {
    PyObject *bytes = PyUnicode_Check(value) ? PyUnicode_AsASCIIString(value) : NULL;
    PyErr_Clear();
    if (!bytes) return fails(SUP_BAD_LINE, field);
    to->len = (uint64_t)PyBytes_Size(bytes);
    memcpy(to->bytes, PyBytes_AsString(bytes), to->len < sizeof to->bytes ? (size_t)to->len : sizeof to->bytes);
    Py_DECREF(bytes);
    return true;
}

/* A named tuple of this type. One of a subclass may have another size. */
static bool is_tuple(PyObject *value, PyObject *type, Py_ssize_t size) {
    return ((PyObject *)Py_TYPE(value) == type || (PyTuple_Check(value) && PyObject_IsInstance(value, type) == 1)) && PyTuple_Size(value) == size;
}

static bool is_reason(PyObject *value, struct sup_entry *e) {
    if (!is_tuple(value, reason_type, 2)) return !PyErr_Occurred() && fails(SUP_BAD_LINE, "reason");
    return is_word(PyTuple_GetItem(value, 0), reasons, "reason", &e->reason) && is_text(PyTuple_GetItem(value, 1), "reason", &e->text);
}

static bool is_answer(PyObject *value, struct sup_entry *e) {
    e->answer = SUP_RUNNING, e->code = 0;
    if (value == running) return true;
    if (!is_tuple(value, answer_type, 2)) return !PyErr_Occurred() && fails(SUP_BAD_LINE, "answer");
    return is_small(PyTuple_GetItem(value, 0), "answer", &e->answer) && is_small(PyTuple_GetItem(value, 1), "code", &e->code);
}

static bool is_entry(PyObject *value, struct sup_entry *e) {
    memset(e, 0, sizeof *e);
    if (!is_tuple(value, entry_type, 8)) return !PyErr_Occurred() && PyErr_Format(PyExc_TypeError, "%R is no Entry", value);
    if (!is_word(PyTuple_GetItem(value, 0), operations, "operation", &e->operation)) return false;
    if (!(e->operation == SUP_EXIT ? is_reason(PyTuple_GetItem(value, 3), e) : is_text(PyTuple_GetItem(value, 4), "text", &e->text))) return false;
    return is_number(PyTuple_GetItem(value, 1), "moment", &e->moment) && is_number(PyTuple_GetItem(value, 2), "number", &e->number)
        && is_answer(PyTuple_GetItem(value, 5), e) && is_number(PyTuple_GetItem(value, 6), "handle", &e->handle)
        && is_number(PyTuple_GetItem(value, 7), "serial", &e->serial);
}

static PyObject *kept(PyObject *it) {
    Py_INCREF(it);
    return it;
}

/* A named tuple of parts, of which it takes over the references, or NULL if one is. */
static PyObject *made(PyObject *type, Py_ssize_t count, PyObject **part) {
    PyObject *all = spares[count], *parts = all ? PyTuple_GetItem(all, 0) : NULL, *it = NULL;
    bool is_whole = true;
    spares[count] = NULL; /* (a collection may come in) */
    if (!all || Py_REFCNT(parts) != 1) {
        Py_XDECREF(all);
        all = Py_BuildValue("(N)", parts = PyTuple_New(count));
    }
    for (Py_ssize_t i = 0; i < count; i++) {
        is_whole = is_whole && part[i] && all;
        if (all) PyTuple_SetItem(parts, i, part[i]);
        else Py_XDECREF(part[i]);
    }
    if (is_whole) it = tuple_new((PyTypeObject *)type, all, NULL);
    if (spares[count]) Py_XDECREF(all);
    else spares[count] = all;
    return it;
}

static PyObject *told_number(uint64_t number) { return PyLong_FromUnsignedLongLong(number); }
static PyObject *told_word(PyObject *words, uint32_t at) { return kept(PyTuple_GetItem(words, (Py_ssize_t)at)); }
static PyObject *told_text(const struct sup_text *text) { return PyUnicode_FromStringAndSize((const char *)text->bytes, (Py_ssize_t)text->len); }

static PyObject *told_reply(const struct sup_reply *r) {
    return made(reply_type, 4, (PyObject *[]){told_word(replies, r->kind), told_number(r->number), told_number(r->next), told_number(r->code)});
}

static PyObject *told_row(const struct sup_row *row) {
    return made(row_type, 3, (PyObject *[]){told_number(row->number), told_word(statuses, row->status - 1), told_text(&row->arg)});
}

static PyObject *told_answer(const struct sup_entry *e) {
    if (!e->code && e->answer <= SUP_IGNORE) return kept(e->answer == SUP_RUNNING ? running : ignore);
    return made(answer_type, 2, (PyObject *[]){told_number(e->answer), told_number(e->code)});
}

/* Asks the start function about an argument at a moment, and writes its answer into the entry. */
static bool begins(Core *self, const struct sup_text *asked, PyObject *moment, struct sup_entry *e) {
    PyObject *start = kept(self->start), *argument = told_text(asked), *answer = NULL;
    bool is_one = false;
    if (argument && (answer = PyObject_CallFunctionObjArgs(start, argument, moment, NULL))) {
        if (answer == running || is_tuple(answer, answer_type, 2)) is_one = is_answer(answer, e);
        else if (!PyErr_Occurred()) Py_XDECREF(PyObject_CallFunctionObjArgs(refuse, start, answer, NULL));
    }
    Py_DECREF(start), Py_XDECREF(argument), Py_XDECREF(answer);
    return is_one;
}

/* Enters an operation, and returns the reply. The start function is asked at most once, and may let others in that enter another: then
 * the rules are asked again. */
static PyObject *enters(Core *self, struct sup_entry *e, PyObject *moment) {
    struct sup_text asked;
    struct sup_reply reply;
    struct sup_entry begun = *e;
    uint64_t token = 0;
    uint32_t fault;
    bool is_begun = false;
    do {
        e->serial = self->stamp;
        if ((fault = sup_asks(&self->sup, e, &asked))) return refuses(fault, e);
        if (asked.len && !is_begun && !begins(self, &asked, moment, &begun)) return NULL;
        is_begun = is_begun || asked.len;
        e->answer = asked.len ? begun.answer : SUP_IGNORE;
        e->code = asked.len ? begun.code : 0;
        fault = sup_step_at(&self->sup, e, e->serial, &token, &reply);
    } while (fault == SUP_STALE);
    self->stamp += !fault;
    return fault ? refuses(fault, e) : told_reply(&reply);
}

/* Enters an operation: given are the moment, the argument of a start or else the child's number, and of an exit the reason. */
static PyObject *operated(PyObject *self, PyObject *const *given, Py_ssize_t count, uint32_t operation, Py_ssize_t wanted) {
    struct sup_entry e = sup_operation(operation, 0, 0);
    if (count != wanted) return PyErr_Format(PyExc_TypeError, "%zd arguments are needed, and not %zd", wanted, count);
    if (!is_number(given[0], "moment", &e.moment)) return NULL;
    if (operation == SUP_START && !is_text(given[1], "text", &e.text)) return NULL;
    if (operation != SUP_START && operation != SUP_STOP && !is_number(given[1], "number", &e.number)) return NULL;
    if (operation == SUP_EXIT && !is_reason(given[2], &e)) return NULL;
    return enters((Core *)self, &e, given[0]);
}

static PyObject *start_child(PyObject *self, PyObject *const *given, Py_ssize_t count) { return operated(self, given, count, SUP_START, 2); }
static PyObject *exit_child(PyObject *self, PyObject *const *given, Py_ssize_t count) { return operated(self, given, count, SUP_EXIT, 3); }
static PyObject *retry(PyObject *self, PyObject *const *given, Py_ssize_t count) { return operated(self, given, count, SUP_RETRY, 2); }
static PyObject *terminate_child(PyObject *self, PyObject *const *given, Py_ssize_t count) { return operated(self, given, count, SUP_TERMINATE, 2); }
static PyObject *stop(PyObject *self, PyObject *const *given, Py_ssize_t count) { return operated(self, given, count, SUP_STOP, 1); }

static PyObject *update(PyObject *self, PyObject *entry) {
    struct sup_entry e;
    PyObject *part[8], *reply = is_entry(entry, &e) ? enters((Core *)self, &e, PyTuple_GetItem(entry, 1)) : NULL;
    if (!reply) return NULL;
    for (int i = 0; i < 5; i++) part[i] = kept(PyTuple_GetItem(entry, i));
    part[5] = told_answer(&e), part[6] = kept(PyTuple_GetItem(entry, 6)), part[7] = told_number(e.serial);
    return Py_BuildValue("NN", reply, made(entry_type, 8, part));
}

static PyObject *step(PyObject *self, PyObject *entry) {
    struct sup_entry e;
    struct sup_reply reply;
    if (!is_entry(entry, &e)) return NULL;
    uint32_t fault = sup_step(sup_of(self), &e, &reply);
    ((Core *)self)->stamp += !fault;
    return fault ? refuses(fault, &e) : told_reply(&reply);
}

static PyObject *asks(PyObject *self, PyObject *entry) {
    struct sup_entry e;
    struct sup_text asked;
    if (!is_entry(entry, &e)) return NULL;
    uint32_t fault = sup_asks(sup_of(self), &e, &asked);
    return fault ? refuses(fault, &e) : asked.len ? told_text(&asked) : kept(Py_None);
}

static PyObject *child(PyObject *self, PyObject *given) {
    uint64_t number;
    struct sup_row row;
    if (!is_number(given, "number", &number)) return NULL;
    uint32_t fault = sup_child(sup_of(self), number, &row);
    return fault ? fails(fault, "") : row.status == SUP_ROW_RUNNING || row.status == SUP_ROW_RESTARTING ? told_row(&row) : kept(Py_None);
}

static PyObject *rows(PyObject *self, PyObject *args) {
    unsigned long long index, most;
    int left;
    if (!PyArg_ParseTuple(args, "KKp:_rows", &index, &most, &left)) return NULL;
    PyObject *list = PyList_New(0);
    for (uint64_t end = index + most; list && index < end; index++) {
        struct sup_row row;
        uint32_t fault = left ? sup_left(sup_of(self), index, &row) : sup_row(sup_of(self), index, &row);
        if (!fault && row.status == SUP_NOT_LISTED) break;
        PyObject *it = fault ? fails(fault, "") : row.status == SUP_ROW_DOWN ? NULL : told_row(&row);
        if (!it || PyList_Append(list, it)) Py_CLEAR(list);
        Py_XDECREF(it);
    }
    return list || PyErr_Occurred() ? list : kept(Py_None);
}

static PyObject *count(PyObject *self, PyObject *Py_UNUSED(none)) {
    struct sup_counts c;
    uint32_t fault = sup_count(sup_of(self), &c);
    return fault ? fails(fault, "") : Py_BuildValue("NNNNNO", told_number(c.specs), told_number(c.active), told_number(c.supervisors),
        told_number(c.workers), told_number(c.stamp), c.is_down ? Py_True : Py_False);
}

static PyObject *open_one(PyObject *self, PyObject *args) {
    const char *line;
    unsigned long long entries;
    PyObject *start, *before = ((Core *)self)->start;
    if (!PyArg_ParseTuple(args, "yKO:_open", &line, &entries, &start)) return NULL;
    uint32_t fault = sup_open(sup_of(self), (const uint8_t *)line, strlen(line), entries);
    if (fault) return fails(fault, "");
    ((Core *)self)->start = kept(start), ((Core *)self)->stamp = 0;
    Py_XDECREF(before);
    return kept(Py_None);
}

static PyObject *close_one(PyObject *self, PyObject *Py_UNUSED(none)) {
    sup_close(sup_of(self));
    return kept(Py_None);
}

static int traverse(PyObject *self, visitproc visit, void *arg) {
    Py_VISIT(Py_TYPE(self));
    Py_VISIT(((Core *)self)->start);
    return 0;
}

static int clear(PyObject *self) {
    sup_close(sup_of(self));
    Py_CLEAR(((Core *)self)->start);
    return 0;
}

static void dealloc(PyObject *self) {
    PyTypeObject *type = Py_TYPE(self);
    PyObject_GC_UnTrack(self);
    clear(self);
    ((freefunc)PyType_GetSlot(type, Py_tp_free))(self);
    Py_DECREF(type);
}

static PyObject *write_entry(PyObject *Py_UNUSED(module), PyObject *entry) {
    struct sup_entry e;
    char line[SUP_MOST_LINE + 1];
    if (!is_entry(entry, &e)) return NULL;
    uint32_t fault = sup_line(&e, line);
    return fault ? refuses(fault, &e) : PyUnicode_FromString(line);
}

static PyObject *read_entry(PyObject *Py_UNUSED(module), PyObject *line) {
    struct sup_entry e;
    uint64_t len;
    PyObject *bytes = PyUnicode_Check(line) ? PyUnicode_AsASCIIString(line) : NULL;
    PyErr_Clear();
    bool is_read = bytes && sup_read_entry((const uint8_t *)PyBytes_AsString(bytes), (size_t)PyBytes_Size(bytes), &e, &len) == SUP_DONE;
    Py_XDECREF(bytes);
    if (!is_read) return fails(SUP_BAD_LINE, "line");
    PyObject *reason = e.operation != SUP_EXIT ? kept(Py_None) : made(reason_type, 2, (PyObject *[]){told_word(reasons, e.reason), told_text(&e.text)});
    if (e.operation != SUP_START) e.text.len = 0;
    return made(entry_type, 8, (PyObject *[]){told_word(operations, e.operation), told_number(e.moment), told_number(e.number), reason,
        told_text(&e.text), told_answer(&e), told_number(e.handle), told_number(e.serial)});
}

static PyObject *version(PyObject *Py_UNUSED(module), PyObject *Py_UNUSED(none)) { return told_number(sup_version()); }

/* (0x0080 is METH_FASTCALL, which the limited API has from 3.10 on; 3.9, which changes no more, has the same) */
#define FAST(call) ((PyCFunction)(void (*)(void))call), 0x0080
static PyMethodDef methods[] = {
    {"start_child", FAST(start_child), "Enters the start of a child with this argument at a moment in seconds."},
    {"exit", FAST(exit_child), "Enters that the child with this number ended by itself."},
    {"retry", FAST(retry), "Enters that the restart of the child with this number is to be tried again."},
    {"terminate_child", FAST(terminate_child), "Enters the termination of the child with this number, which is listed no more."},
    {"stop", FAST(stop), "Enters that the supervisor stops, and all children end."},
    {"update", update, METH_O, "Enters an operation, with what the start function answers, and returns the reply and the entry."},
    {"step", step, METH_O, "Enters an entry as it is, with its answer: so a history is run again."},
    {"asks", asks, METH_O, "Returns the argument that the start function would be asked about, or None."},
    {"child", child, METH_O, "Returns the listed child with this number, or None if there is none or the supervisor is down."},
    {"close", close_one, METH_NOARGS, "Gives the memory back. Every later call but this one is refused."},
    {"_open", open_one, METH_VARARGS, NULL},
    {"_rows", rows, METH_VARARGS, NULL},
    {"_count", count, METH_NOARGS, NULL},
    {0},
};
static PyMethodDef functions[] = {
    {"write_entry", write_entry, METH_O, NULL},
    {"read_entry", read_entry, METH_O, NULL},
    {"version", version, METH_NOARGS, "Returns the version of the library: 100 is 0.1.0."},
    {0},
};
static PyType_Slot slots[] = {{Py_tp_methods, methods}, {Py_tp_dealloc, dealloc}, {Py_tp_traverse, traverse}, {Py_tp_clear, clear},
    {Py_tp_doc, "The rules of one supervisor."}, {0}};
static PyType_Spec core = {"sapyguendo._fast.Core", sizeof(Core), 0, Py_TPFLAGS_DEFAULT | Py_TPFLAGS_BASETYPE | Py_TPFLAGS_HAVE_GC, slots};
static struct PyModuleDef definition = {PyModuleDef_HEAD_INIT, .m_name = "sapyguendo._fast", .m_size = -1, .m_methods = functions};

/* (what is taken from words.py is kept as long as the process) */
PyMODINIT_FUNC PyInit__fast(void) {
    PyObject *words = PyImport_ImportModule("sapyguendo.words"), *parts = words ? PyObject_GetAttrString(words, "FOR_EXTENSION") : NULL;
    PyObject *plain = PyObject_CallFunction((PyObject *)&PyType_Type, "s(O){}", "plain", &PyTuple_Type);
    if (!parts || !plain || !PyArg_ParseTuple(parts, "OOOOOOOOOOOOO", &fault_type, &entry_type, &reason_type, &answer_type, &reply_type, &row_type,
        &running, &ignore, &refuse, &operations, &reasons, &replies, &statuses)) return NULL;
    tuple_new = (newfunc)PyType_GetSlot((PyTypeObject *)plain, Py_tp_new);
    PyObject *module = PyModule_Create(&definition), *type = PyType_FromSpec(&core);
    return module && type && PyModule_AddObject(module, "Core", type) == 0 ? module : NULL;
}
