/* Writes values as JSON. It runs no Python code except what the garbage collector may run when an iterator is made. */
#include <string.h>

#include "core.h"

/* The kind of what is written, which decides what a tuple is there: a list as a value, and an array otherwise. If one location
 * is expected (AT), a str is one without arguments. */
enum { VALUE, MEMBERS, BAG, COUNT, PLACE, AT, PLACES, VERB, UPDATE, MOVE, PAIR, PAIRS, NAME, SCAN, SCANS };

static const struct {
    const char *name;
    int kind;
} names[] = {{"places", PLACES}, {"place", AT}, {"instructions", MOVE}, {"first", MOVE}, {"second", MOVE}, {"init", PAIRS},
    {"state", PAIRS}, {"reads", PAIRS}, {"scans", SCANS}};

static int inner(int kind, Py_ssize_t place)
{
    switch (kind) {
    case BAG: return COUNT;
    case PLACES: return PLACE;
    case MOVE: return UPDATE;
    case PAIRS: return PAIR;
    case SCANS: return SCAN;
    case SCAN: return place == 0 ? NAME : VALUE;
    case UPDATE: return place == 0 ? VERB : place == 1 ? AT : VALUE;
    case PAIR: return place == 0 ? AT : VALUE;
    default: return VALUE;
    }
}

void text_begin(Text *text)
{
    text->at = text->own;
    text->len = 0;
    text->room = sizeof text->own;
    text->odd = text->path = NULL;
}

void text_end(Text *text)
{
    if (text->at != text->own)
        PyMem_Free(text->at);
}

int text_put(Text *text, const char *what, size_t len)
{
    if (ODD(len > text->room - text->len)) {
        size_t room = 2 * (text->len + len);
        char *at = text->at == text->own ? PyMem_Malloc(room) : PyMem_Realloc(text->at, room);
        if (!at) {
            PyErr_NoMemory();
            return -1;
        }
        if (text->at == text->own)
            memcpy(at, text->own, text->len);
        text->at = at;
        text->room = room;
    }
    memcpy(text->at + text->len, what, len);
    text->len += len;
    return 0;
}

#define PUT(text, word) text_put(text, word, sizeof word - 1)

/* Refuses a value, at a path to which each value round it adds its part. */
static int odd(Text *text, PyObject *value)
{
    PyErr_Clear();
    text->odd = Py_NewRef(value);
    text->path = PyUnicode_FromString("");
    return -1;
}

static int odd_inside(Text *text, const char *format, PyObject *key, Py_ssize_t place)
{
    PyObject *path = text->path;
    if (path) {
        text->path = key ? PyUnicode_FromFormat(format, key, path) : PyUnicode_FromFormat("[%zd]%U", place, path);
        Py_DECREF(path);
    }
    return -1;
}

static int write_str(Text *text, PyObject *value)
{
    static const char digits[] = "0123456789abcdef";
    Py_ssize_t len, from = 0;
    const char *at = PyUnicode_AsUTF8AndSize(value, &len);
    if (!at)
        return odd(text, value);
    if (PUT(text, "\""))
        return -1;
    for (Py_ssize_t k = 0; k < len; k++) {
        unsigned char c = (unsigned char)at[k];
        if (ODD(c < 0x20 || c == '"' || c == '\\')) {
            char escaped[6] = {'\\', 'u', '0', '0', digits[c >> 4], digits[c & 15]};
            if (text_put(text, at + from, (size_t)(k - from)) || text_put(text, escaped, 6))
                return -1;
            from = k + 1;
        }
    }
    return text_put(text, at + from, (size_t)(len - from)) || PUT(text, "\"") ? -1 : 0;
}

static int write_int(Text *text, PyObject *value)
{
    int is_over;
    long long number = PyLong_AsLongLongAndOverflow(value, &is_over);
    if (is_over) {
        Py_ssize_t len;
        PyObject *decimal = PyNumber_ToBase(value, 10);
        const char *word = decimal ? PyUnicode_AsUTF8AndSize(decimal, &len) : NULL;
        int failed = !word || text_put(text, word, (size_t)len);
        Py_XDECREF(decimal);
        return failed ? -1 : 0;
    }
    char digits[24], *at = digits + sizeof digits;
    unsigned long long remaining = number < 0 ? 0ULL - (unsigned long long)number : (unsigned long long)number;
    do
        *--at = (char)('0' + remaining % 10);
    while (remaining /= 10);
    if (number < 0)
        *--at = '-';
    return text_put(text, at, (size_t)(digits + sizeof digits - at));
}

static int write_float(Text *text, PyObject *value)
{
    double number = PyFloat_AsDouble(value);
    if (number - number != 0)
        return odd(text, value);
    char *word = PyOS_double_to_string(number, 'r', 0, Py_DTSF_ADD_DOT_0, NULL);
    int failed = !word || text_put(text, word, strlen(word));
    PyMem_Free(word);
    return failed ? -1 : 0;
}

static int write_value(Core *core, Text *text, PyObject *value, int kind);

/* Writes a list or a tuple as an array. Each item is held, as the collector may run code that takes it out. */
static int write_items(Core *core, Text *text, PyObject *value, int kind)
{
    int is_list = PyList_Check(value), failed = 0;
    Py_ssize_t k = 0;
    if (Py_EnterRecursiveCall(" while a text is written"))
        return -1;
    for (; !failed && k < (is_list ? PyList_Size(value) : PyTuple_Size(value)); k++) {
        PyObject *one = Py_XNewRef(is_list ? PyList_GetItem(value, k) : PyTuple_GetItem(value, k));
        failed = !one || text_put(text, k ? "," : "[", 1) || write_value(core, text, one, inner(kind, k));
        Py_XDECREF(one);
    }
    Py_LeaveRecursiveCall();
    if (failed)
        return odd_inside(text, NULL, NULL, k - 1);
    return k ? PUT(text, "]") : PUT(text, "[]");
}

static int kind_of_members(PyObject *key)
{
    if (PyUnicode_CompareWithASCIIString(key, "bag") == 0)
        return BAG;
    int is_list = PyUnicode_CompareWithASCIIString(key, "list") == 0 || PyUnicode_CompareWithASCIIString(key, "set") == 0;
    return is_list ? MEMBERS : VALUE;
}

static int write_dict(Core *core, Text *text, PyObject *value)
{
    PyObject *key, *item;
    Py_ssize_t place = 0;
    int count = 0;
    if (Py_EnterRecursiveCall(" while a text is written"))
        return -1;
    int failed = PUT(text, "{");
    while (!failed && PyDict_Next(value, &place, &key, &item)) {
        if (!PyUnicode_Check(key)) {
            failed = odd(text, value);
            break;
        }
        Py_INCREF(key);
        Py_INCREF(item);
        failed = (count++ && PUT(text, ",")) || write_str(text, key) || PUT(text, ":");
        if (!failed && write_value(core, text, item, kind_of_members(key)))
            failed = odd_inside(text, "[\"%U\"]%U", key, 0);
        Py_DECREF(key);
        Py_DECREF(item);
    }
    Py_LeaveRecursiveCall();
    return failed ? -1 : PUT(text, "}");
}

/* Writes a set, or the elements of a Counter that are there, with their numbers. */
static int write_members(Core *core, Text *text, PyObject *value, int is_counter)
{
    PyObject *one, *members = PyObject_GetIter(value);
    int count = 0, failed = !members || (is_counter ? PUT(text, "{\"bag\":[") : PUT(text, "{\"set\":["));
    while (!failed && (one = PyIter_Next(members))) {
        PyObject *number = is_counter ? PyDict_GetItemWithError(value, one) : NULL;
        int is_absent = is_counter && (!number || (PyLong_Check(number) && !PyObject_IsTrue(number)));
        Py_XINCREF(number);
        if (!is_absent) {
            failed = (count++ && PUT(text, ",")) || (number && PUT(text, "[")) || write_value(core, text, one, VALUE);
            if (!failed && number && (PUT(text, ",") || write_value(core, text, number, VALUE) || PUT(text, "]")))
                failed = odd_inside(text, "[%R]%U", one, 0);
        }
        Py_XDECREF(number);
        Py_DECREF(one);
    }
    Py_XDECREF(members);
    return failed || PyErr_Occurred() ? -1 : PUT(text, "]}");
}

/* The remaining kinds of values. */
static int write_other(Core *core, Text *text, PyObject *value)
{
    if (PyBool_Check(value))
        return value == Py_True ? PUT(text, "true") : PUT(text, "false");
    if (PyDict_Check(value))
        return PyObject_TypeCheck(value, (PyTypeObject *)core->counter) ? write_members(core, text, value, 1)
                                                                        : write_dict(core, text, value);
    if (PyAnySet_Check(value))
        return write_members(core, text, value, 0);
    if (PyUnicode_Check(value))
        return write_str(text, value);
    if (PyLong_Check(value))
        return write_int(text, value);
    return PyFloat_Check(value) ? write_float(text, value) : odd(text, value);
}

/* Returns whether a text is the name of a function; what isn't is the name of none, so a scan of it guards nothing. */
static int is_name(const char *at, Py_ssize_t len)
{
    Py_ssize_t k = 0;
    while (k < len && (at[k] == '_' || (at[k] >= '0' && at[k] <= '9' && k) || ((at[k] | 32) >= 'a' && (at[k] | 32) <= 'z')))
        k++;
    return k == len && len > 0 && len <= 64;
}

static int write_value(Core *core, Text *text, PyObject *value, int kind)
{
    if (ODD(kind == NAME && PyUnicode_Check(value))) {
        Py_ssize_t len = 0;
        const char *at = PyUnicode_AsUTF8AndSize(value, &len);
        if (!at || !is_name(at, len))
            return odd(text, value);
    }
    if (kind == VERB && PyUnicode_Check(value)) {
        if (!PyUnicode_CompareWithASCIIString(value, "bag_add"))
            return PUT(text, "\"bagadd\"");
        if (!PyUnicode_CompareWithASCIIString(value, "bag_remove"))
            return PUT(text, "\"bagremove\"");
    }
    if (kind == AT && PyUnicode_Check(value))
        return PUT(text, "[") || write_str(text, value) ? -1 : PUT(text, "]");
    if (PyUnicode_CheckExact(value))
        return write_str(text, value);
    if (PyLong_CheckExact(value))
        return write_int(text, value);
    if (PyTuple_Check(value) && kind == VALUE)
        return PUT(text, "{\"list\":") || write_items(core, text, value, MEMBERS) ? -1 : PUT(text, "}");
    if (PyList_Check(value) || PyTuple_Check(value))
        return write_items(core, text, value, kind);
    if (value == Py_None)
        return PUT(text, "null");
    if ((kind == AT || kind == PLACE) && is_location(core, value)) {
        PyObject *its = ((Location *)value)->text;
        return text_put(text, PyBytes_AsString(its), (size_t)PyBytes_Size(its));
    }
    return write_other(core, text, value);
}

/* Writes a value, which errors name this way, after the text. Returns -1 with an exception. */
int write_more(Core *core, Text *text, PyObject *value, const char *name)
{
    int kind = VALUE;
    for (size_t k = 0; k < sizeof names / sizeof *names; k++)
        if (!strcmp(names[k].name, name))
            kind = names[k].kind;
    if (!write_value(core, text, value, kind))
        return 0;
    if (text->odd && text->path)
        refuse(core, ASM_SHAPE, "no_value", "(sOO)", name, text->path, text->odd);
    Py_CLEAR(text->odd);
    Py_CLEAR(text->path);
    return -1;
}

/* The same as a separate text, which is freed on failure. */
int write_named(Core *core, Text *text, PyObject *value, const char *name)
{
    text_begin(text);
    if (!write_more(core, text, value, name))
        return 0;
    text_end(text);
    return -1;
}

/* The text of a function's name, which lives as long as the name; null with an exception. If something must depend on the
 * function, the text has to be a name. */
const uint8_t *name_of(Core *core, PyObject *name, int is_guard, Py_ssize_t *len)
{
    const char *at = PyUnicode_Check(name) ? PyUnicode_AsUTF8AndSize(name, len) : NULL;
    if (at && (!is_guard || is_name(at, *len)))
        return (const uint8_t *)at;
    PyErr_Clear();
    refuse(core, ASM_SHAPE, "name", "(O)", name);
    return NULL;
}
