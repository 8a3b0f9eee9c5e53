/* Reads the library's texts, which are JSON without spaces: as JSON, or as Python's own values, in which a list is a tuple, a
 * set a frozenset and a bag a Counter. Each other array is also a tuple, except the outermost one. */
#include <string.h>

#include "core.h"

typedef struct {
    const char *at, *end;
    Core *core;
    int is_own, depth;
} Reader;

static PyObject *read_value(Reader *from);

static PyObject *refuse_json(void)
{
    if (!PyErr_Occurred())
        PyErr_SetString(PyExc_SystemError, "folugben: the library wrote a text that can't be read");
    return NULL;
}

/* The number of four hexadecimal digits. */
static unsigned hexadecimal(const char *at)
{
    unsigned number = 0;
    for (int k = 0; k < 4; k++)
        number = 16 * number + (unsigned)(at[k] <= '9' ? at[k] - '0' : (at[k] | 32) - 'a' + 10);
    return number;
}

/* Writes a character in UTF-8. Returns the end. */
static char *utf_8(char *to, unsigned character)
{
    if (character < 0x80) {
        *to++ = (char)character;
        return to;
    }
    int more = character < 0x800 ? 1 : character < 0x10000 ? 2 : 3;
    static const unsigned char first[] = {0, 0xc0, 0xe0, 0xf0};
    *to++ = (char)(first[more] | character >> 6 * more);
    while (more--)
        *to++ = (char)(0x80 | (character >> 6 * more & 0x3f));
    return to;
}

/* A text with escapes, from after its first quote to its last one. */
static PyObject *unescape(const char *at, const char *end)
{
    static const char from[] = "nrtbf", to[] = "\n\r\t\b\f";
    char *room = PyMem_Malloc((size_t)(end - at)), *put = room;
    if (!room)
        return PyErr_NoMemory();
    while (at < end) {
        if (*at != '\\') {
            *put++ = *at++;
        } else if (at[1] == 'u' && end - at >= 6) {
            unsigned character = hexadecimal(at + 2);
            at += 6;
            if (character >> 10 == 0x36 && end - at >= 6) {
                character = 0x10000 + ((character & 0x3ff) << 10 | (hexadecimal(at + 2) & 0x3ff));
                at += 6;
            }
            put = utf_8(put, character);
        } else {
            const char *escape = strchr(from, at[1]);
            *put++ = escape && *escape ? to[escape - from] : at[1];
            at += 2;
        }
    }
    PyObject *result = PyUnicode_DecodeUTF8(room, put - room, NULL);
    PyMem_Free(room);
    return result;
}

static PyObject *read_str(Reader *from)
{
    const char *begin = ++from->at, *at = begin;
    int is_escaped = 0;
    for (; at < from->end && *at != '"'; at++)
        if (*at == '\\') {
            is_escaped = 1;
            at++;
        }
    if (at >= from->end)
        return refuse_json();
    from->at = at + 1;
    return is_escaped ? unescape(begin, at) : PyUnicode_DecodeUTF8(begin, at - begin, NULL);
}

/* Returns whether the closing character is next; a comma before another member is skipped. */
static int is_end(Reader *from, char sign)
{
    if (from->at < from->end && *from->at == ',')
        from->at++;
    if (from->at >= from->end || *from->at != sign)
        return 0;
    from->at++;
    return 1;
}

static PyObject *read_items(Reader *from)
{
    PyObject *list = PyList_New(0);
    from->at++;
    from->depth++;
    while (list && !is_end(from, ']')) {
        PyObject *one = read_value(from);
        if (!one || PyList_Append(list, one))
            Py_CLEAR(list);
        Py_XDECREF(one);
    }
    from->depth--;
    return list;
}

/* A list as the result of a Python function on it. */
static PyObject *convert_list(PyObject *list, PyObject *(*make)(PyObject *))
{
    PyObject *result = list ? make(list) : NULL;
    Py_XDECREF(list);
    return result;
}

static PyObject *read_list(Reader *from)
{
    PyObject *list = read_items(from);
    return from->is_own && from->depth > 0 ? convert_list(list, PyList_AsTuple) : list;
}

static PyObject *new_counter(Core *core, PyObject *pairs)
{
    PyObject *bag = PyObject_CallNoArgs(core->counter);
    for (Py_ssize_t k = 0; bag && k < PyList_Size(pairs); k++) {
        PyObject *pair = PyList_GetItem(pairs, k);
        if (PyDict_SetItem(bag, PyTuple_GetItem(pair, 0), PyTuple_GetItem(pair, 1)))
            Py_CLEAR(bag);
    }
    return bag;
}

/* A set or a bag; it stays as in JSON if two of its elements are equal in Python, as True and 1. */
static PyObject *read_members(Reader *from, int is_bag)
{
    PyObject *list = read_items(from), *result = NULL;
    if (list)
        result = is_bag ? new_counter(from->core, list) : PyFrozenSet_New(list);
    if (result && (is_bag ? PyDict_Size(result) : PySet_Size(result)) != PyList_Size(list)) {
        Py_DECREF(result);
        result = Py_BuildValue("{sO}", is_bag ? "bag" : "set", list);
    }
    Py_XDECREF(list);
    return result;
}

static int begins(Reader *from, const char *word)
{
    size_t len = strlen(word);
    if ((size_t)(from->end - from->at) <= len || memcmp(from->at, word, len))
        return 0;
    from->at += len;
    return 1;
}

/* A list, a set or a bag as Python's own; null without an exception if an object is none. */
static PyObject *read_own(Reader *from)
{
    PyObject *result;
    if (begins(from, "{\"list\":"))
        result = convert_list(read_items(from), PyList_AsTuple);
    else if (begins(from, "{\"set\":"))
        result = read_members(from, 0);
    else if (begins(from, "{\"bag\":"))
        result = read_members(from, 1);
    else
        return NULL;
    from->at++;
    return result;
}

static PyObject *read_object(Reader *from)
{
    PyObject *dict = from->is_own ? read_own(from) : NULL;
    if (dict || PyErr_Occurred())
        return dict;
    dict = PyDict_New();
    from->at++;
    from->depth++;
    while (dict && !is_end(from, '}')) {
        PyObject *key = from->at < from->end && *from->at == '"' ? read_str(from) : refuse_json(), *one = NULL;
        from->at++;
        if (!key || !(one = read_value(from)) || PyDict_SetItem(dict, key, one))
            Py_CLEAR(dict);
        Py_XDECREF(key);
        Py_XDECREF(one);
    }
    from->depth--;
    return dict;
}

static PyObject *read_word(Reader *from, const char *word, PyObject *value)
{
    size_t len = strlen(word);
    if ((size_t)(from->end - from->at) < len || memcmp(from->at, word, len))
        return refuse_json();
    from->at += len;
    return Py_NewRef(value);
}

static PyObject *read_number(Reader *from)
{
    const char *begin = from->at;
    int is_minus = *begin == '-';
    unsigned long long number = 0;
    from->at += is_minus;
    for (; from->at < from->end && *from->at >= '0' && *from->at <= '9'; from->at++)
        number = 10 * number + (unsigned)(*from->at - '0');
    size_t len = (size_t)(from->at - begin);
    if (ODD(len == (size_t)is_minus))
        return refuse_json();
    if (ODD(len > 18)) {
        char digits[32];
        if (len >= sizeof digits)
            return refuse_json();
        memcpy(digits, begin, len);
        digits[len] = 0;
        return PyLong_FromString(digits, NULL, 10);
    }
    return PyLong_FromLongLong(is_minus ? -(long long)number : (long long)number);
}

static PyObject *read_value(Reader *from)
{
    if (from->at >= from->end)
        return refuse_json();
    switch (*from->at) {
    case '"': return read_str(from);
    case '[': return read_list(from);
    case '{': return read_object(from);
    case 'n': return read_word(from, "null", Py_None);
    case 't': return read_word(from, "true", Py_True);
    case 'f': return read_word(from, "false", Py_False);
    default: return read_number(from);
    }
}

/* The value of a JSON text. */
PyObject *read_text(const void *text, size_t len)
{
    Reader from = {text, (const char *)text + len, NULL, 0, 0};
    return read_value(&from);
}

/* The same as Python's own values. The outermost array is a list, except a location's. */
PyObject *read_own_text(Core *core, const void *text, size_t len, int is_place)
{
    Reader from = {text, (const char *)text + len, core, 1, is_place};
    return read_value(&from);
}

/* The values of {"number":N,"values":[VALUE, ..]}, and the number. */
PyObject *read_values(Core *core, Room *room, uint32_t *number)
{
    static const char before[] = "{\"number\":", between[] = ",\"values\":";
    const char *at = (const char *)room->at + sizeof before - 1, *end = (const char *)room->at + room->written - 1;
    for (*number = 0; at < end && *at != ','; at++)
        *number = 10 * *number + (uint32_t)(*at - '0');
    at += sizeof between - 1;
    return at < end ? read_own_text(core, at, (size_t)(end - at), 0) : refuse_json();
}

/* The value that a call without text returned. */
PyObject *value_of(Core *core, const asm_value *value, const Room *room)
{
    switch (value->kind) {
    case ASM_KIND_NUM: return PyLong_FromLongLong(value->number);
    case ASM_KIND_UNDEF: return Py_NewRef(Py_None);
    case ASM_KIND_BOOL: return PyBool_FromLong((long)value->number);
    case ASM_KIND_TEXT: return PyUnicode_DecodeUTF8((const char *)room->at, (Py_ssize_t)room->written, NULL);
    default: return read_own_text(core, room->at, room->written, 0);
    }
}
