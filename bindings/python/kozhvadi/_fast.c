/* The calls that a program makes often, in the place of ctypes: the text of a message, and whether there is one.
 *
 * It is an extension module of Python's stable ABI, for Python 3.10 and later, over the library that _library.py opened. What
 * is unusual, such as a float or a text that can't be written in UTF-8, it leaves to _values.py. The library is asked under
 * the bundle's lock, under which no code of a program runs, or while nobody has it and no other thread can run.
 */
#define PY_SSIZE_T_CLEAN
#define Py_LIMITED_API 0x030A0000
#include <Python.h>
#include <structmember.h>

#include <stddef.h>
#include <wchar.h>

#include <fluent_c.h>

/* The stable ABI has this flag since 3.12. In 3.10 and 3.11 it is the same. */
#ifndef Py_TPFLAGS_HAVE_VECTORCALL
#define Py_TPFLAGS_HAVE_VECTORCALL (1UL << 11)
#endif

/* More arguments than these are not on the stack. */
#define FEW 16

/* A text of at most so many bytes is written onto the stack. */
#define ROOM 512

/* The number of a message that isn't looked up, and that of one that calls functions. */
#define NOWHERE SIZE_MAX
#define CALLS (SIZE_MAX - 1)

/* What is found once: calls of the library, and what is in Python. */
struct Found {
    __typeof__(&fluent_bundle_format) format;
    __typeof__(&fluent_bundle_call) call;
    __typeof__(&fluent_bundle_calls) calls;
    __typeof__(&fluent_bundle_has) has;
    __typeof__(&fluent_bundle_find) find;
    __typeof__(&fluent_bundle_write) write;
    __typeof__(&fluent_free_text) free_text;
    PyObject *answer;
    PyObject *answers;
    PyObject *each_call;
    PyObject *resolver_errors;
    PyObject *kind_and_text;
    PyObject *encoded;
    PyObject *method;
    /* The types of calls and of locks, and the name under which a bundle has its calls once nothing is left to warn of. */
    PyObject *calls_type;
    PyObject *lock_type;
    PyObject *quick;
};

/* A lock that the thread which has it may take again. It says whether a thread has it: while the extension asks the library, no
 * other thread runs, since it keeps Python's own lock, so it needn't take one that nobody has. */
struct Lock {
    PyObject_HEAD
    PyObject *acquire;
    PyObject *release;
    Py_ssize_t taken;
    PyObject *references;
};

/* The calls of one bundle, and the memory of its answers, which is under the bundle's lock too. */
struct Calls {
    PyObject_HEAD
    struct Found *found;
    struct Lock *lock;
    /* The object that has the bundle in it, and the bundle, or that which is none once these are closed. */
    PyObject *owner;
    struct FluentBundle *bundle;
    struct FluentBundle none;
    struct FluentText text;
    struct FluentText errors;
    struct FluentText call;
    /* The numbers of messages that were asked for, by their ids; of one that calls functions it is CALLS. */
    PyObject *numbers;
};

/* Arguments, and the objects that have their names and texts. */
struct Arguments {
    Py_ssize_t count;
    struct FluentArgument *list;
    /* For each argument its name, its value and what was made of it, or NULL. */
    PyObject *(*objects)[3];
    struct FluentArgument few[FEW];
    PyObject *few_objects[FEW][3];
};

/* The bytes of a text. Python says what is wrong if it isn't one, or can't be written in UTF-8. */
static bool bytes_of(struct Found *found, PyObject *text, const char *what, PyObject *name, const uint8_t **bytes, size_t *len) {
    Py_ssize_t size;
    const char *first = PyUnicode_Check(text) ? PyUnicode_AsUTF8AndSize(text, &size) : NULL;
    if (first) {
        *bytes = (const uint8_t *)first;
        *len = (size_t)size;
        return true;
    }
    PyErr_Clear();
    PyObject *encoded = PyObject_CallFunction(found->encoded, "OsO", text, what, name ? name : Py_None);
    if (encoded) {
        Py_DECREF(encoded);
        PyErr_NoMemory();
    }
    return false;
}

/* The text or the number that _values.py makes of a value. */
static bool made_of(
    struct Found *found, PyObject *formatter, PyObject *objects[3], struct FluentArgument *argument) {
    objects[2] = PyObject_CallFunctionObjArgs(found->kind_and_text, objects[0], objects[1], formatter, NULL);
    PyObject *text;
    return objects[2] && PyArg_ParseTuple(objects[2], "IO", &argument->kind, &text)
        && bytes_of(found, text, "the argument", objects[0], &argument->text, &argument->text_len);
}

/* The argument of a name and its value. */
static bool argument_of(
    struct Found *found, PyObject *formatter, PyObject *objects[3], struct FluentArgument *argument) {
    PyObject *name = objects[0], *value = objects[1];
    argument->text = (const uint8_t *)"";
    if (!bytes_of(found, name, "the name of an argument", name, &argument->name, &argument->name_len))
        return false;
    if (PyUnicode_CheckExact(value)) {
        argument->kind = FLUENT_TEXT;
        return bytes_of(found, value, "the argument", name, &argument->text, &argument->text_len);
    }
    if (PyLong_CheckExact(value)) {
        int overflow;
        argument->kind = FLUENT_INTEGER;
        argument->integer = PyLong_AsLongLongAndOverflow(value, &overflow);
        if (!overflow)
            return true;
    }
    return made_of(found, formatter, objects, argument);
}

static void free_arguments(struct Arguments *arguments) {
    for (Py_ssize_t each = 0; each < arguments->count; each++)
        for (int which = 0; which < 3; which++)
            Py_XDECREF(arguments->objects[each][which]);
    if (arguments->list != arguments->few) {
        PyMem_Free(arguments->list);
        PyMem_Free(arguments->objects);
    }
}

/* Has room for the arguments of a dictionary, which are none as yet. */
static bool make_room(struct Arguments *arguments, Py_ssize_t count) {
    arguments->count = 0;
    arguments->list = arguments->few;
    arguments->objects = arguments->few_objects;
    if (count <= FEW)
        return true;
    struct FluentArgument *list = PyMem_Calloc((size_t)count, sizeof *list);
    PyObject *(*objects)[3] = PyMem_Calloc((size_t)count, sizeof *objects);
    if (list && objects) {
        arguments->list = list;
        arguments->objects = objects;
        return true;
    }
    PyMem_Free(list);
    PyMem_Free(objects);
    PyErr_NoMemory();
    return false;
}

/* The arguments of a dictionary. Whatever comes back, they are to be freed. */
static bool arguments_of(struct Found *found, PyObject *given, PyObject *formatter, struct Arguments *arguments) {
    Py_ssize_t count = PyDict_Size(given), at = 0;
    PyObject *name, *value;
    if (!make_room(arguments, count < 0 ? 0 : count) || count < 0)
        return false;
    /* First they are all held, since a formatter could change the dictionary. */
    while (arguments->count < count && PyDict_Next(given, &at, &name, &value)) {
        PyObject **objects = arguments->objects[arguments->count];
        Py_INCREF(name);
        Py_INCREF(value);
        objects[0] = name;
        objects[1] = value;
        objects[2] = NULL;
        arguments->list[arguments->count++] = (struct FluentArgument){0};
    }
    for (Py_ssize_t each = 0; each < arguments->count; each++)
        if (!argument_of(found, formatter, arguments->objects[each], &arguments->list[each]))
            return false;
    return true;
}

/* Takes a lock. */
static bool take(struct Lock *lock) {
    PyObject *done = PyObject_CallNoArgs(lock->acquire);
    lock->taken += done != NULL;
    Py_XDECREF(done);
    return done != NULL;
}

/* Gives a lock back. */
static bool give_back(struct Lock *lock) {
    PyObject *done = PyObject_CallNoArgs(lock->release);
    lock->taken -= done != NULL;
    Py_XDECREF(done);
    return done != NULL;
}

static PyObject *string_of(const struct FluentText *text) {
    return PyUnicode_FromStringAndSize(text->len ? (const char *)text->bytes : "", (Py_ssize_t)text->len);
}

/* How many of the first bytes are ASCII. */
static size_t ascii_len(const uint8_t *bytes, size_t len) {
    size_t each = 0;
    uint64_t word;
    for (; each + sizeof word <= len; each += sizeof word) {
        memcpy(&word, bytes + each, sizeof word);
        if (word & 0x8080808080808080)
            break;
    }
    while (each < len && bytes[each] < 0x80)
        each++;
    return each;
}

/* The character that begins at `*at`, which is moved after it. The bytes are UTF-8. */
static wchar_t character_at(const uint8_t **at) {
    const uint8_t *byte = *at;
    int more = byte[0] < 0x80 ? 0 : byte[0] < 0xe0 ? 1 : byte[0] < 0xf0 ? 2 : 3;
    uint32_t character = more ? byte[0] & (0x3f >> more) : byte[0];
    for (int each = 1; each <= more; each++)
        character = character << 6 | (byte[each] & 0x3f);
    *at = byte + more + 1;
    return (wchar_t)character;
}

/* The text of a room, which is UTF-8. Python takes characters in less time than bytes. */
static PyObject *short_string_of(const uint8_t *room, size_t len) {
    if (sizeof(wchar_t) < sizeof(uint32_t) || ascii_len(room, len) == len)
        return PyUnicode_FromStringAndSize((const char *)room, (Py_ssize_t)len);
    wchar_t characters[ROOM];
    Py_ssize_t count = 0;
    for (const uint8_t *at = room; at < room + len;)
        characters[count++] = *at < 0x80 ? (wchar_t)*at++ : character_at(&at);
    return PyUnicode_FromWideChar(characters, count);
}

/* The errors of functions, and those of lines, which are NULL if there are none. */
static PyObject *errors_of(struct Found *found, PyObject *functions, PyObject *lines) {
    PyObject *errors = lines ? PyObject_CallFunctionObjArgs(found->resolver_errors, lines, NULL) : PyList_New(0);
    if (!errors || !functions)
        return errors;
    PyObject *raised = PyObject_GetAttrString(functions, "errors");
    PyObject *all = raised ? PySequence_Concat(raised, errors) : NULL;
    Py_XDECREF(raised);
    Py_DECREF(errors);
    return all;
}

/* An answer of a text and of its errors. */
static PyObject *answer_of(struct Found *found, PyObject *functions, PyObject *text, PyObject *lines) {
    PyObject *errors = errors_of(found, functions, lines);
    PyObject *made = errors ? PyType_GenericAlloc((PyTypeObject *)found->answer, 2) : NULL;
    if (!made) {
        Py_XDECREF(errors);
        return NULL;
    }
    Py_INCREF(text);
    PyTuple_SetItem(made, 0, text);
    PyTuple_SetItem(made, 1, errors);
    return made;
}

/* The pattern of these names, of which the attribute may be `None`. It has no number yet. */
static bool names_of(struct Found *found, PyObject *const *given, struct FluentPattern *names) {
    names->attribute = (const uint8_t *)"";
    names->attribute_len = 0;
    names->number = NOWHERE;
    return bytes_of(found, given[0], "the id", NULL, &names->id, &names->id_len)
        && (given[1] == Py_None
            || bytes_of(found, given[1], "the name of the attribute", NULL, &names->attribute, &names->attribute_len));
}

/* The answers to the calls that a message met. */
struct Answers {
    /* Whether messages call functions. */
    bool are_asked_for;
    /* What calls the functions and holds the texts of the answers, from the first call on. */
    PyObject *functions;
    Py_ssize_t count;
    struct FluentArgument *list;
};

static void free_answers(struct Answers *answers) {
    Py_XDECREF(answers->functions);
    PyMem_Free(answers->list);
}

/* Makes room for this many more answers, and what calls the functions if these are the first. */
static bool make_ready(
    struct Found *found, Py_ssize_t more, PyObject *functions, PyObject *formatter, PyObject *given,
    struct Answers *answers) {
    size_t size = (size_t)(answers->count + more) * sizeof *answers->list;
    struct FluentArgument *list = PyMem_Realloc(answers->list, size);
    if (!list) {
        PyErr_NoMemory();
        return false;
    }
    answers->list = list;
    if (!answers->functions)
        answers->functions = PyObject_CallFunctionObjArgs(found->answers, functions, formatter, given, NULL);
    return answers->functions != NULL;
}

/* Calls the function of a call, by its text, and keeps the answer. */
static bool add_answer(struct Answers *answers, PyObject *call) {
    const char *name, *text;
    Py_ssize_t name_len, text_len;
    uint32_t kind;
    PyObject *made = PyObject_CallMethod(answers->functions, "add", "O", call);
    bool is_made = made && PyArg_ParseTuple(made, "y#Iy#", &name, &name_len, &kind, &text, &text_len);
    if (is_made)
        answers->list[answers->count++] = (struct FluentArgument){
            .name = (const uint8_t *)name, .name_len = (size_t)name_len, .text = (const uint8_t *)text,
            .text_len = (size_t)text_len, .kind = kind};
    Py_XDECREF(made);
    return is_made;
}

/* What the library says: its status, and if there is an answer its text and the lines of its errors, or NULL; or the text of a
 * call, and lines of it and those that are met whatever any of them gives, or NULL. */
struct Said {
    uint32_t status;
    PyObject *text;
    PyObject *lines;
};

/* Asks the library: the status. */
static uint32_t status_of(
    struct Calls *calls, const struct FluentPattern *names, const struct Arguments *arguments, const struct Answers *answers) {
    if (!answers->are_asked_for)
        return calls->found->format(
            calls->bundle, names->id, names->id_len, names->attribute, names->attribute_len, arguments->list,
            (size_t)arguments->count, &calls->text, &calls->errors);
    /* The library takes an address for none, too. */
    const struct FluentArgument *list = answers->list ? answers->list : arguments->list;
    return calls->found->call(
        calls->bundle, names->id, names->id_len, names->attribute, names->attribute_len, arguments->list,
        (size_t)arguments->count, list, (size_t)answers->count, &calls->text, &calls->errors, &calls->call);
}

/* Whether the library lists calls in lines. A message with one call isn't asked for others. */
static bool lists_calls(
    struct Calls *calls, const struct FluentPattern *names, const struct Arguments *arguments, const struct Answers *answers) {
    return answers->count
        && calls->found->calls(
               calls->bundle, names->id, names->id_len, names->attribute, names->attribute_len, arguments->list,
               (size_t)arguments->count, answers->list, (size_t)answers->count, &calls->call)
            == FLUENT_READ;
}

/* Keeps the number of a message. */
static void keep_number(struct Calls *calls, PyObject *id, size_t number) {
    PyObject *kept = PyLong_FromSize_t(number);
    if (!kept || PyDict_SetItem(calls->numbers, id, kept) < 0)
        PyErr_Clear();
    Py_XDECREF(kept);
}

/* Gives a pattern the number of its message, which is looked up once. */
static void number(struct Calls *calls, PyObject *id, struct FluentPattern *names) {
    if (!PyUnicode_CheckExact(id))
        return;
    PyObject *kept = PyDict_GetItemWithError(calls->numbers, id);
    if (kept) {
        names->number = PyLong_AsSize_t(kept);
        return;
    }
    PyErr_Clear();
    if (calls->found->find(calls->bundle, names->id, names->id_len, names->attribute, names->attribute_len, &names->number) == FLUENT_READ)
        keep_number(calls, id, names->number);
}

/* Whether the library writes a text onto the stack: if there is one, it isn't long, and it calls no functions. No code of Python
 * runs until what was written is copied. */
static bool is_written(
    struct Calls *calls, PyObject *id, struct FluentPattern *names, const struct Arguments *arguments, struct Said *said) {
    uint8_t room[ROOM];
    size_t len;
    number(calls, id, names);
    if (names->number == CALLS)
        return false;
    said->status = calls->found->write(
        calls->bundle, names, arguments->list, (size_t)arguments->count, room, ROOM, &len, &calls->errors);
    if (said->status == FLUENT_CALL)
        keep_number(calls, id, CALLS);
    if (said->status != FLUENT_READ)
        return false;
    said->text = short_string_of(room, len);
    return true;
}

/* Asks the library under the lock. Whatever comes back, what it says is to be freed. */
static bool ask(
    struct Calls *calls, PyObject *id, struct FluentPattern *names, const struct Arguments *arguments,
    const struct Answers *answers, struct Said *said) {
    said->text = said->lines = NULL;
    if (!take(calls->lock))
        return false;
    bool is_short = !answers->count && is_written(calls, id, names, arguments, said);
    if (!is_short)
        said->status = status_of(calls, names, arguments, answers);
    bool is_answer = said->status == FLUENT_READ, is_call = said->status == FLUENT_CALL;
    if (!is_short && (is_answer || is_call))
        said->text = string_of(is_call ? &calls->call : &calls->text);
    bool has_lines = is_call ? lists_calls(calls, names, arguments, answers) : is_answer && calls->errors.held;
    if (has_lines)
        said->lines = string_of(is_call ? &calls->call : &calls->errors);
    bool is_free = give_back(calls->lock);
    return is_free && (said->text || !(is_answer || is_call)) && (said->lines || !has_lines);
}

/* Calls the functions of the calls that the library says. */
static bool answer_calls(
    struct Found *found, const struct Said *said, PyObject *functions, PyObject *formatter, PyObject *given,
    struct Answers *answers) {
    if (!said->lines)
        return make_ready(found, 1, functions, formatter, given, answers) && add_answer(answers, said->text);
    PyObject *calls = PyObject_CallFunctionObjArgs(found->each_call, said->text, said->lines, NULL);
    Py_ssize_t count = calls ? PyList_Size(calls) : 0;
    bool is_answered = calls && make_ready(found, count, functions, formatter, given, answers);
    for (Py_ssize_t each = 0; is_answered && each < count; each++)
        is_answered = add_answer(answers, PyList_GetItem(calls, each));
    Py_XDECREF(calls);
    return is_answered;
}

/* An answer, or the status if there is none. Functions are called until each call that the answer meets has an answer: they
 * may ask the bundle. */
static PyObject *answered(
    struct Calls *calls, PyObject *id, struct FluentPattern *names, const struct Arguments *arguments, PyObject *functions,
    PyObject *formatter, PyObject *given) {
    struct Answers answers = {.are_asked_for = PyDict_Size(functions) > 0};
    struct Said said;
    bool is_said;
    while ((is_said = ask(calls, id, names, arguments, &answers, &said)) && said.status == FLUENT_CALL) {
        is_said = answer_calls(calls->found, &said, functions, formatter, given, &answers);
        Py_CLEAR(said.text);
        Py_CLEAR(said.lines);
        if (!is_said)
            break;
    }
    PyObject *made = NULL;
    if (is_said && said.status == FLUENT_READ)
        made = answer_of(calls->found, answers.functions, said.text, said.lines);
    else if (is_said)
        made = PyLong_FromUnsignedLong(said.status);
    Py_XDECREF(said.text);
    Py_XDECREF(said.lines);
    free_answers(&answers);
    return made;
}

/* format(id, attribute, arguments, formatter, functions): an answer, or the status if there is none. */
static PyObject *format(PyObject *self, PyObject *const *given, Py_ssize_t count) {
    struct Calls *calls = (struct Calls *)self;
    struct FluentPattern names;
    struct Arguments arguments;
    if (count != 5 || !calls->found->answer) {
        PyErr_SetString(PyExc_TypeError, "format takes five arguments, before Python ends");
        return NULL;
    }
    if (!names_of(calls->found, given, &names))
        return NULL;
    bool are_taken = arguments_of(calls->found, given[2], given[3], &arguments);
    PyObject *made = are_taken ? answered(calls, given[0], &names, &arguments, given[4], given[3], given[2]) : NULL;
    free_arguments(&arguments);
    return made;
}

/* The argument of a name and of a value that is a text or an integer. It is false, without an error, if it has to be made in another
 * way. */
static bool is_usual(PyObject *name, PyObject *value, struct FluentArgument *argument) {
    Py_ssize_t name_len, text_len = 0;
    const char *key = PyUnicode_AsUTF8AndSize(name, &name_len), *text = "";
    int64_t integer = 0;
    bool is_text = PyUnicode_CheckExact(value);
    int overflow = !is_text && !PyLong_CheckExact(value);
    if (key && is_text)
        text = PyUnicode_AsUTF8AndSize(value, &text_len);
    else if (key && !overflow)
        integer = PyLong_AsLongLongAndOverflow(value, &overflow);
    if (!key || !text || overflow) {
        PyErr_Clear();
        return false;
    }
    *argument = (struct FluentArgument){
        .name = (const uint8_t *)key, .name_len = (size_t)name_len, .text = (const uint8_t *)text, .text_len = (size_t)text_len,
        .integer = integer, .kind = is_text ? FLUENT_TEXT : FLUENT_INTEGER};
    return true;
}

/* The answer to what is usual: texts and integers for a text that is written into the room. It is NULL, without an error, if the
 * answer has to be found in another way. */
static PyObject *quickly(struct Calls *calls, PyObject *const *given, Py_ssize_t count, PyObject *keywords) {
    /* What isn't used isn't cleared. */
    struct Arguments arguments;
    arguments.count = keywords ? PyTuple_Size(keywords) : 0;
    arguments.list = arguments.few;
    PyObject *names[] = {given[0], count == 2 ? given[1] : Py_None};
    struct FluentPattern pattern;
    if (count > 2 || arguments.count > FEW || !calls->found->answer || !names_of(calls->found, names, &pattern))
        return NULL;
    for (Py_ssize_t each = 0; each < arguments.count; each++)
        if (!is_usual(PyTuple_GetItem(keywords, each), given[count + each], &arguments.few[each]))
            return NULL;
    struct Said said = {0};
    bool is_taken = calls->lock->taken != 0;
    if (is_taken && !take(calls->lock))
        return NULL;
    bool has_lines = is_written(calls, given[0], &pattern, &arguments, &said) && calls->errors.held;
    if (has_lines)
        said.lines = string_of(&calls->errors);
    bool is_free = !is_taken || give_back(calls->lock);
    bool is_whole = is_free && said.text && (said.lines || !has_lines);
    PyObject *made = is_whole ? answer_of(calls->found, NULL, said.text, said.lines) : NULL;
    Py_XDECREF(said.text);
    Py_XDECREF(said.lines);
    return made;
}

/* has(id, attribute): the status. */
static PyObject *has(PyObject *self, PyObject *const *given, Py_ssize_t count) {
    struct Calls *calls = (struct Calls *)self;
    struct FluentPattern names;
    if (count != 2 || !calls->found->encoded) {
        PyErr_SetString(PyExc_TypeError, "has takes two arguments, before Python ends");
        return NULL;
    }
    if (!names_of(calls->found, given, &names) || !take(calls->lock))
        return NULL;
    uint32_t found = calls->found->has(calls->bundle, names.id, names.id_len, names.attribute, names.attribute_len);
    return give_back(calls->lock) ? PyLong_FromUnsignedLong(found) : NULL;
}

/* close(): from now on there is no bundle. The one that was asked may be that of others. */
static PyObject *close_calls(PyObject *self, PyObject *none) {
    (void)none;
    struct Calls *calls = (struct Calls *)self;
    calls->bundle = &calls->none;
    PyObject *owner = calls->owner;
    Py_INCREF(Py_None);
    calls->owner = Py_None;
    Py_DECREF(owner);
    Py_RETURN_NONE;
}

static PyObject *new_calls(PyTypeObject *type, PyObject *arguments, PyObject *keywords) {
    struct Found *found = PyType_GetModuleState(type);
    PyObject *address, *owner, *lock;
    if (keywords && PyDict_Size(keywords)) {
        PyErr_SetString(PyExc_TypeError, "Calls takes no keywords");
        return NULL;
    }
    if (!PyArg_ParseTuple(arguments, "OOO!", &address, &owner, found->lock_type, &lock))
        return NULL;
    struct FluentBundle *bundle = PyLong_AsVoidPtr(address);
    if (!bundle && PyErr_Occurred())
        return NULL;
    /* Its memory is all zeros, so it has no texts yet. */
    struct Calls *calls = (struct Calls *)PyType_GenericAlloc(type, 0);
    if (!calls)
        return NULL;
    calls->found = found;
    Py_INCREF(owner);
    calls->owner = owner;
    calls->bundle = bundle;
    Py_INCREF(lock);
    calls->lock = (struct Lock *)lock;
    calls->numbers = PyDict_New();
    if (calls->numbers)
        return (PyObject *)calls;
    Py_DECREF(calls);
    return NULL;
}

static void free_calls(PyObject *self) {
    struct Calls *calls = (struct Calls *)self;
    PyTypeObject *type = Py_TYPE(self);
    calls->found->free_text(&calls->text);
    calls->found->free_text(&calls->errors);
    calls->found->free_text(&calls->call);
    Py_DECREF(calls->lock);
    Py_XDECREF(calls->numbers);
    Py_DECREF(calls->owner);
    PyObject_Free(self);
    Py_DECREF(type);
}

static PyMethodDef methods[] = {
    {"format", (PyCFunction)(void (*)(void))format, METH_FASTCALL, NULL},
    {"has", (PyCFunction)(void (*)(void))has, METH_FASTCALL, NULL},
    {"close", close_calls, METH_NOARGS, NULL},
    {NULL, NULL, 0, NULL},
};

static PyType_Slot calls_slots[] = {
    {Py_tp_new, new_calls},
    {Py_tp_dealloc, free_calls},
    {Py_tp_methods, methods},
    {0, NULL},
};

static PyType_Spec calls_spec = {
    .name = "kozhvadi._fast.Calls",
    .basicsize = sizeof(struct Calls),
    .flags = Py_TPFLAGS_DEFAULT,
    .slots = calls_slots,
};

static PyObject *new_lock(PyTypeObject *type, PyObject *arguments, PyObject *keywords) {
    PyObject *inner;
    if (keywords && PyDict_Size(keywords)) {
        PyErr_SetString(PyExc_TypeError, "Lock takes no keywords");
        return NULL;
    }
    if (!PyArg_ParseTuple(arguments, "O", &inner))
        return NULL;
    struct Lock *lock = (struct Lock *)PyType_GenericAlloc(type, 0);
    if (!lock)
        return NULL;
    lock->acquire = PyObject_GetAttrString(inner, "acquire");
    lock->release = PyObject_GetAttrString(inner, "release");
    if (lock->acquire && lock->release)
        return (PyObject *)lock;
    Py_DECREF(lock);
    return NULL;
}

static void free_lock(PyObject *self) {
    struct Lock *lock = (struct Lock *)self;
    PyTypeObject *type = Py_TYPE(self);
    if (lock->references)
        PyObject_ClearWeakRefs(self);
    Py_XDECREF(lock->acquire);
    Py_XDECREF(lock->release);
    PyObject_Free(self);
    Py_DECREF(type);
}

/* acquire(blocking=True): whether it is taken. */
static PyObject *acquire(PyObject *self, PyObject *positional, PyObject *named) {
    struct Lock *lock = (struct Lock *)self;
    PyObject *done = PyObject_Call(lock->acquire, positional, named);
    lock->taken += done == Py_True;
    return done;
}

static PyObject *enter(PyObject *self, PyObject *none) {
    (void)none;
    return take((struct Lock *)self) ? PyBool_FromLong(1) : NULL;
}

/* release(), and __exit__(kind, error, trace). */
static PyObject *release(PyObject *self, PyObject *given) {
    (void)given;
    if (!give_back((struct Lock *)self))
        return NULL;
    Py_RETURN_NONE;
}

static PyMethodDef lock_methods[] = {
    {"acquire", (PyCFunction)(void (*)(void))acquire, METH_VARARGS | METH_KEYWORDS, NULL},
    {"release", release, METH_NOARGS, NULL},
    {"__enter__", enter, METH_NOARGS, NULL},
    {"__exit__", release, METH_VARARGS, NULL},
    {NULL, NULL, 0, NULL},
};

static PyMemberDef lock_members[] = {
    {"__weaklistoffset__", T_PYSSIZET, offsetof(struct Lock, references), READONLY, NULL},
    {NULL, 0, 0, 0, NULL},
};

static PyType_Slot lock_slots[] = {
    {Py_tp_new, new_lock},
    {Py_tp_dealloc, free_lock},
    {Py_tp_methods, lock_methods},
    {Py_tp_members, lock_members},
    {0, NULL},
};

static PyType_Spec lock_spec = {
    .name = "kozhvadi._fast.Lock",
    .basicsize = sizeof(struct Lock),
    .flags = Py_TPFLAGS_DEFAULT,
    .slots = lock_slots,
};

/* A method of bundles, which answers what is usual itself, and calls the function that it wraps for the rest. As a method in Python
 * it is called without a tuple and a dictionary of its arguments, and is bound when it is taken from a bundle. */
struct Quick {
    PyObject_HEAD
    PyObject *(*called)(PyObject *self, PyObject *const *given, size_t count, PyObject *keywords);
    struct Found *found;
    PyObject *function;
    PyObject *attributes;
};

/* Calls the function. */
static PyObject *fully(PyObject *function, PyObject *const *given, Py_ssize_t count, PyObject *keywords) {
    PyObject *positional = PyTuple_New(count), *named = keywords ? PyDict_New() : NULL;
    bool are_made = positional && (named || !keywords);
    for (Py_ssize_t each = 0; are_made && each < count; each++) {
        Py_INCREF(given[each]);
        PyTuple_SetItem(positional, each, given[each]);
    }
    for (Py_ssize_t each = 0; are_made && keywords && each < PyTuple_Size(keywords); each++)
        are_made = PyDict_SetItem(named, PyTuple_GetItem(keywords, each), given[count + each]) == 0;
    PyObject *made = are_made ? PyObject_Call(function, positional, named) : NULL;
    Py_XDECREF(positional);
    Py_XDECREF(named);
    return made;
}

/* What a bundle answers, of which the calls may be asked: the bundle is the first of what is given. */
static PyObject *call_method(PyObject *self, PyObject *const *given, size_t count, PyObject *keywords) {
    struct Quick *quick = (struct Quick *)self;
    /* The highest bit says that the caller lends the place before the first. */
    Py_ssize_t positional = (Py_ssize_t)(count & ~((size_t)1 << (8 * sizeof count - 1)));
    PyObject *calls = positional > 1 && quick->found->quick ? PyObject_GetAttr(given[0], quick->found->quick) : NULL;
    PyObject *made = NULL;
    if (!calls)
        PyErr_Clear();
    else if ((PyObject *)Py_TYPE(calls) == quick->found->calls_type)
        made = quickly((struct Calls *)calls, given + 1, positional - 1, keywords);
    Py_XDECREF(calls);
    return made || PyErr_Occurred() ? made : fully(quick->function, given, positional, keywords);
}

/* The call by a tuple and a dictionary. */
static PyObject *call_by_objects(PyObject *self, PyObject *positional, PyObject *named) {
    return PyObject_Call(((struct Quick *)self)->function, positional, named);
}

/* The method of a bundle, or the function if it is taken from the class. */
static PyObject *bound(PyObject *self, PyObject *bundle, PyObject *type) {
    (void)type;
    struct Quick *quick = (struct Quick *)self;
    if (bundle && bundle != Py_None && quick->found->method)
        return PyObject_CallFunctionObjArgs(quick->found->method, self, bundle, NULL);
    Py_INCREF(quick->function);
    return quick->function;
}

static PyObject *new_quick(PyTypeObject *type, PyObject *arguments, PyObject *keywords) {
    PyObject *function;
    if (keywords && PyDict_Size(keywords)) {
        PyErr_SetString(PyExc_TypeError, "Quick takes no keywords");
        return NULL;
    }
    if (!PyArg_ParseTuple(arguments, "O", &function))
        return NULL;
    struct Quick *quick = (struct Quick *)PyType_GenericAlloc(type, 0);
    if (!quick)
        return NULL;
    quick->called = call_method;
    quick->found = PyType_GetModuleState(type);
    Py_INCREF(function);
    quick->function = function;
    return (PyObject *)quick;
}

static void free_quick(PyObject *self) {
    PyTypeObject *type = Py_TYPE(self);
    Py_XDECREF(((struct Quick *)self)->function);
    Py_XDECREF(((struct Quick *)self)->attributes);
    PyObject_Free(self);
    Py_DECREF(type);
}

/* The class, for who asks whether this is a function: a tool that replaces methods treats it as one then. */
static PyObject *class_of_function(PyObject *self, void *none) {
    (void)none;
    PyObject *type = (PyObject *)Py_TYPE(((struct Quick *)self)->function);
    Py_INCREF(type);
    return type;
}

static PyGetSetDef quick_gets[] = {
    {"__class__", class_of_function, NULL, NULL, NULL},
    {NULL, NULL, NULL, NULL, NULL},
};

static PyMemberDef quick_members[] = {
    {"__vectorcalloffset__", T_PYSSIZET, offsetof(struct Quick, called), READONLY, NULL},
    {"__dictoffset__", T_PYSSIZET, offsetof(struct Quick, attributes), READONLY, NULL},
    {NULL, 0, 0, 0, NULL},
};

static PyType_Slot quick_slots[] = {
    {Py_tp_new, new_quick},
    {Py_tp_dealloc, free_quick},
    {Py_tp_call, call_by_objects},
    {Py_tp_descr_get, bound},
    {Py_tp_getset, quick_gets},
    {Py_tp_members, quick_members},
    {0, NULL},
};

static PyType_Spec quick_spec = {
    .name = "kozhvadi._fast.Quick",
    .basicsize = sizeof(struct Quick),
    .flags = Py_TPFLAGS_DEFAULT | Py_TPFLAGS_HAVE_VECTORCALL | Py_TPFLAGS_METHOD_DESCRIPTOR,
    .slots = quick_slots,
};

/* What a module has under a name. */
static PyObject *attribute_of(const char *module, const char *name) {
    PyObject *imported = PyImport_ImportModule(module);
    PyObject *attribute = imported ? PyObject_GetAttrString(imported, name) : NULL;
    Py_XDECREF(imported);
    return attribute;
}

/* The address of a call in the library that is open, or NULL. */
static void *address_of(const char *call) {
    PyObject *finds = attribute_of("kozhvadi._library", "address_of");
    PyObject *number = finds ? PyObject_CallFunction(finds, "s", call) : NULL;
    void *address = number ? PyLong_AsVoidPtr(number) : NULL;
    Py_XDECREF(finds);
    Py_XDECREF(number);
    return address;
}

static int fill_module(PyObject *module) {
    struct Found *found = PyModule_GetState(module);
    if (!(found->format = (__typeof__(found->format))address_of("fluent_bundle_format"))
        || !(found->call = (__typeof__(found->call))address_of("fluent_bundle_call"))
        || !(found->calls = (__typeof__(found->calls))address_of("fluent_bundle_calls"))
        || !(found->has = (__typeof__(found->has))address_of("fluent_bundle_has"))
        || !(found->find = (__typeof__(found->find))address_of("fluent_bundle_find"))
        || !(found->write = (__typeof__(found->write))address_of("fluent_bundle_write"))
        || !(found->free_text = (__typeof__(found->free_text))address_of("fluent_free_text"))
        || !(found->answer = attribute_of("kozhvadi._answers", "Answer"))
        || !(found->answers = attribute_of("kozhvadi._functions", "Answers"))
        || !(found->each_call = attribute_of("kozhvadi._functions", "each_call"))
        || !(found->resolver_errors = attribute_of("kozhvadi._answers", "resolver_errors"))
        || !(found->kind_and_text = attribute_of("kozhvadi._values", "kind_and_text"))
        || !(found->encoded = attribute_of("kozhvadi._values", "encoded"))
        || !(found->method = attribute_of("types", "MethodType"))
        || !(found->quick = PyUnicode_InternFromString("_quick"))
        || !(found->calls_type = PyType_FromModuleAndSpec(module, &calls_spec, NULL))
        || !(found->lock_type = PyType_FromModuleAndSpec(module, &lock_spec, NULL)))
        return -1;
    PyObject *type = PyType_FromModuleAndSpec(module, &quick_spec, NULL);
    if (!type)
        return -1;
    int added = PyModule_AddObjectRef(module, "Quick", type);
    Py_DECREF(type);
    if (added < 0 || PyModule_AddObjectRef(module, "Lock", found->lock_type) < 0)
        return -1;
    return PyModule_AddObjectRef(module, "Calls", found->calls_type);
}

static int visit_module(PyObject *module, visitproc visit, void *arg) {
    struct Found *found = PyModule_GetState(module);
    Py_VISIT(found->answer);
    Py_VISIT(found->answers);
    Py_VISIT(found->each_call);
    Py_VISIT(found->resolver_errors);
    Py_VISIT(found->kind_and_text);
    Py_VISIT(found->encoded);
    Py_VISIT(found->method);
    Py_VISIT(found->calls_type);
    Py_VISIT(found->lock_type);
    return 0;
}

static int clear_module(PyObject *module) {
    struct Found *found = PyModule_GetState(module);
    Py_CLEAR(found->answer);
    Py_CLEAR(found->answers);
    Py_CLEAR(found->each_call);
    Py_CLEAR(found->resolver_errors);
    Py_CLEAR(found->kind_and_text);
    Py_CLEAR(found->encoded);
    Py_CLEAR(found->method);
    Py_CLEAR(found->calls_type);
    Py_CLEAR(found->lock_type);
    Py_CLEAR(found->quick);
    return 0;
}

static PyModuleDef_Slot module_slots[] = {{Py_mod_exec, fill_module}, {0, NULL}};

static struct PyModuleDef module = {
    PyModuleDef_HEAD_INIT,
    .m_name = "kozhvadi._fast",
    .m_size = sizeof(struct Found),
    .m_slots = module_slots,
    .m_traverse = visit_module,
    .m_clear = clear_module,
};

PyMODINIT_FUNC PyInit__fast(void) { return PyModuleDef_Init(&module); }
