/* Filters as objects of Python: what a call of the package makes of its arguments, over the library
 * for C. CPython's stable ABI is enough, so one build serves each version from 3.11 on.
 *
 * The interpreter's lock keeps two calls on the words of a plain filter apart. It is given up only
 * in calls on words that threads share, and on memory that no other thread can reach. */
#define _GNU_SOURCE
#define PY_SSIZE_T_CLEAN
#define Py_LIMITED_API 0x030b0000
#include <Python.h>

#include <structmember.h>

#define FASTBLOOM_NO_WRAPPERS
#include "fastbloom.h"

#include <errno.h>
#include <stddef.h>
#include <string.h>
#include <unistd.h>

/* Bytes of a key, of a file's head and of a line of the cache; how many hashes or words one call
 * takes; and from how many on it is worth to give up the interpreter's lock. */
enum { KEY = 16, HEAD = 64, LINE = 64, AT_ONCE = 4096, WORTH_IT = 256 };

/* How many bytes of a head the seal is of, and where the layout stands that a blocked filter has. */
enum { SEALED = 40, LAYOUT = 48 };

/* A kind of filters is a number of two bits. */
enum { BLOCKED = 1, SHARED = 2, KINDS = 4 };

/* Where a filter has its words that has none: the library asks for an address. */
static uint64_t none[LINE / sizeof(uint64_t)];

/* The package's function for the bytes of what is neither a text nor bytes. */
static PyObject *plain_bytes;

/* The library's calls on the hashes of one kind of filters. Plain words are handed over in the form
 * of shared ones. */
typedef struct calls {
    bool (*insert_hash)(fastbloom_shared, uint32_t, uint64_t);
    bool (*contains_hash)(fastbloom_shared, uint32_t, uint64_t);
    bool (*insert_hashes)(fastbloom_shared, uint32_t, const uint64_t *, size_t);
    bool (*contains_hashes)(fastbloom_shared, uint32_t, const uint64_t *, size_t, uint64_t *,
                            size_t);
    bool (*insert_hashes_tell_new)(fastbloom_shared, uint32_t, const uint64_t *, size_t, uint64_t *,
                                   size_t);
    bool (*rate_now)(fastbloom_shared, uint32_t, uint64_t *, uint64_t *);
    bool (*estimate)(fastbloom_shared, uint32_t, uint64_t *, uint64_t *);
} calls;

/* Calls on plain words, by the parameters of `calls` and what is made of them. */
#define PLAIN(call, parameters, arguments)                                                         \
    static bool plain_##call parameters { return fastbloom_##call arguments; }                     \
    static bool plain_blocked_##call parameters { return fastbloom_blocked_##call arguments; }
PLAIN(insert_hash, (fastbloom_shared to, uint32_t k, uint64_t hash),
      (to.words, to.num_words, k, hash))
PLAIN(contains_hash, (fastbloom_shared in, uint32_t k, uint64_t hash),
      (in.words, in.num_words, k, hash))
PLAIN(insert_hashes, (fastbloom_shared to, uint32_t k, const uint64_t *hashes, size_t count),
      (to.words, to.num_words, k, hashes, count))
PLAIN(contains_hashes,
      (fastbloom_shared in, uint32_t k, const uint64_t *hashes, size_t count, uint64_t *bits,
       size_t num_bits),
      (in.words, in.num_words, k, hashes, count, bits, num_bits))
PLAIN(insert_hashes_tell_new,
      (fastbloom_shared to, uint32_t k, const uint64_t *hashes, size_t count, uint64_t *bits,
       size_t num_bits),
      (to.words, to.num_words, k, hashes, count, bits, num_bits))
PLAIN(rate_now, (fastbloom_shared of, uint32_t k, uint64_t *low, uint64_t *high),
      (of.words, of.num_words, k, low, high))
PLAIN(estimate, (fastbloom_shared of, uint32_t k, uint64_t *low, uint64_t *high),
      (of.words, of.num_words, k, low, high))

#define CALLS(of)                                                                                  \
    {                                                                                              \
        of##insert_hash, of##contains_hash, of##insert_hashes, of##contains_hashes,                \
            of##insert_hashes_tell_new, of##rate_now, of##estimate                                 \
    }

static const calls CALLS_OF[KINDS] = {CALLS(plain_), CALLS(plain_blocked_),
                                      CALLS(fastbloom_shared_), CALLS(fastbloom_blocked_shared_)};

/* The calls on sizes and files of filters, of those that aren't blocked and of those that are. */
typedef struct sizes {
    uint8_t (*plan)(uint64_t, uint64_t, size_t, size_t *, uint32_t *);
    uint8_t (*rate_bounds)(size_t, uint32_t, size_t, uint64_t *, uint64_t *);
    size_t (*capacity)(size_t, uint32_t, uint64_t, uint64_t);
    uint64_t (*seal)(const uint64_t *, size_t, uint32_t, const uint8_t *);
    uint8_t (*head_write)(size_t, uint32_t, const uint8_t *, uint64_t, uint8_t *);
    uint8_t (*head_read)(const uint8_t *, size_t *, uint32_t *, uint8_t *, uint64_t *);
} sizes;

static const sizes SIZES[] = {{fastbloom_plan, fastbloom_rate_bounds, fastbloom_capacity,
                               fastbloom_seal, fastbloom_head_write, fastbloom_head_read},
                              {fastbloom_blocked_plan, fastbloom_blocked_rate_bounds,
                               fastbloom_blocked_capacity, fastbloom_blocked_seal,
                               fastbloom_blocked_head_write, fastbloom_blocked_head_read}};

/* ---- Memory of words, all of them clear, from where a line of the cache begins ---- */

typedef struct memory {
    PyObject_HEAD void *block;
    Py_ssize_t size;
} memory;

static PyTypeObject *memory_type;

/* memory(num_words): words that are clear, as a memoryview of bytes. */
static PyObject *new_memory(PyObject *module, PyObject *number) {
    unsigned long long num_words = PyLong_AsUnsignedLongLong(number);
    (void)module;
    if (PyErr_Occurred()) return NULL;
    memory *made = (memory *)PyType_GenericAlloc(memory_type, 0);
    if (made == NULL) return NULL;
    if (num_words <= (PY_SSIZE_T_MAX - LINE) / 8) {
        made->size = (Py_ssize_t)(8 * num_words);
        made->block = PyMem_Calloc(8 * num_words + LINE, 1);
    }
    PyObject *view = NULL;
    if (made->block != NULL)
        view = PyMemoryView_FromObject((PyObject *)made);
    else
        PyErr_Format(PyExc_MemoryError, "no memory of %llu words", num_words);
    Py_DECREF(made);
    return view;
}

static int memory_lend(PyObject *self, Py_buffer *view, int flags) {
    memory *it = (memory *)self;
    uintptr_t at = ((uintptr_t)it->block + LINE - 1) / LINE * LINE;
    return PyBuffer_FillInfo(view, self, (void *)at, it->size, 0, flags);
}

static void memory_free(PyObject *self) {
    PyTypeObject *type = Py_TYPE(self);
    PyMem_Free(((memory *)self)->block);
    PyObject_Free(self);
    Py_DECREF(type);
}

__extension__ static PyType_Slot memory_slots[] = {
    {Py_bf_getbuffer, memory_lend}, {Py_tp_dealloc, memory_free}, {0, NULL}};
static PyType_Spec memory_spec = {"fastbloom._core.Memory", sizeof(memory), 0,
                                  Py_TPFLAGS_DEFAULT | Py_TPFLAGS_DISALLOW_INSTANTIATION,
                                  memory_slots};

/* ---- Filters ---- */

typedef struct filter {
    PyObject_HEAD PyObject
        *view;        /* the memoryview that keeps the words where they are, NULL before */
    Py_buffer buffer; /* what it lends, if obj isn't NULL */
    fastbloom_shared words;
    const calls *call;
    unsigned kind;
    unsigned num_hashes;
    uint8_t key[KEY];
} filter;

static PyTypeObject *filter_type;

/* Lets go of the words, if there are any, and takes another view. */
static void take_view(filter *it, PyObject *view) {
    PyObject *before = it->view;
    it->words.words = none;
    it->words.num_words = 0;
    it->view = Py_XNewRef(view);
    if (it->buffer.obj != NULL) PyBuffer_Release(&it->buffer);
    Py_XDECREF(before);
}

/* _take(view, num_hashes, key, kind): takes the words in a memoryview of bytes. */
static PyObject *filter_take(PyObject *self, PyObject *arguments) {
    filter *it = (filter *)self;
    PyObject *view;
    const char *key;
    Py_ssize_t len;
    uint32_t num_hashes;
    unsigned kind;
    if (!PyArg_ParseTuple(arguments, "OIy#I", &view, &num_hashes, &key, &len, &kind)) return NULL;
    if (it->view != NULL) {
        PyErr_SetString(PyExc_TypeError, "a filter is made once");
        return NULL;
    }
    if (len != KEY || kind >= KINDS) {
        PyErr_SetString(PyExc_ValueError, "a key is sixteen bytes, and a kind one of four");
        return NULL;
    }
    if (PyObject_GetBuffer(view, &it->buffer, kind & SHARED ? PyBUF_WRITABLE : PyBUF_SIMPLE)) {
        it->buffer.obj = NULL;
        if (PyErr_ExceptionMatches(PyExc_BufferError))
            PyErr_SetString(PyExc_TypeError, "the words can't be written");
        return NULL;
    }
    if ((uintptr_t)it->buffer.buf % 8 != 0) {
        PyBuffer_Release(&it->buffer);
        PyErr_SetString(PyExc_ValueError, "words are of eight bytes, aligned to eight");
        return NULL;
    }
    it->num_hashes = num_hashes;
    it->view = Py_NewRef(view);
    it->words.num_words = (size_t)it->buffer.len / 8;
    it->words.words = it->words.num_words > 0 ? it->buffer.buf : none;
    memcpy(it->key, key, KEY);
    it->kind = kind;
    it->call = &CALLS_OF[kind];
    Py_RETURN_NONE;
}

/* _release(view): lets go of the words, and has this empty view. */
static PyObject *filter_release(PyObject *self, PyObject *view) {
    take_view((filter *)self, view);
    Py_RETURN_NONE;
}

/* It isn't followed by the collector of rings, which would release the view before the buffer. */
static void filter_free(PyObject *self) {
    PyTypeObject *type = Py_TYPE(self);
    void *slot = PyType_GetSlot(type, Py_tp_free); /* that of a class below may differ */
    freefunc let_go;
    memcpy(&let_go, &slot, sizeof let_go);
    take_view((filter *)self, NULL);
    let_go(self);
    Py_DECREF(type);
}

/* Whether a filter was made. Else it raises. */
static bool is_made(const filter *it) {
    if (it->view != NULL) return true;
    PyErr_SetString(PyExc_TypeError, "the filter wasn't made: its class's __init__ wasn't called");
    return false;
}

/* The hash of an item. Where it raises, the result is -1. */
static int hash_of(const filter *it, PyObject *item, uint64_t *hash) {
    Py_ssize_t len;
    const char *bytes;
    PyObject *made = NULL;
    if (PyUnicode_Check(item)) {
        bytes = PyUnicode_AsUTF8AndSize(item, &len);
        if (bytes == NULL) return -1;
    } else {
        char *start;
        if (!PyBytes_Check(item)) {
            made = PyObject_CallFunction(plain_bytes, "Os", item,
                                         "an item is a str or a bytes-like object");
            if (made == NULL) return -1;
            item = made;
        }
        if (PyBytes_AsStringAndSize(item, &start, &len)) {
            Py_XDECREF(made);
            return -1;
        }
        bytes = start;
    }
    *hash = fastbloom_hash(it->key, (const uint8_t *)bytes, (size_t)len);
    Py_XDECREF(made);
    return 0;
}

/* The hash that a number is. Where it raises, the result is -1. */
static int hash_in(PyObject *number, uint64_t *hash) {
    PyObject *index = PyNumber_Index(number);
    if (index == NULL) return -1;
    *hash = PyLong_AsUnsignedLongLong(index);
    Py_DECREF(index);
    if (*hash != UINT64_MAX || !PyErr_Occurred()) return 0;
    if (PyErr_ExceptionMatches(PyExc_OverflowError))
        PyErr_SetString(PyExc_ValueError, "a hash is from 0 to 2^64 - 1");
    return -1;
}

/* The one argument of a call, given by its name. */
static PyObject *named(PyObject *const *all, Py_ssize_t count, PyObject *names, const char *name) {
    if (count == 0 && names != NULL && PyTuple_Size(names) == 1 &&
        PyUnicode_CompareWithASCIIString(PyTuple_GetItem(names, 0), name) == 0)
        return *all;
    return PyErr_Format(PyExc_TypeError, "the call takes one argument, `%s`", name);
}

/* The one argument of a call. */
static inline PyObject *argument(PyObject *const *all, Py_ssize_t count, PyObject *names,
                                 const char *name) {
    return count == 1 && names == NULL ? *all : named(all, count, names, name);
}

static PyObject *filter_add(PyObject *self, PyObject *const *all, Py_ssize_t count,
                            PyObject *names) {
    filter *it = (filter *)self;
    PyObject *item = argument(all, count, names, "item");
    uint64_t hash;
    if (item == NULL || !is_made(it) || hash_of(it, item, &hash)) return NULL;
    return PyBool_FromLong(it->call->insert_hash(it->words, it->num_hashes, hash));
}

static int filter_contains(PyObject *self, PyObject *item) {
    filter *it = (filter *)self;
    uint64_t hash;
    if (!is_made(it) || hash_of(it, item, &hash)) return -1;
    return it->call->contains_hash(it->words, it->num_hashes, hash);
}

static PyObject *filter_hash(PyObject *self, PyObject *const *all, Py_ssize_t count,
                             PyObject *names) {
    filter *it = (filter *)self;
    PyObject *item = argument(all, count, names, "item");
    uint64_t hash;
    if (item == NULL || !is_made(it) || hash_of(it, item, &hash)) return NULL;
    return PyLong_FromUnsignedLongLong(hash);
}

static PyObject *filter_add_hash(PyObject *self, PyObject *const *all, Py_ssize_t count,
                                 PyObject *names) {
    filter *it = (filter *)self;
    PyObject *value = argument(all, count, names, "value");
    uint64_t hash;
    if (value == NULL || !is_made(it) || hash_in(value, &hash)) return NULL;
    return PyBool_FromLong(it->call->insert_hash(it->words, it->num_hashes, hash));
}

static PyObject *filter_contains_hash(PyObject *self, PyObject *const *all, Py_ssize_t count,
                                      PyObject *names) {
    filter *it = (filter *)self;
    PyObject *value = argument(all, count, names, "value");
    uint64_t hash;
    if (value == NULL || !is_made(it) || hash_in(value, &hash)) return NULL;
    return PyBool_FromLong(it->call->contains_hash(it->words, it->num_hashes, hash));
}

/* ---- Many at once ---- */

/* A use of a filter's words, which stay where they are, whatever becomes of the filter. */
typedef struct use {
    fastbloom_shared words;
    Py_buffer held;
    PyThreadState *thread;
} use;

/* Begins a use of words. Where it is worth it, the interpreter's lock is given up until the end. */
static int begin(const filter *it, size_t size, use *of) {
    *of = (use){it->words, {0}, NULL};
    if (it->words.num_words > 0 && PyObject_GetBuffer(it->view, &of->held, PyBUF_SIMPLE)) return -1;
    if (it->kind & SHARED && size >= WORTH_IT) of->thread = PyEval_SaveThread();
    return 0;
}

static void end(use *of) {
    if (of->thread != NULL) PyEval_RestoreThread(of->thread);
    if (of->held.obj != NULL) PyBuffer_Release(&of->held);
}

/* What is done with hashes: they are added, looked up, or added so that the new ones are told. */
enum { ADD, LOOK_UP, TELL_NEW };

/* Does it, and tells of each hash by a bit. Without words it keeps none, and sets no bit. */
static int use_hashes(const filter *it, unsigned what, const uint64_t *hashes, size_t count,
                      uint64_t *bits) {
    const calls *call = it->call;
    use of;
    if (begin(it, count, &of)) return -1;
    if (what == ADD)
        (void)call->insert_hashes(of.words, it->num_hashes, hashes, count);
    else
        (void)(what == LOOK_UP ? call->contains_hashes : call->insert_hashes_tell_new)(
            of.words, it->num_hashes, hashes, count, bits, (count + 63) / 64);
    end(&of);
    return PyErr_CheckSignals();
}

/* _use_items(items, replies): hashes items a block at a time, and adds them; or, where there is a
 * list for the replies, looks them up. Of those before an error each was used. */
static PyObject *filter_use_items(PyObject *self, PyObject *arguments) {
    const filter *it = (filter *)self;
    uint64_t hashes[AT_ONCE], bits[AT_ONCE / 64];
    PyObject *items, *replies, *item = NULL;
    if (!PyArg_ParseTuple(arguments, "OO", &items, &replies) || !is_made(it)) return NULL;
    PyObject *rest = PyObject_GetIter(items);
    if (rest == NULL) return NULL;
    bool adds = replies == Py_None;
    do {
        size_t count = 0;
        PyObject *type = NULL, *value = NULL, *trace = NULL;
        while (count < AT_ONCE && (item = PyIter_Next(rest)) != NULL) {
            int refused = hash_of(it, item, &hashes[count]);
            Py_DECREF(item);
            if (refused) break;
            count++;
        }
        PyErr_Fetch(&type, &value, &trace);
        memset(bits, 0, sizeof bits);
        int failed = use_hashes(it, adds ? ADD : LOOK_UP, hashes, count, bits);
        for (size_t at = 0; !failed && !adds && at < count; at++)
            failed = PyList_Append(replies, bits[at / 64] >> at % 64 & 1 ? Py_True : Py_False);
        if (type != NULL) {
            PyErr_Clear();
            PyErr_Restore(type, value, trace);
            failed = -1;
        }
        if (failed) {
            Py_DECREF(rest);
            return NULL;
        }
    } while (item != NULL);
    Py_DECREF(rest);
    Py_RETURN_NONE;
}

/* Whether the format of a buffer is that of unsigned numbers of 64 bits. */
static bool is_of_words(const char *format) {
    if (format == NULL) return false;
    if (*format == '<' || *format == '=') format++;
    return (*format == 'Q' || *format == 'L') && format[1] == '\0';
}

/* The hashes in a buffer. A copy is made where they aren't aligned. */
static int take_hashes(PyObject *from, Py_buffer *lent, uint64_t **copy) {
    *copy = NULL;
    if (PyObject_GetBuffer(from, lent, PyBUF_FULL_RO)) return -1;
    const char *why = NULL;
    if (lent->ndim == 0 || lent->itemsize != 8 || !is_of_words(lent->format))
        why = "hashes are a buffer of unsigned words of 64 bits";
    else if (!PyBuffer_IsContiguous(lent, 'C'))
        why = "hashes lie one behind the other";
    if (why != NULL) {
        PyErr_SetString(PyExc_TypeError, why);
    } else if ((uintptr_t)lent->buf % 8 != 0) {
        *copy = PyMem_Malloc((size_t)lent->len);
        if (*copy != NULL) memcpy(*copy, lent->buf, (size_t)lent->len);
        if (*copy == NULL) PyErr_NoMemory();
    }
    if (!PyErr_Occurred()) return 0;
    PyBuffer_Release(lent);
    return -1;
}

/* _use_hashes(what, hashes): makes a call on the hashes in a buffer. Where it tells of each by a
 * bit, the result is the bytes of these, and how many hashes there are. */
static PyObject *filter_use_hashes(PyObject *self, PyObject *arguments) {
    const filter *it = (filter *)self;
    PyObject *from, *told = NULL;
    uint64_t *copy, *bits = NULL;
    Py_buffer lent;
    unsigned what;
    if (!PyArg_ParseTuple(arguments, "IO", &what, &from) || !is_made(it) ||
        take_hashes(from, &lent, &copy))
        return NULL;
    const uint64_t *hashes = copy != NULL ? copy : lent.len > 0 ? lent.buf : none;
    size_t count = (size_t)lent.len / 8, num_bits = (count + 63) / 64;
    if (what != ADD) bits = PyMem_Calloc(num_bits + 1, 8); /* (the library asks for an address) */
    if (what != ADD && bits == NULL)
        PyErr_NoMemory();
    else if (use_hashes(it, what, hashes, count, bits) == 0)
        told = what == ADD ? Py_NewRef(Py_None)
                           : Py_BuildValue("y#n", (char *)bits, (Py_ssize_t)(8 * num_bits),
                                           (Py_ssize_t)count);
    PyMem_Free(bits);
    PyMem_Free(copy);
    PyBuffer_Release(&lent);
    return told;
}

/* ---- All words, and two filters ---- */

static PyObject *filter_clear_words(PyObject *self, PyObject *unused) {
    const filter *it = (filter *)self;
    use of;
    (void)unused;
    if (!is_made(it) || begin(it, it->words.num_words, &of)) return NULL;
    if (it->kind & SHARED)
        fastbloom_shared_clear(of.words);
    else
        fastbloom_clear(of.words.words, of.words.num_words);
    end(&of);
    Py_RETURN_NONE;
}

static PyObject *filter_count_ones(PyObject *self, PyObject *unused) {
    const filter *it = (filter *)self;
    use of;
    (void)unused;
    if (!is_made(it) || begin(it, it->words.num_words, &of)) return NULL;
    size_t ones = it->kind & SHARED ? fastbloom_shared_count_ones(of.words)
                                    : fastbloom_count_ones(of.words.words, of.words.num_words);
    end(&of);
    return PyLong_FromSize_t(ones);
}

/* Calls on the words of two filters of one kind, and, from TAKE on, on those of a shared filter and
 * a plain one. */
enum { UNITE, INTERSECT, IS_PART, EQUAL, TAKE, LOAD, OF_TWO };

static bool unite(fastbloom_shared to, fastbloom_shared from) {
    return fastbloom_union(to.words, to.num_words, from.words, from.num_words);
}

static bool intersect(fastbloom_shared with, fastbloom_shared other) {
    return fastbloom_intersect(with.words, with.num_words, other.words, other.num_words);
}

/* Whether the bits that are set are set in other words, as each is loaded. */
static bool is_part(fastbloom_shared of, fastbloom_shared other) {
    for (size_t at = 0; at < of.num_words; at++) {
        uint64_t word = __atomic_load_n(&of.words[at], __ATOMIC_SEQ_CST);
        if (word & ~__atomic_load_n(&other.words[at], __ATOMIC_SEQ_CST)) return false;
    }
    return true;
}

static bool are_equal(fastbloom_shared one, fastbloom_shared other) {
    return fastbloom_equal(one.words, one.num_words, other.words, other.num_words);
}

static bool take(fastbloom_shared from, fastbloom_shared to) {
    return fastbloom_shared_take(from, to.words, to.num_words);
}

static bool load(fastbloom_shared from, fastbloom_shared to) {
    return fastbloom_shared_load(from, to.words, to.num_words);
}

/* The other filter of a call, of this kind or, where `plain` is set, the plain one of it. */
static const filter *other_of(const filter *it, PyObject *other, bool plain) {
    unsigned kind = plain ? it->kind & ~(unsigned)SHARED : it->kind;
    if (PyObject_TypeCheck(other, filter_type) && ((filter *)other)->kind == kind &&
        ((filter *)other)->view != NULL)
        return (filter *)other;
    PyErr_SetString(PyExc_TypeError, "the other is a filter of this kind");
    return NULL;
}

/* _with(what, other): makes a call on the words of two filters. Where they have not as many words,
 * it returns False. */
static PyObject *filter_with(PyObject *self, PyObject *arguments) {
    static bool (*const calls_of[OF_TWO][2])(fastbloom_shared, fastbloom_shared) = {
        [UNITE] = {unite, fastbloom_shared_union},
        [INTERSECT] = {intersect, fastbloom_shared_intersect},
        [IS_PART] = {is_part, is_part},
        [EQUAL] = {are_equal},
        [TAKE] = {NULL, take},
        [LOAD] = {NULL, load}};
    const filter *it = (filter *)self, *other;
    PyObject *from;
    unsigned what;
    use of, with;
    if (!PyArg_ParseTuple(arguments, "IO", &what, &from) || !is_made(it)) return NULL;
    bool (*call)(fastbloom_shared, fastbloom_shared) =
        what < OF_TWO ? calls_of[what][(it->kind & SHARED) != 0] : NULL;
    if (call == NULL) return PyErr_Format(PyExc_ValueError, "there is no such call");
    if ((other = other_of(it, from, what >= TAKE)) == NULL || begin(other, 0, &with)) return NULL;
    bool done = false, failed = begin(it, it->words.num_words, &of);
    if (!failed) {
        if (of.words.num_words == with.words.num_words) done = call(of.words, with.words);
        end(&of);
    }
    end(&with);
    return failed ? NULL : PyBool_FromLong(done);
}

/* What two bounds are of: a filter, it with a number of items, or it and another plain one. */
enum { RATE, ITEMS, MEAN, CLASSICAL, UNION, COMMON, PART, BOUNDS };
_Static_assert(sizeof(size_t) == sizeof(uint64_t), "a bound has 64 bits");

/* Two bounds as a pair, or the number of the reason why there are none. */
static PyObject *bounds(unsigned code, uint64_t low, uint64_t high) {
    return code ? PyLong_FromUnsignedLong(code) : Py_BuildValue("KK", low, high);
}

/* _bounds(what[, items or other]): two bounds, or the number of a reason. */
static PyObject *filter_bounds(PyObject *self, PyObject *arguments) {
    static bool (*const of_two[BOUNDS][2])(const uint64_t *, size_t, const uint64_t *, size_t,
                                           uint32_t, uint64_t *, uint64_t *) = {
        [UNION] = {fastbloom_estimate_union, fastbloom_blocked_estimate_union},
        [COMMON] = {fastbloom_estimate_common, fastbloom_blocked_estimate_common},
        [PART] = {fastbloom_jaccard, fastbloom_blocked_jaccard}};
    const filter *it = (filter *)self, *other = it;
    PyObject *from = self;
    uint64_t low = 0, high = 0;
    bool told;
    unsigned what, code;
    use of;
    if (!PyArg_ParseTuple(arguments, "I|O", &what, &from) || !is_made(it)) return NULL;
    if (what >= BOUNDS) return PyErr_Format(PyExc_ValueError, "there are no such bounds");
    uint32_t k = it->num_hashes;
    size_t num_words = it->words.num_words;
    if (what == MEAN || what == CLASSICAL) {
        size_t items = PyLong_AsSize_t(from);
        if (PyErr_Occurred()) return NULL;
        PyThreadState *thread = PyEval_SaveThread();
        code = what == CLASSICAL
                   ? fastbloom_expected_rate(num_words, k, items, &low, &high)
                   : SIZES[it->kind & BLOCKED].rate_bounds(num_words, k, items, &low, &high);
        PyEval_RestoreThread(thread);
        return bounds(code, low, high);
    }
    if (what >= UNION && (other = other_of(it, from, false)) == NULL) return NULL;
    if (begin(it, num_words, &of)) return NULL;
    if (what >= UNION)
        told = of_two[what][it->kind & BLOCKED](of.words.words, num_words, other->words.words,
                                                other->words.num_words, k, &low, &high);
    else
        told = (what == RATE ? it->call->rate_now : it->call->estimate)(of.words, k, &low, &high);
    end(&of);
    return bounds(told ? 0 : FASTBLOOM_EMPTY_WORDS, low, high);
}

/* _capacity(num, den): how many items it takes at a mean rate. */
static PyObject *filter_capacity(PyObject *self, PyObject *arguments) {
    const filter *it = (filter *)self;
    unsigned long long num, den;
    if (!PyArg_ParseTuple(arguments, "KK", &num, &den) || !is_made(it)) return NULL;
    size_t num_words = it->words.num_words;
    PyThreadState *thread = PyEval_SaveThread();
    size_t items = SIZES[it->kind & BLOCKED].capacity(num_words, it->num_hashes, num, den);
    PyEval_RestoreThread(thread);
    return PyLong_FromSize_t(items);
}

/* The seal of a plain filter that no other thread can reach. */
static PyObject *filter_seal(PyObject *self, PyObject *unused) {
    const filter *it = (filter *)self;
    fastbloom_shared of = it->words;
    (void)unused;
    if (!is_made(it)) return NULL;
    PyThreadState *thread = PyEval_SaveThread();
    uint64_t seal = SIZES[it->kind & BLOCKED].seal(of.words, of.num_words, it->num_hashes, it->key);
    PyEval_RestoreThread(thread);
    return PyLong_FromUnsignedLongLong(seal);
}

/* The bytes of a plain filter's file, of the words as they are at one instant. */
static PyObject *filter_to_bytes(PyObject *self, PyObject *is_sealed) {
    const filter *it = (filter *)self;
    int sealed = PyObject_IsTrue(is_sealed);
    if (sealed < 0 || !is_made(it)) return NULL;
    size_t num_words = it->words.num_words;
    PyObject *made = PyBytes_FromStringAndSize(NULL, HEAD + (Py_ssize_t)(8 * num_words));
    if (made == NULL) return NULL;
    uint8_t *file = (uint8_t *)PyBytes_AsString(made);
    uint64_t *words = (uint64_t *)(file + HEAD), seal = 0;
    memcpy(words, it->words.words, 8 * num_words);
    PyThreadState *thread = PyEval_SaveThread();
    if (sealed) seal = SIZES[it->kind & BLOCKED].seal(words, num_words, it->num_hashes, it->key);
    PyEval_RestoreThread(thread);
    uint8_t code =
        SIZES[it->kind & BLOCKED].head_write(num_words, it->num_hashes, it->key, seal, file);
    if (code == 0) return made;
    Py_DECREF(made);
    return PyLong_FromLong(code);
}

/* Writes bytes, or returns false with the reason in errno. */
static bool write_all(int file, const void *bytes, size_t len) {
    for (const char *at = bytes; len > 0;) {
        ssize_t done = write(file, at, len);
        if (done < 0 && errno != EINTR) return false;
        if (done > 0) at += done, len -= (size_t)done;
    }
    return true;
}

/* _write(file, is_sealed): writes a plain filter's file, part by part, from where it begins, and
 * then the seal of what was written. */
static PyObject *filter_write(PyObject *self, PyObject *arguments) {
    const filter *it = (filter *)self;
    int file, sealed, status = 0;
    uint8_t head[HEAD];
    static const uint8_t zeros[KEY];
    fastbloom_hasher hasher;
    if (!PyArg_ParseTuple(arguments, "ip", &file, &sealed) || !is_made(it)) return NULL;
    size_t num_words = it->words.num_words;
    uint8_t code =
        SIZES[it->kind & BLOCKED].head_write(num_words, it->num_hashes, it->key, 0, head);
    if (code) return PyLong_FromLong(code);
    uint64_t *part = PyMem_Malloc(8 * AT_ONCE);
    if (part == NULL) return PyErr_NoMemory();
    fastbloom_hasher_init(&hasher, zeros);
    fastbloom_hasher_update(&hasher, head, SEALED);
    if (it->kind & BLOCKED) fastbloom_hasher_update(&hasher, head + LAYOUT, 8);
    bool good = write_all(file, head, HEAD);
    for (size_t at = 0; good && !status && at < num_words; at += AT_ONCE) {
        size_t len = 8 * (num_words - at < AT_ONCE ? num_words - at : AT_ONCE);
        memcpy(part, it->words.words + at, len);
        PyThreadState *thread = PyEval_SaveThread();
        if (sealed) fastbloom_hasher_update(&hasher, (uint8_t *)part, len);
        good = write_all(file, part, len);
        PyEval_RestoreThread(thread);
        status = PyErr_CheckSignals();
    }
    if (good && !status && sealed) {
        (void)SIZES[it->kind & BLOCKED].head_write(num_words, it->num_hashes, it->key,
                                                   fastbloom_hasher_finish(&hasher), head);
        good = pwrite(file, head, HEAD, 0) == HEAD;
    }
    PyMem_Free(part);
    if (status) return NULL;
    if (!good) return PyErr_SetFromErrno(PyExc_OSError);
    Py_RETURN_NONE;
}

static PyObject *filter_key(PyObject *self, void *unused) {
    (void)unused;
    return PyBytes_FromStringAndSize((char *)((filter *)self)->key, KEY);
}

static PyObject *filter_view(PyObject *self, void *unused) {
    (void)unused;
    return is_made((filter *)self) ? Py_NewRef(((filter *)self)->view) : NULL;
}

static PyMemberDef filter_members[] = {
    {"num_words", T_ULONG, offsetof(filter, words) + offsetof(fastbloom_shared, num_words),
     READONLY, "The number of words of 64 bits."},
    {"num_hashes", T_UINT, offsetof(filter, num_hashes), READONLY,
     "The number of positions that an item has."},
    {NULL, 0, 0, 0, NULL}};

static PyGetSetDef filter_fields[] = {
    {"key", filter_key, NULL, "The sixteen bytes of the key.", NULL},
    {"_view", filter_view, NULL, "The memory of the words.", NULL},
    {NULL, NULL, NULL, NULL, NULL}};

#define BY_NAME(call) (PyCFunction)(void (*)(void)) call, METH_FASTCALL | METH_KEYWORDS
static PyMethodDef filter_methods[] = {
    {"add", BY_NAME(filter_add),
     "add($self, item)\n--\n\n"
     "Adds an item, and returns whether it was contained before.\n\n"
     "True may be a false positive. In a shared filter, False comes exactly if this call set a\n"
     "bit itself."},
    {"hash", BY_NAME(filter_hash),
     "hash($self, item)\n--\n\n"
     "The hash of an item: SipHash-1-3 of its bytes under the key."},
    {"add_hash", BY_NAME(filter_add_hash),
     "add_hash($self, value)\n--\n\n"
     "As `add`, by the hash. One out of range raises ValueError."},
    {"contains_hash", BY_NAME(filter_contains_hash),
     "contains_hash($self, value)\n--\n\n"
     "As `in`, by the hash. One out of range raises ValueError."},
    {"clear", filter_clear_words, METH_NOARGS, "clear($self, /)\n--\n\nRemoves every item."},
    {"count_ones", filter_count_ones, METH_NOARGS,
     "count_ones($self, /)\n--\n\nHow many of its bits are set."},
    {"_take", filter_take, METH_VARARGS, NULL},
    {"_release", filter_release, METH_O, NULL},
    {"_use_items", filter_use_items, METH_VARARGS, NULL},
    {"_use_hashes", filter_use_hashes, METH_VARARGS, NULL},
    {"_bounds", filter_bounds, METH_VARARGS, NULL},
    {"_capacity", filter_capacity, METH_VARARGS, NULL},
    {"_with", filter_with, METH_VARARGS, NULL},
    {"_seal", filter_seal, METH_NOARGS, NULL},
    {"_to_bytes", filter_to_bytes, METH_O, NULL},
    {"_write", filter_write, METH_VARARGS, NULL},
    {NULL, NULL, 0, NULL}};

__extension__ static PyType_Slot filter_slots[] = {{Py_tp_doc, "What all kinds of filters have."},
                                                   {Py_tp_dealloc, filter_free},
                                                   {Py_tp_methods, filter_methods},
                                                   {Py_tp_members, filter_members},
                                                   {Py_tp_getset, filter_fields},
                                                   {Py_sq_contains, filter_contains},
                                                   {0, NULL}};
static PyType_Spec filter_spec = {"fastbloom._core.Core", sizeof(filter), 0,
                                  Py_TPFLAGS_DEFAULT | Py_TPFLAGS_BASETYPE, filter_slots};

/* ---- What is asked of sizes and heads: a reason as its number, or what was asked for ---- */

static PyObject *plan(PyObject *module, PyObject *arguments) {
    unsigned long long num, den, items;
    unsigned kind;
    size_t num_words;
    uint32_t num_hashes;
    (void)module;
    if (!PyArg_ParseTuple(arguments, "IKKK", &kind, &num, &den, &items)) return NULL;
    uint8_t code = (kind & BLOCKED ? fastbloom_blocked_plan
                                   : fastbloom_plan)(num, den, items, &num_words, &num_hashes);
    return bounds(code, num_words, num_hashes);
}

static PyObject *read_head(PyObject *module, PyObject *arguments) {
    unsigned kind;
    const char *head;
    Py_ssize_t len;
    size_t num_words;
    uint32_t num_hashes;
    uint8_t key[KEY];
    uint64_t seal;
    (void)module;
    if (!PyArg_ParseTuple(arguments, "Iy#", &kind, &head, &len)) return NULL;
    if (len != HEAD) return PyErr_Format(PyExc_ValueError, "a head is 64 bytes");
    uint8_t code =
        SIZES[kind & BLOCKED].head_read((const uint8_t *)head, &num_words, &num_hashes, key, &seal);
    if (code) return PyLong_FromLong(code);
    return Py_BuildValue("nIy#K", (Py_ssize_t)num_words, num_hashes, (char *)key, (Py_ssize_t)KEY,
                         seal);
}

/* sync_all(file): flushes the whole system of files in which a file is. */
static PyObject *sync_all(PyObject *module, PyObject *number) {
    long file = PyLong_AsLong(number);
    (void)module;
    if (file == -1 && PyErr_Occurred()) return NULL;
    if (syncfs((int)file) != 0) return PyErr_SetFromErrno(PyExc_OSError);
    Py_RETURN_NONE;
}

static PyMethodDef functions[] = {{"memory", new_memory, METH_O, NULL},
                                  {"sync_all", sync_all, METH_O, NULL},
                                  {"plan", plan, METH_VARARGS, NULL},
                                  {"read_head", read_head, METH_VARARGS, NULL},
                                  {NULL, NULL, 0, NULL}};
static struct PyModuleDef definition = {PyModuleDef_HEAD_INIT,
                                        "fastbloom._core",
                                        "Filters over the library for C.",
                                        -1,
                                        functions,
                                        NULL,
                                        NULL,
                                        NULL,
                                        NULL};

PyMODINIT_FUNC PyInit__core(void) {
    PyObject *module = NULL, *items = PyImport_ImportModule("fastbloom._items");
    if (items == NULL) return NULL;
    plain_bytes = PyObject_GetAttrString(items, "plain_bytes");
    Py_DECREF(items);
    memory_type = (PyTypeObject *)PyType_FromSpec(&memory_spec);
    filter_type = (PyTypeObject *)PyType_FromSpec(&filter_spec);
    if (plain_bytes != NULL && memory_type != NULL && filter_type != NULL)
        module = PyModule_Create(&definition);
    if (module != NULL && PyModule_AddObjectRef(module, "Core", (PyObject *)filter_type))
        Py_CLEAR(module);
    return module;
}
