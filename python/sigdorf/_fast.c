/* Calls of a table, or of a list of entries, in C: what is asked is read where it lies, solved by the library, and
 * answered.
 *
 * It has no solver of its own. c/levels, whose files are compiled into it, goes from the library's whole costs to costs
 * as they are (docs/EXACT.md). Python's module `fast` says where the library's two calls are, makes arguments plain,
 * and asks it first; where it answers None, Python looks closer: at a fault, at a problem without a full assignment, at
 * numbers that aren't taken here. Whatever is answered here would be the same there.
 *
 * A call of few entries without a watch holds the interpreter's lock; others give it up. Costs are rounded into a copy, and what that
 * leaves of the few that matter is read again where they lie: so that nothing is answered of costs that somebody has
 * written meanwhile. A table that is read-only needs no copy where its numbers are what the library takes.
 */
/* The first that has buffers in it; what is built by it runs by CPython 3.10 too. */
#define Py_LIMITED_API 0x030B0000
#define PY_SSIZE_T_CLEAN
#include <Python.h>

#include <float.h>
#include <math.h>
#include <stdlib.h>
#include <string.h>

#include "levels.h"

/* Rises where what Python calls changes, so that an extension of other sources isn't used: fast.py has the same. */
#define INTERFACE 10
/* With fewer entries a call holds the lock: what giving it up costs would count. */
#define FEWEST 2000
/* So many bytes of working memory at most are kept for the next call. */
#define MOST_KEPT ((size_t)1 << 23)

/* The library's calls, where they are bound. */
static library calls;
static PyObject *array_type, *empty, *int64_type, *uint64_type, *float_type;

/* ---- Working memory */

/* The workshop of the last call, for the next one: a new block is filled by the system page by page, which would take
 * longer than to copy a matrix into it. It is taken and given back with the lock held. */
static workshop kept;

static workshop take_kept(void) {
    workshop shop = kept;
    kept = (workshop){0};
    return shop;
}

/* Keeps what isn't too much in place of what is kept already. */
static void give_back(workshop *shop) {
    if (shop->costs.bytes + shop->level.bytes + shop->round.bytes + shop->arcs * 4 + shop->slacks * 20 > MOST_KEPT) {
        close_shop(shop);
        return;
    }
    close_shop(&kept);
    kept = *shop;
}

/* ---- A question */

/* A problem at work, and the buffers that it reads, of which so many are to be given back. */
typedef struct {
    job w;
    Py_buffer views[4];
    int held, can_run, is_found;
} task;

/* The last of a call's arguments, which may be left out: a watch of (when it ends a search, a descriptor that ends it,
 * one for progress), as sigdorf.h has them, or None. 1 where there is something else, or where arguments are missing. */
static int take_watch_of(PyObject *const *arguments, Py_ssize_t count, Py_ssize_t place, sigdorf_watch *own,
                         sigdorf_watch **watch) {
    *watch = NULL;
    if (count == place || (count == place + 1 && arguments[place] == Py_None)) return 0;
    if (count != place + 1 || !PyTuple_Check(arguments[place]) || PyTuple_Size(arguments[place]) != 3) return 1;
    PyObject *given = arguments[place];
    *own = (sigdorf_watch){.until = PyLong_AsLongLong(PyTuple_GetItem(given, 0)),
                           .stop = (int32_t)PyLong_AsLong(PyTuple_GetItem(given, 1)),
                           .progress = (int32_t)PyLong_AsLong(PyTuple_GetItem(given, 2))};
    *watch = own;
    return PyErr_Occurred() != NULL;
}

/* Has a problem be watched. Who has set a time takes what is found by then. */
static void set_watch(question *q, sigdorf_watch *watch) {
    q->watch = watch;
    q->takes_gap = q->wants_prices || (watch && watch->until);
}

/* The numbers of a buffer, of one of these types, one after another, in so many dimensions: NULL where it has others.
 */
static Py_buffer *numbers_of(task *t, PyObject *given, const char *types, int dimensions) {
    Py_buffer *view = &t->views[t->held];
    if (PyObject_GetBuffer(given, view, PyBUF_C_CONTIGUOUS | PyBUF_FORMAT) < 0) {
        PyErr_Clear();
        return NULL;
    }
    t->held++;
    char type = view->format ? view->format[0] : 'B';
    /* A long is as wide as a long long here, and an int64 of numpy's the one or the other. */
    if (sizeof(long) == 8 && (type == 'l' || type == 'L')) type = type == 'l' ? 'q' : 'Q';
    t->w.q.type = type;
    return view->ndim == dimensions && !(view->format && view->format[1]) && strchr(types, type) ? view : NULL;
}

/* Whether an array is read-only and owns its memory. A read-only view may be of what others write, as pandas gives one. */
static int is_kept(PyObject *array, const Py_buffer *view) {
    if (!view->readonly) return 0;
    PyObject *base = PyObject_GetAttrString(array, "base");
    Py_XDECREF(base);
    return base == Py_None;
}

/* A table, or (rows, columns, costs, number of rows, number of columns): 1 where it isn't plain. */
static int take_problem(task *t, PyObject *given) {
    question *q = &t->w.q;
    Py_buffer *view;
    if (!PyTuple_Check(given)) {
        if ((PyObject *)Py_TYPE(given) != array_type || !(view = numbers_of(t, given, "dqQ", 2))) return 1;
        q->rows = (size_t)view->shape[0], q->columns = (size_t)view->shape[1], q->count = q->rows * q->columns;
        q->costs = view->buf, q->stride = q->columns, q->is_kept = is_kept(given, view);
        return 0;
    }
    if (PyTuple_Size(given) != 5) return 1;
    Py_buffer *row = numbers_of(t, PyTuple_GetItem(given, 0), "q", 1),
              *column = row ? numbers_of(t, PyTuple_GetItem(given, 1), "q", 1) : NULL;
    view = column ? numbers_of(t, PyTuple_GetItem(given, 2), "dqQ", 1) : NULL;
    q->rows = PyLong_AsSize_t(PyTuple_GetItem(given, 3)), q->columns = PyLong_AsSize_t(PyTuple_GetItem(given, 4));
    if (!view || PyErr_Occurred() || row->shape[0] != view->shape[0] || column->shape[0] != view->shape[0]) return 1;
    q->row = row->buf, q->column = column->buf, q->costs = view->buf, q->count = (size_t)view->shape[0];
    q->stride = q->columns;
    return 0;
}

/* None, or a limit of the costs' type; then there are pairs alone. */
static int take_limit(question *q, PyObject *given) {
    if (given == Py_None) return 0;
    if (q->wants_prices) return 1;
    q->has_limit = 1;
    if (q->type == 'd')
        q->limit = PyFloat_AsDouble(given);
    else
        q->whole_limit = q->type == 'q' ? (uint64_t)PyLong_AsLongLong(given) : PyLong_AsUnsignedLongLong(given);
    return PyErr_Occurred() || !(fabs(q->limit) <= DBL_MAX);
}

/* None, or prices: whole numbers, or doubles in the unit of the costs. */
static int take_start(task *t, PyObject *given) {
    question *q = &t->w.q;
    if (given == Py_None) return 0;
    char type = q->type;
    Py_buffer *view = numbers_of(t, given, "qd", 1);
    int are_amounts = q->type == 'd';
    q->type = type;
    if (!view) return 1;
    q->starts = (size_t)view->shape[0];
    if (are_amounts)
        q->start_amounts = view->buf;
    else
        q->start = view->buf;
    return 0;
}

/* ---- A problem */

/* Begins a job, with the other words of a call (a limit, a start and bids) or without them: 0 where it can be run. With
 * the lock held. */
static int begin(task *t, workshop *shop, PyObject *problem, int maximize, PyObject *const *more) {
    question *q = &t->w.q;
    q->most_entries = SIGDORF_MOST_ARCS;
    set_watch(q, q->watch);
    q->bids = more ? PyLong_AsUnsignedLongLong(more[2]) : SIGDORF_USUAL_BIDS;
    if (take_problem(t, problem) || (more && (take_limit(q, more[0]) || take_start(t, more[1])))) return 1;
    return PyErr_Occurred() || !calls.solve || q->count > SIGDORF_MOST_ARCS || begin_job(&t->w, shop, &calls, maximize);
}

static void end(task *t) {
    while (t->held) PyBuffer_Release(&t->views[--t->held]);
    end_job(&t->w);
}

/* Solves a problem: `is_found` says whether there is an answer. Nothing of Python's is used here. */
static void solve(task *t) {
    unsigned kept = begin_floats();
    int status = run(&t->w);
    end_floats(kept);
    t->is_found = status == SIGDORF_OPTIMAL || status == SIGDORF_BRACKET;
    if (t->is_found) write_pairs(&t->w);
}

static void solve_alone(task *t) {
    if (t->w.q.count < FEWEST && !t->w.q.watch) {
        solve(t);
        return;
    }
    Py_BEGIN_ALLOW_THREADS solve(t);
    Py_END_ALLOW_THREADS
}

/* ---- Answers */

/* A new array of so many numbers of a type of 64 bits, which are written to `*to`; its buffer is to be released. */
static PyObject *new_array(size_t count, PyObject *type, Py_buffer *view, int64_t **to) {
    PyObject *number = PyLong_FromSize_t(count), *array = NULL;
    if (number) array = PyObject_CallFunctionObjArgs(empty, number, type, NULL);
    Py_XDECREF(number);
    if (!array || PyObject_GetBuffer(array, view, PyBUF_WRITABLE) < 0) {
        Py_XDECREF(array);
        return NULL;
    }
    if (view->len != (Py_ssize_t)(count * 8)) {
        PyBuffer_Release(view);
        Py_DECREF(array);
        PyErr_SetString(PyExc_SystemError, "numpy.empty answers another array");
        return NULL;
    }
    *to = view->buf;
    return array;
}

static PyObject *array_of(const int64_t *numbers, size_t count) {
    Py_buffer view;
    int64_t *to;
    PyObject *array = new_array(count, int64_type, &view, &to);
    if (!array) return NULL;
    memcpy(to, numbers, count * 8);
    PyBuffer_Release(&view);
    return array;
}

/* The parts of an answer: rows, columns, the places of their entries, and rows and columns that stay free. */
enum { PARTS = 5 };

static const int64_t *part_of(const job *w, int part, size_t *count) {
    const int64_t *parts[PARTS] = {w->rows, w->columns, w->places, w->free_rows, w->free_columns};
    *count = part < 3 ? w->pairs : (part == 3 ? w->q.rows : w->q.columns) - w->pairs;
    return parts[part];
}

/* The cost of each pair, as it lies. */
static PyObject *costs_of(const job *w) {
    const question *q = &w->q;
    Py_buffer view;
    int64_t *to;
    PyObject *array =
        new_array(w->pairs, q->type == 'd' ? float_type : q->type == 'q' ? int64_type : uint64_type, &view, &to);
    if (!array) return NULL;
    for (size_t k = 0; k < w->pairs; k++) {
        int64_t place = q->row ? w->places[k] : w->rows[k] * (int64_t)q->stride + w->columns[k];
        memcpy(to + k, (const char *)q->costs + 8 * place, 8);
    }
    PyBuffer_Release(&view);
    return array;
}

/* The first of them in a tuple of arrays. */
static PyObject *pairs_of(const job *w, int parts) {
    PyObject *tuple = PyTuple_New(parts);
    for (int part = 0; tuple && part < parts; part++) {
        size_t count;
        const int64_t *numbers = part_of(w, part, &count);
        PyObject *array = array_of(numbers, count);
        if (!array)
            Py_CLEAR(tuple);
        else
            PyTuple_SetItem(tuple, part, array);
    }
    return tuple;
}

/* These parts, and where a limit has ended the search its gap: a number and its unit. */
static PyObject *with_gap(const job *w, PyObject *parts) {
    if (!parts || !w->gap) return parts;
    PyObject *gap = Py_BuildValue("(Li)", (long long)w->gap, w->gap_unit);
    PyObject *all = gap ? PySequence_Concat(parts, gap) : NULL;
    Py_DECREF(parts);
    Py_XDECREF(gap);
    return all;
}

/* A whole number of 128 bits. */
static PyObject *number_of(__int128 number) {
    if (number == (int64_t)number) return PyLong_FromLongLong((long long)number);
    PyObject *high = PyLong_FromLongLong((long long)(number >> 64)),
             *low = PyLong_FromUnsignedLongLong((unsigned long long)number);
    PyObject *bits = PyLong_FromLong(64), *shifted = high && bits ? PyNumber_Lshift(high, bits) : NULL;
    PyObject *sum = shifted && low ? PyNumber_Add(shifted, low) : NULL;
    Py_XDECREF(high);
    Py_XDECREF(low);
    Py_XDECREF(bits);
    Py_XDECREF(shifted);
    return sum;
}

/* Prices beyond 64 bits: a list of Python's whole numbers. */
static PyObject *long_prices_of(const job *w) {
    size_t objects = w->objects;
    PyObject *list = PyList_New((Py_ssize_t)objects);
    for (size_t j = 0; list && j < objects; j++) {
        PyObject *number = number_of(w->combined[j]);
        if (!number)
            Py_CLEAR(list);
        else
            PyList_SetItem(list, (Py_ssize_t)j, number);
    }
    return list;
}

/* The levels of an answer: a tuple of pairs of an array and its unit. */
static PyObject *levels_of(const job *w) {
    size_t objects = w->objects;
    PyObject *list = PyList_New(0);
    for (size_t k = 0; list && k <= w->levels; k++) {
        PyObject *array = array_of(k ? w->changes + (k - 1) * objects : w->prices, objects);
        PyObject *pair = array ? Py_BuildValue("(Ni)", array, k ? w->units[k - 1] : w->unit) : NULL;
        if (!pair || PyList_Append(list, pair) < 0) Py_CLEAR(list);
        Py_XDECREF(pair);
    }
    PyObject *tuple = list ? PyList_AsTuple(list) : NULL;
    Py_XDECREF(list);
    return tuple;
}

/* The sum of the costs as it is shown: of whole numbers itself, else the float next to it, or None where that isn't
 * made by one rounding. */
static PyObject *shown_of(const job *w, PyObject *total) {
    if (w->is_small || w->q.type != 'd') return Py_NewRef(total);
    double shown = w->has_sum ? ldexp((double)(w->sign * w->sum), -w->sum_unit) : 0;
    return fabs(shown) >= DBL_MIN && fabs(shown) <= DBL_MAX ? PyFloat_FromDouble(shown) : Py_NewRef(Py_None);
}

/* ((rows, columns, places), costs, prices, unit, total, total_unit, shown, gap, gap_unit): `prices` are an array or a list on
 * the scale (persons + 1) * 2^unit, or a tuple of levels. The sum of the costs is total / 2^total_unit, where total is
 * odd or total_unit isn't above 0; `total` is None where Python has to add them. `shown` is that sum as it is shown, or
 * None where Python has to round it. */
static PyObject *solution_of(const job *w) {
    PyObject *pairs = pairs_of(w, 3), *costs = pairs ? costs_of(w) : NULL;
    PyObject *prices = w->are_narrow ? array_of(w->prices, w->objects) : w->combined ? long_prices_of(w) : levels_of(w);
    PyObject *total = w->has_sum ? number_of(w->sign * w->sum) : Py_NewRef(Py_None);
    PyObject *shown = total ? shown_of(w, total) : NULL;
    if (!costs || !prices || !shown) {
        Py_XDECREF(pairs);
        Py_XDECREF(costs);
        Py_XDECREF(prices);
        Py_XDECREF(total);
        Py_XDECREF(shown);
        return NULL;
    }
    return Py_BuildValue("(NNNiNiNLi)", pairs, costs, prices, w->unit, total, w->sum_unit, shown, (long long)w->gap,
                         w->gap_unit);
}

static PyObject *answer_of(const task *t) {
    const job *w = &t->w;
    if (!t->is_found) return Py_NewRef(Py_None);
    return w->q.wants_prices ? solution_of(w) : with_gap(w, pairs_of(w, w->q.has_limit ? PARTS : 2));
}

/* The answers of some tasks. */
static PyObject *answers_of(const task *tasks, Py_ssize_t number) {
    PyObject *answers = PyList_New(number);
    for (Py_ssize_t k = 0; answers && k < number; k++) {
        PyObject *answer = answer_of(&tasks[k]);
        if (answer)
            PyList_SetItem(answers, k, answer);
        else
            Py_CLEAR(answers);
    }
    return answers;
}

/* One part of all answers, one after another. */
static PyObject *joined(const task *tasks, Py_ssize_t number, int part) {
    size_t all = 0, count;
    Py_buffer view;
    int64_t *to;
    for (Py_ssize_t k = 0; k < number; k++)
        if (tasks[k].is_found) part_of(&tasks[k].w, part, &count), all += count;
    PyObject *array = new_array(all, int64_type, &view, &to);
    if (!array) return NULL;
    for (Py_ssize_t k = 0; k < number; k++) {
        if (!tasks[k].is_found) continue;
        const int64_t *numbers = part_of(&tasks[k].w, part, &count);
        memcpy(to, numbers, count * 8);
        to += count;
    }
    PyBuffer_Release(&view);
    return array;
}

/* The answer of a task, by slices of the joined parts, which begin at these places. */
static PyObject *slices_of(const task *t, PyObject *const *arrays, size_t *from) {
    if (!t->is_found) return Py_NewRef(Py_None);
    PyObject *tuple = PyTuple_New(PARTS);
    for (int part = 0; tuple && part < PARTS; part++) {
        size_t count;
        part_of(&t->w, part, &count);
        PyObject *slice = PySequence_GetSlice(arrays[part], (Py_ssize_t)from[part], (Py_ssize_t)(from[part] + count));
        from[part] += count;
        if (!slice)
            Py_CLEAR(tuple);
        else
            PyTuple_SetItem(tuple, part, slice);
    }
    return with_gap(&t->w, tuple);
}

/* The answers of some tasks under limits. Small arrays of their own would take longer than to solve small tables. */
static PyObject *slices_of_all(const task *tasks, Py_ssize_t number) {
    PyObject *arrays[PARTS] = {NULL}, *answers = PyList_New(number);
    size_t from[PARTS] = {0};
    for (int part = 0; answers && part < PARTS; part++)
        if (!(arrays[part] = joined(tasks, number, part))) Py_CLEAR(answers);
    for (Py_ssize_t k = 0; answers && k < number; k++) {
        PyObject *answer = slices_of(&tasks[k], arrays, from);
        if (answer)
            PyList_SetItem(answers, k, answer);
        else
            Py_CLEAR(answers);
    }
    for (int part = 0; part < PARTS; part++) Py_XDECREF(arrays[part]);
    return answers;
}

/* ---- What Python calls */

static PyObject *found(PyObject *module, PyObject *const *arguments, Py_ssize_t count) {
    (void)module;
    sigdorf_watch own, *watch;
    if (take_watch_of(arguments, count, 6, &own, &watch) || !(arguments[1] == Py_True || arguments[1] == Py_False) ||
        !(arguments[2] == Py_True || arguments[2] == Py_False)) {
        PyErr_SetString(PyExc_TypeError,
                        "a problem, True or False, True or False, a limit, a start, bids and a watch are wanted");
        return NULL;
    }
    workshop shop = take_kept();
    task t = {.w.q.wants_prices = arguments[2] == Py_True, .w.q.watch = watch};
    if (!begin(&t, &shop, arguments[0], arguments[1] == Py_True, arguments + 3)) solve_alone(&t);
    /* What isn't plain is looked at by Python. */
    PyErr_Clear();
    PyObject *answer = answer_of(&t);
    end(&t);
    give_back(&shop);
    return answer;
}

/* Begins a task of each problem, with its limit if there are limits: how many entries those have that can be run. A
 * watch is of those that aren't small: to look at it would count beside the others, of which a call has some dozens. */
static size_t begin_all(task *tasks, Py_ssize_t number, workshop *shop, PyObject *problems, PyObject *limits,
                        int maximize, PyObject *bids, sigdorf_watch *watch) {
    size_t entries = 0;
    for (Py_ssize_t k = 0; k < number; k++) {
        PyObject *const more[3] = {limits ? PyTuple_GetItem(limits, k) : NULL, Py_None, bids};
        tasks[k].w.q.wants_prices = !limits;
        tasks[k].can_run = !begin(&tasks[k], shop, PyTuple_GetItem(problems, k), maximize, limits ? more : NULL);
        if (tasks[k].can_run) entries += tasks[k].w.q.count;
        if (tasks[k].w.q.count >= FEWEST) set_watch(&tasks[k].w.q, watch);
        PyErr_Clear();
    }
    return entries;
}

static void solve_all(task *tasks, Py_ssize_t number) {
    for (Py_ssize_t k = 0; k < number; k++)
        if (tasks[k].can_run && !is_over(&tasks[k].w)) solve(&tasks[k]);
}

/* The answers of problems, each without a limit and with prices, or with a limit of its own. With few entries and
 * limits the lock is held. What a watch has ended has none. */
static PyObject *found_each(PyObject *problems, PyObject *limits, int maximize, PyObject *bids, sigdorf_watch *watch) {
    Py_ssize_t number = PyTuple_Size(problems);
    task *tasks = calloc(number ? (size_t)number : 1, sizeof *tasks);
    if (!tasks) return PyErr_NoMemory();
    workshop shop = take_kept();
    if (begin_all(tasks, number, &shop, problems, limits, maximize, bids, watch) < FEWEST && limits && !watch)
        solve_all(tasks, number);
    else {
        Py_BEGIN_ALLOW_THREADS solve_all(tasks, number);
        Py_END_ALLOW_THREADS
    }
    PyObject *answers = limits ? slices_of_all(tasks, number) : answers_of(tasks, number);
    for (Py_ssize_t k = 0; k < number; k++) end(&tasks[k]);
    give_back(&shop);
    free(tasks);
    return answers;
}

static PyObject *found_all(PyObject *module, PyObject *const *arguments, Py_ssize_t count) {
    (void)module;
    sigdorf_watch own, *watch;
    if (take_watch_of(arguments, count, 2, &own, &watch) || !PyList_Check(arguments[0]) ||
        !(arguments[1] == Py_True || arguments[1] == Py_False)) {
        PyErr_SetString(PyExc_TypeError, "a list of tables, True or False, and a watch are wanted");
        return NULL;
    }
    /* Nobody else has this tuple, so that it stays as it is while the lock is given up. */
    PyObject *tables = PyList_AsTuple(arguments[0]);
    PyObject *answers = tables ? found_each(tables, NULL, arguments[1] == Py_True, NULL, watch) : NULL;
    Py_XDECREF(tables);
    return answers;
}

static PyObject *matched_all(PyObject *module, PyObject *const *arguments, Py_ssize_t count) {
    (void)module;
    sigdorf_watch own, *watch;
    if (take_watch_of(arguments, count, 4, &own, &watch) || !PyList_Check(arguments[0]) ||
        !PyList_Check(arguments[1]) || !(arguments[2] == Py_True || arguments[2] == Py_False)) {
        PyErr_SetString(PyExc_TypeError, "a list of problems, one of limits, True or False, bids and a watch are wanted");
        return NULL;
    }
    PyObject *problems = PyList_AsTuple(arguments[0]), *limits = problems ? PyList_AsTuple(arguments[1]) : NULL;
    PyObject *answers = NULL;
    if (limits && PyTuple_Size(problems) == PyTuple_Size(limits))
        answers = found_each(problems, limits, arguments[2] == Py_True, arguments[3], watch);
    else if (limits)
        PyErr_SetString(PyExc_ValueError, "limits must be as many as problems");
    Py_XDECREF(problems);
    Py_XDECREF(limits);
    return answers;
}

static PyObject *bind(PyObject *module, PyObject *const *arguments, Py_ssize_t count) {
    (void)module;
    if (count != 2) {
        PyErr_SetString(PyExc_TypeError, "two addresses are wanted");
        return NULL;
    }
    void *dense = PyLong_AsVoidPtr(arguments[0]), *arcs = PyLong_AsVoidPtr(arguments[1]);
    if (PyErr_Occurred()) return NULL;
    if (!dense || !arcs) {
        PyErr_SetString(PyExc_ValueError, "an address is null");
        return NULL;
    }
    calls = (library){(arcs_call *)(uintptr_t)arcs, (dense_call *)(uintptr_t)dense};
    Py_RETURN_NONE;
}

#define METHOD(name, text)                                                                                             \
    { #name, (PyCFunction)(void (*)(void))name, METH_FASTCALL, text }

static PyMethodDef methods[] = {
    METHOD(bind, "bind(dense, arcs): the addresses of the library's sigdorf_solve_dense_watched and sigdorf_solve_watched."),
    METHOD(
        found,
        "found(problem, maximize, wants_prices, limit, start, bids, watch=None): the pairs of a least assignment, or the parts of a solution, or None; a watch's time may leave pairs with a gap."),
    METHOD(found_all,
           "found_all(tables, maximize, watch=None): the parts of the solution of each, or None, with the lock given up once."),
    METHOD(matched_all,
           "matched_all(problems, limits, maximize, bids, watch=None): the pairs of each under its limit, or None; with the lock given up once."),
    {NULL, NULL, 0, NULL},
};

static struct PyModuleDef definition = {PyModuleDef_HEAD_INIT,
                                        "_fast",
                                        "Calls of tables and of lists of entries, in C.",
                                        -1,
                                        methods,
                                        NULL,
                                        NULL,
                                        NULL,
                                        NULL};

PyMODINIT_FUNC PyInit__fast(void) {
    PyObject *numpy = PyImport_ImportModule("numpy");
    if (!numpy) return NULL;
    array_type = PyObject_GetAttrString(numpy, "ndarray");
    empty = PyObject_GetAttrString(numpy, "empty");
    int64_type = PyObject_CallMethod(numpy, "dtype", "s", "i8");
    uint64_type = int64_type ? PyObject_CallMethod(numpy, "dtype", "s", "u8") : NULL;
    float_type = uint64_type ? PyObject_CallMethod(numpy, "dtype", "s", "f8") : NULL;
    Py_DECREF(numpy);
    PyObject *module = array_type && empty && float_type ? PyModule_Create(&definition) : NULL;
    if (module && PyModule_AddIntConstant(module, "INTERFACE", INTERFACE) < 0) Py_CLEAR(module);
    return module;
}
