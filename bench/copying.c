/*
 * Runs a sheet by the copy rule itself (docs/COPY_RULE.md): a call is replaced by a copy of the procedure's body, with a fresh name for the
 * value formal and the variable in place of the variable formal. It prints what the program fieldrun prints: the closing, and the globals.
 *
 * The sheet comes on standard input and has to be one that fieldrun accepts: whether it is a script is not looked at here.
 * Whole numbers, 1,024 zero words, one grant of 1,000,000 statements, as in fieldrun; or what is said:
 *   copying [CELLS STATEMENTS [WORD ..]]      the words are the store's first, the others zero
 */
#include <stdint.h>
#include <stdio.h>
#include <stdlib.h>

enum { MOST_LINES = 2048, MOST_CELLS = 4096, DEEPEST = 512 };
enum { OUT_OF_RANGE = 21, ZERO_DIVISOR = 22, NO_ELEMENT = 23, TOO_DEEP = 24, NO_CELLS = 25 };

/* ---- The text ---- */

/* The kind of a place whose index is fixed. It comes from no line: only a call makes it. */
enum { FIXED = 'F' };

typedef struct Node Node;
struct Node {
    char kind;
    int line;
    int name[3];    /* what the line names; of a procedure: itself and its two formals */
    int64_t number; /* a constant, a length, or the index of a fixed place */
    Node *part[3];
};

static Node sheet[MOST_LINES + 1];
static int lines;

static _Noreturn void give_up(const char *why)
{
    fprintf(stderr, "copying: line %d: %s\n", lines, why);
    exit(1);
}

/* Memory for copies. It is used as a stack: what a statement has copied goes when the statement is done. */
static char *memory;
static size_t memory_size = (size_t)256 << 20, memory_used;

static void *take(size_t bytes)
{
    bytes = (bytes + 15) & ~(size_t)15;
    if (memory_used + bytes > memory_size)
        give_up("no memory");
    void *at = memory + memory_used;
    memory_used += bytes;
    return at;
}

static void read_line(Node *node, const char *text)
{
    long number, field[4];
    if (sscanf(text, "%ld,%c,%ld,%ld,%ld,%ld", &number, &node->kind, &field[0], &field[1], &field[2], &field[3]) != 6 || number != lines)
        give_up("not six fields, or another number");
    node->line = lines;
    /* For each kind, what its fields are: a name, a number, a line, or nothing. */
    static const char *const fields[256] = {
        ['g'] = "n#--", ['k'] = "#---", ['x'] = "n---", ['a'] = "nl--", ['+'] = "ll--", ['-'] = "ll--", ['*'] = "ll--", ['/'] = "ll--",
        ['='] = "ll--", ['<'] = "ll--", ['?'] = "lll-", ['t'] = "----", ['f'] = "----", ['!'] = "l---", ['>'] = "ll--", ['s'] = "ll--",
        [';'] = "ll--", ['i'] = "lll-", ['p'] = "nll-", ['v'] = "nl--", ['r'] = "n#l-", ['e'] = "ll--", ['d'] = "nnnl", ['&'] = "ll--",
    };
    const char *sorts = fields[(unsigned char)node->kind];
    if (!sorts)
        give_up("no such kind");
    int names = 0, parts = 0;
    for (int i = 0; i < 4; i++) {
        if (sorts[i] == 'n')
            node->name[names++] = (int)field[i];
        else if (sorts[i] == '#')
            node->number = field[i];
        else if (sorts[i] == 'l') {
            if (field[i] < 1 || field[i] >= lines)
                give_up("no earlier line");
            node->part[parts++] = &sheet[field[i]];
        }
    }
}

static void read_sheet(void)
{
    char text[256];
    while (fgets(text, sizeof text, stdin)) {
        if (++lines > MOST_LINES)
            give_up("too many lines");
        read_line(&sheet[lines], text);
    }
    if (lines == 0)
        give_up("no lines");
}

/* ---- Telling the declarations apart ---- */

/* A declaration's own name: its line and what it is there. The fresh names are above all of these. */
enum { DECLARED, VALUE_FORMAL, VARIABLE_FORMAL, ROLES };
enum { FIRST_FRESH = ROLES * (MOST_LINES + 1) };

static int own_name(int line, int role) { return ROLES * line + role; }

/* What is declared around a place, the innermost first. Simple variables, arrays and procedures have names apart. */
enum { SIMPLE, ARRAY, PROCEDURE };
typedef struct Scope {
    int sort, name, own;
    const struct Scope *outer;
} Scope;

static const Scope *declare(int sort, int name, int own, const Scope *outer)
{
    Scope *scope = take(sizeof *scope);
    *scope = (Scope){sort, name, own, outer};
    return scope;
}

static int declared(int sort, int name, const Scope *scope)
{
    for (; scope; scope = scope->outer)
        if (scope->sort == sort && scope->name == name)
            return scope->own;
    give_up("a name that is not declared");
}

static const Scope *declare_system(const Node *node, const Scope *outer)
{
    if (node->kind == '&')
        return declare_system(node->part[1], declare_system(node->part[0], outer));
    return declare(PROCEDURE, node->name[0], own_name(node->line, DECLARED), outer);
}

/* Gives every use the own name of the innermost declaration around it. */
static void tell_apart(Node *node, const Scope *scope)
{
    int own = own_name(node->line, DECLARED);
    switch (node->kind) {
    case 'x': node->name[0] = declared(SIMPLE, node->name[0], scope); break;
    case 'a': node->name[0] = declared(ARRAY, node->name[0], scope); break;
    case 'p': node->name[0] = declared(PROCEDURE, node->name[0], scope); break;
    case 'v': scope = declare(SIMPLE, node->name[0], own, scope); node->name[0] = own; break;
    case 'r': scope = declare(ARRAY, node->name[0], own, scope); node->name[0] = own; break;
    case 'e': scope = declare_system(node->part[0], scope); break;
    case 'd':
        scope = declare(SIMPLE, node->name[1], own_name(node->line, VALUE_FORMAL), scope);
        scope = declare(SIMPLE, node->name[2], own_name(node->line, VARIABLE_FORMAL), scope);
        for (int role = DECLARED; role < ROLES; role++)
            node->name[role] = own_name(node->line, role);
        break;
    }
    for (int i = 0; i < 3 && node->part[i]; i++)
        tell_apart(node->part[i], scope);
}

/* ---- Copies ---- */

/* A replacement: the name, and the name or the fixed place that comes for it. */
typedef struct {
    int name;
    Node by;
} Change;

/* A copy of a text, with some names replaced. */
static Node *copy(const Node *node, const Change *changes, int count)
{
    Node *copied = take(sizeof *copied);
    *copied = *node;
    int uses_name = node->kind == 'x' || node->kind == 'a' || node->kind == 'p';
    for (int i = 0; uses_name && i < count; i++) {
        if (changes[i].name != node->name[0])
            continue;
        copied->name[0] = changes[i].by.name[0];
        if (changes[i].by.kind == FIXED) {
            copied->kind = FIXED;
            copied->number = changes[i].by.number;
        }
        break;
    }
    for (int i = 0; i < 3 && node->part[i]; i++)
        copied->part[i] = copy(node->part[i], changes, count);
    return copied;
}

/* ---- What names stand for ---- */

/* A cell, some cells, or a procedure's text. */
typedef struct {
    int first, length;
    const Node *procedure;
} Standing;

static Standing *standing;
static int standing_size, fresh = FIRST_FRESH;

/* A fresh name. Names go, as copies do, when the statement that made them is done: no text has them then. */
static int fresh_name(Standing what)
{
    if (fresh == standing_size) {
        standing_size *= 2;
        standing = realloc(standing, sizeof *standing * standing_size);
        if (!standing)
            give_up("no memory");
    }
    standing[fresh] = what;
    return fresh++;
}

/* ---- A run ---- */

static uint32_t store[MOST_CELLS];
static int cells = 1024;
static int64_t allowance = 1000000, begun;
static int line_begun;

/* Writes the closing and the globals, and ends the program. */
static _Noreturn void end(char ending, int fault, int line)
{
    printf("%c,%d,%d,%lld\n", ending, fault, line, (long long)begun);
    for (int i = 1; i <= lines && sheet[i].kind == 'g'; i++) {
        Standing global = standing[own_name(i, DECLARED)];
        for (int at = 0; at < global.length; at++)
            printf("%c,%d,%d,%u\n", sheet[i].number ? 'a' : 'x', sheet[i].name[0], at, store[global.first + at]);
    }
    exit(0);
}

static _Noreturn void fail(int fault) { end('x', fault, line_begun); }

static int holds(const Node *node), cell(const Node *place);

static int32_t in_range(int64_t number)
{
    if (number < INT32_MIN || number > INT32_MAX)
        fail(OUT_OF_RANGE);
    return (int32_t)number;
}

/* a / b by the remainder: where that is half of b or more, one further from zero. */
static int64_t quotient(int64_t a, int64_t b)
{
    int64_t whole = a / b;
    if (2 * llabs(a % b) < llabs(b))
        return whole;
    return (a < 0) == (b < 0) ? whole + 1 : whole - 1;
}

static int32_t value(const Node *node)
{
    switch (node->kind) {
    case 'k': return (int32_t)node->number;
    case '?': return value(holds(node->part[0]) ? node->part[1] : node->part[2]);
    case 'x': case 'a': case FIXED: return (int32_t)store[cell(node)];
    }
    int64_t a = value(node->part[0]);
    int64_t b = value(node->part[1]);
    if (node->kind == '/' && b == 0)
        fail(ZERO_DIVISOR);
    return in_range(node->kind == '+' ? a + b : node->kind == '-' ? a - b : node->kind == '*' ? a * b : quotient(a, b));
}

static int holds(const Node *node)
{
    int32_t a, b;
    switch (node->kind) {
    case 't': return 1;
    case 'f': return 0;
    case '!': return !holds(node->part[0]);
    case '=': a = value(node->part[0]); b = value(node->part[1]); return a == b;
    case '<': a = value(node->part[0]); b = value(node->part[1]); return a < b;
    default: a = holds(node->part[0]); b = holds(node->part[1]); return !a || b; /* both sides are worked */
    }
}

/* The index of an element, checked. */
static int checked_index(const Node *element)
{
    int32_t index = value(element->part[0]);
    if (index < 0 || index >= standing[element->name[0]].length)
        fail(NO_ELEMENT);
    return index;
}

static int cell(const Node *place)
{
    int index = place->kind == 'a' ? checked_index(place) : (int)place->number;
    return standing[place->name[0]].first + index;
}

/* One level deeper, with some more cells. */
static void enter(int *level, int *used, int more)
{
    if (*level >= DEEPEST)
        fail(TOO_DEEP);
    if (*used + more > cells)
        fail(NO_CELLS);
    *level += 1;
    *used += more;
}

/* A call: the copy of the body. */
static const Node *call(const Node *statement, int *level, int *used)
{
    int32_t word = value(statement->part[0]);
    Node place = *statement->part[1];
    if (place.kind == 'a') {
        place.number = checked_index(&place);
        place.kind = FIXED;
    }
    const Node *procedure = standing[statement->name[0]].procedure;
    enter(level, used, 1);
    store[*used - 1] = (uint32_t)word;
    Node formal = {.kind = 'x', .name = {fresh_name((Standing){*used - 1, 1, NULL})}};
    Change changes[] = {{procedure->name[1], formal}, {procedure->name[2], place}};
    return copy(procedure->part[0], changes, 2);
}

/* A new variable: the copy of the statement with a fresh name, which takes cells set to zero. */
static const Node *new_cells(const Node *statement, int count, int *level, int *used)
{
    enter(level, used, count);
    for (int at = *used - count; at < *used; at++)
        store[at] = 0;
    Node name = {.kind = 'x', .name = {fresh_name((Standing){*used - count, count, NULL})}};
    Change change = {statement->name[0], name};
    return copy(statement->part[0], &change, 1);
}

static int count_procedures(const Node *node)
{
    return node->kind == '&' ? count_procedures(node->part[0]) + count_procedures(node->part[1]) : 1;
}

/* Gives the procedures of a system fresh names, and tells how many of the changes are made. */
static int rename_system(const Node *node, Change *changes, int made)
{
    if (node->kind == '&')
        return rename_system(node->part[1], changes, rename_system(node->part[0], changes, made));
    changes[made] = (Change){node->name[0], {.kind = 'p', .name = {fresh_name((Standing){0, 0, node})}}};
    return made + 1;
}

/* A system: copies of its procedures and of the statement, with fresh names for the procedures. */
static const Node *system_of(const Node *statement, int *level, int *used)
{
    enter(level, used, 0);
    Change *changes = take(sizeof *changes * count_procedures(statement->part[0]));
    int count = rename_system(statement->part[0], changes, 0);
    for (int i = 0; i < count; i++) {
        Standing *procedure = &standing[changes[i].by.name[0]];
        procedure->procedure = copy(procedure->procedure, changes, count);
    }
    return copy(statement->part[1], changes, count);
}

/* Runs a statement. What comes last in it is run by the same loop. */
static void run(const Node *statement, int level, int used)
{
    size_t memory_before = memory_used;
    int fresh_before = fresh;
    for (;;) {
        if (begun == allowance)
            end('s', 0, 0);
        begun++;
        line_begun = statement->line;
        switch (statement->kind) {
        case 's': {
            int32_t word = value(statement->part[1]);
            store[cell(statement->part[0])] = (uint32_t)word;
            memory_used = memory_before;
            fresh = fresh_before;
            return;
        }
        case ';': {
            int inner = level, same = used;
            enter(&inner, &same, 0);
            run(statement->part[0], inner, same);
            statement = statement->part[1];
            break;
        }
        case 'i': statement = statement->part[holds(statement->part[0]) ? 1 : 2]; break;
        case 'p': statement = call(statement, &level, &used); break;
        case 'v': statement = new_cells(statement, 1, &level, &used); break;
        case 'r': statement = new_cells(statement, (int)statement->number, &level, &used); break;
        default: statement = system_of(statement, &level, &used);
        }
    }
}

/* The cells, the allowance and the first words, where they are said. */
static void read_arguments(int count, char **arguments)
{
    if (count == 1)
        return;
    if (count == 2)
        give_up("cells, but no allowance");
    cells = atoi(arguments[1]);
    allowance = atoll(arguments[2]);
    if (cells > MOST_CELLS || count - 3 > cells)
        give_up("too many cells or words");
    for (int i = 3; i < count; i++)
        store[i - 3] = (uint32_t)atoll(arguments[i]);
}

int main(int count, char **arguments)
{
    read_arguments(count, arguments);
    memory = malloc(memory_size);
    standing_size = 2 * FIRST_FRESH;
    standing = calloc(standing_size, sizeof *standing);
    if (!memory || !standing)
        give_up("no memory");
    read_sheet();
    const Scope *scope = NULL;
    int used = 0;
    for (int i = 1; i <= lines && sheet[i].kind == 'g'; i++) {
        int length = sheet[i].number ? (int)sheet[i].number : 1;
        standing[own_name(i, DECLARED)] = (Standing){used, length, NULL};
        scope = declare(sheet[i].number ? ARRAY : SIMPLE, sheet[i].name[0], own_name(i, DECLARED), scope);
        used += length;
    }
    if (used > cells)
        give_up("the globals take more cells than there are");
    tell_apart(&sheet[lines], scope);
    run(&sheet[lines], 0, used);
    end('f', 0, 0);
}
