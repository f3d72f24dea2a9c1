/* A plain evaluator for the comparison of docs/speed.md: it reads a system from standard input, reduces it in place by one
 * thread, and prints its configuration. It follows docs/machine.md, trusts its input, proves nothing, and leaves circles out.
 * With --stats it tells its interactions. cc -O2 -o plain bench/plain.c */
#include <ctype.h>
#include <stdint.h>
#include <stdio.h>
#include <stdlib.h>
#include <string.h>
#include <sys/mman.h>

/* A word stands for a term: its two lowest bits tell which kind, and the others where it is. */
typedef uint32_t word;
enum { AGENT, NAME, CONSTANT, FREE };
#define KIND(w) ((w) & 3)
#define AT(w) ((w) >> 2)
#define WORD(at, kind) ((word)(at) << 2 | (kind))

enum { MOST_ARITY = 15, MOST_REGISTERS = 8192 };

static void fail(const char *why) {
    fprintf(stderr, "plain: %s\n", why);
    exit(1);
}

/* Room for so many things, of which only what is used takes memory. */
static void *room(size_t count, size_t size) {
    void *at = mmap(NULL, count * size, PROT_READ | PROT_WRITE, MAP_PRIVATE | MAP_ANONYMOUS | MAP_NORESERVE, -1, 0);
    if (at == MAP_FAILED) fail("memory");
    return at;
}

/* ---- the net: agents as rows of words, names with the word that waits for their other occurrence, pairs that meet */

static word *cells, *names, free_cells[MOST_ARITY + 1], free_names;
static word next_cell = 1, next_name = 1;
static struct pair { word left, right; } *pending, *aside;
static size_t pendings, asides;
static uint64_t interactions;

static inline word new_cell(unsigned arity) {
    word at = free_cells[arity];
    if (at) {
        free_cells[arity] = cells[at];
        return at;
    }
    at = next_cell;
    next_cell += arity + 1;
    if (next_cell >= 1u << 30) fail("the net is too large");
    return at;
}

static inline void drop_cell(word at, unsigned arity) {
    cells[at] = free_cells[arity];
    free_cells[arity] = at;
}

static inline word new_name(void) {
    word at = free_names;
    if (at) {
        free_names = names[at];
    } else {
        at = next_name++;
        if (next_name >= 1u << 30) fail("names out");
    }
    names[at] = 0;
    return WORD(at, NAME);
}

static inline void drop_name(word at) {
    names[at] = free_names;
    free_names = at;
}

/* Takes an equation: a word waits at a name whose other occurrence is still to come, and two agents meet. */
static inline void link_words(word left, word right) {
    for (;;) {
        if (KIND(left) == NAME) {
            word waits = names[AT(left)];
            if (waits) {
                drop_name(AT(left));
                left = waits;
            } else if (left == right) {
                drop_name(AT(left));
                return;
            } else {
                names[AT(left)] = right;
                return;
            }
        } else if (KIND(right) == NAME) {
            word other = left;
            left = right;
            right = other;
        } else {
            pending[pendings++] = (struct pair){left, right};
            return;
        }
    }
}

/* ---- symbols, and names as they are written */

static struct symbol { char text[33]; unsigned arity; } *symbols;
static word symbol_count, *symbol_at, symbol_mask = (1u << 18) - 1;

static word symbol_of(const char *text, size_t length) {
    uint64_t hash = 14695981039346656037u;
    for (size_t i = 0; i < length; i++) hash = (hash ^ (unsigned char)text[i]) * 1099511628211u;
    for (word at = hash >> 40;; at++) {
        word found = symbol_at[at & symbol_mask];
        if (!found) {
            if (length > 32 || symbol_count > 65535) fail("limit");
            memcpy(symbols[symbol_count].text, text, length);
            symbols[symbol_count].arity = MOST_ARITY + 1;
            symbol_at[at & symbol_mask] = ++symbol_count;
            return symbol_count - 1;
        }
        const char *known = symbols[found - 1].text;
        if (!strncmp(known, text, length) && !known[length]) return found - 1;
    }
}

static inline unsigned arity_of(word term) { return symbols[KIND(term) == AGENT ? cells[AT(term)] : AT(term)].arity; }
static inline word head_of(word term) { return KIND(term) == AGENT ? cells[AT(term)] : AT(term); }

/* The names of a rule or a configuration: open addressing, emptied after each. */
static struct known { uint64_t number; word name, times; } *known;
static size_t known_count, known_room = 1024;

static struct known *known_at(uint64_t number) {
    size_t at = (number * 11400714819323198485u) >> 20;
    while (known[at & (known_room - 1)].times && known[at & (known_room - 1)].number != number) at++;
    return &known[at & (known_room - 1)];
}

static void know_nothing(void) {
    memset(known, 0, known_room * sizeof *known);
    known_count = 0;
}

static word name_of(uint64_t number) {
    if (2 * known_count > known_room) {
        struct known *old = known;
        size_t before = known_room;
        known_room *= 4;
        known = calloc(known_room, sizeof *known);
        if (!known) fail("memory");
        for (size_t i = 0; i < before; i++)
            if (old[i].times) *known_at(old[i].number) = old[i];
        free(old);
    }
    struct known *it = known_at(number);
    if (!it->times) {
        *it = (struct known){number, new_name(), 0};
        known_count++;
    }
    it->times++;
    return it->name;
}

/* ---- reading */

static const char *text;

static int next_mark(void) {
    while (isspace((unsigned char)*text)) text++;
    return *text;
}

static void mark(char wanted) {
    if (next_mark() != wanted) fail("bad syntax");
    text++;
}

static word read_name(void) {
    uint64_t number = 0, letter = *text++ - 'a';
    while (isdigit((unsigned char)*text)) number = 10 * number + (*text++ - '0');
    return name_of(26 * number + letter);
}

static word read_symbol(void) {
    const char *from = text;
    while (isalnum((unsigned char)*text)) text++;
    if (text == from) fail("bad syntax");
    return symbol_of(from, text - from);
}

/* A term is made at its closing mark, of the operands that wait on a stack: so nothing recurses. */
static word *operands;
static struct open { word symbol; size_t from; } *opened;

static word closed(word symbol, const word *arguments, unsigned count) {
    if (symbols[symbol].arity > MOST_ARITY) symbols[symbol].arity = count;
    if (symbols[symbol].arity != count || count > MOST_ARITY) fail("bad arity");
    if (!count) return WORD(symbol, CONSTANT);
    word at = new_cell(count);
    cells[at] = symbol;
    memcpy(&cells[at + 1], arguments, count * sizeof *arguments);
    return WORD(at, AGENT);
}

static word read_term(void) {
    size_t operand_count = 0, depth = 0;
    for (;;) {
        if (islower(next_mark())) {
            operands[operand_count++] = read_name();
        } else {
            word symbol = read_symbol();
            if (next_mark() == '(') {
                text++;
                opened[depth++] = (struct open){symbol, operand_count};
                continue;
            }
            operands[operand_count++] = closed(symbol, NULL, 0);
        }
        while (depth && next_mark() == ')') {
            text++;
            struct open it = opened[--depth];
            word made = closed(it.symbol, &operands[it.from], operand_count - it.from);
            operand_count = it.from;
            operands[operand_count++] = made;
        }
        if (!depth) return operands[0];
        mark(',');
    }
}

/* ---- rules as flat code: registers hold the pair's arguments first, then what the code makes */

enum { MAKE_NAME, MAKE_CONSTANT, MAKE_ONE, MAKE_TWO, MAKE_AGENT, LINK, END };
static struct rule { word left, right; uint32_t code, left_arity, right_arity; } *rules;
static size_t rule_count, code_length;
static uint32_t *code, *rule_at, registers;
static uint64_t rule_mask;

/* Where each name of the rule that is compiled stands: its register, one more than it, or nothing. */
static uint32_t *register_of;

static void emit(uint32_t it) { code[code_length++] = it; }

static uint32_t compile_term(word term) {
    uint32_t inner[MOST_ARITY];
    if (KIND(term) == NAME) {
        if (!register_of[AT(term)]) {
            emit(MAKE_NAME);
            register_of[AT(term)] = ++registers;
        }
        return register_of[AT(term)] - 1;
    }
    if (KIND(term) == CONSTANT) {
        emit(MAKE_CONSTANT);
        emit(term);
        return registers++;
    }
    word symbol = cells[AT(term)];
    for (unsigned i = 0; i < symbols[symbol].arity; i++) inner[i] = compile_term(cells[AT(term) + 1 + i]);
    unsigned arity = symbols[symbol].arity;
    emit(arity == 1 ? MAKE_ONE : arity == 2 ? MAKE_TWO : MAKE_AGENT);
    emit(symbol);
    if (arity > 2) emit(arity);
    for (unsigned i = 0; i < symbols[symbol].arity; i++) emit(inner[i]);
    return registers++;
}

static void read_rule(void) {
    word sides[2], arguments[2 * MOST_ARITY];
    unsigned count = 0;
    know_nothing();
    sides[0] = read_term();
    mark('>'), mark('<');
    sides[1] = read_term();
    struct rule *rule = &rules[rule_count++];
    *rule = (struct rule){head_of(sides[0]), head_of(sides[1]), code_length, arity_of(sides[0]), arity_of(sides[1])};
    for (int side = 0; side < 2; side++)
        for (unsigned i = 0; i < arity_of(sides[side]); i++) arguments[count++] = cells[AT(sides[side]) + 1 + i];
    registers = count;
    for (unsigned i = 0; i < count; i++) {
        if (KIND(arguments[i]) != NAME) continue;
        uint32_t *first = &register_of[AT(arguments[i])];
        if (*first) emit(LINK), emit(*first - 1), emit(i);
        *first = i + 1;
    }
    for (unsigned i = 0; i < count; i++) {
        if (KIND(arguments[i]) == NAME) continue;
        uint32_t made = compile_term(arguments[i]);
        emit(LINK), emit(i), emit(made);
    }
    emit(END);
    if (registers > MOST_REGISTERS) fail("limit");
    for (size_t i = 0; i < known_room; i++)
        if (known[i].times) register_of[AT(known[i].name)] = 0;
}

/* Where symbols are few, a table of all pairs has one more than each rule's number, twice that and one where its sides are turned. */
static uint32_t *matrix;

static inline uint64_t slot_of(word left, word right) {
    uint64_t key = ((uint64_t)left << 16 | right) * 11400714819323198485u;
    return key >> 30;
}

static const struct rule *rule_of(word left, word right) {
    for (uint64_t at = slot_of(left, right);; at++) {
        uint32_t found = rule_at[at & rule_mask];
        if (!found) return NULL;
        const struct rule *it = &rules[found - 1];
        if (it->left == left && it->right == right) return it;
    }
}

static void file_rules(void) {
    for (rule_mask = 256; rule_mask < 8 * rule_count; rule_mask *= 2) {}
    rule_at = calloc(rule_mask--, sizeof *rule_at);
    if (!rule_at) fail("memory");
    if (symbol_count <= 1024) matrix = calloc((size_t)1 << 20, sizeof *matrix);
    for (size_t i = 0; matrix && i < rule_count; i++) {
        matrix[rules[i].right << 10 | rules[i].left] = 2 * i + 3;
        matrix[rules[i].left << 10 | rules[i].right] = 2 * i + 2;
    }
    for (size_t i = 0; i < rule_count; i++) {
        uint64_t at = slot_of(rules[i].left, rules[i].right);
        while (rule_at[at & rule_mask]) at++;
        rule_at[at & rule_mask] = i + 1;
    }
}

/* ---- reducing */

static inline void take_apart(word term, unsigned arity, word *held) {
    if (!arity) return;
    word at = AT(term);
    for (unsigned i = 0; i < arity; i++) held[i] = cells[at + 1 + i];
    drop_cell(at, arity);
}

static inline void fire(const struct rule *rule, word left, word right) {
    word held[MOST_REGISTERS];
    unsigned count = rule->left_arity + rule->right_arity;
    take_apart(left, rule->left_arity, held);
    take_apart(right, rule->right_arity, held + rule->left_arity);
    for (const uint32_t *at = code + rule->code;;) {
        switch (*at) {
        case MAKE_NAME:
            held[count++] = new_name();
            at++;
            break;
        case MAKE_CONSTANT:
            held[count++] = at[1];
            at += 2;
            break;
        case MAKE_ONE: {
            word made = new_cell(1);
            cells[made] = at[1], cells[made + 1] = held[at[2]];
            held[count++] = WORD(made, AGENT);
            at += 3;
            break;
        }
        case MAKE_TWO: {
            word made = new_cell(2);
            cells[made] = at[1], cells[made + 1] = held[at[2]], cells[made + 2] = held[at[3]];
            held[count++] = WORD(made, AGENT);
            at += 4;
            break;
        }
        case MAKE_AGENT: {
            word made = new_cell(at[2]);
            cells[made] = at[1];
            for (uint32_t i = 0; i < at[2]; i++) cells[made + 1 + i] = held[at[3 + i]];
            held[count++] = WORD(made, AGENT);
            at += 3 + at[2];
            break;
        }
        case LINK:
            link_words(held[at[1]], held[at[2]]);
            at += 3;
            break;
        default:
            return;
        }
    }
}

static void reduce(void) {
    while (pendings) {
        struct pair it = pending[--pendings];
        word left = head_of(it.left), right = head_of(it.right);
        const struct rule *rule = NULL;
        if (KIND(it.left) != FREE && KIND(it.right) != FREE) {
            if (matrix && left < 1024 && right < 1024) {
                uint32_t found = matrix[left << 10 | right];
                if (found) rule = &rules[(found >> 1) - 1];
                if (found & 1) it = (struct pair){it.right, it.left};
            } else if (!(rule = rule_of(left, right)) && (rule = rule_of(right, left)))
                it = (struct pair){it.right, it.left};
        }
        if (rule) {
            interactions++;
            fire(rule, it.left, it.right);
        } else {
            aside[asides++] = it;
        }
    }
}

/* ---- printing: free names keep their numbers, and the others follow them */

/* The number of a free name, and one more than that of any other which has one. */
static uint64_t next_number, *number_of;

static void print_name(uint64_t number) {
    putchar_unlocked('a' + number % 26);
    if (number / 26) printf("%llu", (unsigned long long)(number / 26));
}

static void print_term(word whole) {
    static struct left { word at, end; } *left;
    size_t depth = 0;
    if (!left) left = room(1u << 30, sizeof *left);
    for (word it = whole;;) {
        while (KIND(it) == NAME && names[AT(it)]) it = names[AT(it)];
        if (KIND(it) == FREE) {
            print_name(number_of[AT(it)]);
        } else if (KIND(it) == NAME) {
            if (!number_of[AT(it)]) number_of[AT(it)] = ++next_number;
            print_name(number_of[AT(it)] - 1);
        } else {
            fputs(symbols[head_of(it)].text, stdout);
        }
        if (KIND(it) == AGENT) {
            putchar_unlocked('(');
            left[depth++] = (struct left){AT(it) + 1, AT(it) + 1 + arity_of(it)};
        } else {
            while (depth && left[depth - 1].at == left[depth - 1].end) {
                putchar_unlocked(')');
                depth--;
            }
            if (!depth) return;
            putchar_unlocked(',');
        }
        it = cells[left[depth - 1].at++];
    }
}

/* ---- from a text to its answer */

static char *whole_input(void) {
    size_t length = 0, space = 1 << 20;
    char *at = malloc(space + 1);
    for (size_t got; at && (got = fread(at + length, 1, space - length, stdin)); length += got)
        if (length + got == space) at = realloc(at, (space *= 2) + 1);
    if (!at) fail("memory");
    at[length] = 0;
    return at;
}

static word freed(word term, const unsigned char *is_once) {
    return KIND(term) == NAME && is_once[AT(term)] ? WORD(AT(term), FREE) : term;
}

/* Marks the names of the text that stand once: its agents begin at this cell. */
static void mark_free(word from_cell, struct pair *equations, size_t count, word *interface, size_t terms) {
    unsigned char *is_once = calloc(next_name, 1);
    if (!is_once) fail("memory");
    next_number = 0;
    for (size_t i = 0; i < known_room; i++) {
        if (known[i].times != 1) continue;
        is_once[AT(known[i].name)] = 1;
        number_of[AT(known[i].name)] = known[i].number;
        if (known[i].number >= next_number) next_number = known[i].number + 1;
    }
    for (word at = from_cell; at < next_cell; at += symbols[cells[at]].arity + 1)
        for (unsigned i = 1; i <= symbols[cells[at]].arity; i++) cells[at + i] = freed(cells[at + i], is_once);
    for (size_t i = 0; i < count; i++) equations[i] = (struct pair){freed(equations[i].left, is_once), freed(equations[i].right, is_once)};
    for (size_t i = 0; i < terms; i++) interface[i] = freed(interface[i], is_once);
    free(is_once);
}

static void make_room(void) {
    size_t many = 1u << 30;
    cells = room(many, sizeof *cells), names = room(many, sizeof *names), number_of = room(many, sizeof *number_of);
    pending = room(many, sizeof *pending), aside = room(many, sizeof *aside);
    operands = room(many, sizeof *operands), opened = room(many, sizeof *opened);
    rules = room(many >> 4, sizeof *rules), code = room(many, sizeof *code), register_of = room(many, sizeof *register_of);
    symbols = room(1 << 17, sizeof *symbols), symbol_at = room(symbol_mask + 1, sizeof *symbol_at);
    known = calloc(known_room, sizeof *known);
}

int main(int count, char **arguments) {
    make_room();
    text = whole_input();
    if (next_mark() == '{') {
        text++;
        while (next_mark() != '}') {
            read_rule();
            if (next_mark() == ';') text++;
        }
        mark('}');
    }
    file_rules();
    know_nothing();
    word from_cell = next_cell, *interface = room(1u << 30, sizeof *interface);
    struct pair *equations = room(1u << 30, sizeof *equations);
    size_t terms = 0, equation_count = 0;
    mark('<');
    while (next_mark() != '|') {
        interface[terms++] = read_term();
        if (next_mark() == ',') text++;
    }
    mark('|');
    while (next_mark() != '>') {
        word left = read_term();
        mark('=');
        equations[equation_count++] = (struct pair){left, read_term()};
        if (next_mark() == ',') text++;
    }
    mark_free(from_cell, equations, equation_count, interface, terms);
    for (size_t i = 0; i < equation_count; i++) link_words(equations[i].left, equations[i].right);
    reduce();
    putchar('<');
    for (size_t i = 0; i < terms; i++) {
        if (i) putchar(',');
        print_term(interface[i]);
    }
    putchar('|');
    for (size_t i = 0; i < asides; i++) {
        if (i) putchar(',');
        print_term(aside[i].left);
        putchar('=');
        print_term(aside[i].right);
    }
    puts(">");
    if (count > 1 && !strcmp(arguments[count - 1], "--stats")) fprintf(stderr, "interactions %llu\n", (unsigned long long)interactions);
    return 0;
}
