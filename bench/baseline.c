/* The same search as the engine's, step by step, in plain C.

   A step asks whether the place is dead, and whether its floor is below the cost of the sheet that is held. Each time every
   rule, clause, act and weak constraint is tested, by bit masks; nothing is kept from one step to the next. The lines of the report go
   to standard output, and the steps and the seconds of the search to standard error. The file must be a good one. */
#include <stdint.h>
#include <stdio.h>
#include <string.h>
#include <time.h>

typedef uint64_t sheet;

enum { MOST_BYTES = 32768, MOST = 256, MOST_BODY = 8, MOST_ELEMENTS = 32, MOST_ACTS = 32, LEVELS = 8 };

/* Marks that are to be in one sheet, and marks that are to be missing from another. */
typedef struct { sheet plain, nots; } literals;

/* Where all weights are equal and no literal comes twice, the sum is a count of bits. */
typedef struct {
    uint32_t low, high;
    int even, count;
    uint32_t weight;
    literals all;
    sheet plain[MOST_ELEMENTS], nots[MOST_ELEMENTS];
    uint32_t weights[MOST_ELEMENTS];
} constraint;

typedef struct { constraint head, body[MOST_BODY]; int count; } rule;
typedef struct { literals all; int level, weight, tag; } wish;
/* Costs once where its first member holds, or one of the others, which stand from `begin` to before `end`. */
typedef struct { literals first; int level, weight, begin, end; } weak;
typedef struct { int code; sheet marks; } act;
typedef struct { int32_t levels[LEVELS]; int distance; } cost;

static unsigned char file[MOST_BYTES];
static int at;
static int count;
static sheet house;
static rule rules[MOST];
static literals clauses[MOST];
static wish wishes[MOST];
static literals others[MOST];
static weak weaks[MOST];
static act docket[MOST_ACTS];
static int rule_count, clause_count, wish_count, other_count, weak_count, act_count;

static sheet number(int size) {
    sheet value = 0;
    for (int i = 0; i < size; i++) value |= (sheet)file[at++] << 8 * i;
    return value;
}

static sheet first_marks(int marks) { return marks < 64 ? ((sheet)1 << marks) - 1 : ~(sheet)0; }

/* Adds a literal, and answers whether it was there. */
static int add_literal(literals *all, unsigned byte) {
    sheet bit = (sheet)1 << (byte & 127);
    sheet *marks = byte & 128 ? &all->nots : &all->plain;
    int twice = (*marks & bit) != 0;
    *marks |= bit;
    return twice;
}

static literals read_literals(void) {
    literals all = {0, 0};
    for (int left = (int)number(1); left > 0; left--) add_literal(&all, (unsigned)number(1));
    return all;
}

static void read_constraint(constraint *c) {
    memset(c, 0, sizeof *c);
    c->low = (uint32_t)number(4);
    c->high = (uint32_t)number(4);
    c->count = (int)number(1);
    c->even = 1;
    for (int i = 0; i < c->count; i++) {
        unsigned byte = (unsigned)number(1);
        if (byte & 128) c->nots[i] = (sheet)1 << (byte & 127);
        else c->plain[i] = (sheet)1 << byte;
        c->weights[i] = (uint32_t)number(2);
        if (i == 0) c->weight = c->weights[0];
        if (add_literal(&c->all, byte) || c->weights[i] != c->weight) c->even = 0;
    }
}

static void read_rule(void) {
    rule *r = &rules[rule_count++];
    r->count = (int)number(1);
    read_constraint(&r->head);
    for (int i = 0; i < r->count; i++) read_constraint(&r->body[i]);
}

static void read_wish(int tagged) {
    wish *w = &wishes[wish_count++];
    w->level = (int)number(1);
    w->tag = tagged ? (int)number(2) : -1;
    w->weight = (int16_t)number(2);
    w->all = read_literals();
}

static int is_one_group(const wish *a, const wish *b) {
    return a->tag >= 0 && a->tag == b->tag && a->level == b->level && a->weight == b->weight;
}

static int has_earlier(int place) {
    for (int i = 0; i < place; i++)
        if (is_one_group(&wishes[i], &wishes[place])) return 1;
    return 0;
}

/* Adds the wish with the later ones of its group. */
static void add_weak(int place) {
    const wish *first = &wishes[place];
    int begin = other_count;
    for (int i = place + 1; i < wish_count; i++)
        if (is_one_group(first, &wishes[i])) others[other_count++] = wishes[i].all;
    weaks[weak_count++] = (weak){first->all, first->level, first->weight, begin, other_count};
}

static void add_weaks(void) {
    for (int i = 0; i < wish_count; i++)
        if (!has_earlier(i)) add_weak(i);
}

/* Why an act is refused, or 0. */
static int refusal(int code, sheet argument) {
    if (code == 4) return act_count == 0 ? 26 : 0;
    if (code == 3 ? argument & ~first_marks(count) : argument >= (sheet)count) return 21;
    sheet marks = code == 3 ? argument : (sheet)1 << argument;
    for (int i = 0; i < act_count; i++)
        if (docket[i].marks == marks && (docket[i].code == 3) == (code == 3)) return code == 3 ? 24 : 22;
    return act_count == MOST_ACTS ? 25 : 0;
}

static void read_act(void) {
    int code = (int)number(1);
    sheet argument = code == 4 ? 0 : number(code == 3 ? 8 : 1);
    int why = refusal(code, argument);
    if (why) {
        printf("refused %d\n", why);
        return;
    }
    puts("ok");
    if (code == 4) act_count--;
    else docket[act_count++] = (act){code, code == 3 ? argument : (sheet)1 << argument};
}

static void read_record(void) {
    int end = (int)number(4) + at;
    int kind = (int)number(2);
    if (kind == 1) {
        count = (int)number(1);
        house = number(8);
    } else if (kind == 2) read_rule();
    else if (kind == 3) clauses[clause_count++] = read_literals();
    else if (kind == 4 || kind == 7) read_wish(kind == 7);
    else read_act();
    at = end;
}

/* The weights of the plain elements in the one sheet and of the "not" elements that are missing from the other. */
static uint32_t sum(const constraint *c, sheet there, sheet among) {
    if (c->even) {
        sheet plain = c->all.plain & there, nots = c->all.nots & ~among;
        return c->weight * (uint32_t)(__builtin_popcountll(plain) + __builtin_popcountll(nots));
    }
    uint32_t total = 0;
    for (int i = 0; i < c->count; i++)
        if ((c->plain[i] & there) | (c->nots[i] & ~among)) total += c->weights[i];
    return total;
}

static int at_most(uint32_t total, uint32_t high) { return high == UINT32_MAX || total <= high; }

static int is_sure(const constraint *c, sheet present, sheet absent) {
    return c->low <= sum(c, present, ~absent) && at_most(sum(c, ~absent, present), c->high);
}

static int is_hopeless(const constraint *c, sheet present, sheet absent) {
    return sum(c, ~absent, present) < c->low || !at_most(sum(c, present, ~absent), c->high);
}

static int has_dead_rule(sheet present, sheet absent) {
    for (int i = 0; i < rule_count; i++) {
        const rule *r = &rules[i];
        if (!is_hopeless(&r->head, present, absent)) continue;
        int n = 0;
        while (n < r->count && is_sure(&r->body[n], present, absent)) n++;
        if (n == r->count) return 1;
    }
    return 0;
}

static int holds(const constraint *c, sheet s) {
    uint32_t total = sum(c, s, s);
    return c->low <= total && at_most(total, c->high);
}

static int rules_hold(sheet s) {
    for (int i = 0; i < rule_count; i++) {
        int n = 0;
        while (n < rules[i].count && holds(&rules[i].body[n], s)) n++;
        if (n == rules[i].count && !holds(&rules[i].head, s)) return 0;
    }
    return 1;
}

static int supports(const rule *r, sheet s, sheet reached) {
    for (int n = 0; n < r->count; n++) {
        const constraint *c = &r->body[n];
        if (!at_most(sum(c, s, s), c->high) || sum(c, reached, s) < c->low) return 0;
    }
    return 1;
}

static sheet closure(sheet s) {
    sheet reached = 0, before;
    do {
        before = reached;
        for (int i = 0; i < rule_count; i++)
            if (supports(&rules[i], s, reached)) reached |= rules[i].head.all.plain & s;
    } while (reached != before);
    return reached;
}

static int is_lawful(sheet s) { return rules_hold(s) && !(s & ~closure(s)); }

static int clauses_hold(sheet present, sheet absent) {
    for (int i = 0; i < clause_count; i++)
        if (!((clauses[i].plain & ~absent) | (clauses[i].nots & ~present))) return 0;
    return 1;
}

static int breaks_act(sheet present, sheet absent) {
    for (int i = 0; i < act_count; i++) {
        sheet marks = docket[i].marks;
        if (docket[i].code == 1 && absent & marks) return 1;
        if (docket[i].code == 2 && present & marks) return 1;
        if (docket[i].code == 3 && present == marks && (present | absent) == ~(sheet)0) return 1;
    }
    return 0;
}

static int is_dead(sheet present, sheet absent) {
    if (has_dead_rule(present, absent)) return 1;
    if ((present | absent) == ~(sheet)0 && !is_lawful(present)) return 1;
    return present & ~first_marks(count) || !clauses_hold(present, absent) || breaks_act(present, absent);
}

/* All literals hold where the marks of the one sheet are there, and those of the other are missing. */
static int all_hold(const literals *all, sheet there, sheet missing) {
    return !(all->plain & ~there) && !(all->nots & ~missing);
}

static int another_holds(const weak *w, sheet there, sheet missing) {
    for (int i = w->begin; i < w->end; i++)
        if (all_hold(&others[i], there, missing)) return 1;
    return 0;
}

static inline int one_holds(const weak *w, sheet there, sheet missing) {
    return all_hold(&w->first, there, missing) || (w->begin < w->end && another_holds(w, there, missing));
}

static cost floor_of(sheet present, sheet absent) {
    cost c = {{0}, 0};
    for (int i = 0; i < weak_count; i++) {
        const weak *w = &weaks[i];
        int32_t *level = &c.levels[LEVELS - w->level];
        if (one_holds(w, present, absent)) *level += w->weight;
        else if (w->weight < 0 && one_holds(w, ~absent, ~present)) *level += w->weight;
    }
    c.distance = __builtin_popcountll((present | absent) & (present ^ house));
    return c;
}

static int is_below(const cost *a, const cost *b) {
    for (int i = 0; i < LEVELS; i++)
        if (a->levels[i] != b->levels[i]) return a->levels[i] < b->levels[i];
    return a->distance < b->distance;
}

/* Where the search stands. */
static int decided, finished, is_held;
static sheet marks, held;
static cost held_cost;

static void dismiss(void) {
    while (decided > 0 && marks >> (decided - 1) & 1) marks &= ~((sheet)1 << --decided);
    if (decided > 0) marks |= (sheet)1 << (decided - 1);
    else finished = 1;
}

static void step(void) {
    sheet absent = (first_marks(decided) | ~first_marks(count)) & ~marks;
    int dismisses = is_dead(marks, absent);
    if (!dismisses && is_held) {
        cost floor = floor_of(marks, absent);
        dismisses = !is_below(&floor, &held_cost);
    }
    if (dismisses) dismiss();
    else if (decided < count) decided++;
    else {
        is_held = 1;
        held = marks;
        held_cost = floor_of(held, ~held);
        dismiss();
    }
}

static void print_sheet(void) {
    if (!is_held) {
        puts("no sheet");
        return;
    }
    printf("sheet");
    for (int i = 0; i < 64; i++)
        if (held >> i & 1) printf(" %d", i);
    printf(" cost");
    for (int i = 0; i < LEVELS; i++) printf(" %d", held_cost.levels[i]);
    printf(" off %d\n", held_cost.distance);
}

int main(void) {
    int length = (int)fread(file, 1, sizeof file, stdin);
    while (at < length) read_record();
    add_weaks();
    struct timespec begin, end;
    clock_gettime(CLOCK_MONOTONIC, &begin);
    long steps = 0;
    for (; !finished; steps++) step();
    clock_gettime(CLOCK_MONOTONIC, &end);
    double seconds = (double)(end.tv_sec - begin.tv_sec) + 1e-9 * (double)(end.tv_nsec - begin.tv_nsec);
    print_sheet();
    fprintf(stderr, "%ld steps %.6f seconds\n", steps, seconds);
    return 0;
}
