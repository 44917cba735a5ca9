/* Calls every export with slices of random lengths that hold random words, texts, states and counts: each slice is a block of
 * its own from malloc, so that a checker of memory sees any access outside it. Whatever a single call refuses must be left
 * as it was, and what it zeroes must be zero. From the project's root:
 *
 *     tools/archive
 *     cc -g -Ibindings/c bindings/c/fuzz.c target/native/libmavisdrok.a -o target/native/fuzz
 *     valgrind --error-exitcode=1 target/native/fuzz 1 20000
 *
 * The arguments are a seed and a number of rounds. It prints how often each number was answered. */
#include "mavisdrok.h"

#include <stdio.h>
#include <stdlib.h>
#include <string.h>

static uint64_t state;

/* xorshift: the same numbers on every machine. */
static uint64_t any(void)
{
    state ^= state << 13;
    state ^= state >> 7;
    state ^= state << 17;
    return state;
}

static size_t below(size_t n)
{
    return any() % n;
}

static unsigned long answered[20];

/* A report of any length; its first word, where it has one, is counted. */
static void count(const uint64_t *report, size_t len)
{
    if (len == 0)
        return;
    if (report[0] >= 20) {
        printf("no such number: %llu\n", (unsigned long long)report[0]);
        exit(1);
    }
    answered[report[0]]++;
}

static void *block(size_t bytes)
{
    void *b = malloc(bytes ? bytes : 1);
    if (!b)
        exit(2);
    return b;
}

static uint32_t *words(size_t n)
{
    uint32_t *w = block(n * sizeof *w);
    for (size_t i = 0; i < n; i++)
        w[i] = below(4) ? (uint32_t)below(24) : (uint32_t)any();
    return w;
}

/* A text: pieces of lines, with any bytes among them. */
static uint8_t *text(size_t n)
{
    static const char letters[] = "CCCNOc1n2()=#[]@H+-.%/\\sBrCl:";
    uint8_t *t = block(n);
    for (size_t i = 0; i < n; i++)
        t[i] = below(40) ? (uint8_t)letters[below(sizeof letters - 1)] : (uint8_t)any();
    return t;
}

/* A line that reads, so that writing is reached with a graph. */
static size_t sound(uint8_t *t, size_t n)
{
    static const char *const pieces[] = {"C", "N", "O", "(C)", "(=O)", "[C@H](F)", "1CC1", "2=CC2", ".C", "[13CH2]"};
    size_t at = 0;
    t[at++] = 'C';
    for (;;) {
        const char *p = pieces[below(10)];
        if (at + strlen(p) > n)
            return at;
        memcpy(t + at, p, strlen(p));
        at += strlen(p);
    }
}

static void round_trip(void)
{
    size_t tl = 1 + below(60), al = below(2) ? below(100) : 3072, bl = below(2) ? below(150) : 4608, rl = below(5), ol = below(200);
    uint8_t *t = text(tl), *o = block(ol);
    uint32_t *a = words(al), *b = words(bl);
    uint64_t *r = block(rl * sizeof *r);
    size_t used = below(2) ? sound(t, tl) : tl;

    memset(r, 0, rl * sizeof *r);
    mavisdrok_read(t, used, a, al, b, bl, r, rl);
    count(r, rl);
    if (rl == 4 && r[0] == 0 && below(4)) {
        size_t n = r[1], m = r[2];
        if (below(3) == 0 && al)
            a[below(al)] = (uint32_t)below(30);
        if (below(3) == 0 && bl)
            b[below(bl)] = (uint32_t)below(10);
        mavisdrok_write(a, al, n, b, bl, m, o, ol, r, rl);
        count(r, rl);
    }
    free(t), free(o), free(a), free(b), free(r);
}

static void tables(void)
{
    size_t al = below(60), bl = below(60), rl = below(4), ol = below(80), wl = below(20), nl = below(20), kl = below(20);
    size_t n = below(3) ? below(20) : (size_t)any(), m = below(3) ? below(20) : (size_t)any();
    uint8_t *o = block(ol);
    uint32_t *a = words(al), *b = words(bl), *w = words(wl), *u = words(nl), *k = words(kl);
    uint64_t *r = block(rl * sizeof *r);

    memset(r, 0, rl * sizeof *r);
    mavisdrok_write(a, al, n, b, bl, m, o, ol, r, rl);
    count(r, rl);
    mavisdrok_order(a, al, n, b, bl, m, w, wl, u, nl, k, kl, r, rl);
    count(r, rl);
    free(o), free(a), free(b), free(w), free(u), free(k), free(r);
}

/* ---- The single calls. A slice with what it held before a call. */
struct cells {
    void *at;
    size_t bytes;
    void *was;
};

static void keep(struct cells *c, size_t n)
{
    for (size_t i = 0; i < n; i++) {
        c[i].was = block(c[i].bytes);
        memcpy(c[i].was, c[i].at, c[i].bytes);
    }
}

/* After a refusal each slice must hold what it held. */
static void settle(struct cells *c, size_t n, const uint64_t *report, size_t len, const char *call)
{
    for (size_t i = 0; i < n; i++) {
        if (len && report[0] != 0 && memcmp(c[i].was, c[i].at, c[i].bytes) != 0) {
            printf("%s: answered %llu and changed slice %zu\n", call, (unsigned long long)report[0], i);
            exit(1);
        }
        free(c[i].was);
    }
}

static void all_zero(const void *at, size_t bytes, const char *call)
{
    for (size_t i = 0; i < bytes; i++)
        if (((const uint8_t *)at)[i] != 0) {
            printf("%s: byte %zu is not zero\n", call, i);
            exit(1);
        }
}

/* The words of a state: small numbers, and now and then any. */
static uint64_t *state_words(size_t n)
{
    uint64_t *w = block(n * sizeof *w);
    for (size_t i = 0; i < n; i++)
        w[i] = below(4) ? below(12) : any();
    return w;
}

/* The words of an atom's kind, as one is read, or any. */
static void kind_words(uint32_t *kind)
{
    static const char *const atoms[] = {"C", "N", "c", "*", "[C@H]", "[C@@]", "[13CH4+2:7]", "[C@AL1]", "[Fe@OH3H2]"};
    const char *a = atoms[below(9)];
    uint64_t r[MAVISDROK_REPORT_WORDS];

    mavisdrok_read_atom((const uint8_t *)a, strlen(a), kind, 2, r, 3);
    if (below(20) == 0)
        kind[below(2)] = (uint32_t)any();
}

static uint32_t bond_number(void)
{
    return below(20) ? 1 + (uint32_t)below(8) : (uint32_t)below(12);
}

static mavisdrok_rnum ring_number(void)
{
    return (mavisdrok_rnum)(below(20) ? below(4) : below(3) ? 95 + below(10) : any());
}

/* One number of a table or of a state changed. */
static void damage(uint32_t *t, size_t n, uint64_t *state, size_t words)
{
    if (n && below(2))
        t[below(n)] = below(2) ? (uint32_t)below(9) : (uint32_t)any();
    else if (words)
        state[below(words)] = below(2) ? below(9) : any();
}

static void builder(void)
{
    int fits = below(4) != 0;
    size_t places = below(12), slots = below(20);
    size_t al = fits ? places * 3 : below(40), el = fits ? slots * 3 : below(60), pl = fits ? places : below(14);
    size_t gl = fits ? 100 : below(120), bl = fits ? slots * 2 : below(50), sl = below(6) ? 11 : below(14), rl = below(5);
    uint32_t *a = words(al), *e = words(el), *p = words(pl), *g = words(gl), *b = words(bl);
    uint64_t *s = state_words(sl), *r = block(rl * sizeof *r);
    struct cells c[] = {{a, al * 4, 0}, {e, el * 4, 0}, {p, pl * 4, 0}, {g, gl * 4, 0}, {s, sl * 8, 0}};

    memset(r, 0, rl * sizeof *r);
    keep(c, 5);
    if (below(10))
        mavisdrok_builder_start(a, al, e, el, p, pl, g, gl, s, sl, r, rl);
    settle(c, 5, r, rl, "start");
    for (size_t i = below(14); i > 0; i--) {
        uint32_t k[2];
        kind_words(k);
        if (below(12) == 0) {
            uint32_t *t[] = {a, e, p, g};
            size_t n[] = {al, el, pl, gl}, j = below(4);
            damage(t[j], n[j], s, sl);
        }
        keep(c, 5);
        switch (below(6)) {
        case 0:
            mavisdrok_builder_root(a, al, e, el, p, pl, g, gl, s, sl, k[0], k[1], r, rl);
            break;
        case 1:
            mavisdrok_builder_pop(a, al, e, el, p, pl, g, gl, s, sl, below(8) ? below(3) : (size_t)any(), r, rl);
            break;
        case 2:
            mavisdrok_builder_join(a, al, e, el, p, pl, g, gl, s, sl, bond_number(), ring_number(), r, rl);
            break;
        default:
            mavisdrok_builder_extend(a, al, e, el, p, pl, g, gl, s, sl, bond_number(), k[0], k[1], r, rl);
        }
        settle(c, 5, r, rl, "builder's event");
        count(r, rl);
    }
    mavisdrok_builder_build(a, al, b, bl, e, el, p, pl, g, gl, s, sl, r, rl);
    count(r, rl);
    if (rl && r[0] != 0) {
        all_zero(a, al * 4, "build");
        all_zero(b, bl * 4, "build");
    }
    free(a), free(e), free(p), free(g), free(b), free(s), free(r);
}

static void must_stand(const uint64_t *report, const char *call)
{
    count(report, MAVISDROK_REPORT_WORDS);
    if (report[0] == 17) {
        printf("%s: answered 17 on what a start and events have made\n", call);
        exit(1);
    }
}

/* What a start and events have made is a state: no event of good words is answered 17, nor is the build. */
static void told(void)
{
    size_t places = below(30), slots = below(90), al = places * 3 + below(3), el = slots * 3 + below(3), pl = places + below(3);
    uint32_t *a = words(al), *e = words(el), *p = words(pl), *g = words(MAVISDROK_RINGS), *b;
    uint64_t s[MAVISDROK_BUILDER_WORDS], r[MAVISDROK_REPORT_WORDS];

    mavisdrok_builder_start(a, al, e, el, p, pl, g, MAVISDROK_RINGS, s, MAVISDROK_BUILDER_WORDS, r, 3);
    must_stand(r, "start");
    for (size_t i = below(80); i > 0; i--) {
        static const char *const atoms[] = {"C", "c", "*", "[C@H]", "[C@@]", "[13CH4+2:7]", "[Fe@OH3H2]"};
        const char *atom = atoms[below(7)];
        uint32_t k[2], bond = 1 + (uint32_t)below(8);

        mavisdrok_read_atom((const uint8_t *)atom, strlen(atom), k, 2, r, 3);
        switch (below(8)) {
        case 0:
            mavisdrok_builder_root(a, al, e, el, p, pl, g, MAVISDROK_RINGS, s, MAVISDROK_BUILDER_WORDS, k[0], k[1], r, 3);
            break;
        case 1:
            mavisdrok_builder_pop(a, al, e, el, p, pl, g, MAVISDROK_RINGS, s, MAVISDROK_BUILDER_WORDS, below(4), r, 3);
            break;
        case 2:
        case 3:
        case 4:
            mavisdrok_builder_join(a, al, e, el, p, pl, g, MAVISDROK_RINGS, s, MAVISDROK_BUILDER_WORDS, bond, below(6), r, 3);
            break;
        default:
            mavisdrok_builder_extend(a, al, e, el, p, pl, g, MAVISDROK_RINGS, s, MAVISDROK_BUILDER_WORDS, bond, k[0], k[1], r, 3);
        }
        must_stand(r, "builder's event");
    }
    b = words(s[5] * 2);
    mavisdrok_builder_build(a, al, b, s[5] * 2, e, el, p, pl, g, MAVISDROK_RINGS, s, MAVISDROK_BUILDER_WORDS, r, 3);
    must_stand(r, "build");
    free(a), free(e), free(p), free(g), free(b);
}

static void writer(void)
{
    size_t ol = below(60), bl = below(12), sl = below(6) ? 2 : below(5), rl = below(5);
    uint8_t *o = text(ol);
    uint32_t *b = words(bl);
    uint64_t *s = state_words(sl), *r = block(rl * sizeof *r);
    struct cells c[] = {{o, ol, 0}, {b, bl * 4, 0}, {s, sl * 8, 0}};
    int tidy = 0;

    memset(r, 0, rl * sizeof *r);
    if (below(10))
        memset(s, 0, sl * sizeof *s);
    for (size_t i = below(14); i > 0; i--) {
        uint32_t k[2];
        kind_words(k);
        if (below(12) == 0) {
            damage(b, bl, s, sl);
            tidy = 0;
        }
        int first = sl >= 2 && s[0] == 0;
        keep(c, 3);
        switch (below(6)) {
        case 0:
            mavisdrok_writer_root(o, ol, b, bl, s, sl, k[0], k[1], r, rl);
            break;
        case 1:
            mavisdrok_writer_pop(o, ol, b, bl, s, sl, below(8) ? below(4) : (size_t)any(), r, rl);
            break;
        case 2:
            mavisdrok_writer_join(o, ol, b, bl, s, sl, bond_number(), ring_number(), r, rl);
            break;
        default:
            mavisdrok_writer_extend(o, ol, b, bl, s, sl, bond_number(), k[0], k[1], r, rl);
        }
        settle(c, 3, r, rl, "writer's event");
        count(r, rl);
        /* From a first event on, zeros after the line. */
        if (rl >= 2 && r[0] == 0) {
            tidy |= first;
            if (tidy)
                all_zero(o + r[1], ol - r[1], "writer's tail");
        }
    }
    free(o), free(b), free(s), free(r);
}

static void pool(void)
{
    size_t pl = below(6) ? 300 + below(6) : below(300), sl = below(6) ? 2 : below(5), rl = below(5);
    uint32_t *p = words(pl), atoms = below(4) ? 6 : 4000;
    uint64_t *s = state_words(sl), *r = block(rl * sizeof *r);
    struct cells c[] = {{p, pl * 4, 0}, {s, sl * 8, 0}};

    memset(r, 0, rl * sizeof *r);
    if (below(10)) {
        memset(p, 0, pl * sizeof *p);
        memset(s, 0, sl * sizeof *s);
        if (sl)
            s[0] = 1;
    }
    for (size_t i = below(8) ? below(12) : 110; i > 0; i--) {
        if (below(100) == 0)
            damage(p, pl, s, sl);
        keep(c, 2);
        mavisdrok_pool_hit(p, pl, s, sl, (uint32_t)below(atoms), (uint32_t)below(atoms), r, rl);
        settle(c, 2, r, rl, "pool's call");
        count(r, rl);
    }
    free(p), free(s), free(r);
}

static void one_text(void)
{
    size_t tl = below(12), kl = below(4), ol = below(30), rl = below(5);
    uint8_t *t = text(tl), *o = text(ol);
    uint32_t *k = words(kl), w[2];
    uint64_t *r = block(rl * sizeof *r);

    memset(r, 0, rl * sizeof *r);
    mavisdrok_read_atom(t, tl, k, kl, r, rl);
    count(r, rl);
    if (rl && kl < 2 && r[0] != 17) {
        printf("read_atom: %zu words for a kind, answered %llu\n", kl, (unsigned long long)r[0]);
        exit(1);
    }
    if (rl && r[0] != 0)
        all_zero(k, kl * 4, "read_atom");
    else if (kl > 2)
        all_zero(k + 2, (kl - 2) * 4, "read_atom");
    kind_words(w);
    mavisdrok_spell_atom(o, ol, w[0], w[1], r, rl);
    count(r, rl);
    if (rl && r[0] != 0)
        all_zero(o, ol, "spell_atom");
    mavisdrok_spell_bond(o, ol, below(4) ? bond_number() : (uint32_t)any(), r, rl);
    count(r, rl);
    if (rl && r[0] != 0)
        all_zero(o, ol, "spell_bond");
    mavisdrok_spell_rnum(o, ol, ring_number(), r, rl);
    count(r, rl);
    if (rl && r[0] != 0)
        all_zero(o, ol, "spell_rnum");
    free(t), free(o), free(k), free(r);
}

int main(int argc, char **argv)
{
    state = argc > 1 ? strtoull(argv[1], NULL, 10) * 2654435769u + 1 : 1;
    unsigned long rounds = argc > 2 ? strtoul(argv[2], NULL, 10) : 1000;
    for (unsigned long i = 0; i < rounds; i++) {
        round_trip();
        tables();
        builder();
        told();
        writer();
        pool();
        one_text();
    }
    for (int i = 0; i < 20; i++)
        printf("%d: %lu\n", i, answered[i]);
    return 0;
}
