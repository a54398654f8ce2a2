/* A plain interpreter of the checked machine, to measure against: it reads what setout reads, judges nothing, and checks at
   every step what the machine checks. It takes well-formed text for granted. */
#include <math.h>
#include <stdint.h>
#include <stdio.h>
#include <stdlib.h>
#include <string.h>

enum { CELLS = 1024, STEPS = 1000000, ROOM = 32768 / 22 };
typedef enum { FREE, MARK, WORK, DATA, BLANK } State;
typedef union { int32_t i; double r; } Bits;
typedef struct { uint8_t state, kind; Bits v; } Cell;
typedef struct { char kind; Bits v; } Value;
typedef struct { int parent, first, params, count, offset; char result; } Proc;
typedef struct { int op; char t, t2; int32_t p, q; int proc; } Code;

static const char *NAMES[] = { "add", "sub", "mul", "div", "neg", "and", "or", "not", "equ", "neq", "les", "leq", "grt", "geq", "ldc", "ldo", "sro", "lod", "str", "lda", "ind", "sto", "dpl", "ixa", "inc", "dec", "chk", "ujp", "fjp", "in", "out", "conv", "mst", "cup", "ent", "retf", "retp", "hlt" };
enum { ADD, SUB, MUL, DIV, NEG, AND, OR, NOT, EQU, NEQ, LES, LEQ, GRT, GEQ, LDC, LDO, SRO, LOD, STR, LDA, IND, STO, DPL, IXA, INC, DEC, CHK, UJP, FJP, IN, OUT, CONV, MST, CUP, ENT, RETF, RETP, HLT, OPS };

static Proc procs[64];
static Code code[4096];
static char kinds[16384];
static Cell store[CELLS];
static Value in[2048], out[ROOM];
static int nprocs, ncode, nkinds, nin, nout, at_in;

static long number(const char *s, int n) { char b[24]; memcpy(b, s, n); b[n] = 0; return strtol(b, 0, 10); }

static void read_text(char *s) {
    for (char *line = s; *line; line = strchr(line, '\n') + 1) {
        switch (line[0]) {
        case 'P': {
            Proc *p = &procs[nprocs++];
            p->parent = number(line + 7, 6), p->first = number(line + 13, 6), p->params = number(line + 19, 6);
            p->result = line[25], p->offset = nkinds, p->count = 0;
            break;
        }
        case 'V': kinds[nkinds++] = line[1]; procs[nprocs - 1].count++; break;
        case 'C': {
            Code *c = &code[ncode++];
            char name[5] = { 0 };
            memcpy(name, line + 8, 4);
            for (int i = 3; i > 0 && name[i] == ' '; i--) name[i] = 0;
            for (c->op = 0; c->op < OPS && strcmp(name, NAMES[c->op]); c->op++) { }
            c->t = line[12], c->t2 = line[13], c->p = number(line + 14, 12), c->q = number(line + 26, 12);
            break;
        }
        default: {
            Value *v = &in[nin++];
            v->kind = line[0];
            if (line[0] == 'r') { uint64_t w = strtoull(line + 1, 0, 10); memcpy(&v->v.r, &w, 8); }
            else v->v.i = number(line + 1, 20);
        }
        }
    }
    for (int i = 0, p = 0; i < ncode; i++) { while (p + 1 < nprocs && procs[p + 1].first <= i) p++; code[i].proc = p; }
}

static int owner(int n) { int p = 0; while (p + 1 < nprocs && procs[p + 1].first <= n) p++; return p; }

#define STOP(n) return (n)
#define NEED(b, n) do { if (!(b)) STOP(n); } while (0)
#define IN_STORE(x) ((x) >= 0 && (x) < CELLS)
#define TAKE(x, d) do { NEED(sp - (d) >= 0 && store[sp - (d)].state == WORK, 60); (x) = store[sp - (d)]; } while (0)
#define OF(x, k) NEED((x).kind == (k), 60)
#define PUSH(k, field, val) do { NEED(sp + 1 <= ep, 62); sp++; store[sp].state = WORK, store[sp].kind = (k), store[sp].v.field = (val); } while (0)
#define RANGE(z) NEED((z) >= INT32_MIN && (z) <= INT32_MAX, 41)

static int pc, sp, mp, ep;
static long count;

static int base(int n, int *x) {
    *x = mp;
    while (n-- > 0) {
        NEED(IN_STORE(*x + 1) && store[*x + 1].state == MARK, 61);
        int y = store[*x + 1].v.i;
        NEED(y >= 0 && y < mp, 61);
        *x = y;
    }
    return 0;
}

static int related(int op, int less, int more) {
    switch (op) { case EQU: return !less && !more; case NEQ: return less || more; case LES: return less; case LEQ: return !more; case GRT: return more; default: return !less; }
}

static int load(char t, int x) {
    NEED(IN_STORE(x) && (store[x].state == DATA || store[x].state == BLANK) && store[x].kind == t, 60);
    NEED(store[x].state == DATA, 47);
    NEED(sp + 1 <= ep, 62);
    store[++sp] = store[x];
    store[sp].state = WORK;
    return 0;
}

static int keep(char t, int x) {
    Cell y;
    TAKE(y, 0);
    OF(y, t);
    NEED(IN_STORE(x) && (store[x].state == DATA || store[x].state == BLANK) && store[x].kind == t, 60);
    y.state = DATA, store[x] = y, sp--;
    return 0;
}

static int back(int top, int *npc, int *nmp, int *nep) {
    for (int k = 2; k < 5; k++) NEED(IN_STORE(mp + k) && store[mp + k].state == MARK, 61);
    *npc = store[mp + 4].v.i, *nep = store[mp + 3].v.i, *nmp = store[mp + 2].v.i;
    NEED(*nmp >= 0 && *nmp < mp && *nep >= top && *nep < CELLS, 61);
    return 0;
}

static int passed(const Proc *p, int x) {
    for (int k = 0; k < p->params; k++) NEED(IN_STORE(x + k) && store[x + k].state == WORK && store[x + k].kind == kinds[p->offset + k], 60);
    return 0;
}

static void mark(int x, int32_t z) { store[x].state = MARK, store[x].v.i = z; }

static int step(void) {
    NEED(pc >= 0 && pc < ncode, 63);
    const Code *c = &code[pc];
    Cell x, y;
    int e, place, npc = pc + 1;
    long z;
    double r;
    switch (c->op) {
    case ADD: case SUB: case MUL: case DIV:
        TAKE(y, 0); TAKE(x, 1); OF(x, c->t); OF(y, c->t);
        if (c->t == 'i') {
            if (c->op == DIV) NEED(y.v.i != 0, 43);
            z = c->op == ADD ? (long)x.v.i + y.v.i : c->op == SUB ? (long)x.v.i - y.v.i : c->op == MUL ? (long)x.v.i * y.v.i : (long)x.v.i / y.v.i;
            RANGE(z); sp -= 2; PUSH('i', i, z);
        } else {
            if (c->op == DIV) NEED(y.v.r != 0, 43);
            r = c->op == ADD ? x.v.r + y.v.r : c->op == SUB ? x.v.r - y.v.r : c->op == MUL ? x.v.r * y.v.r : x.v.r / y.v.r;
            NEED(isfinite(r), 41); sp -= 2; PUSH('r', r, r);
        }
        break;
    case NEG:
        TAKE(x, 0); OF(x, c->t);
        if (c->t == 'i') { z = -(long)x.v.i; RANGE(z); sp--; PUSH('i', i, z); } else { sp--; PUSH('r', r, -x.v.r); }
        break;
    case AND: case OR:
        TAKE(y, 0); TAKE(x, 1); OF(x, 'b'); OF(y, 'b'); sp -= 2; PUSH('b', i, c->op == AND ? x.v.i && y.v.i : x.v.i || y.v.i);
        break;
    case NOT: TAKE(x, 0); OF(x, 'b'); sp--; PUSH('b', i, !x.v.i); break;
    case EQU: case NEQ: case LES: case LEQ: case GRT: case GEQ:
        TAKE(y, 0); TAKE(x, 1); OF(x, c->t); OF(y, c->t); sp -= 2;
        if (c->t == 'r') PUSH('b', i, related(c->op, x.v.r < y.v.r, x.v.r > y.v.r)); else PUSH('b', i, related(c->op, x.v.i < y.v.i, x.v.i > y.v.i));
        break;
    case LDC: if (c->t == 'r') PUSH('r', r, c->q); else PUSH(c->t, i, c->q); break;
    case LDO: if ((e = load(c->t, c->q))) STOP(e); break;
    case SRO: if ((e = keep(c->t, c->q))) STOP(e); break;
    case LOD: if ((e = base(c->p, &place)) || (e = load(c->t, place + c->q))) STOP(e); break;
    case STR: if ((e = base(c->p, &place)) || (e = keep(c->t, place + c->q))) STOP(e); break;
    case LDA: if ((e = base(c->p, &place))) STOP(e); PUSH('a', i, place + c->q); break;
    case IND:
        TAKE(x, 0); OF(x, 'a'); place = x.v.i;
        NEED(place >= 0 && place <= sp && (store[place].state == DATA || store[place].state == BLANK), 45);
        NEED(store[place].kind == c->t, 46); NEED(store[place].state == DATA, 47);
        store[sp] = store[place], store[sp].state = WORK;
        break;
    case STO:
        TAKE(y, 0); TAKE(x, 1); OF(y, c->t); OF(x, 'a'); place = x.v.i;
        NEED(place >= 0 && place <= sp && (store[place].state == DATA || store[place].state == BLANK), 45);
        NEED(store[place].kind == c->t, 46);
        y.state = DATA, store[place] = y, sp -= 2;
        break;
    case DPL: TAKE(x, 0); OF(x, c->t); NEED(sp + 1 <= ep, 62); store[++sp] = x; break;
    case IXA: TAKE(y, 0); TAKE(x, 1); OF(x, 'a'); OF(y, 'i'); z = x.v.i + (long)y.v.i * c->q; RANGE(z); sp -= 2; PUSH('a', i, z); break;
    case INC: case DEC:
        TAKE(x, 0); OF(x, c->t); z = c->op == INC ? (long)x.v.i + c->q : (long)x.v.i - c->q;
        if (c->t == 'c') NEED(z >= 0 && z <= 255, 41); else RANGE(z);
        sp--; PUSH(c->t, i, z);
        break;
    case CHK: TAKE(x, 0); OF(x, 'i'); NEED(c->p <= x.v.i && x.v.i <= c->q, 42); break;
    case UJP: npc = c->q; break;
    case FJP: TAKE(x, 0); OF(x, 'b'); sp--; if (!x.v.i) npc = c->q; break;
    case IN: {
        NEED(sp + 1 <= ep, 62); NEED(at_in < nin, 31); NEED(in[at_in].kind == c->t, 32);
        sp++, store[sp].state = WORK, store[sp].kind = c->t, store[sp].v = in[at_in++].v;
        break;
    }
    case OUT: TAKE(x, 0); OF(x, c->t); NEED(nout < ROOM, 33); out[nout].kind = c->t, out[nout++].v = x.v, sp--; break;
    case CONV:
        TAKE(x, 0); OF(x, c->t); sp--;
        if (c->t == 'i' && c->t2 == 'r') PUSH('r', r, x.v.i);
        else if (c->t == 'r') { r = trunc(x.v.r); if (!(r >= INT32_MIN && r <= INT32_MAX)) { sp++; STOP(41); } PUSH('i', i, (int32_t)r); }
        else if (c->t == 'c') PUSH('i', i, x.v.i);
        else { if (x.v.i < 0 || x.v.i > 255) { sp++; STOP(41); } PUSH('c', i, x.v.i); }
        break;
    case MST:
        if ((e = base(c->p, &place))) STOP(e);
        NEED(sp + 5 <= ep, 62);
        mark(sp + 1, 0), mark(sp + 2, place), mark(sp + 3, mp), mark(sp + 4, ep), mark(sp + 5, 0), sp += 5;
        break;
    case CUP: {
        int m = sp - (c->p + 4);
        NEED(m >= 0, 61);
        for (int k = 0; k < 5; k++) NEED(IN_STORE(m + k) && store[m + k].state == MARK, 61);
        NEED(store[m + 1].v.i >= 0 && store[m + 1].v.i < m && store[m + 2].v.i >= 0 && store[m + 2].v.i < m && store[m + 3].v.i >= sp && store[m + 3].v.i < CELLS, 61);
        if ((e = passed(&procs[owner(c->q)], m + 5))) STOP(e);
        mark(m + 4, npc), mp = m, npc = c->q;
        break;
    }
    case ENT: {
        const Proc *p = &procs[c->proc];
        if ((e = passed(p, mp + 5))) STOP(e);
        NEED(mp + c->q - 1 + c->p < CELLS, 44);
        for (int k = 0; k < p->count; k++) { Cell *d = &store[mp + 5 + k]; d->kind = kinds[p->offset + k]; d->state = k < p->params ? DATA : BLANK; }
        if (p->result != '-') store[mp].state = BLANK, store[mp].kind = p->result;
        sp = mp + c->q - 1, ep = sp + c->p;
        break;
    }
    case RETF: {
        int nmp, nep;
        if ((e = back(mp, &npc, &nmp, &nep))) STOP(e);
        NEED((store[mp].state == DATA || store[mp].state == BLANK) && store[mp].kind == procs[c->proc].result, 60);
        NEED(store[mp].state == DATA, 47);
        store[mp].state = WORK, sp = mp, mp = nmp, ep = nep;
        break;
    }
    case RETP: {
        int nmp, nep;
        if ((e = back(mp - 1, &npc, &nmp, &nep))) STOP(e);
        sp = mp - 1, mp = nmp, ep = nep;
        break;
    }
    case HLT: STOP(1);
    }
    pc = npc;
    return 0;
}

int main(void) {
    static char text[32769];
    text[fread(text, 1, 32768, stdin)] = 0;
    read_text(text);
    for (int k = 0; k < 5; k++) mark(k, 0);
    sp = 4, ep = 4;
    int why = 0;
    for (count = 0; count < STEPS && !(why = step()); count++) { }
    for (int k = 0; k < nout; k++) {
        if (out[k].kind == 'r') { uint64_t w; memcpy(&w, &out[k].v.r, 8); printf("r%20llu\n", (unsigned long long)w); }
        else printf("%c%20d\n", out[k].kind, out[k].v.i);
    }
    printf("z%20d%20ld\n", why, count);
    return 0;
}
