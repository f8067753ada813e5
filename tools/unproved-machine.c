// A machine for listings of compiled code, written without proofs: what the machine of the crates is compared with (docs/PERFORMANCE.md).
//
//   gcc -O2 -o machine tools/unproved-machine.c
//   cat QUESTION ANSWER | ./machine ROUTINE CYCLES [TICKS]
//
// QUESTION is a text for `code` of plc_tests, of which the tables behind `@code` are read, and ANSWER what plc_tests prints for it, of which
// the listing is read. A line `region BYTES CLASS` in QUESTION adds a region, whose first eight bytes are its class. Each cycle runs the
// routine on region 0 with so many ticks (100,000); in the end it tells how the last cycle ended, what ticks it left, and the regions.
#include <stdint.h>
#include <stdio.h>
#include <stdlib.h>
#include <string.h>

typedef __int128 Number;
typedef unsigned __int128 Bits;

// Instructions, with their operands: i a number, n one of 32 bits, e a kind.
#define OPS(X) \
    X(PUSH, "i") X(NULL, "") X(DROP, "") X(DUP, "") X(LOCAL, "n") X(THIS, "n") X(REGION, "nn") X(OFFSET, "n") X(INDEX, "iin") X(DEREF, "") \
    X(LOAD, "e") X(STORE, "e") X(LOADREF, "") X(STOREREF, "") X(COPY, "n") X(ADD, "e") X(SUB, "e") X(MUL, "e") X(DIV, "e") X(MOD, "e") \
    X(NEG, "e") X(ADDC, "e") X(EQ, "") X(NE, "") X(LT, "") X(LE, "") X(GT, "") X(GE, "") X(SAME, "") X(AND, "e") X(OR, "e") X(XOR, "e") \
    X(NOT, "e") X(CONV, "ee") X(NOZERO, "") X(JUMP, "n") X(JUMPF, "n") X(TICK, "") X(CALL, "nn") X(CALLM, "nnn") X(CALLI, "nnn") \
    X(TRY, "n") X(NOW, "") X(RET, "n") X(END, "")
#define KINDS(X) X(BOOL) X(SINT) X(INT) X(DINT) X(LINT) X(USINT) X(UINT) X(UDINT) X(ULINT) X(BYTE) X(WORD) X(DWORD) X(LWORD) X(TIME)
#define NAMED(name, operands) OP_##name,
#define TOLD(name, operands) {#name, operands},
#define KIND(name) name,
#define KIND_TOLD(name) #name,
enum { OPS(NAMED) };
enum { KINDS(KIND) };
static const struct { const char *name, *operands; } op_names[] = {OPS(TOLD)};
static const char *const kind_names[] = {KINDS(KIND_TOLD)};

enum { NOWHERE, REGIONS, LOCALS };
typedef struct { uint32_t space, index, offset; } Address;
typedef union { Number number; Address address; } Word;
typedef struct { uint8_t op, kinds[2]; uint32_t n[3]; Number i[2]; } Op;
typedef struct { Op *ops; uint32_t length, locals; } Routine;
typedef struct { uint32_t size; uint8_t *bytes; } Region;
typedef struct { uint32_t routine; const Op *next; Address own; } Frame;
typedef struct { uint32_t n[4]; } Row;

#define MOST 65536
static Routine routines[MOST];
static Region regions[1024];
static Row targets[MOST], conforms[MOST];
static uint32_t *slots[MOST], routine_count, region_count, target_count, conform_count, class_count;

// ---- reading

static Number integer(const char *s) {
    Number v = 0;
    for (const char *p = s + (*s == '-'); *p; p++) v = v * 10 + (*p - '0');
    return *s == '-' ? -v : v;
}

static void read_op(Routine *r, char **words) {
    if ((r->length & (r->length - 1)) == 0) r->ops = realloc(r->ops, (r->length ? 2 * r->length : 1) * sizeof(Op));
    Op *o = &r->ops[r->length++];
    int n = 0, e = 0, i = 0;
    memset(o, 0, sizeof *o);
    while (strcmp(op_names[o->op].name, words[1])) o->op++;
    words += 2;
    for (const char *p = op_names[o->op].operands; *p; p++, words++) {
        if (*p == 'n') o->n[n++] = integer(*words);
        else if (*p == 'i') o->i[i++] = integer(*words);
        else while (strcmp(kind_names[o->kinds[e]], *words)) o->kinds[e]++;
        e += *p == 'e';
    }
}

static void read_table(char **words, int count, uint32_t *declared) {
    Row row = {{0}};
    for (int k = 0; k < 4 && k + 1 < count && strcmp(words[0], "routine"); k++) row.n[k] = integer(words[k + 1]);
    if (!strcmp(words[0], "routine")) routines[(*declared)++].locals = integer(words[4]);
    else if (!strcmp(words[0], "conforms")) conforms[conform_count++] = row;
    else if (!strcmp(words[0], "target")) targets[target_count++] = row;
    else if (!strcmp(words[0], "slots")) {
        slots[class_count] = malloc(count * sizeof(uint32_t));
        for (int k = 1; k < count; k++) slots[class_count][k - 1] = *words[k] == '-' ? MOST : integer(words[k]);
        class_count++;
    } else if (!strcmp(words[0], "region")) {
        uint64_t class = row.n[1];
        regions[region_count].size = row.n[0];
        regions[region_count].bytes = calloc(1, row.n[0] + 8);
        memcpy(regions[region_count++].bytes, &class, 8);
    }
}

static void read_code(void) {
    static char line[1 << 16], *words[4096];
    uint32_t declared = 0;
    int in_tables = 0;
    while (fgets(line, sizeof line, stdin)) {
        int asked = !strncmp(line, "| ", 2), count = 0;
        for (char *p = strtok(line + 2 * asked, " \n"); p && count < 4096; p = strtok(NULL, " \n")) words[count++] = p;
        if (asked && count && !strcmp(words[0], "@code")) in_tables = 1;
        else if (asked && count && in_tables) read_table(words, count, &declared);
        else if (!asked && count == 3 && !strcmp(words[0], "routine")) routine_count++;
        else if (!asked && routine_count && count && *words[0] >= '0' && *words[0] <= '9') read_op(&routines[routine_count - 1], words);
    }
}

// ---- numbers and memory

static inline Number wrapped(int e, Number v) {
    switch (e) {
    case BOOL: return v & 1;
    case SINT: return (int8_t)v;
    case INT: return (int16_t)v;
    case DINT: return (int32_t)v;
    case LINT: return (int64_t)v;
    case USINT: case BYTE: return (uint8_t)v;
    case UINT: case WORD: return (uint16_t)v;
    case ULINT: case LWORD: return (uint64_t)v;
    default: return (uint32_t)v;
    }
}
static const uint8_t widths[] = {1, 1, 2, 4, 8, 1, 2, 4, 8, 1, 2, 4, 8, 4};

static uint8_t *locals;
static uint32_t stride, depth;
static Frame frames[65];

static inline uint8_t *at(Address a, uint32_t n) {
    if (a.space == REGIONS && a.index < region_count && (uint64_t)a.offset + n <= regions[a.index].size) return regions[a.index].bytes + a.offset;
    if (a.space == LOCALS && a.index <= depth && (uint64_t)a.offset + n <= routines[frames[a.index].routine].locals)
        return locals + (size_t)a.index * stride + a.offset;
    return NULL;
}
static inline uint64_t kept(Address a) {
    if (a.space == NOWHERE) return 0;
    if (a.space == REGIONS) return ((uint64_t)a.index << 32) + a.offset + 1;
    return (1ull << 63) + ((uint64_t)a.index << 32) + a.offset;
}
static inline Address reference(uint64_t v) {
    if (!v) return (Address){NOWHERE, 0, 0};
    if (v >> 63) return (Address){LOCALS, (uint32_t)(v >> 32) & 0x7fffffff, (uint32_t)v};
    return (Address){REGIONS, (uint32_t)((v - 1) >> 32), (uint32_t)(v - 1)};
}
static int conforms_to(uint64_t class, uint32_t target) {
    for (uint32_t k = 0; k < conform_count; k++) if (conforms[k].n[0] == class && conforms[k].n[1] == target) return 1;
    return 0;
}

// ---- running

#define TWO(value) { Number b = top[-1].number, a = top[-2].number; (void)a; (void)b; top[-2].number = (value); top--; break; }
#define WRAPPED(value) { Number b = wrapped(e, top[-1].number), a = wrapped(e, top[-2].number); top[-2].number = wrapped(e, (value)); top--; break; }
#define ENDS(how) { ending = how; goto ended; }
#define AT(p, address, bytes) uint8_t *p = at(address, bytes); if (!p) ENDS("stuck")
#define KEEP(v, bytes) memcpy(p, &(uint64_t){v}, bytes); top -= 2; break;
#define PUSH_ADDRESS(...) { (top++)->address = (Address){__VA_ARGS__}; break; }

static const char *run(uint32_t entry, Number now, uint64_t *ticks, uint64_t *count) {
    const char *ending;
    uint64_t left = *ticks, done = 0;
    static Word words[1 << 16];
    Word *top = words;
    depth = 0;
    Frame here = {entry, routines[entry].ops, {region_count ? REGIONS : NOWHERE, 0, 0}};
    frames[0] = here;
    memset(locals, 0, routines[entry].locals);
    for (;;) {
        const Op *o = here.next++;
        const int e = o->kinds[0];
        uint32_t k;
        done++;
        switch (o->op) {
        case OP_PUSH: (top++)->number = o->i[0]; break;
        case OP_NULL: PUSH_ADDRESS(NOWHERE, 0, 0)
        case OP_DROP: top--; break;
        case OP_DUP: *top = top[-1]; top++; break;
        case OP_LOCAL: PUSH_ADDRESS(LOCALS, depth, o->n[0])
        case OP_THIS: PUSH_ADDRESS(here.own.space, here.own.index, here.own.offset + o->n[0])
        case OP_REGION: PUSH_ADDRESS(REGIONS, o->n[0], o->n[1])
        case OP_OFFSET: top[-1].address.offset += o->n[0]; break;
        case OP_INDEX: {
            Number i = (--top)->number;
            if (i < o->i[0] || i > o->i[1]) ENDS("Index")
            top[-1].address.offset += (uint32_t)(i - o->i[0]) * o->n[0]; break;
        }
        case OP_DEREF: if (top[-1].address.space == NOWHERE) ENDS("Null") break;
        case OP_LOAD: {
            AT(p, top[-1].address, widths[e])
            uint64_t v = 0;
            memcpy(&v, p, widths[e]);
            top[-1].number = wrapped(e, v); break;
        }
        case OP_STORE: {
            AT(p, top[-1].address, widths[e])
            KEEP(wrapped(e, top[-2].number), widths[e])
        }
        case OP_LOADREF: {
            AT(p, top[-1].address, 8)
            uint64_t v;
            memcpy(&v, p, 8);
            top[-1].address = reference(v); break;
        }
        case OP_STOREREF: {
            AT(p, top[-1].address, 8)
            KEEP(kept(top[-2].address), 8)
        }
        case OP_COPY: {
            AT(to, top[-1].address, o->n[0])
            AT(from, top[-2].address, o->n[0])
            memmove(to, from, o->n[0]);
            top -= 2; break;
        }
        case OP_ADD: WRAPPED(a + b)
        case OP_SUB: WRAPPED(a - b)
        case OP_MUL: WRAPPED((Number)((Bits)a * (Bits)b))
        case OP_DIV: if (!wrapped(e, top[-1].number)) ENDS("Divide") WRAPPED(a / b)
        case OP_MOD: if (!wrapped(e, top[-1].number)) ENDS("Divide") WRAPPED(a % b)
        case OP_NEG: top[-1].number = wrapped(e, -wrapped(e, top[-1].number)); break;
        case OP_ADDC: {
            Number sum = wrapped(e, top[-1].number) + wrapped(e, top[-2].number);
            top[-2].number = wrapped(e, sum), top[-1].number = top[-2].number != sum; break;
        }
        case OP_EQ: TWO(a == b)
        case OP_NE: TWO(a != b)
        case OP_LT: TWO(a < b)
        case OP_LE: TWO(a <= b)
        case OP_GT: TWO(a > b)
        case OP_GE: TWO(a >= b)
        case OP_SAME: TWO(kept(top[-1].address) == kept(top[-2].address))
        case OP_AND: WRAPPED(a & b)
        case OP_OR: WRAPPED(a | b)
        case OP_XOR: WRAPPED(a ^ b)
        case OP_NOT: top[-1].number = wrapped(e, ~wrapped(e, top[-1].number)); break;
        case OP_CONV: {
            Number v = wrapped(e, top[-1].number);
            top[-1].number = o->kinds[1] == BOOL ? v != 0 : wrapped(o->kinds[1], v); break;
        }
        case OP_NOZERO: if (!top[-1].number) ENDS("Step") break;
        case OP_JUMP: here.next = routines[here.routine].ops + o->n[0]; break;
        case OP_JUMPF: if (!(--top)->number) here.next = routines[here.routine].ops + o->n[0]; break;
        case OP_TICK: if (!left) ENDS("Watchdog") left--; break;
        case OP_CALL: case OP_CALLM: case OP_CALLI: {
            int n = o->n[o->op == OP_CALL ? 1 : 2];
            Address own = top[-1 - n].address;
            if (o->op == OP_CALL) k = o->n[0];
            else {
                AT(p, own, 8)
                uint64_t class;
                memcpy(&class, p, 8);
                if (o->op == OP_CALLM) {
                    if (class >= class_count || !conforms_to(class, o->n[0])) ENDS("stuck")
                    k = slots[class][o->n[1]];
                } else {
                    uint32_t t = 0;
                    while (t < target_count && (targets[t].n[0] != class || targets[t].n[1] != o->n[0] || targets[t].n[2] != o->n[1])) t++;
                    if (t == target_count) ENDS("stuck")
                    k = targets[t].n[3];
                }
            }
            if (k >= routine_count) ENDS("stuck")
            if (depth == 64) ENDS("Depth")
            frames[depth++] = here;
            frames[depth] = here = (Frame){k, routines[k].ops, own};
            uint8_t *mine = locals + (size_t)depth * stride;
            memset(mine, 0, routines[k].locals);
            for (int j = 0; j < n; j++) memcpy(mine + 8 * j, &(uint64_t){kept(top[j - n].address)}, 8);
            top -= n + 1; break;
        }
        case OP_TRY: {
            uint8_t *p = at(top[-1].address, 8);
            uint64_t class = 0;
            if (p) memcpy(&class, p, 8);
            if (!p || !conforms_to(class, o->n[0])) top[-1].address = (Address){NOWHERE, 0, 0};
            break;
        }
        case OP_NOW: (top++)->number = now; break;
        case OP_RET: if (!depth) ENDS("done") here = frames[--depth]; break;
        case OP_END: ENDS("done")
        }
    }
ended:
    *ticks = left;
    *count += done;
    return ending;
}

int main(int count, char **words) {
    if (count < 3) { fprintf(stderr, "machine ROUTINE CYCLES [TICKS]\n"); return 2; }
    uint32_t entry = atoi(words[1]), cycles = atoi(words[2]);
    uint64_t given = count > 3 ? strtoull(words[3], NULL, 10) : 100000, ticks = given, instructions = 0;
    read_code();
    for (uint32_t k = 0; k < routine_count; k++) if (routines[k].locals > stride) stride = routines[k].locals;
    locals = calloc(65, (size_t)stride + 8);
    const char *ending = "done";
    for (uint32_t k = 0; k < cycles; k++) { ticks = given; ending = run(entry, k, &ticks, &instructions); }
    printf("%s, %llu ticks left, %llu instructions\n", ending, (unsigned long long)ticks, (unsigned long long)instructions);
    for (uint32_t k = 0; k < region_count; k++) {
        printf("region %u ", k);
        for (uint32_t j = 0; j < regions[k].size; j++) printf("%02x", regions[k].bytes[j]);
        printf("\n");
    }
    return 0;
}
