/* A plain switch interpreter of valid code files, to compare speeds with. It trusts its input: it tests
   the step limit, but neither the format nor the limits of frames and heap. Its heap is a table by location. */
#include <inttypes.h>
#include <stdio.h>
#include <stdlib.h>
#include <string.h>

struct instr { uint8_t op, o; uint16_t d, a, b, n; uint32_t t; uint64_t v; };
struct function { uint32_t params, locals, result, count; struct instr *body; };
struct block { uint64_t *words; uint32_t size; }; /* the words plus 1, or 0 where there is no block */
struct frame { struct function *f; uint32_t next, base, into; };

static uint64_t number(const uint8_t **at, int bytes) {
    uint64_t n = 0;
    for (int i = 0; i < bytes; i++) n |= (uint64_t)*(*at)++ << 8 * i;
    return n;
}

static struct instr instr_of(const uint8_t **at) {
    struct instr i = { .op = number(at, 1) };
    switch (i.op) {
    case 0x0: i.d = number(at, 2); i.v = number(at, 8); break;
    case 0x1: i.d = number(at, 2); i.a = number(at, 2); i.n = number(at, 2); break;
    case 0x2: i.d = number(at, 2); i.o = number(at, 1); i.a = number(at, 2); i.b = number(at, 2); break;
    case 0x4: case 0x5: i.d = number(at, 2); i.a = number(at, 2); i.n = number(at, 2); break;
    case 0x6: i.a = number(at, 2); i.b = number(at, 2); i.n = number(at, 2); break;
    case 0x7: i.a = number(at, 2); i.n = number(at, 2); break;
    case 0x8: i.t = number(at, 4); break;
    case 0x9: i.a = number(at, 2); i.t = number(at, 4); break;
    case 0xa: i.t = number(at, 4); i.a = number(at, 2); i.d = number(at, 2); break;
    case 0xb: i.a = number(at, 2); break;
    case 0xc: i.t = number(at, 4); i.a = number(at, 2); break;
    default: fprintf(stderr, "no such instruction here: %d\n", i.op); exit(2); /* sel */
    }
    return i;
}

static uint64_t op_value(uint8_t o, uint64_t x, uint64_t y) {
    switch (o) {
    case 0: return x + y;
    case 1: return x - y;
    case 2: return x * y;
    case 3: return x & y;
    case 4: return x | y;
    case 5: return x ^ y;
    case 6: return x << (y & 63);
    case 7: return x >> (y & 63);
    case 8: return x < y;
    case 9: return x == y;
    default: return x == 0;
    }
}

static struct function *load(const char *path) {
    FILE *file = fopen(path, "rb");
    uint8_t *bytes = malloc(1 << 25);
    if (!file || !fread(bytes, 1, 1 << 25, file)) { fprintf(stderr, "no code\n"); exit(2); }
    const uint8_t *at = bytes + 5;
    uint32_t count = number(&at, 4);
    struct function *functions = calloc(count, sizeof *functions);
    for (uint32_t f = 0; f < count; f++) {
        functions[f].params = number(&at, 2); functions[f].locals = number(&at, 2);
        functions[f].result = number(&at, 2); functions[f].count = number(&at, 4);
    }
    for (uint32_t f = 0; f < count; f++) {
        functions[f].body = calloc(functions[f].count, sizeof(struct instr));
        for (uint32_t i = 0; i < functions[f].count; i++) functions[f].body[i] = instr_of(&at);
    }
    free(bytes);
    return functions;
}

static struct block *blocks;
static uint64_t fresh, room;

static uint64_t put(const uint64_t *words, uint16_t n) {
    if (++fresh >= room) {
        uint64_t more = room ? 2 * room : 1024;
        blocks = realloc(blocks, more * sizeof *blocks);
        memset(blocks + room, 0, (more - room) * sizeof *blocks);
        room = more;
    }
    blocks[fresh] = (struct block){ malloc(n * 8), n + 1 };
    memcpy(blocks[fresh].words, words, n * 8);
    return fresh;
}

static struct block *at(const char *kind, uint64_t l, uint16_t n) {
    if (l <= fresh && l < room && blocks[l].size == n + 1u) return &blocks[l];
    printf("fault %s %" PRIu64 "\n", kind, l);
    exit(9);
}

int main(int argc, char **argv) {
    if (argc != 3) { fprintf(stderr, "usage: switch CODE STEPS\n"); return 2; }
    struct function *functions = load(argv[1]);
    uint64_t limit = strtoull(argv[2], 0, 10), steps = 0;
    uint64_t *words = calloc(16000000, 8), *locals = words;
    struct frame *frames = calloc(1000000, sizeof *frames), *top = frames;
    top->f = functions;
    for (;;) {
        if (steps++ == limit) { printf("stopped step %" PRIu64 "\n", limit); return 10; }
        struct instr *i = &top->f->body[top->next];
        switch (i->op) {
        case 0x0: locals[i->d] = i->v; top->next++; break;
        case 0x1: memmove(locals + i->d, locals + i->a, i->n * 8); top->next++; break;
        case 0x2: locals[i->d] = op_value(i->o, locals[i->a], locals[i->b]); top->next++; break;
        case 0x4: locals[i->d] = put(locals + i->a, i->n); top->next++; break;
        case 0x5: memcpy(locals + i->d, at("get", locals[i->a], i->n)->words, i->n * 8); top->next++; break;
        case 0x6: memcpy(at("set", locals[i->a], i->n)->words, locals + i->b, i->n * 8); top->next++; break;
        case 0x7: {
            struct block *b = at("free", locals[i->a], i->n);
            free(b->words);
            *b = (struct block){ 0 };
            top->next++;
            break;
        }
        case 0x8: top->next = i->t; break;
        case 0x9: top->next = locals[i->a] ? top->next + 1 : i->t; break;
        case 0xa: {
            struct function *g = functions + i->t;
            uint32_t base = top->base + top->f->locals;
            top->next++;
            *++top = (struct frame){ g, 0, base, i->d };
            memset(words + base, 0, g->locals * 8);
            memcpy(words + base, locals + i->a, g->params * 8);
            locals = words + base;
            break;
        }
        case 0xb:
            if (top == frames) {
                fputs("words", stdout);
                for (uint32_t k = 0; k < top->f->result; k++) printf(" %" PRIu64, locals[i->a + k]);
                puts("");
                return 0;
            }
            memmove(words + top[-1].base + top->into, locals + i->a, top->f->result * 8);
            top--;
            locals = words + top->base;
            break;
        case 0xc: {
            struct function *g = functions + i->t;
            memmove(locals, locals + i->a, g->params * 8);
            memset(locals + g->params, 0, (g->locals - g->params) * 8);
            top->f = g; top->next = 0;
            break;
        }
        }
    }
}
