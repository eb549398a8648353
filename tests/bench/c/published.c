/* The plain engine in C: the published bytes of a state, three passes over the cells for each instant. With COMPACT the state is a compact one.
   published NETLIST INSTANTS STATE: runs a good netlist from zero start words until the finish is high or the instants are done,
   writes the state's bytes into STATE, and prints the nanoseconds of the instants and the memories, the last one first. */
#include <stdint.h>
#include <stdio.h>
#include <stdlib.h>
#include <string.h>
#include <time.h>

#ifdef COMPACT
enum { CELL = 8 };
#else
enum { CELL = 40 };
#endif

static uint8_t file[100352], cells[6 * 16384], state[8 + CELL * 16384 + 512];
static int count, finish;
static unsigned pulse;

static unsigned get16(const uint8_t *p) { return p[0] | p[1] << 8; }
static void put16(uint8_t *p, unsigned v) { p[0] = (uint8_t)v; p[1] = (uint8_t)(v >> 8); }
static uint8_t *record(unsigned k) { return state + 8 + CELL * k; }
static unsigned now(unsigned k) { return get16(record(k)); }
static unsigned before(unsigned k) { return get16(record(k) + 2); }
static int falls(unsigned clock) { return before(clock) == 1 && now(clock) != 1; }

/* The element at an index of the array that cell c is; the words of the arrays stand after the cells. */
static uint8_t *element(const uint8_t *c, unsigned index) { return record(count) + 128 * c[1] + 2 * (index % 64); }

static void read_netlist(const char *name) {
    FILE *in = fopen(name, "rb");
    if (!in || fread(file, 1, sizeof file, in) < 512) exit(1);
    fclose(in);
    count = get16(file + 2);
    finish = get16(file + 4);
    pulse = file[1] + 1u;
    for (int k = 0; k < count; k++) memcpy(cells + 6 * k, file + 512 * (k / 84) + 8 + 6 * (k % 84), 6);
}

/* At the fall of its clock an array takes the data of the instant before, at the address of that instant, which the next cell names. */
static void store(const uint8_t *c) {
    if (falls(get16(c + 2))) put16(element(c, before(get16(c + 6 + 2))), before(get16(c + 4)));
}

#ifdef COMPACT
/* Whether the pulse in the line of a delay of d comes out at the next instant. */
static unsigned output(const uint8_t *r, unsigned d) { (void)d; return r[6] == 1; }

/* A pulse that comes in has d instants to go. No workload sends one after another that is still on its way. */
static void take(uint8_t *r, unsigned d, unsigned in) {
    if (in && r[6] > 1) exit(1);
    r[6] = (uint8_t)(in ? d : (unsigned)r[6] - (r[6] > 0));
}

/* A compact state is of pulses of one instant, so that nothing ever remains of start. */
static unsigned remaining(const uint8_t *r) { (void)r; return 0; }
static void remain(uint8_t *r, unsigned left) { (void)r; if (left) exit(1); }
#else
static unsigned output(const uint8_t *r, unsigned d) { return r[8 + (d - 1) / 8] >> (d - 1) % 8 & 1; }

/* The newest input stands in the lowest bit; four words of 64 bits are shifted by one. */
static void take(uint8_t *r, unsigned d, unsigned in) {
    uint64_t w[4];
    (void)d;
    memcpy(w, r + 8, 32);
    w[3] = w[3] << 1 | w[2] >> 63;
    w[2] = w[2] << 1 | w[1] >> 63;
    w[1] = w[1] << 1 | w[0] >> 63;
    w[0] = w[0] << 1 | in;
    memcpy(r + 8, w, 32);
}

/* For how many more instants start is high. */
static unsigned remaining(const uint8_t *r) { return r[8]; }
static void remain(uint8_t *r, unsigned left) { r[8] = (uint8_t)left; }
#endif

/* What cell k shows, from the cells below it and what the state keeps; an array, which shows 0, stores its word first. */
static unsigned shown(unsigned k, const uint8_t *c) {
    unsigned kind = c[0], a = get16(c + 2), b = get16(c + 4), d = c[1];
    const uint8_t *r = record(k);
    switch (kind) {
    case 1: return a;
    case 34: return output(r, d);
    case 40: return falls(a) ? before(b) : before(k);
    case 42: store(c); return 0;
    case 44: return get16(element(cells + 6 * a, now(b)));
    case 45: return before(a) == 1 ? before(b) : before(k);
    case 32: return remaining(r) > 0;
    case 33: case 43: return 0;
    }
    unsigned x = now(a), y = now(b);
    switch (kind) {
    case 3: return 65535 - x;
    case 4: return (x + y) & 65535;
    case 5: return (x - y) & 65535;
    case 6: return x & y;
    case 7: return x | y;
    case 8: return x == y;
    case 9: return (int16_t)x < (int16_t)y;
    case 35: return x == 1 || y == 1;
    case 36: return x == 1 && y != 0;
    case 37: return x == 1 && y == 0;
    case 38: return (x == 1 || r[4]) && (y == 1 || r[5]) && (pulse == 1 || x == 1 || y == 1);
    case 39: return (x == 1 || r[4]) && y == 1;
    default: return x == 1 ? y : 0;
    }
}

/* What comes in is counted and what has come out is not: a pulse at a delay's input and the one behind its output, held bits and what remains of
   start after and before. A merge holds its bits until it puts out or, with longer pulses, until its output falls; that of a call, 39, forgets a b
   that comes alone. */
static void settle_all(int starts) {
    uint32_t flight;
    memcpy(&flight, state + 4, 4);
    for (int k = 0; k < count; k++) {
        const uint8_t *c = cells + 6 * k;
        uint8_t *r = record(k);
        if (c[0] == 34) {
            unsigned d = c[1], in = now(get16(c + 2)) == 1;
            flight += in - output(r, d);
            take(r, d, in);
        } else if (c[0] == 38 || c[0] == 39) {
            int a = r[4] || now(get16(c + 2)) == 1, b = r[5] || now(get16(c + 4)) == 1;
            int holds = pulse == 1 ? now(k) == 0 : before(k) == 0 || now(k) == 1;
            flight -= r[4] + r[5];
            r[4] = a && holds;
            r[5] = c[0] == 38 && b && holds;
            flight += r[4] + r[5];
        } else if (c[0] == 32) {
            unsigned was = remaining(r), left = starts ? pulse - 1 : was - (was > 0);
            flight += left - was;
            remain(r, left);
        }
    }
    memcpy(state + 4, &flight, 4);
}

static void begin(void) {
    for (int k = 0; k < count; k++) {
        const uint8_t *c = cells + 6 * k;
        put16(record(k), c[0] == 32 ? 1 : c[0] == 40 ? 0 : shown(k, c));
    }
    settle_all(1);
}

static void instant(void) {
    uint32_t t;
    memcpy(&t, state, 4);
    t++;
    memcpy(state, &t, 4);
    for (int k = 0; k < count; k++) memcpy(record(k) + 2, record(k), 2);
    for (int k = 0; k < count; k++) put16(record(k), shown(k, cells + 6 * k));
    settle_all(0);
}

static void write_state(const char *name) {
    FILE *out = fopen(name, "wb");
    size_t length = 8 + CELL * count + 512;
    if (!out || fwrite(state, 1, length, out) != length) exit(1);
    fclose(out);
}

int main(int argc, char **argv) {
    if (argc != 4) return 1;
    read_netlist(argv[1]);
    long instants = atol(argv[2]);
    struct timespec from, to;
    clock_gettime(CLOCK_MONOTONIC, &from);
    begin();
    for (long i = 0; i < instants && now(finish) != 1; i++) instant();
    clock_gettime(CLOCK_MONOTONIC, &to);
    write_state(argv[3]);
    printf("%lld ", (to.tv_sec - from.tv_sec) * 1000000000LL + (to.tv_nsec - from.tv_nsec));
    for (int k = count - 1; k >= 0; k--)
        if (cells[6 * k] == 40) printf("%04x", now(k));
    return 0;
}
