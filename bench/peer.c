/* The same work as the program `bench`, in plain C: the run record by value, as the calls on a run have it, and by pointer.
   Reads a line `WHAT N` and writes a sum of what was worked out, which must be that of the program `bench`.
   Freestanding but for scanf, printf and memcpy, so that the kit's own compiler takes it. */
typedef unsigned char u8;
typedef unsigned short u16;
typedef unsigned int u32;
typedef unsigned long u64;

int scanf(const char *, ...);
int printf(const char *, ...);
void *memcpy(void *, const void *, u64);

typedef struct { u8 inside; u16 level, wire; } Place;
typedef struct { u32 entered, counts[64]; u8 toggles[1152]; Place places[256]; } Board;
typedef struct { u16 width, construction; Board board; } Run;
typedef struct { u8 refusal; Run run; } Entered;
typedef struct { u8 kind; u16 level_or_exit, wire; u32 number; } Answer; /* 0 passed, 1 dealt, else 10 + refusal */
typedef struct { Answer answer; Run run; } Turned;

/* ---- wiring */
static int levels(u16 w) { int k = 0; while (k < 6 && (1u << k) != w) k++; return (1u << k) == w ? k : 0; }
static u16 depth_of(u16 w, u16 c) { int k = levels(w); return c == 1 ? k * (k + 1) / 2 : k * k; }
enum Feed { BESIDE, MERGER, BLOCK };

static void feed_row(enum Feed feed, int h, const u8 *inner, u8 *out) {
    for (int v = 0; v < 2 * h; v++) {
        int second, at, u = v - h;
        if (feed == BLOCK) { second = v % 2 != v / 2 % 2; at = v / 2; }
        else if (feed == BESIDE) { second = v >= h; at = second ? u : v; }
        else if (v < h) { second = v % 2; at = v / 2; }
        else { second = u % 2 == 0; at = h / 2 + u / 2; }
        out[v] = second ? h + inner[at] : inner[at];
    }
}

static void part_row(enum Feed feed, int k, int w, int layer, u8 *out) {
    int h = w / 2;
    u8 inner[64];
    if (layer + 1 == k) {
        for (int v = 0; v < w; v++) out[v] = v < h ? 2 * v : 2 * (v - h) + 1;
        return;
    }
    part_row(feed, k - 1, h, layer, inner);
    feed_row(layer == 0 ? feed : BESIDE, h, inner, out);
}

static void bitonic_row(int k, int w, int layer, u8 *out) {
    int before = (k - 1) * k / 2;
    if (layer < before) {
        u8 inner[64];
        bitonic_row(k - 1, w / 2, layer, inner);
        feed_row(BESIDE, w / 2, inner, out);
    } else part_row(MERGER, k, w, layer - before, out);
}

static void row(u16 w, u16 c, u16 layer, u8 *out) {
    int k = levels(w);
    if (c == 1) bitonic_row(k, w, layer, out);
    else part_row(BLOCK, k, w, layer % k, out);
}

/* one wire by itself, down the halves: layer of a merger or a block of width 2^k, and of either build */
static u8 part_place(enum Feed feed, int k, int layer, int v) {
    int base = 0, h = 1 << (k - 1);
    for (; layer + 1 != k; k--, h /= 2) {
        int second, u = v - h;
        if (layer) { second = v >= h; if (second) v = u; }
        else if (feed == BLOCK) { second = v % 2 != v / 2 % 2; v /= 2; }
        else if (v < h) { second = v % 2; v /= 2; }
        else { second = u % 2 == 0; v = h / 2 + u / 2; }
        if (second) base += h;
    }
    return base + (v < h ? 2 * v : 2 * (v - h) + 1);
}

static u8 place_of(u16 w, u16 c, u16 layer, u16 v) {
    int k = levels(w), base = 0;
    if (c != 1) return part_place(BLOCK, k, layer % k, v);
    for (; layer < k * (k - 1) / 2; k--) if (v >= 1 << (k - 1)) { v -= 1 << (k - 1); base += 1 << (k - 1); }
    return base + part_place(MERGER, k, layer - k * (k - 1) / 2, v);
}

static u64 sheet(u16 w, u16 c, u8 *out, u64 room) {
    u16 d = depth_of(w, c);
    if (room < (u64)d * w) return 0;
    for (u16 layer = 0; layer < d; layer++) {
        u8 r[64];
        row(w, c, layer, r);
        memcpy(out + (u64)layer * w, r, w);
    }
    return (u64)d * w;
}

/* ---- the run */
static int allowed(u16 w, u16 c) { return w && w <= 64 && (w & (w - 1)) == 0 && (c == 1 || c == 2); }

static int sound(const Run *x) {
    u16 w = x->width, d;
    u64 sum = 0;
    if (!allowed(w, x->construction) || x->board.entered > 1000000) return 0;
    d = depth_of(w, x->construction);
    for (int t = 0; t < 256; t++) {
        Place p = x->board.places[t];
        if (p.inside ? p.level > d || p.wire >= w : p.level || p.wire) return 0;
        sum += p.inside;
    }
    for (int i = 0; i < 64; i++) {
        if (i >= w && x->board.counts[i]) return 0;
        sum += x->board.counts[i];
    }
    for (int i = d * (w / 2); i < 1152; i++) if (x->board.toggles[i]) return 0;
    return sum == x->board.entered;
}

static void opening(Run *x, u16 w, u16 c) {
    for (u64 i = 0; i < sizeof *x; i++) ((u8 *)x)[i] = 0;
    x->width = w;
    x->construction = c;
}

/* on a record known to be sound */
static u8 enter_in(Run *x, u16 t, u16 v) {
    if (t > 255) return 4;
    if (v >= x->width) return 5;
    if (x->board.places[t].inside) return 6;
    if (x->board.entered == 1000000) return 7;
    x->board.places[t] = (Place){1, 0, v};
    x->board.entered++;
    return 0;
}

/* below the depth, the wire fed by the byte b of its layer's row */
static Answer pass_in(Run *x, Place *p, u8 b) {
    u8 *toggle = &x->board.toggles[p->level * (x->width / 2) + b / 2];
    p->wire = b / 2 * 2 + *toggle;
    *toggle = !*toggle;
    p->level++;
    return (Answer){0, p->level, p->wire, 0};
}

static Answer deal_in(Run *x, Place *p) {
    u16 i = p->wire;
    u32 n = i + x->width * x->board.counts[i]++;
    *p = (Place){0, 0, 0};
    return (Answer){1, i, 0, n};
}

static Answer turn_in(Run *x, u16 t) {
    Place *p = &x->board.places[t & 255];
    if (t > 255) return (Answer){14, 0, 0, 0};
    if (!p->inside) return (Answer){18, 0, 0, 0};
    if (p->level < depth_of(x->width, x->construction))
        return pass_in(x, p, place_of(x->width, x->construction, p->level, p->wire));
    return deal_in(x, p);
}

/* the same with the network's sheet at hand */
static Answer turn_by(Run *x, const u8 *rows, u16 depth, u16 t) {
    Place *p = &x->board.places[t & 255];
    if (t > 255) return (Answer){14, 0, 0, 0};
    if (!p->inside) return (Answer){18, 0, 0, 0};
    if (p->level < depth) return pass_in(x, p, rows[p->level * x->width + p->wire]);
    return deal_in(x, p);
}

/* by value, soundness judged */
__attribute__((noinline)) static Entered enter_value(Run x, u16 t, u16 v) {
    Entered r;
    r.refusal = 9;
    if (sound(&x)) r.refusal = enter_in(&x, t, v);
    r.run = x;
    return r;
}

__attribute__((noinline)) static Turned turn_value(Run x, u16 t) {
    Turned r;
    r.answer = (Answer){19, 0, 0, 0};
    if (sound(&x)) r.answer = turn_in(&x, t);
    r.run = x;
    return r;
}

static u64 by_value(u16 w, u16 c, u64 n) {
    Run x;
    u64 sum = 0;
    u16 d = depth_of(w, c);
    opening(&x, w, c);
    for (u64 i = 0; i < n; i++) {
        x = enter_value(x, i % 256, i % w).run;
        for (u16 k = 0; k <= d; k++) {
            Turned t = turn_value(x, i % 256);
            x = t.run;
            sum += t.answer.number;
        }
    }
    return sum;
}

static u64 by_pointer(u16 w, u16 c, u64 n) {
    Run x;
    u64 sum = 0;
    u16 d = depth_of(w, c);
    opening(&x, w, c);
    for (u64 i = 0; i < n; i++) {
        if (sound(&x)) enter_in(&x, i % 256, i % w);
        for (u16 k = 0; k <= d; k++) if (sound(&x)) sum += turn_in(&x, i % 256).number;
    }
    return sum;
}

/* ---- the gap list: a function of its own, or the compiler would know the width and not divide */
__attribute__((noinline)) static u64 gaps(const Run *x, u32 *out, u64 room) {
    u16 w = x->width;
    u64 m = x->board.entered, count = 0, n = 0;
    if (!sound(x)) return 0;
    for (u16 i = 0; i < w; i++) {
        u64 share = m > i ? (m - i + w - 1) / w : 0;
        if (share > x->board.counts[i]) count += share - x->board.counts[i];
    }
    if (room < count) return 0;
    for (u64 v = 0; v < m; v++) if (x->board.counts[v % w] <= v / w) out[n++] = v;
    return n;
}

/* ---- records and schedules */
static void put16(u8 *b, u16 v) { b[0] = v & 255; b[1] = v >> 8; }
static u16 get16(const u8 *b) { return b[0] | b[1] << 8; }
static u32 get32(const u8 *b) { return get16(b) | (u32)get16(b + 2) << 16; }
static void put32(u8 *b, u32 v) { put16(b, v & 65535); put16(b + 2, v >> 16); }

typedef struct { u8 refusal; u16 kind, a, b; u32 n; u64 length, present; } Record;
static const u8 LENGTH[6] = {0, 8, 8, 6, 8, 12};

static Record record_in(const u8 *s, u64 n, int reports) {
    Record r = {11, 0, 0, 0, 0, 0, n};
    if (n < 4) return r;
    r.present = 0;
    u16 kind = get16(s + 2);
    r.refusal = 13;
    if (kind < 1 || kind > (reports ? 5 : 4)) return r;
    r.refusal = 12;
    if (get16(s) != LENGTH[kind]) return r;
    r.refusal = 23;
    r.present = n;
    if (n < LENGTH[kind]) return r;
    r.present = 0;
    r.refusal = 0;
    r.kind = kind;
    r.length = LENGTH[kind];
    if (kind == 4) r.n = get32(s + 4);
    else {
        r.a = get16(s + 4);
        if (kind != 3) r.b = get16(s + 6);
        if (kind == 5) r.n = get32(s + 8);
    }
    return r;
}

static u64 put_record(Record r, u8 *out, u64 room) {
    u64 n = LENGTH[r.kind];
    if (room < n) return 0;
    put16(out, n);
    put16(out + 2, r.kind);
    if (r.kind == 4) put32(out + 4, r.n);
    else {
        put16(out + 4, r.a);
        if (r.kind != 3) put16(out + 6, r.b);
        if (r.kind == 5) put32(out + 8, r.n);
    }
    return n;
}

__attribute__((noinline)) static Record read_record(const u8 *s, u64 n, int reports) { return record_in(s, n, reports); }
__attribute__((noinline)) static u64 write_record(Record r, u8 *out, u64 room) { return put_record(r, out, room); }

static u64 make_schedule(u8 *s, u64 requests) {
    u64 at = 0;
    at += write_record((Record){0, 1, 64, 1, 0, 0}, s, 65536);
    for (u64 i = 0; i < requests; i++) {
        at += write_record((Record){0, 2, i % 256, i % 64, 0, 0}, s + at, 65536 - at);
        for (int k = 0; k < 22; k++) at += write_record((Record){0, 3, i % 256, 0, 0, 0}, s + at, 65536 - at);
    }
    at += write_record((Record){0, 4, 0, 0, requests, 0}, s + at, 65536 - at);
    return at;
}

/* One pass by pointer: the wires' places come from the sheet, worked out once as the run opens, and the reports are gathered in a buffer
   of its own, since a refusal changes no byte of the output. */
typedef struct { u16 width, construction; u32 entries; u64 filled; } Outcome; /* width 0: refused */

__attribute__((noinline)) static Outcome run_pointer(const u8 *s, u64 n, u8 *out, u64 room) {
    const Outcome none = {0, 0, 0, 0};
    Run x;
    u8 rows[2304], reports[65536];
    u64 at = 0, filled = 0;
    u16 depth = 0;
    int phase = 0;
    if (n > 65536) return none;
    opening(&x, 0, 0);
    while (phase < 2) {
        if (n <= at) return none;
        Record r = record_in(s + at, n - at, 0);
        if (r.refusal) return none;
        if (r.kind == 1) {
            if (phase || !allowed(r.a, r.b)) return none;
            x.width = r.a;
            x.construction = r.b;
            depth = depth_of(r.a, r.b);
            sheet(r.a, r.b, rows, 2304);
            phase = 1;
        } else if (phase != 1) return none;
        else if (r.kind == 2) {
            if (enter_in(&x, r.a, r.b)) return none;
        } else if (r.kind == 3) {
            Answer t = turn_by(&x, rows, depth, r.a);
            if (t.kind > 1) return none;
            if (t.kind == 1) filled += put_record((Record){0, 5, r.a, t.level_or_exit, t.number, 0}, reports + filled, 12);
        } else {
            if (r.n != x.board.entered) return none;
            for (int t = 0; t < 256; t++) if (x.board.places[t].inside) return none;
            phase = 2;
        }
        at += r.length;
    }
    if (at < n || room < filled) return none;
    memcpy(out, reports, filled);
    return (Outcome){x.width, x.construction, x.board.entered, filled};
}

/* the listing of a schedule that is accepted; what is written past the room is counted alone */
static u64 put_text(u8 *out, u64 room, u64 at, const char *text) {
    for (; *text; text++, at++) if (at < room) out[at] = *text;
    return at;
}

static u64 put_number(u8 *out, u64 room, u64 at, u32 n, char after) {
    char digits[12];
    int i = 12;
    digits[--i] = 0;
    digits[--i] = after;
    do digits[--i] = '0' + n % 10; while (n /= 10);
    return put_text(out, room, at, digits + i);
}

__attribute__((noinline)) static u64 text_of(Outcome r, const u8 *reports, u8 *out, u64 room) {
    u64 at = put_text(out, room, 0, "network ");
    at = put_number(out, room, at, r.width, ' ');
    at = put_text(out, room, at, r.construction == 1 ? "bitonic\n" : "periodic\n");
    for (u64 k = 0; k < r.filled; k += 12) {
        at = put_number(out, room, at, get16(reports + k + 4), ' ');
        at = put_number(out, room, at, get16(reports + k + 6), ' ');
        at = put_number(out, room, at, get32(reports + k + 8), '\n');
    }
    return put_number(out, room, put_text(out, room, at, "rest "), r.entries, '\n');
}

__attribute__((noinline)) static u64 list_pointer(const u8 *s, u64 n, u8 *out, u64 room) {
    u8 reports[65536];
    Outcome r = run_pointer(s, n, reports, 65536);
    if (!r.width || room < text_of(r, reports, out, 0)) return 0;
    return text_of(r, reports, out, room);
}

/* ---- designs: read once into a grid of 37 rows of 64 bytes; what does not fit is left out */
typedef struct { u8 refusal; u64 offset, present, width, depth; } Made;

static Made made(u8 number, u64 at, u64 width, u64 depth) { return (Made){number, at, 0, number ? 0 : width, number ? 0 : depth}; }

/* refused by its head, with n bytes up to its parent's end */
static Made refused_head(u8 number, u64 at, u64 n) { return (Made){number, at, number == 11 || number == 23 ? n : 0, 0, 0}; }
static int in_limits(u64 w, u64 d) { return w >= 1 && w <= 64 && d <= 36; }
static int fits(u64 row, u64 col, u64 w) { return w <= 64 && row <= 36 && col <= 64 - w; }

static int permutation(const u8 *p, u64 n) {
    u8 seen[256] = {0};
    for (u64 i = 0; i < n; i++) {
        if (p[i] >= n || seen[p[i]]) return 0;
        seen[p[i]] = 1;
    }
    return 1;
}

static void put_places(u8 *grid, u64 row, u64 col, const u8 *places, u64 n) {
    if (!fits(row, col, n)) return;
    for (u64 v = 0; v < n; v++) grid[64 * row + col + v] = col + places[v];
}

static void link_rows(u8 *grid, const u8 *exits, u64 row, u64 col, u64 w) {
    u8 next[64];
    if (!fits(row, col, w)) return;
    memcpy(next, grid + 64 * row, 64);
    for (u64 v = 0; v < w; v++) grid[64 * row + col + v] = next[exits[col + v] % 64];
}

static u8 head_refusal(const u8 *s, u64 n, int left, int outermost) {
    if (n < 4) return 11;
    u16 size = get16(s), kind = get16(s + 2);
    if (kind < 16 || kind > 20) return 13;
    if (kind == 20 && size < 5) return 12;
    if (kind == 20 && n < 5) return 23;
    if (kind == 18 ? size != 4 : kind == 19 ? size != 8 : kind == 20 ? size != 5 + s[4] : size < 4) return 12;
    if (outermost && size < n) return 12;
    if (n < size) return 23;
    if (!left) return 18;
    return kind <= 17 && size == 4 ? 19 : 0;
}

static Made leaf(const u8 *b, u64 n, u16 kind, u64 at, u8 *grid, u64 row_, u64 col) {
    u8 order[64], places[64];
    for (int v = 0; v < 64; v++) order[v] = v;
    if (kind == 18) {
        put_places(grid, row_, col, order, 2);
        put_places(grid, row_ + 1, col, order, 2);
        return made(0, at, 2, 1);
    }
    if (kind == 19) {
        u16 w = get16(b), c = get16(b + 2), d;
        if (!allowed(w, 1)) return made(1, at, 0, 0);
        if (!allowed(w, c)) return made(2, at, 0, 0);
        d = depth_of(w, c);
        for (u16 layer = 0; layer < d; layer++) {
            row(w, c, layer, places);
            put_places(grid, row_ + layer, col, places, w);
        }
        put_places(grid, row_ + d, col, order, w);
        return made(0, at, w, d);
    }
    if (!permutation(b + 1, n - 1)) return made(21, at, 0, 0);
    if (!in_limits(n - 1, 0)) return made(22, at, 0, 0);
    put_places(grid, row_, col, b + 1, n - 1);
    return made(0, at, n - 1, 0);
}

static Made series(const u8 *, u64, int, u64, u8 *, u64, u64);
static Made beside(const u8 *, u64, int, u64, u8 *, u64, u64);

/* the record in front of s, whose head is not refused */
static Made record_read(const u8 *s, int left, u64 at, u8 *grid, u64 row_, u64 col) {
    u16 kind = get16(s + 2);
    u64 n = get16(s) - 4;
    if (kind == 16) return series(s + 4, n, left, at, grid, row_, col);
    if (kind == 17) return beside(s + 4, n, left, at, grid, row_, col);
    return leaf(s + 4, n, kind, at, grid, row_, col);
}

static Made joined(int equal, u64 at, u64 w, u64 d) { return made(!equal ? 20 : !in_limits(w, d) ? 22 : 0, at, w, d); }

static Made series(const u8 *s, u64 n, int left, u64 at, u8 *grid, u64 row_, u64 col) {
    u64 w = 0, d = 0;
    int equal = 1;
    for (u64 i = 0; i < n; i += get16(s + i)) {
        u8 exits[64] = {0}, number = head_refusal(s + i, n - i, left, 0);
        if (number) return refused_head(number, at + 4 + i, n - i);
        if (row_ + d <= 36) memcpy(exits, grid + 64 * (row_ + d), 64);
        Made p = record_read(s + i, left - 1, at + 4 + i, grid, row_ + d, col);
        if (p.refusal) return p;
        if (i) {
            link_rows(grid, exits, row_ + d, col, p.width);
            equal &= p.width == w;
        } else w = p.width;
        d += p.depth;
    }
    return joined(equal, at, w, d);
}

static Made beside(const u8 *s, u64 n, int left, u64 at, u8 *grid, u64 row_, u64 col) {
    u64 w = 0, d = 0;
    int equal = 1;
    for (u64 i = 0; i < n; i += get16(s + i)) {
        u8 number = head_refusal(s + i, n - i, left, 0);
        if (number) return refused_head(number, at + 4 + i, n - i);
        Made p = record_read(s + i, left - 1, at + 4 + i, grid, row_, col + w);
        if (p.refusal) return p;
        if (i) equal &= p.depth == d;
        else d = p.depth;
        w += p.width;
    }
    return joined(equal, at, w, d);
}

__attribute__((noinline)) static u64 read_design(const u8 *s, u64 n, u8 *sheet, u64 room) {
    u8 grid[2368] = {0};
    if (head_refusal(s, n, 8, 1)) return 0;
    Made p = record_read(s, 7, 0, grid, 0, 0);
    u64 filled = (p.depth + 1) * p.width;
    if (p.refusal || room < filled) return 0;
    for (u64 r = 0; r <= p.depth; r++) memcpy(sheet + r * p.width, grid + 64 * r, p.width);
    return filled;
}

/* a series of crosses of 14 wires that go round */
static void make_design(u8 *s, u64 size) {
    put16(s, size);
    put16(s + 2, 16);
    for (u64 at = 4; at < size; at += 19) {
        put16(s + at, 19);
        put16(s + at + 2, 20);
        s[at + 4] = 14;
        for (int v = 0; v < 14; v++) s[at + 5 + v] = (v + 1) % 14;
    }
}

static u8 schedule[65536], out[65536];
static u32 numbers[65536];
/* requests of the schedule, and how many of its bytes are run */
static const struct { u64 requests, size; } SIZES[4] = {{468, 65536}, {234, 32776}, {117, 16396}, {1, 100}};

int main(void) {
    u64 what = 0, n = 0, sum = 0;
    if (scanf("%lu %lu", &what, &n) != 2) return 1;
    if (what == 1 || what == 2) sum = by_value(64, what, n);
    else if (what == 11 || what == 12) sum = by_pointer(64, what - 10, n);
    else if (what == 3) for (u64 i = 0; i < n; i++) { sum += sheet(64, 2, out, 65536); sum += out[i % 2304]; }
    else if (what == 4) {
        Run x;
        opening(&x, 64, 1);
        for (int i = 0; i < 60; i++) x.board.counts[i] = 15625;
        x.board.counts[63] = 62500;
        x.board.entered = 1000000;
        for (u64 i = 0; i < n; i++) { sum += gaps(&x, numbers, 65536); sum += numbers[i % 46875]; }
    } else if (what == 5) {
        for (u64 i = 0; i < n; i++) {
            u64 k = write_record((Record){0, 5, i % 256, i % 64, i % 1000000, 0}, out, 65536);
            Record r = read_record(out, 65536, 1);
            sum += k + r.length + r.a + r.b + r.n;
        }
    } else if (what >= 6 && what <= 9) {
        make_schedule(schedule, SIZES[what - 6].requests);
        for (u64 i = 0; i < n; i++) sum += run_pointer(schedule, SIZES[what - 6].size, out, 65536).filled + out[i % 1404];
    } else if (what == 10) {
        u64 size = make_schedule(schedule, 468);
        for (u64 i = 0; i < n; i++) sum += list_pointer(schedule, size, out, 65536) + out[i % 4096];
    } else if (what == 13 || what == 14) {
        u64 size = what == 13 ? 65535 : 32760;
        make_design(schedule, size);
        for (u64 i = 0; i < n; i++) { sum += read_design(schedule, size, out, 2368); sum += out[i % 14]; }
    }
    printf("%lu\n", sum);
    return 0;
}
