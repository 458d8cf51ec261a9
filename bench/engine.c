/* A plain engine of a run, the peer of bench/run and no part of the product: what a run's members, network and steps cost where nothing is
   evaluated. It plays the run by one thread (docs/RUNTIME.md) of

       process OrcaMain(); X: Cell; begin for k in 1..WRITES do X$Assign(k); od; end;

   on NODES members of which RESILIENCE may be lost: process 0 stands at member 0, makes a cell and assigns to it WRITES times.

       engine NODES RESILIENCE WRITES [--lose P] [--twice] [--events E] [--times T] [--kinds] [--history]

   `--lose P` drops P of 100 packets by the seed 1, as the script `seed 1 P` does; with `--twice` each comes twice, as by `twice any all`.
   The run is played T times, and told once: its status, how many events it had, how many packets these sent, and how many entries each
   member applied at least; with `--kinds` also how many packets there were of each kind, and how many bytes the last of them had; with
   `--history` the history's lines instead.

   It keeps what the rules keep: windows of 256 entries with their purges, acknowledgements, what was heard of whom, silence, resets with
   their Joins and Results. Each packet is written as docs/RUNTIME.md, Packets in bytes, says, travels as these bytes, and is read again at
   its receiver. Each event is a record, with the fates of its packets; each entry is a line of the history. So it has the same events and
   the same packets as the program, also where packets are lost.

   Left out: all evaluation (the object is an integer at each member, and the process a count of replies); other processes, so that at most
   one message is pending and one waits for room; messages of more than 256 bytes (Body, Order), single objects (Ask, Answer), reads,
   guards and forks; packets that are held or cut, crashes, suspicions and exchanged wires; what a wire was told of each packet but its
   fate; the order of the book and its printing but with `--history`; whatever happens for want of memory. */
#include <stdbool.h>
#include <stdint.h>
#include <stdio.h>
#include <stdlib.h>
#include <string.h>

enum { NODES = 16, WINDOW = 256, KEPT_BEFORE_PURGE = 192, BETWEEN_REPORTS = 64, SENT_AGAIN = 16, PATIENCE = 6, SILENCE = 1000 };
enum { IDLE_TICKS = 200, HISTORY_LINES = 2000000 };
enum { ENDED = 0, NO_GROUP = 5, OUT_OF_EVENTS = 6, LINES = 11, GOING = 100 };

enum Kind { REQUEST = 1, BODY, ORDER, ENTRY, ACK, ACCEPT, NACK, STATUS, INVITE, JOIN, RESULT, ASK, ANSWER, KINDS };
static const char *const KIND_NAMES[KINDS] = {
    "", "request", "body", "order", "entry", "ack", "accept", "nack", "status", "invite", "join", "result", "ask", "answer"};

/* ---- messages and packets */

enum Action { MAKE = 1, CALL = 2 };

typedef struct {
    uint64_t call;
    int64_t value;
    uint32_t object_number;
    uint16_t process, type, operation, object_process;
    uint8_t action;
} Message;

/* A packet as it is written and read: `number` is an Entry's, a Nack's first or an Ack's and a Status's length. */
typedef struct {
    uint8_t kind;
    bool whole;
    uint16_t members;
    uint32_t count;
    uint64_t incarnation, number, installed, accepted, applied, stable, base;
    Message message;
    const Message *messages;
} Packet;

static void fail(const char *why)
{
    fprintf(stderr, "engine: %s\n", why);
    exit(2);
}

static uint8_t *put1(uint8_t *at, uint64_t n)
{
    at[0] = (uint8_t)n;
    return at + 1;
}

static uint8_t *put2(uint8_t *at, uint64_t n)
{
    at[0] = (uint8_t)(n >> 8), at[1] = (uint8_t)n;
    return at + 2;
}

static uint8_t *put4(uint8_t *at, uint64_t n)
{
    at[0] = (uint8_t)(n >> 24), at[1] = (uint8_t)(n >> 16), at[2] = (uint8_t)(n >> 8), at[3] = (uint8_t)n;
    return at + 4;
}

static uint8_t *put8(uint8_t *at, uint64_t n)
{
    at[0] = (uint8_t)(n >> 56), at[1] = (uint8_t)(n >> 48), at[2] = (uint8_t)(n >> 40), at[3] = (uint8_t)(n >> 32);
    at[4] = (uint8_t)(n >> 24), at[5] = (uint8_t)(n >> 16), at[6] = (uint8_t)(n >> 8), at[7] = (uint8_t)n;
    return at + 8;
}

static uint8_t *put_message(uint8_t *at, const Message *x)
{
    at = put1(put8(put2(at, x->process), x->call), x->action);
    at = put2(at, x->type);
    if (x->action == CALL) at = put2(at, x->operation);
    at = put4(put2(at, x->object_process), x->object_number);
    if (x->action == CALL) at = put8(put1(put1(at, 1), 1), (uint64_t)x->value);
    return at;
}

static uint8_t *put_messages(uint8_t *at, const Packet *p)
{
    at = put4(at, p->count);
    for (uint32_t i = 0; i < p->count; i++) at = put_message(at, &p->messages[i]);
    return at;
}

static uint8_t *put_members(uint8_t *at, uint16_t members)
{
    uint8_t *count = at++;
    for (int m = 0; m < NODES; m++)
        if (members >> m & 1) *at++ = (uint8_t)m;
    *count = (uint8_t)(at - count - 1);
    return at;
}

static uint8_t *put_packet(uint8_t *at, const Packet *p)
{
    at = put8(put1(at, p->kind), p->incarnation);
    switch (p->kind) {
    case REQUEST: return put_message(put8(at, p->applied), &p->message);
    case ENTRY: return put_message(put8(put8(put8(at, p->number), p->accepted), p->stable), &p->message);
    case ACK:
    case STATUS: return put8(put8(at, p->number), p->applied);
    case ACCEPT: return put8(put8(at, p->accepted), p->stable);
    case NACK: return put1(put8(put8(at, p->number), p->applied), p->whole);
    case INVITE: return at;
    case JOIN: return put_messages(put8(put8(put8(put8(at, p->installed), p->accepted), p->applied), p->base), p);
    case RESULT: return put_messages(put_members(put8(put8(at, p->accepted), p->base), p->members), p);
    }
    fail("a packet of no kind is written");
    return at;
}

/* Bytes that are read, from the left; `wrong` where they end too early or are no packet. */
typedef struct {
    const uint8_t *at, *end;
    bool wrong;
} Reader;

static bool has_bytes(Reader *r, int bytes)
{
    if (r->end - r->at < bytes) r->wrong = true;
    return !r->wrong;
}

static uint8_t take1(Reader *r) { return has_bytes(r, 1) ? *r->at++ : 0; }

static uint16_t take2(Reader *r)
{
    if (!has_bytes(r, 2)) return 0;
    const uint8_t *at = r->at;
    r->at += 2;
    return (uint16_t)(at[0] << 8 | at[1]);
}

static uint32_t take4(Reader *r)
{
    if (!has_bytes(r, 4)) return 0;
    const uint8_t *at = r->at;
    r->at += 4;
    return (uint32_t)at[0] << 24 | (uint32_t)at[1] << 16 | (uint32_t)at[2] << 8 | at[3];
}

static uint64_t take8(Reader *r)
{
    if (!has_bytes(r, 8)) return 0;
    const uint8_t *at = r->at;
    r->at += 8;
    return (uint64_t)at[0] << 56 | (uint64_t)at[1] << 48 | (uint64_t)at[2] << 40 | (uint64_t)at[3] << 32 | (uint64_t)at[4] << 24
        | (uint64_t)at[5] << 16 | (uint64_t)at[6] << 8 | at[7];
}

static Message take_message(Reader *r)
{
    Message x = {0};
    x.process = take2(r);
    x.call = take8(r);
    x.action = take1(r);
    x.type = take2(r);
    if (x.action == CALL) x.operation = take2(r);
    x.object_process = take2(r);
    x.object_number = take4(r);
    if (x.action == CALL) {
        if (take1(r) != 1 || take1(r) != 1) r->wrong = true;
        x.value = (int64_t)take8(r);
    } else if (x.action != MAKE) {
        r->wrong = true;
    }
    return x;
}

static void take_messages(Reader *r, Packet *p, Message *room)
{
    p->count = take4(r);
    if (p->count > WINDOW) r->wrong = true;
    for (uint32_t i = 0; i < p->count && !r->wrong; i++) room[i] = take_message(r);
    p->messages = room;
}

static uint16_t take_members(Reader *r)
{
    uint16_t members = 0;
    for (uint64_t count = take1(r); count > 0 && !r->wrong; count--) {
        uint64_t m = take1(r);
        if (m >= NODES || members >> m != 0) r->wrong = true;
        members |= (uint16_t)(1u << (m % NODES));
    }
    return members;
}

/* Reads the fields that a packet of its kind has; the others stay as they were. */
static void take_packet(const uint8_t *bytes, size_t length, Packet *p, Message *room)
{
    Reader r = {bytes, bytes + length, false};
    p->kind = take1(&r);
    p->incarnation = take8(&r);
    switch (p->kind) {
    case REQUEST: p->applied = take8(&r), p->message = take_message(&r); break;
    case ENTRY: p->number = take8(&r), p->accepted = take8(&r), p->stable = take8(&r), p->message = take_message(&r); break;
    case ACK:
    case STATUS: p->number = take8(&r), p->applied = take8(&r); break;
    case ACCEPT: p->accepted = take8(&r), p->stable = take8(&r); break;
    case NACK: p->number = take8(&r), p->applied = take8(&r), p->whole = take1(&r) != 0; break;
    case INVITE: break;
    case JOIN:
        p->installed = take8(&r), p->accepted = take8(&r), p->applied = take8(&r), p->base = take8(&r);
        take_messages(&r, p, room);
        break;
    case RESULT:
        p->accepted = take8(&r), p->base = take8(&r), p->members = take_members(&r);
        take_messages(&r, p, room);
        break;
    default: r.wrong = true;
    }
    if (r.wrong || r.at != r.end) fail("bytes that were sent are no packet");
}

/* ---- a member, and the run */

typedef struct {
    uint64_t installed, accepted, applied, base;
    uint32_t count;
    Message messages[WINDOW];
} Report;

typedef struct {
    int me, sequencer;
    uint64_t installed, promised;
    uint16_t answered, ackers;
    /* the window: entry n stands at (n - 1) % 256, of the entries behind base */
    uint64_t base;
    uint32_t kept;
    /* the greatest calls in the log and among what was applied, and one more; 0 for none */
    uint64_t calls, applied_calls;
    uint64_t accepted, applied, nacked, reported, heard[NODES], acked[NODES];
    uint16_t has_heard, gave;
    uint32_t silent;
    bool outside, has_pending, has_waiting;
    Message pending, waiting, window[WINDOW];
    Report *answers;
    /* its copies: how many entries they applied, and the one object */
    uint64_t copied;
    bool made;
    int64_t value;
} Member;

enum Event { BURST, ACT, DELIVER, TICK };
enum Stage { COMPUTING, ACTING, SUBMITTED, OVER };
enum Fate { PASS, DROP, TWICE };

typedef struct {
    uint64_t packet;
    uint32_t fates;
    uint16_t process;
    uint8_t event, copy;
} Step;

typedef struct {
    uint64_t number;
    size_t begin;
    uint32_t length;
    uint8_t from, to, copy;
} Flight;

typedef struct {
    Message message;
    uint8_t guard, reply;
} Line;

typedef struct {
    int nodes, resilience;
    uint64_t writes, events;
    uint32_t lose;
    bool twice;
    Member *members;
    /* process 0: where it stands, and how many replies it has */
    enum Stage stage;
    uint64_t replies;
    /* packets in flight, those before `first` delivered, and their bytes */
    Flight *flights;
    uint8_t *bytes;
    size_t first, last, flights_room, used, bytes_room;
    /* how many packets were sent, how many of each kind, and how many bytes the last of a kind had */
    uint64_t sent, kinds[KINDS];
    uint32_t lengths[KINDS];
    uint64_t random, increment;
    /* what is kept of the run: steps, fates, lines */
    Step *steps;
    uint8_t *fates;
    Line *lines;
    size_t step_count, steps_room, fates_room, line_count, lines_room;
    uint64_t idle;
    bool stirred;
    /* room for what is read, and for what is written */
    Message taken[WINDOW];
    uint8_t written[128 + WINDOW * 32];
} Run;

static void *with_room(void *at, size_t *room, size_t wanted, size_t size)
{
    if (wanted <= *room) return at;
    while (*room < wanted) *room = *room == 0 ? 64 : 2 * *room;
    at = realloc(at, *room * size);
    if (at == NULL) fail("no memory");
    return at;
}

/* ---- the generator Pcg32 (O'Neill), made from a seed of 64 bits */

static uint32_t pcg_word(uint64_t state)
{
    uint32_t word = (uint32_t)((state >> 18 ^ state) >> 27);
    int by = (int)(state >> 59);
    return by == 0 ? word : word >> by | word << (32 - by);
}

static void seed(Run *run, uint64_t state)
{
    uint64_t words[4];
    for (int i = 0; i < 4; i++) {
        state = state * 0x5851F42D4C957F2Du + 0xA17654E46FBE17F3u;
        words[i] = pcg_word(state);
    }
    run->increment = (words[2] | words[3] << 32) | 1;
    run->random = ((words[0] | words[1] << 32) + run->increment) * 6364136223846793005u + run->increment;
}

static enum Fate fate_of(Run *run)
{
    if (run->twice) return TWICE;
    if (run->lose == 0) return PASS;
    uint32_t word = pcg_word(run->random);
    run->random = run->random * 6364136223846793005u + run->increment;
    return word % 100 < run->lose ? DROP : PASS;
}

/* ---- sending */

static void flies(Run *run, int from, int to, uint8_t copy, size_t begin, uint32_t length)
{
    run->flights = with_room(run->flights, &run->flights_room, run->last + 1, sizeof(Flight));
    run->flights[run->last++] = (Flight){run->sent, begin, length, (uint8_t)from, (uint8_t)to, copy};
}

/* One packet of these bytes goes to a member. */
static void post(Run *run, const Member *s, int to, uint8_t kind, const uint8_t *bytes, uint32_t length)
{
    run->sent++;
    run->kinds[kind]++;
    run->lengths[kind] = length;
    enum Fate fate = fate_of(run);
    run->fates = with_room(run->fates, &run->fates_room, run->sent, 1);
    run->fates[run->sent - 1] = (uint8_t)fate;
    if (fate == DROP) return;
    run->bytes = with_room(run->bytes, &run->bytes_room, run->used + length, 1);
    memcpy(run->bytes + run->used, bytes, length);
    flies(run, s->me, to, 0, run->used, length);
    if (fate == TWICE) flies(run, s->me, to, 1, run->used, length);
    run->used += length;
}

static void tell(Run *run, const Member *s, int to, const Packet *p)
{
    uint32_t length = (uint32_t)(put_packet(run->written, p) - run->written);
    post(run, s, to, p->kind, run->written, length);
}

static void tell_others(Run *run, const Member *s, const Packet *p)
{
    uint32_t length = (uint32_t)(put_packet(run->written, p) - run->written);
    for (int to = 0; to < run->nodes; to++)
        if (to != s->me) post(run, s, to, p->kind, run->written, length);
}

/* ---- a member's window and numbers */

static uint64_t length_of(const Member *s) { return s->base + s->kept; }
static bool is_active(const Member *s) { return s->installed == s->promised && !s->outside; }
static bool leads(const Member *s) { return s->me == s->sequencer && is_active(s); }
static bool is_acker(const Member *s) { return s->ackers >> s->me & 1; }
static bool has_room(const Member *s) { return s->kept < WINDOW; }
static bool is_repeat(const Member *s, const Message *x) { return x->call < s->calls; }
static uint64_t lesser(uint64_t a, uint64_t b) { return a < b ? a : b; }
static uint64_t greater(uint64_t a, uint64_t b) { return a > b ? a : b; }
static const Message *entry(const Member *s, uint64_t number) { return &s->window[(number - 1) % WINDOW]; }

static bool is_gathering(const Run *run, const Member *s)
{
    return !s->outside && s->installed < s->promised && s->promised % (uint64_t)run->nodes == (uint64_t)s->me;
}

static void append(Member *s, const Message *x)
{
    s->window[length_of(s) % WINDOW] = *x;
    s->kept++;
    s->calls = x->call + 1;
}

static void purge(Member *s, uint64_t stable)
{
    uint64_t to = lesser(stable, s->applied);
    if (s->kept < KEPT_BEFORE_PURGE || to <= s->base) return;
    s->kept -= (uint32_t)(to - s->base);
    s->base = to;
}

static uint64_t stable_of(const Run *run, const Member *s)
{
    uint64_t least = s->applied;
    for (int m = 0; m < run->nodes; m++)
        if (m != s->me && s->has_heard >> m & 1) least = lesser(least, s->heard[m]);
    return least;
}

/* It stands in this incarnation from now on, with who answered for it, its sequencer, and the r lowest others of them as ackers. */
static void enter(Run *run, Member *s, uint64_t incarnation, uint16_t answered)
{
    s->installed = incarnation;
    s->answered = answered;
    s->sequencer = (int)(incarnation % (uint64_t)run->nodes);
    s->ackers = 0;
    for (int m = 0, left = run->resilience; m < run->nodes && left > 0; m++)
        if (m != s->sequencer && answered >> m & 1) s->ackers |= (uint16_t)(1u << m), left--;
    s->nacked = 0;
    s->has_waiting = false;
    s->gave = 0;
    memset(s->acked, 0, sizeof s->acked);
}

static void takes_log(Member *s, uint64_t base, uint32_t count, const Message *messages)
{
    s->base = base;
    s->kept = 0;
    s->calls = s->applied_calls;
    for (uint32_t i = 0; i < count; i++) append(s, &messages[i]);
}

/* The entries that it keeps, in order. */
static uint32_t kept_of(const Member *s, Message *into)
{
    for (uint32_t i = 0; i < s->kept; i++) into[i] = *entry(s, s->base + 1 + i);
    return s->kept;
}

/* ---- the sequencer */

static void order(Run *run, Member *s, const Message *x)
{
    append(s, x);
    if (run->resilience == 0) s->accepted = length_of(s), s->silent = 0;
    Packet p = {.kind = ENTRY, .incarnation = s->installed, .number = length_of(s), .accepted = s->accepted, .message = *x};
    p.stable = stable_of(run, s);
    tell_others(run, s, &p);
}

static void send_entry(Run *run, Member *s, int to, uint64_t number)
{
    if (number <= s->base || number > length_of(s)) return;
    Packet p = {.kind = ENTRY, .incarnation = s->installed, .number = number, .accepted = s->accepted, .message = *entry(s, number)};
    p.stable = stable_of(run, s);
    tell(run, s, to, &p);
}

static void send_entries(Run *run, Member *s, int to, uint64_t first)
{
    for (uint64_t number = first; number < first + SENT_AGAIN; number++) send_entry(run, s, to, number);
}

static void send_again(Run *run, Member *s, int asker, const Message *x)
{
    for (uint64_t number = s->base + 1; number <= length_of(s); number++)
        if (entry(s, number)->process == x->process && entry(s, number)->call == x->call) {
            send_entry(run, s, asker, number);
            return;
        }
}

static void ask(Run *run, Member *s, int asker, const Message *x)
{
    if (is_repeat(s, x)) {
        if (asker != s->me) send_again(run, s, asker, x);
    } else if (has_room(s)) {
        order(run, s, x);
    } else if (!s->has_waiting) {
        s->has_waiting = true;
        s->waiting = *x;
    }
}

static void finish(Run *run, Member *s)
{
    if (!leads(s)) return;
    if (s->kept >= KEPT_BEFORE_PURGE) purge(s, stable_of(run, s));
    if (!s->has_waiting || !has_room(s)) return;
    s->has_waiting = false;
    if (!is_repeat(s, &s->waiting)) order(run, s, &s->waiting);
}

static void hears(Member *s, int from, uint64_t applied)
{
    if (applied < s->base) return;
    s->heard[from] = s->has_heard >> from & 1 ? greater(s->heard[from], applied) : applied;
    s->has_heard |= (uint16_t)(1u << from);
}

static Packet accept_of(const Run *run, const Member *s)
{
    return (Packet){.kind = ACCEPT, .incarnation = s->installed, .accepted = s->accepted, .stable = stable_of(run, s)};
}

static void take_ack(Run *run, Member *s, int from, uint64_t length)
{
    if (run->resilience == 0) return;
    s->acked[from] = greater(s->acked[from], length);
    uint64_t least = length_of(s);
    for (int m = 0; m < run->nodes; m++)
        if (s->ackers >> m & 1) least = lesser(least, s->acked[m]);
    if (least <= s->accepted) return;
    s->accepted = least;
    s->silent = 0;
    Packet p = accept_of(run, s);
    tell_others(run, s, &p);
}

/* The incarnation's log as a Result, its messages laid into room. */
static Packet result_of(const Member *s, Message *room)
{
    Packet p = {.kind = RESULT, .incarnation = s->installed, .accepted = s->accepted, .base = s->base, .members = s->answered};
    p.count = kept_of(s, room);
    p.messages = room;
    return p;
}

static void send_result(Run *run, Member *s, int to)
{
    Message room[WINDOW];
    Packet p = result_of(s, room);
    tell(run, s, to, &p);
}

static void at_sequencer(Run *run, Member *s, int from, const Packet *p)
{
    switch (p->kind) {
    case REQUEST: hears(s, from, p->applied), ask(run, s, from, &p->message); break;
    case ACK: hears(s, from, p->applied), take_ack(run, s, from, p->number); break;
    case NACK:
        hears(s, from, p->applied);
        if (p->whole || p->number <= s->base) send_result(run, s, from);
        else send_entries(run, s, from, p->number);
        break;
    case STATUS:
        hears(s, from, p->applied);
        if (p->number < s->base) {
            send_result(run, s, from);
        } else if (p->number < length_of(s)) {
            send_entries(run, s, from, p->number + 1);
        } else {
            Packet answer = accept_of(run, s);
            tell(run, s, from, &answer);
        }
        break;
    default: break;
    }
    finish(run, s);
}

/* ---- the other members */

static void request(Run *run, Member *s, const Message *x)
{
    Packet p = {.kind = REQUEST, .incarnation = s->installed, .applied = s->applied, .message = *x};
    tell(run, s, s->sequencer, &p);
}

static void request_pending(Run *run, Member *s)
{
    if (s->has_pending && !is_repeat(s, &s->pending)) request(run, s, &s->pending);
}

static void nack(Run *run, Member *s)
{
    if (s->nacked != 0 && length_of(s) + 1 < s->nacked + SENT_AGAIN) return;
    s->nacked = length_of(s) + 1;
    Packet p = {.kind = NACK, .incarnation = s->installed, .number = s->nacked, .applied = s->applied};
    tell(run, s, s->sequencer, &p);
}

static void send_ack(Run *run, Member *s)
{
    Packet p = {.kind = ACK, .incarnation = s->installed, .number = length_of(s), .applied = s->applied};
    tell(run, s, s->sequencer, &p);
}

static void take_accept(Run *run, Member *s, uint64_t accepted, uint64_t stable)
{
    s->accepted = greater(s->accepted, lesser(accepted, length_of(s)));
    if (length_of(s) < accepted) nack(run, s);
    purge(s, stable);
}

static void take_entry(Run *run, Member *s, const Packet *p)
{
    if (p->number == length_of(s) + 1) {
        purge(s, p->stable);
        if (has_room(s)) append(s, &p->message);
    } else if (p->number > length_of(s) + 1) {
        nack(run, s);
    }
    if (is_acker(s) && p->number <= length_of(s)) send_ack(run, s);
    take_accept(run, s, p->accepted, p->stable);
}

static void send_status(Run *run, Member *s)
{
    s->reported = s->applied;
    Packet p = {.kind = STATUS, .incarnation = s->installed, .number = length_of(s), .applied = s->applied};
    tell(run, s, s->sequencer, &p);
}

static void at_other(Run *run, Member *s, const Packet *p)
{
    if (p->kind == ENTRY) take_entry(run, s, p);
    if (p->kind == ACCEPT) take_accept(run, s, p->accepted, p->stable);
}

/* ---- a reset */

static bool heeds(const Member *s, uint64_t incarnation) { return !s->outside && s->promised <= incarnation; }

static void listens(Member *s, int from, uint64_t incarnation)
{
    if (incarnation == s->installed && from == s->sequencer) s->silent = 0;
}

static void promise(Member *s, uint64_t incarnation)
{
    s->promised = incarnation;
    s->gave = 0;
    s->silent = 0;
}

static void keep_answer(Member *s, int from, const Packet *p)
{
    Report *report = &s->answers[from];
    s->gave |= (uint16_t)(1u << from);
    report->installed = p->installed, report->accepted = p->accepted, report->applied = p->applied, report->base = p->base;
    report->count = p->count;
    memcpy(report->messages, p->messages, p->count * sizeof(Message));
}

static Packet join_of(const Member *s, uint64_t incarnation, Message *room)
{
    Packet p = {.kind = JOIN, .incarnation = incarnation, .installed = s->installed, .accepted = s->accepted, .applied = s->applied};
    p.base = s->base;
    p.count = kept_of(s, room);
    p.messages = room;
    return p;
}

static bool beats(const Report *b, const Report *a)
{
    if (a->installed != b->installed) return a->installed < b->installed;
    return a->base + a->count < b->base + b->count;
}

/* The coordinator takes over the log of the best answer, tells the others, and orders its own message that the log lacks. */
static void begin(Run *run, Member *s, const Report *best)
{
    uint64_t accepted = s->accepted;
    s->has_heard = s->gave;
    for (int m = 0; m < run->nodes; m++)
        if (s->gave >> m & 1) {
            accepted = greater(accepted, s->answers[m].accepted);
            s->heard[m] = s->answers[m].applied;
        }
    takes_log(s, best->base, best->count, best->messages);
    enter(run, s, s->promised, s->gave);
    s->accepted = run->resilience == 0 ? length_of(s) : accepted;
    run->stirred = true;
    Message room[WINDOW];
    Packet p = result_of(s, room);
    tell_others(run, s, &p);
    if (s->has_pending) {
        Message own = s->pending;
        ask(run, s, s->me, &own);
    }
    finish(run, s);
}

static void gather(Run *run, Member *s)
{
    int count = 0;
    const Report *best = NULL;
    for (int m = 0; m < run->nodes; m++)
        if (s->gave >> m & 1) {
            count++;
            if (best == NULL || beats(&s->answers[m], best)) best = &s->answers[m];
        }
    if (count < run->nodes - run->resilience) return;
    if (best->base <= s->applied) begin(run, s, best);
    else s->outside = true;
}

static void coordinate(Run *run, Member *s)
{
    if (s->outside) return;
    uint64_t nodes = (uint64_t)run->nodes, incarnation = (s->promised / nodes + 1) * nodes + (uint64_t)s->me;
    Message room[WINDOW];
    promise(s, incarnation);
    Packet own = join_of(s, incarnation, room), invite = {.kind = INVITE, .incarnation = incarnation};
    keep_answer(s, s->me, &own);
    tell_others(run, s, &invite);
    gather(run, s);
}

static void invited(Run *run, Member *s, int from, uint64_t incarnation)
{
    int coordinator = (int)(incarnation % (uint64_t)run->nodes);
    if (!heeds(s, incarnation) || coordinator == s->me) return;
    listens(s, from, incarnation);
    if (s->promised < incarnation) promise(s, incarnation);
    if (s->installed >= incarnation) return;
    Message room[WINDOW];
    Packet p = join_of(s, incarnation, room);
    tell(run, s, coordinator, &p);
}

static void joined(Run *run, Member *s, int from, const Packet *p)
{
    if (!is_gathering(run, s) || p->incarnation != s->promised) return;
    keep_answer(s, from, p);
    gather(run, s);
}

static void take_news(Run *run, Member *s, const Packet *p)
{
    takes_log(s, p->base, p->count, p->messages);
    enter(run, s, p->incarnation, p->members);
    s->promised = p->incarnation;
    s->accepted = greater(s->accepted, p->accepted);
    s->silent = 0;
    s->has_heard = 0;
    run->stirred = true;
    if (is_acker(s)) send_ack(run, s);
    request_pending(run, s);
}

static void announced(Run *run, Member *s, int from, const Packet *p)
{
    if (!heeds(s, p->incarnation)) return;
    if (s->installed >= p->incarnation) {
        listens(s, from, p->incarnation);
        if (length_of(s) < p->base) s->outside = true;
    } else if (p->base <= s->applied) {
        take_news(run, s, p);
    } else {
        if (s->promised < p->incarnation) promise(s, p->incarnation);
        s->outside = true;
    }
}

/* ---- a member's steps */

static void submit(Run *run, Member *s, const Message *x)
{
    s->has_pending = true;
    s->pending = *x;
    if (!is_active(s)) return;
    if (!leads(s)) {
        request(run, s, x);
        return;
    }
    ask(run, s, s->me, x);
    finish(run, s);
}

static void receive(Run *run, Member *s, int from, const Packet *p)
{
    if (p->kind == INVITE) invited(run, s, from, p->incarnation);
    else if (p->kind == JOIN) joined(run, s, from, p);
    else if (p->kind == RESULT) announced(run, s, from, p);
    else if (!heeds(s, p->incarnation)) return;
    else if (p->incarnation == s->installed) {
        listens(s, from, p->incarnation);
        if (s->me == s->sequencer) at_sequencer(run, s, from, p);
        else at_other(run, s, p);
    } else if (p->kind == ENTRY || p->kind == ACCEPT) {
        Packet whole = {.kind = NACK, .incarnation = p->incarnation, .applied = s->applied, .whole = true};
        tell(run, s, from, &whole);
    }
}

static void invite_again(Run *run, Member *s)
{
    Packet p = {.kind = INVITE, .incarnation = s->promised};
    for (int m = 0; m < run->nodes; m++)
        if (m != s->me && !(s->gave >> m & 1)) tell(run, s, m, &p);
}

static void timer(Run *run, Member *s)
{
    if (s->outside) return;
    bool is_content = leads(s) && length_of(s) <= s->accepted && !s->has_waiting;
    s->nacked = 0;
    s->silent = is_content ? 0 : (uint32_t)lesser(s->silent + 1, SILENCE);
    if (s->silent >= (uint32_t)(PATIENCE + s->me)) {
        coordinate(run, s);
    } else if (leads(s)) {
        Packet p = accept_of(run, s);
        tell_others(run, s, &p);
    } else if (is_active(s)) {
        request_pending(run, s);
        send_status(run, s);
    } else if (is_gathering(run, s)) {
        invite_again(run, s);
    }
}

static void note(Run *run, Member *s, uint64_t number)
{
    for (uint64_t n = s->applied + 1; n <= number && s->has_pending; n++)
        if (entry(s, n)->process == s->pending.process && entry(s, n)->call == s->pending.call) s->has_pending = false;
    s->applied = number;
    run->stirred = true;
    if (is_active(s) && !leads(s) && number >= s->reported + BETWEEN_REPORTS) send_status(run, s);
    finish(run, s);
}

/* ---- a member's copies */

/* The copies take the entry; the first that do add the history's line, and at its own member the process has its reply. */
static void apply(Run *run, Member *s, const Message *x)
{
    if (x->action == MAKE) s->made = true, s->value = 0;
    else s->value = x->value;
    s->copied++;
    s->applied_calls = x->call + 1;
    if (s->copied > run->line_count) {
        run->lines = with_room(run->lines, &run->lines_room, run->line_count + 1, sizeof(Line));
        run->lines[run->line_count++] = (Line){*x, 0, 0};
    }
    if (s->me == 0) run->replies++, run->stage = COMPUTING;
}

static void catch_up(Run *run, Member *s)
{
    for (int rounds = s->has_waiting ? 2 : 1; rounds > 0; rounds--) {
        while (s->copied < s->accepted) apply(run, s, entry(s, s->copied + 1));
        if (s->applied < s->copied) note(run, s, s->copied);
    }
}

/* ---- events */

static void burst(Run *run) { run->stage = run->replies <= run->writes ? ACTING : OVER; }

static void act(Run *run)
{
    Message x = {.call = run->replies, .process = 0, .type = 1, .object_process = 0, .object_number = 1};
    x.action = run->replies == 0 ? MAKE : CALL;
    if (x.action == CALL) x.operation = 1, x.value = (int64_t)run->replies;
    run->stage = SUBMITTED;
    submit(run, &run->members[0], &x);
    catch_up(run, &run->members[0]);
}

static void deliver(Run *run, Flight flight)
{
    Packet p;
    take_packet(run->bytes + flight.begin, flight.length, &p, run->taken);
    if (++run->first == run->last) run->first = run->last = run->used = 0;
    Member *s = &run->members[flight.to];
    receive(run, s, flight.from, &p);
    catch_up(run, s);
}

static void tick(Run *run)
{
    for (int m = 0; m < run->nodes; m++) {
        timer(run, &run->members[m]);
        catch_up(run, &run->members[m]);
    }
}

static Step next(Run *run)
{
    Step step = {.event = TICK};
    if (run->stage == ACTING) {
        step.event = ACT;
        act(run);
    } else if (run->first < run->last) {
        Flight flight = run->flights[run->first];
        step = (Step){.event = DELIVER, .packet = flight.number, .copy = flight.copy};
        deliver(run, flight);
    } else if (run->stage == COMPUTING) {
        step.event = BURST;
        burst(run);
    } else {
        tick(run);
    }
    return step;
}

static bool is_no_group(const Run *run)
{
    if (run->idle < IDLE_TICKS || run->first < run->last || run->stage != SUBMITTED) return false;
    int outside = 0;
    for (int m = 0; m < run->nodes; m++) outside += run->members[m].outside;
    return outside > run->resilience;
}

static int standing(const Run *run)
{
    if (run->line_count >= HISTORY_LINES) return LINES;
    if (run->step_count >= run->events) return OUT_OF_EVENTS;
    if (is_no_group(run)) return NO_GROUP;
    return run->stage == OVER ? ENDED : GOING;
}

static int play(Run *run)
{
    int stands = standing(run);
    while (stands == GOING) {
        uint64_t sent = run->sent;
        run->stirred = false;
        Step step = next(run);
        step.fates = (uint32_t)(run->sent - sent);
        run->steps = with_room(run->steps, &run->steps_room, run->step_count + 1, sizeof(Step));
        run->steps[run->step_count++] = step;
        if (run->stirred || step.event == BURST) run->idle = 0;
        else if (step.event == TICK) run->idle++;
        stands = standing(run);
    }
    return stands;
}

/* ---- what the words ask for */

static void opens(Run *run)
{
    run->members = calloc((size_t)run->nodes, sizeof(Member));
    if (run->members == NULL) fail("no memory");
    for (int m = 0; m < run->nodes; m++) {
        Member *s = &run->members[m];
        s->me = m;
        enter(run, s, 0, (uint16_t)((1u << run->nodes) - 1));
        s->has_heard = s->answered;
        s->answers = malloc(NODES * sizeof(Report));
        if (s->answers == NULL) fail("no memory");
    }
    run->stage = COMPUTING;
    seed(run, 1);
}

static void closes(Run *run)
{
    for (int m = 0; m < run->nodes; m++) free(run->members[m].answers);
    free(run->members), free(run->flights), free(run->bytes);
    free(run->steps), free(run->fates), free(run->lines);
}

static void tell_run(const Run *run, int status, bool kinds)
{
    uint64_t entries = UINT64_MAX;
    for (int m = 0; m < run->nodes; m++) entries = lesser(entries, run->members[m].copied);
    printf("status %d: %zu events, %llu packets, %llu entries\n", status, run->step_count, (unsigned long long)run->sent,
           (unsigned long long)entries);
    for (int kind = 1; kinds && kind < KINDS; kind++)
        printf("%s %llu %u\n", KIND_NAMES[kind], (unsigned long long)run->kinds[kind], run->lengths[kind]);
}

static void tell_history(const Run *run)
{
    for (size_t i = 0; i < run->line_count; i++) {
        const Message *x = &run->lines[i].message;
        printf("%u %llu ", x->process, (unsigned long long)x->call);
        if (x->action == MAKE) printf("make Cell o%u.%u none\n", x->object_process, x->object_number);
        else printf("call Cell$Assign o%u.%u (%lld) guard %u none\n", x->object_process, x->object_number, (long long)x->value,
                    run->lines[i].guard);
    }
}

static uint64_t number_of(int count, char **words, int at)
{
    if (at >= count) fail("a number is missing");
    char *end = NULL;
    unsigned long long number = strtoull(words[at], &end, 10);
    if (end == words[at] || *end != 0) fail("a word is no number");
    return number;
}

int main(int count, char **words)
{
    Run asked = {.events = 4000000};
    uint64_t times = 1;
    bool kinds = false, history = false;
    asked.nodes = (int)number_of(count, words, 1);
    asked.resilience = (int)number_of(count, words, 2);
    asked.writes = number_of(count, words, 3);
    for (int at = 4; at < count; at++) {
        if (strcmp(words[at], "--lose") == 0) asked.lose = (uint32_t)number_of(count, words, ++at);
        else if (strcmp(words[at], "--events") == 0) asked.events = number_of(count, words, ++at);
        else if (strcmp(words[at], "--times") == 0) times = number_of(count, words, ++at);
        else if (strcmp(words[at], "--twice") == 0) asked.twice = true;
        else if (strcmp(words[at], "--kinds") == 0) kinds = true;
        else if (strcmp(words[at], "--history") == 0) history = true;
        else fail("an unknown word");
    }
    if (asked.nodes < 1 || asked.nodes > NODES || 2 * asked.resilience >= asked.nodes) fail("no such group");
    for (uint64_t time = 1; time <= times; time++) {
        Run run = asked;
        opens(&run);
        int status = play(&run);
        if (time == times && history) tell_history(&run);
        else if (time == times) tell_run(&run, status, kinds);
        closes(&run);
    }
    return 0;
}
