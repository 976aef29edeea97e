/*
 * rehearse over the model: plays a script from standard input, with up to eight
 * end-points, their word areas and the channels between them, and writes the
 * transcript on standard output.
 *
 * In order: the group; reading a line's fields; writing answers; the commands,
 * one function each; the table of commands; the play of a whole script.
 * Assumes that a script fits SCRIPT_ROOM: a longer one is refused unplayed.
 */
#include <stdio.h>

#include "endpoint.h"

enum {
    SCRIPT_ROOM = 1 << 20,  /* bytes of script */
    CHANNEL_ROOM = 256,     /* messages in one channel */
    FIELDS = 12             /* of the longest command, a membership view */
};

/* The group. */

struct desk {
    bool made;
    struct model_endpoint e;
    uint64_t area[AREA];
};

struct packet {
    uint8_t bytes[LONGEST_MESSAGE];
    size_t length;
};

/* A ring: the head moves on when a message is received. */
struct channel {
    struct packet packets[CHANNEL_ROOM];
    unsigned head;
    unsigned count;
};

static struct desk desks[MEMBERS];
static struct channel channels[MEMBERS][MEMBERS];  /* from by to */

static struct packet *packet_at(struct channel *c, unsigned k)
{
    return &c->packets[(c->head + k) % CHANNEL_ROOM];
}

static bool channels_have_room(unsigned p, uint8_t to)
{
    for (unsigned q = 0; q < MEMBERS; q++)
        if (has_member(to, q) && channels[p][q].count == CHANNEL_ROOM)
            return false;
    return true;
}

static void send_packet(unsigned p, uint8_t to, const struct packet *packet)
{
    for (unsigned q = 0; q < MEMBERS; q++)
        if (has_member(to, q)) {
            struct channel *c = &channels[p][q];
            *packet_at(c, c->count) = *packet;
            c->count++;
        }
}

/* Reading fields. Each reader answers whether the field can be read. */

struct field {
    const uint8_t *at;
    size_t length;
};

/* A line that can be read has a desk where its first field is a number. */
struct line {
    struct field fields[FIELDS];
    size_t count;
    struct desk *desk;
};

static bool is_text(struct field f, const char *text)
{
    return f.length == strlen(text) && memcmp(f.at, text, f.length) == 0;
}

static bool read_digit(uint8_t c, unsigned base, unsigned *digit)
{
    unsigned d = base;
    if (c >= '0' && c <= '9')
        d = c - '0';
    else if (c >= 'a' && c <= 'f')
        d = c - 'a' + 10u;
    else if (c >= 'A' && c <= 'F')
        d = c - 'A' + 10u;
    *digit = d;
    return d < base;
}

static bool read_number(struct field f, uint64_t most, uint64_t *number)
{
    const bool hexadecimal = f.length >= 2 && f.at[0] == '0' && f.at[1] == 'x';
    const unsigned base = hexadecimal ? 16 : 10;
    size_t k = hexadecimal ? 2 : 0;
    uint64_t value = 0;
    if (k == f.length)
        return false;
    for (; k < f.length; k++) {
        unsigned digit;
        if (!read_digit(f.at[k], base, &digit))
            return false;
        if (digit > most || value > (most - digit) / base)
            return false;
        value = value * base + digit;
    }
    *number = value;
    return true;
}

static bool read_member(struct field f, uint8_t *member)
{
    uint64_t n;
    if (!read_number(f, UINT8_MAX, &n))
        return false;
    *member = (uint8_t)n;
    return true;
}

static bool read_u32(struct field f, uint32_t *number)
{
    uint64_t n;
    if (!read_number(f, UINT32_MAX, &n))
        return false;
    *number = (uint32_t)n;
    return true;
}

/* One digit a member, a comma between two. */
static bool read_set(struct field f, uint8_t *set)
{
    uint8_t members = 0;
    if (f.length < 2 || f.at[0] != '{' || f.at[f.length - 1] != '}')
        return false;
    const size_t inside = f.length - 2;
    if (inside != 0 && inside % 2 == 0)
        return false;
    for (size_t k = 0; k < inside; k++) {
        const uint8_t c = f.at[1 + k];
        if (k % 2 == 1 ? c != ',' : c < '0' || c > '7')
            return false;
        if (k % 2 == 0)
            members |= only_member(c - '0');
    }
    *set = members;
    return true;
}

static bool read_view(const struct field *fields, struct model_view *v)
{
    if (!read_u32(fields[0], &v->id) || !read_set(fields[1], &v->set))
        return false;
    for (unsigned n = 0; n < MEMBERS; n++)
        if (!read_u32(fields[2 + n], &v->starts[n]))
            return false;
    return true;
}

/* Keeps what there is room for: the length alone tells that a longer one is no message. */
static bool read_bytes(struct field f, uint8_t bytes[LONGEST_MESSAGE], size_t *length)
{
    if (is_text(f, "-")) {
        *length = 0;
        return true;
    }
    if (f.length % 2 != 0)
        return false;
    for (size_t k = 0; k < f.length / 2; k++) {
        unsigned high, low;
        if (!read_digit(f.at[2 * k], 16, &high) || !read_digit(f.at[2 * k + 1], 16, &low))
            return false;
        if (k < LONGEST_MESSAGE)
            bytes[k] = (uint8_t)(high * 16 + low);
    }
    *length = f.length / 2;
    return true;
}

/* Writing answers. */

static void say_error(const char *reason)
{
    printf("error %s\n", reason);
}

static const char *reason_for(enum model_number number)
{
    static const char *const reasons[] = {
        [ACCEPTED] = "accepted",
        [NO1_MALFORMED] = "malformed, unsound or from oneself",
        [NO2_ABSENT] = "a needed member is absent",
        [NO3_NOT_NEWER] = "not newer",
        [NO4_OUT_OF_TURN] = "out of turn",
        [NO5_BLOCKED] = "sending is blocked",
        [NO6_FULL] = "128 words are there",
        [NO7_NO_SLOT] = "no slot is free",
        [NO8_NOT_DECLARED] = "a member is not declared",
        [NO9_NO_RECORD] = "a named record is not held",
        [NO10_NOTHING_TO_DO] = "nothing to do",
        [NO11_BEYOND_CUT] = "beyond the cut",
        [NO12_NOT_FORWARDED] = "a due word is not forwarded",
        [NO13_TOO_FEW_GIVEN] = "fewer words given out than agreed",
        [NO14_OTHER_WORD] = "another word is held there",
        [NO15_TOO_MANY_GIVEN] = "more words given out than agreed"
    };
    return reasons[number];
}

static void say_refused(enum model_number number)
{
    printf("%d %s\n", (int)number, reason_for(number));
}

/* The answer of a step that gives nothing. */
static void say_number(enum model_number number)
{
    if (number == ACCEPTED)
        printf("0\n");
    else
        say_refused(number);
}

static void put_set(uint8_t set)
{
    const char *before = "";
    putchar('{');
    for (unsigned n = 0; n < MEMBERS; n++)
        if (has_member(set, n)) {
            printf("%s%u", before, n);
            before = ",";
        }
    putchar('}');
}

static void put_view(const struct model_view *v)
{
    printf("%lu ", (unsigned long)v->id);
    put_set(v->set);
    for (unsigned n = 0; n < MEMBERS; n++)
        printf(" %lu", (unsigned long)v->starts[n]);
}

static void put_counts(const uint8_t counts[MEMBERS])
{
    for (unsigned r = 0; r < MEMBERS; r++)
        printf(" %u", counts[r]);
}

static void put_word(uint64_t word)
{
    printf("%llu", (unsigned long long)word);
}

static void put_packet(const struct packet *packet)
{
    for (size_t k = 0; k < packet->length; k++)
        printf("%02x", packet->bytes[k]);
}

/* The commands of the group. */

static void play_fresh(struct line *l)
{
    uint8_t p;
    if (!read_member(l->fields[1], &p)) {
        say_error("no member number");
        return;
    }
    if (p < MEMBERS && desks[p].made) {
        say_error("made already");
        return;
    }
    struct model_endpoint e;
    const enum model_number number = model_fresh(&e, p);
    if (number == ACCEPTED) {
        desks[p].e = e;
        desks[p].made = true;
    }
    say_number(number);
}

/* The channel that fields 1 and 2 name, or NULL with an error said. */
static struct channel *named_channel(const struct line *l, uint8_t *p, uint8_t *q)
{
    if (!read_member(l->fields[1], p) || !read_member(l->fields[2], q)) {
        say_error("no member number");
        return NULL;
    }
    if (*p >= MEMBERS || *q >= MEMBERS) {
        say_error("no such channel");
        return NULL;
    }
    return &channels[*p][*q];
}

static void play_lose(struct line *l)
{
    uint8_t p, q;
    struct channel *c = named_channel(l, &p, &q);
    if (c == NULL)
        return;
    if (!desks[p].made)
        say_error("no such end-point");
    else if (c->count == 0)
        say_error("the channel is empty");
    else if (has_member(desks[p].e.declared, q))
        say_error("the destination is declared");
    else {
        c->count--;
        printf("0\n");
    }
}

static void play_channel(struct line *l)
{
    uint8_t p, q;
    struct channel *c = named_channel(l, &p, &q);
    if (c == NULL)
        return;
    printf("0\n");
    for (unsigned k = 0; k < c->count; k++) {
        printf("  ");
        put_packet(packet_at(c, k));
        putchar('\n');
    }
}

/* The steps. */

static void play_send(struct line *l)
{
    uint64_t word;
    if (!read_number(l->fields[2], UINT64_MAX, &word)) {
        say_error("no word");
        return;
    }
    say_number(model_send(&l->desk->e, l->desk->area, AREA, word));
}

static void play_block_ok(struct line *l)
{
    say_number(model_block_ok(&l->desk->e));
}

static void play_start(struct line *l)
{
    uint32_t number;
    uint8_t set;
    if (!read_u32(l->fields[2], &number) || !read_set(l->fields[3], &set)) {
        say_error("no number and set");
        return;
    }
    say_number(model_start_change(&l->desk->e, number, set));
}

static void play_view(struct line *l)
{
    struct model_view view;
    if (!read_view(&l->fields[2], &view)) {
        say_error("no view");
        return;
    }
    say_number(model_membership_view(&l->desk->e, &view));
}

static enum model_number receive_packet(struct desk *d, uint8_t q, const uint8_t *bytes, size_t length)
{
    struct model_message message;
    if (model_read(bytes, length, &message) != 0)
        return NO1_MALFORMED;
    return model_receive(&d->e, d->area, AREA, q, &message);
}

static void play_receive(struct line *l)
{
    uint8_t q;
    if (!read_member(l->fields[2], &q)) {
        say_error("no member number");
        return;
    }
    if (q >= MEMBERS || q == l->desk->e.p) {
        say_refused(NO1_MALFORMED);
        return;
    }
    struct channel *c = &channels[q][l->desk->e.p];
    if (c->count == 0) {
        say_error("the channel is empty");
        return;
    }
    const struct packet *head = packet_at(c, 0);
    const enum model_number number = receive_packet(l->desk, q, head->bytes, head->length);
    if (number == ACCEPTED) {
        c->head = (c->head + 1) % CHANNEL_ROOM;
        c->count--;
    }
    say_number(number);
}

static void play_bytes(struct line *l)
{
    uint8_t q;
    uint8_t bytes[LONGEST_MESSAGE];
    size_t length;
    if (!read_member(l->fields[2], &q) || !read_bytes(l->fields[3], bytes, &length)) {
        say_error("no member number and bytes");
        return;
    }
    say_number(receive_packet(l->desk, q, bytes, length));
}

static void play_ask(struct line *l)
{
    say_number(model_ask_to_block(&l->desk->e));
}

static void play_declare(struct line *l)
{
    uint8_t declared;
    const enum model_number number = model_declare(&l->desk->e, &declared);
    if (number != ACCEPTED) {
        say_refused(number);
        return;
    }
    printf("0 ");
    put_set(declared);
    putchar('\n');
}

/* Puts the sending into the channels; where one is full the end-point goes back to `before`. */
static void finish_sending(struct desk *d, const struct model_endpoint *before,
                           enum model_number number, const struct model_sending *sending)
{
    struct packet packet;
    if (number != ACCEPTED) {
        say_refused(number);
        return;
    }
    if (!channels_have_room(d->e.p, sending->to)) {
        d->e = *before;
        say_error("a channel is full");
        return;
    }
    if (model_write(&sending->message, packet.bytes, sizeof packet.bytes, &packet.length) != 0) {
        d->e = *before;
        say_error("a step sent a malformed message");
        return;
    }
    send_packet(d->e.p, sending->to, &packet);
    printf("0 to ");
    put_set(sending->to);
    putchar(' ');
    put_packet(&packet);
    putchar('\n');
}

static void play_announce(struct line *l)
{
    const struct model_endpoint before = l->desk->e;
    struct model_sending sending;
    const enum model_number number = model_announce(&l->desk->e, &sending);
    finish_sending(l->desk, &before, number, &sending);
}

static void play_pass(struct line *l)
{
    const struct model_endpoint before = l->desk->e;
    struct model_sending sending;
    const enum model_number number = model_pass_out(&l->desk->e, l->desk->area, AREA, &sending);
    finish_sending(l->desk, &before, number, &sending);
}

static void play_sync(struct line *l)
{
    const struct model_endpoint before = l->desk->e;
    struct model_sending sending;
    const enum model_number number = model_sync(&l->desk->e, &sending);
    finish_sending(l->desk, &before, number, &sending);
}

static void play_forward(struct line *l)
{
    const struct model_endpoint before = l->desk->e;
    struct model_sending sending;
    uint8_t q, r;
    if (!read_member(l->fields[2], &q) || !read_member(l->fields[3], &r)) {
        say_error("no member numbers");
        return;
    }
    const enum model_number number =
        model_forward(&l->desk->e, l->desk->area, AREA, q, r, &sending);
    finish_sending(l->desk, &before, number, &sending);
}

static void play_give(struct line *l)
{
    uint8_t q;
    uint64_t word;
    if (!read_member(l->fields[2], &q)) {
        say_error("no member number");
        return;
    }
    const enum model_number number = model_give_out(&l->desk->e, l->desk->area, AREA, q, &word);
    if (number != ACCEPTED) {
        say_refused(number);
        return;
    }
    printf("0 ");
    put_word(word);
    putchar('\n');
}

static void play_batch(struct line *l)
{
    uint8_t q;
    uint64_t room;
    uint64_t out[WORDS];
    size_t count;
    if (!read_member(l->fields[2], &q) || !read_number(l->fields[3], WORDS, &room)) {
        say_error("no member number and room of at most 128");
        return;
    }
    const enum model_number number =
        model_batch(&l->desk->e, l->desk->area, AREA, q, out, (size_t)room, &count);
    if (number != ACCEPTED) {
        say_refused(number);
        return;
    }
    printf("0 %u", (unsigned)count);
    for (size_t k = 0; k < count; k++) {
        putchar(' ');
        put_word(out[k]);
    }
    putchar('\n');
}

static void play_install(struct line *l)
{
    struct model_installed installed;
    const enum model_number number = model_install(&l->desk->e, &installed);
    if (number != ACCEPTED) {
        say_refused(number);
        return;
    }
    printf("0 ");
    put_view(&installed.view);
    printf(" T ");
    put_set(installed.t);
    putchar('\n');
}

/* What can be looked at. */

static void show_change(const struct model_endpoint *e)
{
    static const char *const states[] = { [FREE] = "free", [ASKED] = "asked", [BLOCKED] = "blocked" };
    printf("  end-point %u\n  current ", e->p);
    put_view(&e->current);
    printf("\n  membership ");
    put_view(&e->membership);
    printf("\n  start %lu ", (unsigned long)e->start_number);
    put_set(e->start_set);
    printf("\n  open %u pending %u block %s\n  declared ", e->open, e->pending, states[e->block]);
    put_set(e->declared);
    printf(" announced %u passed %u\n  given", e->announced, e->passed);
    put_counts(e->given);
    putchar('\n');
}

static void show_senders(const struct model_endpoint *e)
{
    for (unsigned q = 0; q < MEMBERS; q++)
        if (q != e->p) {
            printf("  announced %u ", q);
            put_view(&e->announced_view[q]);
            printf(" received %u\n", e->received[q]);
        }
    for (unsigned q = 0; q < MEMBERS; q++)
        for (unsigned k = 0; k < e->record_count[q]; k++) {
            const struct model_record *record = &e->records[q][k];
            printf("  record %u %lu ", q, (unsigned long)record->number);
            put_view(&record->view);
            printf(" cut");
            put_counts(record->cut);
            putchar('\n');
        }
    for (unsigned q = 0; q < MEMBERS; q++) {
        printf("  forwarded %u", q);
        put_counts(e->forwarded[q]);
        putchar('\n');
    }
}

static void show_slots(const struct desk *d)
{
    for (unsigned s = 0; s < SLOTS; s++)
        if (d->e.slot_used[s]) {
            printf("  slot %u ", s);
            put_view(&d->e.slot_view[s]);
            putchar('\n');
        } else {
            printf("  slot %u free\n", s);
        }
    for (unsigned s = 0; s < SLOTS; s++)
        for (unsigned r = 0; r < MEMBERS; r++)
            for (unsigned i = 1; i <= WORDS; i++)
                if (d->e.slot_used[s] && held(&d->e.marks[s][r], i)) {
                    printf("  word %u %u %u ", s, r, i);
                    put_word(d->area[(s * MEMBERS + r) * WORDS + i - 1]);
                    putchar('\n');
                }
}

static void play_show(struct line *l)
{
    printf("0\n");
    show_change(&l->desk->e);
    show_senders(&l->desk->e);
    show_slots(l->desk);
}

static void play_area(struct line *l)
{
    printf("0\n");
    for (unsigned k = 0; k < AREA; k++)
        if (l->desk->area[k] != 0) {
            printf("  %u ", k);
            put_word(l->desk->area[k]);
            putchar('\n');
        }
}

/* The table of commands: a command's fields include its own name and P. */

struct command {
    const char *name;
    size_t fields;
    void (*play)(struct line *l);
};

static const struct command group_commands[] = {
    { "fresh", 2, play_fresh },
    { "lose", 3, play_lose },
    { "channel", 3, play_channel },
    { NULL, 0, NULL }
};

static const struct command desk_commands[] = {
    { "send", 3, play_send },
    { "block-ok", 2, play_block_ok },
    { "start", 4, play_start },
    { "view", 12, play_view },
    { "receive", 3, play_receive },
    { "bytes", 4, play_bytes },
    { "ask", 2, play_ask },
    { "declare", 2, play_declare },
    { "announce", 2, play_announce },
    { "pass", 2, play_pass },
    { "sync", 2, play_sync },
    { "forward", 4, play_forward },
    { "give", 3, play_give },
    { "batch", 4, play_batch },
    { "install", 2, play_install },
    { "show", 2, play_show },
    { "area", 2, play_area },
    { NULL, 0, NULL }
};

static const struct command *find_command(const struct command *commands, struct field name)
{
    while (commands->name != NULL && !is_text(name, commands->name))
        commands++;
    return commands->name != NULL ? commands : NULL;
}

/* The play. */

static void play_line(struct line *l)
{
    const struct command *command = find_command(group_commands, l->fields[0]);
    uint8_t p = 0;
    if (command == NULL && l->count >= 2 && read_member(l->fields[0], &p)) {
        command = find_command(desk_commands, l->fields[1]);
        l->desk = p < MEMBERS && desks[p].made ? &desks[p] : NULL;
        if (command != NULL && l->desk == NULL) {
            say_error("no such end-point");
            return;
        }
    }
    if (command == NULL)
        say_error("no such command");
    else if (l->count != command->fields)
        say_error("another number of fields");
    else
        command->play(l);
}

static bool is_space(uint8_t c)
{
    return c == ' ' || c == '\t';
}

/* Counts fields beyond the room for them too, so that such a line is refused. */
static void split(const uint8_t *at, size_t length, struct line *l)
{
    size_t k = 0;
    l->count = 0;
    l->desk = NULL;
    while (k < length && at[k] != '#') {
        if (is_space(at[k])) {
            k++;
            continue;
        }
        const size_t from = k;
        while (k < length && at[k] != '#' && !is_space(at[k]))
            k++;
        if (l->count < FIELDS)
            l->fields[l->count] = (struct field){ &at[from], k - from };
        l->count++;
    }
}

static void play(const uint8_t *script, size_t length)
{
    unsigned long number = 0;
    size_t from = 0;
    while (from < length) {
        const uint8_t *end = memchr(&script[from], '\n', length - from);
        const size_t past = end != NULL ? (size_t)(end - script) : length;
        size_t until = past;
        if (end != NULL && until > from && script[until - 1] == '\r')
            until--;
        struct line l;
        split(&script[from], until - from, &l);
        number++;
        if (l.count > 0) {
            printf("%lu: ", number);
            play_line(&l);
        }
        from = past + 1;
    }
}

int main(void)
{
    static uint8_t script[SCRIPT_ROOM + 1];  /* one more tells that a script is too long */
    const size_t length = fread(script, 1, sizeof script, stdin);
    if (length > SCRIPT_ROOM)
        say_error("the script is too long");
    else
        play(script, length);
    return fflush(stdout) == 0 && !ferror(stdin) ? 0 : 1;
}
