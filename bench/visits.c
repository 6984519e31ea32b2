/* What `desk serve` does at a visit that asks which accessions there are, for the files of one, or for the bytes of
 * a file, with the same tests and the same reply bytes, as a plain C program over SQLite's library: the bench measures
 * desk against it. It asks for one row of the tables after another, as desk does: the audience of the key, the
 * accession and, where it is a 1541 disk, whether it has error bytes, its takedowns and the rules of its deed, the rows
 * of the index, and the whole row of an image of which a file is served, with its error bytes. Statements are prepared
 * once, the cache is SQLite's default, and the store stays locked as desk's is.
 *
 *     visits STORE PORT COUNT
 *
 * It prints `listening 127.0.0.1:PORT`, serves COUNT visits one after the other, and prints `served COUNT`. Its clocks
 * are those of UTC.
 */
#define _GNU_SOURCE
#include <arpa/inet.h>
#include <netinet/in.h>
#include <signal.h>
#include <sqlite3.h>
#include <stdint.h>
#include <stdio.h>
#include <stdlib.h>
#include <string.h>
#include <strings.h>
#include <sys/socket.h>
#include <sys/uio.h>
#include <time.h>
#include <unistd.h>

#include "head.h"
#include "sha256.h"

enum { DONE = 0, DEVICE = 3 };
enum { PUBLIC = 1, ROOM = 2, STAFF = 4 };
enum { DENY, LIST, READ };
enum { ALL, SLOT, PREFIX, USER, TYPE };
enum { CPM8, D64, D64E };
enum { CPM8_SIZE = 256256, D64_SIZE = 174848, MARKS = 683 };

static _Noreturn void fail(const char *why)
{
    fprintf(stderr, "visits: %s\n", why);
    exit(DEVICE);
}

/* ---- texts ---- */

struct text { char *bytes; size_t len, room; };

static struct text body;

static void put(const void *bytes, size_t count)
{
    if (body.len + count > body.room) {
        body.room = 2 * (body.len + count) + 4096;
        body.bytes = realloc(body.bytes, body.room);
        if (!body.bytes)
            fail("no-memory");
    }
    memcpy(body.bytes + body.len, bytes, count);
    body.len += count;
}

static void put_text(const char *text) { put(text, strlen(text)); }

static void put_number(unsigned long number)
{
    char digits[24], *at = digits + sizeof digits;
    do
        *--at = '0' + number % 10;
    while (number /= 10);
    put(at, digits + sizeof digits - at);
}

/* A text of printable ASCII as JSON has it. */
static void put_string(const char *text, size_t count)
{
    size_t from = 0;
    put_text("\"");
    for (size_t i = 0; i < count; i++)
        if (text[i] == '"' || text[i] == '\\') {
            put(text + from, i - from);
            put_text("\\");
            from = i;
        }
    put(text + from, count - from);
    put_text("\"");
}

/* ---- tables ---- */

static sqlite3 *store;
static sqlite3_stmt *badge, *accession, *accessions, *has_marks, *marked, *rules_of, *files_of, *file_at, *image_of,
    *marks_of;

static sqlite3_stmt *prepared(const char *sql)
{
    sqlite3_stmt *made;
    if (sqlite3_prepare_v3(store, sql, -1, SQLITE_PREPARE_PERSISTENT, &made, NULL) != SQLITE_OK)
        fail(sqlite3_errmsg(store));
    return made;
}

#define FILE_COLUMNS "SELECT slot, name, ty, user_no, served, size, faults, units, last_len FROM found WHERE acc = ?1 "

static void open_store(const char *path)
{
    if (sqlite3_open_v2(path, &store, SQLITE_OPEN_READWRITE, NULL) != SQLITE_OK ||
        sqlite3_exec(store, "PRAGMA locking_mode = EXCLUSIVE", NULL, NULL, NULL) != SQLITE_OK)
        fail(sqlite3_errmsg(store));
    badge = prepared("SELECT audience FROM badge WHERE digest = ?1");
    accession = prepared("SELECT acc, kind, deed FROM image WHERE acc = ?1");
    accessions = prepared("SELECT acc, kind, deed FROM image ORDER BY acc");
    has_marks = prepared("SELECT 1 FROM marks WHERE acc = ?1");
    marked = prepared("SELECT acc FROM marks ORDER BY acc");
    rules_of = prepared("SELECT rank, audiences, day_from, day_until, how, number, word, effect FROM rule"
                        " WHERE band = ?1 AND scope = ?2 ORDER BY rank");
    files_of = prepared(FILE_COLUMNS "ORDER BY slot");
    file_at = prepared(FILE_COLUMNS "AND slot = ?2");
    image_of = prepared("SELECT kind, deed, digest, bytes FROM image WHERE acc = ?1");
    marks_of = prepared("SELECT bytes FROM marks WHERE acc = ?1");
}

/* Whether a statement has another row. */
static int steps(sqlite3_stmt *asked)
{
    switch (sqlite3_step(asked)) {
    case SQLITE_ROW:
        return 1;
    case SQLITE_DONE:
        return 0;
    default:
        fail(sqlite3_errmsg(store));
    }
}

/* ---- accessions, rules and files ---- */

struct held { int acc, kind, deed; };

struct rule {
    int takedown, scope, rank, audiences, has_from, from, has_until, until, how, number, effect;
    char word[65];
    int word_len;
};

static struct { struct rule *all; int count, room; } rules;

/* The accessions that have error bytes, ascending. */
static struct { int *all; int count, room; } marked_ones;

struct file {
    int slot, has_user, user, served, has_size, size, faults, last_len;
    const char *name, *type;
    const uint8_t *units;
    int name_len, type_len, units_len;
};

/* What a row shows of an accession, as if it had no error bytes. */
static struct held held_in(sqlite3_stmt *row)
{
    struct held held = {sqlite3_column_int(row, 0), sqlite3_column_int(row, 1), sqlite3_column_int(row, 2)};
    if (held.kind < CPM8 || held.kind > D64)
        fail("a kind that is none");
    return held;
}

/* Whether an accession has error bytes. */
static int is_marked(int acc)
{
    int found;
    sqlite3_bind_int(has_marks, 1, acc);
    found = steps(has_marks);
    sqlite3_reset(has_marks);
    return found;
}

/* Whether an accession stands, and what is held of it. */
static int find_accession(int acc, struct held *held)
{
    int stands;
    sqlite3_bind_int(accession, 1, acc);
    stands = steps(accession);
    if (stands)
        *held = held_in(accession);
    sqlite3_reset(accession);
    if (stands && held->kind == D64 && is_marked(acc))
        held->kind = D64E;
    return stands;
}

static void add_marked(int acc)
{
    if (marked_ones.count == marked_ones.room) {
        marked_ones.room = 2 * marked_ones.room + 16;
        marked_ones.all = realloc(marked_ones.all, marked_ones.room * sizeof *marked_ones.all);
        if (!marked_ones.all)
            fail("no-memory");
    }
    if (marked_ones.count && acc <= marked_ones.all[marked_ones.count - 1])
        fail("error bytes out of order");
    marked_ones.all[marked_ones.count++] = acc;
}

static void read_marked(void)
{
    marked_ones.count = 0;
    while (steps(marked))
        add_marked(sqlite3_column_int(marked, 0));
    sqlite3_reset(marked);
}

static int compared(const void *one, const void *other)
{
    int a = *(const int *)one, b = *(const int *)other;
    return (a > b) - (a < b);
}

/* What a row shows of an accession, with error bytes where it is among those that have them. */
static struct held registered_in(sqlite3_stmt *row)
{
    struct held held = held_in(row);
    if (marked_ones.count && bsearch(&held.acc, marked_ones.all, marked_ones.count, sizeof held.acc, compared))
        held.kind = D64E;
    return held;
}

static void read_rule(struct rule *rule, int takedown, int scope)
{
    rule->takedown = takedown;
    rule->scope = scope;
    rule->rank = sqlite3_column_int(rules_of, 0);
    rule->audiences = sqlite3_column_int(rules_of, 1);
    rule->has_from = sqlite3_column_type(rules_of, 2) != SQLITE_NULL;
    rule->from = sqlite3_column_int(rules_of, 2);
    rule->has_until = sqlite3_column_type(rules_of, 3) != SQLITE_NULL;
    rule->until = sqlite3_column_int(rules_of, 3);
    rule->how = sqlite3_column_int(rules_of, 4);
    rule->number = sqlite3_column_int(rules_of, 5);
    rule->word_len = sqlite3_column_bytes(rules_of, 6);
    if (rule->word_len >= (int)sizeof rule->word)
        fail("a word that is too long");
    memcpy(rule->word, sqlite3_column_text(rules_of, 6), rule->word_len);
    rule->effect = sqlite3_column_int(rules_of, 7);
}

static void add_rules(int takedown, int scope)
{
    sqlite3_bind_int(rules_of, 1, takedown ? 0 : 1);
    sqlite3_bind_int(rules_of, 2, scope);
    while (steps(rules_of)) {
        if (rules.count == rules.room) {
            rules.room = 2 * rules.room + 16;
            rules.all = realloc(rules.all, rules.room * sizeof *rules.all);
            if (!rules.all)
                fail("no-memory");
        }
        read_rule(rules.all + rules.count++, takedown, scope);
    }
    sqlite3_reset(rules_of);
}

/* The takedowns of an accession and then the rules of its deed, whose ranks have to rise. */
static void read_rules(const struct held *held)
{
    rules.count = 0;
    add_rules(1, held->acc);
    add_rules(0, held->deed);
    for (int i = 1; i < rules.count; i++)
        if (rules.all[i].takedown == rules.all[i - 1].takedown && rules.all[i].rank <= rules.all[i - 1].rank)
            fail("rules out of order");
}

/* The file that a row of the index shows. Its texts and units stand until the next step. */
static struct file file_in(sqlite3_stmt *row)
{
    struct file file;
    file.slot = sqlite3_column_int(row, 0);
    file.name = (const char *)sqlite3_column_text(row, 1);
    file.name_len = sqlite3_column_bytes(row, 1);
    file.type = (const char *)sqlite3_column_text(row, 2);
    file.type_len = sqlite3_column_bytes(row, 2);
    file.has_user = sqlite3_column_type(row, 3) != SQLITE_NULL;
    file.user = sqlite3_column_int(row, 3);
    file.served = sqlite3_column_int(row, 4);
    file.has_size = sqlite3_column_type(row, 5) != SQLITE_NULL;
    file.size = sqlite3_column_int(row, 5);
    file.faults = sqlite3_column_int(row, 6);
    file.units = sqlite3_column_blob(row, 7);
    file.units_len = sqlite3_column_bytes(row, 7) / 2;
    file.last_len = sqlite3_column_int(row, 8);
    if (file.slot < 0 || file.slot > 65535 || file.faults < 0 || file.faults > 255)
        fail("a file out of range");
    return file;
}

static int selects(const struct rule *rule, const struct file *file)
{
    switch (rule->how) {
    case ALL:
        return 1;
    case SLOT:
        return file->slot == rule->number;
    case PREFIX:
        return file->name_len >= rule->word_len && !memcmp(file->name, rule->word, rule->word_len);
    case USER:
        return file->has_user && file->user == rule->number;
    default:
        return file->type_len == rule->word_len && !memcmp(file->type, rule->word, rule->word_len);
    }
}

/* The rule that decides on a file, NULL where none matches. */
static const struct rule *decide(int audience, int day, const struct file *file)
{
    for (int i = 0; i < rules.count; i++) {
        const struct rule *rule = rules.all + i;
        if ((rule->audiences & audience) && (!rule->has_from || rule->from <= day) &&
            (!rule->has_until || day < rule->until) && selects(rule, file))
            return rule;
    }
    return NULL;
}

static int effect_of(const struct rule *rule) { return rule ? rule->effect : DENY; }

static void put_label(const struct rule *rule)
{
    if (!rule) {
        put_text("D0");
        return;
    }
    put_text(rule->takedown ? "T" : "R");
    put_number(rule->scope);
    put_text(".");
    put_number(rule->rank);
}

/* ---- replies ---- */

struct reply { int status; const char *type, *extra; };

static const struct reply json_reply = {200, "application/json", ""};

static struct reply refusal(int status, const char *name)
{
    put_text("{\"error\":\"");
    put_text(name);
    put_text("\"}");
    return (struct reply){status, "application/json", ""};
}

static struct reply ruled(int status, const char *name, const char *rule)
{
    put_text("{\"error\":\"");
    put_text(name);
    put_text("\",\"rule\":\"");
    put_text(rule);
    put_text("\"}");
    return (struct reply){status, "application/json", status == 401 ? "WWW-Authenticate: Desk-Key\r\n" : ""};
}

static struct reply denied(const struct rule *rule)
{
    put_text("{\"error\":\"denied\",\"rule\":\"");
    put_label(rule);
    put_text("\"}");
    return (struct reply){403, "application/json", ""};
}

static void put_faults(int kind, int faults)
{
    static const char *const words[2][8] = {
        {"bad-count", "duplicate", "gap", "short", "hole", "off-disk", "crossed"},
        {"not-closed", "off-disk", "loop", "crossed", "read-error"}};
    int count = 0;
    put_text("[");
    for (int bit = 0; bit < 8; bit++)
        if (faults >> bit & 1 && words[kind != CPM8][bit]) {
            put_text(count++ ? ",\"" : "\"");
            put_text(words[kind != CPM8][bit]);
            put_text("\"");
        }
    put_text("]");
}

static void put_optional(const char *before, int is_there, int number)
{
    put_text(before);
    if (is_there)
        put_number(number);
    else
        put_text("null");
}

/* A file that is listed, as a listing tells it. */
static void put_file(int kind, const struct file *file, const struct rule *rule)
{
    put_text(rule->effect == READ ? "{\"effect\":\"read\",\"faults\":" : "{\"effect\":\"list\",\"faults\":");
    put_faults(kind, file->faults);
    put_text(",\"name\":");
    put_string(file->name, file->name_len);
    put_text(",\"rule\":\"");
    put_label(rule);
    put_optional("\",\"size\":", file->has_size, file->size);
    put_text(",\"slot\":");
    put_number(file->slot);
    put_text(",\"type\":");
    put_string(file->type, file->type_len);
    put_optional(",\"user\":", file->has_user, file->user);
    put_text("}");
}

static const char *kind_word(int kind)
{
    static const char *const words[] = {"cpm8", "d64", "d64e"};
    return words[kind];
}

static void put_accession(const struct held *held)
{
    put_text("{\"accession\":");
    put_number(held->acc);
    put_text(",\"deed\":");
    put_number(held->deed);
    put_text(",\"files\":");
}

static void put_kind(const struct held *held)
{
    put_text(",\"kind\":\"");
    put_text(kind_word(held->kind));
    put_text("\"}");
}

/* ---- the contents of files ---- */

/* Where a unit's contents begin in an image. */
static size_t place_of(int kind, unsigned unit)
{
    static const uint8_t skew[26] = {0, 6, 12, 18, 24, 4, 10, 16, 22, 2, 8, 14, 20,
                                     1, 7, 13, 19, 25, 5, 11, 17, 23, 3, 9, 15, 21};
    return kind != CPM8 ? 256 * (size_t)unit + 2 : 128 * (26 * (2 + (size_t)unit / 26) + skew[unit % 26]);
}

static void put_contents(int kind, const uint8_t *bytes, const struct file *file)
{
    unsigned units = kind != CPM8 ? 683 : 1950;
    int full = kind != CPM8 ? 254 : 128;
    if (file->last_len < 0 || file->last_len > full)
        fail("a file that is not in its image");
    for (int i = 0; i < file->units_len; i++) {
        unsigned unit = file->units[2 * i] << 8 | file->units[2 * i + 1];
        if (unit >= units)
            fail("a file that is not in its image");
        put(bytes + place_of(kind, unit), i + 1 < file->units_len ? full : file->last_len);
    }
}

/* Reads the error bytes of an image that has them. */
static void read_marks(const struct held *held)
{
    sqlite3_bind_int(marks_of, 1, held->acc);
    if (steps(marks_of) != (held->kind == D64E) ||
        (held->kind == D64E && (!sqlite3_column_blob(marks_of, 0) || sqlite3_column_bytes(marks_of, 0) != MARKS)))
        fail("error bytes that are none");
    sqlite3_reset(marks_of);
}

static struct reply contents(const struct held *held, const struct file *file)
{
    int size = held->kind != CPM8 ? D64_SIZE : CPM8_SIZE;
    if (held->kind != CPM8)
        read_marks(held);
    sqlite3_bind_int(image_of, 1, held->acc);
    if (!steps(image_of) || sqlite3_column_bytes(image_of, 3) != size || sqlite3_column_bytes(image_of, 2) != 32)
        fail("an image that is none");
    put_contents(held->kind, sqlite3_column_blob(image_of, 3), file);
    sqlite3_reset(image_of);
    return (struct reply){200, "application/octet-stream", ""};
}

/* ---- questions ---- */

static struct reply served(const struct held *held, int audience, int day, const struct file *file)
{
    const struct rule *rule = decide(audience, day, file);
    if (effect_of(rule) != READ)
        return denied(rule);
    if (!file->served)
        return refusal(422, "listed-only");
    if (file->faults) {
        put_text("{\"error\":\"faulty\",\"faults\":");
        put_faults(held->kind, file->faults);
        put_text("}");
        return (struct reply){422, "application/json", ""};
    }
    return contents(held, file);
}

static struct reply answer_bytes(int audience, int day, int acc, int slot)
{
    struct held held;
    struct reply reply;
    if (!find_accession(acc, &held))
        return refusal(404, "no-accession");
    read_rules(&held);
    sqlite3_bind_int(file_at, 1, acc);
    sqlite3_bind_int(file_at, 2, slot);
    if (steps(file_at)) {
        struct file file = file_in(file_at);
        reply = served(&held, audience, day, &file);
    } else
        reply = refusal(404, "no-file");
    sqlite3_reset(file_at);
    return reply;
}

static struct reply answer_listing(int audience, int day, int acc)
{
    struct held held;
    int count = 0;
    if (!find_accession(acc, &held))
        return refusal(404, "no-accession");
    read_rules(&held);
    put_accession(&held);
    put_text("[");
    sqlite3_bind_int(files_of, 1, acc);
    while (steps(files_of)) {
        struct file file = file_in(files_of);
        const struct rule *rule = decide(audience, day, &file);
        if (effect_of(rule) == DENY)
            continue;
        put_text(count++ ? "," : "");
        put_file(held.kind, &file, rule);
    }
    sqlite3_reset(files_of);
    put_text("]");
    put_kind(&held);
    return json_reply;
}

/* How many files of an accession are listed. */
static int count_listed(const struct held *held, int audience, int day)
{
    int count = 0;
    read_rules(held);
    sqlite3_bind_int(files_of, 1, held->acc);
    while (steps(files_of)) {
        struct file file = file_in(files_of);
        count += effect_of(decide(audience, day, &file)) != DENY;
    }
    sqlite3_reset(files_of);
    return count;
}

static struct reply answer_images(int audience, int day)
{
    int told = 0;
    put_text("{\"images\":[");
    read_marked();
    while (steps(accessions)) {
        struct held held = registered_in(accessions);
        int files = count_listed(&held, audience, day);
        if (!files)
            continue;
        put_text(told++ ? "," : "");
        put_accession(&held);
        put_number(files);
        put_kind(&held);
    }
    sqlite3_reset(accessions);
    put_text("]}");
    return json_reply;
}

/* ---- requests ---- */

enum { IMAGES, LISTING, BYTES, NO_ROUTE };

/* The next part of a path, and what follows it. */
static struct span next_part(struct span *path)
{
    const char *slash = memchr(path->at, '/', path->len);
    struct span part = {path->at, slash ? (size_t)(slash - path->at) : path->len};
    path->at += part.len;
    path->len -= part.len;
    return part;
}

static int begins(struct span *path, const char *text)
{
    size_t count = strlen(text);
    if (path->len < count || memcmp(path->at, text, count))
        return 0;
    path->at += count;
    path->len -= count;
    return 1;
}

static int slot_in(struct span part)
{
    return part.len == 1 && *part.at == '0' ? 0 : (int)number_in(part, 4, 0);
}

static int route_of(struct span path, int *acc, int *slot)
{
    const char *query = memchr(path.at, '?', path.len);
    if (query)
        path.len = query - path.at;
    if (!begins(&path, "/images"))
        return NO_ROUTE;
    if (!path.len)
        return IMAGES;
    if (!begins(&path, "/") || (*acc = (int)number_in(next_part(&path), 6, 0)) < 0)
        return NO_ROUTE;
    if (!path.len)
        return LISTING;
    if (!begins(&path, "/files/") || (*slot = slot_in(next_part(&path))) < 0 || path.len)
        return NO_ROUTE;
    return BYTES;
}

/* The audience of a key, 0 where it is unknown. */
static int audience_of(struct span key)
{
    uint8_t digest[32];
    int audience = 0;
    sha256((const uint8_t *)key.at, key.len, digest);
    sqlite3_bind_blob(badge, 1, digest, sizeof digest, SQLITE_STATIC);
    if (steps(badge))
        audience = sqlite3_column_int(badge, 0) == 2 ? STAFF : ROOM;
    sqlite3_reset(badge);
    return audience;
}

static int day_now(time_t moment)
{
    long day = moment / 86400;
    return day < -719162 || day > 2932896 ? (fail("clock"), 0) : (int)day;
}

static struct reply answer(const struct head *head, int day)
{
    struct span key;
    int acc = 0, slot = 0, audience = PUBLIC;
    int keys = fields_named(head, "Desk-Key", &key);
    int route = route_of(head->target, &acc, &slot);
    if (keys > 1)
        return refusal(400, "framing");
    if (route == NO_ROUTE)
        return refusal(404, "no-route");
    if (head->method.len != 3 || memcmp(head->method.at, "GET", 3)) {
        struct reply reply = refusal(405, "method");
        reply.extra = "Allow: GET\r\n";
        return reply;
    }
    if (keys && !(audience = audience_of(key)))
        return ruled(401, "unknown-key", "K0");
    if (route == IMAGES)
        return answer_images(audience, day);
    return route == LISTING ? answer_listing(audience, day, acc) : answer_bytes(audience, day, acc, slot);
}

/* ---- visits ---- */

/* Reads a head: WHOLE with what came in all, or BAD. A read that fails ends the program. */
static int read_head(int visitor, struct head *head, char *bytes, size_t *came)
{
    *came = 0;
    while (*came < HEAD_SIZE) {
        ssize_t count = read(visitor, bytes + *came, HEAD_SIZE - *came);
        int read;
        if (count < 0)
            fail("a read that fails");
        if (!count)
            return BAD;
        *came += count;
        read = parse_head(head, bytes, *came);
        if (read != PARTIAL)
            return read;
    }
    return BAD;
}

/* Reads a body and drops it: whether it was there. */
static int skip_body(int visitor, size_t rest)
{
    static char dropped[65536];
    while (rest) {
        ssize_t count = read(visitor, dropped, rest < sizeof dropped ? rest : sizeof dropped);
        if (count < 0)
            fail("a read that fails");
        if (!count)
            return 0;
        rest -= count;
    }
    return 1;
}

static struct reply reply_to(int visitor, int day)
{
    static char bytes[HEAD_SIZE];
    struct head head;
    size_t came;
    long length;
    if (read_head(visitor, &head, bytes, &came) != WHOLE)
        return refusal(400, "bad-head");
    length = body_length(&head);
    if (length < 0 || (head.len + length > came && !skip_body(visitor, head.len + length - came)))
        return refusal(400, "framing");
    return answer(&head, day);
}

static const char *phrase_of(int status)
{
    switch (status) {
    case 200:
        return "OK";
    case 400:
        return "Bad Request";
    case 401:
        return "Unauthorized";
    case 403:
        return "Forbidden";
    case 404:
        return "Not Found";
    case 405:
        return "Method Not Allowed";
    default:
        return "Unprocessable Content";
    }
}

/* Writes the head of a reply and the body. A visitor who has gone ends their own visit alone. */
static void send_reply(int visitor, struct reply reply)
{
    char head[256];
    int head_len = snprintf(head, sizeof head,
                            "HTTP/1.1 %d %s\r\nContent-Type: %s\r\nContent-Length: %zu\r\nConnection: close\r\n%s\r\n",
                            reply.status, phrase_of(reply.status), reply.type, body.len, reply.extra);
    struct iovec parts[2] = {{head, head_len}, {body.bytes, body.len}};
    struct iovec *rest = parts;
    while (rest < parts + 2) {
        ssize_t count = writev(visitor, rest, parts + 2 - rest);
        if (count <= 0)
            return;
        while (rest < parts + 2 && (size_t)count >= rest->iov_len)
            count -= rest++->iov_len;
        if (rest < parts + 2) {
            rest->iov_base = (char *)rest->iov_base + count;
            rest->iov_len -= count;
        }
    }
}

static int listener_at(int port)
{
    struct sockaddr_in here = {.sin_family = AF_INET, .sin_port = htons(port)};
    int listener = socket(AF_INET, SOCK_STREAM | SOCK_CLOEXEC, 0);
    here.sin_addr.s_addr = htonl(INADDR_LOOPBACK);
    if (listener < 0 || bind(listener, (struct sockaddr *)&here, sizeof here) || listen(listener, 128))
        fail("a port that is taken");
    return listener;
}

int main(int argc, char **argv)
{
    long count;
    int listener;
    if (argc != 4)
        return 2;
    signal(SIGPIPE, SIG_IGN);
    open_store(argv[1]);
    listener = listener_at(atoi(argv[2]));
    count = atol(argv[3]);
    printf("listening 127.0.0.1:%d\n", atoi(argv[2]));
    fflush(stdout);
    for (long i = 0; i < count; i++) {
        int visitor = accept4(listener, NULL, NULL, SOCK_CLOEXEC);
        if (visitor < 0)
            fail("a visitor who cannot be admitted");
        body.len = 0;
        send_reply(visitor, reply_to(visitor, day_now(time(NULL))));
        close(visitor);
    }
    printf("served %ld\n", count);
    return DONE;
}
