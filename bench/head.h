/* The head of a request, read as RFC 9112 has it: version 1.0 or 1.1, at most 64 fields in at most 8,192 bytes. */
#ifndef HEAD_H
#define HEAD_H

#include <string.h>
#include <strings.h>

enum { HEAD_SIZE = 8192, MOST_FIELDS = 64, LONGEST_BODY = 262144 };

struct span { const char *at; size_t len; };

struct head {
    struct span method, target, names[MOST_FIELDS], values[MOST_FIELDS];
    int fields;
    size_t len;
};

enum { WHOLE, PARTIAL, BAD };

static int is_token(unsigned char c)
{
    return (c >= '0' && c <= '9') || (c >= 'A' && c <= 'Z') || (c >= 'a' && c <= 'z') ||
           (c && strchr("!#$%&'*+-.^_`|~", c));
}

static int is_target(unsigned char c) { return c > ' ' && c != 0x7f; }

static int is_value(unsigned char c) { return c == '\t' || (c >= ' ' && c != 0x7f); }

/* The bytes from a place on for which a test holds. */
static struct span run_of(const char *at, const char *end, int (*test)(unsigned char))
{
    struct span run = {at, 0};
    while (at + run.len < end && test(at[run.len]))
        run.len++;
    return run;
}

/* Goes past the end of a line. */
static int end_line(const char **at, const char *end)
{
    if (*at < end && **at == '\r')
        ++*at;
    if (*at == end)
        return PARTIAL;
    return *(*at)++ == '\n' ? WHOLE : BAD;
}

static int read_first_line(struct head *head, const char **at, const char *end)
{
    head->method = run_of(*at, end, is_token);
    *at += head->method.len;
    if (*at == end)
        return PARTIAL;
    if (!head->method.len || *(*at)++ != ' ')
        return BAD;
    head->target = run_of(*at, end, is_target);
    *at += head->target.len;
    if (*at == end)
        return PARTIAL;
    if (!head->target.len || *(*at)++ != ' ')
        return BAD;
    if (end - *at < 9)
        return PARTIAL;
    if (memcmp(*at, "HTTP/1.", 7) || ((*at)[7] != '0' && (*at)[7] != '1'))
        return BAD;
    *at += 8;
    return end_line(at, end);
}

static int read_field(struct head *head, const char **at, const char *end)
{
    struct span name = run_of(*at, end, is_token), value;
    *at += name.len;
    if (*at == end)
        return PARTIAL;
    if (!name.len || *(*at)++ != ':' || head->fields == MOST_FIELDS)
        return BAD;
    value = run_of(*at, end, is_value);
    *at += value.len;
    while (value.len && (*value.at == ' ' || *value.at == '\t'))
        value.at++, value.len--;
    while (value.len && (value.at[value.len - 1] == ' ' || value.at[value.len - 1] == '\t'))
        value.len--;
    head->names[head->fields] = name;
    head->values[head->fields++] = value;
    return *at == end ? PARTIAL : end_line(at, end);
}

static int parse_head(struct head *head, const char *bytes, size_t count)
{
    const char *at = bytes, *end = bytes + count;
    int read = read_first_line(head, &at, end);
    head->fields = 0;
    while (read == WHOLE) {
        if (at == end)
            return PARTIAL;
        if (*at == '\r' || *at == '\n') {
            read = end_line(&at, end);
            head->len = at - bytes;
            return read;
        }
        read = read_field(head, &at, end);
    }
    return read;
}

/* How often a field stands in a head; the value is that of the first. */
static int fields_named(const struct head *head, const char *name, struct span *value)
{
    int count = 0;
    for (int i = head->fields; i--;)
        if (head->names[i].len == strlen(name) && !strncasecmp(head->names[i].at, name, strlen(name))) {
            *value = head->values[i];
            count++;
        }
    return count;
}

/* A number of at most so many decimal digits, -1 where the text is anything else. */
static long number_in(struct span text, size_t most, int leading_zeros)
{
    long number = 0;
    if (!text.len || text.len > most || (*text.at == '0' && !leading_zeros))
        return -1;
    for (size_t i = 0; i < text.len; i++) {
        if (text.at[i] < '0' || text.at[i] > '9')
            return -1;
        number = 10 * number + text.at[i] - '0';
    }
    return number;
}

/* How long the body is, -1 where the fields do not tell it. */
static long body_length(const struct head *head)
{
    struct span value;
    long length = 0;
    int told = fields_named(head, "Content-Length", &value);
    if (told == 1)
        length = number_in(value, 18, 1);
    if (told > 1 || length > LONGEST_BODY || fields_named(head, "Transfer-Encoding", &value))
        return -1;
    return length;
}

#endif
