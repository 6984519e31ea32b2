/* What `desk cat` and `desk list` do, with the same checks, as a plain C program: the bench measures
 * desk against it. One loop reads, one call writes.
 *
 *     reference cat KIND IMAGE SLOT        reference list KIND IMAGE
 */
#include <fcntl.h>
#include <stdint.h>
#include <stdio.h>
#include <stdlib.h>
#include <string.h>
#include <unistd.h>

enum { CPM_SIZE = 256256, CBM_SIZE = 174848, BLOCKS = 683, MAX_SLOTS = 8 * BLOCKS };
enum { DONE = 0, REFUSED = 1, USAGE = 2, DEVICE = 3 };

static uint8_t image[CPM_SIZE + 1];
static char *out;
static size_t out_len, out_room;

static void put(const void *bytes, size_t count)
{
    if (out_len + count > out_room) {
        out_room = (out_len + count) * 2 + 4096;
        out = realloc(out, out_room);
        if (!out)
            exit(DEVICE);
    }
    memcpy(out + out_len, bytes, count);
    out_len += count;
}

static void put_text(const char *text) { put(text, strlen(text)); }

static void put_number(unsigned long number)
{
    char digits[24];
    put(digits, snprintf(digits, sizeof digits, "%lu", number));
}

static int flush_out(void)
{
    size_t done = 0;
    while (done < out_len) {
        ssize_t n = write(1, out + done, out_len - done);
        if (n <= 0) {
            fputs("desk: device\n", stderr);
            return DEVICE;
        }
        done += n;
    }
    return DONE;
}

static int refuse(const char *why)
{
    fprintf(stderr, "desk: %s\n", why);
    return REFUSED;
}

/* Reads at most one byte more than an image has: 0, or a status. */
static int read_image(const char *path, size_t size)
{
    int fd = strcmp(path, "-") ? open(path, O_RDONLY) : 0;
    size_t have = 0;
    if (fd < 0) {
        fputs("desk: device\n", stderr);
        return DEVICE;
    }
    while (have < size + 1) {
        ssize_t n = read(fd, image + have, size + 1 - have);
        if (n < 0) {
            fputs("desk: device\n", stderr);
            return DEVICE;
        }
        if (n == 0)
            break;
        have += n;
    }
    return have == size ? DONE : refuse("wrong-size");
}

static void put_part(const uint8_t *name, int length, uint8_t pad, int mask, int dot)
{
    while (length && (name[length - 1] & mask) == pad)
        length--;
    for (int i = 0; i < length; i++) {
        uint8_t c = name[i] & mask;
        char hex[4];
        if (c < 0x20 || c > 0x7e || c == '%' || (dot && c == '.'))
            put(hex, snprintf(hex, sizeof hex, "%%%02X", c));
        else
            put(&c, 1);
    }
}

static void words_of(int faults, const char *const *words, int count, char *text)
{
    *text = 0;
    for (int i = 0; i < count; i++)
        if (faults >> i & 1) {
            if (*text)
                strcat(text, " ");
            strcat(text, words[i]);
        }
}

/* ---- CP/M ---- */

static const uint8_t skew[26] = {0, 6, 12, 18, 24, 4, 10, 16, 22, 2, 8, 14, 20,
                                 1, 7, 13, 19, 25, 5, 11, 17, 23, 3, 9, 15, 21};
static const char *const cpm_words[] = {"bad-count", "duplicate", "gap", "short", "hole", "off-disk", "crossed"};
static const uint8_t *slots[64];
static uint8_t owner[64], claimed[256];

static const uint8_t *sector(int n) { return image + 128 * (26 * (2 + n / 26) + skew[n % 26]); }

static int extent(const uint8_t *e) { return 32 * (e[14] & 63) + (e[12] & 31); }

static int same_file(const uint8_t *a, const uint8_t *b)
{
    if (a[0] != b[0])
        return 0;
    for (int i = 1; i < 12; i++)
        if ((a[i] & 127) != (b[i] & 127))
            return 0;
    return 1;
}

static void read_directory(void)
{
    for (int k = 0; k < 64; k++) {
        slots[k] = sector(k / 4) + 32 * (k % 4);
        owner[k] = 255;
        if (slots[k][0] > 15)
            continue;
        owner[k] = k;
        for (int j = 0; j < k; j++)
            if (owner[j] == j && same_file(slots[j], slots[k])) {
                owner[k] = j;
                break;
            }
        for (int i = 16; i < 32; i++)
            if (claimed[slots[k][i]] < 2)
                claimed[slots[k][i]]++;
    }
}

static int cpm_faults(int file)
{
    static uint8_t seen[2048];
    int faults = 0, highest = 0;
    memset(seen, 0, sizeof seen);
    for (int k = file; k < 64; k++) {
        const uint8_t *e = slots[k];
        if (owner[k] != file)
            continue;
        if (e[15] > 128)
            faults |= 1;
        if (seen[extent(e)]++)
            faults |= 2;
        if (extent(e) > highest)
            highest = extent(e);
        for (int i = 0; i < 16; i++) {
            if (!e[16 + i] && i < (e[15] + 7) / 8)
                faults |= 16;
            if (e[16 + i] > 242)
                faults |= 32;
            if (e[16 + i] == 1 || (e[16 + i] && claimed[e[16 + i]] > 1))
                faults |= 64;
        }
    }
    for (int k = file; k < 64; k++) {
        const uint8_t *e = slots[k];
        if (owner[k] != file)
            continue;
        if (extent(e) && !seen[extent(e) - 1])
            faults |= 4;
        if (e[15] < 128 && extent(e) < highest)
            faults |= 8;
    }
    return faults;
}

static unsigned long cpm_size(int file)
{
    unsigned long records = 0;
    for (int k = file; k < 64; k++)
        if (owner[k] == file)
            records += slots[k][15];
    return 128 * records;
}

static int cpm_cat(int slot)
{
    char text[128] = "faulty ";
    int faults;
    if (slot > 63 || owner[slot] != slot)
        return refuse("no-file");
    faults = cpm_faults(slot);
    if (faults) {
        words_of(faults, cpm_words, 7, text + 7);
        return refuse(text);
    }
    for (int number = 0, more = 1; more; number++) {
        more = 0;
        for (int k = slot; k < 64; k++)
            if (owner[k] == slot && extent(slots[k]) == number) {
                for (int r = 0; r < slots[k][15]; r++)
                    put(sector(8 * slots[k][16 + r / 8] + r % 8), 128);
                more = 1;
            }
    }
    return flush_out();
}

static int cpm_list(void)
{
    int count = 0;
    for (int k = 0; k < 64; k++) {
        char words[128];
        int faults;
        if (owner[k] != k)
            continue;
        faults = cpm_faults(k);
        words_of(faults, cpm_words, 7, words);
        put_number(k);
        put_text("\t");
        put_number(slots[k][0]);
        put_text("\t");
        put_part(slots[k] + 9, 3, ' ', 127, 1);
        put_text("\t");
        if (!faults)
            put_number(cpm_size(k));
        put_text("\t");
        put_text(words);
        put_text("\t");
        put_part(slots[k] + 1, 8, ' ', 127, 1);
        for (int i = 9; i < 12; i++)
            if ((slots[k][i] & 127) != ' ') {
                put_text(".");
                put_part(slots[k] + 9, 3, ' ', 127, 1);
                break;
            }
        put_text("\n");
        count++;
    }
    put_text("files\t");
    put_number(count);
    put_text("\tend\n");
    return flush_out();
}

/* ---- 1541 ---- */

enum { LAST, OFF, LOOP };
struct chain { int count, end, last; uint16_t blocks[BLOCKS]; };

static const char *const cbm_words[] = {"not-closed", "off-disk", "loop", "crossed"};
static const char *const types[] = {"DEL", "SEQ", "PRG", "USR", "REL", "OTHER"};
static uint8_t in_use[BLOCKS], shared_block[BLOCKS];

static int block_index(int t, int s)
{
    if (t >= 1 && t < 18 && s < 21)
        return 21 * (t - 1) + s;
    if (t >= 18 && t < 25 && s < 19)
        return 357 + 19 * (t - 18) + s;
    if (t >= 25 && t < 31 && s < 18)
        return 490 + 18 * (t - 25) + s;
    if (t >= 31 && t < 36 && s < 17)
        return 598 + 17 * (t - 31) + s;
    return -1;
}

static void follow(const uint8_t *start, struct chain *c)
{
    uint8_t marks[BLOCKS] = {0};
    int n = block_index(start[0], start[1]);
    c->count = 0;
    c->last = 0;
    c->end = OFF;
    while (n >= 0) {
        const uint8_t *link = image + 256 * n;
        if (marks[n]) {
            c->end = LOOP;
            return;
        }
        marks[n] = 1;
        c->blocks[c->count++] = n;
        if (!link[0]) {
            c->end = LAST;
            c->last = link[1];
            return;
        }
        n = block_index(link[0], link[1]);
    }
}

static int class_of(const uint8_t *e) { return (e[2] & 15) > 4 ? 5 : e[2] & 15; }

static int claims(const uint8_t *e) { return (e[2] & 128) && class_of(e) >= 1 && class_of(e) <= 4; }

static void claim(const uint8_t *start)
{
    static struct chain c;
    follow(start, &c);
    for (int i = 0; i < c.count; i++) {
        shared_block[c.blocks[i]] |= in_use[c.blocks[i]];
        in_use[c.blocks[i]] = 1;
    }
}

static struct chain directory;

static const uint8_t *cbm_entry(int slot) { return image + 256 * directory.blocks[slot / 8] + 32 * (slot % 8); }

static void read_cbm_directory(void)
{
    static const uint8_t first[2] = {18, 1};
    follow(first, &directory);
    in_use[357] = 1;
    for (int i = 0; i < directory.count; i++)
        in_use[directory.blocks[i]] = 1;
    for (int k = 0; k < 8 * directory.count; k++) {
        const uint8_t *e = cbm_entry(k);
        if (!e[2] || !claims(e))
            continue;
        claim(e + 3);
        if (class_of(e) == 4)
            claim(e + 21);
    }
}

static int judge(const uint8_t *start, struct chain *c)
{
    int faults;
    follow(start, c);
    faults = c->end == OFF ? 2 : c->end == LOOP ? 4 : 0;
    for (int i = 0; i < c->count; i++)
        if (shared_block[c->blocks[i]])
            faults |= 8;
    return faults;
}

static int cbm_faults(const uint8_t *e, struct chain *data)
{
    static struct chain side;
    int faults = e[2] & 128 ? 0 : 1;
    data->count = 0;
    if (claims(e))
        faults |= judge(e + 3, data);
    if (claims(e) && class_of(e) == 4)
        faults |= judge(e + 21, &side);
    return faults;
}

static int served(const uint8_t *e) { return class_of(e) >= 1 && class_of(e) <= 3; }

static int last_length(const struct chain *c) { return c->last < 2 ? 0 : c->last - 1; }

static int cbm_cat(int slot)
{
    static struct chain data;
    char text[128] = "faulty ";
    const uint8_t *e;
    int faults;
    if (slot >= 8 * directory.count || !cbm_entry(slot)[2])
        return refuse("no-file");
    e = cbm_entry(slot);
    if (!served(e))
        return refuse("listed-only");
    faults = cbm_faults(e, &data);
    if (faults) {
        words_of(faults, cbm_words, 4, text + 7);
        return refuse(text);
    }
    for (int i = 0; i < data.count; i++)
        put(image + 256 * data.blocks[i] + 2, i + 1 < data.count ? 254 : last_length(&data));
    return flush_out();
}

static int cbm_list(void)
{
    static struct chain data;
    int count = 0;
    for (int k = 0; k < 8 * directory.count; k++) {
        const uint8_t *e = cbm_entry(k);
        char words[128];
        int faults;
        if (!e[2])
            continue;
        faults = cbm_faults(e, &data);
        words_of(faults, cbm_words, 4, words);
        put_number(k);
        put_text("\t\t");
        put_text(types[class_of(e)]);
        put_text("\t");
        if (!faults && served(e))
            put_number(254ul * (data.count - 1) + last_length(&data));
        put_text("\t");
        put_text(words);
        put_text("\t");
        put_part(e + 5, 16, 0xa0, 255, 0);
        put_text("\n");
        count++;
    }
    put_text("files\t");
    put_number(count);
    put_text(directory.end == LAST ? "\tend\n" : directory.end == OFF ? "\toff\n" : "\tloop\n");
    return flush_out();
}

int main(int argc, char **argv)
{
    int cat = argc == 5 && !strcmp(argv[1], "cat");
    int cpm = argc > 2 && !strcmp(argv[2], "cpm8");
    int slot = cat ? atoi(argv[4]) : 0;
    int status;
    if ((!cat && (argc != 4 || strcmp(argv[1], "list"))) || (!cpm && strcmp(argv[2], "d64")))
        return USAGE;
    status = read_image(argv[3], cpm ? CPM_SIZE : CBM_SIZE);
    if (status != DONE)
        return status;
    if (cpm) {
        read_directory();
        return cat ? cpm_cat(slot) : cpm_list();
    }
    read_cbm_directory();
    return cat ? cbm_cat(slot) : cbm_list();
}
