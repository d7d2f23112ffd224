/* The token file of a text, as `unitex tokenize TEXT ALPHABET` writes it: for the benchmark.
   Reads UTF-8 and UTF-16LE with a mark; an alphabet of lines of one or two characters. */
#include <stdint.h>
#include <stdio.h>
#include <stdlib.h>
#include <string.h>

typedef struct { unsigned char *at; size_t len; } Bytes;
typedef struct { const unsigned char *at; uint32_t len, next; } Token;

static unsigned char letter[0x110000 / 8];
static Token *tokens;
static uint32_t *heads, count, room = 1 << 10;

static Bytes read_file(const char *name) {
    FILE *file = fopen(name, "rb");
    if (!file) exit(2);
    fseek(file, 0, SEEK_END);
    Bytes bytes = {NULL, ftell(file)};
    rewind(file);
    bytes.at = malloc(bytes.len + 1);
    if (fread(bytes.at, 1, bytes.len, file) != bytes.len) exit(4);
    fclose(file);
    return bytes;
}

static size_t put(unsigned char *to, uint32_t c) {
    if (c < 0x80) { to[0] = c; return 1; }
    if (c < 0x800) { to[0] = 0xc0 | c >> 6; to[1] = 0x80 | (c & 63); return 2; }
    if (c < 0x10000) { to[0] = 0xe0 | c >> 12; to[1] = 0x80 | (c >> 6 & 63); to[2] = 0x80 | (c & 63); return 3; }
    to[0] = 0xf0 | c >> 18; to[1] = 0x80 | (c >> 12 & 63); to[2] = 0x80 | (c >> 6 & 63); to[3] = 0x80 | (c & 63);
    return 4;
}

static size_t get(const unsigned char *from, size_t left, uint32_t *c) {
    size_t n = *from < 0x80 ? 1 : *from >= 0xc2 && *from < 0xe0 ? 2 : *from >= 0xe0 && *from < 0xf0 ? 3 : 4;
    if (*from >= 0xf5 || n > left || (*from >= 0x80 && *from < 0xc2)) exit(3);
    *c = n == 1 ? *from : *from & (0x7f >> n);
    for (size_t i = 1; i < n; i++) { if ((from[i] & 0xc0) != 0x80) exit(3); *c = *c << 6 | (from[i] & 63); }
    return n;
}

static Bytes decode(Bytes file) {
    if (file.len < 2 || file.at[0] != 0xff || file.at[1] != 0xfe) return file;
    Bytes text = {malloc(file.len / 2 * 3 + 1), 0};
    for (size_t i = 2; i + 1 < file.len; i += 2) {
        uint32_t c = file.at[i] | file.at[i + 1] << 8;
        if (c >= 0xd800 && c < 0xdc00) { i += 2; c = 0x10000 + ((c - 0xd800) << 10) + ((file.at[i] | file.at[i + 1] << 8) - 0xdc00); }
        text.len += put(text.at + text.len, c);
    }
    free(file.at);
    return text;
}

static int is_letter(uint32_t c) { return letter[c / 8] >> c % 8 & 1; }
static int is_space(unsigned char b) { return b == ' ' || b == '\t' || b == '\r' || b == '\n'; }

static uint32_t hash(const unsigned char *at, size_t len) {
    uint32_t h = 2166136261u;
    for (size_t i = 0; i < len; i++) h = (h ^ at[i]) * 16777619u;
    return h;
}

static void grow(void) {
    room *= 2;
    free(heads);
    heads = calloc(room, 4);
    tokens = realloc(tokens, room * sizeof *tokens);
    for (uint32_t i = 0; i < count; i++) { uint32_t *head = heads + hash(tokens[i].at, tokens[i].len) % room; tokens[i].next = *head; *head = i + 1; }
}

static void note(const unsigned char *at, size_t len) {
    uint32_t *head = heads + hash(at, len) % room;
    for (uint32_t i = *head; i; i = tokens[i - 1].next)
        if (tokens[i - 1].len == len && !memcmp(tokens[i - 1].at, at, len)) return;
    if (count + 1 == room) { grow(); head = heads + hash(at, len) % room; }
    tokens[count] = (Token){at, len, *head};
    *head = ++count;
}

int main(int argc, char **argv) {
    if (argc != 3) return 1;
    Bytes alphabet = decode(read_file(argv[2])), text = decode(read_file(argv[1]));
    uint32_t c;
    for (size_t i = 0; i < alphabet.len; ) { i += get(alphabet.at + i, alphabet.len - i, &c); if (c > ' ') letter[c / 8] |= 1 << c % 8; }
    grow();
    size_t kept = 0;
    for (size_t i = 0; i < text.len; i++)
        if (!is_space(text.at[i])) text.at[kept++] = text.at[i];
        else if (!kept || text.at[kept - 1] != ' ') text.at[kept++] = ' ';
    for (size_t i = 0; i < kept; ) {
        size_t n = get(text.at + i, kept - i, &c), len = n;
        if (is_letter(c)) while (i + len < kept && (n = get(text.at + i + len, kept - i - len, &c), is_letter(c))) len += n;
        note(text.at + i, len);
        i += len;
    }
    printf("%u\n", count);
    for (uint32_t i = 0; i < count; i++) { fwrite(tokens[i].at, 1, tokens[i].len, stdout); putchar('\n'); }
    return 0;
}
