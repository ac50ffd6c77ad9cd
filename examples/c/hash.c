/* A table of counted words with open addressing: FNV-1a hashes of the words of a sentence. */
/* prints: the 4\nserver 2\ndevice 1\npage 1\nlink -\n */
/* returns: 8 */
int putchar(int);

enum { ROOM = 16 };

struct slot {
    const char *word;
    unsigned hash;
    int count;
};

static struct slot table[ROOM];
static const char text[] = "the server asks the device for the page and the server waits";
static char kept[80];

static unsigned hash(const char *s) {
    unsigned h = 2166136261u;
    while (*s)
        h = (h ^ (unsigned char)*s++) * 16777619u;
    return h;
}

static int same(const char *a, const char *b) {
    for (; *a && *a == *b; a++)
        b++;
    return *a == *b;
}

static struct slot *slot_of(const char *word) {
    unsigned h = hash(word);
    for (unsigned i = h % ROOM;; i = (i + 1) % ROOM) {
        struct slot *s = &table[i];
        if (!s->word || (s->hash == h && same(s->word, word)))
            return s;
    }
}

static void count(const char *word) {
    struct slot *s = slot_of(word);
    s->word = word;
    s->hash = hash(word);
    s->count++;
}

static int show(const char *word) {
    const struct slot *s = slot_of(word);
    for (const char *p = word; *p; p++)
        putchar(*p);
    putchar(' ');
    putchar(s->word ? '0' + s->count : '-');
    putchar('\n');
    return s->count;
}

int main(void) {
    int start = 0;
    for (unsigned i = 0; i < sizeof text; i++) {
        kept[i] = text[i] == ' ' ? 0 : text[i];
        if (kept[i] == 0) {
            count(&kept[start]);
            start = (int)i + 1;
        }
    }
    static const char *const asked[5] = {"the", "server", "device", "page", "link"};
    int all = 0;
    for (int i = 0; i < 5; i++)
        all += show(asked[i]);
    return all;
}
