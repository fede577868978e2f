/* A baseline for the benchmark: classic dancing links in C, after TAOCP 7.2.2.1, with Knuth's recursion unrolled into calls.
 * Colours are those of its Algorithm C, by purify and commit. A file without colours is searched by a copy of the code that
 * looks at none, which is Algorithm X.
 *
 *     baseline FILE        prints whether there is a cover, the visits, and the seconds of the search alone
 *     baseline FILE read   reads the file and prints how many options it has
 *
 * It reads the same files as the program, but trusts them: no refusal is made here. Options without a primary item are
 * ignored, a tie goes to the item named first, and an option's line is tried in file order.
 */
#include <stdio.h>
#include <stdlib.h>
#include <string.h>
#include <time.h>

typedef struct { int left, right; } Item;          /* the uncovered primary items, in a ring with head 0 */
typedef struct { int up, down, item; } Node;       /* a node below an item; a spacer has item <= 0 */

/* what is made twice, for files with colours and for those without */
#define TWICE static inline __attribute__((always_inline))

static Item items[1002];
static Node nodes[230000];
static int colours[230000];                        /* of each node: 0 for none, less while its item is committed to it */
static int counts[1002];
static char *names[1002], *colour_names[10001];
static int item_count, primary_count, last_node, option_count, colour_count;
static unsigned long long visits;

TWICE void hide_in(int is_coloured, int node) {
    for (int other = node + 1; other != node;) {
        int item = nodes[other].item, up = nodes[other].up, down = nodes[other].down;
        if (item <= 0) { other = up; continue; }
        if (is_coloured && colours[other] < 0) { other++; continue; }
        nodes[up].down = down, nodes[down].up = up;
        counts[item]--;
        other++;
    }
}

TWICE void unhide_in(int is_coloured, int node) {
    for (int other = node - 1; other != node;) {
        int item = nodes[other].item, up = nodes[other].up, down = nodes[other].down;
        if (item <= 0) { other = down; continue; }
        if (is_coloured && colours[other] < 0) { other--; continue; }
        nodes[up].down = other, nodes[down].up = other;
        counts[item]++;
        other--;
    }
}

TWICE void cover_in(int is_coloured, int item) {
    for (int node = nodes[item].down; node != item; node = nodes[node].down) hide_in(is_coloured, node);
    int left = items[item].left, right = items[item].right;
    items[left].right = right, items[right].left = left;
}

TWICE void uncover_in(int is_coloured, int item) {
    int left = items[item].left, right = items[item].right;
    items[left].right = item, items[right].left = item;
    for (int node = nodes[item].up; node != item; node = nodes[node].up) unhide_in(is_coloured, node);
}

static void cover(int item) { cover_in(0, item); }
static void uncover(int item) { uncover_in(0, item); }
static void cover_coloured(int item) { cover_in(1, item); }
static void uncover_coloured(int item) { uncover_in(1, item); }

/* Of the options that name the node's item, hides those that give it no equal colour, and marks the others. */
static void purify(int node) {
    int colour = colours[node], item = nodes[node].item;
    for (int other = nodes[item].down; other != item; other = nodes[other].down)
        if (colours[other] == colour) colours[other] = -1; else hide_in(1, other);
}

static void unpurify(int node) {
    int colour = colours[node], item = nodes[node].item;
    for (int other = nodes[item].up; other != item; other = nodes[other].up)
        if (colours[other] < 0) colours[other] = colour; else unhide_in(1, other);
}

static void commit(int node) {
    if (colours[node] == 0) cover_coloured(nodes[node].item); else if (colours[node] > 0) purify(node);
}

static void uncommit(int node) {
    if (colours[node] == 0) uncover_coloured(nodes[node].item); else if (colours[node] > 0) unpurify(node);
}

static int search_plain(void), search_coloured(void);

TWICE int search_in(int is_coloured) {
    visits++;
    if (items[0].right == 0) return 1;
    int best = 0, least = 1 << 30;
    for (int item = items[0].right; item != 0; item = items[item].right)
        if (counts[item] < least) { least = counts[item], best = item; if (least == 0) return 0; }
    if (is_coloured) cover_coloured(best); else cover(best);
    for (int node = nodes[best].down; node != best; node = nodes[node].down) {
        for (int other = node + 1; other != node;) {
            int item = nodes[other].item;
            if (item <= 0) { other = nodes[other].up; continue; }
            if (is_coloured) commit(other); else cover(item);
            other++;
        }
        if (is_coloured ? search_coloured() : search_plain()) return 1;
        for (int other = node - 1; other != node;) {
            int item = nodes[other].item;
            if (item <= 0) { other = nodes[other].down; continue; }
            if (is_coloured) uncommit(other); else uncover(item);
            other--;
        }
    }
    if (is_coloured) uncover_coloured(best); else uncover(best);
    return 0;
}

static int search_plain(void) { return search_in(0); }
static int search_coloured(void) { return search_in(1); }

static int item_named(const char *word) {
    for (int item = 1; item <= item_count; item++) if (strcmp(names[item], word) == 0) return item;
    return 0;
}

static int colour_named(const char *word) {
    for (int colour = 1; colour <= colour_count; colour++) if (strcmp(colour_names[colour], word) == 0) return colour;
    colour_names[++colour_count] = strdup(word);
    return colour_count;
}

/* The item of a word that is no item's name, where a colour stands behind a colon. */
static int item_coloured(char *word, int *colour) {
    char *colon = strchr(word, ':');
    if (colon) *colon = 0, *colour = colour_named(colon + 1);
    int item = colon ? item_named(word) : 0;
    if (!item) fprintf(stderr, "no item %s\n", word), exit(3);
    return item;
}

static void read_items(char *line) {
    primary_count = -1;
    for (char *word = strtok(line, " \t\r\n"); word; word = strtok(NULL, " \t\r\n")) {
        if (word[0] == '|') { primary_count = item_count; word++; if (!word[0]) continue; }
        names[++item_count] = strdup(word);
    }
    if (primary_count < 0) primary_count = item_count;
    for (int item = 0; item <= item_count; item++) nodes[item] = (Node){item, item, item}, items[item] = (Item){item, item};
    for (int item = 1; item <= primary_count; item++) items[item].left = item - 1, items[item - 1].right = item;
    items[primary_count].right = 0, items[0].left = primary_count;
    last_node = item_count + 1, nodes[last_node].item = 0;
}

static void read_option(char *line) {
    int first = last_node + 1, node = last_node, is_kept = 0, chosen[1000], given[1000], count = 0;
    for (char *word = strtok(line, " \t\r\n"); word; word = strtok(NULL, " \t\r\n")) {
        chosen[count] = item_named(word), given[count] = 0;
        if (!chosen[count]) chosen[count] = item_coloured(word, &given[count]);
        is_kept |= chosen[count++] <= primary_count;
    }
    if (!is_kept) return;
    for (int place = 0; place < count; place++) {
        int item = chosen[place], up = nodes[item].up;
        nodes[++node] = (Node){up, item, item};
        nodes[up].down = node, nodes[item].up = node, counts[item]++, colours[node] = given[place];
    }
    nodes[last_node].down = node;                  /* a spacer leads down to the end of its option */
    last_node = node + 1, option_count++;
    nodes[last_node] = (Node){first, 0, -option_count};
}

int main(int count, char **words) {
    static char line[70000];
    FILE *file = count == 2 || count == 3 ? fopen(words[1], "r") : NULL;
    if (!file) return fprintf(stderr, "baseline FILE [read]\n"), 3;
    while (fgets(line, sizeof line, file)) {
        char *text = line + strspn(line, " \t\r\n");
        if (!*text || *text == '|') continue;
        if (item_count == 0) read_items(text); else read_option(text);
    }
    if (count == 3) return printf("%d options\n", option_count), 0;
    clock_t start = clock();
    int found = colour_count ? search_coloured() : search_plain();
    printf("%s %llu %.4f\n", found ? "cover" : "none", visits, (double)(clock() - start) / CLOCKS_PER_SEC);
    return 0;
}
