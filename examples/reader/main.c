/* mantelorris-card: its options. */
#include "reader.h"
#include <ctype.h>
#include <stdio.h>
#include <stdlib.h>
#include <string.h>

static const char usage[] =
    "mantelorris-card [--json] [--plan PLAN] [--tail FILE] FILE\n"
    "mantelorris-card [--json] [--plan PLAN] --hex BYTES\n"
    "\n"
    "Prints what is on a card, and never writes to it: a log; a checkpoint and behind it its tail (examples/card.c); a raw\n"
    "card (examples/card_raw.c); an image of a moving point; a packet. FILE may be a device.\n"
    "\n"
    "  --plan PLAN   of the plant: a file with its 1,024 bytes, or low,high,fallback,home for all points, as\n"
    "                --plan=-1000000,1000000,0,0 for the example host. A checkpoint has its own. Without a plan a log's\n"
    "                values are not held to their points' ranges, and a fallback that nobody has changed is shown as 0\n"
    "  --tail FILE   the tail of a checkpoint, where your card has it in a file of its own. A tail by itself looks like\n"
    "                a log: give both\n"
    "  --hex BYTES   these, in hexadecimal, in place of a file\n"
    "  --json        for programs\n"
    "  --help        this\n"
    "\n"
    "Exit status: 0 the library takes it; 1 the library refuses it, and number, place and reason are printed; 2 the call\n"
    "is wrong, or a file cannot be read.\n";

struct asked {
    const char *file, *hex, *plan, *tail;
};

/* ---- options */

/* the value of this option, in the same word or in the next one; NULL: it is another option */
static const char *option(const char *name, char **word, int *used) {
    size_t length = strlen(name);
    if (strncmp(*word, name, length)) return NULL;
    if ((*word)[length] == '=') return *word + length + 1;
    if ((*word)[length]) return NULL;
    if (!word[1]) fail("%s: a value is missing; --help says more", name);
    *used = 2;
    return word[1];
}

/* how many words it took */
static int take_option(struct asked *asked, char **word) {
    const char *value;
    int used = 1;
    if ((value = option("--plan", word, &used)))
        asked->plan = value;
    else if ((value = option("--tail", word, &used)))
        asked->tail = value;
    else if ((value = option("--hex", word, &used)))
        asked->hex = value;
    else if (strcmp(*word, "--json") == 0)
        print_json();
    else if ((*word)[0] == '-' && (*word)[1])
        fail("%s is no option; --help has all", *word);
    else if (asked->file)
        fail("one card at a time: %s, and then %s", asked->file, *word);
    else
        asked->file = *word;
    return used;
}

static struct asked read_options(char **word) {
    struct asked asked = {NULL, NULL, NULL, NULL};
    while (*word) {
        if (strcmp(*word, "--help") == 0) {
            fputs(usage, stdout);
            exit(0);
        }
        word += take_option(&asked, word);
    }
    if (!asked.file == !asked.hex) fail("name a card, or give bytes with --hex; --help says more");
    return asked;
}

/* two digits a byte; blanks and colons between them are passed over */
static struct slice hex_bytes(const char *digits) {
    uint8_t *bytes = malloc(strlen(digits) / 2 + 1);
    size_t count = 0;
    if (!bytes) fail("no memory");
    for (; *digits; digits++) {
        char pair[3] = {digits[0], digits[1], 0};
        if (isspace((unsigned char)*digits) || *digits == ':') continue;
        if (!isxdigit((unsigned char)pair[0]) || !isxdigit((unsigned char)pair[1])) fail("--hex: no two hexadecimal digits at '%.8s'", digits);
        bytes[count++] = (uint8_t)strtoul(pair, NULL, 16);
        digits++;
    }
    return (struct slice){bytes, count};
}

int main(int count, char **arguments) {
    struct asked asked = read_options(arguments + (count > 0));
    struct slice plan, bytes = asked.hex ? hex_bytes(asked.hex) : read_file(asked.file, RAW_SIZE);
    if (asked.plan) plan = plan_named(asked.plan);
    object(NULL);
    uint32_t answer = show_bytes(bytes, asked.file, asked.tail, asked.plan ? &plan : NULL);
    close_object();
    if (print_end()) fail("the output cannot be written");
    return answer ? 1 : 0;
}
