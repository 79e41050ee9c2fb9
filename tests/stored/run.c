/* The stored cases, run over bind/c/haythaw.h: prints what the library answers on the cases of one file, a line as README.md says. It never
 * opens a stored output; tests/stored.sh compares.
 *
 *     stored                                the names of the files
 *     stored NAME WAY < NAME.in             the lines of a file; WAY is how buffers lie: end, start or heap (bind/c/test/lend.h)
 *     stored NAME WAY list                  nothing but, to standard error, what the self-test can alter in these lines
 *     stored NAME WAY CALL WHAT < NAME.in   the lines with one answer altered, chosen by two numbers of that list
 *
 * Status 1: a call did what its words in the header exclude, and a line `wrong:` says so. 2: the input or an argument is wrong. 3: memory
 * was touched that was not lent. */
#define _DEFAULT_SOURCE
#include "agree.h"
#include "layouts.h"
#include "payload.h"
#include "picture.h"
#include "refusals.h"
#include "refusals_check.h"
#include "refusals_layouts.h"
#include "refusals_picture.h"
#include "refusals_split.h"
#include "refusals_strict.h"
#include "refusals_wire.h"
#include "view.h"
#include "wire.h"
#include "write.h"

/* The self-test alters the first answer that can show it. Only in agree_run it passes 1x1, whose three runs do not show every byte of a
 * view: the next is 16x16, whole, which does. */
static const struct { const char *name; void (*lines)(void); unsigned long altered_at; } files[] = {
    {"replay_view", replay_view, 0},
    {"replay_payload", replay_payload, 0},
    {"replay_wire", replay_wire, 0},
    {"replay_write", replay_write, 0},
    {"replay_picture", replay_picture, 0},
    {"replay_layouts", replay_layouts, 0},
    {"refusals", refusals, 0},
    {"refusals_wire", refusals_wire, 0},
    {"refusals_picture", refusals_picture, 0},
    {"refusals_layouts", refusals_layouts, 0},
    {"refusals_split", refusals_split, 0},
    {"refusals_strict", refusals_strict, 0},
    {"refusals_check", refusals_check, 0},
    {"agree_run", agree_run, 3},
};

enum { FILES = sizeof files / sizeof *files };

static void lines_of(const char *name)
{
    int k = 0;
    while (k < FILES && strcmp(files[k].name, name) != 0)
        k++;
    whole(k < FILES, "there is no such file");
    altered_at = files[k].altered_at;
    files[k].lines();
}

static enum place way_of(const char *word)
{
    static const char *const words[PLACES] = {"end", "start", "heap"};
    int way = 0;
    while (way < PLACES && strcmp(words[way], word) != 0)
        way++;
    whole(way < PLACES, "there is no such way");
    return (enum place)way;
}

/* With one answer altered no line `wrong:` is printed, so that what the lines alone show is seen. */
int main(int words, char **word)
{
    const bool list = words == 4 && strcmp(word[3], "list") == 0, alter = words == 5;
    for (int k = 0; k < FILES && words == 1; k++)
        printf("%s\n", files[k].name);
    if (words == 1)
        return 0;
    whole(words == 3 || list || alter, "usage: stored [NAME end|start|heap [list | CALL WHAT]]");
    trap();
    place = way_of(word[2]);
    if (alter)
        altered_call = (int)number_in(word[3], 10), altered_what = (int)number_in(word[4], 10);
    if (list)
        whole(freopen("/dev/null", "w", stdout) != NULL, "no /dev/null");
    const unsigned long before = wrong = alter ? MOST_SAID : 0;
    read_input();
    lines_of(word[1]);
    if (list)
        list_alterable(stderr);
    return wrong != before;
}
