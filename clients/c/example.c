/* A script that nobody trusts, in a safe child with limits: it reads a file, calls an alias to the
   root and asks this program; it is watched, and its record is replayed to what it was before. */
#include "tclsafe.h"

#include <inttypes.h>
#include <stdio.h>
#include <stdlib.h>
#include <string.h>

/* A text as a pointer and its length. */
#define TEXT(text) (text), strlen(text)

static const char script[] =
    "set file [open prices]\n"
    "while {[gets $file line] >= 0} {\n"
    "    lassign $line name price\n"
    "    lappend bill [list $name [total $price [ask how many $name]]]\n"
    "}\n"
    "puts $bill\n"
    "llength $bill";

static void fail(const char *what, int32_t number) {
    char why[80];
    tclsafe_error_text(number, why, sizeof why);
    fprintf(stderr, "%s: %" PRId32 " %s\n", what, number, why);
    exit(1);
}

static void done(const char *what, int32_t number) {
    if (number != TCLSAFE_DONE) {
        fail(what, number);
    }
}

/* A text of any length, which the caller frees. */
static char *text_of(size_t (*write)(tclsafe_handle *, char *, size_t), tclsafe_handle *tree) {
    size_t size = write(tree, NULL, 0) + 1;
    char *text = malloc(size);
    if (!text) {
        fail("text", 401);
    }
    write(tree, text, size);
    return text;
}

/* Answers every open call, until the script came to its end. */
static int32_t serve(tclsafe_handle *tree, int32_t outcome) {
    char word[40], answer[40];
    while (outcome == TCLSAFE_OPEN) {
        char *call = text_of(tclsafe_result, tree);
        char *caller = text_of(tclsafe_caller, tree);
        tclsafe_word(tree, tclsafe_word_count(tree) - 1, word, sizeof word);
        snprintf(answer, sizeof answer, "%zu", strlen(word));
        printf("%s asks {%s}: %s\n", caller, call, answer);
        free(caller);
        free(call);
        outcome = tclsafe_answer(tree, 0, TEXT(answer));
    }
    return outcome;
}

static void show(tclsafe_handle *tree, int32_t outcome) {
    if (outcome > TCLSAFE_EXITED) {
        fail("evaluation", outcome);
    }
    char *result = text_of(tclsafe_result, tree);
    char *options = text_of(tclsafe_options, tree);
    printf("outcome %" PRId32 " code %" PRId64 ": %s {%s}\n", outcome, tclsafe_code(tree), result,
           options);
    free(options);
    free(result);
}

static void show_lines(const char *what, tclsafe_handle *from,
                       int32_t (*write)(tclsafe_handle *, char *, size_t, size_t *)) {
    size_t length;
    done(what, write(from, NULL, 0, &length));
    char *lines = malloc(length + 1);
    if (!lines) {
        fail(what, 401);
    }
    done(what, write(from, lines, length + 1, &length));
    printf("%s:\n%s", what, lines);
    free(lines);
}

int main(void) {
    tclsafe_handle tree = {0}, before = {0}, after = {0}, record = {0}, replayed = {0};
    uint64_t count;
    bool same;
    char output[80];

    done("new", tclsafe_new(&tree, 8));
    done("create", tclsafe_create(&tree, TEXT(""), TEXT("guest"), true));
    done("limit", tclsafe_set_limit(&tree, TEXT("guest"), 1000));
    done("depth", tclsafe_set_depth_limit(&tree, TEXT("guest"), 50));
    show(&tree, tclsafe_eval(&tree, TEXT(""),
                             TEXT("proc total {price number} {expr {$price * $number}}"), 100));
    done("total", tclsafe_alias(&tree, TEXT("guest"), TEXT("total"), TEXT(""), TEXT("total")));
    done("ask", tclsafe_alias_out(&tree, TEXT("guest"), TEXT("ask"), TEXT("ask")));
    show(&tree, tclsafe_eval(&tree, TEXT(""),
                             TEXT("foreach name {open gets puts} {interp expose guest $name}"),
                             100));
    done("file", tclsafe_put_file(&tree, TEXT("prices"), TEXT("tea 3\nmilk 2\n")));

    done("before", tclsafe_save(&tree, TEXT("guest"), &before));
    show(&tree, serve(&tree, tclsafe_eval_watched(&tree, TEXT("guest"), TEXT(script), 500,
                                                  TEXT("guest"))));
    done("after", tclsafe_save(&tree, TEXT("guest"), &after));
    done("record", tclsafe_take_record(&tree, &record));
    show_lines("record", &record, tclsafe_record_lines);
    done("replay", tclsafe_replay(&before, &record, 500, &replayed));
    show_lines("replay", &replayed, tclsafe_replay_lines);
    done("same", tclsafe_same(&after, &replayed, &same));
    printf("the same: %s\n", same ? "yes" : "no");

    tclsafe_output(&tree, 0, output, sizeof output);
    printf("output: %s", output);
    done("count", tclsafe_count(&tree, TEXT("guest"), &count));
    printf("steps: %" PRIu64 "\n", count);
    show(&tree, tclsafe_eval(&tree, TEXT("guest"), TEXT("exit"), 100000));
    show(&tree, tclsafe_eval(&tree, TEXT("guest"), TEXT("while 1 {}"), 100000));
    show(&tree, tclsafe_eval(&tree, TEXT(""), TEXT("while 1 {}"), 100000));

    tclsafe_free(&replayed);
    tclsafe_free(&record);
    tclsafe_free(&after);
    tclsafe_free(&before);
    tclsafe_free(&tree);
    return 0;
}
