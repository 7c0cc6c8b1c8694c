/* Bad input to each call of the library: each must answer its number and change nothing. A row says
   what is tried and what it answers; `NOT` stands behind it where that is wrong, or where the tree
   shows anything else than before. */
#include "tclsafe.h"

#include <inttypes.h>
#include <stdio.h>
#include <stdlib.h>
#include <string.h>

#define TEXT(text) (text), strlen(text)
#define NOTHING NULL, 0
#define BAD_TEXT "\xff", 1
#define LONGEST 16777216

/* A text that is one byte too long for a value. */
static char *too_long;
#define LONG_TEXT too_long, LONGEST + 1

static tclsafe_handle tree, saved, record, replayed;
static tclsafe_handle none;
static int wrong;

/* What the tree shows of itself, but for its interpreters. */
typedef struct {
    char result[64], options[64], caller[64], output[64], errors[64], file[64];
    uint64_t count, limit, depth;
    size_t words;
    int64_t code;
} view;

static view look(void) {
    view seen;
    size_t length;
    memset(&seen, 0, sizeof seen);
    tclsafe_result(&tree, seen.result, sizeof seen.result);
    tclsafe_options(&tree, seen.options, sizeof seen.options);
    tclsafe_caller(&tree, seen.caller, sizeof seen.caller);
    tclsafe_output(&tree, 0, seen.output, sizeof seen.output);
    tclsafe_errors(&tree, 0, seen.errors, sizeof seen.errors);
    tclsafe_file(&tree, TEXT("kept"), seen.file, sizeof seen.file, &length);
    tclsafe_count(&tree, TEXT("guest"), &seen.count);
    tclsafe_limit(&tree, TEXT("guest"), &seen.limit);
    tclsafe_depth_limit(&tree, TEXT("guest"), &seen.depth);
    seen.words = tclsafe_word_count(&tree);
    seen.code = tclsafe_code(&tree);
    return seen;
}

/* The interpreters of the tree, by themselves; none while a call is open. */
static tclsafe_handle copy(void) {
    tclsafe_handle made = {0};
    tclsafe_save(&tree, NOTHING, &made);
    return made;
}

/* What the tree was before a call. */
static view seen_before;
static tclsafe_handle stood_before;

static void before(void) {
    seen_before = look();
    stood_before = copy();
}

static void row(const char *what, int64_t wanted, int64_t answered) {
    view seen_after = look();
    tclsafe_handle stands = copy();
    bool same = true;
    int right = answered == wanted && memcmp(&seen_before, &seen_after, sizeof seen_after) == 0;
    if (stood_before.live || stands.live) {
        right = tclsafe_same(&stood_before, &stands, &same) == TCLSAFE_DONE && same && right;
    }
    tclsafe_free(&stood_before);
    tclsafe_free(&stands);
    printf("%s: %" PRId64 "%s\n", what, answered, right ? "" : " NOT");
    wrong += !right;
}

/* A call that must answer that number and change nothing. */
#define REFUSED(number, call) (before(), row(#call, number, call))

/* A call that must do what it says. */
#define DONE(call) (wrong += (call) != TCLSAFE_DONE)

static void handles(tclsafe_handle *empty) {
    char room[8] = "unread";
    uint64_t number = 7;
    size_t length = 7;
    bool same = false;
    tclsafe_handle other = {0};

    REFUSED(421, tclsafe_create(empty, NOTHING, TEXT("x"), true));
    REFUSED(421, tclsafe_delete(empty, NOTHING, TEXT("guest")));
    REFUSED(421, tclsafe_alias(empty, NOTHING, TEXT("x"), NOTHING, TEXT("y")));
    REFUSED(421, tclsafe_alias_out(empty, NOTHING, TEXT("x"), TEXT("y")));
    REFUSED(421, tclsafe_alias_clear(empty, NOTHING, TEXT("x")));
    REFUSED(421, tclsafe_set_limit(empty, TEXT("guest"), 5));
    REFUSED(421, tclsafe_set_depth_limit(empty, TEXT("guest"), 5));
    REFUSED(421, tclsafe_count(empty, NOTHING, &number));
    REFUSED(421, tclsafe_limit(empty, NOTHING, &number));
    REFUSED(421, tclsafe_depth_limit(empty, NOTHING, &number));
    REFUSED(421, tclsafe_eval(empty, NOTHING, TEXT("set a 1"), 10));
    REFUSED(421, tclsafe_eval_watched(empty, NOTHING, TEXT("set a 1"), 10, NOTHING));
    REFUSED(421, tclsafe_answer(empty, 0, TEXT("x")));
    REFUSED(421, tclsafe_abandon(empty));
    REFUSED(421, tclsafe_put_file(empty, TEXT("kept"), TEXT("x")));
    REFUSED(421, tclsafe_file(empty, TEXT("kept"), room, sizeof room, &length));
    REFUSED(421, tclsafe_put_input(empty, TEXT("x")));
    REFUSED(421, tclsafe_renew_host(empty));
    REFUSED(421, tclsafe_take_record(empty, &other));
    REFUSED(421, tclsafe_record_lines(empty, room, sizeof room, &length));
    REFUSED(421, tclsafe_save(empty, NOTHING, &other));
    REFUSED(421, tclsafe_replay(empty, &record, 10, &other));
    REFUSED(421, tclsafe_replay(&saved, empty, 10, &other));
    REFUSED(421, tclsafe_replay_lines(empty, room, sizeof room, &length));
    REFUSED(421, tclsafe_same(empty, &saved, &same));
    REFUSED(421, tclsafe_same(&saved, empty, &same));
    REFUSED(0, number != 7 || length != 7 || same || other.live || strcmp(room, "unread"));

    /* These answer a length or a code, and so that there is nothing. */
    REFUSED(0, tclsafe_code(empty));
    REFUSED(0, tclsafe_result(empty, room, sizeof room));
    REFUSED(0, tclsafe_options(empty, room, sizeof room));
    REFUSED(0, tclsafe_caller(empty, room, sizeof room));
    REFUSED(0, tclsafe_word_count(empty));
    REFUSED(0, tclsafe_word(empty, 0, room, sizeof room));
    REFUSED(0, tclsafe_output(empty, 0, room, sizeof room));
    REFUSED(0, tclsafe_errors(empty, 0, room, sizeof room));
    REFUSED(0, room[0]);
    tclsafe_free(empty);
    REFUSED(0, empty->live);
}

static void kinds(void) {
    char room[8] = "unread";
    uint64_t number = 7;
    size_t length = 7;
    bool same = false;
    tclsafe_handle other = {0};

    REFUSED(423, tclsafe_create(&saved, NOTHING, TEXT("x"), true));
    REFUSED(423, tclsafe_delete(&record, NOTHING, TEXT("guest")));
    REFUSED(423, tclsafe_alias(&replayed, NOTHING, TEXT("x"), NOTHING, TEXT("y")));
    REFUSED(423, tclsafe_alias_out(&saved, NOTHING, TEXT("x"), TEXT("y")));
    REFUSED(423, tclsafe_alias_clear(&saved, NOTHING, TEXT("x")));
    REFUSED(423, tclsafe_set_limit(&saved, TEXT("guest"), 5));
    REFUSED(423, tclsafe_set_depth_limit(&saved, TEXT("guest"), 5));
    REFUSED(423, tclsafe_count(&record, NOTHING, &number));
    REFUSED(423, tclsafe_limit(&record, NOTHING, &number));
    REFUSED(423, tclsafe_depth_limit(&record, NOTHING, &number));
    REFUSED(423, tclsafe_eval(&saved, NOTHING, TEXT("set a 1"), 10));
    REFUSED(423, tclsafe_eval_watched(&saved, NOTHING, TEXT("set a 1"), 10, NOTHING));
    REFUSED(423, tclsafe_answer(&saved, 0, TEXT("x")));
    REFUSED(423, tclsafe_abandon(&saved));
    REFUSED(423, tclsafe_put_file(&saved, TEXT("kept"), TEXT("x")));
    REFUSED(423, tclsafe_file(&saved, TEXT("kept"), room, sizeof room, &length));
    REFUSED(423, tclsafe_put_input(&saved, TEXT("x")));
    REFUSED(423, tclsafe_renew_host(&saved));
    REFUSED(423, tclsafe_take_record(&saved, &other));
    REFUSED(423, tclsafe_record_lines(&tree, room, sizeof room, &length));
    REFUSED(423, tclsafe_save(&saved, NOTHING, &other));
    REFUSED(423, tclsafe_replay(&tree, &record, 10, &other));
    REFUSED(423, tclsafe_replay(&saved, &tree, 10, &other));
    REFUSED(423, tclsafe_replay_lines(&saved, room, sizeof room, &length));
    REFUSED(423, tclsafe_same(&tree, &saved, &same));
    REFUSED(423, tclsafe_same(&saved, &record, &same));
    REFUSED(0, number != 7 || length != 7 || same || other.live || strcmp(room, "unread"));
    REFUSED(0, tclsafe_code(&saved));
    REFUSED(0, tclsafe_result(&saved, room, sizeof room));
    REFUSED(0, tclsafe_options(&saved, room, sizeof room));
    REFUSED(0, tclsafe_caller(&saved, room, sizeof room));
    REFUSED(0, tclsafe_word_count(&saved));
    REFUSED(0, tclsafe_word(&saved, 0, room, sizeof room));
    REFUSED(0, tclsafe_output(&saved, 0, room, sizeof room));
    REFUSED(0, tclsafe_errors(&saved, 0, room, sizeof room));

    REFUSED(422, tclsafe_new(&tree, 8));
    REFUSED(422, tclsafe_new(&saved, 8));
    REFUSED(422, tclsafe_take_record(&tree, &record));
    REFUSED(422, tclsafe_save(&tree, NOTHING, &saved));
    REFUSED(422, tclsafe_replay(&saved, &record, 10, &replayed));
    REFUSED(426, tclsafe_new(&other, 7));
    REFUSED(426, tclsafe_new(&other, 0));
    REFUSED(426, tclsafe_new(&other, -8));
    REFUSED(0, other.live);
}

/* Texts that aren't UTF-8, that are too long, that spell no list. */
static void texts(void) {
    char room[8] = "unread";
    uint64_t number = 7;
    size_t length = 7;
    tclsafe_handle other = {0};

    REFUSED(265, tclsafe_create(&tree, BAD_TEXT, TEXT("x"), true));
    REFUSED(265, tclsafe_create(&tree, NOTHING, BAD_TEXT, true));
    REFUSED(265, tclsafe_delete(&tree, BAD_TEXT, TEXT("guest")));
    REFUSED(265, tclsafe_delete(&tree, NOTHING, BAD_TEXT));
    REFUSED(265, tclsafe_alias(&tree, BAD_TEXT, TEXT("x"), NOTHING, TEXT("y")));
    REFUSED(265, tclsafe_alias(&tree, NOTHING, BAD_TEXT, NOTHING, TEXT("y")));
    REFUSED(265, tclsafe_alias(&tree, NOTHING, TEXT("x"), BAD_TEXT, TEXT("y")));
    REFUSED(265, tclsafe_alias(&tree, NOTHING, TEXT("x"), NOTHING, BAD_TEXT));
    REFUSED(265, tclsafe_alias_out(&tree, BAD_TEXT, TEXT("x"), TEXT("y")));
    REFUSED(265, tclsafe_alias_out(&tree, NOTHING, BAD_TEXT, TEXT("y")));
    REFUSED(265, tclsafe_alias_out(&tree, NOTHING, TEXT("x"), BAD_TEXT));
    REFUSED(265, tclsafe_alias_clear(&tree, BAD_TEXT, TEXT("x")));
    REFUSED(265, tclsafe_alias_clear(&tree, NOTHING, BAD_TEXT));
    REFUSED(265, tclsafe_set_limit(&tree, BAD_TEXT, 5));
    REFUSED(265, tclsafe_set_depth_limit(&tree, BAD_TEXT, 5));
    REFUSED(265, tclsafe_count(&tree, BAD_TEXT, &number));
    REFUSED(265, tclsafe_limit(&tree, BAD_TEXT, &number));
    REFUSED(265, tclsafe_depth_limit(&tree, BAD_TEXT, &number));
    REFUSED(265, tclsafe_eval(&tree, BAD_TEXT, TEXT("set a 1"), 10));
    REFUSED(265, tclsafe_eval(&tree, NOTHING, BAD_TEXT, 10));
    REFUSED(265, tclsafe_eval_watched(&tree, BAD_TEXT, TEXT("set a 1"), 10, NOTHING));
    REFUSED(265, tclsafe_eval_watched(&tree, NOTHING, BAD_TEXT, 10, NOTHING));
    REFUSED(265, tclsafe_eval_watched(&tree, NOTHING, TEXT("set a 1"), 10, BAD_TEXT));
    REFUSED(265, tclsafe_answer(&tree, 0, BAD_TEXT));
    REFUSED(265, tclsafe_put_file(&tree, BAD_TEXT, TEXT("x")));
    REFUSED(265, tclsafe_file(&tree, BAD_TEXT, room, sizeof room, &length));
    REFUSED(265, tclsafe_save(&tree, BAD_TEXT, &other));
    REFUSED(265, tclsafe_quote(BAD_TEXT, room, sizeof room, &length));

    REFUSED(122, tclsafe_create(&tree, LONG_TEXT, TEXT("x"), true));
    REFUSED(122, tclsafe_create(&tree, NOTHING, LONG_TEXT, true));
    REFUSED(122, tclsafe_delete(&tree, LONG_TEXT, TEXT("guest")));
    REFUSED(122, tclsafe_delete(&tree, NOTHING, LONG_TEXT));
    REFUSED(122, tclsafe_alias(&tree, LONG_TEXT, TEXT("x"), NOTHING, TEXT("y")));
    REFUSED(122, tclsafe_alias(&tree, NOTHING, LONG_TEXT, NOTHING, TEXT("y")));
    REFUSED(122, tclsafe_alias(&tree, NOTHING, TEXT("x"), LONG_TEXT, TEXT("y")));
    REFUSED(122, tclsafe_alias(&tree, NOTHING, TEXT("x"), NOTHING, LONG_TEXT));
    REFUSED(122, tclsafe_alias_out(&tree, LONG_TEXT, TEXT("x"), TEXT("y")));
    REFUSED(122, tclsafe_alias_out(&tree, NOTHING, LONG_TEXT, TEXT("y")));
    REFUSED(122, tclsafe_alias_out(&tree, NOTHING, TEXT("x"), LONG_TEXT));
    REFUSED(122, tclsafe_alias_clear(&tree, LONG_TEXT, TEXT("x")));
    REFUSED(122, tclsafe_alias_clear(&tree, NOTHING, LONG_TEXT));
    REFUSED(122, tclsafe_set_limit(&tree, LONG_TEXT, 5));
    REFUSED(122, tclsafe_set_depth_limit(&tree, LONG_TEXT, 5));
    REFUSED(122, tclsafe_count(&tree, LONG_TEXT, &number));
    REFUSED(122, tclsafe_limit(&tree, LONG_TEXT, &number));
    REFUSED(122, tclsafe_depth_limit(&tree, LONG_TEXT, &number));
    REFUSED(122, tclsafe_eval(&tree, LONG_TEXT, TEXT("set a 1"), 10));
    REFUSED(122, tclsafe_eval(&tree, NOTHING, LONG_TEXT, 10));
    REFUSED(122, tclsafe_eval_watched(&tree, LONG_TEXT, TEXT("set a 1"), 10, NOTHING));
    REFUSED(122, tclsafe_eval_watched(&tree, NOTHING, LONG_TEXT, 10, NOTHING));
    REFUSED(122, tclsafe_eval_watched(&tree, NOTHING, TEXT("set a 1"), 10, LONG_TEXT));
    REFUSED(122, tclsafe_answer(&tree, 0, LONG_TEXT));
    REFUSED(122, tclsafe_put_file(&tree, LONG_TEXT, TEXT("x")));
    REFUSED(122, tclsafe_file(&tree, LONG_TEXT, room, sizeof room, &length));
    REFUSED(122, tclsafe_save(&tree, LONG_TEXT, &other));
    REFUSED(122, tclsafe_quote(LONG_TEXT, room, sizeof room, &length));

    REFUSED(101, tclsafe_create(&tree, TEXT("{"), TEXT("x"), true));
    REFUSED(102, tclsafe_delete(&tree, TEXT("\""), TEXT("guest")));
    REFUSED(103, tclsafe_alias(&tree, TEXT("{a}b"), TEXT("x"), NOTHING, TEXT("y")));
    REFUSED(104, tclsafe_alias(&tree, NOTHING, TEXT("x"), TEXT("\"a\"b"), TEXT("y")));
    REFUSED(101, tclsafe_alias(&tree, NOTHING, TEXT("x"), NOTHING, TEXT("a {b")));
    REFUSED(102, tclsafe_alias_out(&tree, TEXT("\""), TEXT("x"), TEXT("y")));
    REFUSED(103, tclsafe_alias_out(&tree, NOTHING, TEXT("x"), TEXT("{a}b")));
    REFUSED(104, tclsafe_alias_clear(&tree, TEXT("\"a\"b"), TEXT("x")));
    REFUSED(101, tclsafe_set_limit(&tree, TEXT("{"), 5));
    REFUSED(101, tclsafe_set_depth_limit(&tree, TEXT("{"), 5));
    REFUSED(101, tclsafe_count(&tree, TEXT("{"), &number));
    REFUSED(101, tclsafe_limit(&tree, TEXT("{"), &number));
    REFUSED(101, tclsafe_depth_limit(&tree, TEXT("{"), &number));
    REFUSED(101, tclsafe_eval(&tree, TEXT("{"), TEXT("set a 1"), 10));
    REFUSED(101, tclsafe_eval_watched(&tree, TEXT("{"), TEXT("set a 1"), 10, NOTHING));
    REFUSED(101, tclsafe_eval_watched(&tree, NOTHING, TEXT("set a 1"), 10, TEXT("{")));
    REFUSED(101, tclsafe_save(&tree, TEXT("{"), &other));
    REFUSED(0, number != 7 || length != 7 || other.live || strcmp(room, "unread"));
}

/* Paths that name nobody, names that can't be, and limits that are refused. */
static void names(void) {
    char room[8] = "unread";
    uint64_t number = 7;
    size_t length = 7;
    tclsafe_handle other = {0};

    REFUSED(301, tclsafe_create(&tree, TEXT("nobody"), TEXT("x"), true));
    REFUSED(238, tclsafe_create(&tree, NOTHING, NOTHING, true));
    REFUSED(238, tclsafe_create(&tree, NOTHING, TEXT("a::b"), true));
    REFUSED(302, tclsafe_create(&tree, NOTHING, TEXT("guest"), false));
    REFUSED(302, tclsafe_create(&tree, NOTHING, TEXT("set"), false));
    REFUSED(301, tclsafe_delete(&tree, TEXT("nobody"), TEXT("guest")));
    REFUSED(301, tclsafe_delete(&tree, NOTHING, TEXT("nobody")));
    REFUSED(301, tclsafe_delete(&tree, NOTHING, NOTHING));
    REFUSED(301, tclsafe_alias(&tree, TEXT("nobody"), TEXT("x"), NOTHING, TEXT("y")));
    REFUSED(302, tclsafe_alias(&tree, NOTHING, TEXT("guest"), NOTHING, TEXT("y")));
    REFUSED(301, tclsafe_alias_out(&tree, TEXT("nobody"), TEXT("x"), TEXT("y")));
    REFUSED(302, tclsafe_alias_out(&tree, NOTHING, TEXT("guest"), TEXT("y")));
    REFUSED(301, tclsafe_alias_clear(&tree, TEXT("nobody"), TEXT("x")));
    REFUSED(305, tclsafe_alias_clear(&tree, NOTHING, TEXT("x")));
    REFUSED(305, tclsafe_alias_clear(&tree, NOTHING, TEXT("set")));
    REFUSED(305, tclsafe_alias_clear(&tree, NOTHING, NOTHING));
    REFUSED(301, tclsafe_set_limit(&tree, TEXT("nobody"), 5));
    REFUSED(304, tclsafe_set_limit(&tree, NOTHING, 5));
    REFUSED(245, tclsafe_set_limit(&tree, TEXT("guest"), UINT64_C(9223372036854775808)));
    REFUSED(245, tclsafe_set_limit(&tree, TEXT("guest"), UINT64_MAX - 1));
    REFUSED(301, tclsafe_set_depth_limit(&tree, TEXT("nobody"), 5));
    REFUSED(304, tclsafe_set_depth_limit(&tree, NOTHING, 5));
    REFUSED(309, tclsafe_set_depth_limit(&tree, TEXT("guest"), 0));
    REFUSED(309, tclsafe_set_depth_limit(&tree, TEXT("guest"), 1001));
    REFUSED(309, tclsafe_set_depth_limit(&tree, TEXT("guest"), UINT64_MAX));
    REFUSED(301, tclsafe_count(&tree, TEXT("nobody"), &number));
    REFUSED(301, tclsafe_limit(&tree, TEXT("guest nobody"), &number));
    REFUSED(301, tclsafe_depth_limit(&tree, TEXT("nobody"), &number));
    REFUSED(403, tclsafe_eval(&tree, TEXT("nobody"), TEXT("set a 1"), 10));
    REFUSED(404, tclsafe_eval(&tree, NOTHING, TEXT("set a 1"), UINT64_MAX));
    REFUSED(404, tclsafe_eval(&tree, NOTHING, TEXT("set a 1"), UINT64_C(9223372036854775807)));
    REFUSED(403, tclsafe_eval_watched(&tree, TEXT("nobody"), TEXT("set a 1"), 10, NOTHING));
    REFUSED(403, tclsafe_eval_watched(&tree, NOTHING, TEXT("set a 1"), 10, TEXT("nobody")));
    REFUSED(404, tclsafe_eval_watched(&tree, NOTHING, TEXT("set a 1"), UINT64_MAX, NOTHING));
    REFUSED(425, tclsafe_answer(&tree, 0, TEXT("x")));
    REFUSED(425, tclsafe_answer(&tree, 0, NOTHING));
    REFUSED(425, tclsafe_abandon(&tree));
    REFUSED(267, tclsafe_file(&tree, TEXT("missing"), room, sizeof room, &length));
    REFUSED(267, tclsafe_file(&tree, NOTHING, room, sizeof room, &length));
    REFUSED(427, tclsafe_take_record(&tree, &other));
    REFUSED(403, tclsafe_save(&tree, TEXT("nobody"), &other));
    REFUSED(404, tclsafe_replay(&saved, &record, UINT64_MAX, &other));
    REFUSED(0, number != 7 || length != 7 || other.live || strcmp(room, "unread"));
    REFUSED(0, tclsafe_word(&tree, SIZE_MAX, room, sizeof room));
    REFUSED(0, tclsafe_output(&tree, SIZE_MAX, room, sizeof room));
    REFUSED(0, tclsafe_errors(&tree, SIZE_MAX, room, sizeof room));
    REFUSED(0, tclsafe_error_text(0, room, sizeof room));
    REFUSED(0, tclsafe_error_text(-1, room, sizeof room));
    REFUSED(0, tclsafe_error_text(INT32_MIN, room, sizeof room));
}

/* Room that is too small, and none. */
static void rooms(void) {
    char room[4] = "abc";
    size_t length = 7;

    REFUSED(1, tclsafe_result(&tree, NOTHING));
    REFUSED(16, tclsafe_options(&tree, NOTHING));
    REFUSED(0, tclsafe_caller(&tree, NOTHING));
    REFUSED(0, tclsafe_word(&tree, 0, NOTHING));
    REFUSED(8, tclsafe_output(&tree, 0, NOTHING));
    REFUSED(0, tclsafe_errors(&tree, 0, NOTHING));
    REFUSED(0, tclsafe_file(&tree, TEXT("kept"), NOTHING, &length));
    REFUSED(4, length);
    REFUSED(0, tclsafe_record_lines(&record, NOTHING, &length));
    REFUSED(0, tclsafe_replay_lines(&replayed, NOTHING, &length));
    REFUSED(0, tclsafe_quote(NOTHING, NOTHING, &length));
    REFUSED(2, length);
    REFUSED(13, tclsafe_error_text(401, NOTHING));
    REFUSED(0, strcmp(room, "abc"));
    REFUSED(13, tclsafe_error_text(401, room, 1));
    REFUSED(0, room[0] || room[1] != 'b');
    REFUSED(13, tclsafe_error_text(401, room, 3));
    REFUSED(0, strcmp(room, "ou"));
    REFUSED(8, tclsafe_output(&tree, 0, room, sizeof room));
    REFUSED(0, strcmp(room, "wri"));
    REFUSED(3, tclsafe_output(&tree, 5, room, sizeof room));
    REFUSED(0, strcmp(room, "en\n"));
}

/* While a call is open. */
static void open_call(void) {
    char room[8];
    tclsafe_handle other = {0};

    wrong += tclsafe_eval(&tree, TEXT("guest"), TEXT("ask this"), 10) != TCLSAFE_OPEN;
    REFUSED(424, tclsafe_create(&tree, NOTHING, TEXT("x"), true));
    REFUSED(424, tclsafe_delete(&tree, NOTHING, TEXT("guest")));
    REFUSED(424, tclsafe_alias(&tree, NOTHING, TEXT("x"), NOTHING, TEXT("y")));
    REFUSED(424, tclsafe_alias_out(&tree, NOTHING, TEXT("x"), TEXT("y")));
    REFUSED(424, tclsafe_alias_clear(&tree, TEXT("guest"), TEXT("ask")));
    REFUSED(424, tclsafe_set_limit(&tree, TEXT("guest"), 5));
    REFUSED(424, tclsafe_set_depth_limit(&tree, TEXT("guest"), 5));
    REFUSED(424, tclsafe_eval(&tree, NOTHING, TEXT("set a 1"), 10));
    REFUSED(424, tclsafe_eval_watched(&tree, NOTHING, TEXT("set a 1"), 10, NOTHING));
    REFUSED(424, tclsafe_renew_host(&tree));
    REFUSED(424, tclsafe_take_record(&tree, &other));
    REFUSED(424, tclsafe_save(&tree, NOTHING, &other));
    REFUSED(265, tclsafe_answer(&tree, 0, BAD_TEXT));
    REFUSED(122, tclsafe_answer(&tree, 0, LONG_TEXT));
    REFUSED(0, tclsafe_word(&tree, 2, room, sizeof room));
    REFUSED(4, tclsafe_word(&tree, 1, room, sizeof room));
    DONE(tclsafe_answer(&tree, 0, NOTHING));
    REFUSED(0, tclsafe_result(&tree, room, sizeof room));
    wrong += tclsafe_eval(&tree, TEXT("guest"), TEXT("ask this"), 10) != TCLSAFE_OPEN;
    DONE(tclsafe_abandon(&tree));
    REFUSED(425, tclsafe_abandon(&tree));
}

/* A replay with too few steps, and a record that was taken, or that there is none of. */
static void replays(void) {
    tclsafe_handle kept = {0}, part = {0}, spent = {0}, other = {0};

    DONE(tclsafe_save(&tree, TEXT("guest"), &kept));
    DONE(tclsafe_eval_watched(&tree, TEXT("guest"), TEXT("string length abc"), 10, TEXT("guest")));
    DONE(tclsafe_take_record(&tree, &part));
    wrong += tclsafe_replay(&kept, &part, 0, &spent) != TCLSAFE_STOPPED;
    tclsafe_free(&spent);
    REFUSED(427, tclsafe_take_record(&tree, &other));
    DONE(tclsafe_eval_watched(&tree, NOTHING, TEXT("interp delete guest"), 10, TEXT("guest")));
    REFUSED(411, tclsafe_take_record(&tree, &other));
    REFUSED(411, tclsafe_take_record(&tree, &other));
    REFUSED(0, other.live);
    tclsafe_free(&kept);
    tclsafe_free(&part);
}

int main(void) {
    too_long = malloc(LONGEST + 1);
    if (!too_long) {
        return 2;
    }
    memset(too_long, ' ', LONGEST + 1);

    DONE(tclsafe_new(&tree, 9));
    DONE(tclsafe_create(&tree, NOTHING, TEXT("guest"), true));
    DONE(tclsafe_alias_out(&tree, TEXT("guest"), TEXT("ask"), TEXT("ask")));
    DONE(tclsafe_put_file(&tree, TEXT("kept"), "a\0b\xff", 4));
    DONE(tclsafe_save(&tree, TEXT("guest"), &saved));
    DONE(tclsafe_eval_watched(&tree, TEXT("guest"), TEXT("set a 1"), 10, TEXT("guest")));
    DONE(tclsafe_take_record(&tree, &record));
    DONE(tclsafe_replay(&saved, &record, 10, &replayed));
    DONE(tclsafe_eval(&tree, NOTHING, TEXT("puts written; set a 010; expr {$a - 1}"), 10));

    puts("== A handle that never held anything");
    handles(&none);
    puts("== A handle that was freed");
    tclsafe_handle freed = {0};
    DONE(tclsafe_new(&freed, 8));
    tclsafe_free(&freed);
    handles(&freed);
    puts("== Handles of another kind, or full");
    kinds();
    puts("== Texts");
    texts();
    puts("== Names and limits");
    names();
    puts("== Rooms");
    rooms();
    puts("== An open call");
    open_call();
    puts("== Replays");
    replays();

    tclsafe_free(&tree);
    tclsafe_free(&saved);
    tclsafe_free(&record);
    tclsafe_free(&replayed);
    free(too_long);
    printf("%d wrong\n", wrong);
    return wrong != 0;
}
