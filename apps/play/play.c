/* vt220-play: plays a recording on the terminal in which it runs.
 *   make player */
#ifndef _GNU_SOURCE
#define _GNU_SOURCE /* for ppoll */
#endif
#include "play.h"
#include "../keep/outer.h"
#include "vt220-keys.h"
#include <errno.h>
#include <getopt.h>
#include <math.h>
#include <poll.h>
#include <stdarg.h>
#include <stdio.h>
#include <stdlib.h>
#include <string.h>
#include <time.h>
#include <unistd.h>

static const char usage[] =
    "usage: vt220-play [OPTION ...] FILE\n"
    "Plays a recording by asciinema, ttyrec or script, or the bytes of a program, on this terminal.\n"
    "  --find=TEXT             plays nothing, and lists when TEXT was on the screen and scrolled off\n"
    "  --timing=FILE           the timing file of script: FILE is then its typescript\n"
    "  --speed=N               how many times as fast it plays (1)\n"
    "  --from=MOMENT           where it begins: 12.5 or 12:31 seconds, 4096b bytes, event:N or marker:N\n"
    "  --until=MOMENT          where it ends\n"
    "  --pause=SECONDS         the longest pause that is played\n"
    "  --exit                  ends at the end of the recording, and doesn't wait for q\n"
    "  --encoding=dec|utf-8    how the program's bytes are read; otherwise the recording decides\n"
    "  --terminal=vt220|xterm  what the program wrote for; otherwise the recording decides\n"
    "  --size=120x40           the screen's columns and rows; otherwise the recording decides, and its changes are followed\n"
    "  -h, --help              prints this help\n"
    "  --version               prints the version\n"
    "Keys: space plays and stops; Left and Right go 5 seconds, . and , a step, 0 to 9 tenths, Home and End to the ends,\n"
    "[ and ] to a marker; < and > change the speed; / searches, n and N go to the next and the last hit;\n"
    "? shows the keys; q ends it.\n";
static const char keys_line[] = "space plays, arrows 5 s, , . step, 0-9, [ ] mark, < > speed, / n N find, q ends";

enum {
    SECOND = 1000000, /* in microseconds, as all times here */
    FAR = 5 * SECOND,
    TOLD_FOR = 2 * SECOND,   /* how long the line covers the last row */
    FRAME = 16000,           /* between two drawings */
    KEY_PATIENCE = 50000,    /* until the remainder of a key must have come */
    LEAVING_PATIENCE = 2000, /* milliseconds for which the terminal may take nothing at the end */
    TYPED = 256,
    LINE = 400
};

static struct {
    struct recording of;
    struct reel reel;   /* what is shown */
    vt220 drawn;        /* what is on the terminal */
    bool is_drawn;      /* false if anything else is on it */
    bool is_small;      /* the terminal is too small, and says so */
    bool is_behind;     /* there may be something new to draw */
    vt220_scratch scratch;
    uint8_t *drawing;   /* with capacity for one of so many bytes */
    size_t limit;
    size_t rows, cols;  /* of the terminal */
    uint64_t now;       /* the time in the recording */
    long long clock;    /* when that was so */
    long long drawn_at; /* when the last drawing was made */
    bool plays, exits;
    double speed;
    uint64_t pause;     /* the longest pause */
    uint64_t bells;     /* as many as have rung */
    bool asks;          /* a text is typed that is searched for */
    char wanted[TYPED];
    size_t wanted_len;
    char said[TYPED];   /* a message, up to the next key */
    char line[LINE];    /* what is on the line below the screen, or over its last row */
    long long told_until; /* when the line leaves the last row; 0 if it isn't shown for a while */
    char held[VT220_TYPED_LIMIT]; /* the beginning of a key whose end hasn't come */
    size_t held_len;
    long long held_at;
    bool is_over;       /* a key ended it, the terminal has closed, or allocation failed */
    bool lacks_memory;
    int status;
    const char *finds; /* the text whose places are listed, or null */
} it;

noreturn void fail(int status, const char *why, ...) {
    va_list words;
    va_start(words, why);
    fputs("vt220-play: ", stderr);
    vfprintf(stderr, why, words);
    fputc('\n', stderr);
    va_end(words);
    exit(it.finds != NULL ? 2 : status); /* in a list of places 1 is that there are none */
}

static long long clock_now(void) {
    struct timespec time;
    clock_gettime(CLOCK_MONOTONIC, &time);
    return time.tv_sec * 1000000LL + time.tv_nsec / 1000;
}

/* Ends it, since allocation failed. */
static void give_up(void) {
    it.is_over = it.lacks_memory = true;
    it.status = 1;
}

/* --- time --- */

static void show_now(void) {
    if (!reel_seek(&it.reel, chunks_at(&it.of, it.now), NULL)) give_up();
    it.is_behind = true;
}

/* Returns whether the terminal has a row below the recording's screen. */
static bool has_line(void) {
    return it.rows > vt220_rows(&it.reel.terminal);
}

/* Shows the line for a while, which on a terminal of no more rows covers the last one. */
static void tell(void) {
    it.told_until = clock_now() + TOLD_FOR;
    it.is_behind = true;
}

/* Takes the line off the last row, once its time is over. */
static void end_telling(void) {
    if (it.told_until == 0 || clock_now() < it.told_until) return;
    it.told_until = 0;
    it.is_behind = true;
}

static void go(uint64_t time) {
    it.now = time < duration_of(&it.of) ? time : duration_of(&it.of);
    show_now();
    it.bells = vt220_bells(&it.reel.terminal);
}

/* Goes to the end of a pause that is longer than the longest. */
static void skip_pause(void) {
    size_t next = chunks_at(&it.of, it.now);
    uint64_t last = next > 0 ? it.of.chunks[next - 1].micros : 0;
    if (next < it.of.count && it.now - last > it.pause) it.now = it.of.chunks[next].micros;
}

/* Goes on by the time that has passed, if it plays. */
static void advance(void) {
    long long time = clock_now();
    double passed = (double)(time - it.clock) * it.speed, left = (double)(duration_of(&it.of) - it.now);
    it.clock = time;
    if (!it.plays) return;
    it.now = passed < left ? it.now + (uint64_t)passed : duration_of(&it.of);
    skip_pause();
    show_now();
    it.plays = it.now < duration_of(&it.of);
    if (!it.plays && !it.exits) tell();
}

/* With --exit, it is over when the end is on the terminal. */
static bool has_ended(void) {
    return it.exits && it.now >= duration_of(&it.of) && !it.is_behind && outer_is_done();
}

/* Returns in how many microseconds something of the recording comes, or the line changes. */
static long long due_to_play(void) {
    size_t next = chunks_at(&it.of, it.now);
    uint64_t last = next > 0 ? it.of.chunks[next - 1].micros : 0, end = next < it.of.count ? it.of.chunks[next].micros : it.now;
    if (it.pause < end - last) end = last + it.pause > it.now ? last + it.pause + 1 : it.now;
    if ((has_line() || it.told_until > 0) && end > (it.now / SECOND + 1) * SECOND) end = (it.now / SECOND + 1) * SECOND; /* the line shows seconds */
    double wait = (double)(end - it.now) / it.speed + 1;
    long long frame = it.drawn_at + FRAME - clock_now();
    if (wait < (double)frame) wait = (double)frame;
    return wait < 1e12 ? (long long)wait : (long long)1e12;
}

/* Returns the shorter one of two times, of which -1 has no end. */
static long long shorter(long long a, long long b) {
    return a < 0 || (b >= 0 && b < a) ? b : a;
}

/* Returns in how many microseconds something happens by itself; -1 if nothing does. */
static long long due(void) {
    long long wait = it.plays ? due_to_play() : -1, told = it.told_until - clock_now();
    if (it.held_len > 0) wait = shorter(wait, KEY_PATIENCE);
    return it.told_until > 0 ? shorter(wait, told > 0 ? told : 0) : wait;
}

/* --- keys --- */

static void toggle(void) {
    if (!it.plays && it.now >= duration_of(&it.of)) go(0);
    it.plays = !it.plays;
}

static void step(bool is_forward) {
    size_t count = chunks_at(&it.of, it.now);
    it.plays = false;
    if (is_forward) {
        go(count < it.of.count ? it.of.chunks[count].micros : duration_of(&it.of));
        return;
    }
    if (count > 0) count = chunks_before(&it.of, it.of.chunks[count - 1].micros);
    go(count > 0 ? it.of.chunks[count - 1].micros : 0);
}

static void set_speed(bool is_faster) {
    static const double speeds[] = {0.25, 0.5, 1, 2, 4, 8, 16};
    enum { COUNT = sizeof speeds / sizeof *speeds };
    for (size_t i = 0; i < COUNT; i++) {
        double speed = speeds[is_faster ? i : COUNT - 1 - i];
        if (is_faster ? speed > it.speed : speed < it.speed) {
            it.speed = speed;
            return;
        }
    }
}

/* Goes to a moment at which the text comes on the screen, or scrolls past: the next one, and after the last one the first. */
static void find_from(bool is_forward) {
    size_t at = is_forward ? chunks_at(&it.of, it.now) : chunks_before(&it.of, it.now), count = it.of.count, found;
    bool has_passed = false;
    if (it.wanted_len == 0) return;
    found = is_forward ? find(&it.of, it.wanted, at, count, false, &has_passed) : find(&it.of, it.wanted, 0, at, true, &has_passed);
    if (found == NOWHERE) found = is_forward ? find(&it.of, it.wanted, 0, at, false, &has_passed) : find(&it.of, it.wanted, at, count, true, &has_passed);
    it.clock = clock_now(); /* a search takes no time of the recording */
    if (found != NOWHERE) go(it.of.chunks[found].micros);
    if (found == NOWHERE || has_passed) snprintf(it.said, sizeof it.said, "%s: %.200s", has_passed ? "scrolled past" : "not found", it.wanted);
}

static void ask(void) {
    it.asks = true;
    it.plays = false;
    it.wanted[it.wanted_len = 0] = 0;
}

static void act_back(void) { go(it.now > FAR ? it.now - FAR : 0); }
static void act_on(void) { go(it.now + FAR); }
static void act_step(void) { step(true); }
static void act_step_back(void) { step(false); }
static void act_home(void) { go(0); }
static void act_end(void) { go(duration_of(&it.of)); }
static void act_marker(void) { go(marker_next_to(&it.of, it.now, true)); }
static void act_marker_back(void) { go(marker_next_to(&it.of, it.now, false)); }
static void act_faster(void) { set_speed(true); }
static void act_slower(void) { set_speed(false); }
static void act_next(void) { find_from(true); }
static void act_last(void) { find_from(false); }
static void act_again(void) { it.is_drawn = false; }
static void act_keys(void) { strcpy(it.said, keys_line); }
static void act_stop(void) { outer_told.to_stop = 1; }
static void act_quit(void) { it.is_over = true; }

/* What each key does. A key is what a VT220 sends for it. */
static const struct {
    const char *key;
    void (*act)(void);
} acts[] = {{" ", toggle},           {"\033[D", act_back},      {"\033[C", act_on},   {".", act_step},    {",", act_step_back},
            {"\033[1~", act_home},   {"\033[4~", act_end},      {"]", act_marker},    {"[", act_marker_back}, {">", act_faster},
            {"<", act_slower},       {"/", ask},                {"n", act_next},      {"N", act_last},    {"?", act_keys},
            {"q", act_quit}, {"\003" /* Ctrl-C */, act_quit}, {"\014" /* Ctrl-L */, act_again}, {"\032" /* Ctrl-Z */, act_stop}};

/* Takes a key of the text that is searched for. */
static void type_wanted(const char *key, size_t len) {
    bool is_character = (uint8_t)*key >= 0x20 && *key != 0x7F && !(len == 2 && (uint8_t)key[0] == 0xC2 && (uint8_t)key[1] < 0xA0);
    if (*key == '\r' || *key == '\n') {
        it.asks = false;
        find_from(true);
    } else if (*key == '\033' || *key == '\003') {
        if (len == 1) it.asks = false; /* other keys that begin so are no characters */
    } else if (*key == 0x7F || *key == '\b') {
        while (it.wanted_len > 0 && ((uint8_t)it.wanted[--it.wanted_len] & 0xC0) == 0x80) {}
        it.wanted[it.wanted_len] = 0;
    } else if (is_character && it.wanted_len + len < sizeof it.wanted) {
        memcpy(it.wanted + it.wanted_len, key, len);
        it.wanted[it.wanted_len += len] = 0;
    }
}

static void press(const char *key, size_t len) {
    static const vt220_mode_set none;
    uint8_t sent[VT220_KEY_LIMIT + 1];
    size_t sent_len;
    it.said[0] = 0;
    tell();
    if (it.asks) {
        type_wanted(key, len);
        return;
    }
    if (vt220_key(VT220_BYTES, &none, key, len, sent, VT220_KEY_LIMIT, &sent_len) != VT220_OK) return;
    sent[sent_len] = 0;
    if (sent_len == 1 && *sent >= '0' && *sent <= '9') go(duration_of(&it.of) / 10 * (uint64_t)(*sent - '0'));
    for (size_t i = 0; i < sizeof acts / sizeof *acts; i++) {
        if (strcmp((const char *)sent, acts[i].key) == 0) acts[i].act();
    }
}

/* Takes the keys that have come. The beginning of one waits for its end. So does an ESC alone, which may be such a beginning. */
static void take_typed(const char *typed, size_t len) {
    char all[sizeof it.held + TYPED];
    size_t at = 0, n;
    memcpy(all, it.held, it.held_len);
    memcpy(all + it.held_len, typed, len);
    len += it.held_len;
    while (!it.is_over && at < len && !(len - at == 1 && all[at] == '\033') && (n = vt220_key_length(all + at, len - at)) > 0) {
        press(all + at, n);
        at += n;
    }
    it.held_len = len - at < sizeof it.held ? len - at : 0;
    memcpy(it.held, all + at, it.held_len);
    it.held_at = clock_now();
}

/* What is held isn't the beginning of a key, if its end doesn't come. ESC alone is one. */
static void release_held(void) {
    if (it.held_len == 0 || clock_now() - it.held_at < KEY_PATIENCE) return;
    if (it.held_len == 1) press(it.held, 1);
    it.held_len = 0;
}

static void read_keys(void) {
    char typed[TYPED];
    ssize_t n = read(STDIN_FILENO, typed, sizeof typed);
    if (n < 0 && (errno == EINTR || errno == EAGAIN)) return;
    if (n > 0) {
        take_typed(typed, (size_t)n);
        return;
    }
    it.is_over = true; /* the terminal has closed */
    it.status = 1;
}

/* --- the screen --- */

static int write_time(char *to, size_t size, uint64_t micros) {
    unsigned long long seconds = micros / SECOND;
    if (seconds < 3600) return snprintf(to, size, "%llu:%02llu", seconds / 60, seconds % 60);
    return snprintf(to, size, "%llu:%02llu:%02llu", seconds / 3600, seconds / 60 % 60, seconds % 60);
}

/* Writes what is to be on the line below the screen. On a terminal of no more rows it covers the last one, so it is only there for a while, or if
 * it is needed. */
static void write_line(char *line, size_t size) {
    char now[32], all[32];
    write_time(now, sizeof now, it.now);
    write_time(all, sizeof all, duration_of(&it.of));
    line[0] = 0;
    bool is_at_end = it.now >= duration_of(&it.of);
    const char *does = it.plays ? "plays" : is_at_end ? "at the end:" : "stopped", *keys = is_at_end ? "; ? shows the keys, q ends it" : "";
    if (it.asks) snprintf(line, size, "/%s", it.wanted);
    else if (it.said[0] != 0) snprintf(line, size, "%s", it.said);
    else if (has_line() || it.told_until > 0) snprintf(line, size, "%s %s / %s, speed %g%s", does, now, all, it.speed, keys);
    size_t len = strlen(line), most = it.cols < size ? it.cols : size - 1;
    if (len >= most) len = most - 1;
    while (len > 0 && ((uint8_t)line[len] & 0xC0) == 0x80) len--;
    line[len] = 0;
}

static void draw_line(void) {
    char line[LINE], place[32];
    size_t row = vt220_rows(&it.reel.terminal) + has_line();
    write_line(line, sizeof line);
    bool may_be_covered = !has_line() && line[0] != 0; /* the screen's last row may have been drawn over it */
    if (strcmp(line, it.line) == 0 && !may_be_covered) return;
    strcpy(it.line, line);
    snprintf(place, sizeof place, "\0337\033[%zu;1H\033[0m\033[K", row);
    outer_say(place);
    outer_say(line);
    outer_say("\0338");
}

/* Makes room for drawings of a terminal of this size. Returns false if allocation fails. */
static bool make_room(const vt220 *t) {
    size_t limit = vt220_limit(t, VT220_OF_DRAW);
    if (vt220_scratch_fit(&it.scratch, t) != VT220_OK) return false;
    if (limit <= it.limit) return true;
    uint8_t *more = realloc(it.drawing, limit);
    if (more == NULL) return false;
    it.drawing = more;
    it.limit = limit;
    return outer_reserve(limit + 2 * LINE);
}

/* Draws a terminal of which the outer one may show another part already. */
static void draw_screen(void) {
    const vt220 *t = &it.reel.terminal;
    size_t len;
    if (!make_room(t)) {
        give_up();
        return;
    }
    bool is_erased = !it.is_drawn || vt220_width(&it.drawn) != vt220_width(t) || vt220_rows(&it.drawn) != vt220_rows(t);
    vt220_draw(it.is_drawn ? &it.drawn : NULL, t, &it.scratch, it.drawing, it.limit, &len);
    outer_put(it.drawing, len);
    if (!reel_copy(&it.drawn, VT220_BYTES, &it.reel)) give_up();
    if (is_erased) it.line[0] = 0;
    it.is_drawn = true;
    it.is_small = false;
}

static void draw_refusal(void) {
    char words[LINE];
    const vt220 *t = &it.reel.terminal;
    size_t len = (size_t)snprintf(words, sizeof words, "%zu rows and %zu columns are needed", vt220_rows(t), vt220_width(t));
    words[len < it.cols ? len : it.cols - 1] = 0;
    if (it.is_small && strcmp(words, it.line) == 0) return;
    outer_say("\033[0m\033[1;1H\033[J\033[?25h");
    outer_say(words);
    strcpy(it.line, words);
    it.is_small = true;
    it.is_drawn = false;
}

static bool fits(void) {
    return it.rows >= vt220_rows(&it.reel.terminal) && it.cols >= vt220_width(&it.reel.terminal);
}

static void draw(void) {
    uint64_t bells = vt220_bells(&it.reel.terminal);
    char line[LINE];
    write_line(line, sizeof line);
    if (!has_line() && it.line[0] != 0 && line[0] == 0) it.is_drawn = false; /* the last row was covered */
    if (bells > it.bells) outer_say("\a");
    it.bells = bells;
    it.is_behind = false;
    it.drawn_at = clock_now();
    if (!fits()) {
        draw_refusal();
    } else {
        draw_screen();
        draw_line();
    }
    outer_write();
}

/* --- the loop --- */

static void take_terminal(void) {
    if (!outer_take(it.limit + 2 * LINE, OUTER_LEAVING)) give_up();
    it.is_drawn = it.is_small = false;
    it.line[0] = 0;
    it.is_behind = true;
}

static void obey_signals(void) {
    if (outer_told.to_go != 0) it.is_over = true;
    if (outer_told.to_stop) {
        outer_release(OUTER_LEAVING, LEAVING_PATIENCE);
        outer_stop();
        it.clock = clock_now();
        take_terminal();
    }
    if (outer_told.was_continued) outer_set_raw();
    if (outer_told.was_continued || outer_told.has_new_size) {
        outer_size(&it.rows, &it.cols);
        it.is_drawn = it.is_small = false;
        it.is_behind = true;
    }
    outer_told.to_stop = outer_told.was_continued = outer_told.has_new_size = 0;
}

static void turn(const sigset_t *open_mask) {
    bool waits = !outer_is_done(); /* for the terminal, which hasn't taken the last drawing */
    long long rest = it.is_behind && !waits ? 0 : waits ? -1 : due();
    struct timespec timeout = {rest > 0 ? rest / SECOND : 0, rest > 0 ? rest % SECOND * 1000 : 0};
    struct pollfd polled[2] = {{STDIN_FILENO, POLLIN, 0}, {waits ? outer_line() : -1, POLLOUT, 0}};
    if (ppoll(polled, 2, rest >= 0 ? &timeout : NULL, open_mask) < 0) polled[0].revents = polled[1].revents = 0;
    advance();
    obey_signals();
    if (polled[0].revents && !it.is_over) read_keys();
    release_held();
    end_telling();
    if (polled[1].revents) outer_write();
    if (it.is_behind && outer_is_done() && !it.is_over) draw();
    if (has_ended()) it.is_over = true;
}

static void play(uint64_t from) {
    sigset_t open_mask;
    outer_hold_signals(&open_mask);
    outer_size(&it.rows, &it.cols);
    go(from);
    if (!fits()) {
        fail(1, "this terminal has %zu rows and %zu columns, and %zu rows and %zu columns are needed", it.rows, it.cols,
             vt220_rows(&it.reel.terminal), vt220_width(&it.reel.terminal));
    }
    take_terminal();
    it.clock = clock_now();
    it.plays = !it.is_over;
    while (!it.is_over) turn(&open_mask);
    outer_release(OUTER_LEAVING, LEAVING_PATIENCE);
    if (it.lacks_memory) fail(1, "out of memory");
}

/* --- the command line --- */

struct options {
    struct asked asked;
    const char *from, *until;
};

static int choice(const char *name, const char *given, const char *first, const char *second) {
    const char *const all[] = {"auto", first, second};
    for (int i = 0; i < 3; i++) {
        if (strcmp(given, all[i]) == 0) return i;
    }
    fail(2, "--%s is %s, %s or auto, not '%.100s'", name, first, second, given);
}

static double speed_of(const char *text) {
    char *end;
    double speed = strtod(text, &end);
    if (*text == 0 || *end != 0 || !(speed > 0) || !isfinite(speed)) fail(2, "--speed is a number above 0, not '%.100s'", text);
    return speed;
}

/* Returns the size that an option gives, which has no rows if the recording decides. */
static struct size size_given(const char *given) {
    struct size size = {0, 0};
    if (strcmp(given, "auto") == 0 || size_of(given, &size)) return size;
    fail(2, "--size is columns and rows, as 120x40: 2 to %d columns and 2 to %d rows, or auto, not '%.100s'", VT220_MOST_COLUMNS,
         VT220_MOST_ROWS, given);
}

static void print_version(void) {
    printf("vt220-play %d.%d.%d\n", VT220_VERSION / 10000, VT220_VERSION / 100 % 100, VT220_VERSION % 100);
}

static void read_options(int argc, char **argv, struct options *options) {
    static const struct option names[] = {{"help", 0, NULL, 'h'},  {"version", 0, NULL, 'V'}, {"timing", 1, NULL, 't'}, {"speed", 1, NULL, 's'},
                                          {"from", 1, NULL, 'f'},  {"until", 1, NULL, 'u'},   {"pause", 1, NULL, 'p'},  {"exit", 0, NULL, 'x'},
                                          {"encoding", 1, NULL, 'E'}, {"terminal", 1, NULL, 'T'}, {"size", 1, NULL, 'S'},
                                          {"find", 1, NULL, 'F'},  {0}};
    opterr = 0;
    for (int letter; (letter = getopt_long(argc, argv, "h", names, NULL)) >= 0;) {
        switch (letter) {
        case 'h': fputs(usage, stdout), exit(fflush(stdout) == 0 ? 0 : 1);
        case 'V': print_version(), exit(fflush(stdout) == 0 ? 0 : 1);
        case 't': options->asked.timing = optarg; break;
        case 's': it.speed = speed_of(optarg); break;
        case 'f': options->from = optarg; break;
        case 'u': options->until = optarg; break;
        case 'p':
            if (!time_of(optarg, &it.pause)) fail(2, "--pause is a time in seconds, not '%.100s'", optarg);
            break;
        case 'x': it.exits = true; break;
        case 'E': options->asked.encoding = choice("encoding", optarg, "dec", "utf-8"); break;
        case 'S': options->asked.size = size_given(optarg); break;
        case 'F': it.finds = optarg; break;
        case 'T': options->asked.terminal = choice("terminal", optarg, "vt220", "xterm"); break;
        default: fail(2, "unknown option '%s'; vt220-play --help lists them", argv[optind - 1]);
        }
    }
    if (argc == optind) fail(2, "FILE is missing; vt220-play --help lists the arguments");
    if (argc - optind > 1) fail(2, "unexpected argument '%s'", argv[optind + 1]);
    if (options->asked.terminal == TERMINAL_XTERM && options->asked.encoding == ENCODING_DEC) {
        fail(2, "--terminal=xterm is in UTF-8, and doesn't go with --encoding=dec");
    }
    if (it.finds != NULL && strlen(it.finds) >= FIND_LIMIT / 2) fail(2, "the text of --find has at most %d bytes", FIND_LIMIT / 2 - 1);
    options->asked.file = argv[optind];
}

/* Lists the places of the text from a moment on. Returns the exit status, which is that of grep. */
static int list_places(uint64_t from) {
    bool is_found = find_all(&it.of, it.finds, chunks_before(&it.of, from));
    if (fflush(stdout) != 0 || ferror(stdout)) fail(2, "write failed: %s", strerror(errno));
    return is_found ? 0 : 1;
}

int main(int argc, char **argv) {
    struct options options = {0};
    struct moment from = {0, 0, 0};
    it.speed = 1;
    it.pause = UINT64_MAX;
    read_options(argc, argv, &options);
    if (it.finds == NULL && (!isatty(STDOUT_FILENO) || !outer_open())) fail(2, "it needs a terminal");
    recording_read(&it.of, &options.asked);
    if (options.from != NULL) from = moment_of(&it.of, "from", options.from);
    if (options.until != NULL) recording_cut(&it.of, moment_of(&it.of, "until", options.until));
    reel_begin(&it.of);
    if (it.finds != NULL) return list_places(from.micros);
    if (!reel_open(&it.reel)) fail(1, "out of memory");
    play(from.micros);
    if (outer_told.to_go != 0) {
        sigset_t only;
        signal(outer_told.to_go, SIG_DFL);
        sigemptyset(&only);
        sigaddset(&only, outer_told.to_go);
        raise(outer_told.to_go);
        sigprocmask(SIG_UNBLOCK, &only, NULL);
    }
    return it.status;
}
