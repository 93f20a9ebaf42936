/* vt220-keep: keeps programs running in the background, each on an emulated terminal.
 *   make keeper */
#include "keep.h"
#include "outer.h"
#include <errno.h>
#include <fcntl.h>
#include <getopt.h>
#include <langinfo.h>
#include <limits.h>
#include <locale.h>
#include <stdarg.h>
#include <stdio.h>
#include <stdlib.h>
#include <string.h>
#include <time.h>
#include <unistd.h>

static const char usage[] =
    "usage: vt220-keep new [-A] [--locale=LOCALE] [--encoding=dec|utf-8] [--terminal=vt220|xterm] [--size=COLUMNSxROWS] NAME COMMAND\n"
    "                   [ARGUMENT ...]\n"
    "                                       run a command on a new VT220 in the background;\n"
    "                                       -A attaches to it, or to the session NAME if there is one;\n"
    "                                       --terminal=xterm: for a command that has TERM=xterm-256color, in UTF-8;\n"
    "                                       --size=120x40: of this size, whatever the windows of its clients have\n"
    "       vt220-keep attach [-r] NAME     show a session on this terminal, and send it keys; -r only shows it\n"
    "       vt220-keep detach NAME          detach all clients\n"
    "       vt220-keep list [--tsv]         list sessions; --tsv: one line each with tabs, for scripts\n"
    "       vt220-keep text NAME            print the screen as text\n"
    "       vt220-keep log NAME             print the last 10,000 lines that scrolled off the screen, and the screen\n"
    "       vt220-keep repaint NAME         print the bytes that rebuild the whole terminal\n"
    "       vt220-keep send [-l] NAME [KEY ...]\n"
    "                                       send keys by name (Enter, Up, PF1, ^C ..), other words as text, or standard\n"
    "                                       input if there is no KEY; -l: each KEY is text\n"
    "       vt220-keep serve [--socket=PATH | --port=N] NAME\n"
    "                                       show a session in browsers; prints the page's address\n"
    "       vt220-keep kill NAME            end the command; if it has ended, remove its screen and its log\n"
    "       vt220-keep rename NAME NEW      rename a session\n"
    "       vt220-keep upgrade NAME         keep a session with this program from now on, in place of the one that started it\n"
    "       vt220-keep help | --help        print this help\n"
    "       vt220-keep version | --version  print the version\n"
    "Ctrl-\\ detaches; pressed twice, it is sent. KEEP_KEY=^A makes Ctrl-A that key.\n"
    "PageUp with Shift, Alt or Ctrl scrolls back while attached; PageUp, PageDown, Up, Down, Home and End move,\n"
    "/ opens the log in PAGER (less), any other key returns.\n"
    "Sockets are in $KEEP_DIR (default /tmp/keep-UID).\n";

noreturn void fail(int status, const char *why, ...) {
    va_list words;
    va_start(words, why);
    fputs("vt220-keep: ", stderr);
    vfprintf(stderr, why, words);
    fputc('\n', stderr);
    va_end(words);
    exit(status);
}

long long now(void) {
    struct timespec time;
    clock_gettime(CLOCK_MONOTONIC, &time);
    return time.tv_sec * 1000LL + time.tv_nsec / 1000000;
}

enum { PATIENCE_LIMIT = 3600 };

int patience = 2000;

static void set_patience(void) {
    const char *named = getenv("KEEP_PATIENCE");
    char *end;
    if (named == NULL || *named == 0) return;
    long seconds = strtol(named, &end, 10);
    if (*end != 0 || seconds < 1 || seconds > PATIENCE_LIMIT) {
        fail(2, "KEEP_PATIENCE='%.100s': give a number of seconds from 1 to %d", named, PATIENCE_LIMIT);
    }
    patience = (int)seconds * 1000;
}

/* --- the commands; each gets the arguments after its options, and returns the exit status --- */

struct options {
    bool attaches, is_read_only, is_for_scripts, is_text;
    const char *locale, *encoding, *terminal, *size;
};

static void check_name(const char *name) {
    if (is_name(name)) return;
    fail(2, "invalid session name '%s': use 1-%d letters, digits, '.', '_' or '-', not starting with '.' or '-'", name, NAME_LIMIT);
}

/* Returns whether there is a session of this name. If its command has ended, ends the session first, unless it is wanted and its end wasn't
 * shown to a client that was attached. */
static bool is_there(const struct folder *folder, const char *name, bool is_wanted) {
    static uint8_t bytes[FRAME_LIMIT];
    struct hello hello;
    char why[WHY_LIMIT];
    int socket = connect_to(folder->file, name);
    if (socket < 0 && errno == ENOENT && call_keepers(folder)) socket = connect_to(folder->file, name);
    if (socket < 0) return false;
    bool is_over = wire_begin(socket, ASK_LIST, 0, &hello, why) == WIRE_OK && hello.is_over;
    close(socket);
    if (!is_over || (is_wanted && !hello.is_shown)) return true;
    socket = connect_to(folder->file, name);
    if (socket >= 0) wire_ask(socket, name, ASK_KILL, NULL, bytes);
    return false;
}

/* Returns whether programs read and write UTF-8 in a locale; `named` is empty for that of the environment. If that locale isn't installed,
 * its name counts: many programs go by it alone. */
static bool is_utf8_locale(const char *named) {
    static const char *const variables[] = {"LC_ALL", "LC_CTYPE", "LANG"};
    if (setlocale(LC_CTYPE, named) != NULL) {
        bool is_so = strcmp(nl_langinfo(CODESET), "UTF-8") == 0;
        setlocale(LC_CTYPE, "C");
        return is_so;
    }
    for (size_t i = 0; i < sizeof variables / sizeof *variables && *named == 0; i++) {
        if (getenv(variables[i]) != NULL) named = getenv(variables[i]);
    }
    return strcasestr(named, ".utf-8") != NULL || strcasestr(named, ".utf8") != NULL;
}

/* Returns whether an option has the second of two names. Ends the program if it has neither. */
static bool is_second(const char *option, const char *given, const char *first, const char *second) {
    bool is_so = strcmp(given, second) == 0;
    if (!is_so && strcmp(given, first) != 0) fail(2, "new: --%s is %s or %s, not '%.100s'", option, first, second, given);
    return is_so;
}

/* Returns the language of a new session. It is in UTF-8 as its option says, or its terminal, or its locale, or that of the environment. */
static uint32_t language_wanted(const struct options *options) {
    bool is_xterm = options->terminal != NULL && is_second("terminal", options->terminal, terminal_name(VT220_BYTES), terminal_name(VT220_XTERM));
    bool is_utf8 = options->encoding != NULL ? is_second("encoding", options->encoding, encoding_name(VT220_BYTES), encoding_name(VT220_UTF8))
                                             : is_utf8_locale(options->locale != NULL ? options->locale : "");
    if (is_xterm && options->encoding != NULL && !is_utf8) fail(2, "new: --terminal=xterm is in UTF-8, and doesn't go with --encoding=dec");
    return is_xterm ? VT220_XTERM : is_utf8 ? VT220_UTF8 : VT220_BYTES;
}

/* Reads a number of at most three digits, and moves after it. */
static uint16_t read_number(const char **at) {
    unsigned number = 0;
    for (const char *end = *at + 3; *at < end && **at >= '0' && **at <= '9'; ++*at) number = 10 * number + (unsigned)(**at - '0');
    return (uint16_t)number;
}

/* Returns the size that an option gives. Ends the program if it gives none. */
static struct window size_given(const char *given) {
    const char *at = given;
    struct window size = {.columns = read_number(&at)};
    bool has_both = *at == 'x';
    if (has_both) at++, size.rows = read_number(&at);
    if (has_both && *at == 0 && is_size(&size)) return size;
    fail(2, "new: --size is columns and rows, as 120x40: 2 to %d columns and 2 to %d rows, not '%.100s'", VT220_MOST_COLUMNS, VT220_MOST_ROWS, given);
}

/* Returns the size of a new session: that of its option, of the window of a client that attaches at once, or otherwise a VT220's. */
static struct window size_wanted(const struct options *options) {
    size_t rows = VT220_ROWS, columns = NARROW;
    if (options->size != NULL) return size_given(options->size);
    if (options->attaches && isatty(STDIN_FILENO)) outer_size(&rows, &columns);
    return nearest_size(rows, columns);
}

static int do_new(char **words, const struct options *options) {
    struct folder folder = open_folder();
    struct beginning beginning = {words[0], options->locale, words + 1, language_wanted(options), size_wanted(options), options->size != NULL};
    check_name(words[0]);
    if (strcmp(words[1], "--") == 0) beginning.command++;
    if (*beginning.command == NULL) fail(2, "new: an argument is missing; vt220-keep --help shows which");
    if (is_there(&folder, words[0], options->attaches)) {
        if (!options->attaches) fail(1, "session %s already exists", words[0]);
    } else {
        if (options->attaches) attach_needs(words[0]);
        start_session(&folder, &beginning);
    }
    return options->attaches ? attach(existing(&folder, words[0]), words[0], false, true) : 0;
}

static int do_attach(char **words, const struct options *options) {
    struct folder folder = open_folder();
    return attach(existing(&folder, words[0]), words[0], options->is_read_only, false);
}

static int do_list(char **words, const struct options *options) {
    struct folder folder = open_folder();
    (void)words;
    list_sessions(&folder, options->is_for_scripts);
    return 0;
}

static int do_send(char **words, const struct options *options) {
    struct folder folder = open_folder();
    send_keys_to(&folder, words[0], words + 1, options->is_text);
    return 0;
}

static int ask(const char *name, char letter, const char *argument) {
    static uint8_t bytes[FRAME_LIMIT];
    struct folder folder = open_folder();
    size_t len = wire_ask(existing(&folder, name), name, letter, argument, bytes);
    fwrite(bytes, 1, len, stdout);
    return 0;
}

static int do_detach(char **words, const struct options *options) {
    (void)options;
    return ask(words[0], ASK_DETACH, NULL);
}

static int do_text(char **words, const struct options *options) {
    (void)options;
    return ask(words[0], ASK_TEXT, NULL);
}

static int do_log(char **words, const struct options *options) {
    (void)options;
    struct folder folder = open_folder();
    size_t len;
    uint64_t lost;
    uint8_t *log = wire_ask_log(existing(&folder, words[0]), words[0], &len, &lost);
    fwrite(log, 1, len, stdout);
    free(log);
    if (fflush(stdout) == 0 && lost > 0) fail(1, "%s wrote faster than its log could be read: %llu bytes of it are missing", words[0], (unsigned long long)lost);
    return 0;
}

static int do_repaint(char **words, const struct options *options) {
    (void)options;
    return ask(words[0], ASK_REPAINT, NULL);
}

static int do_kill(char **words, const struct options *options) {
    (void)options;
    return ask(words[0], ASK_KILL, NULL);
}

static int do_rename(char **words, const struct options *options) {
    (void)options;
    check_name(words[1]);
    return ask(words[0], ASK_RENAME, words[1]);
}

static int do_upgrade(char **words, const struct options *options) {
    (void)options;
    struct folder folder = open_folder();
    wire_ask_upgrade(existing(&folder, words[0]), words[0]);
    return 0;
}

/* `fleet host` becomes this: a keeper in the foreground, whose session the host daemon publishes. It ends with the command's status. Its arguments are
 * the daemon's socket, the patience, 1 if viewers may type, the bytes between checkpoints, the locale, the encoding, the terminal, the size, the name
 * in the store, and the command. */
static int do_publish(char **words, const struct options *options) {
    struct options wanted = {.locale = words[4], .encoding = words[5], .terminal = words[6]};
    struct folder folder = open_folder();
    struct publication publication = {words[0], words[8], *words[2] == '1', (uint64_t)atoll(words[3]), atoll(words[1])};
    struct beginning beginning = {NULL, words[4], words + 9, language_wanted(&wanted), size_given(words[7]), true};
    (void)options;
    publish_session(&folder, &publication, &beginning);
}

/* A keeper runs this on the file of its state. */
static int do_resume(char **words, const struct options *options) {
    (void)options;
    resume_session(atoi(words[0]), words[1] != NULL ? atoi(words[1]) : -1);
}

/* Becomes the program that serves a session to browsers. It is installed with vt220-page; in the repository it is in apps/keep/. */
static int do_serve(char **words, const struct options *options) {
    static const char *const places[] = {"../lib/vt220/vt220-keep-serve", "../apps/keep/serve"};
    char path[PATH_MAX];
    (void)options;
    ssize_t len = readlink("/proc/self/exe", path, sizeof path - 64);
    if (len < 0) fail(1, "/proc/self/exe: %s", strerror(errno));
    path[len] = 0;
    char *name = strrchr(path, '/') + 1;
    for (size_t i = 0; i < sizeof places / sizeof *places; i++) {
        strcpy(name, places[i]);
        words[-1] = path;
        execv(path, words - 1);
    }
    fail(1, "serve: vt220-keep-serve: %s; it is installed with vt220-page", strerror(errno));
}

static int do_help(char **words, const struct options *options) {
    (void)words, (void)options;
    fputs(usage, stdout);
    return 0;
}

static int do_version(char **words, const struct options *options) {
    (void)words, (void)options;
    puts("vt220-keep " KEEP_VERSION);
    return 0;
}

static const struct command {
    const char *word, *letters; /* its name, and its options of one letter */
    int least, most;            /* how many arguments it takes after these */
    int (*run)(char **words, const struct options *options);
} commands[] = {{"new", "+hA", 2, INT_MAX, do_new},   {"attach", "+hr", 1, 1, do_attach}, {"detach", "+h", 1, 1, do_detach},
                {"list", "+h", 0, 0, do_list},        {"text", "+h", 1, 1, do_text},      {"log", "+h", 1, 1, do_log},
                {"repaint", "+h", 1, 1, do_repaint},  {"upgrade", "+h", 1, 1, do_upgrade}, {RESUME, "+h", 1, 2, do_resume}, {PUBLISH, "+h", 10, INT_MAX, do_publish},
                {"send", "+hl", 1, INT_MAX, do_send}, {"kill", "+h", 1, 1, do_kill},      {"rename", "+h", 2, 2, do_rename},
                {"serve", "", 0, INT_MAX, do_serve},
                {"help", "+h", 0, 1, do_help},        {"--help", "+h", 0, 0, do_help},    {"-h", "+h", 0, 0, do_help},
                {"version", "+h", 0, 0, do_version},  {"--version", "+h", 0, 0, do_version}};

static const struct command *command_of(const char *word) {
    for (size_t i = 0; i < sizeof commands / sizeof *commands; i++) {
        if (strcmp(word, commands[i].word) == 0) return &commands[i];
    }
    fail(2, "unknown command '%s'; vt220-keep --help lists them", word);
}

/* Reads the options after the command; returns the index of the first argument. */
static int read_options(const struct command *command, int argc, char **argv, struct options *options) {
    static const struct option none[] = {{"help", 0, NULL, 'h'}, {0}}, for_new[] = {{"help", 0, NULL, 'h'}, {"locale", 1, NULL, 'L'}, {"encoding", 1, NULL, 'E'}, {"terminal", 1, NULL, 'T'}, {"size", 1, NULL, 'S'}, {0}},
                               for_list[] = {{"help", 0, NULL, 'h'}, {"tsv", 0, NULL, 't'}, {0}};
    const struct option *longer = command->run == do_new ? for_new : command->run == do_list ? for_list : none;
    opterr = 0;
    for (int letter; (letter = getopt_long(argc - 1, argv + 1, command->letters, longer, NULL)) >= 0;) {
        switch (letter) {
        case 'h': fputs(usage, stdout), exit(fflush(stdout) == 0 ? 0 : 1);
        case 'A': options->attaches = true; break;
        case 'r': options->is_read_only = true; break;
        case 'l': options->is_text = true; break;
        case 't': options->is_for_scripts = true; break;
        case 'L': options->locale = optarg; break;
        case 'E': options->encoding = optarg; break;
        case 'T': options->terminal = optarg; break;
        case 'S': options->size = optarg; break;
        default: fail(2, "%s: unknown option '%s'; vt220-keep --help lists them", command->word, argv[optind < argc ? optind : argc - 1]);
        }
    }
    return optind + 1;
}

/* Opens standard streams that were closed, so that no other file gets one of their numbers. Closes all other files that were
 * left open: otherwise they would stay open in the keeper and in the command. Those of a session that goes on are its own. */
static void set_files(bool is_resumed) {
    int file;
    while ((file = open("/dev/null", O_RDWR)) >= 0 && file < 3) {}
    if (file >= 3) close(file);
    if (!is_resumed) close_range(3, UINT_MAX, 0);
}

int main(int argc, char **argv) {
    struct options options = {0};
    set_files(argc > 1 && strcmp(argv[1], RESUME) == 0);
    if (argc < 2) {
        fputs(usage, stderr);
        return 2;
    }
    const struct command *command = command_of(argv[1]);
    /* `serve` passes its options on. */
    int at = command->run == do_serve ? 2 : read_options(command, argc, argv, &options);
    if (argc - at < command->least) fail(2, "%s: an argument is missing; vt220-keep --help shows which", command->word);
    if (argc - at > command->most) fail(2, "%s: unexpected argument '%s'", command->word, argv[at + command->most]);
    set_patience();
    int status = command->run(argv + at, &options);
    if (fflush(stdout) != 0) fail(1, "standard output: %s", strerror(errno));
    return status;
}
