// hostile PROGRAM SEED TRIES SECONDS FOLDER FILE..: gives the program inputs that nobody would write, and checks its answers.
// It stops after TRIES tries, or after SECONDS seconds if TRIES is 0.
//
// An input is one of the files with a few bytes changed, cut out, doubled or taken from another file; or random bytes; or lines of
// random words, for the assembler and the reader of hex words. It goes to one of the commands that read a file, or a trace and an
// image. `debug` gets lines of a debugger, some of them right, cut into random pieces; in one of eight sessions the connection is
// closed in the middle.
//
// The program has to end by itself within 20 seconds of its own time and 60 on the clock, in bounded memory, with a status from 0 to
// 6. If the status is 0, 1, 5 or 6, it prints nothing on standard error. Otherwise it prints one fault with a code there, and no
// output. There are two exceptions. If sizes are not explored, `explore --every` prints a line for each size, and a fault for each
// that is not. If `explore` gives up, it prints what it has found, and says that it is incomplete. Each line of a debugger has one
// reply, up to the first `quit` and while the connection holds, and every reply is of a documented form.
//
// Inputs that break this are saved in FOLDER, each with a line on standard output. The last line counts the tries by status.
#define _GNU_SOURCE
#include <errno.h>
#include <fcntl.h>
#include <netinet/in.h>
#include <poll.h>
#include <regex.h>
#include <signal.h>
#include <stdbool.h>
#include <stdint.h>
#include <stdio.h>
#include <stdlib.h>
#include <string.h>
#include <sys/mman.h>
#include <sys/resource.h>
#include <sys/socket.h>
#include <sys/stat.h>
#include <sys/syscall.h>
#include <sys/wait.h>
#include <time.h>
#include <unistd.h>

enum { MOST_BYTES = 1 << 15, MOST_FILES = 256, STATUSES = 7 };

// What a command takes after its options.
enum takes { A_FILE, A_SEARCHED_FILE, A_FILE_AND_NOWHERE, A_TRACE_AND_AN_IMAGE, AN_IMAGE_OF_EVERY_SIZE, LINES };

// A command that reads a trace. bench/hostile defines TRACE_COMMANDS as the row of each of them.
#define ON_A_TRACE(name) { name, { NULL }, A_TRACE_AND_AN_IMAGE, 32 << 10 },

// A command, its options, and the most memory that it may take, in KiB: a log of a million instructions for `words`.
static const struct command {
    const char *name, *options[6];
    enum takes takes;
    long kilobytes;
} commands[] = {
    { "words", { NULL }, A_FILE, 96 << 10 },
    { "asm", { NULL }, A_FILE_AND_NOWHERE, 32 << 10 },
    { "check", { NULL }, A_FILE, 32 << 10 },
    { "dis", { NULL }, A_FILE, 32 << 10 },
    { "run", { "--k", "1", "--budget", "2000" }, A_FILE, 32 << 10 },
    { "run", { "--sweep", "--k", "3", "--budget", "20000" }, A_FILE, 32 << 10 },
    { "explore", { "--k", "1", "--states", "2000" }, A_SEARCHED_FILE, 32 << 10 },
    { "explore", { "--k", "6", "--states", "100" }, A_SEARCHED_FILE, 32 << 10 },
    { "explore", { "--each", "--k", "2", "--states", "500" }, A_SEARCHED_FILE, 32 << 10 },
    { "explore", { "--every", "--states", "100" }, AN_IMAGE_OF_EVERY_SIZE, 32 << 10 },
    { "hunt", { "--k", "1", "--runs", "3", "--budget", "1000" }, A_FILE, 32 << 10 },
    TRACE_COMMANDS
    { "debug", { "--k", "1", "--budget", "1000" }, LINES, 32 << 10 },
};

struct bytes {
    size_t count;
    unsigned char at[MOST_BYTES];
};

static uint64_t state;
static struct bytes files[MOST_FILES];
static int file_count;

// xorshift64*: the same tries for the same seed.
static uint64_t number_below(uint64_t bound) {
    state ^= state >> 12;
    state ^= state << 25;
    state ^= state >> 27;
    return (state * 0x2545F4914F6CDD1DULL >> 16) % bound;
}

static void fail(const char *what) {
    perror(what);
    exit(2);
}

static void add(struct bytes *input, const void *bytes, size_t count) {
    if (count > MOST_BYTES - input->count)
        count = MOST_BYTES - input->count;
    memcpy(input->at + input->count, bytes, count);
    input->count += count;
}

static void random_bytes(struct bytes *input) {
    size_t count = number_below(number_below(4) ? 200 : 4000);
    input->count = 0;
    while (input->count < count) {
        unsigned char byte = number_below(256);
        add(input, &byte, 1);
    }
}

static void random_lines(struct bytes *input) {
    static const char *const words[] = {
        "add", "addi", "lui", "auipc", "jal", "jalr", "beq", "bltu", "lw", "lbu", "sh", "sw", "fence", "ecall", "ebreak", "mul", "divu",
        "amoadd.w", "amoswap.w.aqrl", "amomaxu.w", "lr.w", ".word", ".byte", ".shared", ".local", ".code", ".global", "label", "label:",
        "other:", "x0", "x5", "x31", "x32", "x-1", "a0", "sp", "zero", "0", "-1", "2048", "-2049", "4294967295", "4294967296", "0x", "0xffffffff",
        "0b1", "99999999999999999999", "(x5)", "4(x5)", "4(x5", "()", ",", ",,", ":", "#", "# no", ";", "%hi(label)", "%lo(label)", "%hi(", "%lo(0x12345678)",
        "\t", "\r", "\"", "\xff", "\xc3\xa9", "0000006f", "00000073", "FE031CE3", "0072a42f", "1234567", "123456789", "0072A42G",
    };
    size_t count = number_below(120);
    input->count = 0;
    for (size_t i = 0; i < count; i++) {
        const char *word = words[number_below(sizeof words / sizeof *words)];
        static const char *const behind[] = { " ", " ", ", ", "\n", "\n", "" };
        const char *space = behind[number_below(6)];
        add(input, word, strlen(word));
        add(input, space, strlen(space));
    }
}

// The lines of a debugger: most are a command with operands, the right number of them in seven of eight; one in sixteen is no command.
static void random_session(struct bytes *input) {
    static const struct { const char *name; unsigned operands; } lines[] = {
        { "state", 1 }, { "regs", 1 }, { "reg", 2 }, { "set", 3 }, { "mem", 3 }, { "write", 3 }, { "break", 1 }, { "clear", 1 }, { "step", 1 }, { "cont", 0 },
    };
    static const char *const operands[] = {
        "0", "0", "0", "1", "1", "2", "1f", "20", "21", "3f", "40", "200", "201", "2a", "2A00", "10000", "10001", "10004", "10008", "20000", "2fffe",
        "80000000", "80000ffc", "80001000", "90000000", "ffffffff", "00000001", "000000001", "100000000", "-1", "0x1", "g", "0g", "deadbeefdeadbeef", "",
    };
    static const char *const others[] = { "", " ", "quit ", "state 0\r", "STATE 0", "cont 0", "state\t0", "\xff\xfe", " state 0", "state  0", "helo", "quit" };
    size_t count = number_below(60);
    input->count = 0;
    for (size_t i = 0; i < count; i++) {
        if (number_below(16) == 0) {
            const char *other = others[number_below(sizeof others / sizeof *others)];
            add(input, other, strlen(other));
        } else if (number_below(64) == 0) {
            for (size_t bytes = 1020 + number_below(10); bytes > 0; bytes--)
                add(input, "m", 1);
        } else {
            size_t line = number_below(sizeof lines / sizeof *lines);
            unsigned some = number_below(8) ? lines[line].operands : number_below(5);
            add(input, lines[line].name, strlen(lines[line].name));
            for (unsigned j = 0; j < some; j++) {
                const char *operand = operands[number_below(sizeof operands / sizeof *operands)];
                add(input, " ", 1);
                add(input, operand, strlen(operand));
            }
        }
        add(input, "\n", number_below(200) ? 1 : 0);
    }
}

static void changed_file(struct bytes *input) {
    size_t changes = 1 + number_below(6);
    const struct bytes *file = &files[number_below(file_count)];
    input->count = 0;
    add(input, file->at, file->count);
    for (size_t i = 0; i < changes; i++) {
        static unsigned char kept[MOST_BYTES];
        size_t place = input->count ? number_below(input->count) : 0, behind = input->count - place;
        const struct bytes *other = &files[number_below(file_count)];
        size_t from = other->count ? number_below(other->count) : 0, some = number_below(16);
        static const unsigned char edges[] = { 0x00, 0x01, 0x7f, 0x80, 0xff, '\n', '-', '0' };
        switch (number_below(7)) {
        case 0: if (behind) input->at[place] ^= 1 << number_below(8); break;
        case 1: if (behind) input->at[place] = number_below(256); break;
        case 2: if (behind) input->at[place] = edges[number_below(sizeof edges)]; break;
        case 3: input->count = place; break;
        case 4:
            if (some > behind) some = behind;
            memmove(input->at + place, input->at + place + some, behind - some);
            input->count -= some;
            break;
        case 5:
            memcpy(kept, input->at + place, behind);
            if (some > behind) some = behind;
            input->count = place + some;
            add(input, kept, behind);
            break;
        default:
            memcpy(kept, input->at + place, behind);
            input->count = place;
            if (some > other->count - from) some = other->count - from;
            add(input, other->at + from, some);
            add(input, kept, behind);
        }
    }
}

static void make(struct bytes *input) {
    switch (number_below(8)) {
    case 0: random_bytes(input); break;
    case 1: case 2: random_lines(input); break;
    default: changed_file(input);
    }
}

static int memory_file(const char *name) {
    int file = memfd_create(name, 0);
    if (file < 0)
        fail("memfd_create");
    return file;
}

static void write_to(int file, const struct bytes *input) {
    if (ftruncate(file, 0) || pwrite(file, input->at, input->count, 0) != (ssize_t)input->count)
        fail("write");
}

static void path_of(int file, char *path) {
    sprintf(path, "/proc/self/fd/%d", file);
}

struct ended {
    int status, signal, hangs;
    long kilobytes;
};

static pid_t start(char *const words[], int out, int err) {
    if (ftruncate(out, 0) || ftruncate(err, 0) || lseek(out, 0, SEEK_SET) || lseek(err, 0, SEEK_SET))
        fail("ftruncate");
    pid_t child = vfork();
    if (child < 0)
        fail("vfork");
    if (child == 0) {
        static const struct rlimit processor_time = { 20, 20 }, file_size = { 1 << 28, 1 << 28 };
        setrlimit(RLIMIT_CPU, &processor_time);
        setrlimit(RLIMIT_FSIZE, &file_size);
        dup2(out, 1);
        dup2(err, 2);
        execv(words[0], words);
        _exit(127);
    }
    return child;
}

static struct ended end_of(pid_t child) {
    struct ended ended = { -1, 0, 0, 0 };
    struct rusage usage;
    int status;
    int handle = syscall(SYS_pidfd_open, child, 0);
    struct pollfd end = { handle, POLLIN, 0 };
    if (handle >= 0 && poll(&end, 1, 60000) == 0) {
        ended.hangs = 1;
        kill(child, SIGKILL);
    }
    if (handle >= 0)
        close(handle);
    if (wait4(child, &status, 0, &usage) != child)
        fail("wait4");
    if (WIFSIGNALED(status))
        ended.signal = WTERMSIG(status);
    else
        ended.status = WEXITSTATUS(status);
    ended.kilobytes = usage.ru_maxrss;
    return ended;
}

// A connection to the port after the child listens there, or -1 if the child has ended.
static int connection_to(int port, pid_t child) {
    struct sockaddr_in address = { .sin_family = AF_INET, .sin_port = htons(port), .sin_addr = { htonl(INADDR_LOOPBACK) } };
    for (int tries = 0; tries < 20000; tries++) {
        siginfo_t is_over = { 0 };
        int connection = socket(AF_INET, SOCK_STREAM | SOCK_NONBLOCK, 0);
        if (connection < 0)
            fail("socket");
        // A connection to a port of the same machine is made at once, or not at all.
        if (connect(connection, (struct sockaddr *)&address, sizeof address) == 0 || errno == EINPROGRESS) {
            struct pollfd stands = { connection, POLLOUT, 0 };
            if (poll(&stands, 1, 1000) == 1 && !(stands.revents & (POLLERR | POLLHUP)))
                return connection;
        }
        close(connection);
        if (waitid(P_PID, child, &is_over, WEXITED | WNOHANG | WNOWAIT) == 0 && is_over.si_pid == child)
            return -1;
        usleep(1000);
    }
    return -1;
}

// Sends the lines in pieces, and collects the replies. If `is_cut`, the connection is closed after a random number of bytes.
static void converse(int connection, const struct bytes *lines, bool is_cut, struct bytes *replies) {
    size_t sent = 0, most = is_cut ? number_below(lines->count + 1) : lines->count;
    bool is_sending = true;
    replies->count = 0;
    while (true) {
        struct pollfd ready = { connection, POLLIN | (is_sending ? POLLOUT : 0), 0 };
        if (poll(&ready, 1, 60000) < 1)
            break;
        if (ready.revents & (POLLIN | POLLHUP | POLLERR)) {
            static unsigned char some[4096];
            ssize_t count = read(connection, some, sizeof some);
            if (count == 0 || (count < 0 && errno != EAGAIN))
                break;
            if (count > 0)
                add(replies, some, count);
        }
        if (is_sending && (ready.revents & POLLOUT)) {
            size_t piece = 1 + number_below(number_below(2) ? 8 : 2000);
            if (piece > most - sent)
                piece = most - sent;
            ssize_t count = send(connection, lines->at + sent, piece, MSG_NOSIGNAL);
            if (count > 0)
                sent += count;
            is_sending = sent < most && (count >= 0 || errno == EAGAIN);
            if (!is_sending && is_cut)
                break;
            if (!is_sending)
                shutdown(connection, SHUT_WR);
        }
    }
    close(connection);
}

// How many lines there are, up to the first that is `quit`, and whether anything follows that one.
static size_t lines_of(const struct bytes *lines, bool *is_more) {
    size_t count = 0, from = 0;
    *is_more = false;
    for (size_t i = 0; i < lines->count; i++)
        if (lines->at[i] == '\n') {
            count++;
            if (i - from == 4 && !memcmp(lines->at + from, "quit", 4)) {
                *is_more = i + 1 < lines->count;
                break;
            }
            from = i + 1;
        }
    return count;
}

// What is wrong with the replies of a session that ended, or NULL.
static const char *wrong_replies(const struct ended *ended, const struct bytes *lines, bool is_cut, struct bytes *replies, const regex_t *reply) {
    size_t count = 0, from = 0;
    for (size_t i = 0; i < replies->count; i++)
        if (replies->at[i] == '\n') {
            replies->at[i] = 0;
            if (regexec(reply, (char *)replies->at + from, 0, NULL, 0))
                return "a reply";
            from = i + 1;
            count++;
        }
    // Replies that MOST_BYTES cut off are not checked.
    if (is_cut || replies->count == MOST_BYTES || ended->status > 1)
        return NULL;
    // A connection that is closed with unread bytes, those after `quit`, may lose replies on their way.
    bool is_more;
    size_t most = lines_of(lines, &is_more);
    bool is_right = count <= most && (is_more || (count == most && from == replies->count));
    return is_right ? NULL : "the number of replies";
}

// The faults that are printed, each with the line that names its file, and the lines of every size. The faults of a search that gives
// up, and the end of what it prints.
static regex_t fault, faults, sizes, given_up, incomplete;

// The last bytes of an output.
static const char *last_bytes(int out, off_t size) {
    static char printed[4096];
    off_t most = sizeof printed - 1;
    ssize_t count = pread(out, printed, most, size > most ? size - most : 0);
    if (count < 0)
        fail("read");
    printed[count] = 0;
    return printed;
}

// Whether the output is a line for each size, and standard error the faults of some of them.
static bool are_sizes(const char *printed, const char *said) {
    return !regexec(&faults, said, 0, NULL, 0) && !regexec(&sizes, printed, 0, NULL, 0);
}

// Whether the output ends as that of a search that has given up, and standard error says why.
static bool has_given_up(const char *printed, const char *said) {
    return !regexec(&given_up, said, 0, NULL, 0) && !regexec(&incomplete, printed, 0, NULL, 0);
}

// What is wrong with how a run ended, or NULL.
static const char *wrong(const struct ended *ended, const struct command *command, int out, int err) {
    static char said[4096];
    struct stat printed;
    ssize_t count = pread(err, said, sizeof said - 1, 0);
    if (count < 0 || fstat(out, &printed))
        fail("read");
    said[count] = 0;
    if (ended->hangs)
        return "it hangs";
    if (ended->signal)
        return "a signal ended it";
    if (ended->status >= STATUSES)
        return "the status";
    if (ended->kilobytes > command->kilobytes)
        return "the memory that it takes";
    if (ended->status <= 1 || ended->status >= 5)
        return count ? "what it prints on standard error" : NULL;
    if (command->takes == AN_IMAGE_OF_EVERY_SIZE && printed.st_size)
        return are_sizes(last_bytes(out, printed.st_size), said) ? NULL : "the sizes that it reports";
    if (command->takes == A_SEARCHED_FILE && ended->status == 4 && printed.st_size)
        return has_given_up(last_bytes(out, printed.st_size), said) ? NULL : "what it has found before it gives up";
    if (regexec(&fault, said, 0, NULL, 0))
        return "the fault that it reports";
    // A session may fail after it has printed where it listens.
    return printed.st_size && command->takes != LINES ? "what it prints besides a fault" : NULL;
}

int main(int argc, char **argv) {
    if (argc < 7) {
        fprintf(stderr, "usage: hostile PROGRAM SEED TRIES SECONDS FOLDER FILE..\n");
        return 2;
    }
    char *program = argv[1];
    uint64_t seed = strtoull(argv[2], NULL, 10), tries = strtoull(argv[3], NULL, 10), tried = 0, bad = 0, ends[STATUSES] = { 0 };
    time_t last = time(NULL) + atol(argv[4]);
    for (int i = 6; i < argc && file_count < MOST_FILES; i++) {
        int file = open(argv[i], O_RDONLY);
        ssize_t count = file < 0 ? -1 : read(file, files[file_count].at, MOST_BYTES);
        if (count < 0)
            fail(argv[i]);
        close(file);
        files[file_count++].count = count;
    }
    regex_t reply;
    if (regcomp(&reply, "^(ok|E0[1-6]|halted|at (-|[0-9a-f]{1,2})|run|halt [0-9a-f]{2}|fault [1-8]|([0-9a-f]{2})+)$", REG_EXTENDED | REG_NOSUB))
        fail("regcomp");
    if (regcomp(&fault, "^ultra: ([A-Z][0-9]+|Start|alone|budget|link|memory|states)( line [0-9]+| step [0-9]+)?\n(  [^\n]+\n)?$", REG_EXTENDED | REG_NOSUB))
        fail("regcomp");
    if (regcomp(&faults, "^(ultra: (alone|memory|states)\n){1,7}$", REG_EXTENDED | REG_NOSUB) ||
        regcomp(&sizes, "^(k [0-6]: [0-9]+ processors?, [^\n]+\n){7}$", REG_EXTENDED | REG_NOSUB))
        fail("regcomp");
    if (regcomp(&given_up, "^ultra: (memory|states)\n$", REG_EXTENDED | REG_NOSUB) ||
        regcomp(&incomplete, "(^|\n)[0-9]+ results?, [0-9]+ states?\nincomplete: there may be more results\n$", REG_EXTENDED | REG_NOSUB))
        fail("regcomp");
    state = seed * 0x9E3779B97F4A7C15ULL + 1;
    int one = memory_file("one"), other = memory_file("other"), out = memory_file("out"), err = memory_file("err");
    char one_path[32], other_path[32];
    path_of(one, one_path);
    path_of(other, other_path);
    static struct bytes input, second, replies;
    // Programs with different seeds have different ports.
    int port = 20000 + seed % 10000;
    char port_text[8];
    sprintf(port_text, "%d", port);
    while (tries ? tried < tries : time(NULL) < last) {
        const struct command *command = &commands[number_below(sizeof commands / sizeof *commands)];
        bool is_session = command->takes == LINES, is_cut = is_session && number_below(8) == 0;
        const char *words[16] = { program, command->name };
        int count = 2;
        for (int i = 0; i < 6 && command->options[i]; i++)
            words[count++] = command->options[i];
        make(&input);
        // Most sessions get a good image.
        if (is_session && number_below(8))
            input = files[0];
        make(&second);
        if (is_session)
            random_session(&second);
        write_to(one, &input);
        write_to(other, &second);
        if (is_session) {
            words[count++] = "--port";
            words[count++] = port_text;
        }
        words[count++] = one_path;
        if (command->takes == A_FILE_AND_NOWHERE)
            words[count++] = "/dev/null";
        if (command->takes == A_TRACE_AND_AN_IMAGE)
            words[count++] = other_path;
        pid_t child = start((char *const *)words, out, err);
        int connection = is_session ? connection_to(port, child) : -1;
        if (connection >= 0)
            converse(connection, &second, is_cut, &replies);
        struct ended ended = end_of(child);
        const char *what = wrong(&ended, command, out, err);
        if (!what && connection >= 0)
            what = wrong_replies(&ended, &second, is_cut, &replies, &reply);
        tried++;
        if (ended.status >= 0 && ended.status < STATUSES)
            ends[ended.status]++;
        if (what) {
            char path[4096];
            const struct bytes *inputs[] = { &input, &second };
            for (int i = 0; i < 2; i++) {
                snprintf(path, sizeof path, "%s/%s-%llu-%llu-%d", argv[5], command->name, (unsigned long long)seed, (unsigned long long)tried, i);
                FILE *kept = fopen(path, "w");
                if (!kept || fwrite(inputs[i]->at, 1, inputs[i]->count, kept) != inputs[i]->count || fclose(kept))
                    fail(path);
            }
            printf("%s: %s (status %d, signal %d, %ld KiB)\n", path, what, ended.status, ended.signal, ended.kilobytes);
            bad++;
        }
    }
    printf("%llu tries", (unsigned long long)tried);
    for (int i = 0; i < STATUSES; i++)
        printf("%s %llu with status %d", i ? "," : ":", (unsigned long long)ends[i], i);
    printf("; %llu wrong\n", (unsigned long long)bad);
    return bad != 0;
}
