/* Policies as people at the bench read and type them.
 *
 *   desk read TEXT POLICY   makes the policy file POLICY from the line in TEXT; POLICY is made or replaced whole, or left as it was
 *   desk write POLICY       prints the line of the policy file POLICY
 *
 * A file named `-` is standard input or output. Status 1: the text or policy file is refused, and standard error says where and why.
 * Status 2: wrong arguments. Status 3: a file that cannot be read or written or is larger than any that the library accepts. */
#define _POSIX_C_SOURCE 200809L
#include "program.h"

#include <signal.h>
#include <sys/stat.h>
#include <unistd.h>

/* Spaces that always suffice (sinkheron.h). */
enum { LONGEST_FILE = 766, LONGEST_LINE = 2927 };

static int is_dash(const char *name) { return strcmp(name, "-") == 0; }

static int load_block(const char *name, const char *kind, struct block *into)
{
    return is_dash(name) ? load_open("desk", stdin, "standard input", kind, into) : load("desk", name, kind, into);
}

/* ---- output, whole or not at all */

static int cannot_write(const char *name, const char *why)
{
    fprintf(stderr, "desk: cannot write %s: %s\n", name, why);
    return 0;
}

static int print(const uint8_t *bytes, size_t length)
{
    if (fwrite(bytes, 1, length, stdout) == length && fflush(stdout) == 0)
        return 1;
    return cannot_write("standard output", strerror(errno));
}

/* A name in the folder of that file, so that renaming stays on one disk. */
static int name_beside(const char *name, char *beside, size_t room)
{
    const char *slash = strrchr(name, '/');
    int folder = slash == NULL ? 0 : (int)(slash + 1 - name);
    return snprintf(beside, room, "%.*s.desk-%ld", folder, name, (long)getpid()) < (int)room;
}

/* On the disk, too, before it is renamed: a file is not to be replaced by one that is still empty there. */
static int fill_file(FILE *file, const uint8_t *bytes, size_t length)
{
    int filled = fwrite(bytes, 1, length, file) == length && fflush(file) == 0 && fsync(fileno(file)) == 0;
    return fclose(file) == 0 && filled;
}

/* From here on no signal that can be held ends the program, so that each failure comes back to it and it removes what it made. */
static void hold_signals(void)
{
    sigset_t all;
    sigfillset(&all);
    sigprocmask(SIG_BLOCK, &all, NULL);
}

static int store(const char *name, const uint8_t *bytes, size_t length)
{
    char beside[4096];
    struct stat there;
    if (stat(name, &there) == 0 && !S_ISREG(there.st_mode))
        return cannot_write(name, "it is not a plain file");
    if (!name_beside(name, beside, sizeof beside))
        return cannot_write(name, "its name is too long");
    hold_signals();
    FILE *file = fopen(beside, "wbx");
    if (file == NULL)
        return cannot_write(name, strerror(errno));
    if (fill_file(file, bytes, length) && rename(beside, name) == 0)
        return 1;
    cannot_write(name, strerror(errno));
    remove(beside);
    return 0;
}

/* ---- what is due at the place of a refusal */

/* Everything that can be due has a letter. */
static const struct {
    char letter;
    const char *name, *choice;
} kinds[] = {
    {'p', "a policy", "pzero, pone, ptar, pnot, pdbd, pand or por"},
    {'t', "a target", "tatom, tnot, topt, tand or tor"},
    {'n', "a name", "a number from 0 to 65535 without leading zeros"},
    {'v', "a value", "a number from 0 to 65535 without leading zeros"},
    {'l', "the line feed", "the policy is complete"},
    {'e', "the end of the text", "a text is one line, and that is complete"},
};

/* The words, and the letters of what each is followed by, the first of them last. */
static const struct {
    const char *word, *followers;
} words[] = {
    {"tatom", "vn"}, {"tnot", "t"},  {"topt", "t"}, {"tand", "tt"}, {"tor", "tt"},  {"pzero", ""},
    {"pone", ""},    {"ptar", "pt"}, {"pnot", "p"}, {"pdbd", "p"},  {"pand", "pp"}, {"por", "pp"},
};

/* The length of the run of bytes up to a space, line feed or end. */
static size_t run_at(const struct block *text, size_t at)
{
    size_t end = at;
    while (end < text->length && text->bytes[end] != ' ' && text->bytes[end] != '\n')
        end++;
    return end - at;
}

/* A number is followed by nothing of its own. */
static const char *followers_of(const uint8_t *run, size_t length)
{
    for (size_t k = 0; k < sizeof words / sizeof *words; k++)
        if (strlen(words[k].word) == length && memcmp(words[k].word, run, length) == 0)
            return words[k].followers;
    return "";
}

struct due {
    int space_first;
    char letter;
};

/* Walks from word to word up to the place. It checks nothing: a refusal is at the first fault from the left, so what stands before its
 * place is the front of a line, at most 255 words and their numbers, parted as they must be. Each word takes away one letter and adds at
 * most two, so there are at most 3 + 255 of them; the last is due next. */
static struct due due_at(const struct block *text, size_t place)
{
    char letters[3 + 255 + 1] = "elp";
    size_t count = 3, at = 0;
    int gap = 0;
    while (at < place) {
        if (gap) {
            count -= letters[count - 1] == 'l' ? 1 : 0; /* a space takes no letter away, the line feed its own */
            at++;
        } else {
            size_t length = run_at(text, at);
            const char *followers = followers_of(text->bytes + at, length);
            strcpy(letters + count - 1, followers);
            count = count - 1 + strlen(followers);
            at += length;
        }
        gap = !gap;
    }
    struct due due = {gap && letters[count - 1] != 'l', letters[count - 1]};
    return due;
}

static void print_due(struct due due)
{
    size_t k = 0;
    while (kinds[k].letter != due.letter)
        k++;
    fprintf(stderr, due.space_first ? "a space is due here, then %s: %s" : "%s is due here: %s", kinds[k].name, kinds[k].choice);
}

/* ---- what is met there */

static int is_shown(uint8_t byte) { return byte >= ' ' && byte <= '~'; }

static const char *byte_name(uint8_t byte)
{
    return byte == '\t' ? " (tab)" : byte == '\r' ? " (carriage return)" : "";
}

/* A word is named up to its first byte that no screen shows, and that byte by its number. */
static void print_word(const uint8_t *word, size_t length)
{
    enum { NAMED = 40 };
    size_t shown = 0;
    while (shown < length && shown < NAMED && is_shown(word[shown]))
        shown++;
    fprintf(stderr, "%.*s", (int)shown, (const char *)word);
    if (shown == NAMED && shown < length)
        fprintf(stderr, "...");
    else if (shown < length)
        fprintf(stderr, "%sbyte 0x%02x%s", shown == 0 ? "" : " and then ", word[shown], byte_name(word[shown]));
}

static void print_met(const struct block *text, size_t place)
{
    size_t length = run_at(text, place);
    if (length > 0)
        print_word(text->bytes + place, length);
    else if (place == text->length)
        fprintf(stderr, "the end of the text");
    else
        fprintf(stderr, text->bytes[place] == ' ' ? "a space" : "a line feed");
}

/* ---- the line and a caret */

static size_t line_end(const struct block *text, size_t at)
{
    while (at < text->length && text->bytes[at] != '\n')
        at++;
    return at;
}

/* One character for each byte, so that the caret stands right. */
static void print_bytes(const uint8_t *bytes, size_t length)
{
    for (size_t k = 0; k < length; k++)
        fputc(is_shown(bytes[k]) ? bytes[k] : '?', stderr);
}

/* The line that the place is in, of a long one the part around it. Only behind a whole line can the place be in a second one, and then
 * it is that one's first byte. */
static void print_line(const struct block *text, size_t place)
{
    enum { BEFORE = 40, BEHIND = 32 };
    static const char more[] = "...";
    size_t begin = place > 0 && text->bytes[place - 1] == '\n' ? place : 0, end = line_end(text, place);
    size_t from = place - begin > BEFORE ? place - BEFORE : begin, to = end - place > BEHIND ? place + BEHIND : end;
    const char *left = from > begin ? more : "", *right = to < end ? more : "";
    fprintf(stderr, "%s", left);
    print_bytes(text->bytes + from, to - from);
    fprintf(stderr, "%s\n%*s^\n", right, (int)(strlen(left) + place - from), "");
}

static void explain(const struct block *text, uint64_t word)
{
    unsigned number = sinkheron_number(word);
    size_t place = sinkheron_place(word);
    if (number == 13) { /* of the space, not of the text; what is lent here suffices, but a caret would mislead */
        print_refusal(stderr, "not read", word, text);
        return;
    }
    fprintf(stderr, "not read: refused %u at %lu\n", number, (unsigned long)place);
    print_line(text, place);
    if (number == 6 || number == 7)
        fprintf(stderr, "%s here", refusal(number));
    else
        print_due(due_at(text, place));
    fprintf(stderr, "; met ");
    print_met(text, place);
    fputc('\n', stderr);
}

/* ---- the two commands */

static int read_text(const char *text_name, const char *policy_name)
{
    static struct block text;
    uint8_t file[LONGEST_FILE];
    if (!load_block(text_name, "the line of a policy", &text))
        return STATUS_FILE;
    uint64_t word = sinkheron_read_text(text.bytes, text.length, file, sizeof file);
    if (sinkheron_number(word) != 0) {
        explain(&text, word);
        return STATUS_REFUSED;
    }
    size_t length = sinkheron_file_length(word);
    int done = is_dash(policy_name) ? print(file, length) : store(policy_name, file, length);
    return done ? 0 : STATUS_FILE;
}

static int write_text(const char *policy_name)
{
    static struct block policy;
    uint8_t line[LONGEST_LINE];
    if (!load_block(policy_name, "a policy file", &policy))
        return STATUS_FILE;
    uint64_t word = sinkheron_write_text(policy.bytes, policy.length, line, sizeof line);
    if (sinkheron_number(word) != 0) {
        print_refusal(stderr, "not written", word, &policy);
        return STATUS_REFUSED;
    }
    return print(line, sinkheron_file_length(word)) ? 0 : STATUS_FILE;
}

int main(int count, char **argument)
{
    if (count == 4 && strcmp(argument[1], "read") == 0)
        return read_text(argument[2], argument[3]);
    if (count == 3 && strcmp(argument[1], "write") == 0)
        return write_text(argument[2]);
    fprintf(stderr, "usage: desk read TEXT POLICY   make the policy file POLICY from the line in TEXT\n"
                    "       desk write POLICY       print the line of the policy file POLICY\n"
                    "A file named - is standard input or output\n");
    return STATUS_USAGE;
}
