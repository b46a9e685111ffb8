/* The bench tool: runs the proved machine on memory images, all at once or call by call. */
#include "tool.h"

#include <errno.h>
#include <stdlib.h>
#include <string.h>

_Noreturn void tool_usage(const char *complaint, const char *word)
{
    fflush(stdout);
    fprintf(stderr, "iop89: %s%s%s\n", complaint, word != NULL ? ": " : "", word != NULL ? word : "");
    fputs("iop89: \"iop89 help\" says how it is called\n", stderr);
    exit(TOOL_FAILED);
}

_Noreturn void tool_give_up(const char *what)
{
    int why = errno;
    fflush(stdout);
    fprintf(stderr, "iop89: %s: %s\n", what, strerror(why));
    exit(TOOL_FAILED);
}

/* Ends with a status, or with TOOL_FAILED where the output could not be written. */
static int ended(enum tool_status status)
{
    if (fflush(stdout) != 0 || ferror(stdout)) tool_give_up("standard output");
    return (int)status;
}

/* The command of a name. */
static const struct tool_command *command_of(const char *name)
{
    for (const struct tool_command *c = tool_commands; c->name != NULL; c++)
        if (strcmp(name, c->name) == 0) return c;
    tool_usage("no such command", name);
}

/* Says how the tool is called; as a page for man and as a line for a shell where these are asked for. */
static enum tool_status help(int count, char **words)
{
    if (count > 1) tool_usage("help takes one command", words[1]);
    if (count == 0) tool_print_help(stdout, NULL);
    else if (strcmp(words[0], "man-page") == 0) tool_print_page();
    else if (strcmp(words[0], "bash-completion") == 0) tool_print_completion();
    else tool_print_help(stdout, command_of(words[0]));
    return TOOL_DONE;
}

/* Says the versions of header and archives. */
static enum tool_status version(void)
{
    printf("iop89 %u.%u, archives %u.%u and %u.%u, states of version %u\n", IOP89_VERSION / 100, IOP89_VERSION % 100,
           (unsigned)iop89_version() / 100, (unsigned)iop89_version() % 100, (unsigned)iop89_service_version() / 100,
           (unsigned)iop89_service_version() % 100, IOP89_STATE_VERSION);
    return TOOL_DONE;
}

/* Reads the words of a command that has options, and does what they ask for. */
static enum tool_status run(const struct tool_command *command, int count, char **words)
{
    const struct tool_processor usual = {.io_length = UINT32_MAX};
    struct tool_order order = {.command = command, .of = {usual, usual}, .system_length = UINT32_MAX, .limit = 1000,
                               .count = UINT32_MAX, .room = 65536};
    for (int i = 0; i < count; i++) {
        if (strcmp(words[i], "--help") != 0 && strcmp(words[i], "-h") != 0) continue;
        tool_print_help(stdout, command);
        return TOOL_DONE;
    }
    tool_read_order(&order, count, words);
    enum tool_status status = command->run(&order);
    free(order.of[0].lines.number);
    free(order.of[1].lines.number);
    return status;
}

int main(int count, char **words)
{
    if (count < 2) tool_usage("no command", NULL);
    if (strcmp(words[1], "--version") == 0) return ended(version());
    if (strcmp(words[1], "--help") == 0 || strcmp(words[1], "-h") == 0) return ended(help(count - 2, words + 2));
    const struct tool_command *command = command_of(words[1]);
    if (command->bit == TOOL_HELP) return ended(help(count - 2, words + 2));
    if (command->bit == TOOL_EXPLAIN) {
        if (count != 3) tool_usage("explain takes one number", count > 3 ? words[3] : NULL);
        return ended(tool_explain(words[2]));
    }
    return ended(run(command, count - 2, words + 2));
}
