/* mzk: plans, runs and force lists of cable nets, over the proved library. The table of its commands, and its help. */

#include <limits.h>
#include <stdlib.h>
#include <string.h>

#include "commands.h"

#ifndef VERSION
#define VERSION "unknown"
#endif

static int help_command(const struct arguments *arguments);

static const struct command commands[] = {
    { "plan", "MATRIX", 1, 1, TAKES(OUTPUT) | TAKES(WORKERS) | TAKES(CLOSENESS) | TAKES(DISTANCE) | TAKES(QUIET),
      plan_command, "plan a net for its workers",
      "Writes a plan file. A summary says its groups, how deep they lie in each other,\n"
      "the longest chain of updates that follow each other, and the share of the\n"
      "workers' time that is used if each makes an update a tick unless it waits.\n"
      "Take 60 for P first. A run takes plans of distance 2, 3 or 4.\n" },
    { "list", "PLAN", 1, 1, TAKES(OUTPUT) | TAKES(MATRIX_FILE) | TAKES(QUIET), list_command,
      "print a plan",
      "Prints the rows in plan order, numbered from 0, then a line for each group, as\n"
      "netplan does. Only the longest chain and the share of the workers' time in the\n"
      "summary need the matrix.\n" },
    { "check", "MATRIX PLAN", 2, 2, TAKES(DISTANCE), check_command, "check that a plan is sound",
      "Says so on standard output, or refuses the plan. A run checks its plan itself.\n" },
    { "draw", "PLAN", 1, 1, TAKES(OUTPUT) | TAKES(MATRIX_FILE), draw_command, "draw a plan as an SVG picture",
      "Draws plan positions across and a lane for each worker, red and blue groups by\n"
      "depth, and when each is worked and what it waits for. Without a matrix time is\n"
      "in rows; with one it is in updates, and the entries are drawn in plan order in\n"
      "their groups' boxes.\n" },
    { "force", "MATRIX MOVEMENTS", 2, 2, TAKES(OUTPUT) | TAKES(CONTROL), force_command,
      "the forces of a net on one core",
      "Writes one force a line, in mN, for one movement a line, in micrometres, each\n"
      "with a line for every row of the matrix.\n" },
    { "run", "MATRIX PLAN MOVEMENTS", 3, 3,
      TAKES(OUTPUT) | TAKES(THREADS) | TAKES(ROUNDS) | TAKES(PICKS_FILE) | TAKES(CREWS) | TAKES(CONTROL) | TAKES(QUIET),
      run_command, "the same, by a plan's workers",
      "Threads make the plan's moves one load or store at a time, in an order that\n"
      "never repeats; or the moves are made in rounds, or by given picks: PICKS has\n"
      "one a line, a worker, or for two crews 16 times the crew, 0 or 1, and a worker.\n"
      "The forces are written if they are those of one core. Progress is shown where\n"
      "standard error is a terminal.\n" },
    { "prepare", "MATRIX PLAN MOVEMENTS", 3, 3, TAKES(OUTPUT), prepare_command, "a job to be picked, in one file",
      "Writes what a run needs of matrix, plan and movements, found once for mzk pick.\n" },
    { "pick", "JOB RUN [PICKS]", 2, 3,
      TAKES(OUTPUT) | TAKES(FRESH) | TAKES(PREVIEW) | TAKES(ROUNDS) | TAKES(FINISHED), pick_command,
      "picks on a run kept in a file",
      "Takes picks on the run of a prepared job that is kept in RUN: PICKS has a worker\n"
      "a line, who makes its next load or store. Tells how many moves were made, and\n"
      "which workers can move now. A pick that is refused stops the list, and RUN keeps\n"
      "what the picks before it made.\n" },
    { "survey", "MATRIX MOVEMENTS", 2, 2, TAKES(OUTPUT) | TAKES(ERROR) | TAKES(SHIFT), survey_command,
      "how far survey errors reach",
      "Writes for each row an amount, in mN, beyond which no shift of the movements by\n"
      "at most T moves its force; or, with --shift, the shift that moves the force of\n"
      "ROW, numbered from 0, by just its amount.\n" },
    { "set", "MATRIX MOVEMENTS FORCES CHANGE ..", 4, INT_MAX,
      TAKES(OUTPUT) | TAKES(NEW_MOVEMENTS) | TAKES(NEW_MATRIX), set_command, "forces brought up to date",
      "CHANGE is ROW=VALUE, a new movement of a row, or ROW,COLUMN=VALUE, a new value\n"
      "of a stored entry; rows are numbered from 0. FORCES must be those of the matrix\n"
      "and the movements. Writes the forces after all changes.\n" },
    { "join", "FIRST SECOND PLACES", 3, 3, TAKES(OUTPUT), join_command, "sew two nets together",
      "PLACES has a line for each row of the second matrix: its row, numbered from 0,\n"
      "in the joined one. The first matrix keeps its rows, and those past it are used\n"
      "without a gap. Writes the joined matrix.\n" },
    { "rows", "STARTS COLUMNS VALUES", 3, 3, TAKES(OUTPUT), rows_command, "a matrix file from full rows",
      "Writes the matrix of list files: where each row starts, from 0, and where the\n"
      "last one ends; the columns of all entries, row by row, ascending and from 0; and\n"
      "their values. Both halves of the matrix are given.\n" },
    { "barrier", "UNIT ACCESS ..", 2, INT_MAX, TAKES(FRESH), barrier_command, "a barrier unit kept in a file",
      "UNIT has ten bytes: the registers 0 to 5, and the releases, low byte first.\n"
      "ACCESS is ADDRESS=BYTE, a write; ADDRESS, a read; line, the interrupt line; or\n"
      "releases, their count. All but writes print a number a line. If one is refused,\n"
      "none is made.\n" },
    { "control", "LIST", 1, 1, 0, control_command, "a list's number, to be read out",
      "Prints the sum of line number times force, modulo 4294967296.\n" },
    { "diff", "LIST LIST", 2, 2, 0, diff_command, "compare two lists",
      "Silent with status 0 if they are the same; else the first line that differs,\n"
      "with both numbers, and status 1.\n" },
    { "help", "[COMMAND]", 0, 1, 0, help_command, "this help, or a command's", "Prints what there is.\n" },
};

enum { COMMANDS = sizeof commands / sizeof *commands };

/* The command of a name, NULL if there is none. */
static const struct command *command_named(const char *name)
{
    for (size_t k = 0; k < COMMANDS; k++)
        if (strcmp(commands[k].name, name) == 0)
            return &commands[k];
    return NULL;
}

/* Ends the program because there is no such command. */
static void refuse_command(const char *name)
{
    fprintf(stderr, "mzk: found '%s', wanted a command:", name);
    for (size_t k = 0; k < COMMANDS; k++)
        fprintf(stderr, " %s", commands[k].name);
    fprintf(stderr, "\n");
    exit(REFUSED);
}

/* Prints the help of all commands. */
static void print_overview(void)
{
    printf("mzk COMMAND ..: plans, runs and force lists of cable nets, by a proved library.\n\n");
    for (size_t k = 0; k < COMMANDS; k++)
        printf("  mzk %-7s %-33s %s\n", commands[k].name, commands[k].operands, commands[k].does);
    printf("\nMATRIX is a Matrix Market file; MOVEMENTS, PICKS, FORCES, PLACES and LIST have\n"
           "one whole number a line. '-' is standard input or output. mzk help COMMAND tells\n"
           "the options, mzk --version the version.\n"
           "Exit status 0: good. 1: lists differ. 2: refused, or wrong arguments.\n"
           "3: a file cannot be read or written.\n");
}

/* Prints the help of a command. */
static void print_help(const struct command *command)
{
    uint32_t options = command->options | TAKES(HELP);
    printf("mzk %s %s [OPTION ..]: %s\n\n%s\n", command->name, command->operands, command->does, command->more);
    print_options(stdout, options);
}

static int help_command(const struct arguments *arguments)
{
    if (arguments->count == 0) {
        print_overview();
    } else {
        const struct command *command = command_named(arguments->operands[0]);
        if (command == NULL)
            refuse_command(arguments->operands[0]);
        print_help(command);
    }
    end_output(stdout, "-");
    return GOOD;
}

/* Runs a command with the words after its name; the exit status. */
static int run_named(const char *name, int count, char **words)
{
    struct arguments arguments = { .command = name };
    const struct command *command = command_named(name);
    if (command == NULL)
        refuse_command(name);
    take_arguments(&arguments, command, count, words);
    if (!is_given(&arguments, HELP))
        return command->run(&arguments);
    print_help(command);
    end_output(stdout, "-");
    return GOOD;
}

int main(int argc, char **argv)
{
    if (argc < 2) {
        fprintf(stderr, "usage: mzk COMMAND ..; see mzk help\n");
        return REFUSED;
    }
    if (strcmp(argv[1], "--version") == 0) {
        printf("mzk %s\n", VERSION);
        end_output(stdout, "-");
        return GOOD;
    }
    bool asks_help = strcmp(argv[1], "--help") == 0 || strcmp(argv[1], "-h") == 0;
    return run_named(asks_help ? "help" : argv[1], argc - 2, argv + 2);
}
