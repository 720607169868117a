/* The commands of the program, each a function of its arguments that gives the exit status. */
#ifndef COMMANDS_H
#define COMMANDS_H

#include "options.h"

int plan_command(const struct arguments *arguments);
int list_command(const struct arguments *arguments);
int check_command(const struct arguments *arguments);
int draw_command(const struct arguments *arguments);
int force_command(const struct arguments *arguments);
int run_command(const struct arguments *arguments);
int prepare_command(const struct arguments *arguments);
int pick_command(const struct arguments *arguments);
int survey_command(const struct arguments *arguments);
int set_command(const struct arguments *arguments);
int join_command(const struct arguments *arguments);
int rows_command(const struct arguments *arguments);
int barrier_command(const struct arguments *arguments);
int control_command(const struct arguments *arguments);
int diff_command(const struct arguments *arguments);

#endif
