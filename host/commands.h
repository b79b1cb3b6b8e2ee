/* commands.h: the commands of cmm. Each is called with its own name, "cmm NAME", as argv[0], and gives the exit status. */
#ifndef COMMANDS_H
#define COMMANDS_H

int sheet_command(int argc, char **argv);

extern const char sheet_help[];

#endif
