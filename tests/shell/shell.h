/* The sizes that document 02, request e), gives the plan shell, for the second shell and for the maker of its sessions. */
#ifndef SHELL_H
#define SHELL_H

/* Most sites that are held. */
#define MOST_SITES 32
/* Most bytes of a NAME. */
#define MOST_NAME 12
/* Most digits of a number. */
#define MOST_DIGITS 7
/* Bytes of a NAME4. */
#define FILE_NAME 4
/* Bytes of the longest legal line: masts, two names and two numbers, with spaces between. */
#define LONGEST_LINE 47
/* Bytes of a record, and of the longest file that `use` loads, which has 60. */
#define RECORD_BYTES 1024
#define MOST_FILE (60 * RECORD_BYTES)

#endif
