/* The signal of macOS that posix.c asks for. */
#ifndef URLCHECK_MACOS_SIGNAL_H
#define URLCHECK_MACOS_SIGNAL_H

enum { SIGPIPE = 13 };

#define SIG_IGN ((void (*)(int))1)
#define SIG_ERR ((void (*)(int))-1)

void (*signal(int number, void (*action)(int)))(int);

#endif
