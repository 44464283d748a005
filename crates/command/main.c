/* The start of the command nakvisk. Its work is the proved crate command, whose `main` is called here. A write to a closed pipe, or past the
 * limit on a file's size, shall fail and be told, and not end the process with its part left behind. */
#include <signal.h>

int __real_main(int argc, char **argv);
int __wrap_main(int argc, char **argv);

int __wrap_main(int argc, char **argv) {
    signal(SIGPIPE, SIG_IGN);
    signal(SIGXFSZ, SIG_IGN);
    return __real_main(argc, argv);
}
