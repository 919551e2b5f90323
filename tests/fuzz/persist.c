/* Trials one after the other in one process, as AFL++ provides them. Each is the program's own main, with the same arguments, over
   standard input, which AFL++ rewinds. A trial that fails ends the process with its status. Called alone it plays one trial. */
#include <unistd.h>

int trial_main(int argc, char **argv);
int __afl_persistent_loop(unsigned int count);

/* afl-fuzz looks for this text in the program. */
static const volatile char persistent[] = "##SIG_AFL_PERSISTENT##";

enum { TRIALS_A_PROCESS = 10000 };

int main(int argc, char **argv)
{
    (void)persistent[0];
    while (__afl_persistent_loop(TRIALS_A_PROCESS)) {
        int status = trial_main(argc, argv);
        if (status != 0)
            _exit(status);
    }
    return 0;
}
