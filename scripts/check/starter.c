/* Loaded before a program, has it begin often for one loading: for each byte from descriptor 198 a child goes on to the program's
   beginning, with the files that STARTED_INPUT and STARTED_OUTPUT name as its input and output. When it has ended, its status is
   written to descriptor 199, as waitpid tells it. For Linux with glibc. */
#define _GNU_SOURCE
#include <fcntl.h>
#include <stdlib.h>
#include <sys/wait.h>
#include <unistd.h>
enum { ASKED = 198, ENDED = 199 };
static void moved(int file, int to) {
    if (file < 0 || dup2(file, to) < 0 || close(file) < 0) _exit(127);
}
static void go_on(const char *input, const char *output) {
    close(ASKED);
    close(ENDED);
    moved(open(input, O_RDONLY), 0);
    moved(open(output, O_WRONLY | O_CREAT | O_TRUNC, 0600), 1);
}
__attribute__((constructor)) static void begin(void) {
    const char *input = getenv("STARTED_INPUT"), *output = getenv("STARTED_OUTPUT");
    char asked;
    while (input && output && read(ASKED, &asked, 1) == 1) {
        int status, child = fork();
        if (child == 0) {
            go_on(input, output);
            return;
        }
        if (child < 0 || waitpid(child, &status, 0) != child || write(ENDED, &status, sizeof status) != sizeof status) _exit(127);
    }
    if (input && output) _exit(0);
}
