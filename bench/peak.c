/* Runs a program without its output, and prints the most memory that it held, in bytes.

   usage: peak PROGRAM WORD... */
#include <fcntl.h>
#include <stdio.h>
#include <sys/resource.h>
#include <sys/wait.h>
#include <unistd.h>

int main(int words, char **word) {
    int status = 1;
    struct rusage usage = {0};
    pid_t child = words > 1 ? fork() : -1;
    if (child == 0) {
        dup2(open("/dev/null", O_WRONLY), 1);
        execvp(word[1], word + 1);
        _exit(127);
    }
    if (child < 0 || wait4(child, &status, 0, &usage) < 0 || status != 0) return 1;
    printf("%ld\n", 1024 * usage.ru_maxrss);
    return 0;
}
