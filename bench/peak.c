/* peak PROGRAM: runs it and prints the most memory it held, in kilobytes. In C, because the memory that a process has before it becomes another
   program counts too, and that of a Python process is more than is measured here. */
#include <stdio.h>
#include <sys/resource.h>
#include <sys/wait.h>
#include <unistd.h>

int main(int count, char **words) {
    if (count != 2) return 2;
    pid_t child = fork();
    if (child == 0) {
        execv(words[1], words + 1);
        _exit(127);
    }
    int status;
    struct rusage used;
    if (child < 0 || wait4(child, &status, 0, &used) < 0 || status != 0) return 1;
    fprintf(stderr, "%ld\n", used.ru_maxrss);
    return 0;
}
