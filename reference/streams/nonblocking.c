/* Runs a program whose reads of standard input do not wait: nonblocking PROGRAM [ARGUMENT...] */
#include <fcntl.h>
#include <unistd.h>

int main(int count, char **arguments) {
    if (count < 2 || fcntl(STDIN_FILENO, F_SETFL, O_NONBLOCK) != 0) {
        return 1;
    }
    execv(arguments[1], arguments + 1);
    return 1;
}
