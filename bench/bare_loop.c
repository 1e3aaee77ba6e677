/* Opens, reads and closes each file whose name stands in a line of standard input, and prints how many bytes there
 * were: the least that a search of these files can cost. */
#include <fcntl.h>
#include <stdio.h>
#include <string.h>
#include <unistd.h>

int main(void) {
    static char name[65536], bytes[65536];
    unsigned long long total = 0;
    while (fgets(name, sizeof name, stdin)) {
        name[strcspn(name, "\n")] = 0;
        int file = open(name, O_RDONLY);
        if (file < 0) {
            perror(name);
            return 1;
        }
        ssize_t count;
        while ((count = read(file, bytes, sizeof bytes)) > 0) {
            total += (unsigned long long)count;
        }
        close(file);
    }
    printf("%llu\n", total);
    return 0;
}
