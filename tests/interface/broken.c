/* broken FILE..: examples/profile.c for each file in turn, in one process. After what it says of a file comes its status. */
#define main example_main
#include "../../examples/profile.c"
#undef main

int main(int count, char **words) {
    for (int i = 1; i < count; i++) {
        char *alone[] = {words[0], words[i], NULL};
        int status = example_main(2, alone);
        printf("%s: status %d\n", words[i], status);
        fflush(stdout);
    }
    return 0;
}
