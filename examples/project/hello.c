// Greets each of its words, or the world.
#include <stdio.h>

int main(int count, char **words) {
    if (count == 1) {
        puts("Hello, world!");
    }
    for (int i = 1; i < count; i++) {
        printf("Hello, %s!\n", words[i]);
    }
    return 0;
}
