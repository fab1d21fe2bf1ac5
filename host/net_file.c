/* See net_file.h. */
#include "net_file.h"

#include <stdio.h>
#include <stdlib.h>
#include <string.h>

static void fail(const char *path, const char *why) {
    fprintf(stderr, "%s: %s\n", path, why);
    exit(2);
}

/* the words of a line, up to its comment */
static void read_line(const char *path, char *line, struct words *to) {
    line[strcspn(line, "#\n")] = 0;
    for (char *word = strtok(line, " "); word; word = strtok(NULL, " ")) {
        char *end;
        unsigned long number = strtoul(word, &end, 16);
        if (*end != 0 || strlen(word) != 8) fail(path, "not a word of eight hexadecimal digits");
        if (to->length == ROOM) fail(path, "too many words");
        to->at[to->length++] = (uint32_t)number;
    }
}

void read_net_file(const char *directory, const char *name, struct words *net, struct words *marking) {
    char path[1024], line[1024];
    snprintf(path, sizeof path, "%s/%s", directory, name);
    FILE *file = fopen(path, "r");
    struct words *to = net;
    net->length = marking->length = 0;
    if (!file) {
        perror(path);
        exit(2);
    }
    while (fgets(line, sizeof line, file)) {
        if (strcmp(line, "marking\n") == 0) to = marking;
        else read_line(path, line, to);
    }
    if (ferror(file) || fclose(file) != 0) fail(path, "cannot be read to its end");
}
