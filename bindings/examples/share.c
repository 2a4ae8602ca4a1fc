/* Asks a fixture for its label by the server of a line: cc share.c -o share && ./share SOCKET UID

   `wurstlinen serve` prints the SOCKET. bindings/python/SERVER.md has the protocol: each line is a JSON object. A real
   program has a library for those. Here two texts are searched for. */
#define _POSIX_C_SOURCE 200809L
#include <signal.h>
#include <stdio.h>
#include <string.h>
#include <sys/socket.h>
#include <sys/un.h>
#include <unistd.h>

static int connected(const char *path) {
    struct sockaddr_un address = {.sun_family = AF_UNIX};
    int server = socket(AF_UNIX, SOCK_STREAM, 0);
    if (strlen(path) >= sizeof address.sun_path) {
        return -1;
    }
    strcpy(address.sun_path, path);
    return connect(server, (struct sockaddr *)&address, sizeof address) == 0 ? server : -1;
}

/* Prints the bytes that a text has in hexadecimal, up to its quotation mark. */
static void print_text(const char *digits) {
    unsigned byte;
    while (sscanf(digits, "%2x", &byte) == 1) {
        putchar((int)byte);
        digits += 2;
    }
    putchar('\n');
}

int main(int count, char **words) {
    char line[1 << 18];
    int server = count == 3 ? connected(words[1]) : -1;
    FILE *answers = server < 0 ? NULL : fdopen(server, "r");
    if (answers == NULL) {
        fprintf(stderr, "usage: share SOCKET UID, with a server's socket\n");
        return 2;
    }
    signal(SIGPIPE, SIG_IGN); /* A server that has ended is seen below. */
    dprintf(server, "{\"do\":\"hello\",\"version\":1,\"name\":\"share\"}\n");
    dprintf(server, "{\"do\":\"get\",\"id\":1,\"uid\":\"%s\",\"pid\":\"0082\"}\n", words[2]);
    while (fgets(line, sizeof line, answers) != NULL) {
        const char *data = strstr(line, "\"data\":\"");
        int is_result = strstr(line, "\"status\"") != NULL;
        /* The server refuses the request, the fixture doesn't answer, or it refuses it or needs time. */
        if (strstr(line, "\"error\"") != NULL || (is_result && strstr(line, "\"ack\":0,") == NULL)) {
            fputs(line, stderr);
            return 1;
        }
        if (data != NULL) {
            print_text(data + strlen("\"data\":\""));
            return 0;
        }
    }
    fprintf(stderr, "the server has ended\n");
    return 1;
}
