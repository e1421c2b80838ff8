/* relay ADDRESS PORT HOST:PORT..: a plain relay of bytes. It takes one connection on the port, connects to each of the others, and
 * hands on to all of them what comes, until that ends. It keeps nothing and looks at nothing: it is what a switch's lines are
 * measured against. */
#include <arpa/inet.h>
#include <netinet/in.h>
#include <netinet/tcp.h>
#include <stdio.h>
#include <stdlib.h>
#include <string.h>
#include <sys/socket.h>
#include <unistd.h>

enum { PIECE = 65536, MOST = 64 };

static char piece[PIECE];
static int takers[MOST];

static void fail(const char *what)
{
    perror(what);
    exit(1);
}

static int made(const char *address, const char *port, struct sockaddr_in *at)
{
    int one = 1, made = socket(AF_INET, SOCK_STREAM, 0);
    memset(at, 0, sizeof *at);
    at->sin_family = AF_INET;
    at->sin_port = htons((unsigned short)atoi(port));
    if (made < 0 || inet_pton(AF_INET, address, &at->sin_addr) != 1)
        fail(address);
    setsockopt(made, SOL_SOCKET, SO_REUSEADDR, &one, sizeof one);
    setsockopt(made, IPPROTO_TCP, TCP_NODELAY, &one, sizeof one);
    return made;
}

static void say(int to, ssize_t count)
{
    for (ssize_t at = 0; at < count;) {
        ssize_t done = write(to, piece + at, (size_t)(count - at));
        if (done < 0)
            fail("write");
        at += done;
    }
}

int main(int count, char **words)
{
    struct sockaddr_in at;
    int listener, giver, all = 0;
    ssize_t came;
    if (count < 4 || count - 3 > MOST)
        return 2;
    listener = made(words[1], words[2], &at);
    if (bind(listener, (struct sockaddr *)&at, sizeof at) < 0 || listen(listener, 1) < 0)
        fail("listen");
    for (int word = 3; word < count; word++) {
        char *port = strchr(words[word], ':');
        if (port == NULL)
            return 2;
        *port = '\0';
        takers[all] = made(words[word], port + 1, &at);
        if (connect(takers[all++], (struct sockaddr *)&at, sizeof at) < 0)
            fail("connect");
    }
    if ((giver = accept(listener, NULL, NULL)) < 0)
        fail("accept");
    while ((came = read(giver, piece, PIECE)) > 0)
        for (int taker = 0; taker < all; taker++)
            say(takers[taker], came);
    return came < 0;
}
