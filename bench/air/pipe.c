/* The one program of a guest: it joins sockets of the Linux kernel's AX.25 and NET/ROM with streams of TCP, packet by packet.
 *
 *     pipe listen PORT           waits for streams; the first line of each says what it is for:
 *                                    ax25 OWN PORTCALL DEST      links to DEST as OWN, at the port of that call
 *                                    netrom OWN NODECALL DEST    opens a circuit to DEST as OWN, at the node of that call
 *                                    sh COMMAND                  runs it, and the stream has what it prints
 *     pipe serve HOST PORT       standard input is a link or circuit that came (ax25d starts it so): joined with that TCP port
 *
 * A stream then has packets: two octets of length, the higher first, and as many bytes, each one packet of the socket. To the guest, length 0
 * closes it once all is acknowledged, and length 65535 at once. From the guest, length 0 is followed by one octet: 0 where the other side
 * closed in order, else the number of the error (errno).
 * A call that fails ends so at once; one that is made is told first by one packet of one byte.
 */
#define _GNU_SOURCE
#include <arpa/inet.h>
#include <errno.h>
#include <fcntl.h>
#include <netax25/ax25.h>
#include <netinet/in.h>
#include <netinet/tcp.h>
#include <poll.h>
#include <signal.h>
#include <stdio.h>
#include <stdlib.h>
#include <string.h>
#include <sys/ioctl.h>
#include <sys/socket.h>
#include <sys/wait.h>
#include <unistd.h>

static unsigned char came[65538], held[65536];

static void all(int fd, const void *from, size_t n)
{
    while (n > 0) {
        ssize_t put = write(fd, from, n);
        if (put <= 0)
            exit(1);
        from = (const char *)from + put;
        n -= put;
    }
}

static int whole(int fd, void *to, size_t n)
{
    size_t got = 0;
    while (got < n) {
        ssize_t one = read(fd, (char *)to + got, n - got);
        if (one <= 0)
            return 0;
        got += one;
    }
    return 1;
}

static void tell_end(int tcp, int why)
{
    unsigned char end[3] = {0, 0, why};
    all(tcp, end, 3);
}

/* A call as the kernel has it: six characters shifted left, and the SSID. */
static void call_of(const char *text, ax25_address *to)
{
    int at = 0;
    for (; at < 6; at++)
        to->ax25_call[at] = (*text && *text != '-' ? *text++ : ' ') << 1;
    to->ax25_call[6] = (*text == '-' ? atoi(text + 1) : 0) << 1;
}

static int call_out(int family, const char *own, const char *port, const char *dest)
{
    struct full_sockaddr_ax25 from = {0}, to = {0};
    int fd = socket(family, SOCK_SEQPACKET, 0);
    from.fsa_ax25.sax25_family = to.fsa_ax25.sax25_family = family;
    from.fsa_ax25.sax25_ndigis = 1;
    /* (of a link the source stands first and the port behind it, of a circuit the node first and the user behind it) */
    call_of(family == AF_AX25 ? own : port, &from.fsa_ax25.sax25_call);
    call_of(family == AF_AX25 ? port : own, &from.fsa_digipeater[0]);
    call_of(dest, &to.fsa_ax25.sax25_call);
    if (fd < 0 || bind(fd, (void *)&from, sizeof from) || connect(fd, (void *)&to, sizeof(struct sockaddr_ax25)))
        return -1;
    return fd;
}

/* Why a socket ended: what it was told, or nothing where the other side closed in order (a read says only that it isn't connected). */
static int reason(int fd, int said)
{
    int why = 0;
    socklen_t size = sizeof why;
    getsockopt(fd, SOL_SOCKET, SO_ERROR, &why, &size);
    return why ? why : said == ENOTCONN ? 0 : said;
}

static int free_room(int fd)
{
    int room = 0;
    ioctl(fd, TIOCOUTQ, &room);
    return room;
}

/* Joins a packet socket with a stream until one of them ends. */
static void join(int air, int tcp)
{
    int empty = free_room(air), closing = 0, have = 0, room = 0, still = 0;
    unsigned char head[2];
    fcntl(air, F_SETFL, O_NONBLOCK);
    for (;;) {
        struct pollfd on[2] = {{air, POLLIN | (have ? POLLOUT : 0), 0}, {tcp, have || closing ? 0 : POLLIN, 0}};
        poll(on, 2, closing ? 100 : 5000);
        if (on[0].revents & (POLLIN | POLLERR | POLLHUP)) {
            ssize_t got = read(air, came + 2, 65535);
            if (got <= 0 && !(got < 0 && (errno == EAGAIN || errno == EINTR))) {
                tell_end(tcp, got < 0 ? reason(air, errno) : 0);
                exit(0);
            }
            if (got > 0) {
                came[0] = got >> 8, came[1] = got;
                all(tcp, came, got + 2);
            }
        }
        /* (a link that this kernel has set up anew keeps frames that it never sends: it is closed after a minute without a change, as ETIME) */
        if (closing && (room != free_room(air) || on[0].revents))
            room = free_room(air), still = 0;
        if (closing && ++still > 600)
            tell_end(tcp, ETIME);
        if (closing && (room >= empty || still > 600))
            exit(0);
        if (have) {
            if (write(air, held, have) >= 0)
                have = 0;
            else if (errno != EAGAIN && errno != EINTR) {
                tell_end(tcp, reason(air, errno));
                exit(0);
            }
        } else if (!closing && on[1].revents) {
            int n;
            if (!whole(tcp, head, 2))
                exit(1);
            n = head[0] << 8 | head[1];
            if (n == 65535)
                exit(0);
            if (n > 0 && !whole(tcp, held, n))
                exit(1);
            have = n;
            closing = n == 0;
        }
    }
}

static int first_line(int fd, char *to, int room)
{
    int at = 0;
    while (at < room - 1 && read(fd, to + at, 1) == 1 && to[at] != '\n')
        at++;
    to[at] = 0;
    return at > 0;
}

static void one_stream(int tcp)
{
    char line[512], kind[16], own[16], port[16], dest[16];
    int air;
    if (!first_line(tcp, line, sizeof line))
        exit(1);
    if (strncmp(line, "sh ", 3) == 0) {
        dup2(tcp, 1), dup2(tcp, 2);
        execl("/bin/sh", "sh", "-c", line + 3, (char *)0);
        exit(1);
    }
    if (sscanf(line, "%15s %15s %15s %15s", kind, own, port, dest) != 4)
        exit(1);
    air = call_out(strcmp(kind, "ax25") == 0 ? AF_AX25 : AF_NETROM, own, port, dest);
    if (air < 0) {
        tell_end(tcp, errno);
        exit(0);
    }
    all(tcp, "\0\1+", 3);
    join(air, tcp);
}

static int tcp_socket(const char *host, int port, struct sockaddr_in *at)
{
    memset(at, 0, sizeof *at);
    at->sin_family = AF_INET;
    at->sin_port = htons(port);
    at->sin_addr.s_addr = host ? inet_addr(host) : htonl(INADDR_ANY);
    return socket(AF_INET, SOCK_STREAM, 0);
}

int main(int count, char **words)
{
    struct sockaddr_in at;
    int yes = 1, fd;
    signal(SIGPIPE, SIG_IGN);
    if (count == 4 && strcmp(words[1], "serve") == 0) {
        fd = tcp_socket(words[2], atoi(words[3]), &at);
        if (connect(fd, (void *)&at, sizeof at))
            return 1;
        setsockopt(fd, IPPROTO_TCP, TCP_NODELAY, &yes, sizeof yes);
        join(0, fd);
    }
    if (count != 3 || strcmp(words[1], "listen") != 0)
        return 2;
    signal(SIGCHLD, SIG_IGN);
    fd = tcp_socket(0, atoi(words[2]), &at);
    setsockopt(fd, SOL_SOCKET, SO_REUSEADDR, &yes, sizeof yes);
    if (bind(fd, (void *)&at, sizeof at) || listen(fd, 32))
        return 1;
    for (;;) {
        int tcp = accept(fd, 0, 0);
        if (tcp < 0)
            continue;
        if (fork() == 0) {
            close(fd);
            setsockopt(tcp, IPPROTO_TCP, TCP_NODELAY, &yes, sizeof yes);
            one_stream(tcp);
        }
        close(tcp);
    }
}
