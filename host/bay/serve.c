/* bay serve: a pod as a serprog programmer on the loopback address, for flashrom and whatever drives it. */
#include "bay/bench.h"
#include "bay/commands.h"
#include "bay/drafts.h"
#include "bay/files.h"
#include "bay/link.h"
#include "bay/options.h"
#include "bay/serprog.h"
#include "bay/signals.h"
#include "bay/text.h"
#include "bay/trouble.h"
#include "bay/words.h"
#include "bus/pins.h"

#include <arpa/inet.h>
#include <errno.h>
#include <fcntl.h>
#include <limits.h>
#include <netinet/in.h>
#include <netinet/tcp.h>
#include <stdarg.h>
#include <stdio.h>
#include <stdlib.h>
#include <string.h>
#include <sys/socket.h>
#include <unistd.h>

enum {
    USUAL_CLIENTS = 1000,
    MOST_CLIENTS = 1000000,
    USUAL_IDLE = 30,
    USUAL_SECONDS = 8 * 3600, /* a shift */
    MOST_SECONDS = 7 * 24 * 3600,
    USUAL_REST = 100,
    MOST_REST = 1000000
};

/* In milliseconds: the first wait at a door that does not open, the longest, and all before the server gives up. */
enum { FIRST_WAIT = 10, LONGEST_WAIT = 1000, MOST_WAITED = 10000 };

/* What keeps clients out since the last one was let in. error: 0 while nothing does. */
struct door {
    int error;
    int64_t wait;
    int64_t waited;
};

/* The server as it was asked for. served: clients so far. until: when its time is over. saved: the image as it stands
 * in the file. stop: readable once a signal has come. */
struct server {
    const char *image;
    struct settings settings;
    uint32_t port;
    uint32_t clients;
    uint32_t idle;
    uint32_t seconds;
    uint32_t rest;
    uint32_t served;
    int64_t until;
    struct bench bench;
    uint8_t *saved;
    struct door door;
    int listener;
    int stop;
};

/* A signal writes here, so that every wait of the server sees it. */
static int stop_pipe[2] = { -1, -1 };

static void on_signal(int number)
{
    int kept = errno;
    char byte = (char)number;
    if (write(stop_pipe[1], &byte, 1) < 0) {
        /* the pipe is full of earlier ones, which do as well */
    }
    errno = kept;
}

static int no_server(const char *what, int error)
{
    return trouble(TROUBLE_UNAVAILABLE, "the server cannot %s\n"
                                        "  expected  a port of this machine that is free and may be used\n"
                                        "  found     %s\n"
                                        "  do        choose another --port, or end the program that has it",
                   what, strerror(error));
}

/* SIGINT, SIGTERM and SIGHUP end the server after it has saved. */
static int catch_signals(void)
{
    struct signals signals;
    if (pipe(stop_pipe) != 0 || fcntl(stop_pipe[1], F_SETFL, O_NONBLOCK) != 0) {
        return trouble(TROUBLE_SYSTEM, "the server cannot be ended by a signal\n"
                                       "  expected  room for a pipe\n"
                                       "  found     %s\n"
                                       "  do        end other programs and try again",
                       strerror(errno));
    }
    signals_take(&signals, on_signal, 0);
    return 0;
}

static int open_listener(struct server *server)
{
    struct sockaddr_in address = { .sin_family = AF_INET, .sin_port = htons((uint16_t)server->port) };
    socklen_t length = sizeof address;
    int yes = 1;
    address.sin_addr.s_addr = htonl(INADDR_LOOPBACK);
    server->listener = socket(AF_INET, SOCK_STREAM, 0);
    if (server->listener < 0) {
        return no_server("open a socket", errno);
    }
    if (setsockopt(server->listener, SOL_SOCKET, SO_REUSEADDR, &yes, sizeof yes) != 0 ||
        fcntl(server->listener, F_SETFL, O_NONBLOCK) != 0 ||
        bind(server->listener, (const struct sockaddr *)&address, sizeof address) != 0 ||
        listen(server->listener, 1) != 0 ||
        getsockname(server->listener, (struct sockaddr *)&address, &length) != 0) {
        return no_server("take the port", errno);
    }
    server->port = ntohs(address.sin_port);
    return 0;
}

/* One line on the standard output, at once. */
static void __attribute__((format(printf, 1, 2))) say(const char *form, ...)
{
    char line[PATH_MAX + 256];
    va_list rest;
    va_start(rest, form);
    int length = vsnprintf(line, sizeof line, form, rest);
    va_end(rest);
    if (length > 0) {
        tell(STDOUT_FILENO, line, strlen(line));
    }
}

/* Brings the image to its file, if it has changed since. */
static int save(struct server *server)
{
    struct bench *bench = &server->bench;
    uint32_t changed = blocks_changed(server->saved, bench->image);
    if (changed == 0) {
        return 0;
    }
    int status = deliver(&(struct output){ .path = server->image, .at = bench->image, .length = bench->image_length }, 1);
    if (status == 0) {
        memcpy(server->saved, bench->image, bench->image_length);
        say("saved %s; changed blocks: %s\n", server->image, brief_blocks(changed).text);
    }
    return status;
}

/* One client, from its first byte to its last. */
static const char *serve_client(struct server *server, int client)
{
    static struct link link;
    static struct serprog serprog;
    int yes = 1;
    memset(&link, 0, sizeof link);
    link.client = client;
    link.stop = server->stop;
    link.idle = (int64_t)server->idle * 1000;
    link.until = server->until;
    serprog.link = &link;
    serprog.bench = &server->bench;
    serprog.requests = 0;
    serprog.rest = (uint64_t)server->rest * POD_CLOCKS_PER_MICROSECOND;
    if (fcntl(client, F_SETFL, O_NONBLOCK) != 0 || setsockopt(client, IPPROTO_TCP, TCP_NODELAY, &yes, sizeof yes) != 0) {
        link.why = link_broke;
    } else {
        say("client %u begins\n", (unsigned)server->served);
        serprog_serve(&serprog);
    }
    (void)close(client);
    bench_settle(&server->bench);
    const char *why = link.why != NULL ? link.why : "the library refused";
    say("client %u ends after %s requests: %s; status %s\n", (unsigned)server->served, counted(serprog.requests).text,
        why, brief_status(pod_status(server->bench.device)).text);
    serprog.link = NULL;
    serprog.bench = NULL;
    return why;
}

/* Whether a client could not be let in for a reason of its own, as accept(2) has them, and not of the system. */
static bool is_clients_own(int error)
{
    static const int own[] = {
        EINTR,     EAGAIN, EWOULDBLOCK, ECONNABORTED, ENETDOWN,   EPROTO,      ENOPROTOOPT,
        EHOSTDOWN, EPERM,  ETIMEDOUT,   EHOSTUNREACH, EOPNOTSUPP, ENETUNREACH,
#ifdef ENONET
        ENONET,
#endif
    };
    for (size_t i = 0; i < sizeof own / sizeof own[0]; i++) {
        if (own[i] == error) {
            return true;
        }
    }
    return false;
}

static const char door_shut[] = "no client can be let in";

/* The wait after the system has failed to let a client in, twice as long each time. Gives 0 once there were enough. */
static int64_t next_wait(struct door *door, int error)
{
    if (door->error == 0) {
        say("%s: %s; trying on for %d seconds\n", door_shut, strerror(error), MOST_WAITED / 1000);
        door->wait = FIRST_WAIT;
    }
    int64_t wait = door->waited < MOST_WAITED ? door->wait : 0;
    door->error = error;
    door->waited += wait;
    door->wait = wait * 2 < LONGEST_WAIT ? wait * 2 : LONGEST_WAIT;
    return wait;
}

/* Waits after a client could not be let in. Gives null where another try is due, else why the server ends. A client that
 * left too early counts for nothing; the short wait is there so that many of them are no burden. */
static const char *wait_at_door(struct server *server, int error)
{
    int64_t wait = is_clients_own(error) ? FIRST_WAIT : next_wait(&server->door, error);
    if (wait == 0) {
        return door_shut;
    }
    int64_t until = milliseconds() + wait;
    const char *why = wait_for(&(struct wait){ .file = -1,
                                               .stop = server->stop,
                                               .until = until < server->until ? until : server->until });
    return why == link_over ? NULL : why;
}

static int no_client(int error)
{
    return trouble(TROUBLE_SYSTEM, "%s\n"
                                   "  expected  room for one more open file and its buffers within %d seconds\n"
                                   "  found     %s\n"
                                   "  do        end other programs or allow more open files, and start the server again",
                   door_shut, MOST_WAITED / 1000, strerror(error));
}

/* What the server ends with. The image is brought to its file in any case; that it cannot be is the graver trouble. */
static int end_server(struct server *server, const char *why)
{
    int status = 0;
    say("the server ends: %s\n", why != NULL ? why : "the last client is served");
    if (server->bench.refusal != POD_DONE) {
        status = refused(server->bench.refusal, &(struct facts){ .image = server->image, .stream = "the client" });
    } else if (why == door_shut || why == link_broke) {
        status = no_client(server->door.error);
    }
    int saved = save(server);
    return saved != 0 ? saved : status;
}

/* Clients one after another until their number or the time is over, or a signal comes. */
static int serve_clients(struct server *server)
{
    const char *why = NULL;
    server->until = milliseconds() + (int64_t)server->seconds * 1000;
    while (server->served < server->clients && why == NULL && server->bench.refusal == POD_DONE) {
        why = wait_for(&(struct wait){ .file = server->listener, .stop = server->stop, .until = server->until });
        int client = why == NULL ? accept(server->listener, NULL, NULL) : -1;
        if (client < 0) {
            why = why == NULL ? wait_at_door(server, errno) : why;
            continue;
        }
        server->door = (struct door){ 0 };
        server->served++;
        const char *end = serve_client(server, client);
        why = end == link_ended || end == link_over ? end : NULL;
        (void)save(server); /* if it cannot be saved now, it is tried again at the end */
    }
    if (why == link_broke) {
        server->door.error = errno;
    }
    return end_server(server, why);
}

static int power_up(struct server *server, const struct bytes *image)
{
    struct bench *bench = &server->bench;
    uint8_t idle[2];
    bench->image = image->at;
    bench->image_length = image->length;
    bench_power_up(bench, &server->settings);
    if (bench->refusal == POD_DONE) {
        server->saved = must_have(image->length);
        memcpy(server->saved, image->at, image->length);
        return 0;
    }
    sample_put(idle, 0, bench->idle);
    return refused(bench->refusal, &(struct facts){ .image = server->image,
                                                    .image_length = image->length,
                                                    .image_more = image->more,
                                                    .stream = "--voltage",
                                                    .samples = idle,
                                                    .stream_length = sizeof idle,
                                                    .settings = server->settings });
}

static int start(struct server *server)
{
    struct bytes image;
    int status = file_read(server->image, POD_IMAGE_BYTES, &image);
    if (status == 0) {
        status = catch_signals();
    }
    if (status == 0) {
        status = drafts_claim(server->image);
    }
    if (status == 0) {
        bytes_free(&image); /* another bay may have saved it before it was claimed */
        status = file_read(server->image, POD_IMAGE_BYTES, &image);
    }
    if (status == 0) {
        status = power_up(server, &image);
    }
    if (status == 0) {
        server->stop = stop_pipe[0];
        status = open_listener(server);
    }
    if (status == 0) {
        say("listening on 127.0.0.1:%u for %s\n", (unsigned)server->port, server->image);
        status = serve_clients(server);
    }
    drafts_release();
    bytes_free(&image);
    free(server->saved);
    return status;
}

/* The words of the command line, null where they are not given. */
struct asked {
    const char *port;
    const char *wp;
    const char *tbl;
    const char *voltage;
    const char *clients;
    const char *idle;
    const char *seconds;
    const char *rest;
    bool once;
};

static int take_pin(const char *option, const char *word, unsigned pin, uint16_t *idle)
{
    if (word == NULL) {
        return 0;
    }
    if (strcmp(word, "low") != 0 && strcmp(word, "high") != 0) {
        return trouble(TROUBLE_USAGE, "%s is neither high nor low\n"
                                      "  expected  high or low\n"
                                      "  found     %s\n"
                                      "  do        give it as in %s low",
                       option, word, option);
    }
    *idle = sample_set(*idle, pin, word[0] == 'h' ? pin : 0);
    return 0;
}

static int take_pins(const struct asked *asked, uint16_t *idle)
{
    uint32_t voltage = sample_voltage(*idle);
    int status = take_pin("--wp", asked->wp, POD_SAMPLE_WP, idle);
    if (status == 0) {
        status = take_pin("--tbl", asked->tbl, POD_SAMPLE_TBL, idle);
    }
    if (status == 0 && asked->voltage != NULL) {
        status = number_within("--voltage", asked->voltage, (struct bounds){ 0, 3 }, &voltage);
    }
    *idle = sample_set(*idle, POD_SAMPLE_VOLTAGE, voltage << POD_SAMPLE_VOLTAGE_SHIFT);
    return status;
}

static int take_bounds(const struct asked *asked, struct server *server)
{
    const struct {
        const char *option;
        const char *word;
        struct bounds bounds;
        uint32_t *to;
    } numbers[] = {
        { "--port", asked->port, { 0, 65535 }, &server->port },
        { "--clients", asked->clients, { 1, MOST_CLIENTS }, &server->clients },
        { "--idle", asked->idle, { 1, MOST_SECONDS }, &server->idle },
        { "--seconds", asked->seconds, { 1, MOST_SECONDS }, &server->seconds },
        { "--rest", asked->rest, { 0, MOST_REST }, &server->rest },
    };
    int status = 0;
    for (size_t i = 0; i < sizeof numbers / sizeof numbers[0] && status == 0; i++) {
        if (numbers[i].word != NULL) {
            status = number_within(numbers[i].option, numbers[i].word, numbers[i].bounds, numbers[i].to);
        }
    }
    if (asked->once) {
        server->clients = 1;
    }
    return status;
}

static int check(const struct asked *asked, const struct server *server)
{
    if (asked->port == NULL) {
        return trouble(TROUBLE_USAGE, "--port is missing\n"
                                      "  expected  the port to listen on; 0 takes any that is free\n"
                                      "  found     none\n"
                                      "  do        give it as in --port 4000");
    }
    if (is_standard(server->image)) {
        return trouble(TROUBLE_USAGE, "the image is -\n"
                                      "  expected  a file, which is replaced when the image has changed\n"
                                      "  found     the standard input\n"
                                      "  do        name a file");
    }
    return outputs_apart(&(struct named){ "the image", server->image }, 1);
}

int command_serve(int count, char **words)
{
    struct server server = { .clients = USUAL_CLIENTS, .idle = USUAL_IDLE, .seconds = USUAL_SECONDS, .rest = USUAL_REST };
    struct settings_options from = { .part = NULL };
    struct asked asked = { .once = false };
    const struct option options[] = {
        { "--port", &asked.port, NULL },       { "--wp", &asked.wp, NULL },
        { "--tbl", &asked.tbl, NULL },         { "--voltage", &asked.voltage, NULL },
        { "--clients", &asked.clients, NULL }, { "--idle", &asked.idle, NULL },
        { "--seconds", &asked.seconds, NULL }, { "--rest", &asked.rest, NULL },
        { "--part", &from.part, NULL },        { "--straps", &from.straps, NULL },
        { "--times", &from.times, NULL },      { "--sheet", &from.sheet, NULL },
        { "--once", NULL, &asked.once },
    };
    const struct place places[] = { { "IMAGE", &server.image } };
    const struct line line = { options, sizeof options / sizeof options[0], places, 1 };
    server.bench.idle = POD_SAMPLE_IDLE;
    int status = options_take(&line, count, words);
    if (status == 0) {
        status = check(&asked, &server);
    }
    if (status == 0) {
        status = take_pins(&asked, &server.bench.idle);
    }
    if (status == 0) {
        status = take_bounds(&asked, &server);
    }
    if (status == 0) {
        status = settings_take(&from, &server.settings);
    }
    return status == 0 ? start(&server) : status;
}
