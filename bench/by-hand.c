/* `minutes` written by hand in C, with no proof, to be set beside the program:

       cc -O2 -o /tmp/by-hand bench/by-hand.c
       bench/beside /tmp/by-hand

   It reads the lines `start`, `run` and `select` of a trace, and prints the view of its decided minutes by the original rule. It feeds each line
   as it reads it and prints at the end, so a bad line prints nothing. With -DLISTS it does it as the program does: it reads the whole text into
   memory by 4,096 bytes, makes a list of the items of all lines, and then feeds that. */
#include <stdint.h>
#include <stdio.h>
#include <stdlib.h>
#include <string.h>
#include <sys/mman.h>
#include <sys/stat.h>
#include <time.h>
#include <unistd.h>

enum { REST, AVAILABLE, WORK, DRIVING, NOTHING };
enum { WAIT = 120, MOST_SECONDS = 34560000, MOST_BYTES = 16777216 };
static const char *const ACTIVITIES[] = {"rest", "available", "work", "drive"};
static const char *const SLOTS[] = {"driver ", "codriver "};

/* The longest run of equal seconds so far, and the one that goes on. */
struct tally { uint32_t best_seconds, going_seconds; uint8_t best, going; };

/* What is counted of a minute. Its open seconds are those since the stop for which rest or availability may still be selected. */
struct counted { struct tally driver, codriver; uint32_t open; uint8_t drives; };

/* The minute of the next second and those before it, in a ring. */
static struct counted ring[8];
static uint32_t turn, owing, next, first_minute;

/* What is selected. */
static uint8_t current = REST, early = NOTHING, picked = NOTHING, second_current = REST, second_picked = NOTHING;
static uint32_t waited;
static int waits;

static struct counted *back(uint32_t minutes) { return &ring[(turn - minutes) & 7]; }

static void add(struct tally *tally, uint8_t act, uint32_t seconds) {
    if (seconds == 0) return;
    if (tally->going == act) {
        tally->going_seconds += seconds;
        return;
    }
    if (tally->going_seconds >= tally->best_seconds) tally->best = tally->going, tally->best_seconds = tally->going_seconds;
    tally->going = act, tally->going_seconds = seconds;
}

static uint8_t longest(const struct tally *tally) { return tally->best_seconds > tally->going_seconds ? tally->best : tally->going; }

static void close_open(uint8_t act) {
    for (uint32_t minutes = 0; minutes < 4; minutes++) {
        struct counted *it = back(minutes);
        if (it->open) add(&it->driver, act, it->open), it->open = 0;
    }
}

/* The lines of the view. */
static struct line { uint32_t first, last; uint8_t driver, codriver; } *lines;
static size_t line_count, line_room;

static void show(uint32_t minute, uint8_t driver, uint8_t codriver) {
    struct line *last = line_count ? &lines[line_count - 1] : NULL;
    if (last && last->driver == driver && last->codriver == codriver && last->last + 1 == minute && minute % 1440 != 0) {
        last->last = minute;
        return;
    }
    if (line_count == line_room) lines = realloc(lines, (line_room = line_room ? 2 * line_room : 1024) * sizeof *lines);
    lines[line_count++] = (struct line){minute, minute, driver, codriver};
}

/* Another minute begins, and the one that nothing later bears on is shown. */
static void end_minute(void) {
    turn++;
    memset(back(0), 0, sizeof *back(0));
    if (owing < 2) {
        owing++;
        return;
    }
    struct counted *it = back(3);
    struct tally driver = it->driver;
    add(&driver, WORK, it->open);
    uint32_t minute = next / 60 - 3;
    int drives = it->drives || (minute > first_minute && back(4)->drives && back(2)->drives);
    show(minute, drives ? DRIVING : longest(&driver), longest(&it->codriver));
}

static void move(uint32_t seconds) {
    if (waits) close_open(WORK);
    add(&back(0)->driver, DRIVING, seconds), add(&back(0)->codriver, AVAILABLE, seconds), back(0)->drives = 1;
    current = WORK, waits = 1, waited = 0, early = picked = NOTHING, second_current = AVAILABLE, second_picked = NOTHING;
}

static void stand(uint32_t seconds) {
    if (waits && early != NOTHING) close_open(early), waits = 0;
    if (picked != NOTHING) current = picked;
    if (second_picked != NOTHING) second_current = second_picked;
    early = picked = second_picked = NOTHING;
    uint32_t left = waits ? WAIT - waited : 0;
    if (waits && seconds <= left) {
        back(0)->open += seconds, waited += seconds;
    } else {
        back(0)->open += left;
        if (waits) close_open(WORK), waits = 0;
        add(&back(0)->driver, current, seconds - left);
    }
    add(&back(0)->codriver, second_current, seconds);
}

static void run(uint32_t seconds, uint32_t speed) {
    while (seconds) {
        uint32_t part = 60 - next % 60 < seconds ? 60 - next % 60 : seconds;
        if (speed) move(part);
        else stand(part);
        next += part, seconds -= part;
        if (next % 60 == 0) end_minute();
    }
}

static void select_for(uint8_t slot, uint8_t act) {
    if (slot) {
        second_picked = act;
        return;
    }
    if (early == NOTHING && act != WORK) early = act;
    picked = act;
}

/* What a line asks for: 12 bytes, as many as the program's own. */
struct item { uint32_t seconds, unused; uint8_t kind, speed, slot, act; };
enum { SKIPPED, RUN, SELECT };

static void feed(const struct item *item) {
    if (item->kind == RUN) run(item->seconds, item->speed);
    else if (item->kind == SELECT) select_for(item->slot, item->act);
}

static void refuse(const char *why, uint32_t line) {
    fprintf(stderr, "%s %u\n", why, line);
    exit(3);
}

/* The number at a place, which a separator follows, or the text's end for LF: what is behind it, or NULL. */
static const char *number(const char *at, const char *end, char separator, uint32_t most, uint32_t *told) {
    const char *first = at;
    uint64_t value = 0;
    while (at < end && (unsigned char)(*at - '0') < 10 && at - first < 10) value = 10 * value + (*at++ - '0');
    if (at == first || (*first == '0' && at - first > 1) || value > most || (at < end ? *at != separator : separator != '\n')) return NULL;
    *told = value;
    return at < end ? at + 1 : at;
}

static const char *read_line(const char *at, const char *end, uint32_t line, struct item *item) {
    if (end - at > 4 && memcmp(at, "run ", 4) == 0) {
        uint32_t speed;
        if ((at = number(at + 4, end, ' ', MOST_SECONDS, &item->seconds)) == NULL || item->seconds == 0) refuse("bad trace", line);
        if ((at = number(at, end, '\n', 255, &speed)) == NULL) refuse("bad trace", line);
        item->kind = RUN, item->speed = speed;
        return at;
    }
    const char *lf = memchr(at, '\n', end - at), *stop = lf ? lf : end;
    if (stop != at && *at != '#') {
        if (stop - at < 7 || memcmp(at, "select ", 7)) refuse("bad trace", line);
        at += 7, item->kind = SELECT, item->slot = item->act = NOTHING;
        for (int slot = 0; slot < 2; slot++)
            if (item->slot == NOTHING && (size_t)(stop - at) > strlen(SLOTS[slot]) && memcmp(at, SLOTS[slot], strlen(SLOTS[slot])) == 0)
                item->slot = slot, at += strlen(SLOTS[slot]);
        for (int act = REST; act <= WORK; act++)
            if ((size_t)(stop - at) == strlen(ACTIVITIES[act]) && memcmp(at, ACTIVITIES[act], stop - at) == 0) item->act = act;
        if (item->slot == NOTHING || item->act == NOTHING) refuse("bad trace", line);
    }
    return lf ? lf + 1 : end;
}

/* The source's text: a file is looked at where it stands. */
static const char *text_of(size_t *size) {
    size_t room = 4096;
    char *text = NULL;
    *size = 0;
#ifndef LISTS
    struct stat told;
    if (fstat(0, &told) == 0 && S_ISREG(told.st_mode) && told.st_size > 0)
        return mmap(NULL, *size = told.st_size, PROT_READ, MAP_PRIVATE | MAP_POPULATE, 0, 0);
#endif
    static char piece[4096];
    text = malloc(room);
    for (ssize_t got; (got = read(0, piece, sizeof piece)) > 0; *size += got) {
        if (*size + got > room) text = realloc(text, room = 2 * room);
        memcpy(text + *size, piece, got);
    }
    return text;
}

static void read_trace(const char *at, const char *end) {
    if (end - at > MOST_BYTES) refuse("too long", 0);
    if (end - at < 7 || memcmp(at, "start ", 6) || (at = number(at + 6, end, '\n', 4294880895u, &next)) == NULL) refuse("bad trace", 1);
    first_minute = next / 60;
    uint64_t total = 0;
    int acts_wait = 0;
#ifdef LISTS
    struct item *items = NULL;
    size_t count = 0, room = 0;
#endif
    for (uint32_t line = 2; at < end; line++) {
        struct item item = {0};
        at = read_line(at, end, line, &item);
        if (item.kind != SKIPPED) acts_wait = item.kind == SELECT;
        if ((total += item.seconds) > MOST_SECONDS) refuse("too long", line);
#ifdef LISTS
        if (count == room) items = realloc(items, (room = room ? 2 * room : 16384) * sizeof *items);
        items[count++] = item;
    }
    for (size_t i = 0; i < count; i++) feed(&items[i]);
#else
        feed(&item);
    }
#endif
    if (acts_wait) run(1, 0);
}

static char *two_digits(char *out, uint32_t number, char behind) {
    *out++ = '0' + number / 10, *out++ = '0' + number % 10, *out++ = behind;
    return out;
}

static void print_view(void) {
    char *text = malloc(line_count * 100 + 1), *out = text, date[32];
    uint32_t day = UINT32_MAX;
    size_t dated = 0;
    for (const struct line *it = lines; it < lines + line_count; it++) {
        if (it->first / 1440 != day) {
            time_t time = (time_t)(day = it->first / 1440) * 86400;
            struct tm told;
            dated = strftime(date, sizeof date, "%Y-%m-%d ", gmtime_r(&time, &told));
        }
        memcpy(out, date, dated), out += dated;
        out = two_digits(out, it->first % 1440 / 60, ':'), out = two_digits(out, it->first % 60, '-');
        out = two_digits(out, it->last % 1440 / 60, ':'), out = two_digits(out, it->last % 60, ' ');
        out += sprintf(out, "driver=%s,out codriver=%s,out single\n", ACTIVITIES[it->driver], ACTIVITIES[it->codriver]);
    }
    for (const char *from = text; from < out;) {
        ssize_t wrote = write(1, from, out - from);
        if (wrote <= 0) exit(6);
        from += wrote;
    }
}

int main(int count, char **words) {
    if (count != 2 || strcmp(words[1], "minutes")) return 2;
    size_t size;
    const char *text = text_of(&size);
    read_trace(text, text + size);
    print_view();
    return 0;
}
