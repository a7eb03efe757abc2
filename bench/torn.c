/* Stands between the program and the system, by LD_PRELOAD, for bench/torn. It counts the program's writes to card-a.img, from 1.

   TORN_LOG=FILE      each of them gets a line there: its place, its length and its bytes
   TORN_CUT=N:BYTES   of the write N so many bytes are written, and the process ends by SIGKILL
   TORN_RACE=N:NANO   another process sends SIGKILL as the write N is about to begin: this one waits so long, and then writes as ever. Both, the
                      write and the signal, are the system's own */
#define _GNU_SOURCE
#include <dlfcn.h>
#include <fcntl.h>
#include <signal.h>
#include <stdarg.h>
#include <stdio.h>
#include <stdlib.h>
#include <string.h>
#include <sys/mman.h>
#include <sys/prctl.h>
#include <time.h>
#include <unistd.h>

static int card = -1;
static long count, cut_at, cut_bytes, race_at, race_nano;
static FILE *told;
static volatile int *begun;
static int (*real_open)(const char *, int, ...);
static ssize_t (*real_pwrite)(int, const void *, size_t, off_t);

__attribute__((constructor)) static void begin(void) {
  real_open = dlsym(RTLD_NEXT, "open");
  real_pwrite = dlsym(RTLD_NEXT, "pwrite");
  const char *words = getenv("TORN_CUT");
  if (words) sscanf(words, "%ld:%ld", &cut_at, &cut_bytes);
  words = getenv("TORN_RACE");
  if (words) sscanf(words, "%ld:%ld", &race_at, &race_nano);
  words = getenv("TORN_LOG");
  if (words) told = fopen(words, "w");
}

int open(const char *path, int flags, ...) {
  va_list more;
  va_start(more, flags);
  int mode = va_arg(more, int);
  va_end(more);
  int file = real_open(path, flags, mode);
  if (strstr(path, "card-a.img")) card = file;
  return file;
}

static void die(void) {
  kill(getpid(), SIGKILL);
  for (;;) pause();
}

/* the other process, which looks at nothing but the word that both have */
static void send_when_begun(void) {
  begun = mmap(0, sizeof(int), PROT_READ | PROT_WRITE, MAP_SHARED | MAP_ANONYMOUS, -1, 0);
  pid_t me = getpid();
  if (fork() == 0) {
    prctl(PR_SET_PDEATHSIG, SIGKILL);
    *begun = 1;
    while (*begun != 2) __builtin_ia32_pause();
    kill(me, SIGKILL);
    _exit(0);
  }
  while (*begun != 1) __builtin_ia32_pause();
}

static long now(void) {
  struct timespec time;
  clock_gettime(CLOCK_MONOTONIC, &time);
  return time.tv_sec * 1000000000L + time.tv_nsec;
}

ssize_t pwrite(int file, const void *bytes, size_t len, off_t place) {
  if (file != card) return real_pwrite(file, bytes, len, place);
  count++;
  if (told) {
    fprintf(told, "%ld %zu ", (long)place, len);
    for (size_t i = 0; i < len; i++) fprintf(told, "%02x", ((const unsigned char *)bytes)[i]);
    fputc('\n', told);
    fflush(told);
  }
  if (count == cut_at) {
    if (cut_bytes > 0) real_pwrite(file, bytes, (size_t)cut_bytes < len ? (size_t)cut_bytes : len, place);
    die();
  }
  if (count == race_at) {
    send_when_begun();
    long until = now() + race_nano;
    *begun = 2;
    while (now() < until) __builtin_ia32_pause();
  }
  return real_pwrite(file, bytes, len, place);
}
