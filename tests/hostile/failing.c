/* Spoils reading and writing for a program; it is loaded before the C library by LD_PRELOAD. The environment says how:
     ONE_BYTE=1      each read and each write moves at most one byte
     FAIL_READ=N     the N-th read, from 1, fails with EIO
     FAIL_WRITE=N    the N-th write but those on standard error fails, with EIO or, where FAIL_WITH says so, ENOSPC or EINTR,
                     or takes no byte (FAIL_WITH=0)
     GROW=PATH, GROW_AT=N   before the N-th read a byte is added at the end of the file
   It says on standard error that a read or a write failed. */
#define _GNU_SOURCE
#include <dlfcn.h>
#include <errno.h>
#include <fcntl.h>
#include <stdlib.h>
#include <string.h>
#include <unistd.h>

static long number_in(const char *name) {
  const char *text = getenv(name);
  return text == NULL ? 0 : atol(text);
}

static ssize_t real_write(int file, const void *bytes, size_t size) {
  static ssize_t (*real)(int, const void *, size_t);
  if (real == NULL) *(void **)&real = dlsym(RTLD_NEXT, "write");
  return real(file, bytes, size);
}

static void say_failed(void) {
  static const char said[] = "failed\n";
  if (real_write(STDERR_FILENO, said, sizeof said - 1) < 0) abort();
}

static void grow(const char *path) {
  int file = open(path, O_WRONLY | O_APPEND);
  if (file < 0 || real_write(file, "", 1) != 1) abort();
  close(file);
}

ssize_t read(int file, void *bytes, size_t size) {
  static ssize_t (*real)(int, void *, size_t);
  static long calls;
  if (real == NULL) *(void **)&real = dlsym(RTLD_NEXT, "read");
  ++calls;
  if (getenv("GROW") != NULL && calls == number_in("GROW_AT")) grow(getenv("GROW"));
  if (calls == number_in("FAIL_READ")) {
    say_failed();
    errno = EIO;
    return -1;
  }
  return real(file, bytes, size > 1 && number_in("ONE_BYTE") ? 1 : size);
}

ssize_t write(int file, const void *bytes, size_t size) {
  static long calls;
  if (file != STDERR_FILENO && ++calls == number_in("FAIL_WRITE")) {
    const char *with = getenv("FAIL_WITH");
    say_failed();
    if (with != NULL && strcmp(with, "0") == 0) return 0;
    errno = with != NULL && strcmp(with, "ENOSPC") == 0 ? ENOSPC : with != NULL && strcmp(with, "EINTR") == 0 ? EINTR : EIO;
    return -1;
  }
  return real_write(file, bytes, size > 1 && file != STDERR_FILENO && number_in("ONE_BYTE") ? 1 : size);
}
