"""A small library that adds the time of a sync: loaded before a program, it waits for `SYNC_US` microseconds in each."""

import os
import subprocess

SLOW_SYNC = r"""
#define _GNU_SOURCE
#include <dlfcn.h>
#include <stdlib.h>
#include <unistd.h>
static void wait_us(void) { const char *s = getenv("SYNC_US"); if (s) usleep(atoi(s)); }
int fsync(int f) { static int (*r)(int); if (!r) r = dlsym(RTLD_NEXT, "fsync"); wait_us(); return r(f); }
int fdatasync(int f) { static int (*r)(int); if (!r) r = dlsym(RTLD_NEXT, "fdatasync"); wait_us(); return r(f); }
"""


def library(folder):
    """The library, built in this folder with the system's C compiler."""
    source, built = os.path.join(folder, "slowsync.c"), os.path.join(folder, "slowsync.so")
    with open(source, "w") as file:
        file.write(SLOW_SYNC)
    subprocess.run(["cc", "-shared", "-fPIC", "-O2", "-o", built, source, "-ldl"], check=True)
    return built


def with_syncs(library, microseconds):
    """The environment in which each sync of a program takes so long."""
    return dict(os.environ, LD_PRELOAD=library, SYNC_US=str(microseconds))


def place_in_memory():
    """Where folders lie in memory, if there is such a place."""
    return "/dev/shm" if os.path.isdir("/dev/shm") else None
