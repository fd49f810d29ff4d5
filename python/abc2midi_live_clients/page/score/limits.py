"""Starts a program within limits: `limits.py USE PROGRAM [WORD..]`, USE one of `USES`. It needs no other module of the package.

The program has limits of memory and time. It can write no byte into a file, but for the use `CONVERTING`, and then only in its own
folder. For the use `READING_A_FILE` it can read what is in that folder. With libseccomp it has only the system calls of a list: it opens no connection, starts no process, reaches no other one, and
changes no file, its rights, owner, times and attributes among them. If Linux has Landlock, it can also create and remove no other
file, and read none but those of the system's programs, libraries and fonts. Before the output of the program comes a line with the
walls that could be set: `FILTER`, `FILES`."""

import errno
import os
import resource
import signal
import struct
import sys
from contextlib import suppress
from typing import Any

MEMORY = 512 << 20  # bytes of addresses
DESCRIPTORS = 64
DRAWING, DRAWING_PAGES, CONVERTING, READING_A_FILE = "drawing", "drawing-pages", "converting", "reading-a-file"
USES = {DRAWING: (4, 0), DRAWING_PAGES: (60, 0), CONVERTING: (60, 64 << 20), READING_A_FILE: (4, 0)}  # seconds of the processor, bytes of a file
SYSTEM = ["/usr", "/bin", "/lib", "/lib64", "/nix/store", "/dev/null"]
SYSTEM += ["/etc/fonts", "/etc/ld.so.cache", "/etc/localtime", "/var/cache/fontconfig"]
SYSTEM += ["/etc/ghostscript", "/var/lib/ghostscript"]

FILTER, FILES = "filter", "files"  # the walls that the line before the output names
LIBRARY = "libseccomp.so.2"
ALLOW, REFUSE, HIDE = 0x7FFF0000, 0x00050000 | errno.EPERM, 0x00050000 | errno.ENOSYS  # actions of libseccomp
IS, MASKED_IS = 4, 7  # comparisons of libseccomp
CLONE_THREAD, CHANGING = 0x10000, os.O_WRONLY | os.O_RDWR | os.O_CREAT | os.O_TRUNC | os.O_APPEND
WORD = 0xFFFFFFFF  # the bits that an argument of 32 bits has
ALLOWED = ["read", "readv", "pread64", "preadv", "write", "writev", "pwrite64", "pwritev", "lseek", "_llseek", "sendfile", "copy_file_range"]
ALLOWED += ["close", "close_range", "dup", "dup2", "dup3", "pipe", "pipe2", "poll", "ppoll", "select", "_newselect", "pselect6"]
ALLOWED += ["stat", "lstat", "fstat", "newfstatat", "stat64", "lstat64", "fstat64", "fstatat64", "statx", "statfs", "fstatfs", "statfs64", "fstatfs64"]
ALLOWED += ["access", "faccessat", "faccessat2", "readlink", "readlinkat", "getdents", "getdents64", "getcwd", "chdir", "fchdir", "fadvise64", "umask"]
ALLOWED += ["mmap", "mmap2", "munmap", "mprotect", "mremap", "brk", "madvise", "getrlimit", "ugetrlimit", "setrlimit", "getrusage", "times"]
ALLOWED += ["rt_sigaction", "rt_sigprocmask", "rt_sigreturn", "sigreturn", "sigaltstack", "rt_sigsuspend", "pause", "restart_syscall"]
ALLOWED += ["nanosleep", "clock_nanosleep", "clock_gettime", "clock_getres", "gettimeofday", "time", "sysinfo", "uname", "getrandom", "getcpu"]
ALLOWED += ["getpid", "gettid", "getppid", "getpgrp", "getpgid", "getsid", "getuid", "geteuid", "getgid", "getegid", "getgroups", "getresuid", "getresgid"]
ALLOWED += ["execve", "exit", "exit_group", "wait4", "waitid", "sched_yield", "sched_getaffinity", "futex", "futex_time64", "arch_prctl"]
ALLOWED += ["set_tid_address", "set_robust_list", "get_robust_list", "rseq", "membarrier"]
ALLOWED_IF_WRITING = ["open", "openat", "creat", "unlink", "unlinkat", "ftruncate"]
OPENING = {"open": 1, "openat": 2}  # the argument that says how; one that changes nothing is allowed
OF_ITSELF = ["kill", "tkill", "tgkill"]  # allowed if their first argument is the process's own number
OF_THE_CALLER = ["prlimit64"]  # allowed if their first argument is 0
DESCRIPTOR_COMMANDS = [0, 1, 2, 3, 4, 1030]  # of fcntl: copies, and flags; no locks, no owner and no signal
TERMINAL_QUESTIONS = [0x5401, 0x5413, 0x541B, 0x5450, 0x5451]  # of ioctl: TCGETS, TIOCGWINSZ, FIONREAD, FIONCLEX, FIOCLEX
HIDDEN = ["clone3", "openat2"]  # their arguments cannot be seen, and programs use the older calls if these are missing

PR_SET_PDEATHSIG, PR_SET_NO_NEW_PRIVS = 1, 38
CREATE_RULESET, ADD_RULE, RESTRICT_SELF = 444, 445, 446  # of Landlock, on all processors alike
ASK_FOR_VERSION, BENEATH_A_PATH = 1, 1
EXECUTE, WRITE_FILE, READ_FILE, READ_FOLDER, REMOVE_FILE, MAKE_FILE = 1 << 0, 1 << 1, 1 << 2, 1 << 3, 1 << 5, 1 << 8
READING, WRITING = EXECUTE | READ_FILE, WRITE_FILE | READ_FILE | REMOVE_FILE | MAKE_FILE
OWN_FOLDER = {CONVERTING: WRITING, READING_A_FILE: READ_FILE}  # what a use may do there
RULESET_SIZES = {1: 8, 4: 16, 6: 24}  # since a version of Landlock
FILE_RIGHTS = {1: 13, 2: 14, 3: 15, 5: 16}  # how many there are since a version
NET_RIGHTS = {4: 2}
SCOPES = {6: 2}


def limit(use: str) -> None:
    """Sets the limits of a use, for this process and all that it starts. The output goes to a pipe."""
    seconds, size = USES[use]
    limits = {resource.RLIMIT_AS: MEMORY, resource.RLIMIT_CPU: seconds, resource.RLIMIT_CORE: 0}
    limits |= {resource.RLIMIT_FSIZE: size, resource.RLIMIT_NOFILE: DESCRIPTORS}
    for kind, most in limits.items():
        hard = resource.getrlimit(kind)[1]
        least = most if hard == resource.RLIM_INFINITY else min(most, hard)
        resource.setrlimit(kind, (least, least))


def since(version: int, known: dict[int, int]) -> int:
    """What is known at a version."""
    return max((value for first, value in known.items() if first <= version), default=0)


def end_with_parent() -> None:
    """Ends the program with its parent, and takes the right to more rights, for ever."""
    import ctypes  # some installations of Python do not have it

    libc = ctypes.CDLL(None)
    libc.prctl(PR_SET_PDEATHSIG, signal.SIGKILL)
    libc.prctl(PR_SET_NO_NEW_PRIVS, 1, 0, 0, 0)


def refuse_calls(writes: bool = False) -> bool:
    """Takes the right to all system calls but those that a program needs to read, to compute and to write its output, for ever: so it
    opens no connection, starts and reaches no process, and changes no file. Returns whether that was possible. A program that writes may
    make files and remove them. Threads stay possible, by the older of the two calls: the flags of the newer one cannot be seen."""
    try:
        import ctypes

        library = ctypes.CDLL(LIBRARY)
    except (ImportError, OSError):
        return False

    class Comparison(ctypes.Structure):
        _fields_ = [("argument", ctypes.c_uint), ("kind", ctypes.c_int), ("first", ctypes.c_uint64), ("second", ctypes.c_uint64)]

    library.seccomp_init.restype = ctypes.c_void_p
    rules = ctypes.c_void_p(library.seccomp_init(ctypes.c_uint32(REFUSE)))

    def add(names: list[str], *comparison: int, action: int = ALLOW) -> bool:
        """Adds a rule for each call, if an argument compares so. An older library does not know the newest calls."""
        calls = [library.seccomp_syscall_resolve_name(name.encode()) for name in names]
        found = (1, ctypes.byref(Comparison(*comparison))) if comparison else (0, None)
        known = [call for call in calls if call != -1]
        return not any(library.seccomp_rule_add_array(rules, ctypes.c_uint32(action), call, *found) for call in known)

    is_added = [add(ALLOWED), add(HIDDEN, action=HIDE), add(["clone"], 0, MASKED_IS, CLONE_THREAD, CLONE_THREAD)]
    is_added += [add(OF_ITSELF, 0, IS, os.getpid(), 0), add(OF_THE_CALLER, 0, IS, 0, 0)]
    is_added += [add(["fcntl", "fcntl64"], 1, MASKED_IS, WORD, command) for command in DESCRIPTOR_COMMANDS]
    is_added += [add(["ioctl"], 1, MASKED_IS, WORD, question) for question in TERMINAL_QUESTIONS]
    is_added += [add(ALLOWED_IF_WRITING)] if writes else [add([name], at, MASKED_IS, CHANGING, 0) for name, at in OPENING.items()]
    return all(is_added) and library.seccomp_load(rules) == 0


def landlock_version() -> int:
    """The version of Landlock that Linux has, 0 if it has none."""
    import ctypes

    version: int = ctypes.CDLL(None).syscall(CREATE_RULESET, None, ctypes.c_size_t(0), ASK_FOR_VERSION)
    return max(0, version)


def refuse_files(program: str, use: str = DRAWING) -> bool:
    """Takes the right to read anything but the system and the program, for ever. Some uses have their own folder too. Returns whether
    that was possible."""
    import ctypes

    libc, version = ctypes.CDLL(None), landlock_version()
    if version < 1:
        return False
    refused = [(1 << since(version, rights)) - 1 for rights in (FILE_RIGHTS, NET_RIGHTS, SCOPES)]
    size = since(version, RULESET_SIZES)
    ruleset = libc.syscall(CREATE_RULESET, struct.pack("=QQQ", *refused), ctypes.c_size_t(size), 0)
    if ruleset < 0:
        return False
    for path in [*SYSTEM, os.path.realpath(program)]:
        with suppress(OSError):
            allow(libc, ruleset, path, READING)
    if use in OWN_FOLDER:
        allow(libc, ruleset, ".", OWN_FOLDER[use])
    is_set: bool = libc.syscall(RESTRICT_SELF, ruleset, 0) == 0
    os.close(ruleset)
    return is_set


def allow(libc: Any, ruleset: int, path: str, rights: int) -> None:
    """Gives rights to what is at a path, or beneath it."""
    parent = os.open(path, os.O_PATH | os.O_CLOEXEC)
    folder = READ_FOLDER if os.path.isdir(path) else 0
    libc.syscall(ADD_RULE, ruleset, BENEATH_A_PATH, struct.pack("=Qi", rights | folder, parent), 0)
    os.close(parent)


def main() -> None:
    """Becomes the program. The filter comes last: it refuses what the other walls need."""
    use, program = sys.argv[1:3]
    walls = []
    with suppress(ImportError, AttributeError):
        end_with_parent()
        walls += [FILES] * refuse_files(program, use)
    limit(use)
    walls += [FILTER] * refuse_calls(use == CONVERTING)
    os.write(sys.stdout.fileno(), " ".join(walls).encode() + b"\n")
    os.execv(program, sys.argv[2:])


if __name__ == "__main__":
    main()
