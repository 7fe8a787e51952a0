"""Which calls of the system a graded program may make: a list, by names, from which libseccomp (`libseccomp2`) writes
the filter for the machine it runs on. bubblewrap lets it hold for the program and all that it starts.

- What isn't in the list is answered as by a system that hasn't got the call, so that a language takes another way.
- A socket leads only to the program itself and its children (AF_UNIX).
- Left out on purpose: memory that no folder and no process shows (`memfd_create`, `shmget`), io_uring, which makes
  calls past the filter, and calls that tell what other processes do: locks, leases, watches and marks of files, keys,
  the kernel's log, what is in the page cache (`preadv2`, `mincore`), how full a disk is (`statfs`), and how many
  threads the machine has and how much memory is free (`sysinfo`)."""

import ctypes
import errno
import functools
import os
import socket

from forestplan.fault_codes import Code
from forestplan.faults import Fault

LIBRARY = "libseccomp.so.2"
CALLS = """
access arch_prctl brk cacheflush capget chdir chmod chown chown32 clone clone3 close close_range copy_file_range creat
dup dup2 dup3 execve execveat exit exit_group faccessat faccessat2 fallocate fchdir fchmod fchmodat fchown fchown32
fchownat fdatasync fork fsync ftruncate ftruncate64 getcpu getcwd getdents getdents64 getpgid getpgrp getpid getppid
getpriority getrandom getrlimit getrusage getsid gettid getxattr fgetxattr lgetxattr listxattr flistxattr llistxattr
get_mempolicy get_robust_list get_thread_area ioctl kill lchown lchown32 link linkat lseek _llseek membarrier
mkdir mkdirat mknod mknodat mlock mlock2 mlockall mmap mmap2 mprotect mremap mseal msync munlock munlockall
munmap open openat openat2 pause pidfd_open pidfd_send_signal pipe pipe2 pkey_alloc pkey_free pkey_mprotect prctl
pread64 preadv prlimit64 pwrite64 pwritev read readlink readlinkat readv rename renameat renameat2 restart_syscall
riscv_flush_icache riscv_hwprobe rmdir rseq sendfile sendfile64 setpgid setpriority setrlimit setsid set_mempolicy
set_robust_list set_thread_area set_tid_address set_tls swapcontext symlink symlinkat tgkill times tkill truncate
truncate64 ugetrlimit umask uname unlink unlinkat vfork wait4 waitid waitpid write writev

fstat fstat64 fstatat64 lstat lstat64 newfstatat stat stat64 statx
futimesat utime utimensat utimensat_time64 utimes

getegid getegid32 geteuid geteuid32 getgid getgid32 getgroups getgroups32 getresgid getresgid32 getresuid
getresuid32 getuid getuid32 setfsgid setfsgid32 setfsuid setfsuid32 setgid setgid32 setgroups setgroups32 setregid
setregid32 setresgid setresgid32 setresuid setresuid32 setreuid setreuid32 setuid setuid32

sched_getaffinity sched_getattr sched_getparam sched_getscheduler sched_get_priority_max sched_get_priority_min
sched_rr_get_interval sched_rr_get_interval_time64 sched_setaffinity sched_setattr sched_setparam sched_setscheduler
sched_yield futex futex_time64 futex_waitv

alarm clock_getres clock_getres_time64 clock_gettime clock_gettime64 clock_nanosleep clock_nanosleep_time64 getitimer
gettimeofday nanosleep setitimer time timer_create timer_delete timer_getoverrun timer_gettime timer_gettime64
timer_settime timer_settime64 timerfd_create timerfd_gettime timerfd_gettime64 timerfd_settime timerfd_settime64

rt_sigaction rt_sigpending rt_sigprocmask rt_sigqueueinfo rt_sigreturn rt_sigsuspend rt_sigtimedwait
rt_sigtimedwait_time64 rt_tgsigqueueinfo sigaction sigaltstack signal signalfd signalfd4 sigpending sigprocmask
sigreturn sigsuspend

epoll_create epoll_create1 epoll_ctl epoll_pwait epoll_pwait2 epoll_wait eventfd eventfd2 poll ppoll ppoll_time64
pselect6 pselect6_time64 select _newselect

accept accept4 bind connect getpeername getsockname getsockopt listen recv recvfrom recvmmsg recvmmsg_time64 recvmsg
send sendmmsg sendmsg sendto setsockopt shutdown
""".split()
# Of these the first word is a family.
SOCKETS = ("socket", "socketpair")
FAMILIES = (socket.AF_UNIX,)
# Of `fcntl` the second word is a command: F_DUPFD, F_GETFD, F_SETFD, F_GETFL, F_SETFL, F_SETOWN, F_GETOWN,
# F_DUPFD_CLOEXEC, F_GETPIPE_SZ.
OF_FCNTL = (0, 1, 2, 3, 4, 8, 9, 1030, 1032)
# Of `madvise` the third word is an advice: what a program is about to do with its memory (0 to 4, 8), and what its
# children get and what may be large or written down (10, 11, 14 to 19). Left out is what takes pages of a file out of
# the cache, where others read it.
OF_MADVISE = (0, 1, 2, 3, 4, 8, 10, 11, 14, 15, 16, 17, 18, 19)

# Numbers of libseccomp.
ALLOWED = 0x7FFF0000
REFUSED = 0x00050000
OTHER_MACHINE = 2
IS_NOT = 1
IS_EQUAL = 4
UNKNOWN = -1
THIS_MACHINE = 0


class Word(ctypes.Structure):
    """A comparison of one word of a call, as libseccomp takes it."""

    _fields_ = [
        ("place", ctypes.c_uint),
        ("compare", ctypes.c_int),
        ("value", ctypes.c_uint64),
        ("mask", ctypes.c_uint64),
    ]


def library() -> ctypes.CDLL:
    try:
        found = ctypes.CDLL(LIBRARY)
    except OSError:
        raise Fault(Code.NO_LIBSECCOMP) from None
    found.seccomp_init.restype = ctypes.c_void_p
    return found


class Filter:
    """A filter that is being written; `otherwise` is what becomes of a call without a rule. Used in `with`."""

    def __init__(self, seccomp: ctypes.CDLL, otherwise: int, machine: str) -> None:
        self.seccomp = seccomp
        self.otherwise = otherwise
        self.machine = machine
        self.state = ctypes.c_void_p()

    def __enter__(self) -> "Filter":
        self.state = ctypes.c_void_p(self.seccomp.seccomp_init(ctypes.c_uint32(self.otherwise)))
        self.check(self.seccomp.seccomp_attr_set(self.state, OTHER_MACHINE, REFUSED | errno.EPERM))
        if self.machine:
            self.be_for(self.machine)
        return self

    def __exit__(self, *why: object) -> None:
        self.seccomp.seccomp_release(self.state)

    def be_for(self, machine: str) -> None:
        """Makes it one for another machine than this one."""
        self.check(self.seccomp.seccomp_arch_remove(self.state, THIS_MACHINE))
        number = self.seccomp.seccomp_arch_resolve_name(machine.encode())
        self.check(self.seccomp.seccomp_arch_add(self.state, number))

    def check(self, status: int) -> None:
        if status:
            raise Fault(Code.CALLS_NOT_WRITTEN, why=os.strerror(-status))

    def add(self, action: int, name: str, *checks: tuple[int, int, int]) -> None:
        """What becomes of a call with such words; of no call that this library doesn't know."""
        number = self.seccomp.seccomp_syscall_resolve_name(name.encode())
        if number == UNKNOWN:
            return
        rows = (Word * len(checks))(*(Word(*word, 0) for word in checks))
        add = self.seccomp.seccomp_rule_add_array
        self.check(add(self.state, ctypes.c_uint32(action), number, len(rows), rows))

    def program(self) -> bytes:
        file = os.memfd_create("calls")
        try:
            self.check(self.seccomp.seccomp_export_bpf(self.state, file))
            return os.pread(file, os.fstat(file).st_size, 0)
        finally:
            os.close(file)


@functools.cache
def filters_of_calls(machine: str = "") -> tuple[bytes, ...]:
    """The filters, as bubblewrap reads them, for this machine or another one, as `aarch64`; a call has to pass all.

    On some machines one call, `socketcall`, does the work of all calls on sockets, and hides the family from a filter.
    libseccomp lets it pass with them, so a second filter refuses it: languages make the calls themselves.
    """
    seccomp = library()
    with Filter(seccomp, REFUSED | errno.ENOSYS, machine) as listed:
        for name in CALLS:
            listed.add(ALLOWED, name)
        for command in OF_FCNTL:
            for name in ("fcntl", "fcntl64"):
                listed.add(ALLOWED, name, (1, IS_EQUAL, command))
        for advice in OF_MADVISE:
            listed.add(ALLOWED, "madvise", (2, IS_EQUAL, advice))
        for name in SOCKETS:
            for family in FAMILIES:
                listed.add(ALLOWED, name, (0, IS_EQUAL, family))
        programs = [listed.program()]
    with Filter(seccomp, ALLOWED, machine) as refused:
        refused.add(REFUSED | errno.ENOSYS, "socketcall")
        programs.append(refused.program())
    return tuple(programs)
