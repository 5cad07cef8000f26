"""The policies whose programs bench/lengths measures. Those of a microVM monitor and of a browser have the calls and values that
Firecracker's and Chromium's filters list, as far as libseccomp can be asked for them."""

import json
import random

from timed_policies import TOP, call_names, example

KVM = """0xae00 0xae01 0xae03 0xae04 0xae41 0x4010ae42 0xae47 0xae60 0x4008ae61 0xc208ae62 0x8208ae63 0x4040ae77 0x8070ae9f 0x4070aea0
0xae80 0x8090ae81 0x4020ae46 0x4020ae76 0x4040ae79 0x4030ae7b 0x8030ae7c 0xaea3"""
BESIDE = "read write close clock_gettime exit_group rt_sigreturn futex mmap munmap epoll_wait recvfrom sendto"
MONITOR = """epoll_ctl epoll_pwait epoll_wait exit exit_group open openat read write writev readv close fsync fdatasync lseek brk
io_uring_enter io_uring_setup io_uring_register recvfrom recvmsg sendto sendmsg sched_yield getrandom munmap mremap sigaltstack
rt_sigreturn rt_sigprocmask clock_gettime statx fstat stat unlink ftruncate msync restart_syscall eventfd2 rename"""
BROWSER = """read write close readv writev pread64 pwrite64 lseek brk munmap mremap mincore msync epoll_create1 epoll_ctl epoll_wait
epoll_pwait poll ppoll select pselect6 eventfd2 pipe2 dup dup2 dup3 recvfrom recvmsg recvmmsg sendto sendmsg sendmmsg getpeername
getsockname shutdown exit exit_group sched_yield sched_getaffinity sched_getparam sched_getscheduler sched_setscheduler gettid getpid
getppid getuid geteuid getgid getegid getresuid getresgid getgroups getrandom nanosleep clock_gettime clock_getres gettimeofday time
times rt_sigaction rt_sigprocmask rt_sigreturn rt_sigtimedwait rt_sigsuspend sigaltstack set_robust_list get_robust_list
set_tid_address restart_syscall futex_waitv memfd_create ftruncate fallocate fstat newfstatat statx fstatfs fsync fdatasync fadvise64
readahead getdents64 uname sysinfo getrusage membarrier rseq arch_prctl wait4 waitid pipe tgkill getcpu timerfd_create
timerfd_settime timerfd_gettime inotify_init1 inotify_add_watch inotify_rm_watch"""


def dword(index, value):
    """Returns the condition that the low half of an argument has this value."""
    return {"index": index, "type": "dword", "op": "eq", "val": value}


def masked(index, mask, value):
    """Returns the condition that it has the value's bits under this mask."""
    return {"index": index, "type": "dword", "op": {"masked_eq": mask}, "val": value}


def qword(index, operator, value):
    """Returns a condition on the whole argument."""
    return {"index": index, "type": "qword", "op": operator, "val": value}


def calls(names):
    """Returns the entries of calls that are always allowed."""
    return [{"syscall": name} for name in names.split()]


def entries(call, *rules):
    """Returns the entries of one call, one for each list of conditions."""
    return [{"syscall": call, "args": list(rule)} for rule in rules]


def each(call, index, *values):
    """Returns the entries of one call, one for each value of an argument."""
    return entries(call, *([dword(index, value)] for value in values))


def filter_of(rules, mismatch):
    """Returns the filter of these entries."""
    return {"mismatch_action": mismatch, "match_action": "allow", "filter": rules}


def allowed_calls(count):
    """Returns a filter of so many calls; each run draws the same ones."""
    names = random.Random(5).sample(sorted(call_names("x86_64")), count)
    return filter_of([{"syscall": name} for name in names], "kill_process")


def values(count, size):
    """Returns a filter of one call for so many values of an argument, and of twelve other calls."""
    rules = [{"syscall": "ioctl", "args": [{"index": 1, "type": size, "op": "eq", "val": 0xAE00 + 7 * k}]} for k in range(count)]
    return filter_of([*calls(BESIDE), *rules], {"errno": 38})


def masked_conditions():
    """Returns a filter of masked conditions, alone and joined."""
    kinds = [(domain, kind) for domain in (1, 2, 10) for kind in (1, 2)]
    return filter_of([
        *calls(BESIDE), *entries("clone", [masked(0, 0x7E020000, 0)]),
        *entries("mmap", [masked(2, 4, 0), masked(3, 0x20, 0x20)], [masked(2, 2, 0)]), *entries("mprotect", [masked(2, 4, 0)]),
        *entries("openat", [masked(2, 3, 0)]), *entries("open", [masked(1, 3, 0)]),
        *entries("ioctl", *([masked(1, 0xFF00, kind << 8)] for kind in (0x54, 0x64, 0xAE, 0x12, 0x89, 0x45, 0x62, 0xAF))),
        *entries("socket", *([masked(0, 0xFFFF, domain), masked(1, 0xF, kind)] for domain, kind in kinds)),
    ], {"errno": 1})


def monitor():
    """Returns the filter of a microVM monitor."""
    return filter_of([
        *calls(MONITOR), *each("futex", 1, 128, 129, 137, 0, 1, 265, 393), *each("timerfd_settime", 1, 0),
        *entries("timerfd_create", [dword(0, 1), dword(1, 526336)], [dword(0, 1), dword(1, 2048)]), *each("accept4", 3, 526336, 524288),
        *entries("fcntl", [dword(1, 2), dword(2, 1)], [dword(1, 1)], [dword(1, 3)], [dword(1, 4), dword(2, 2048)],
                 [dword(1, 4), dword(2, 34816)], [dword(1, 1030), dword(2, 3)]),
        *each("madvise", 2, 4, 8, 14, 16),
        *entries("mmap", *([dword(2, way), dword(3, flags)] for way, flags in (
            (3, 34), (0, 34), (3, 1), (3, 2), (1, 2), (3, 16418), (3, 0x4022)))),
        *each("mprotect", 2, 3, 1, 0),
        *entries("socket", [dword(0, 1), dword(1, 524289), dword(2, 0)], [dword(0, 1), dword(1, 526337), dword(2, 0)],
                 [dword(0, 40), dword(1, 524289)]),
        *each("tkill", 1, 6), *each("kill", 1, 6), *each("prctl", 0, 15, 38), *each("rt_sigaction", 0, 6, 11, 7),
        *entries("clone", [masked(0, 0x7E020000, 0)]), *each("ioctl", 1, *(int(it, 16) for it in KVM.split())),
        *each("ioctl", 1, 21505, 21506, 21523, 0x5421, 0x400454CA, 0x400454D0, 0x400454D8, 0x5450),
    ], "trap")


def browser():
    """Returns the filter of a browser's sandbox."""
    return filter_of([
        *calls(BROWSER), *each("futex", 1, 0, 1, 3, 4, 9, 10, 128, 129, 131, 132, 137, 138, 265, 393),
        *each("madvise", 2, 0, 1, 2, 3, 4, 8, 9, 10, 14, 15, 16, 20, 21),
        *entries("mmap", [masked(2, 4, 0), masked(3, 0x100, 0)], [dword(2, 5), dword(3, 2)]),
        *entries("mprotect", [masked(2, 4, 0)], [dword(2, 5)]), *each("fcntl", 1, 0, 1, 2, 3, 4, 5, 6, 7, 1030, 1033, 1034),
        *entries("fcntl", [dword(1, 1024), dword(2, 0)]), *each("ioctl", 1, 0x5401, 0x5413, 0x541B, 0x5421, 0x5450, 0x5451),
        *entries("ioctl", [masked(1, 0xFF00, 0x6400)], [masked(1, 0xFF00, 0x6200)]),
        *each("prctl", 0, 3, 4, 15, 16, 22, 23, 24, 38, 39, 0x53564D41, 0x59616D61),
        *each("clone", 0, 0x3D0F00, 0x7D0F00, 0x1200011),
        *entries("socket", [dword(0, 1), masked(1, 0xF, 1)], [dword(0, 1), masked(1, 0xF, 2)]), *each("socketpair", 0, 1),
        *entries("prlimit64", [dword(0, 0), dword(2, 0)]), *each("kill", 1, 0), *each("getsockopt", 1, 1),
        *entries("setsockopt", [dword(1, 1), dword(2, 7)], [dword(1, 1), dword(2, 8)]),
        *entries("clock_nanosleep", [qword(0, "le", 1)]), *each("getpriority", 0, 0),
        *entries("setpriority", [dword(0, 0), qword(2, "le", 20)]), *entries("access", [qword(1, "le", 4)]),
        *entries("openat", [masked(2, 3, 0)]), *entries("sched_setaffinity", [qword(0, "eq", 0)]), *calls("clone3"),
    ], {"errno": 1})


def length_policies():
    """Returns the filters, each with its name; the policy that is learned is made by bench/lengths."""
    (web_server,) = example("web-server-policy.json").values()
    return [
        ("50 calls", allowed_calls(50)), ("80 values of 64 bits", values(80, "qword")), ("300 values of 32 bits", values(300, "dword")),
        ("masked conditions", masked_conditions()), ("a microVM monitor", monitor()), ("a browser", browser()), ("a web server", web_server),
    ]
