"""Lines of strace, each with its call and the arguments of it that are numbers: what `learn` reads of each by itself, and of all.

The first are in the forms that strace's sources print (strace.c, util.c, syscall.c of 6.1, with each option that changes a line), and
the others, of which there is one of each form, stand in traces of services by strace 6.1. learn.py has whole traces.
"""

from cases.forms import Case

from .learn import entry, learned

# The call, and which of its arguments have which numbers; and the line.
LINES = r"""
capset | capset({version=_LINUX_CAPABILITY_VERSION_3, pid=0}, {effective=1<<CAP_CHOWN|1<<CAP_KILL, permitted=1<<CAP_CHOWN, inheritable=0}) = 0
prctl | prctl(PR_CAPBSET_READ, 1<<2)            = 1
prctl 0=23 | prctl(0x17, 1<<CAP_SYS_ADMIN)           = 1
read 0=0 2=1024 | read(0</dev/pts/0<char 136:0>>, "a\n", 1024) = 2
write 0=4 2=1 | write(4<TCP:[127.0.0.1:8000->127.0.0.1:5555]>, "a", 1) = 1
write 0=4 2=1 | write(4<UNIX-STREAM:[1234->5678,"/run/a, b"]>, "a", 1) = 1
write 0=4 2=6 | write(4<socket:[1]>, "a) = 0", 6)       = 6
read 0=5 2=8 | read(5<anon_inode:[eventfd]>, "\1\0\0\0\0\0\0\0", 8) = 8
read 0=6 1=140724908873336 2=16 | read(6<pipe:[7]>, 0x7ffd12345678, 16)   = ? ERESTARTSYS (To be restarted if SA_RESTART is set)
close 0=7 | close(7</tmp/a, b>(deleted))            = 0
openat 0=-100 2=524288 | openat(-100 /* AT_FDCWD */</tmp>, "a", 0x80000 /* O_RDONLY|O_CLOEXEC */) = 3
openat 0=4294967196 1=140519589601457 2=524288 3=0 | openat(0xffffff9c, 0x7fcd4438e0b1, 0x80000, 0) = 0x3
mmap 0=18446744073709551615 1=4096 2=3 3=34 4=4294967295 5=0 | mmap(0xffffffffffffffff, 4096, 0x3, 0x22, 0xffffffff, 0) = -1 EINVAL (Invalid argument)
mmap 0=0 1=4096 4=-1 5=0 | mmap(NULL, 4096, PROT_READ|0x80, MAP_PRIVATE|MAP_ANONYMOUS|0x1<<MAP_HUGE_SHIFT, -1, 0) = 0x7f0000000000
lseek 0=3 1=-4294967296 | lseek(3, -4294967296, SEEK_CUR)         = -1 EINVAL (Invalid argument)
fchmodat 2=420 | fchmodat(AT_FDCWD, "a", 0644)           = 0
umask 0=63 | umask(077)                              = 022
ioctl 0=3 2=524240 | ioctl(3, _IOC(_IOC_READ|_IOC_WRITE, 0x12, 0x34, 0x4), 0x7ffd0) = -1 ENOTTY (Inappropriate ioctl for device)
ioctl 0=3 1=21505 | ioctl(3, 0x5401 /* TCGETS */, {c_iflag=ICRNL, c_oflag=OPOST, c_cc[VMIN]=1, c_cc="\x03\x1c\x7f"}) = 0
ioctl 0=1 | ioctl(1, SNDCTL_TMR_TIMEBASE or TCGETS, {B38400 opost isig icanon echo ...}) = 0
fcntl 0=3 | fcntl(3, F_SETFD, FD_CLOEXEC)           = 0
fcntl 0=3 1=2 2=1 | fcntl(3, 0x2 /* F_SETFD */, 0x1)        = 0
rt_sigaction 3=8 | rt_sigaction(SIGINT, {sa_handler=0x55d0, sa_mask=~[RTMIN RT_1], sa_flags=SA_RESTORER, sa_restorer=0x7f00}, {sa_handler=SIG_DFL, sa_mask=[], sa_flags=0}, 8) = 0
wait4 0=-1 2=0 3=0 | wait4(-1, [{WIFEXITED(s) && WEXITSTATUS(s) == 0}], 0, NULL) = 77
wait4 0=-1 1=524240 3=0 | wait4(-1, 0x7ffd0, WNOHANG, NULL)       = 0
clone3 1=88 | clone3({flags=CLONE_VM|CLONE_THREAD, exit_signal=0, stack=0x7f00, stack_size=0x7fff80} => {parent_tid=[78]}, 88) = 78
clone3 | clone3({flags=CLONE_VM|CLONE_THREAD, stack_size=0x7fff80}, 88strace: Process 78 attached
vfork | [pid  1234] vfork(strace: Process 1236 attached
vfork | vfork(/usr/bin/strace: Process 1236 attached
clone | clone(child_stack=NULL, flags=CLONE_CHILD_CLEARTID|SIGCHLD, child_tidptr=0x7f00) = 78
futex 0=32512 2=0 3=0 | futex(0x7f00, FUTEX_WAIT_BITSET_PRIVATE|FUTEX_CLOCK_REALTIME, 0, NULL, FUTEX_BITSET_MATCH_ANY <unfinished ...>
nanosleep | nanosleep({tv_sec=1, tv_nsec=0},  <unfinished ...>
read 0=3 | [pid    77] read(3,  <unfinished ...>
read 0=3 | read(3,  <detached ...>
execve 2=524240 | execve("/bin/a", ["a", "b\", c)"], 0x7ffd0 /* 20 vars */ <pid changed to 77 ...>
exit_group 0=1 | exit_group(1)                           = ?
restart_syscall | restart_syscall(<... resuming interrupted nanosleep ...>) = 0
epoll_wait | <... epoll_wait resumed>[{events=EPOLLIN, data={u32=5, u64=5}}], 16, -1) = 1
read | 77 <... read resumed>"abc", 4096)       = 3
read 0=3 | read(3, "broken off
write 0=1 | write(1, "hello\n", 6hello
poll 1=2 2=-1 | poll([{fd=3, events=POLLIN}, {fd=4</tmp/x[1]>, events=0}], 2, -1) = 1 ([{fd=3, revents=POLLIN}])
select 0=4 2=0 3=0 | select(4, [3], NULL, NULL, {tv_sec=1, tv_usec=0}) = 0 (Timeout)
sendmsg 0=3 | sendmsg(3, {msg_name=NULL, msg_namelen=0, msg_iov=[{iov_base="a", iov_len=1}], msg_iovlen=1, msg_control=[{cmsg_len=20, cmsg_level=SOL_SOCKET, cmsg_type=SCM_RIGHTS, cmsg_data=[5]}], msg_controllen=24, msg_flags=0}, MSG_NOSIGNAL) = 1
setsockopt 0=3 4=4 | setsockopt(3, SOL_TCP, TCP_NODELAY, [1], 4) = 0
bpf 2=128 | bpf(BPF_PROG_LOAD, {prog_type=BPF_PROG_TYPE_CGROUP_DEVICE, insn_cnt=2, insns=[{code=BPF_ALU64|BPF_K|BPF_MOV, dst_reg=BPF_REG_0, src_reg=BPF_REG_0, off=0, imm=0x1}], license="GPL"}, 128) = 3
writev 0=1 1=2 2=3 3=4 4=5 5=6 | syscall_0x14(0x1, 0x2, 0x3, 0x4, 0x5, 0x6) = -1 ENOSYS (Function not implemented)
getpid | 10:33:07 getpid()                       = 1
read 0=3 2=1 | 10:33:07.784716 read(3, "", 1)          = 0
read 0=3 2=1 | 10:33:07.784716 (+     0.000050) read(3, "", 1) = 0
read 0=3 2=1 |      0.000050 read(3, "", 1)            = 0 <0.000004>
read 0=3 2=1 | 1795948388.283356809 read(3, "", 1)     = 0
read 0=3 2=1 | 24254 1795948387.874439 read(3, "", 1)  = 0
read 0=3 2=1 | [00007f6b71d4eb1d] read(3, "", 1)       = 0
read 0=3 2=1 | [????????????????] read(3, "", 1)       = 0
read 0=3 2=1 | [   0] read(3, "", 1)                   = 0
read 0=3 2=1 | [pid    77] 10:33:07 [   0] [00007f6b71d4eb1d] read(3, "", 1) = 0
read 0=3 2=1 | 24342<sh> read(3, "", 1)                = 0
read 0=3 2=1 | 24342<Web Content> read(3, "", 1)       = 0
read 0=3 2=1 | [pid 24342<sh>] read(3, "", 1)          = 0
read 0=3 2=1 | [pid  1 /* 77 in strace's PID NS */] read(3, "", 1) = 0
openat | 24342 [unconfined_t] openat(AT_FDCWD, "a" [user_home_t], O_RDONLY) = 3</a [user_home_t]>
read 0=3 2=832 | read(3, ""..., 832)                     = 832
kill 0=-77 | kill(-77, SIGTERM)                      = 0
getpriority 1=0 | getpriority(PRIO_PROCESS, 0)            = 20
read 0=3 2=832 | read(3, "\x7f\x45"..., 832)             = 832 (INJECTED)
pwrite64 0=3 2=4 3=18446744073709551615 | pwrite64(3, "a\"b\\", 4, 18446744073709551615) = -1 EINVAL (Invalid argument)
ptrace 1=77 2=0 | ptrace(PTRACE_SEIZE, 77, NULL, PTRACE_O_TRACESYSGOOD|PTRACE_O_TRACEEXEC) = 0
socket 0=2 1=524289 2=0 | socket(0x2, 0x1|0x80000, 0)             = 3
openat 0=-100 2=524865 3=420 | openat(-100, "a", 0x241|0x80000, 0644)  = 3
openat 3=420 | openat(AT_FDCWD, "a", O_WRONLY|0x80000, 0644) = 3
keyctl 2=0 | keyctl(KEYCTL_GET_KEYRING_ID, KEY_SPEC_SESSION_KEYRING, 0) = 1
execve 2=140723066998872 | 21987 execve("/usr/sbin/sshd", [...], 0x7ffca46b9058 /* 2 vars */) = 0
openat | 21987 openat(AT_FDCWD</tmp/sv>, "/etc/ld.so.cache", O_RDONLY|O_CLOEXEC) = 3</etc/ld.so.cache>
newfstatat 0=3 | 21987 newfstatat(3</etc/ld.so.cache>, "", {st_mode=S_IFREG|0644, st_size=43891, ...}, AT_EMPTY_PATH) = 0
prlimit64 0=0 2=0 | 21987 prlimit64(0, RLIMIT_STACK, NULL, {rlim_cur=8192*1024, rlim_max=RLIM64_INFINITY}) = 0
fstatfs 0=3 | 21987 fstatfs(3</proc/sys/kernel/cap_last_cap>, {f_type=PROC_SUPER_MAGIC, f_bsize=4096, f_blocks=0, f_bfree=0, f_bavail=0, f_files=0, f_ffree=0, f_fsid={val=[...]}, f_namelen=255, f_frsize=4096, f_flags=ST_VALID|ST_RELATIME}) = 0
rt_sigprocmask 2=0 3=8 | 21987 rt_sigprocmask(SIG_SETMASK, [], NULL, 8) = 0
connect 0=3 2=110 | 21987 connect(3<socket:[387775]>, {sa_family=AF_UNIX, sun_path="/var/run/nscd/socket"}, 110) = -1 ENOENT (No such file or directory)
bind 0=3 2=16 | 21987 bind(3<socket:[387778]>, {sa_family=AF_INET, sin_port=htons(41649), sin_addr=inet_addr("127.0.0.1")}, 16) = 0
accept 0=3 | 21987 accept(3<socket:[387778]>, {sa_family=AF_INET, sin_port=htons(50380), sin_addr=inet_addr("127.0.0.1")}, [128 => 16]) = 4<socket:[387786]>
sendto 0=4 2=20 3=0 5=12 | 21994 sendto(4<socket:[385581]>, ..., 20, 0, {sa_family=AF_NETLINK, nl_pid=0, nl_groups=00000000}, 12) = 20
recvmsg 0=4 2=0 | 21994 recvmsg(4<socket:[385581]>, {msg_name={sa_family=AF_NETLINK, nl_pid=0, nl_groups=00000000}, msg_namelen=12, msg_iov=[...], msg_iovlen=1, msg_controllen=0, msg_flags=0}, 0) = 396
rt_sigreturn | 21987 rt_sigreturn({mask=[]})           = 0
uname | 22122 uname({sysname="Linux", nodename="vm", ...}) = 0
execve | execve("/usr/bin/memcached", ["memcached", "-l", "127.0.0.1", "-p", "40397", "-P", "/tmp/sv/memcached.pid", "-u", "root"], ["PATH=/usr/sbin:/usr/bin:/sbin:/b"..., "LC_ALL=C", "PWD=/tmp/sv"]) = 0
rt_sigaction 3=8 | rt_sigaction(SIGINT, {sa_handler=0x55d2b4bad270, sa_mask=[INT], sa_flags=SA_RESTORER|SA_RESTART, sa_restorer=0x7f0b02a5a050}, {sa_handler=SIG_DFL, sa_mask=[], sa_flags=0}, 8) = 0
epoll_ctl 0=7 2=6 | epoll_ctl(7, EPOLL_CTL_ADD, 6, {events=EPOLLIN, data={u32=6, u64=6}}) = 0
futex 0=94363463931016 2=0 3=0 | [pid 18999] futex(0x55d2b4bf5488, FUTEX_WAIT_BITSET_PRIVATE|FUTEX_CLOCK_REALTIME, 0, NULL, FUTEX_BITSET_MATCH_ANY <unfinished ...>
newfstatat 0=3 | 18895 10:32:37.125829 newfstatat(3</etc/ld.so.cache>, "", {st_mode=S_IFREG|0644, st_size=43891, ...}, AT_EMPTY_PATH) = 0
capget 1=0 | 18895 10:32:37.127587 capget({version=0 /* _LINUX_CAPABILITY_VERSION_??? */, pid=0}, NULL) = 0
shmget 0=11034688 1=56 | 18895 10:32:37.185110 shmget(0xa86040, 56, IPC_CREAT|IPC_EXCL|0600) = 6
pselect6 0=6 2=0 3=0 5=0 | 18895 10:32:37.233119 pselect6(6, [5<TCP:[127.0.0.1:59595]>], NULL, NULL, {tv_sec=60, tv_nsec=0}, NULL <unfinished ...>
setitimer 2=0 | 18948 10:32:37.293152 setitimer(ITIMER_REAL, {it_interval={tv_sec=0, tv_usec=0}, it_value={tv_sec=60, tv_usec=0}}, NULL) = 0
gettid | 6000  gettid()                          = 6000
writev 0=9 2=2 | 5381  writev(9, [{iov_base="HTTP/1.1 200 OK\r\nServer: nginx/1"..., iov_len=239}, {iov_base="1\n2\n3\n4\n5\n6\n7\n8\n9\n10\n11\n12\n13\n14"..., iov_len=292}], 2) = 531
sendmsg 0=5 2=0 | 5380  sendmsg(5, {msg_name=NULL, msg_namelen=0, msg_iov=[{iov_base="\3\0\0\0\0\0\0\0\0\0\0\0\0\0\0\0\0\0\0\0\0\0\0\0\377\377\377\377\0\0\0\0", iov_len=32}], msg_iovlen=1, msg_controllen=0, msg_flags=0}, 0) = 32
"""

# The arguments of which 32 bits are kept without being asked for.
USUAL = {"fcntl": [1], "ioctl": [1], "prctl": [0], "socket": [0, 1, 2]}


def conditions(call, numbers):
    """Returns the conditions on these arguments of a call, all of which are asked for. Of a negative `int` 32 bits are kept."""
    usual = USUAL.get(call, [])
    for index in [*usual, *(it for it in range(6) if it not in usual)]:
        if index in numbers:
            number = numbers[index]
            short = index in usual or -2**31 <= number < 0
            yield index, "dword" if short else "qword", number % (2**32 if short else 2**64)


def read_lines():
    """Returns the lines, each with its call and a dictionary of numbers."""
    for told, _, line in (it.partition(" | ") for it in LINES.strip("\n").splitlines()):
        call, *numbers = told.split()
        yield line, call, {int(index): int(number) for index, number in (it.split("=") for it in numbers)}


ALL = list(read_lines())
FILES = {"lines.trace": "".join(f"{line}\n" for line, _, _ in ALL)}
CASES = [
    *[Case(f"learn --strict --args {call}", 0, learned(entry(call, *conditions(call, numbers))), "..", line) for line, call, numbers in ALL],
    Case("learn --strict --values 0 lines.trace", 0, learned(*sorted({call for _, call, _ in ALL})), "..", ""),
]
