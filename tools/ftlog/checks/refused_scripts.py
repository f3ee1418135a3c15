"""Scripts that are refused, each with its line and cause, and scripts that are accepted although something about them is odd.

Those of the rows of docs/LANGUAGE.md aren't repeated here; scripts at each limit are in check_program.py. In the blocks below each
line is a script, with `; ` for a line feed; before a refused one stands the line for which it is refused. What the other program, which was
written from the same rules by other hands, answers is the same.
"""
from ftlog import programs, runs
from ftlog.checks import script_texts
from ftlog.make import script_forms as forms

REFUSED = {
    "version": """
1 ftrace 0
1 ftrace
1 
1 # x; ftrace 1
1 # x; ftrace 2
1 ftrace 02
1 ftrace 1 1
1 ftrace 2 2
1 ftrace 4; ftrace 2
""",
    "syntax": """
2 ftrace 3; sched i0
2 ftrace 1; func .a
2 ftrace 1; func a-b
2 ftrace 1; ftrace 1
2 ftrace 1; ftrace 2
2 ftrace 2; ftrace 1
2 ftrace 2; ftrace 2
2 ftrace 2; ftrace 3
3 ftrace 2; func a; ftrace 2; func a
3 ftrace 2; tramps 3; tramps 99
3 ftrace 1; func a; ftrace 1; func a
3 ftrace 1; cpu 0 quantum 5; sched 8
3 ftrace 1; cpu 0 quantum 5; sched 07
2 ftrace 1; cpu 0 quantum 10000000000
2 ftrace 1; ctl until 00000000010 1
2 ftrace 1; sched k*00000000001
2 ftrace 1; user function
2 ftrace 1; user t function ipmodify
10 ftrace 1; cpu 0 quantum 5; cpu 1 quantum 5; cpu 2 quantum 5; cpu 3 quantum 5; cpu 4 quantum 5; cpu 5 quantum 5; cpu 6 quantum 5; cpu 7 quantum 5; cpu 9 quantum 5
3 ftrace 1; depth 3; depth 3
4 ftrace 1; tramps 3; # x; tramps 99
3 ftrace 1; user t function; depth 3
2 ftrace 1; call a
7 ftrace 1; func a; cpu 0 quantum 5; task 10 cpu 0; call a; ctl maxdepth 1; ret
7 ftrace 1; func a; cpu 0 quantum 5; task 10 cpu 0; call a; ret; func b
7 ftrace 1; func a; cpu 0 quantum 5; task 10 cpu 0; call a; sched 0; call zz
6 ftrace 1; func a; cpu 0 quantum 5; task 10 cpu 0; call a; frob; ret
6 ftrace 1; func a; cpu 0 quantum 5; task 10 cpu 0; call a; func b; ret
2 ftrace 2; lane 1
3 ftrace 2; ctl maxdepth 1; lane 0
3 ftrace 1; lane 0; lane 0
4 ftrace 1; lane 0; ctl maxdepth 1; lane 2
2 ftrace 1; lane 4294967295
2 ftrace 1; lane 9999999999
2 ftrace 1; lane 10000000000
3 ftrace 1; lane 0; lane 4294967297
2 ftrace 1; lane
2 ftrace 1; lane 0 0
3 ftrace 1; lane 0; func a
3 ftrace 1; lane 0; cpu 0 quantum 5
3 ftrace 1; lane 0; task 10 cpu 0
3 ftrace 1; sched k; lane 0
4 ftrace 1; lane 0; sched k; lane 1
6 ftrace 1; cpu 0 quantum 5; task 10 cpu 0; after 1; ctl until 10 1; lane 0
6 ftrace 1; cpu 0 quantum 5; task 10 cpu 0; after 1; lane 0; ctl until 10 1
3 ftrace 1; lane 0; ctl until 10 1
3 ftrace 1; lane 0; ctl until 0 0
10 ftrace 1; lane 0; lane 1; lane 2; lane 3; lane 4; lane 5; lane 6; lane 7; lane 9
3 ftrace 1; ring 2; ring 2
3 ftrace 1; ring 2; ring 0
4 ftrace 1; ring 5; trigger x:traceon; ring 5
2 ftrace 1; ring
2 ftrace 1; ring 2 3
2 ftrace 1; ring x
2 ftrace 1; ring 12345678901
5 ftrace 1; tracing off; depth 3; # x; tracing off
2 ftrace 1; tracing on
3 ftrace 1; tracing off; tracing on
2 ftrace 1; tracing
2 ftrace 1; trigger
2 ftrace 1; trigger a:traceoff :1
3 ftrace 1; ring 5; func a
3 ftrace 1; tracing off; func a
3 ftrace 1; trigger b:traceon:1; func a
3 ftrace 1; user t function; ring 0
3 ftrace 1; user t function; tracing off
3 ftrace 1; user t function; trigger a
4 ftrace 1; func e ext3; lane 0; ctl load ext3
4 ftrace 1; func e ext3; lane 0; ctl unload zz
4 ftrace 1; func e ext3; ctl load ext3; lane 0
4 ftrace 1; func e ext3; absent ext3; func f ext3
4 ftrace 1; func e ext3; user t function; absent ext3
3 ftrace 1; func e ext3; absent
3 ftrace 1; func e ext3; absent ext3 ext3
3 ftrace 1; func e ext3; ctl load
3 ftrace 1; func e ext3; ctl unload ext3 ext3
5 ftrace 1; func a; ring 2; tracing off; ring 65537
3 ftrace 1; user t function; ring 2
2 ftrace 1; lane 0 1
2 ftrace 1; lane 4294967296
10 ftrace 2; lane 0; lane 1; lane 2; lane 3; lane 4; lane 5; lane 6; lane 7; lane 9
3 ftrace 1; lane 0; ctl until 10 0
5 ftrace 1; cpu 0 quantum 5; task 10 cpu 0; lane 0; softirq; iret
""",
    "limit": """
2 ftrace 1; func aaaaaaaaaaaaaaaaaaaaaaaaaaaaaaaaaaaaaaaaaaaaaaaaaaaaaaaaaaaaaaaa
2 ftrace 1; cpu 0 quantum 9999999999
2 ftrace 1; depth 65
2 ftrace 1; depth 0
2 ftrace 1; tramps 64
2 ftrace 2; tramps 65
2 ftrace 2; depth 65
3 ftrace 1; cpu 0 quantum 5; task 0 cpu 0
3 ftrace 1; cpu 0 quantum 5; task 10 cpu 4294967296
6 ftrace 1; func a; cpu 0 quantum 5; task 10 cpu 0; call a; after 0
2 ftrace 1; ctl until 4194305 1
2 ftrace 1; ctl pid 4194305
2 ftrace 1; ctl nopid 0
2 ftrace 1; ctl pid 5 4194305
2 ftrace 1; ctl maxdepth 513
11 ftrace 2; lane 0; lane 1; lane 2; lane 3; lane 4; lane 5; lane 6; lane 7; ctl maxdepth 0; lane 8
3 ftrace 1; lane 0; ctl maxdepth 513
3 ftrace 1; cpu 0 quantum 5; sched 1*4000001
3 ftrace 1; cpu 0 quantum 5; sched all*2000000 1
2 ftrace 1; sched all*4000001
2 ftrace 1; sched k*4000000 k*0
10 ftrace 1; cpu 0 quantum 5; cpu 1 quantum 5; cpu 2 quantum 5; cpu 3 quantum 5; cpu 4 quantum 5; cpu 5 quantum 5; cpu 6 quantum 5; cpu 7 quantum 5; cpu 8 quantum 5
10 ftrace 1; cpu 0 quantum 5; cpu 1 quantum 5; cpu 2 quantum 5; cpu 3 quantum 5; cpu 4 quantum 5; cpu 5 quantum 5; cpu 6 quantum 5; cpu 7 quantum 5; cpu 8 quantum 5000000
5 ftrace 1; cpu 0 quantum 5; task 10 cpu 0; after 1; ctl maxdepth 513
2 ftrace 1; ring 65537
2 ftrace 2; ring 9999999999
10 ftrace 1; trigger a:traceon; trigger a:traceon; trigger a:traceon; trigger a:traceon; trigger a:traceon; trigger a:traceon; trigger a:traceon; trigger a:traceon; trigger a:traceon
10 ftrace 1; trigger a:traceon; trigger a:traceon; trigger a:traceon; trigger a:traceon; trigger a:traceon; trigger a:traceon; trigger a:traceon; trigger a:traceon; trigger x
2 ftrace 1; func a23456789b23456789c23456789d23456789e23456789f23456789g234567890
2 ftrace 1; ring 4294967296
5 ftrace 1; func a; trigger a:traceoff:1; trigger a:traceoff:1; depth 65
""",
    "duplicate": """
3 ftrace 1; func a; func a
3 ftrace 1; user t function; user t function
4 ftrace 1; cpu 0 quantum 5; task 10 cpu 0; task 10 cpu 0
4 ftrace 1; cpu 0 quantum 5; task 10 cpu 0; task 10 cpu 7
6 ftrace 1; func e ext3; func s snd; absent snd; absent ext3; absent snd
""",
    "unknown": """
2 ftrace 1; sched 0*4000000
3 ftrace 1; cpu 0 quantum 5; sched 1
3 ftrace 1; cpu 0 quantum 5; sched 7*2
2 ftrace 1; ctl until 4194304 1
2 ftrace 1; ctl pid 5
3 ftrace 1; cpu 0 quantum 5; task 10 cpu 9
3 ftrace 1; cpu 0 quantum 5; task 10 cpu 4294967295
2 ftrace 1; ctl register t
2 ftrace 1; user t function ipmodify regs
3 ftrace 1; func a; user call function call call
3 ftrace 1; user t function; ctl filter u > a:b
6 ftrace 1; func a; cpu 0 quantum 5; task 10 cpu 0; call a; call zz
2 ftrace 1; absent ext3
3 ftrace 1; func ext3; absent ext3
3 ftrace 1; func e ext3; absent ext
3 ftrace 1; func e ext3; ctl load snd
3 ftrace 1; func e ext3; ctl unload e
2 ftrace 1; ctl until 10 1; lane 0
""",
    "pattern": """
4 ftrace 1; func read; user t function; ctl filter t > 4
4 ftrace 1; func a; user t function; ctl filter t > 4294967297
4 ftrace 1; func a; user t function; ctl notrace t >> !
3 ftrace 1; func a; trigger a:traceoff:1000001
3 ftrace 1; func a; trigger a:traceoff:
3 ftrace 1; func a; trigger a:trace
3 ftrace 1; func a; trigger a:mod:m
3 ftrace 1; func a; trigger :traceon
3 ftrace 1; func a; trigger \\:traceon
""",
    "unbalanced": """
6 ftrace 1; func a; cpu 0 quantum 5; task 10 cpu 0; call a; iret
6 ftrace 1; func a; cpu 0 quantum 5; task 10 cpu 0; call a; after 1
7 ftrace 1; func a; cpu 0 quantum 5; task 10 cpu 0; call a; call a; ret
5 ftrace 1; func a; cpu 0 quantum 5; task 10 cpu 0; call a; sched 0
5 ftrace 1; func a; cpu 0 quantum 5; task 10 cpu 0; call a; sched 0; task 5 cpu 7
5 ftrace 1; func a; cpu 0 quantum 5; task 10 cpu 0; call a; frob; # x; user
5 ftrace 1; func a; cpu 0 quantum 5; task 10 cpu 0; irq
5 ftrace 1; cpu 0 quantum 5; task 10 cpu 0; nmi; nmi; iret
7 ftrace 1; func a; cpu 0 quantum 5; task 10 cpu 0; call a; irq; ret; iret; ret
6 ftrace 1; cpu 0 quantum 5; task 10 cpu 0; softirq; iret; irq; task 11 cpu 0
5 ftrace 1; func a; cpu 0 quantum 5; task 10 cpu 0; iret
6 ftrace 1; func a; cpu 0 quantum 5; cpu 1 quantum 5; task 10 cpu 0; call a; task 11 cpu 1; ret
5 ftrace 1; cpu 0 quantum 5; task 10 cpu 0; irq; softirq
""",
    "deadlock": """
7 ftrace 1; func a; user t function; cpu 0 quantum 5; task 10 cpu 0; call a; after 1; ret; ctl until 10 2; ctl register t
4 ftrace 1; cpu 0 quantum 5; task 10 cpu 0; after 2; ctl maxdepth 1; ctl until 10 1; ctl pid 10
5 ftrace 1; cpu 0 quantum 5; cpu 1 quantum 5; task 10 cpu 0; after 1; task 11 cpu 1; ctl until 11 1
8 ftrace 1; func e ext3; absent ext3; cpu 0 quantum 100; task 10 cpu 0; call e; ret; after 1
4 ftrace 1; cpu 0 quantum 5; task 10 cpu 0; after 2; lane 0; ctl maxdepth 1; lane 1
""",
    "unloaded": """
9 ftrace 1; func a; func e ext3; absent ext3; user t function; cpu 0 quantum 100; task 10 cpu 0; after 1; call e; ret; ctl register t; ctl load ext3
5 ftrace 1; func e ext3; cpu 0 quantum 100; task 10 cpu 0; call e; ret; ctl unload ext3
5 ftrace 1; func e ext3; cpu 0 quantum 100; task 10 cpu 0; call e; ret; ctl until 10 1; ctl unload ext3
5 ftrace 1; func a; func e ext3; absent ext3; user t function call e; user u function regs ipmodify e
4 ftrace 1; func a; func e ext3; user u function regs ipmodify e; ctl unload ext3
""",
}

# A missing last line feed is told before any other cause, and a byte that only a comment may have is no form.
REFUSED_BYTES = [
    (b"", "line 1: version"), (b"\n", "line 1: version"), (b"ftrace 1\r\n", "line 1: version"), (b"ftrace 1", "line 1: syntax"), (b"ftrace 2", "line 1: syntax"),
    (b"ftrace 3", "line 1: syntax"), (b"ftrace 1\nfunc a", "line 2: syntax"), (b"ftrace 1\n# x", "line 2: syntax"), (b"ftrace 1\n ", "line 2: syntax"),
    (b"ftrace 1\nfunc a\nfunc a", "line 3: syntax"), (b"ftrace 2\ntramps 65", "line 2: syntax"),
    (b"ftrace 1\nfunc a\ncpu 0 quantum 5\ntask 10 cpu 0\ncall a\nret", "line 6: syntax"),
    (b"ftrace 1\n\x80\n", "line 2: syntax"), (b"ftrace 1\nfunc caf\xc3\xa9\n", "line 2: syntax"), (b"ftrace 1\n# \x80\n\x80\n", "line 3: syntax"),
]

IN_ANY_FORM = "ftrace 1; func read; func ext3_read ext3; func snd_play snd; user t function; ctl filter t >> !*:mod:!ext3; ctl filter t > zz*; ctl filter t > 4"

# Nothing happens in these.
ACCEPTED = """
ftrace 1
ftrace 2
ftrace 1; func aaaaaaaaaaaaaaaaaaaaaaaaaaaaaaaaaaaaaaaaaaaaaaaaaaaaaaaaaaaaaaa
ftrace 1; cpu 0 quantum 5; sched 0*2
ftrace 1; cpu 0 quantum 5; sched all*2000000
ftrace 1; sched all*4000000
ftrace 1; cpu 0 quantum 0000000005
ftrace 1; user user function
ftrace 1; user regs function
ftrace 1; user function function
ftrace 1; cpu 0 quantum 5; cpu 1 quantum 5; cpu 2 quantum 5; cpu 3 quantum 5; cpu 4 quantum 5; cpu 5 quantum 5; cpu 6 quantum 5; cpu 7 quantum 5
ftrace 1; cpu 0 quantum 5; task 4194304 cpu 0
ftrace 1; depth 3
ftrace 1; tramps 16; depth 64
ftrace 1; tramps 0
ftrace 2; tramps 17
ftrace 2; tramps 64; depth 64
ftrace 1; user t function; user v function
ftrace 1; user t graph; user u profile; user v fprobe; user w fprobe exit; user x fprobe exit cancel
ftrace 1; user t function regs; user u function pid
ftrace 1; func regs; user t function ipmodify regs
ftrace 1; func call; user call function call call
ftrace 1; func pid; user t function regs ipmodify pid pid irq pid
ftrace 1; cpu 0 quantum 5; task 10 cpu 0; task 11 cpu 0
ftrace 1; cpu 0 quantum 5; task 10 cpu 0; irq; iret
ftrace 1; cpu 0 quantum 5; task 10 cpu 0; softirq; irq; nmi; iret; iret; iret; nmi; iret
ftrace 1; ring 1
ftrace 1; ring 65536; tracing off
ftrace 2; ring 0000000002; depth 3; tracing off; tramps 3
ftrace 1; func a; trigger a:traceoff; tracing off; trigger a:traceon:1000000
ftrace 1; trigger b:traceon:0001
ftrace 1; func a; trigger [:traceon
ftrace 1; trigger a:traceon; trigger a:traceon; trigger a:traceon; trigger a:traceon; trigger a:traceon; trigger a:traceon; trigger a:traceon; trigger a:traceon
"""

# In these something does.
TOLD = [
    (" \tftrace\t1  ",
        "end"),
    ("  ftrace \t2\t",
        "end"),
    ("ftrace 1; func a; user t function; ctl register t; # over; ; ctl unregister t",
        "0 begin 1; 1 return 1 ok; 2 begin 2; 3 return 2 ok; end"),
    ("ftrace 1; func a; user t function; cpu 0 quantum 5; task 10 cpu 0; after 1; call a; call a; ret; ret; after 2; ctl register t; "
     "ctl until 10 3; ctl unregister t; sched k 0*3 all",
        "0 begin 1; stopped"),
    ("ftrace 2; func a; func b; user t function call b; cpu 0 quantum 5; task 10 cpu 0; after 2; call a; ret; ctl filter t > a; ctl register t",
        "0 begin 1; 1 return 1 ok; 2 begin 2; 3 return 2 ok; 4 enter 10.1 normal a -; 5 back 10.1 t; 6 enter 10.2 normal b 10.1; 7 body 10.2 b nop; "
        "8 leave 10.2; 9 ret 10.2 10.1; 10 back-end 10.1 t; 11 body 10.1 a own t; 12 leave 10.1; 13 ret 10.1 -; end"),
    ("ftrace 1; func a; cpu 0 quantum 5; task 10 cpu 0; call a; softirq; call a; nmi; iret; ret; iret; ret",
        "0 enter 10.1 normal a -; 1 body 10.1 a nop; 2 enter 10.2 softirq a 10.1; 3 body 10.2 a nop; 4 leave 10.2; 5 ret 10.2 10.1; 6 leave 10.1; "
        "7 ret 10.1 -; end"),
    ("ftrace 1; func read; user t function; ctl filter t > 1; ctl notrace t >> !*; ctl filter t >",
        "0 begin 1; 1 return 1 ok; 2 begin 2; 3 return 2 ok; 4 begin 3; 5 return 3 ok; end"),
    ("ftrace 1; func a m; user t function; ctl filter t >> !a:mod:m",
        "0 begin 1; 1 return 1 ok; end"),
    ("ftrace 1; ctl pid; ctl nopid",
        "0 begin 1; 1 return 1 ok; 2 begin 2; 3 return 2 ok; end"),
    ("ftrace 1; cpu 0 quantum 5; task 10 cpu 0; task 9 cpu 0; ctl nopid 10; ctl pid 9 10 9",
        "0 begin 1; 1 return 1 ok; 2 begin 2; 3 return 2 ok; end"),
    ("ftrace 1; user t fprobe; ctl enable t; ctl disable t",
        "0 begin 1; 1 return 1 not-there; 2 begin 2; 3 return 2 not-there; end"),
    ("ftrace 1; cpu 0 quantum 5; task 10 cpu 0; after 1; ctl maxdepth 512",
        "0 begin 1; 1 return 1 ok; end"),
    ("ftrace 2; lane 0; ctl maxdepth 1; ctl maxdepth 2",
        "0 begin 1 lane 0; 1 return 1 ok; 2 begin 2 lane 0; 3 return 2 ok; end"),
    ("ftrace 1; lane 0; ctl pid; lane 1; ctl nopid; ctl pid",
        "0 begin 1 lane 0; 1 return 1 ok; 2 begin 2 lane 1; 3 return 2 ok; 4 begin 3 lane 1; 5 return 3 ok; end"),
    ("ftrace 1; lane 0; #; lane 1; ; ctl pid; #; lane 2; sched k*90",
        "0 begin 1 lane 1; 1 return 1 ok; end"),
    ("ftrace 1; lane 0; lane 1; lane 2; lane 3; lane 4; lane 5; lane 6; lane 7; ctl pid",
        "0 begin 1 lane 7; 1 return 1 ok; end"),
    ("ftrace 1; func a; func b m; user t function; cpu 0 quantum 5; cpu 1 quantum 6; task 20 cpu 1; call b; ret; task 10 cpu 0; after 1; "
     "ctl register t; ctl until 10 1; ctl unregister t; sched k 1*3; sched all",
        "0 begin 1; 1 enter 20.1 normal b -; stopped"),
]

# What the lines of these say shows in a form.
SHOWN = [
    script_texts.Told("users of each kind, with what they have",
        "ftrace 1; func a; func b; func c; tramps 2; depth 3; user t function regs ipmodify b; user g graph pid call c; user p fprobe exit irq a; "
        "cpu 0 quantum 5; task 10 cpu 0; after 4; softirq; call a; ret; iret; task 11 cpu 0; irq; iret; ctl filter t > a; ctl register t; "
        "ctl register g; ctl register p",
        {"log": "0 begin 1; 1 return 1 ok; 2 begin 2; 3 return 2 ok; 4 begin 3; 5 return 3 ok; 6 begin 4; 7 return 4 ok; 8 enter 10.1 softirq a -; "
         "9 back 10.1 p; 10 enter 10.2 irq a 10.1; 11 back 10.2 p; 12 back-end 10.2 p; 13 back 10.2 g; 14 enter 10.3 irq c 10.2; "
         "15 refuse 10.3 p recursion; 16 refuse 10.3 g recursion; 17 body 10.3 c list; 18 leave 10.3; 19 ret 10.3 10.2; 20 back-end 10.2 g; "
         "21 back 10.2 t; 22 back-end 10.2 t; 23 body 10.2 b list; 24 leave 10.2; 25 exit 10.2 p 11; 26 exit-end 10.2 p; 27 exit 10.2 g 13; "
         "28 exit-end 10.2 g; 29 ret 10.2 10.1; 30 back-end 10.1 p; 31 back 10.1 g; 32 enter 10.4 softirq c 10.1; 33 refuse 10.4 p recursion; "
         "34 refuse 10.4 g recursion; 35 body 10.4 c list; 36 leave 10.4; 37 ret 10.4 10.1; 38 back-end 10.1 g; 39 back 10.1 t; 40 back-end 10.1 t; "
         "41 body 10.1 b list; 42 leave 10.1; 43 exit 10.1 p 9; 44 exit-end 10.1 p; 45 exit 10.1 g 31; 46 exit-end 10.1 g; 47 ret 10.1 -; end",
         "enabled": "a (3) R I list; b (2)     list; c (2)     list; end"}, False),
    script_texts.Told("commands of each kind",
        "ftrace 1; func a; func ab; func b; user t function; user p fprobe; cpu 0 quantum 5; task 10 cpu 0; task 11 cpu 0; task 12 cpu 0; "
        "ctl filter p > a*; ctl notrace t >> !3; ctl filter t >; ctl pid 12 10; ctl nopid 11; ctl pid; ctl register p; ctl register t; ctl disable p; "
        "ctl enable p; ctl maxdepth 7",
        {"enabled": "a (2)     list; ab (2)     list; b (1)     own t; end"}, False),
    script_texts.Told("a ring and two triggers",
        "ftrace 1; func a; func b; ring 2; trigger b:traceoff:1; tracing off; trigger *:traceon; user t function; cpu 0 quantum 5; task 10 cpu 0; "
        "after 1; call a; ret; call b; ret; call a; ret; call a; ret; ctl register t",
        {"rings": "# cpu 0 entries 2/4;      10 [000] .       15: a <-root (t);      10 [000] .       21: a <-root (t); # trigger 0 fired 1; "
         "# trigger 1 fired 4; end"}, False),
    script_texts.Told("a module that is hidden, shown and hidden again",
        "ftrace 1; func a; func e ext3; absent ext3; user t function; cpu 0 quantum 100; task 10 cpu 0; after 2; call e; ret; ctl register t; "
        "ctl load ext3; ctl until 10 3; ctl unload ext3",
        {"modules": "load ext3 ok 3 4; unload ext3 ok 5 6; end",
         "enabled": "a (1)     own t; end"}, False),
]

FIRST_LOAD = "ftrace 1\nfunc e ext3\nuser t function\n" + "ctl maxdepth 1\n" * (forms.COMMANDS - 1)
ABSENT = "ftrace 1\nfunc e ext3\nabsent ext3\nuser t function\nuser u function\nctl load ext3\n"


def lines_of(block):
    """The scripts of a block."""
    return block.strip("\n").split("\n")


def refused_rows():
    """Scripts that are refused: by the blocks, by odd bytes, in the same words whatever the form, and after more than two thousand lines."""
    for cause, block in REFUSED.items():
        for number, script in (line.split(" ", 1) for line in lines_of(block)):
            yield f"refused: {runs.brief(script.encode())}", ["replay"], script_texts.text(script), f"line {number}: {cause}\n".encode()
    for script, line in REFUSED_BYTES:
        yield f"refused: {runs.brief(script)}", ["replay"], script, script_texts.text(line)
    for form in programs.FORMS:
        yield f"refused in the form {form}", ["replay", "--print", form], script_texts.text(IN_ANY_FORM), b"line 8: pattern\n"
    late = b"ftrace 1\n" + b"".join(b"# function %d:\nfunc f%d\n" % (number, number) for number in range(1_025))
    yield "refused late", ["replay"], late, b"line 2051: limit\n"
    for what, count, printed in [("refused in the most bytes", forms.INPUT_BYTES, b"line 1: version\n"), ("refused, but too long", forms.INPUT_BYTES + 1, b"")]:
        yield what, ["replay"], b"ftrace 4\n" + b"#" * (count - 10) + b"\n", printed


def load_rows():
    """The commands of a load count, and those with which control opens: with one command left, a load that has two is refused, and one that
    is `already` isn't. Two stand before the first line of control, three are those of the load, and each that is `already` is one."""
    whole = "".join(f"{2 * k - 2} begin {k}\n{2 * k - 1} return {k} ok\n" for k in range(1, forms.COMMANDS))
    already = f"{2 * forms.COMMANDS - 2} begin {forms.COMMANDS}\n{2 * forms.COMMANDS - 1} return {forms.COMMANDS} ok\nend\n"
    yield "a load that is already, as the last command", ["replay"], (FIRST_LOAD + "ctl load ext3\n").encode(), (whole + already).encode()
    yield "an unload without room for its commands", ["replay"], (FIRST_LOAD + "ctl unload ext3\n").encode(), b"line 1027: limit\n"
    most = forms.COMMANDS - 5
    yield "as many loads as there may be", ["replay"], (ABSENT + "ctl load ext3\n" * most).encode(), (whole + already).encode()
    yield "a load too many", ["replay"], (ABSENT + "ctl load ext3\n" * (most + 1)).encode(), f"line {most + 7}: limit\n".encode()


def accepted_rows():
    """Scripts that are accepted, and what they print. A list of pids has the first and the last of the most tasks."""
    for script in lines_of(ACCEPTED):
        yield f"accepted: {runs.brief(script.encode())}", ["replay"], script_texts.text(script), b"end\n"
    for script, printed in TOLD:
        yield f"accepted: {runs.brief(script.encode())}", ["replay"], script_texts.text(script), script_texts.text(printed)
    yield from script_texts.told_rows(SHOWN)
    tasks = "; ".join(f"task {number} cpu 0; after 2; call a; ret" for number in range(1, forms.TASKS + 1))
    listed = f"ftrace 1; func a; user u profile pid; cpu 0 quantum 5; {tasks}; ctl nopid {forms.TASKS} 1; ctl register u"
    yield "the first and the last pid", ["replay", "--print", "profile"], script_texts.text(listed), b"# user u\na 62 14531\nend\n"


def check(rows, program):
    """A row for each."""
    script_texts.check_each(rows, program, [*refused_rows(), *load_rows(), *accepted_rows()])
