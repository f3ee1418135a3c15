"""Lines of each form, and the nearest texts that have none, in scripts that the program reads. What the other program, which was written
from the same rules by other hands, answers is the same.
"""
from ftlog.checks import script_texts

# Lines that have no form, each after the first line of a script.
FORMLESS = """
a # b
\x01 #
ftrace
ftrace 0
ftrace 01
ftrace 02
ftrace 3
ftrace 12
ftrace 1 1
ftrace 2 1
Ftrace 1
func 9
func f 9
func f m m
func f-g
func f\x7f
func f\u00e4
func f\r
depth 12345678901
depth
depth -1
depth 1 2
tramps x
ring f
ring -1
ring 1 2
Ring 1
tracing OFF
tracing 0
tracing off off
tracing_off
tracingoff
trigger f:traceon 1
trigger f:traceon :1
trigger f\u00e4:traceon
triggers f:traceon
user u fprobe cancel
user u fprobe cancel exit
user u fprobe exit exit
user u function exit
user u Function
user u
user
user 1 function
user u graph ipmodify f
user u profile regs ipmodify f
user u fprobe ipmodify f
user u function ipmodify
user u function ipmodify 7
user u function pid regs
user u function ipmodify f regs
user u function pid ipmodify f
user u function call g pid
user u function regs regs
user u function pid pid
user u function call
user u function irq 7
user u function call f irq g
user u function traced
cpu c quantum 1
cpu 0 quanta 1
cpu 0 quantum
cpu 0 quantum x
cpu 0 quantum 1 2
task t cpu 0
task 10 0
task 10 on 0
task 10 cpu x
call
call 10
call f g
ret f
softirq 1
irq irq
nmi nmi
iret iret
after
after f
after 1 1
return
lane a
lane -1
lane 00000000000
Lane 0
ctl lane 0
ctl register 1
ctl register
ctl register u v
ctl unregister
ctl enable 1
ctl disable u v
ctl filter u >>
ctl filter u f*
ctl filter u
ctl filter u > f g
ctl filter 1 > f
ctl filter 1 >
ctl filter u >>> f
ctl filter u >f
ctl filter u > f\x7f
ctl notrace u >>
ctl notrace > f
ctl pid 1 x
ctl nopid u
ctl maxdepth
ctl maxdepth u
ctl until 10
ctl until u 1
ctl until 10 x
ctl until 10 1 1
ctl
ctl sched k
register u
sched
sched 8
sched 07
sched k*3*4
sched k*
sched k k,
sched k*12345678901
"""

# Lines that have one: what stands between the first line and them, with `; ` for a line feed, and by what is printed the lines that say it.
FORMED = [
    ("", {
        "end": ["#", "", "\t \t", " \t# \u00e4\x01 call", "func f", "func func func", "func _.9 ext3", "tramps 16"],
        "line 2: limit": ["func a234567890123456789012345678901234567890123456789012345678901234", "depth 0", "depth 9999999999"],
    }),
    ("func f", {
        "line 3: limit": ["ring 0", "ring 9999999999"],
        "end": ["ring 0000000001", "tracing off", "\ttracing  off\t", "trigger f*:traceon", "trigger f:traceoff:1"],
        "line 3: pattern": ["trigger off", "trigger trigger", "trigger 7", "trigger :"],
    }),
    ("func f; func g; func ipmodify; func irq; func call; func regs", {
        "end": ["user u function", "user u graph", "user u profile", "user u fprobe", "user u fprobe exit", "user u fprobe exit cancel", "user user function",
            "user u function regs ipmodify f pid call g", "user u fprobe exit cancel regs pid irq g", "user u graph pid", "user u graph call g",
            "user u function ipmodify ipmodify", "user u function ipmodify regs pid", "user u function call irq", "user u function irq call", "user regs function regs"],
    }),
    ("func f; func call", {
        "end": ["cpu 0 quantum 100"],
    }),
    ("func f; func call; cpu 0 quantum 5", {
        "end": ["task 10 cpu 0"],
        "line 5: limit": ["task 0 cpu 99"],
    }),
    ("func f; func call; cpu 0 quantum 5; task 10 cpu 0", {
        "line 6: unbalanced": ["call f", "call call", "softirq", "irq", "nmi"],
        "line 6: limit": ["after 0"],
        "line 6: deadlock": ["after 3"],
    }),
    ("func f m; user u function; cpu 0 quantum 5; task 10 cpu 0; softirq; iret; task 1 cpu 0; task 2 cpu 0", {
        "end": ["lane 0", "ctl until 10 1"],
        "0 begin 1; 1 return 1 ok; end": ["ctl register u", "ctl filter u > f*", "ctl filter u >> !f*:mod:m", "ctl filter u >", "ctl notrace u >", "ctl pid",
            "ctl pid 1 2 1", "ctl nopid", "ctl maxdepth 0"],
        "0 begin 1; 1 return 1 not-there; end": ["ctl unregister u", "ctl enable u", "ctl disable u"],
        "0 begin 1; 1 return 1 no-match; end": ["ctl filter u > >", "ctl notrace u >> ["],
        "line 10: pattern": ["ctl notrace u > 12345678901"],
        "line 10: limit": ["ctl nopid 4194305", "sched k 0*13 all*9999999999 7", "sched k*0"],
        "stopped": ["sched k"],
    }),
]


def all_rows():
    """Each line, in a script of its own."""
    for line in FORMLESS.strip("\n").split("\n"):
        yield f"no form: {line!a}", ["replay"], f"ftrace 1\n{line}\n".encode(), b"line 2: syntax\n"
    for before, lines_by_text in FORMED:
        head = "ftrace 1\n" + "".join(line + "\n" for line in before.split("; ") if line)
        for printed, lines in lines_by_text.items():
            for line in lines:
                yield f"a form: {line!a}", ["replay"], f"{head}{line}\n".encode(), script_texts.text(printed)


def check(rows, program):
    """A row for each."""
    script_texts.check_each(rows, program, all_rows())
