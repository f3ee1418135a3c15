"""Scripts with what is written for them, each run by the program. Their texts are those of a program that was written from
the same rules by other hands; those of examples/ and of the rows of docs/LANGUAGE.md stand beside them.

In the tables below `; ` is a line feed, and one line feed ends the last line, as in those of docs/LANGUAGE.md. The status is 3
if the text is the line of a refusal, and 0 otherwise; the input has to be read to its end. An input that is too long has no text,
and the status 7.
"""
import os
import tempfile
from typing import NamedTuple

from ftlog import runs
from ftlog.checks import check_docs, look_texts

SECONDS = 60  # that a run by threads may take


class Told(NamedTuple):
    """A script and what is printed for it, by forms. If its waits leave one order of what happens, running threads print the same."""

    what: str
    script: str
    texts: dict
    is_ordered: bool = True


BUSY = "ftrace 1; func a; func b; func c m; func d; user t function; cpu 0 quantum 9; cpu 1 quantum 1; cpu 2 quantum 2; cpu 3 quantum 3; cpu 4 quantum 4; "
BUSY += "task 10 cpu 0; after 1; call a; call b; ret; ret; task 11 cpu 1; call b; ret; task 12 cpu 2; call c; call d; after 2; ret; ret; task 13 cpu 3; "
BUSY += "ctl until 11 2; ctl register t; ctl register t; ctl unregister t; ctl until 10 5; ctl unregister t; "

SCRIPTS = [
    Told("nothing is declared",
        "ftrace 1",
        {"log": "end"}),
    Told("commands that are repeated",
        "ftrace 1; func a; user t function; ctl register t; ctl register t; ctl unregister t; ctl unregister t",
        {"log": "0 begin 1; 1 return 1 ok; 2 begin 2; 3 return 2 already; 4 begin 3; 5 return 3 ok; 6 begin 4; 7 return 4 not-there; end"}),
    Told("lanes: a replay carries out their commands in the order of the lines",
        "ftrace 1; func a; user t function; user s function; lane 0; ctl register t; ctl unregister t; lane 1; ctl register s",
        {"log": "0 begin 1 lane 0; 1 return 1 ok; 2 begin 2 lane 0; 3 return 2 ok; 4 begin 3 lane 1; 5 return 3 ok; end"},
        is_ordered=False),
    Told("lanes: each order of the commands leaves the same users",
        "ftrace 1; func a; user t function; user s function; lane 0; ctl register t; ctl unregister t; lane 1; ctl register s",
        {"enabled": "a (1)     own s; end"}),
    Told("lanes without commands, and zeros in front of a number",
        "ftrace 2; lane 0; lane 0000000001; lane 02; ctl maxdepth 1",
        {"log": "0 begin 1 lane 2; 1 return 1 ok; end"}),
    Told("a module is hidden at first, and loaded",
        "ftrace 1; func a; func e ext3; absent ext3; user t function; cpu 0 quantum 100; task 10 cpu 0; after 2; call e; ret; ctl register t; ctl load ext3",
        {"log": "0 begin 1; 1 return 1 ok; 2 begin 2; 3 return 2 ok; 4 begin 3; 5 return 3 ok; 6 begin 4; 7 return 4 ok; 8 enter 10.1 normal e -; 9 back 10.1 t; "
                "10 back-end 10.1 t; 11 body 10.1 e own t; 12 leave 10.1; 13 ret 10.1 -; end",
         "modules": "load ext3 ok 3 4; end"}),
    Told("a trigger stops tracing, and the ring holds the last entries",
        "ftrace 1; func a; func b; ring 2; trigger b:traceoff:1; user t function; cpu 0 quantum 100; task 10 cpu 0; after 1; call a; ret; call a; ret; call a; ret; "
        "call b; ret; ctl register t",
        {"rings": "# cpu 0 entries 2/3;      10 [000] .        9: a <-root (t);      10 [000] .       15: a <-root (t); # trigger 0 fired 1; end"}),
    Told("a call that stops tracing has no entry",
        "ftrace 1; func a; func b; ring 2; trigger a:traceoff:1; user t function; cpu 0 quantum 100; task 10 cpu 0; after 1; call a; ret; call a; ret; call a; ret; "
        "call b; ret; ctl register t",
        {"rings": "# cpu 0 entries 0/0; # trigger 0 fired 1; end"}),
    Told("triggers are hit in the order of their lines",
        "ftrace 1; func a; trigger a:traceoff; trigger ?:traceon:2; user t function; user s graph; cpu 0 quantum 100; task 10 cpu 0; after 2; call a; ret; call a; ret; "
        "call a; ret; ctl register t; ctl register s",
        {"rings": "# cpu 0 entries 2/2;      10 [000] .        7: a <-root (t);      10 [000] .       17: a <-root (t); # trigger 0 fired 3; # trigger 1 fired 2; end"}),
    Told("tracing is off at first, and a callback's call switches it on",
        "ftrace 2; func a; func b; tracing off; trigger b:traceon; user t function call b; cpu 0 quantum 100; task 10 cpu 0; after 1; call a; ret; ctl register t",
        {"rings": "# cpu 0 entries 1/1;      10 [000] .        5: b <-a (t); # trigger 0 fired 2; end"}),
    Told("a CPU without tasks, and a trigger that nothing hits",
        "ftrace 1; func a; ring 0000000001; trigger b*:traceoff:0000001; cpu 0 quantum 1; cpu 1 quantum 1",
        {"rings": "# cpu 0 entries 0/0; # cpu 1 entries 0/0; # trigger 0 fired 0; end"}),
    Told("two users that replace functions",
        "ftrace 1; func a; func b; func c; func d; user p function regs ipmodify d; user q function regs ipmodify d; cpu 0 quantum 100; task 10 cpu 0; after 7; "
        "call b; ret; ctl filter p > a; ctl filter p >> b; ctl filter q > [bc]; ctl register p; ctl register q; ctl unregister p; ctl register q",
        {"log": "0 begin 1; 1 return 1 ok; 2 begin 2; 3 return 2 ok; 4 begin 3; 5 return 3 ok; 6 begin 4; 7 return 4 ok; 8 begin 5; 9 return 5 busy b p; 10 begin 6; "
                "11 return 6 ok; 12 begin 7; 13 return 7 ok; 14 enter 10.1 normal b -; 15 back 10.1 q; 16 back-end 10.1 q; 17 body 10.1 d own q; 18 leave 10.1; "
                "19 ret 10.1 -; end"}),
    Told("the notrace set wins",
        "ftrace 1; func ext3_read ext3; func ext3_write ext3; func vfs_read; user t function; cpu 0 quantum 100; task 10 cpu 0; after 3; call ext3_write; ret; "
        "call ext3_read; ret; ctl filter t > ext3_*; ctl notrace t > ext3_w*; ctl register t",
        {"log": "0 begin 1; 1 return 1 ok; 2 begin 2; 3 return 2 ok; 4 begin 3; 5 return 3 ok; 6 enter 10.1 normal ext3_write -; 7 body 10.1 ext3_write nop; "
                "8 leave 10.1; 9 ret 10.1 -; 10 enter 10.2 normal ext3_read -; 11 back 10.2 t; 12 back-end 10.2 t; 13 body 10.2 ext3_read own t; 14 leave 10.2; "
                "15 ret 10.2 -; end"}),
    Told("edits of a filter that add, take away, clear and match nothing",
        "ftrace 1; func read; func ext3_read ext3; func snd_play snd; user t function; ctl filter t >> !*:mod:!ext3; ctl filter t > zz*; ctl filter t > 1; "
        "ctl filter t >> *:mod:s?d; ctl filter t >> !*:mod:!snd; ctl register t",
        {"log": "0 begin 1; 1 return 1 ok; 2 begin 2; 3 return 2 no-match; 4 begin 3; 5 return 3 ok; 6 begin 4; 7 return 4 ok; 8 begin 5; 9 return 5 ok; 10 begin 6; "
                "11 return 6 ok; end",
         "enabled": "snd_play (1)     own t; end"}),
    Told("no trampoline",
        "ftrace 1; func a; tramps 0; user tr function; cpu 0 quantum 100; task 10 cpu 0; after 1; call a; ret; ctl register tr",
        {"log": "0 begin 1; 1 return 1 ok; 2 enter 10.1 normal a -; 3 back 10.1 tr; 4 back-end 10.1 tr; 5 body 10.1 a list; 6 leave 10.1; 7 ret 10.1 -; end"}),
    Told("a callback that calls a function is refused there for recursion",
        "ftrace 1; func a; func b; user t1 function call b; cpu 0 quantum 100; task 10 cpu 0; after 1; call a; ret; ctl register t1",
        {"log": "0 begin 1; 1 return 1 ok; 2 enter 10.1 normal a -; 3 back 10.1 t1; 4 enter 10.2 normal b 10.1; 5 refuse 10.2 t1 recursion; 6 body 10.2 b own t1; "
                "7 leave 10.2; 8 ret 10.2 10.1; 9 back-end 10.1 t1; 10 body 10.1 a own t1; 11 leave 10.1; 12 ret 10.1 -; end"}),
    Told("a callback that is interrupted: the interrupt has a guard of its own",
        "ftrace 1; func a; func b; user t1 function irq b; cpu 0 quantum 100; task 10 cpu 0; after 1; call a; ret; ctl register t1",
        {"log": "0 begin 1; 1 return 1 ok; 2 enter 10.1 normal a -; 3 back 10.1 t1; 4 enter 10.2 irq b 10.1; 5 back 10.2 t1; 6 back-end 10.2 t1; "
                "7 body 10.2 b own t1; 8 leave 10.2; 9 ret 10.2 10.1; 10 back-end 10.1 t1; 11 body 10.1 a own t1; 12 leave 10.1; 13 ret 10.1 -; end"}),
    Told("a shadow stack that is full",
        "ftrace 1; func a; func b; func c; depth 2; user g graph; cpu 0 quantum 100; task 10 cpu 0; after 1; call a; call b; call c; ret; ret; ret; ctl register g",
        {"log": "0 begin 1; 1 return 1 ok; 2 enter 10.1 normal a -; 3 back 10.1 g; 4 back-end 10.1 g; 5 body 10.1 a own g; 6 enter 10.2 normal b 10.1; 7 back 10.2 g; "
                "8 back-end 10.2 g; 9 body 10.2 b own g; 10 enter 10.3 normal c 10.2; 11 refuse 10.3 g depth; 12 body 10.3 c own g; 13 leave 10.3; 14 ret 10.3 10.2; "
                "15 leave 10.2; 16 exit 10.2 g 7; 17 exit-end 10.2 g; 18 ret 10.2 10.1; 19 leave 10.1; 20 exit 10.1 g 3; 21 exit-end 10.1 g; 22 ret 10.1 -; end",
         "graph": "# user g;  0)      10 |          | a() {;  0)      10 |        9 |   b();;  0)      10 |       17 | } /* a */; end"}),
    Told("a user that was registered again has no exit for its old frame",
        "ftrace 1; func a; user g graph; cpu 0 quantum 100; task 10 cpu 0; after 1; call a; after 3; ret; call a; ret; ctl register g; ctl until 10 2; "
        "ctl unregister g; ctl register g",
        {"log": "0 begin 1; 1 return 1 ok; 2 enter 10.1 normal a -; 3 back 10.1 g; 4 back-end 10.1 g; 5 body 10.1 a own g; 6 begin 2; 7 return 2 ok; 8 begin 3; "
                "9 return 3 ok; 10 leave 10.1; 11 ret 10.1 -; 12 enter 10.2 normal a -; 13 back 10.2 g; 14 back-end 10.2 g; 15 body 10.2 a own g; 16 leave 10.2; "
                "17 exit 10.2 g 13; 18 exit-end 10.2 g; 19 ret 10.2 -; end"}),
    Told("a disabled fprobe has no exit",
        "ftrace 1; func a; user p fprobe exit; cpu 0 quantum 100; task 10 cpu 0; after 1; call a; after 2; ret; call a; ret; ctl register p; ctl until 10 2; "
        "ctl disable p",
        {"log": "0 begin 1; 1 return 1 ok; 2 enter 10.1 normal a -; 3 back 10.1 p; 4 back-end 10.1 p; 5 body 10.1 a own p; 6 begin 2; 7 return 2 ok; 8 leave 10.1; "
                "9 ret 10.1 -; 10 enter 10.2 normal a -; 11 body 10.2 a own p; 12 leave 10.2; 13 ret 10.2 -; end"}),
    Told("calls within calls, for a profile user",
        "ftrace 1; func a; func b; user p profile; cpu 0 quantum 100; task 10 cpu 0; after 1; call a; call b; ret; ret; ctl register p",
        {"log": "0 begin 1; 1 return 1 ok; 2 enter 10.1 normal a -; 3 back 10.1 p; 4 back-end 10.1 p; 5 body 10.1 a own p; 6 enter 10.2 normal b 10.1; 7 back 10.2 p; "
                "8 back-end 10.2 p; 9 body 10.2 b own p; 10 leave 10.2; 11 exit 10.2 p 7; 12 exit-end 10.2 p; 13 ret 10.2 10.1; 14 leave 10.1; 15 exit 10.1 p 3; "
                "16 exit-end 10.1 p; 17 ret 10.1 -; end",
         "profile": "# user p; a 1 12; b 1 4; end"}),
    Told("a call site that is patched: the CPU finds the breakpoint",
        "ftrace 1; func a; user tr function; cpu 0 quantum 100; task 10 cpu 0; call a; ret; ctl register tr; sched k*9 0*13 all*1000",
        {"log": "0 begin 1; 1 enter 10.1 normal a -; 2 back 10.1 tr; 3 back-end 10.1 tr; 4 body 10.1 a own tr; 5 leave 10.1; 6 ret 10.1 -; 7 return 1 ok; end"}, False),
    Told("a call site that is patched: the CPU has loaded the old first byte before the breakpoint is stored",
        "ftrace 1; func a; user tr function; cpu 0 quantum 100; task 10 cpu 0; call a; ret; ctl register tr; sched 0*3 k*40 0*1 all*1000",
        {"log": "0 enter 10.1 normal a -; 1 begin 1; 2 body 10.1 a nop; 3 leave 10.1; 4 ret 10.1 -; 5 return 1 ok; end"}, False),
    Told("an unregistration waits for a callback whose task is switched away",
        "ftrace 1; func a; user tr function; cpu 0 quantum 14; task 11 cpu 0; after 1; softirq; iret; softirq; iret; task 10 cpu 0; after 1; softirq; iret; call a; "
        "ret; ctl register tr; ctl unregister tr; sched k*10 0*5 k*3 0*5 k*3 0*5 k*2 0*14 k*7 0*4 k*3 0*3 k*3 0*3 k*3 0*3 k*5 all*1000",
        {"log": "0 begin 1; 1 return 1 ok; 2 enter 10.1 normal a -; 3 back 10.1 tr; 4 begin 2; 5 back-end 10.1 tr; 6 body 10.1 a own tr; 7 leave 10.1; 8 ret 10.1 -; "
                "9 return 2 ok; end"}, False),
    Told("a notrace set that is changed in a walk of the list: the CPU has chosen the old copy",
        "ftrace 1; func a; user t1 function; user t2 function; cpu 0 quantum 100; task 10 cpu 0; after 2; call a; ret; ctl register t1; ctl register t2; "
        "ctl until 10 1; ctl notrace t1 > a; sched k*50 0*20 k*50 0*20 k*50 0*20 k*50 0*20 k*50 0*20 k*50 0*20 k*50 0*14 k*50 0*20 all*1000",
        {"log": "0 begin 1; 1 return 1 ok; 2 begin 2; 3 return 2 ok; 4 enter 10.1 normal a -; 5 back 10.1 t2; 6 back-end 10.1 t2; 7 begin 3; 8 back 10.1 t1; "
                "9 back-end 10.1 t1; 10 body 10.1 a list; 11 leave 10.1; 12 ret 10.1 -; 13 return 3 ok; end"}, False),
    Told("a notrace set that is changed in a walk of the list: the CPU hasn't chosen yet",
        "ftrace 1; func a; user t1 function; user t2 function; cpu 0 quantum 100; task 10 cpu 0; after 2; call a; ret; ctl register t1; ctl register t2; "
        "ctl until 10 1; ctl notrace t1 > a; sched k*50 0*20 k*50 0*20 k*50 0*20 k*50 0*20 k*50 0*20 k*50 0*20 k*50 0*13 k*50 0*20 all*1000",
        {"log": "0 begin 1; 1 return 1 ok; 2 begin 2; 3 return 2 ok; 4 enter 10.1 normal a -; 5 back 10.1 t2; 6 back-end 10.1 t2; 7 begin 3; 8 body 10.1 a list; "
                "9 leave 10.1; 10 ret 10.1 -; 11 return 3 ok; end"}, False),
    Told("a list of pids",
        "ftrace 1; func a; user t function pid; cpu 0 quantum 100; task 10 cpu 0; after 2; call a; ret; task 11 cpu 0; after 3; call a; ret; ctl register t; "
        "ctl pid 10; ctl until 10 3; ctl maxdepth 0",
        {"log": "0 begin 1; 1 return 1 ok; 2 begin 2; 3 return 2 ok; 4 enter 10.1 normal a -; 5 back 10.1 t; 6 back-end 10.1 t; 7 body 10.1 a own t; 8 leave 10.1; "
                "9 ret 10.1 -; 10 begin 3; 11 return 3 ok; 12 enter 11.1 normal a -; 13 refuse 11.1 t pid; 14 body 11.1 a own t; "
                "15 leave 11.1; 16 ret 11.1 -; end"}, False),
    Told("each context has a guard of its own",
        "ftrace 1; func a; func b; user t function call b; cpu 0 quantum 9; task 10 cpu 0; after 1; call a; softirq; call b; ret; irq; nmi; call a; ret; iret; iret; "
        "iret; ret; ctl register t",
        {"log": "0 begin 1; 1 return 1 ok; 2 enter 10.1 normal a -; 3 back 10.1 t; 4 enter 10.2 normal b 10.1; 5 refuse 10.2 t recursion; 6 body 10.2 b own t; "
                "7 leave 10.2; 8 ret 10.2 10.1; 9 back-end 10.1 t; 10 body 10.1 a own t; 11 enter 10.3 softirq b 10.1; 12 back 10.3 t; 13 enter 10.4 softirq b 10.3; "
                "14 refuse 10.4 t recursion; 15 body 10.4 b own t; 16 leave 10.4; 17 ret 10.4 10.3; 18 back-end 10.3 t; 19 body 10.3 b own t; 20 leave 10.3; "
                "21 ret 10.3 10.1; 22 enter 10.5 nmi a 10.1; 23 back 10.5 t; 24 enter 10.6 nmi b 10.5; 25 refuse 10.6 t recursion; 26 body 10.6 b own t; "
                "27 leave 10.6; 28 ret 10.6 10.5; 29 back-end 10.5 t; 30 body 10.5 a own t; 31 leave 10.5; 32 ret 10.5 10.1; 33 leave 10.1; 34 ret 10.1 -; end"}, False),
    Told("commands that are answered otherwise than ok",
        "ftrace 1; func a; user r function ipmodify a; user q function regs ipmodify a; user t function; ctl register r; ctl register q; ctl enable t; "
        "ctl register t; ctl enable t; ctl filter q > a; ctl register q; ctl filter q >",
        {"log": "0 begin 1; 1 return 1 invalid; 2 begin 2; 3 return 2 invalid; 4 begin 3; 5 return 3 not-there; 6 begin 4; 7 return 4 ok; 8 begin 5; "
                "9 return 5 invalid; 10 begin 6; 11 return 6 ok; 12 begin 7; 13 return 7 ok; 14 begin 8; 15 return 8 invalid; end",
         "enabled": "a (2) R I list; end"}, False),
    Told("two CPUs under a schedule",
        "ftrace 1; func a; func b x; cpu 0 quantum 9; cpu 1 quantum 9; task 10 cpu 0; call a; ret; task 11 cpu 1; call b; ret; sched 1*3 0*40 1*40",
        {"log": "0 enter 11.1 normal b -; 1 enter 10.1 normal a -; 2 body 10.1 a nop; 3 leave 10.1; 4 ret 10.1 -; 5 body 11.1 b nop; "
                "6 leave 11.1; 7 ret 11.1 -; end"}, False),
    Told("two CPUs under a schedule that ends before the script does",
        "ftrace 1; func a; func b x; cpu 0 quantum 9; cpu 1 quantum 9; task 10 cpu 0; call a; ret; task 11 cpu 1; call b; ret; sched 1*4 0*6",
        {"log": "0 enter 11.1 normal b -; 1 enter 10.1 normal a -; 2 body 10.1 a nop; stopped"}, False),
    Told("two CPUs that wait for commands, and control for one of them",
        "ftrace 1; cpu 0 quantum 50; cpu 1 quantum 50; task 10 cpu 0; softirq; iret; after 2; task 11 cpu 1; after 1; irq; iret; ctl pid 10; "
        "ctl until 11 3; ctl maxdepth 2",
        {"log": "0 begin 1; 1 return 1 ok; 2 begin 2; 3 return 2 ok; end"}),
    Told("two CPUs and control that wait for one another in turn",
        "ftrace 1; func a; func b; user gr graph; cpu 0 quantum 100; cpu 1 quantum 100; task 10 cpu 0; after 1; call a; call b; ret; after 3; ret; "
        "call a; ret; task 11 cpu 1; after 4; call b; ret; ctl register gr; ctl until 10 4; ctl unregister gr; ctl register gr; ctl until 10 8; "
        "ctl maxdepth 1; ctl until 11 3; ctl unregister gr",
        {"log": "0 begin 1; 1 return 1 ok; 2 enter 10.1 normal a -; 3 back 10.1 gr; 4 back-end 10.1 gr; 5 body 10.1 a own gr; 6 enter 10.2 normal b 10.1; "
                "7 back 10.2 gr; 8 back-end 10.2 gr; 9 body 10.2 b own gr; 10 leave 10.2; 11 exit 10.2 gr 7; 12 exit-end 10.2 gr; 13 ret 10.2 10.1; "
                "14 begin 2; 15 return 2 ok; 16 begin 3; 17 return 3 ok; 18 leave 10.1; 19 ret 10.1 -; 20 enter 10.3 normal a -; 21 back 10.3 gr; "
                "22 back-end 10.3 gr; 23 body 10.3 a own gr; 24 leave 10.3; 25 exit 10.3 gr 21; 26 exit-end 10.3 gr; 27 ret 10.3 -; 28 begin 4; "
                "29 return 4 ok; 30 enter 11.1 normal b -; 31 back 11.1 gr; 32 back-end 11.1 gr; 33 body 11.1 b own gr; 34 leave 11.1; 35 exit 11.1 gr 31; "
                "36 exit-end 11.1 gr; 37 ret 11.1 -; 38 begin 5; 39 return 5 ok; end"}),
    Told("five CPUs, of which one has a task without acts and one has none",
        BUSY + "sched all*1000",
        {"log": "0 enter 11.1 normal b -; 1 enter 12.1 normal c -; 2 body 11.1 b nop; 3 body 12.1 c nop; 4 leave 11.1; 5 enter 12.2 normal d 12.1; 6 ret 11.1 -; "
                "7 body 12.2 d nop; 8 begin 1; 9 return 1 ok; 10 begin 2; 11 return 2 already; 12 begin 3; 13 enter 10.1 normal a -; 14 leave 12.2; "
                "15 ret 12.2 12.1; 16 body 10.1 a own t; 17 leave 12.1; 18 ret 12.1 -; 19 enter 10.2 normal b 10.1; 20 body 10.2 b nop; 21 leave 10.2; "
                "22 ret 10.2 10.1; 23 leave 10.1; 24 ret 10.1 -; 25 return 3 ok; 26 begin 4; 27 return 4 not-there; end"}, False),
    Told("five CPUs: the third steps, then control, then the second",
        BUSY + "sched 2*30 k*3 1*9",
        {"log": "0 enter 12.1 normal c -; 1 body 12.1 c nop; 2 enter 12.2 normal d 12.1; 3 body 12.2 d nop; 4 enter 11.1 normal b -; 5 body 11.1 b nop; "
                "6 leave 11.1; 7 ret 11.1 -; stopped"}, False),
    Told("a leaf, and a block in a block",
        "ftrace 1; func a; func b; user g graph; cpu 0 quantum 100; task 10 cpu 0; after 1; call a; call b; ret; call b; call a; ret; ret; ret; ctl register g",
        {"graph": "# user g;  0)      10 |          | a() {;  0)      10 |        4 |   b();;  0)      10 |          |   b() {;  0)      10 |        4 |     a();; "
                  " 0)      10 |       12 |   } /* b */;  0)      10 |       28 | } /* a */; end"}),
]

FIRST_PATH = "ftrace 1; func a; user tr function; cpu 0 quantum 100; task 10 cpu 0; after 1; call a; ret; ctl register tr"
FIRST_PATH_LOG = "0 begin 1; 1 return 1 ok; 2 enter 10.1 normal a -; 3 back 10.1 tr; 4 back-end 10.1 tr; 5 body 10.1 a own tr; 6 leave 10.1; 7 ret 10.1 -; end"
LOG_WORDS = ["replay", "run", "--print=log -- run", "run --print log", "--print=log -- replay", "replay --print log", "--print log replay", "replay --"]

# What follows twenty functions of the kernel proper and ten each of two modules: the users, the CPUs, and the first task up to the
# return of its first call. Its wait for seven commands, of which there are none, is on line 49.
AFTER_FUNCTIONS = "user fn function; user gr graph; user fp fprobe exit; user pr profile; cpu 0 quantum 7; cpu 1 quantum 11; task 10 cpu 0; after 7; "
AFTER_FUNCTIONS += "call sys_0; call ext3_0; ret; call snd_0; ret; ret"


def text(lines):
    """The bytes of lines with `; ` between them."""
    return (lines.replace("; ", "\n") + "\n").encode()


def told_rows(scripts):
    """Scripts in each form that is told, replayed and, where that prints the same, run."""
    for told in scripts:
        for form, printed in told.texts.items():
            for mode in ["replay", "run"] if told.is_ordered else ["replay"]:
                words = [mode] if form == "log" else [mode, "--print", form]
                yield f"{told.what}: {' '.join(words)}", words, text(told.script), text(printed)


def cut_rows():
    """A script of forty functions that is cut off after one of its lines, whose line feed stays. What is open at the cut is told before
    the wait that isn't met."""
    functions = [f"sys_{number}" for number in range(20)] + [f"{module}_{number} {module}" for module in ("ext3", "snd") for number in range(10)]
    lines = ["ftrace 1", *[f"func {name}" for name in functions], *AFTER_FUNCTIONS.split("; ")]
    for cut in range(40, len(lines) + 1):
        printed = "end" if cut <= 48 else "line 49: deadlock" if cut in (49, 55) else f"line {cut}: unbalanced"
        yield f"cut off after line {cut}", ["replay"], text("; ".join(lines[:cut])), text(printed)


def check_each(rows, program, texts):
    """A row for each of these: what it is, the words, the script, and what is printed; nothing is, if the script is too long."""
    for what, words, script, printed in texts:
        with tempfile.TemporaryFile() as source:
            source.write(script)
            source.flush()
            source.seek(0)
            came = runs.answer([program, *words], seconds=SECONDS, stdin=source)
            found = runs.faults(came, check_docs.status_of(printed) if printed else 7, printed)
            if printed and os.lseek(source.fileno(), 0, os.SEEK_CUR) != len(script):
                found.append("the input wasn't read to its end")
        rows.row(f"scripts: {what}", found, came.seconds)


def check(rows, program):
    """A row for each script and each way to print it."""
    worded = [(f"the first path: {words}", words.split(), text(FIRST_PATH), text(FIRST_PATH_LOG)) for words in LOG_WORDS]
    looks = [(f"looks: {what}", ["replay"], text(f"ftrace {version}; {script}"), text(log)) for what, version, script, log in look_texts.ROWS]
    check_each(rows, program, [*told_rows(SCRIPTS), *worded, *looks, *cut_rows()])
