"""Scripts of version 3 with their logs: a CPU answers requests before the steps of its tasks, and plain users aren't asked.

The schedules let a command go on as soon as it is answered, and a CPU make so many steps before.
"""
HEAD = "cpu 0 quantum 100; task 10 cpu 0"
ONE, BOTH = f"func a; user t {{}}; {HEAD}", f"func a; user t {{}}; user s function; {HEAD}"
SITE = "k*10 0*2 k*3 0*2 k*3 0*2 k*2"  # a command with one site, whose three requests are answered in looks
OFF = "k*6 0*2 k*3 0*2 k*3 0*2 k*22"  # an unregistration up to its wait for quiet points, and 20 turns in it
CALL, REST = "call a; ret", "all*100"
UNREGISTERED = f"after 1; {CALL}; ctl register t; ctl unregister t; sched 0 {SITE} 0*9 {OFF} {REST}"
UNLINKED = f"after 2; {CALL}; ctl register t; ctl register s; ctl unregister t; sched 0 {SITE} {SITE} 0*21 {OFF} {REST}"
ASKED = "0 begin 1; 1 return 1 ok; 2 enter 10.1 normal a -; 3 begin 2; 4 body 10.1 a own t; 5 leave 10.1; 6 return 2 ok; 7 ret 10.1 -; end"
SWITCHED = ("0 enter 10.1 normal a -; 1 enter 11.1 normal a -; 2 body 10.1 a nop; 3 body 11.1 a nop; 4 leave 10.1; 5 ret 10.1 -; 6 leave 11.1; "
            "7 ret 11.1 -; end")
QUANTUM = "func a; cpu 0 quantum 2; task 10 cpu 0; call a; ret; task 11 cpu 0; call a; ret; sched 0*{}"

# What a script shows, its version, its lines, and its log.
ROWS = [
    ("a whole registration between a task's Enter and its fetch",
        3, f"{ONE.format('function')}; {CALL}; ctl register t; sched 0*3 {SITE} {REST}",
        "0 enter 10.1 normal a -; 1 begin 1; 2 return 1 ok; 3 back 10.1 t; 4 back-end 10.1 t; 5 body 10.1 a own t; 6 leave 10.1; 7 ret 10.1 -; end"),
    ("the same schedule without looks",
        2, f"{ONE.format('function')}; {CALL}; ctl register t; sched 0*3 {SITE} {REST}",
        "0 enter 10.1 normal a -; 1 begin 1; 2 body 10.1 a nop; 3 leave 10.1; 4 ret 10.1 -; 5 return 1 ok; end"),
    ("within a fetch nothing is answered",
        3, f"{ONE.format('function')}; {CALL}; ctl register t; sched 0*5 k*10 0*2 k*10 {REST}",
        "0 enter 10.1 normal a -; 1 begin 1; 2 body 10.1 a nop; 3 leave 10.1; 4 return 1 ok; 5 ret 10.1 -; end"),
    ("a look is over before the fetch",
        3, f"{ONE.format('function')}; {CALL}; ctl register t; sched 0*4 k*10 0*2 k*10 {REST}",
        "0 enter 10.1 normal a -; 1 begin 1; 2 back 10.1 t; 3 return 1 ok; 4 back-end 10.1 t; 5 body 10.1 a own t; 6 leave 10.1; 7 ret 10.1 -; end"),
    ("who is in the trampoline of a plain user is called back",
        3, f"{ONE.format('function')}; {UNREGISTERED}",
        "0 begin 1; 1 return 1 ok; 2 enter 10.1 normal a -; 3 begin 2; 4 back 10.1 t; 5 back-end 10.1 t; 6 body 10.1 a own t; 7 leave 10.1; "
        "8 return 2 ok; 9 ret 10.1 -; end"),
    ("a graph user is asked in its trampoline", 3, f"{ONE.format('graph')}; {UNREGISTERED}", ASKED),
    ("an fprobe is asked in its trampoline", 3, f"{ONE.format('fprobe')}; {UNREGISTERED}", ASKED),
    ("a walk comes to a plain user that was taken off the list",
        3, f"{BOTH.format('function')}; {UNLINKED}",
        "0 begin 1; 1 return 1 ok; 2 begin 2; 3 return 2 ok; 4 enter 10.1 normal a -; 5 back 10.1 s; 6 back-end 10.1 s; 7 begin 3; 8 back 10.1 t; "
        "9 back-end 10.1 t; 10 body 10.1 a list; 11 leave 10.1; 12 return 3 ok; 13 ret 10.1 -; end"),
    ("a walk comes to a graph user that was taken off the list",
        3, f"{BOTH.format('graph')}; {UNLINKED}",
        "0 begin 1; 1 return 1 ok; 2 begin 2; 3 return 2 ok; 4 enter 10.1 normal a -; 5 back 10.1 s; 6 back-end 10.1 s; 7 begin 3; 8 body 10.1 a list; "
        "9 leave 10.1; 10 return 3 ok; 11 ret 10.1 -; end"),
    ("in irq nothing is answered",
        3, f"{ONE.format('function')}; irq; {CALL}; iret; ctl register t; sched 0*4 k*10 0*2 k*10 {REST}",
        "0 enter 10.1 irq a -; 1 begin 1; 2 back 10.1 t; 3 back-end 10.1 t; 4 body 10.1 a own t; 5 leave 10.1; 6 ret 10.1 -; 7 return 1 ok; end"),
    ("in softirq requests are answered",
        3, f"{ONE.format('function')}; softirq; {CALL}; iret; ctl register t; sched 0*5 {SITE} {REST}",
        "0 enter 10.1 softirq a -; 1 begin 1; 2 return 1 ok; 3 back 10.1 t; 4 back-end 10.1 t; 5 body 10.1 a own t; 6 leave 10.1; 7 ret 10.1 -; end"),
    ("two commands within one call",
        3, f"func a; user old function; user new function; {HEAD}; after 1; {CALL}; {CALL}; ctl register old; ctl register new; ctl unregister old; "
        f"sched 0 {SITE} 0*11 {SITE} {OFF} 0*100 {REST}",
        "0 begin 1; 1 return 1 ok; 2 enter 10.1 normal a -; 3 begin 2; 4 return 2 ok; 5 begin 3; 6 back 10.1 old; 7 back-end 10.1 old; 8 body 10.1 a own old; "
        "9 leave 10.1; 10 ret 10.1 -; 11 enter 10.2 normal a -; 12 back 10.2 new; 13 back-end 10.2 new; 14 body 10.2 a own new; 15 leave 10.2; "
        "16 ret 10.2 -; 17 return 3 ok; end"),
    ("looks don't use up a quantum", 3, QUANTUM.format(100), SWITCHED),
    ("the same schedule without looks, two tasks", 2, QUANTUM.format(100), SWITCHED),
    ("so many turns are needed with looks", 3, QUANTUM.format(32), SWITCHED),
    ("one turn less, with looks", 3, QUANTUM.format(31), SWITCHED.replace("end", "stopped")),
    ("so many turns are needed without looks", 2, QUANTUM.format(22), SWITCHED),
    ("one turn less, without looks", 2, QUANTUM.format(21), SWITCHED.replace("end", "stopped")),
]
