/*
 * The protocol of docs/PROTOCOL.md as a model for Spin: one call site; two users, which control registers and
 * unregisters; and two CPUs with a caller each. It is the script one_site.ft at the grain of the word machine, where a
 * step is one load, one store or one mark: each is one transition here. A load by which control waits stands here as the
 * condition that it waits for, so that Spin finds a wait that never ends.
 *
 *     spin -a one_site.pml && gcc -O2 -DSAFETY -o pan pan.c && ./pan
 *
 * Left out are the words that this script never loads: the clock, the high half of `quiet`, `pids` and `depth`.
 */

#ifndef ROUNDS
#define ROUNDS 1                /* how often control registers both users and unregisters both */
#endif
#ifndef CALLS
#define CALLS 1                 /* how many calls each caller makes; 0: any number, and each caller ends when it likes */
#endif
#ifndef CALLERS
#define CALLERS 2               /* how many there are, 1 to 3, each on its own CPU */
#endif
#ifndef TRAMPS
#define TRAMPS 2                /* how many trampolines there are; with 0 the list caller calls each user */
#endif
#ifdef LONG                     /* numbers of more than a byte, for a long simulation */
#define COUNT int
#define ALL 1000000
#else
#define COUNT byte
#define ALL 255                 /* tells every request to come */
#endif

/* ---- instructions, by their numbers and their first bytes ---- */

#define NOP 0
#define LIST 1                  /* a call of the list caller */
#define OWN 2                   /* OWN + s: a call of trampoline s */

#define NOP_BYTE 15             /* 0f */
#define CALL_BYTE 232           /* e8 */
#define BREAK 204               /* cc */
#define BYTE_OF(insn) ((insn) == NOP -> NOP_BYTE : CALL_BYTE)

/* ---- the shared words ---- */

byte head = NOP_BYTE;           /* head a: the first byte of the site */
byte tail = NOP;                /* tail a: its other four bytes, here as the number of the instruction that has them */
byte next_insn = NOP;           /* next a: the instruction that is about to be put there */
COUNT want;                     /* want: control's last request */
COUNT ack[CALLERS];             /* ack c: the last request that CPU c has seen */
COUNT quiet[CALLERS];           /* quiet t, low half: the last request at which task t was between two acts */
byte first;                     /* first: the first user of the list, its number plus 1, or 0 */
byte link[2];                   /* link u: the user after u, likewise */
COUNT sel[2];                   /* sel u: the state of user u, see SEL */
bit bits[8];                    /* bits u copy half: is a in its filter (half 0), or its notrace set (half 1)? see BITS */
COUNT tramp[2];                 /* tramp s: the user of trampoline s, see NAME, or 0 */

#define SEL(reg, on, copy) (16 * (reg) + 4 * (copy) + (on))
#define REG(word) ((word) / 16) /* the registration number */
#define COPY(word) ((word) / 4 % 2)
#define IS_ON(word) ((word) % 2 == 1)
#define BITS(u, copy, half) (4 * (u) + 2 * (copy) + (half))
#define NAME(reg, u) (16 * (reg) + (u) + 1)
#define USER(name) ((name) % 16 - 1)

/* ---- what the assertions know ---- */

COUNT begun;                    /* how many commands have begun */
COUNT done;                     /* how many have returned */
byte running[CALLERS];          /* the user whose callback is running on this CPU, its number plus 1, or 0 */

/* Of each four commands, u + 1 registers user u and u + 3 unregisters it: it is on after two commands in a row. */
#define ON_AT(u, k) ((k) % 4 == (u) + 1 || (k) % 4 == (u) + 2)
#define ON_FROM_TO(u, from, to) (ON_AT(u, from) && ON_AT(u, to) && (to) - (from) <= 1)
#define TARGET(k) (ON_AT(0, k) -> (ON_AT(1, k) -> LIST : ALONE(0)) : (ON_AT(1, k) -> ALONE(1) : NOP))
#if TRAMPS
#define ALONE(u) (OWN + (u))
#define FROM_ONE_TO_TWO batch(); /* between one user and two, the instruction changes if a user that is alone is called by its trampoline */
#define TAKE(u) tramp[u] = NAME(REG(sel[u]) + 1, u); /* the lowest free slot, which for these commands is that of the user's number */
#define RELEASE(u) tramp[u] = 0;
#else
#define ALONE(u) LIST
#define FROM_ONE_TO_TWO
#define TAKE(u)
#define RELEASE(u)
#endif

/* ---- control ---- */

#define HAS_TOLD(c) ack[c] >= want
#define WAS_QUIET(t) quiet[t] >= want
#define CALLS_NOBODY_OFF(c) assert(running[c] == 0 || ON_AT(running[c] - 1, done))
#if CALLERS == 1
#define EACH(does) does(0)
#elif CALLERS == 2
#define EACH(does) does(0); does(1)
#else
#define EACH(does) does(0); does(1); does(2)
#endif

/* Stores a request, and waits until each CPU has acknowledged it. */
inline sync() {
    want++;
    EACH(HAS_TOLD)
}

/* Gives the site the instruction that it is to have after the command that has begun. */
inline batch() {
    next_insn = TARGET(begun);
    head = BREAK;
    sync(); /* 1 */
    tail = TARGET(begun);
    sync(); /* 2 */
    head = BYTE_OF(TARGET(begun));
    sync() /* 3 */
}

/* A command begins, if there is one more. */
inline begin() {
    d_step {
        begun < 4 * ROUNDS -> begun++;
        printf("begin %d\n", begun)
    }
}

/* It returns: the site is its target, and no callback is running of a user that is off. */
inline return_ok() {
    d_step {
        done++;
        assert(head == BYTE_OF(TARGET(done)) && tail == TARGET(done));
        EACH(CALLS_NOBODY_OFF);
        printf("return %d ok\n", done)
    }
}

/* Up to the batch of a registration */
inline add(u) {
    begin();
    TAKE(u)
    bits[BITS(u, 1 - COPY(sel[u]), 0)] = 0; /* both sets are empty: written into the copy that isn't in use */
    bits[BITS(u, 1 - COPY(sel[u]), 1)] = 0;
    sel[u] = SEL(REG(sel[u]) + 1, 1, 1 - COPY(sel[u]));
    link[u] = first;
    first = u + 1
}

/* Up to the batch of an unregistration */
inline remove(u) {
    begin();
    sel[u] = SEL(REG(sel[u]), 0, COPY(sel[u]));
    if /* the word that names the user names the one after it */
    :: d_step { first == u + 1 -> first = link[u] }
    :: d_step { first != u + 1 -> link[1 - u] = link[u] }
    fi
}

/* Stores a request, and waits until each task was between two acts after it. */
inline quiet_points() {
    want++;
    EACH(WAS_QUIET)
}

active proctype Control() {
end:
    do
    :: add(0); batch(); return_ok();
       add(1); FROM_ONE_TO_TWO return_ok();
       remove(0); FROM_ONE_TO_TWO quiet_points(); RELEASE(0) return_ok();
       remove(1); batch(); quiet_points(); RELEASE(1) return_ok()
    od
}

/* ---- a CPU and its task ---- */

#define me (_pid - 1)           /* control is process 0 */
#define TASK (10 + me)
#define NUMBER (calls + 1)      /* of the present call */
#define IS_MORE (CALLS == 0 || calls < CALLS)
#define IS_LAST (CALLS == 0 || calls == CALLS)

/* After the load of a request: the CPU acknowledges it if it is new, and its task, which is between two acts, tells it. */
inline tell() {
    if
    :: d_step { request != ack[me] -> ack[me] = request };
       quiet[me] = request
    :: d_step { request == ack[me] -> quiet[me] = request } /* for the acts that it has finished, in the high half */
    fi
}

/* Enters a, in the step of whoever says so. */
inline enter() {
    entered = done;
    visited = 0;
    printf("enter %d.%d normal a -\n", TASK, NUMBER)
}

/* What was loaded is one instruction, and the site's target. */
inline fetched() {
    assert((byte_loaded == BREAK) || (byte_loaded == BYTE_OF(insn)));
    assert(insn == TARGET(done) || insn == TARGET(begun))
}

/* User u is called back: it is on before or after the command that is under way, and wasn't called back in this call. */
inline back(u) {
    assert(ON_AT(u, done) || ON_AT(u, begun));
    assert((visited >> (u)) % 2 == 0);
    visited = visited | (1 << (u));
    running[me] = (u) + 1;
    printf("back %d.%d t%d\n", TASK, NUMBER, (u) + 1)
}

inline back_end() {
    d_step {
        printf("back-end %d.%d t%d\n", TASK, NUMBER, running[me]);
        running[me] = 0
    }
}

/* The body runs: a user that wasn't called back was not on all the time since the call was entered. */
inline body() {
    assert(visited % 2 == 1 || !ON_FROM_TO(0, entered, begun));
    assert(visited / 2 == 1 || !ON_FROM_TO(1, entered, begun))
}

active [CALLERS] proctype Caller() {
    COUNT request;              /* what a poll has loaded */
    byte byte_loaded;           /* what a fetch has loaded first */
    byte insn;                  /* what it has fetched */
    COUNT name;                 /* the user of the trampoline */
    byte at;                    /* where the walk is: a user's number plus 1, or 0 */
    COUNT state;                /* the state of this user */
    bit marked;                 /* a is in its notrace set */
    COUNT calls;                /* how many calls have returned */
    COUNT entered;              /* how many commands had returned when this call was entered */
    byte visited;               /* whom it has called back: 1 for user 0, 2 for user 1 */

    request = want;
    if
    :: d_step { request == ack[me] -> enter() } /* no request so far: nothing to tell */
    :: d_step { request != ack[me] -> ack[me] = request };
       quiet[me] = request;
       d_step { enter() }
    fi;
    do
    :: /* the fetch */
       byte_loaded = head;
       if
       :: d_step { byte_loaded != BREAK -> insn = tail; fetched() }
       :: d_step { byte_loaded == BREAK -> insn = next_insn; fetched() }
       fi;
       /* the dispatch */
       if
       :: d_step { insn == NOP -> body(); printf("body %d.%d a nop\n", TASK, NUMBER) }
       :: d_step { insn >= OWN -> name = tramp[insn - OWN]; assert(name != 0) };
          state = sel[USER(name)];
          if
          :: d_step { IS_ON(state) && REG(state) == REG(name) -> back(USER(name)) };
             back_end();
             d_step { body(); printf("body %d.%d a own t%d\n", TASK, NUMBER, USER(name) + 1) }
          :: d_step { !(IS_ON(state) && REG(state) == REG(name)) -> body(); printf("body %d.%d a own t%d\n", TASK, NUMBER, USER(name) + 1) }
          fi
       :: d_step { insn == LIST -> at = first };
          do
          :: d_step { at != 0 -> state = sel[at - 1] };
             if
             :: d_step { IS_ON(state) -> marked = bits[BITS(at - 1, COPY(state), 1)] };
                if
                :: d_step { !marked -> back(at - 1) };
                   back_end();
                   at = link[at - 1]
                :: d_step { marked -> at = link[at - 1] }
                fi
             :: d_step { !IS_ON(state) -> at = link[at - 1] }
             fi
          :: d_step { at == 0 -> body(); printf("body %d.%d a list\n", TASK, NUMBER) };
             break
          od
       fi;
       request = want;
       tell();
       printf("leave %d.%d\n", TASK, NUMBER);
       d_step { printf("ret %d.%d -\n", TASK, NUMBER); calls = (CALLS == 0 -> 0 : calls + 1) };
       if
       :: d_step { IS_MORE -> request = want };
          tell();
          d_step { enter() }
       :: d_step { IS_LAST -> request = want };
          ack[me] = ALL; /* it tells every request to come */
          quiet[me] = ALL;
          break
       fi
    od;
end:
    false
}
