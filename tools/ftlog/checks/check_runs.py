"""Runs random scripts with threads, and has ftjudge judge each log.

The scripts are those of `ft make plain` and, by their options, of `ft make viewed`, which have lanes, rings or modules that come and go; with
rings they have up to the most CPUs. N of each source have the seeds from S on. Each goes through `PROGRAM run` as often as --times says, which
has to end within SECONDS with status 0 and write nothing to standard error; and ftjudge has to call each log whole, that of a script with
lanes in the order that it tells. The last line says how many runs there were, how many scripts had more than one log, and what was found; the
status is 1 if anything was. What is wrong is kept in FOLDER. Two runs go on at a time, each with threads of its own.
"""
import concurrent.futures
import pathlib
import tempfile

from ftlog import runs
from ftlog.checks import judging
from ftlog.make import script_forms, viewed_scripts

FOLDER = pathlib.Path(tempfile.gettempdir()) / "run-faults"
WORKERS = 2
SECONDS = 120
SOURCES = {"plain": script_forms.script, **viewed_scripts.SOURCES}


def try_script(job):
    """The logs of the runs of a script, each of which is judged once, and what is wrong; it is kept if anything is."""
    options, source, seed = job
    text = SOURCES[source](seed)
    answers = [runs.answer([options.program, "run"], text, SECONDS) for _ in range(options.times)]
    logs = {came.out for came in answers}
    faults = [fault for came in answers for fault in runs.faults(came, 0)] or judging.faults_of_runs(text, logs, options.judge)
    if faults:
        options.keep.mkdir(parents=True, exist_ok=True)
        path = options.keep / f"{source}-{seed}.ft"
        path.write_bytes(text)
        for number, log in enumerate(sorted(logs)):
            path.with_suffix(f".{number}.log").write_bytes(log)
        print(*(f"wrong: {source} seed {seed}: {fault}; kept as {path}" for fault in faults), sep="\n", flush=True)
    return len(logs), len(faults)


def add_words(parser):
    """Adds the words of `ft check runs`."""
    parser.add_argument("program", metavar="PROGRAM", help="the program, as crates/ftcore/out/ftcore")
    judging.add_option(parser)
    parser.add_argument("--count", type=int, required=True, metavar="N", help="scripts of each source")
    parser.add_argument("--times", type=int, default=1, metavar="K", help="runs of each script, else 1")
    parser.add_argument("--seed", type=int, default=0, metavar="S", help="the first seed, else 0")
    parser.add_argument("--sources", type=runs.names_of(SOURCES), default=list(SOURCES), metavar="SOURCE,..", help=f"the sources, else all: {', '.join(SOURCES)}")
    parser.add_argument("--keep", type=pathlib.Path, default=FOLDER, metavar="FOLDER", help=f"where scripts with faults are kept, else {FOLDER}")


def run(options):
    """Runs the scripts, and tells what came of them."""
    judging.want_judge(options.judge)
    runs.want_words(options.program)
    jobs = [(options, source, seed) for source in options.sources for seed in range(options.seed, options.seed + options.count)]
    with concurrent.futures.ThreadPoolExecutor(WORKERS) as workers:
        done = list(workers.map(try_script, jobs))
    several, wrong = sum(logs > 1 for logs, _ in done), sum(faults for _, faults in done)
    print(f"{len(jobs)} scripts, {options.times} runs each; {several} with more than one log; {wrong} faults")
    return 1 if wrong else 0
