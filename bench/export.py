"""What an export of a series and a check of its store cost, beside sqlite's select of the same readings as CSV and its integrity_check. See bench/run."""
import shutil
import subprocess

from load import ROWS, write_readings
from measuring import PROGRAM, build_store, least_processor, least_seconds, measure

ROUNDS = 5
SELECT = [".mode csv", ".headers on", "select time, value from points order by time;"]


def fill(rows):
    """A store and a database of so many readings."""
    given = f"export{rows}.csv"
    write_readings(given, rows)
    build_store("export.store", ROWS[rows], ["create s 0 1 2"])
    with open(given, "rb") as readings:
        subprocess.run([PROGRAM, "export.store", "load", "s"], stdin=readings, stdout=subprocess.DEVNULL, check=True)
    programs = {"export": [PROGRAM, "export.store", "export", "s"], "check": [PROGRAM, "export.store", "check"]}
    if shutil.which("sqlite3"):
        making = "create table points (time integer primary key, value real);"
        subprocess.run(["sqlite3", f"export{rows}.sqlite", making, ".mode csv", f".import --skip 1 {given} points"], check=True)
        programs["sqlite3 select"] = ["sqlite3", f"export{rows}.sqlite", *SELECT]
        programs["sqlite3 check"] = ["sqlite3", f"export{rows}.sqlite", "pragma integrity_check;"]
    return given, programs


def is_told(name, given, written):
    """Whether a check finds no fault, and else these are the readings that were given."""
    if name.endswith("check"):
        return not written.startswith((b"refused", b"***"))
    with open(given) as file:
        wanted = file.read().splitlines()[1:]
    got = written.decode().replace("\r", "").splitlines()[1:]
    return [line.split(",")[0] for line in got] == [line.split(",")[0] for line in wanted] and all(
        float(one.split(",")[1]) == float(other.split(",")[1]) for one, other in zip(got, wanted)
    )


def measure_export():
    print(f"an export of all values of a series, and a check of the store, the least of {ROUNDS} rounds")
    print(f"{'program':18}{'readings':>10}{'seconds':>10}{'processor s':>13}{'peak MiB':>10}  as wanted")
    for rows in ROWS:
        given, programs = fill(rows)
        runs = {name: [] for name in programs}
        for _ in range(ROUNDS):
            for name, words in programs.items():
                runs[name].append(measure(words, "/dev/null"))
        least, processor = least_seconds(runs), least_processor(runs)
        for name in runs:
            told = is_told(name, given, runs[name][0][2])
            print(f"{name:18}{rows:10}{least[name]:10.2f}{processor[name]:13.3f}{max(run[1] for run in runs[name]):10.1f}  {'yes' if told else 'NO'}")
