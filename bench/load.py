"""What a load of a CSV file costs, beside sqlite's import and a C program with the same writes and syncs, and what slow syncs make of it. See bench/run."""
import os
import shutil
import subprocess
import tempfile

from measuring import BLOCK, MEMORY, PROGRAM, ROOT, build_store, counted_calls, least_processor, least_seconds, measure, walk

SYNCS, WRITES = ("fsync", "fdatasync", "msync", "sync_file_range"), ("write", "pwrite64", "pwritev")
ROWS = {10**5: 2048, 10**6: 16384}  # readings, and the blocks of a store that has room for them
COMMIT = 4  # syncs of a commit
ROUNDS = 3
DELAY = 5000  # microseconds that each sync is made longer by
SETTING = "pragma journal_mode = wal; pragma synchronous = full; create table points (time integer primary key, value real);"
BY_SQLITE, BY_C = "sqlite3 .import", "C, same writes"


def write_readings(name, count):
    with open(name, "w") as file:
        file.write("time,value\n")
        for time, value in enumerate(walk(count)):
            sign = "-" if value < 0 else ""
            file.write(f"{time},{sign}{abs(value) // 100}.{abs(value) % 100:02}\n")


def used_blocks(store):
    """The pages in use, as the program's own check counts them."""
    told = subprocess.run([PROGRAM, store, "check"], stdin=subprocess.DEVNULL, stdout=subprocess.PIPE, check=True).stdout
    return int(told.split()[-3])


def clear(rows):
    for name in ("load.sqlite", "load.sqlite-wal", "load.sqlite-shm"):
        if os.path.exists(name):
            os.remove(name)
    shutil.copy(f"empty{rows}.store", "load.store")
    with open("load.blocks", "wb") as file:
        file.truncate(BLOCK * ROWS[rows])
    os.sync()


def programs_for(given):
    """The words of a load of a file, and of sqlite's import of it."""
    programs = {"load": [PROGRAM, "load.store", "load", "s"]}
    if shutil.which("sqlite3"):
        programs[BY_SQLITE] = ["sqlite3", "load.sqlite", SETTING, ".mode csv", f".import --skip 1 {given} points"]
    return programs


def measure_rows(rows):
    """The runs of each program on so many readings, the syncs and writes of each, and the bytes that the readings take of a store and of sqlite's file."""
    given = f"readings{rows}.csv"
    write_readings(given, rows)
    build_store(f"empty{rows}.store", ROWS[rows], ["create s 0 1 2"])
    programs = programs_for(given)
    load = programs["load"]
    clear(rows)
    syncs = counted_calls(load, given, SYNCS)
    clear(rows)
    writes = counted_calls(load, given, WRITES)
    pages = used_blocks("load.store")
    if syncs and writes:
        commits = max(1, syncs // COMMIT)
        programs[BY_C] = ["./load", "load.blocks", str(-(-rows // commits)), str(round(writes / commits)), str(COMMIT)]
    runs, counts, bytes_taken = {name: [] for name in programs}, {}, {"load": BLOCK * pages}
    for _ in range(ROUNDS):
        for name, words in programs.items():
            clear(rows)
            runs[name].append(measure(words, given))
    for name, words in programs.items():
        clear(rows)
        counts[name] = counted_calls(words, given, SYNCS)
        if name == BY_SQLITE:
            bytes_taken[name] = os.path.getsize("load.sqlite")
    return runs, counts, bytes_taken


def print_slow(rows):
    """The seconds in memory, where a sync costs nothing, and there with each sync made longer: the least of some rounds in turns."""
    given, folder = f"readings{rows}.csv", os.getcwd()
    slow = ["strace", "--seccomp-bpf", "-f", "-o", "/dev/null", "-e", f"trace={','.join(SYNCS)}", "-e", f"inject={','.join(SYNCS)}:delay_exit={DELAY}"]
    print(f"{rows} readings, files in memory: seconds where syncs cost nothing, and where each was made {DELAY / 1000:.0f} ms longer, the least of {ROUNDS} rounds")
    with tempfile.TemporaryDirectory(dir=MEMORY) as memory:
        for name in given, f"empty{rows}.store":
            subprocess.run(["cp", "--sparse=always", name, memory], check=True)
        os.chdir(memory)
        programs = programs_for(given)
        taken = {name: ([], []) for name in programs}
        for _ in range(ROUNDS):
            for name, words in programs.items():
                for before, seconds in zip(([], slow), taken[name]):
                    clear(rows)
                    seconds.append(measure([*before, *words], given)[0])
        for name, (quick, delayed) in taken.items():
            print(f"{name:18}{min(quick):10.2f}{min(delayed):10.2f}")
        os.chdir(folder)


def measure_load():
    subprocess.run(["gcc", "-O2", "-o", "load", f"{ROOT}/bench/load.c"], check=True)
    print(f"a load of a CSV file of readings that follow each other, the least of {ROUNDS} rounds")
    print(f"{'program':18}{'readings':>10}{'seconds':>10}{'processor s':>13}{'syncs':>8}{'peak MiB':>10}{'bytes a reading':>17}{'time, over C':>14}")
    for rows in ROWS:
        runs, counts, bytes_taken = measure_rows(rows)
        least, processor = least_seconds(runs), least_processor(runs)
        print(f"{os.path.getsize(f'readings{rows}.csv') / rows:.1f} bytes a row")
        for name in runs:
            taken = f"{bytes_taken[name] / rows:.1f}" if name in bytes_taken else "-"
            ratio = f"{least[name] / least[BY_C]:.2f}" if BY_C in least else "-"
            print(f"{name:18}{rows:10}{least[name]:10.2f}{processor[name]:13.3f}{counts[name] if counts[name] is not None else '-':>8}{max(run[1] for run in runs[name]):10.1f}{taken:>17}{ratio:>14}")
    if os.path.isdir(MEMORY) and shutil.which("strace"):
        print_slow(max(ROWS))
