#!/usr/bin/env python3
"""Drives `nfs41 serve` and nfs-ganesha in turns, and prints the median latency of each operation
and their ratio.

    scripts/side_by_side.py [ROUNDS] [SECONDS] [PROCESSOR]    after `rt run` in crates/nfs41, as root

Needs rustc, and nfs-ganesha with its VFS module. NFS41 in the environment names another program
than the one that `rt run` leaves. Both servers keep their files in memory
(/dev/shm), are asked over one connection, one request at a time (scripts/nfsload.rs), and take
turns, so that what else runs on the machine takes from both. A process of the idle class keeps each
processor awake, since to wake one takes longer than a request, and not as long each time. With a
PROCESSOR (a number) all of them run on that one, where nothing waits for another to wake. `echo` is
the time of the socket alone: a call is sent to a thread that sends it back. `echo_read` and
`echo_write` have 8,192 bytes more in the reply, or in the call, as a READ and a WRITE have.
"""
import os
import pathlib
import re
import shutil
import socket
import statistics
import subprocess
import sys
import tempfile
import time

OPERATIONS = """echo echo_read echo_write null getattr lookup read readdir write_unstable
    long_write_unstable write_sync long_write_sync mkdir_rmdir full_mkdir_rmdir
    create_remove full_create_remove rename full_rename""".split()
TOP = pathlib.Path(__file__).resolve().parent.parent
PROGRAM = os.environ.get("NFS41") or TOP / "crates/nfs41/out/nfs41"
CONFIGURATION = """
NFS_CORE_PARAM {{ NFS_Port = {port}; Bind_addr = 127.0.0.1; Protocols = 4;
    Enable_NLM = false; Enable_RQUOTA = false; mount_path_pseudo = true; }}
NFSv4 {{ Graceless = true; Minor_Versions = 1; RecoveryRoot = "{folder}"; }}
EXPORT {{ Export_Id = 1; Path = {folder}/export; Pseudo = /; Access_Type = RW;
    Squash = No_Root_Squash; SecType = sys; Transports = TCP; FSAL {{ Name = VFS; }} }}
LOG {{ Default_Log_Level = WARN; }}
"""


def build_load(folder):
    """Returns the load generator."""
    load = f"{folder}/nfsload"
    source = TOP / "scripts/nfsload.rs"
    subprocess.run(["rustc", "--edition", "2021", "-O", "-o", load, source], check=True)
    return load


def format_volume(folder, name):
    """Returns a new volume's file."""
    volume = f"{folder}/{name}.img"
    words = [PROGRAM, "format", volume, "65536", "16000"]
    subprocess.run(words, check=True, stdout=subprocess.DEVNULL)
    return volume


def start_serving(words):
    """Starts a program that prints `serving` and where. Returns the process and its port."""
    server = subprocess.Popen(words, stdout=subprocess.PIPE, text=True)
    return server, int(re.search(r"\d+$", server.stdout.readline().strip()).group())


def start_nfs41(folder, connections):
    """Returns the process, which serves so many connections, and its port."""
    volume = format_volume(folder, "serve")
    return start_serving([PROGRAM, "serve", volume, "0", str(connections)])


def free_port():
    """Returns a port that nobody has."""
    with socket.socket() as probe:
        probe.bind(("127.0.0.1", 0))
        return probe.getsockname()[1]


def start_ganesha(folder):
    """Returns the process and its port, once that answers."""
    os.mkdir(f"{folder}/export")
    port = free_port()
    configuration = f"{folder}/ganesha.conf"
    pathlib.Path(configuration).write_text(CONFIGURATION.format(port=port, folder=folder))
    os.makedirs("/var/run/ganesha", exist_ok=True)
    words = ["ganesha.nfsd", "-F", "-f", configuration]
    words += ["-L", f"{folder}/log", "-p", f"{folder}/pid"]
    server = subprocess.Popen(words, stdout=subprocess.DEVNULL, stderr=subprocess.DEVNULL)
    for _ in range(50):
        with socket.socket() as probe:
            if probe.connect_ex(("127.0.0.1", port)) == 0:
                return server, port
        time.sleep(0.2)
    sys.exit("ganesha does not answer")


def keep_awake():
    """Returns a process for each processor, which yields it to every other."""

    def take_idle_class():
        os.sched_setscheduler(0, os.SCHED_IDLE, os.sched_param(0))

    code = f"import os\nwhile os.getppid() == {os.getpid()}: pass"
    words = [sys.executable, "-c", code]
    count = os.cpu_count() or 1
    return [subprocess.Popen(words, preexec_fn=take_idle_class) for _ in range(count)]


def put_on(processor, servers):
    """Lets the servers' threads, and what this process starts from now on, run there alone."""
    for server, *_ in servers.values():
        for thread in os.listdir(f"/proc/{server.pid}/task"):
            os.sched_setaffinity(int(thread), {processor})
    os.sched_setaffinity(0, {processor})


def end(servers):
    """Ends the servers that the functions above started."""
    for server, *_ in servers.values():
        server.terminate()
        server.wait()


def drive(load, port, seconds):
    """Returns the median latency of each operation in microseconds."""
    words = [load, f"127.0.0.1:{port}", "0", str(seconds), ",".join(OPERATIONS)]
    told = subprocess.run(words, check=True, capture_output=True, text=True).stdout
    found = re.findall(r"(\w+) ops_s \d+ p50_us ([\d.]+)", told)
    return {name: float(median) for name, median in found}


def main():
    rounds = int(sys.argv[1]) if len(sys.argv) > 1 else 5
    seconds = float(sys.argv[2]) if len(sys.argv) > 2 else 1
    folder = tempfile.mkdtemp(dir="/dev/shm")
    load = build_load(folder)
    servers = {"nfs41": start_nfs41(folder, rounds), "nfs-ganesha": start_ganesha(folder)}
    figures = {name: [] for name in servers}
    if len(sys.argv) > 3:
        put_on(int(sys.argv[3]), servers)
        spinners = []
    else:
        spinners = keep_awake()
    for _ in range(rounds):
        for name, (_, port) in servers.items():
            figures[name].append(drive(load, port, seconds))
    for spinner in spinners:
        spinner.terminate()
    end(servers)
    shutil.rmtree(folder, ignore_errors=True)
    print("| operation | nfs41, µs | nfs-ganesha, µs | ratio |\n|---|---|---|---|")
    for operation in OPERATIONS:
        all_times = ([it[operation] for it in figures[name]] for name in servers)
        ours, theirs = map(statistics.median, all_times)
        print(f"| `{operation}` | {ours:.1f} | {theirs:.1f} | {ours / theirs:.2f} |")


if __name__ == "__main__":
    main()
