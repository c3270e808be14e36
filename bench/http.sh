#!/bin/sh
# How many requests a second `run` makes over sockets with 1, 8 and 64 threads, a connection for each, and the processor time of a
# request; beside ab and hey where they are installed (apache2-utils, hey), by turns in the same minute against the same server:
# bench/http_server.c on loopback, an nginx of its own, or a server that is named. Then, with 8 threads at full speed, ten thousand
# and a hundred thousand requests: how many failed, how many files were open at most and when all had been made, and how many of
# the connections that are in TIME-WAIT at the end each side closed first.
# The aims: as many requests a second as ab and hey, at most 60 microseconds of processor time a request, and no fault.
# Usage: [PROGRAM=FILE] bench/http.sh [REQUESTS [nginx | HOST PORT]]    (20,000 requests in each measure; with 0 only the ten
# thousand and the hundred thousand are made; the program is the one that ./jm runs where no other is named)
set -eu
cd "$(dirname "$0")/.."
requests=${1:-20000}
folder=$(mktemp -d)
server=
trap '[ -z "$server" ] || kill -- "-$server" 2>/dev/null; rm -rf "$folder"' EXIT
trap 'exit 1' INT TERM
host=127.0.0.1
if [ $# -ge 3 ]; then
    host=$2 port=$3
elif [ "${2:-}" = nginx ]; then
    port=$(python3 -c 'import socket; s = socket.create_server(("127.0.0.1", 0)); print(s.getsockname()[1])')
    cat >"$folder/nginx.conf" <<END
daemon off;
worker_processes 4;
pid $folder/pid;
error_log $folder/error.log;
events { worker_connections 4096; }
http {
    access_log off;
    client_body_temp_path $folder/body; proxy_temp_path $folder/proxy; fastcgi_temp_path $folder/fastcgi; uwsgi_temp_path $folder/uwsgi; scgi_temp_path $folder/scgi;
    server { listen $host:$port backlog=4096; location / { return 200 "hi"; } }
}
END
    setsid nginx -e "$folder/error.log" -c "$folder/nginx.conf" &
    server=$!
    while ! [ -s "$folder/pid" ]; do sleep 0.1; done
else
    gcc -O2 -o "$folder/server" bench/http_server.c
    setsid "$folder/server" 0 8 >"$folder/port" &
    server=$!
    while ! [ -s "$folder/port" ]; do sleep 0.1; done
    port=$(cat "$folder/port")
fi
[ -n "${PROGRAM:-}" ] || ./jm check </dev/null >/dev/null 2>&1 || true
HOST=$host PORT=$port REQUESTS=$requests python3 - <<'PY'
import json, os, re, shutil, subprocess, tempfile, time

PROGRAM = os.environ.get("PROGRAM") or "crates/jm_program/out/jm_program"
HOST, PORT, REQUESTS = os.environ["HOST"], os.environ["PORT"], int(os.environ["REQUESTS"])
URL = f"http://{HOST}:{PORT}/"

def plan(threads, loops):
    """A plan whose threads each make that many requests."""
    sampler = {"type": "Http", "name": "H", "props": {"host": HOST, "port": PORT, "path": "/"}}
    loop = {"type": "Loop", "props": {"loops": loops}, "children": [sampler]}
    group = {"type": "ThreadGroup", "name": "TG", "props": {"threads": threads}, "children": [loop]}
    return {"type": "TestPlan", "children": [group]}

def with_rest(plan):
    """The plan, whose threads each pause for half a second when they have made their requests."""
    timer = {"type": "ConstantTimer", "props": {"delay": "500"}}
    plan["children"][0]["children"].append({"type": "Script", "name": "rest", "props": {"replies": [{}]}, "children": [timer]})
    return plan

def open_files(pid):
    try:
        return len(os.listdir(f"/proc/{pid}/fd"))
    except OSError:
        return 0

def timed(command, text="", watched=False):
    """Seconds, processor seconds of the child, what it printed on its two outputs, and how many files it had open, time and again."""
    with tempfile.TemporaryFile() as source, tempfile.TemporaryFile() as out, tempfile.TemporaryFile() as err:
        source.write(text.encode())
        source.seek(0)
        start = time.perf_counter()
        child = subprocess.Popen(command, stdin=source, stdout=out, stderr=err)
        seen = []
        ended, status, used = os.wait4(child.pid, os.WNOHANG if watched else 0)
        while not ended:
            seen.append(open_files(child.pid))
            time.sleep(0.05)
            ended, status, used = os.wait4(child.pid, os.WNOHANG)
        took = time.perf_counter() - start
        child.returncode = status
        out.seek(0)
        err.seek(0)
        printed = out.read().decode(), err.read().decode()
        if status:
            raise SystemExit(f"{command}: status {os.waitstatus_to_exitcode(status)}\n{printed[1][-300:]}")
        return took, used.ru_utime + used.ru_stime, *printed, [count for count in seen if count]

def run(threads, plan, watched=False):
    """Seconds, processor seconds, how many requests were made and failed, and the open files."""
    took, used, _, err, seen = timed([PROGRAM, "run", "--every", "1000"], json.dumps(plan), watched)
    total = next(line.split(",") for line in err.splitlines() if line.startswith("total,H,"))
    return took, used, int(total[2]), int(total[3]), seen

def ab(threads):
    took, used, out, *_ = timed(["ab", "-q", "-n", str(REQUESTS), "-c", str(threads), URL])
    made, failed = (int(re.search(f"{word} requests: *([0-9]+)", out)[1]) for word in ("Complete", "Failed"))
    return took, used, made, failed

def hey(threads):
    took, used, out, *_ = timed(["hey", "-disable-keepalive", "-n", str(REQUESTS), "-c", str(threads), URL])
    right = sum(int(count) for count in re.findall(r"\[200\]\s+([0-9]+) responses", out))
    made = REQUESTS // threads * threads
    return took, used, made, made - right

def line(name, threads, took, used, made, failed):
    print(f"{name:4} {threads:3} threads: {made / took:9,.0f} requests a second, {used / made * 1e6:5.1f} us of processor time a request, {made:,} made, {failed} failed", flush=True)

def waiting():
    """The connections in TIME-WAIT between the server's port and this machine: of this side, and of the server's."""
    port = f":{int(PORT):04X}"
    fields = [text.split() for text in open("/proc/net/tcp")][1:]
    held = [row for row in fields if row[3] == "06"]
    return sum(row[2].endswith(port) for row in held), sum(row[1].endswith(port) for row in held)

print(f"{os.cpu_count()} processors, {REQUESTS:,} requests each, the server at {HOST}:{PORT}", flush=True)
others = [tool for tool in (ab, hey) if shutil.which(tool.__name__)]
for tool in (ab, hey):
    if tool not in others:
        print(f"not measured beside {tool.__name__}, which is not installed")
for threads in (1, 8, 64) if REQUESTS else ():
    for turn in range(3):
        line("run", threads, *run(threads, plan(threads, REQUESTS // threads))[:4])
        for tool in others:
            line(tool.__name__, threads, *tool(threads))

# Half a minute more than the time of TIME-WAIT, so that none is there of before.
time.sleep(90)
for requests in (10_000, 100_000):
    took, used, made, failed, seen = run(8, with_rest(plan(8, requests // 8)), True)
    ours, theirs = waiting()
    line("run", 8, took - 0.5, used, made, failed)
    print(f"     open files: at most {max(seen)}, {seen[-1]} when all had been made; in TIME-WAIT: {ours:,} closed first by this side, {theirs:,} by the server")
PY
