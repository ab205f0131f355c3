#!/usr/bin/env bash
# Many, slow and rude peers of a server, and what a poll beside them takes.
#
#   bench/peers.sh [CISERVER [SECONDS]]
#
# First one rude peer at a time, with a poll behind it: one that sends a byte a second, one that says nothing, one that never reads a
# trace of 4 MiB, one that resets the connection in its request, and one that sends a body which is too long. Then, for 150 seconds or
# so many, all at once: 1,000 that say nothing, 100 that send a byte a second and 20 that never read; each that the server ended comes
# again ten seconds after it came. Beside them a runner reports its job every ten seconds, and polls go on.
#
# It prints what each took, and ends with 1 where an answer is another, a poll behind one rude peer waits for more than a second, a poll
# beside the crowd takes more than twice its time alone (the median, and the 99th of 100), a report is refused, or the server's memory
# grows by 64 MB. It needs bash, python3, curl and jq.
set -eu
here=$(realpath "$(dirname "$0")")
ciserver=$(realpath "${1-$here/../bin/ciserver}")
work=$(mktemp -d)
server=
trap '[ -z "$server" ] || kill "$server" 2> /dev/null || :; rm -rf "$work"' EXIT
db=$work/ci.db
. "$here/../examples/server.sh"
"$ciserver" init --db "$db" > /dev/null
project=$("$ciserver" project-add --db "$db" --name p | jq -r .token)
runner=$("$ciserver" runner-add --db "$db" --name r --untagged | jq -r .token)
serve_file "$db" 100000000
api() { curl -sS --fail-with-body -X "$1" -H 'Expect:' -H "PRIVATE-TOKEN: $project" "${@:3}" "http://127.0.0.1:$port/api/v4/projects/1$2"; }
printf 'j:\n  script: x\n' > "$work/ci.yml"
api PUT /ci_file --data-binary "@$work/ci.yml" > /dev/null
api POST /pipeline --data '{"ref":"main"}' > /dev/null
ulimit -n 4096
python3 - "$port" "$project" "$runner" "$server" "${2-150}" <<'EOP'
import json, os, selectors, signal, socket, struct, sys, threading, time

port, project, runner, server, seconds = int(sys.argv[1]), sys.argv[2], sys.argv[3], sys.argv[4], float(sys.argv[5])
failed = 0

def connect(receive=None):
    peer = socket.socket()
    if receive:
        peer.setsockopt(socket.SOL_SOCKET, socket.SO_RCVBUF, receive)
    peer.connect(("127.0.0.1", port))
    return peer

def request(method, path, fields=(), body=b""):
    head = f"{method} {path} HTTP/1.1\r\n" + "".join(f"{f}\r\n" for f in fields) + f"Content-Length: {len(body)}\r\n\r\n"
    return head.encode() + body

def reply(peer):
    found = b""
    while part := peer.recv(65536):
        found += part
    return found

def ask(data):
    with connect() as peer:
        peer.sendall(data)
        return reply(peer)

ASK = request("POST", "/api/v4/jobs/request", body=json.dumps({"token": runner}).encode())
TRACE = request("GET", "/api/v4/projects/1/jobs/1/trace", [f"PRIVATE-TOKEN: {project}"])

def wrong(text):
    global failed
    failed = 1
    print(f"  wrong: {text}")

def behind(name, most=1):
    """Asks as the peer behind, and says how long it waited."""
    start = time.monotonic()
    found = ask(ASK)
    waited = time.monotonic() - start
    print(f"{name}: the next peer waited {waited:.3f} seconds")
    if waited > most or not found.startswith(b"HTTP/1.1 204 "):
        wrong(f"{waited:.3f} {found[:60]}")

def drip(peer):
    try:
        for byte in ASK:
            peer.sendall(bytes([byte]))
            time.sleep(1)
    except OSError:
        pass

def one_at_a_time():
    behind("nobody before")
    slow = connect()
    threading.Thread(target=drip, args=(slow,), daemon=True).start()
    time.sleep(0.2)
    behind("a byte a second")
    silent = connect()
    time.sleep(0.2)
    behind("nothing said")
    deaf = connect(4096)
    deaf.sendall(TRACE)
    time.sleep(0.2)
    behind("a reply never read")
    rude = connect()
    rude.sendall(ASK[:40])
    rude.setsockopt(socket.SOL_SOCKET, socket.SO_LINGER, struct.pack("ii", 1, 0))
    rude.close()
    behind("a reset")
    long = connect()
    long.sendall(b"POST /api/v4/jobs/request HTTP/1.1\r\nContent-Length: 200000\r\n\r\n" + b"x" * 200000)
    found = reply(long)
    long.close()
    print("a body too long:", found.split(b"\r\n", 1)[0].decode())
    if not found.startswith(b"HTTP/1.1 413 "):
        wrong(found[:60])
    behind("a body too long")

class Rude:
    """One of the crowd: it comes again ten seconds after it came, where the server has ended it."""
    def __init__(self, kind):
        self.kind, self.peer, self.came, self.said = kind, None, 0, 0
    def come(self, now):
        if self.peer:
            self.peer.close()
        self.peer, self.came, self.said = connect(4096 if self.kind == "deaf" else None), now, 0
        self.peer.setblocking(False)
        if self.kind == "deaf":
            self.peer.send(TRACE)
    def is_over(self):
        try:
            return self.kind != "deaf" and self.peer.recv(1) == b""
        except BlockingIOError:
            return False
        except OSError:
            return True
    def go_on(self, now):
        if now - self.came >= 10 and (self.kind == "deaf" or self.is_over()):
            self.come(now)
        elif self.kind == "drip" and now - self.came >= self.said and self.said < len(ASK):
            try:
                self.peer.send(ASK[self.said:self.said + 1])
            except OSError:
                pass
            self.said += 1

def crowd(ready):
    people = [Rude("silent") for _ in range(1000)] + [Rude("drip") for _ in range(100)] + [Rude("deaf") for _ in range(20)]
    for one in people:
        one.come(time.monotonic())
    os.write(ready, b"x")
    while True:
        for one in people:
            one.go_on(time.monotonic())
        time.sleep(0.05)

def polls(until, pause=0):
    """Polls until then, and gives how long each took, in microseconds."""
    took = []
    while time.monotonic() < until:
        start = time.perf_counter()
        found = ask(ASK)
        took.append((time.perf_counter() - start) * 1e6)
        if not found.startswith(b"HTTP/1.1 204 "):
            wrong(found[:60])
        if pause:
            time.sleep(pause)
    took.sort()
    return took

def told(name, took):
    print(f"{name}: {len(took)} polls, median {took[len(took) // 2]:.0f} us, 99th of 100 {took[len(took) * 99 // 100]:.0f} us, longest {took[-1] / 1e3:.1f} ms")
    return took[len(took) // 2], took[len(took) * 99 // 100]

def resident():
    with open(f"/proc/{server}/status") as status:
        return next(int(line.split()[1]) for line in status if line.startswith("VmRSS"))

most = 0
def watch(stop):
    global most
    while not stop.is_set():
        most = max(most, resident())
        time.sleep(0.02)

def report(stop, job, state, counts):
    data = request("PUT", f"/api/v4/jobs/{job['id']}", body=json.dumps({"token": job["token"], "state": state}).encode())
    while not stop.is_set():
        found = ask(data)
        counts[found.startswith(b"HTTP/1.1 200 ")] += 1
        stop.wait(10)

job = json.loads(ask(ASK).split(b"\r\n\r\n", 1)[1])
for place in range(64):
    at = place * 65536
    fields = [f"JOB-TOKEN: {job['token']}", f"Content-Range: {at}-{at + 65535}"]
    assert ask(request("PATCH", f"/api/v4/jobs/{job['id']}/trace", fields, b"x" * 65536)).startswith(b"HTTP/1.1 202 ")
assert len(ask(TRACE)) > 4194304

one_at_a_time()
time.sleep(11)
alone = told("alone", polls(time.monotonic() + 10))
before = resident()
ready, mine = os.pipe()
child = os.fork()
if child == 0:
    crowd(mine)
os.read(ready, 1)
stop, counts = threading.Event(), [0, 0]
threads = [threading.Thread(target=watch, args=(stop,)), threading.Thread(target=report, args=(stop, job, "running", counts))]
for thread in threads:
    thread.start()
beside = told("beside the crowd", polls(time.monotonic() + 10))
most_polls = told("beside it, to the end", polls(time.monotonic() + seconds - 10, 0.05))
stop.set()
for thread in threads:
    thread.join()
os.kill(child, signal.SIGKILL)
os.waitpid(child, 0)
print(f"reports of the runner: {counts[1]} taken, {counts[0]} refused")
print(f"memory: {before / 1024:.1f} MB with nobody, {most / 1024:.1f} MB at most with the crowd")
if counts[0] or not counts[1]:
    wrong("a lease was lost")
if beside[0] > 2 * alone[0] or beside[1] > 2 * alone[1]:
    wrong("a poll takes more than twice its time alone")
if most - before >= 64 * 1024:
    wrong("the memory grows by 64 MB")
sys.exit(failed)
EOP
