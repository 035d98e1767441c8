"""Two counters on two threads, told to the monitor while they run: python3 examples/live.py"""
import os, queue, subprocess, threading

monitor = subprocess.Popen(["./ra_monitor", "check"], stdin=subprocess.PIPE, stdout=subprocess.PIPE, text=True)
lock = threading.Lock()  # one lock round act and report, so that reports come in the order of what happened
counters, inboxes = {"ann": 0, "bob": 0}, {"ann": queue.Queue(), "bob": queue.Queue()}

def tell(line):
    print(line, file=monitor.stdin, flush=True)  # unflushed, the line stays here and no reply comes
    reply = monitor.stdout.readline().split()
    if not reply or reply[0] in ("no", "refused"):  # no reply: the monitor ended, and standard error says why
        print(line, "is answered", *reply or ["nothing: look at standard error"], flush=True)
        os._exit(1)  # sys.exit would end this thread alone
    return reply[1]

def work(me, other):
    for _ in range(100):
        with lock:
            counters[me] += 1
            inboxes[other].put(tell(f"{me} inc"))  # the message carries the number that `ok` gave
    for _ in range(100):
        number = inboxes[me].get()
        with lock:
            counters[me] += 1
            tell(f"{me} got {number}")
            tell(f"{me} read {counters[me]}")

print("RAH 1 counter\nreplicas ann bob", file=monitor.stdin, flush=True)
threads = [threading.Thread(target=work, args=it) for it in [("ann", "bob"), ("bob", "ann")]]
for it in threads: it.start()
for it in threads: it.join()
monitor.stdin.close()
print("the monitor says", monitor.stdout.read().strip(), "and ends with status", monitor.wait())
