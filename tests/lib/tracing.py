"""What strace tells of a pooler."""
import signal
import subprocess
import time


def may_trace():
    """Whether strace may attach to a process that is no child of its own."""
    sleeper = subprocess.Popen(["sleep", "30"])
    try:
        tracer = subprocess.Popen(["strace", "-p", str(sleeper.pid)], stderr=subprocess.PIPE, text=True)
        first = tracer.stderr.readline()
        tracer.terminate()
        tracer.wait(30)
        return "attached" in first
    finally:
        sleeper.kill()
        sleeper.wait()


def traced(place, pid, how, work):
    """What strace tells of the pooler while something is done, and how many seconds that took."""
    file = place.folder / "calls"
    tracer = subprocess.Popen(["strace", "-f", *how, "-p", str(pid), "-o", str(file)], stderr=subprocess.PIPE, text=True)
    for line in tracer.stderr:
        if "attached" in line:
            break
    time.sleep(0.5)
    began = time.monotonic()
    work()
    seconds = time.monotonic() - began
    tracer.send_signal(signal.SIGINT)
    tracer.stderr.read()
    tracer.wait(30)
    return file.read_text().splitlines(), seconds
