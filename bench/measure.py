"""Calls of kivd that are timed, for the measurements beside this file."""
import argparse
import os
import platform
import resource
import tempfile
import time

HERE = os.path.dirname(os.path.realpath(__file__))


def words(description):
    """The options that each measurement has."""
    parser = argparse.ArgumentParser(description=description)
    parser.add_argument("--kivd", default=os.path.join(HERE, "../crates/kivd/out/kivd"))
    parser.add_argument("--runs", type=int, default=5)
    return parser


def call(kivd, mode, path, commands=""):
    """Seconds, peak memory in MB, exit code and output of one call with this input."""
    read, write = os.pipe()
    with tempfile.TemporaryFile("w+") as commands_file:
        commands_file.write(commands)
        commands_file.seek(0)
        begin = time.monotonic()
        child = os.fork()
        if child == 0:
            os.dup2(commands_file.fileno(), 0)
            os.dup2(write, 1)
            os.close(read)
            os.execv(kivd, [kivd, mode, path])
        os.close(write)
        with os.fdopen(read, "rb") as output:
            answer = output.read()
        _, code, usage = os.wait4(child, 0)
        return time.monotonic() - begin, usage.ru_maxrss / 1024, os.waitstatus_to_exitcode(code), answer.decode()


def calls(kivd, runs, mode, text, commands=""):
    """So many calls on a file with this text."""
    with tempfile.NamedTemporaryFile("w", suffix=".kiv") as file:
        file.write(text)
        file.flush()
        return [call(kivd, mode, file.name, commands) for _ in range(runs)]


def memory(peak):
    """The peak of a call in MB. What a call used before it became kivd, as a copy of this process, counts too."""
    own = resource.getrusage(resource.RUSAGE_SELF).ru_maxrss / 1024
    return f"{peak:.0f}" if peak > 1.05 * own else f"at most {own:.0f}"


def machine():
    model = platform.machine()
    with open("/proc/cpuinfo") as info:
        for line in info:
            if line.startswith("model name"):
                model = line.split(":", 1)[1].strip()
                break
    return f"{model}, {os.cpu_count()} processors, {platform.system()} {platform.release()}"
