"""A shell into which the commands of a page are pasted, one after another, as a reader does. Nothing waits for a port but what the page itself waits with."""
import os
import select
import signal
import subprocess
import time

MARK = "pasted-to-here"


class Shell:
    """Variables, the folder and programs in the background stay from one command to the next."""

    def __init__(self, folder, env):
        pipe = subprocess.PIPE
        self.child = subprocess.Popen(["bash", "-s"], cwd=folder, env=env, stdin=pipe, stdout=pipe, stderr=subprocess.STDOUT, start_new_session=True)

    def paste(self, command, seconds=1800):
        """What the command prints, and its status; None if the shell ended by it, or if it takes longer."""
        self.child.stdin.write(f"{{ {command}\n}} < /dev/null\nprintf '\\n%s %d\\n' {MARK} $?\n".encode())
        self.child.stdin.flush()
        printed, end = b"", time.monotonic() + seconds
        while not printed.endswith(b"\n") or f"\n{MARK} ".encode() not in printed:
            ready, _, _ = select.select([self.child.stdout], [], [], max(0, end - time.monotonic()))
            got = os.read(self.child.stdout.fileno(), 65536) if ready else b""
            if not got:
                return printed.decode(), None
            printed += got
        before, _, status = printed.decode().rpartition(f"\n{MARK} ")
        return before, int(status.split()[0])

    def end(self):
        """Ends the shell and all that it started."""
        os.killpg(self.child.pid, signal.SIGKILL)
        self.child.wait()
        self.child.stdin.close()
        self.child.stdout.close()
