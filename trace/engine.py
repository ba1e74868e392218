"""The proved program, to which a script is given line by line, and which replies so."""
import subprocess
import threading


class Stopped(Exception):
    """The program ended, or gave no reply."""


class Engine:
    """A process of `rcu script`. `keep`: the path of a file to which its lines go too, or None."""

    def __init__(self, program, tree, keep):
        self.keep, self.lines = open(keep, "w", encoding="ascii") if keep else None, 0
        self.process = subprocess.Popen([*program, "script", *tree.words()], stdin=subprocess.PIPE,
                                        stdout=subprocess.PIPE, encoding="ascii")

    def replies(self, lines):
        """The reply to each line. The lines are written beside the reading, as a pipe is short."""
        text = "".join(f"{it}\n" for it in lines)
        if self.keep:
            self.keep.write(text)
        self.lines += len(lines)
        writer = threading.Thread(target=self.write, args=(text,))
        writer.start()
        for _ in lines:
            reply = self.process.stdout.readline()
            if not reply:
                raise Stopped("the program rcu ended before its last reply")
            yield reply.rstrip("\n")
        writer.join()

    def write(self, text):
        try:
            self.process.stdin.write(text)
            self.process.stdin.flush()
        except BrokenPipeError:
            pass  # (the reading tells)

    def close(self):
        if self.keep:
            self.keep.close()
        self.process.kill()
        self.process.wait()
        self.process.stdin.close()
        self.process.stdout.close()
