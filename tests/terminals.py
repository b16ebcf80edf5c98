"""A program at a pseudo-terminal, for the scripts of tests."""
import os
import pty
import re

# The prompt at which an answer ends, and prompts at the beginnings of lines.
PROMPT, PROMPTS = re.compile(rb"\(\d+\) $"), re.compile(rb"^\(\d+\) ", re.M)


class Terminal:
    """A program at a pseudo-terminal, started with these words, in this folder."""

    def __init__(self, words, folder="."):
        self.child, self.file = pty.fork()
        if not self.child:
            os.chdir(folder)
            os.execv(words[0], words)
        self.greeting = self.until_prompt()

    def until_prompt(self, prompts=1):
        """Returns what comes up to the last of these prompts, or to the end."""
        text = b""
        while not PROMPT.search(text) or len(PROMPTS.findall(text)) < prompts:
            try:
                text += os.read(self.file, 1 << 16)
            except OSError:
                break
        return text.replace(b"\r\n", b"\n")

    def answer(self, line, prompts=1):
        """Sends a line, and returns its echo, its answer and the next prompt; or what comes up to
        the last of these prompts."""
        os.write(self.file, line)
        return self.until_prompt(prompts)

    def status(self):
        """Sends Ctrl-D and waits for the end; returns the status."""
        self.answer(b"\x04")
        return os.waitstatus_to_exitcode(os.waitpid(self.child, 0)[1])
