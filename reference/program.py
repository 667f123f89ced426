"""What the program answers."""

import subprocess


def program_answer(program, words, data):
    """The program's status and its bytes; a status below 0 is the signal that ended it."""
    done = subprocess.run([program, *words], input=data, stdout=subprocess.PIPE, check=False)
    return done.returncode, done.stdout
