"""Runs a program whose input comes over a pipe in pieces, with a pause after each."""
import os
import subprocess
import threading
import time


def cut(draw, given, most):
    """The bytes in 2 to `most` pieces, cut at drawn places."""
    places = sorted(draw.randrange(len(given) + 1) for _ in range(draw.randrange(1, most)))
    return [given[begin:end] for begin, end in zip([0, *places], [*places, len(given)])]


def give(end, pieces, pause):
    """Writes the pieces to a pipe, and closes it. A program that has ended takes no further one."""
    try:
        for piece in pieces:
            while piece:
                piece = piece[os.write(end, piece) :]
            time.sleep(pause)
    except BrokenPipeError:
        pass
    finally:
        os.close(end)


def run(words, pieces, pause, seconds, **how):
    """The status, standard output and standard error of a run that ends within these seconds; else it is killed, and
    the exception is that of subprocess."""
    taken, given = os.pipe()
    with subprocess.Popen(words, stdin=taken, stdout=subprocess.PIPE, stderr=subprocess.PIPE, **how) as process:
        os.close(taken)
        giver = threading.Thread(target=give, args=(given, pieces, pause))
        giver.start()
        try:
            written, said = process.communicate(timeout=seconds)
        except subprocess.TimeoutExpired:
            process.kill()
            raise
        finally:
            giver.join()
    return process.returncode, written, said
