"""Runs a program over files, and catches its status, its output and its message."""
import argparse
import os
import subprocess

# The options that name the files of a run. The last one may be left out.
NAMES = ("tis", "cwr", "usage", "payees")


def program_at(path):
    """The whole path of a program, as the value of an option."""
    whole = os.path.abspath(path)
    if not (os.path.isfile(whole) and os.access(whole, os.X_OK)):
        raise argparse.ArgumentTypeError(f"{path} is no program")
    return whole


def parser_of_program(name, text):
    """A parser of the words of a script that tries a program, which is given by its path."""
    parser = argparse.ArgumentParser(prog=name, description=text,
                                     formatter_class=argparse.RawDescriptionHelpFormatter)
    parser.add_argument("--program", required=True, type=program_at)
    return parser


def run_options(paths, plan):
    """The options of a run: its files, and its workers, readers and nodes."""
    return [*zip(NAMES, paths), *zip(("workers", "readers", "nodes"), plan)]


def words_of(program, command, options, are_joined=False):
    """A command line as a list: the program, its command, and options with their values, which
    stand behind a `=` where they are joined."""
    words = [program, command]
    for name, value in options:
        words += [f"--{name}={value}"] if are_joined else [f"--{name}", str(value)]
    return words


def written(folder, files):
    """Writes files, given by name, into a folder, which is made if need be; their paths."""
    os.makedirs(folder, exist_ok=True)
    paths = []
    for name, data in files.items():
        paths.append(os.path.join(folder, name))
        with open(paths[-1], "wb") as file:
            file.write(data)
    return paths


def message_in(errors):
    """What a program wrote to standard error, without its own name in front."""
    return errors.split(b": ", 1)[-1]


def run(words, seconds=None, folder=None):
    """The status of a command line, what it printed, and its message.

    Where it takes longer than `seconds` it is ended, and a text stands for its status. It runs in a
    folder, if one is given.
    """
    try:
        done = subprocess.run(words, capture_output=True, timeout=seconds, cwd=folder)
    except subprocess.TimeoutExpired:
        return f"no end in {seconds} s", b"", b""
    return done.returncode, done.stdout, message_in(done.stderr)


def answer_over(program, command, folder, files):
    """The outcome of a command over files, which are given by name and written into a folder."""
    return run([program, command, *written(folder, files)])


def answer_into_file(program, command, folder, files):
    """The outcome of a command over files with `--output`, as if its file had been printed."""
    paths, target = written(folder, files), os.path.join(folder, "output")
    status, printed, message = run([program, command, "--output", target, *paths])
    text = None
    if os.path.exists(target):
        with open(target, "rb") as file:
            text = file.read()
        os.remove(target)
    if printed or (text is None) != (status != 0):
        return status, f"printed {printed!r}, and into the file {text!r}".encode(), message
    return status, text or b"", message
