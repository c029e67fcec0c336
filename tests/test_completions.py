#!/usr/bin/env python3
"""Tests what the completions of upath offer in bash, zsh and fish, compared with tools/upath.txt.

They offer the commands first, after `-` the options of the command and those of every command that
it doesn't lack, directories as the value of `--from`, and files elsewhere. After `--` only files
are offered. An operand that has the name of a command, and the value of an option, change nothing.
In bash, lines are also typed with tabs, in a terminal.
"""
import importlib.machinery
import importlib.util
import os
import re
import shlex
import subprocess
import sys
import tempfile

import support
from support import ROOT, UPATH, needs

# The files and directories where the lines are completed.
FILES, DIRECTORIES = ["-dash", "canonical", "plain", "two words"], ["dir", "parts"]
# The shell's side of bash: compopt only records, since readline doesn't run.
BASH = """
compopt() { asked=$2; }
ask() {
    asked= COMP_WORDS=("$@") COMP_CWORD=$(($# - 1)) COMPREPLY=()
    _upath upath "${COMP_WORDS[COMP_CWORD]}" "${COMP_WORDS[COMP_CWORD-1]}"
    local word=${COMP_WORDS[COMP_CWORD]#=}
    case $asked in
        default) mapfile -t COMPREPLY < <(compgen -f -- "$word") ;;
        dirnames) mapfile -t COMPREPLY < <(compgen -d -- "$word") ;;
    esac
    printf '%s\\n' "${COMPREPLY[@]}" ==
}
"""
# The shell's side of zsh: a key completes each line, and writes what compadd would add.
ZSH = """
autoload -Uz compinit
compinit -D -u
setopt noautomenu noautolist nolistambiguous nobeep
PS1= LISTMAX=9999
compadd() {
    local -a hits
    if [[ ${@[1,(i)(-|--)]} != *-(O|A|D)\\ * ]]; then
        builtin compadd -A hits "$@"
        (( $#hits )) && print -rl -- $hits >> ../found
    fi
    builtin compadd "$@"
}
complete-lines() {
    local line
    for line in "${(@f)$(< ../lines)}"; do
        BUFFER=$line CURSOR=$#line
        zle complete-word
        print -r -- '==' >> ../found
    done
    zle .send-break
}
zle -N complete-lines
bindkey '^Y' complete-lines
"""
# Lines typed in bash, and the arguments that upath gets.
TYPED = [("upath esc\tpl\t", ["escapes", "plain"]), ("upath canon two\t", ["canon", "two words"]),
         ("upath part\tdi\t", ["parts", "dir/"]), ("upath canon -- -d\t", ["canon", "--", "-dash"]),
         ("upath relative --fr\tdi\t", ["relative", "--from=dir/"]),
         ("upath relative --from di\tpl\t", ["relative", "--from", "dir/pl"]),
         ("upath --from di\t relat\tpl\t", ["--from", "dir/", "relative", "plain"]),
         ("upath join --ben\t/ pl\t", ["join", "--beneath", "/", "plain"]),
         ("upath under --by\t--st\t./d\t", ["under", "--by-components", "--strip", "./dir/"])]


def read_table():
    """Returns the options of every command, and the commands, of tools/upath.txt."""
    loader = importlib.machinery.SourceFileLoader("texts", f"{ROOT}/tools/upath_texts")
    module = importlib.util.module_from_spec(importlib.util.spec_from_loader("texts", loader))
    sys.modules["texts"] = module
    loader.exec_module(module)
    return module.read_table()[:2]


def flags(options):
    return [f"-{it.letter}" for it in options if it.letter] + [f"--{it.name}" for it in options
                                                                if it.name]


def after(line, words):
    """Returns a row: a line, and those of the words that complete its last word."""
    last = re.split("[ =]", line)[-1]
    return line, {it for it in words if it.startswith(last)}


def rows_of(command, common, other):
    """Yields the lines with this command, and what each has to offer."""
    given = [it for it in (*common, *command.options)
             if not {f"-{it.letter}", f"--{it.name}"} & {*command.lacks}]
    start, options = f"upath {command.name}", flags(given)
    yield from (after(f"{start} {it}", options)
                for it in ("-", "--", "a -", f"{other} --", f"--or {other} -", f"--or={other} --"))
    yield from (after(f"upath {it} {command.name} --", options)
                for it in ("-q", "-zp", f"--from {other}", f"--or {other}"))
    yield from (after(f"{start} {it}", FILES + DIRECTORIES)
                for it in ("", "p", "./none", "a p", "-q p", f"{other} p", "-- -", f"-- {other} -",
                           "a -- -d", "-- ", "--or a p", "--or=a p", "-- --from p"))
    yield from (after(f"{start} --from{it}", DIRECTORIES) for it in ("=", "=d", " ", " p"))
    yield from (after(f"{start} --or{it}", []) for it in ("=", "=d", " ", " p"))


def rows():
    """Returns the lines, and what each has to offer."""
    common, commands = read_table()
    names = [it.name for it in commands]
    found = [after(f"upath {it}", names)
             for it in ("", "p", "es", "zz", "-- ", "-- p", "-z ", "-z --null p", "--from canon ",
                        "--or canon p", "--from=canon ", "--or=canon p")]
    found += [after(f"upath {it}", flags(common)) for it in ("-", "--", "-z --", "--from join --")]
    for command in commands:
        other = next(it.name for it in commands if it.options and it != command)
        found += rows_of(command, common, other)
    return found


def words_of(text, options):
    """Returns the words that a shell offers. For an option it may also offer a file."""
    words = {it.partition("\t")[0].replace("\\", "") for it in text.splitlines()}
    words = {it.rpartition("=")[2] or it[:-1] for it in words if it}
    return {it.rstrip("/") for it in words} - (set(FILES[:1]) if options else set())


class Completions(support.Case):
    def setUp(self):
        folder = tempfile.TemporaryDirectory()
        self.addCleanup(folder.cleanup)
        self.folder = folder.name
        for name in ("bin", "home", *(f"here/{it}" for it in DIRECTORIES)):
            os.makedirs(f"{self.folder}/{name}")
        for name in (*FILES, "dir/plain"):
            self.write(f"here/{name}", "")
        os.symlink(UPATH, f"{self.folder}/bin/upath")

    def write(self, name, text):
        with open(f"{self.folder}/{name}", "w", encoding="utf-8") as file:
            file.write(text)

    def run_in(self, words, **more):
        """Returns what a command prints, which runs where the lines are completed."""
        places = {"HOME": f"{self.folder}/home", "PATH": f"{self.folder}/bin:{os.environ['PATH']}",
                  "INPUTRC": "/dev/null", "TERM": "vt100", "LC_ALL": "C.UTF-8"}
        return subprocess.run(words, cwd=f"{self.folder}/here", env={**os.environ, **places},
                              stdout=subprocess.PIPE, stderr=subprocess.STDOUT, timeout=300,
                              check=False, text=True, **more).stdout

    def type(self, shell, keys):
        """Types keys in a terminal in which this shell runs."""
        return self.run_in(["script", "-qec", shell, "/dev/null"], input=keys)

    def check(self, answers):
        """Compares what a shell offers for each row with what it has to offer."""
        self.assertEqual(len(answers), len(rows()) + 1, answers[-1])
        for (line, words), answer in zip(rows(), answers):
            with self.row(line):
                self.assertEqual(words_of(answer, any(it.startswith("--") for it in words)), words)

    @needs("bash")
    def test_bash(self):
        # Readline makes each `=` a word.
        asked = [re.sub("=", " = ", line).split() + [""] * line.endswith(" ")
                 for line, _ in rows()]
        script = [f". {ROOT}/completions/upath.bash", BASH,
                  *(f"ask {shlex.join(it)}" for it in asked)]
        self.check(self.run_in(["bash", "--norc"], input="\n".join(script)).split("==\n"))

    @needs("fish")
    def test_fish(self):
        script = "source $argv[1]; for it in $argv[2..]; complete -C $it; echo ==; end"
        self.check(self.run_in(["fish", "--no-config", "-c", script,
                                f"{ROOT}/completions/upath.fish", *(line for line, _ in rows())],
                               stdin=subprocess.DEVNULL).split("==\n"))

    @needs("zsh", "script")
    def test_zsh(self):
        self.write("lines", "".join(f"{line}\n" for line, _ in rows()))
        self.write("script", f"fpath=({shlex.quote(f'{ROOT}/completions')} $fpath)\n{ZSH}")
        shown = self.type("zsh -f -i", "source ../script\n\x19exit\n")
        self.assertIn("found", os.listdir(self.folder), shown)
        with open(f"{self.folder}/found", encoding="utf-8") as file:
            self.check(file.read().split("==\n"))

    @needs("bash", "script")
    def test_typed_in_bash(self):
        record = "upath() { printf '%s\\n' \"$@\" == >> ../found; }\n"
        keys = "".join(f"{it}\n" for it, _ in TYPED)
        shown = self.type("bash --norc --noprofile -i",
                          f". {ROOT}/completions/upath.bash\n{record}{keys}exit\n")
        self.assertIn("found", os.listdir(self.folder), shown)
        with open(f"{self.folder}/found", encoding="utf-8") as file:
            found = file.read().split("==\n")
        for (line, words), answer in zip(TYPED, found):
            with self.row(line):
                self.assertEqual(answer.splitlines(), words)


if __name__ == "__main__":
    support.main()
