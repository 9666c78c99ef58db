"""The completions of contrib/completion, which have to offer what the help of the program has, and
nothing else. Each shell is given lines, and writes what it offers behind each of them."""
import os
import re
import subprocess
import unittest

import kit

FOLDER = os.path.join(kit.ROOT, "contrib/completion")
BASH = r"""
source "$FOLDER/norbd.bash"
while IFS= read -r line; do
    read -ra COMP_WORDS <<<"${line//=/ = }"
    [[ $line != *' ' ]] || COMP_WORDS+=('')
    COMP_CWORD=$((${#COMP_WORDS[@]} - 1))
    _norbd
    printf '%s\n' "LINE $line" "${COMPREPLY[@]}"
done <"$ROOM/lines" >"$ROOM/out"
"""
FISH = r"""
source $FOLDER/norbd.fish
while read -l line
    echo "LINE $line"
    complete -C $line
end <$ROOM/lines >$ROOM/out
"""
ZSH = r"""
fpath=($FOLDER $fpath)
autoload -Uz compinit && compinit -uD
compadd() {
    if [[ ${@[1,(i)(-|--)]} != *-(O|A|D)\ * ]]; then
        local -a offered
        builtin compadd -A offered "$@"
        print -rl -- $offered >>$ROOM/out
    fi
    builtin compadd "$@"
}
zle-line-init() {
    local line
    for line in "${(@f)$(<$ROOM/lines)}"; do
        print -r "LINE $line" >>$ROOM/out
        BUFFER=$line CURSOR=$#line
        zle list-choices
    done
    exit 0
}
zle -N zle-line-init
"""


def options_in(text):
    """The options of a help, short and long ones, and those of them that have a value."""
    rows = re.findall(r"(?m)^ +(?:(-\w), |    )(--[a-z-]+)( <)?", text)
    return {it for row in rows for it in row[:2] if it}, [row[1] for row in rows if row[2]]


class Completions(kit.Case):
    def setUp(self):
        super().setUp()
        top = self.norbd("--help").decode()
        self.helps = {it: self.norbd("help", it).decode()
                      for it in re.findall(r"(?m)^  ([a-z]+) ", top)}
        self.wanted = {"norbd ": set(self.helps), "norbd help ": set(self.helps),
                       "norbd -": options_in(top)[0]}
        for command, text in self.helps.items():
            options, with_values = options_in(text)
            self.wanted[f"norbd {command} -"] = options
            self.wanted[f"norbd {command} 1"] = (
                {"1.img"} if re.search("<(IMAGE|PATH)>\n", text) else set())
            for option in with_values:
                values = ({"1.img"} if option in ("--unix", "--status", "--against")
                          else self.words_of(command, option))
                self.wanted[f"norbd {command} {option} "] = values
                self.wanted[f"norbd {command} {option}="] = values

    def words_of(self, command, option):
        """The words that an option can have, where they are a few: its fault tells them."""
        fault = self.run_norbd(command, "1.img", "--unix", "s", option, "?").fault
        found = re.fullmatch(r"norbd: bad \w+: ([a-z]+(?:, [a-z]+)* or [a-z]+)\n", fault)
        return set(re.split(", | or ", found.group(1))) if found else set()

    def look(self, *shell):
        """Compares what a shell offers, in a folder with one file, with what it has to."""
        os.mkdir(self.path("files"))
        self.put("files/1.img", b"")
        self.put("lines", "\n".join(self.wanted).encode() + b"\n")
        self.put(".zshrc", ZSH.encode())
        subprocess.run(shell, cwd=self.path("files"), stdin=subprocess.DEVNULL, check=True,
                       capture_output=True, timeout=kit.PATIENCE, env=dict(
                           os.environ, ROOM=self.room, FOLDER=FOLDER, HOME=self.room,
                           ZDOTDIR=self.room, TERM="xterm"))
        offered = {}
        for line in self.bytes_of("out").decode().splitlines():
            if line.startswith("LINE "):
                behind = offered[line[5:]] = set()
            elif line:
                behind.add(re.sub(r"^--[a-z-]+=|\t.*", "", line))
        for line, values in self.wanted.items():
            with self.subTest(line):
                self.assertEqual(offered.get(line), values)

    @kit.needs("bash")
    def test_bash(self):
        """In bash the commands, options, words and files are those of the help."""
        self.look("bash", "--norc", "-c", BASH)

    @kit.needs("zsh")
    def test_zsh(self):
        """So they are in zsh, on a terminal."""
        self.look("script", "-qec", "zsh -di", "/dev/null")

    @kit.needs("fish")
    def test_fish(self):
        """So they are in fish."""
        self.look("fish", "--no-config", "-c", FISH)

    def test_words(self):
        """Each file has the commands and the long options of the help, and no other options."""
        options = {it for text in self.helps.values() for it in options_in(text)[0]}
        options = {it[2:] for it in options | self.wanted["norbd -"] if it.startswith("--")}
        for name, option in (("norbd.bash", "--"), ("_norbd", "--"), ("norbd.fish", "-l ")):
            with open(os.path.join(FOLDER, name), encoding="ascii") as file:
                text = file.read()
            self.assertEqual(set(re.findall(rf"{option}([a-z][a-z-]*)", text)), options, name)
            self.assertLessEqual(set(self.helps), set(re.findall("[a-z]+", text)), name)


if __name__ == "__main__":
    unittest.main()
