"""Completions: each shell offers the options of the help texts and no others."""

import re

import pytest
from installing import COMMANDS, RECORDERS, SUBCOMMANDS, TOP, has, long_options, run

FOLDER = TOP / "tools" / "completions"
CASES = [[command] for command in COMMANDS] + [["goodlock", command] for command in SUBCOMMANDS]


def expected(path, words):
    text = run(path / words[0], *words[1:], "--help")[1]
    if words[0] in RECORDERS:
        usage = re.sub(r"goodlock-view --confirmed|-- [A-Z].*", "", text)  # an option of another command; the program
        return set(re.findall(r"(?<![\w-])--[a-z][a-z-]*", usage))
    return long_options(text)


def offered_by_bash(words):
    """What is offered for these words, of which the last is begun."""
    script = """
        source "$1"; shift
        name=$1
        COMP_WORDS=("$@") COMP_CWORD=$(($# - 1))
        function=$(complete -p "$name" | sed 's/.*-F \\([^ ]*\\) .*/\\1/')
        COMPREPLY=()
        "$function" 2>/dev/null
        printf '%s\\n' "${COMPREPLY[@]}"
    """
    status, output, errors = run("bash", "--norc", "-c", script, "bash", FOLDER / "goodlock.bash", *words)
    assert (status, errors) == (0, "")
    return set(output.split())


@pytest.mark.parametrize("words", CASES, ids=" ".join)
def test_bash_offers_the_options_of_the_help(path, words):
    options = {word for word in offered_by_bash([*words, "--"]) if word.startswith("--")}
    assert options == expected(path, words)


def test_bash_offers_commands_values_and_files(path, tmp_path):
    (tmp_path / "report.json").write_text("")
    (tmp_path / "folder").mkdir()
    listed = re.findall(r"^  ([a-z]+)  ", run(path / "goodlock", "--help")[1], re.M)
    assert offered_by_bash(["goodlock", ""]) == {*listed, "--help", "--version"}
    assert set(listed) == set(SUBCOMMANDS)
    assert offered_by_bash(["goodlock", "predict", "--mode", ""]) == {"basic", "guarded", "full"}
    assert offered_by_bash(["goodlock-record", "--live", "--mode", ""]) == {"basic", "guarded", "full"}
    assert offered_by_bash(["goodlock-view", "re"]) == {"report.json"}
    assert offered_by_bash(["goodlock-view", "--source", ""]) == {"folder"}
    assert offered_by_bash(["goodlock-record", "-o", "t.std", "ls", "re"]) == {"report.json"}
    assert "ls" in offered_by_bash(["goodlock-record", "-o", "t.std", "l"])
    assert "ls" in offered_by_bash(["goodlock-record", "--live", "--len", "5", "--max", "9", "--mode", "full", "l"])


@pytest.mark.skipif(not has("fish"), reason="fish isn't installed")
@pytest.mark.parametrize("words", CASES, ids=" ".join)
def test_fish_offers_the_options_of_the_help(path, words):
    script = "source $argv[1]; complete -C $argv[2]"
    status, output, errors = run(
        "fish", "--no-config", "-c", script, FOLDER / "goodlock.fish", " ".join([*words, "--"])
    )
    assert (status, errors) == (0, "")
    assert {line.split("\t")[0] for line in output.splitlines() if line.startswith("--")} == expected(path, words)


# A shell of its own that completes as zsh does at its prompt, with what would be shown.
ZSH = r"""
zmodload zsh/zpty
zpty shell zsh -f -i
zpty -w shell 'PROMPT=; fpath=('"$1"' $fpath); autoload -Uz compinit; compinit -u -D; LISTMAX=1000'
zpty -w shell 'compdef _goodlock '"$3"'; stty columns 300 rows 200'
zpty -w shell 'bindkey "^I" complete-word; zstyle ":completion:*" verbose no; zstyle ":completion:*" list-prompt ""'
zpty -w shell 'echo rea''dy'
zpty -r shell line '*ready*'
zpty -w -n shell "$2"$'\t\t'
text=
for ((at = 0; at < 1000; at++)); do
    [[ $text == *--help* ]] && break  # which is offered everywhere
    sleep 0.1
    while zpty -r -t shell line; do text+=$line; done
done
zpty -w shell $'\x15print -r en\\ded'  # in place of the line: what it says comes behind all that is offered
zpty -r shell line '*ended*'
print -rn -- "$text$line"
zpty -d shell
"""


@pytest.mark.skipif(not has("zsh"), reason="zsh isn't installed")
@pytest.mark.parametrize("words", CASES, ids=" ".join)
def test_zsh_offers_the_options_of_the_help(path, words):
    status, output, errors = run("zsh", "-f", "-c", ZSH, "zsh", FOLDER, " ".join([*words, "--"]), " ".join(COMMANDS))
    assert (status, errors) == (0, "")
    shown = re.sub(r"\x1b\[[0-9;?]*[A-Za-z]", " ", output)
    assert long_options("\n".join(" " + word for word in shown.split())) == expected(path, words)
