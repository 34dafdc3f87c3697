"""The completions of shardscrub for bash, zsh and fish, as texts. dev/options.py makes them from its tables."""
from typing import NamedTuple

MADE = "# Completions of shardscrub for {}. dev/options.py makes this file.\n"
SIZES_OF_PAGES = " ".join(str(1 << n) for n in range(6, 17))


class Taken(NamedTuple):
    """An option that a command takes. A flag has no value."""
    name: str
    value: str
    about: str
    is_repeated: bool


class Completed(NamedTuple):
    """A command, its options, the names of its images, and whether pages follow them."""
    name: str
    about: str
    options: tuple
    images: tuple
    takes_pages: bool


BASH = MADE.format("bash") + r"""
_shardscrub() {
    local commands="COMMANDS" word=${COMP_WORDS[COMP_CWORD]} command="" options="" repeated="REPEATED" flags="FLAGS" given=" "
    local -i images=0 places=0 i
    local option="" one
    for ((i = 1; i < COMP_CWORD; i++)); do
        one=${COMP_WORDS[i]}
        if [[ $option && $one = "=" ]]; then continue; fi
        if [[ $option ]]; then option=""
        elif [[ $one = --help || $one = --version || " $flags " = *" $one "* ]]; then given+="$one "
        elif [[ $one = --* ]]; then option=$one given+="$one "
        elif [[ $one = -* ]]; then continue
        elif [[ ! $command ]]; then command=$one
        else places+=1
        fi
    done
    if [[ $option && $word = "=" ]]; then word=""; fi
    case $command in
        "") options="$commands --help --version" ;;
        help) options=$commands; if ((places > 0)); then options=""; fi ;;
CASES
    esac
    COMPREPLY=()
    case $option in
        --page) mapfile -t COMPREPLY < <(compgen -W "PAGES" -- "$word"); return ;;
        --map) places=0 images=1 ;;
        ?*) return ;;
        "") if [[ $word = -* || ! $command || $command = help ]]; then
                for one in $options; do
                    if [[ $one = "$word"* && ($given != *" $one "* || " $repeated " = *" $one "*) ]]; then COMPREPLY+=("$one"); fi
                done
                return
            fi ;;
    esac
    if ((places < images)); then
        compopt -o filenames 2>/dev/null
        mapfile -t COMPREPLY < <(compgen -f -- "$word")
    fi
}
complete -F _shardscrub shardscrub
"""


def bash(commands):
    """The words that may come, by the command, and file names for the images and the map."""
    cases = [f'        {one.name}) options="{" ".join([*(option.name for option in one.options), "--help"])}" images={len(one.images)} ;;'
             for one in commands]
    repeated = dict.fromkeys(option.name for one in commands for option in one.options if option.is_repeated)
    flags = dict.fromkeys(option.name for one in commands for option in one.options if not option.value)
    return (BASH.replace("COMMANDS", " ".join([*(one.name for one in commands), "help"])).replace("REPEATED", " ".join(repeated))
            .replace("FLAGS", " ".join(flags)).replace("CASES", "\n".join(cases)).replace("PAGES", SIZES_OF_PAGES))


def quoted(text):
    """A text as a word of each of the shells."""
    return "'" + text.replace("'", "'\\''") + "'"


def zsh(commands):
    def action(option):
        return {"--page": f"({SIZES_OF_PAGES})", "--map": "_files"}.get(option.name, " ")

    def escaped(text):
        return text.replace("[", "\\[").replace("]", "\\]").replace(":", "\\:")

    def spec(option):
        if not option.value:
            return f"{option.name}[{escaped(option.about)}]"
        return f"{'*' * option.is_repeated}{option.name}=[{escaped(option.about)}]:{escaped(option.value)}:{action(option)}"

    lines = ["#compdef shardscrub", MADE.format("zsh"), "_shardscrub() {", "    local curcontext=$curcontext state line",
             "    local -a commands", "    commands=("]
    lines += [f"        {quoted(one.name + ':' + escaped(one.about))}" for one in commands]
    lines += ["        'help:Prints the help of a command'", "    )",
              "    _arguments -C '(- *)'{-h,--help}'[Print help]' '(- *)'{-V,--version}'[Print version]' '1: :->command' '*:: :->rest'",
              "    case $state in", "        command) _describe command commands ;;", "        rest) case $words[1] in",
              "            help) _describe command commands ;;"]
    for one in commands:
        specs = [quoted(spec(option)) for option in one.options]
        specs += ["'(- *)'{-h,--help}'[Print help]'", *(f"'{number}:{name}:_files'" for number, name in enumerate(one.images, 1))]
        specs += ["'*:EXTENT\\:PAGE: '"] * one.takes_pages
        lines.append(f"            {one.name}) _arguments \\\n                " + " \\\n                ".join(specs) + " ;;")
    return "\n".join([*lines, "        esac ;;", "    esac", "}", "", '_shardscrub "$@"', ""])


def fish(commands):
    names = " ".join([*(one.name for one in commands), "help"])
    without = " ".join(one.name for one in commands if not one.images)
    lines = [MADE.format("fish"), f"set -l commands {names}",
             'set -l none "not __fish_seen_subcommand_from $commands"',
             "complete -c shardscrub -s h -l help -d 'Print help'",
             'complete -c shardscrub -n "$none" -f -s V -l version -d \'Print version\'']
    lines += [f'complete -c shardscrub -n "$none" -f -a {one.name} -d {quoted(one.about)}' for one in commands]
    lines += ['complete -c shardscrub -n "$none" -f -a help -d \'Prints the help of a command\'',
              "complete -c shardscrub -n '__fish_seen_subcommand_from help' -f -a \"$commands\"",
              f"complete -c shardscrub -n '__fish_seen_subcommand_from {without}' -f"]
    how = {"--page": f"-x -a '{SIZES_OF_PAGES}' ", "--map": "-r -F "}
    for one in commands:
        lines += [f"complete -c shardscrub -n '__fish_seen_subcommand_from {one.name}' {how.get(option.name, '-x ' * (option.value != ''))}"
                  f"-l {option.name[2:]} -d {quoted(option.about)}" for option in one.options]
    return "\n".join([*lines, ""])
