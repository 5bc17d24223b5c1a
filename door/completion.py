"""Completion for bash, from the same tables as the help."""
import re

from door import table

HEAD = """# Completion of the words of osp. Files are completed by bash.
_osp() {
  local current=${COMP_WORDS[COMP_CWORD]} before=${COMP_WORDS[COMP_CWORD - 1]} offered=
  COMPREPLY=()
  case $COMP_CWORD/${COMP_WORDS[1]}/$before in
"""
MIDDLE = """    *)
      # Else options where one is begun, and files.
      [[ $current != -* ]] || _osp_options "${COMP_WORDS[1]}"
      ;;
  esac
  mapfile -t COMPREPLY < <(compgen -W "$offered" -- "$current")
}
_osp_options() {
  case $1 in
"""
END = """  esac
}
complete -o default -F _osp osp ./osp
"""


def options_of(name):
    """The options that may stand behind a first word, of which a command and a helper may have a row each."""
    rows = [it for it in (*table.COMMANDS, *table.HELPERS) if table.first(it) == name]
    return list(dict.fromkeys(option for it in rows for option in re.findall("--[a-z]*", it[0].partition(" ")[2])))


def value_row(words):
    """What may stand behind an option, perhaps of one command: its one word, or a number that nobody can guess."""
    behind, _, value = words.rpartition(" ")
    does = f"offered='{value}'" if value[0].islower() else "compopt +o default 2> /dev/null"
    return f"    */{behind.replace(' ', '/')}) {does} ;;\n"


def completion_text():
    """The whole script."""
    words = list(dict.fromkeys(map(table.first, (*table.COMMANDS, *table.HELPERS))))
    firsts = " ".join([*words, *map(table.first, table.OWN)])
    values = "".join(value_row(it[0]) for it in table.VALUES if "--" in it[0])
    offered = "".join(f"    {it}) offered='{' '.join([*options_of(it), '-o'])}' ;;\n" for it in words)
    return f"{HEAD}    1/*) offered='{firsts}' ;;\n    */-o) ;;\n{values}{MIDDLE}{offered}{END}"
