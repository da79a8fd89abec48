"""The completion of words for bash."""
from carp_package.usage import Help, Verb

HEAD = """# Completes the words of carp and of its tools. Names of files are completed where no word fits.
_carp() {
  local call=${COMP_WORDS[0]##*/} words=
  local word=${COMP_WORDS[COMP_CWORD]} before=${COMP_WORDS[COMP_CWORD-1]}
  if [ "$call" = carp ] && [ "$COMP_CWORD" -gt 1 ]; then
    call="carp ${COMP_WORDS[1]}"
  fi
"""
TAIL = """  mapfile -t COMPREPLY < <(compgen -W "$words" -- "$word")
}
"""


def case(word: str, rows: list[tuple[str, list[str]]]) -> list[str]:
    """Returns the lines that choose the words of the first row whose pattern fits."""
    return [f'  case "{word}" in', *(f"    {pattern}) words='{' '.join(words)}' ;;" for pattern, words in rows), "  esac"]


def completion(verbs: list[Verb], tools: dict[str, Help]) -> str:
    """Returns the completion of the program with these verbs, and of the tools."""
    rows = [("carp:*", [verb.name for verb in verbs])]
    rows += [(f"'carp {verb.name}':-*", verb.options) for verb in verbs if verb.options]
    rows += [(f"carp-{name}:-*", [*tool.options, "--version"]) for name, tool in tools.items()]
    choices = [
        (f"carp-{name}:{option}", words) for name, tool in tools.items() for option, words in tool.choices.items()
    ]
    lines = [*case("$call:$word", rows), *(case("$call:$before", choices) if choices else [])]
    commands = " ".join(["carp", *(f"carp-{name}" for name in tools)])
    return HEAD + "\n".join(lines) + "\n" + TAIL + f"complete -o bashdefault -o default -F _carp {commands}\n"
