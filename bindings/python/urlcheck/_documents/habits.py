"""Options of other tools, by their names, and what to write here instead."""

from typing import Optional

_NO_FETCH = "no link is fetched: only how it is written is checked"

_HABITS = (
    ("--fix-only --write -w", "--fix mends the links for which a text is offered"),
    ("--dry-run --fix-dry-run", "--diff shows what --fix would write"),
    ("--extend-select --rule", "--select RULES reports violations of these rules only"),
    ("--extend-ignore --disable", "--ignore RULES leaves out violations of these rules"),
    ("--ignore-pattern --ignore-url --ignore-urls", "--ignore FILE leaves out links by regular expressions"),
    ("--include --skip", "--exclude PATTERN leaves out files and folders"),
    ("-r -R --recursive", "a folder is read with all folders in it"),
    ("--output-format --reporter --formatter", "write --format FORMAT"),
    ("--json", "write --format json"),
    ("--sarif", "write --format sarif"),
    ("--colour --no-color --no-colour --colors --colours", "--color WHEN takes auto, always and never"),
    ("-v --verbose", "--format caret shows each link, and --version the version"),
    ("--debug --explain --show-source", "--format caret shows each link; urlcheck explain RULE explains a rule"),
    ("-s --silent", "--quiet leaves out the counts"),
    ("-o --output-file", "write --output FILE"),
    ("--stats --count --summary", "write --statistics"),
    ("--no-fail", "write --exit-zero"),
    ("--max-warnings --severity --minAlertLevel", "each refused link is an error"),
    ("-j --threads --parallel", "write --jobs N"),
    ("--watch", "the language server checks while a document is edited"),
    ("--cache --no-cache", "each run reads all, and needs no cache"),
    ("-c --config --rcfile", "a configuration is found by its name: .urlcheck.toml or pyproject.toml"),
    ("--isolated --norc", "write --no-config"),
    ("--timeout --offline --online --retries --max-retries --max-redirects --recursion-level", _NO_FETCH),
    ("--user-agent --method --insecure --accept --check-extern --disable-external --external", _NO_FETCH),
    ("--wide", "write --profile wide"),
    ("--strict", "the standard profile is the strictest, and the one without --profile"),
    ("--list-rules --show-rules --rules", "urlcheck explain explains every rule"),
    ("--all", "pipe the links, which --list prints, into urlcheck lint --located --all -"),
    ("--base-url", "--base URL is what relative links are resolved against"),
    ("--stdin", "- in place of a document's name is standard input"),
    ("--stdin-filename --stdin-display-name", "--stdin-name NAME names standard input"),
)


def habit(option: str) -> Optional[str]:
    """What to write in place of an option that other tools take, and this command doesn't, if that is known."""
    return next((said for names, said in _HABITS if option in names.split()), None)
