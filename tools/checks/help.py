"""The texts of help, the words that the program takes, and the man page and completions made of both."""
import re

from checks.repository import ROOT, text_of

RUN = ROOT / "crates" / "icb_run" / "src"
WORDS = ROOT / "crates" / "icb_words" / "src"
TEXT = re.compile(r'pub const HELP: &str = "\\\n(.*?)";', re.S)
# an arm of read_words: the command, and the call that reads its words
COMMAND = re.compile(r'"([a-z-]+)" => read_(\w+)\(')
READER = re.compile(r"fn read_(\w+)\(.*?\n}\n", re.S)
TABLE = re.compile(r"OptionTable::(\w+)")
ROW = re.compile(r'((?:"--[\w-]+" \| )*"--[\w-]+") => (?:Some\(ValueForm::(\w+)\)|(within)\((\d+), (\d+)\))')
NEXT = re.compile(r"_ => (\w+)\(name\)")
ITEM = re.compile(r"  (--[\w-]+(?: [A-Z][A-Z,]*)?|[A-Z]+)(?: +(\S.*))?$")


def usages(block):
    """The lines of each command's usage, by its name."""
    found = {}
    for line in block.split("\n"):
        line = line.removeprefix("usage: ").removeprefix("       ")
        name = re.match(r"iceberg (\S+)", line)
        if name:
            found[name[1]] = [line]
        else:
            found[[*found][-1]].append(line)
    return found


def texts():
    """What help says of each command: the lines of its usage, and the paragraphs behind them."""
    usage, *rest = parts(TEXT.search(text_of(RUN / "texts.rt"))[1])
    found = {name: [lines] for name, lines in usages("\n".join(usage)).items()}
    name = None
    for part in rest:
        name = part[0].split()[0] if part[0].split()[0] in found else name
        found[name].append(part)
    return {name: said for name, said in found.items() if name not in ("--help", "--version")}


def forms(function, source):
    """The options of one function of the tables, each with the form of its value."""
    body = re.search(rf"^fn {function}\(.*?^}}$", source, re.M | re.S)[0]
    found = {}
    for names, form, within, low, high in ROW.findall(body):
        for name in re.findall(r"--[\w-]+", names):
            found[name] = f"{low}..{high}" if within else form
    for more in NEXT.findall(body):
        found.update(forms(more, source))
    return found


def commands():
    """The options of each command as the program reads them, each with the form of its value."""
    source = text_of(WORDS / "option_tables.rt")
    functions = dict(re.findall(r"OptionTable::(\w+) => (\w+)\(name\)", source))
    readers = {name: it[0] for path in sorted(WORDS.glob("*.rt")) for it in READER.finditer(text_of(path)) for name in [it[1]]}
    found = {}
    for command, reader in COMMAND.findall(text_of(WORDS / "words.rt")):
        table = TABLE.search(readers[reader])[1]
        found[command] = forms(functions[table], source) if table in functions else {}
    return found


def parts(text):
    """The paragraphs of a text, each as its lines."""
    return [part.split("\n") for part in text.rstrip("\n").split("\n\n")]


def items(lines):
    """The words of a list of words and options, each with what is said of it."""
    found = []
    for line in lines:
        item = ITEM.match(line)
        if item:
            found.append([item[1], item[2] or ""])
        elif found:
            found[-1][1] = f"{found[-1][1]} {line.strip()}".strip()
    return found


def is_list(lines):
    return bool(ITEM.match(lines[0]))


def roff(text):
    """A text as roff takes it."""
    text = text.replace("\\", "\\e").replace("-", "\\-")
    return "\n".join("\\&" + line if line[:1] in (".", "'") else line for line in text.split("\n"))


def literal(lines):
    """Lines that stay as they are."""
    return [".nf", *(roff(line) for line in lines), ".fi"]


def paragraph(lines):
    """A paragraph of a text in roff."""
    if is_list(lines):
        return [line for word, said in items(lines) for line in (".TP", f".B {roff(word)}", roff(said))]
    return [".PP", roff("\n".join(lines))]


def man_page():
    said, names = texts(), commands()
    lines = ['.\\" Made by tools/make_help.', '.TH ICEBERG 1 "" "iceberg" "User Commands"', ".SH NAME"]
    lines += ["iceberg \\- keeps tables with encrypted rows", ".SH SYNOPSIS"]
    lines += literal([line for name in names for line in said[name][0]] + ["iceberg --help", "iceberg --version"])
    lines += [".SH DESCRIPTION"]
    for name in names:
        usage, *more = said[name]
        lines += [f".SS {roff(name)}", *literal(usage), *(line for part in more for line in paragraph(part))]
    lines += [".SH EXIT STATUS", "0 where a command did all of its work. Any other number comes with a line on the error stream."]
    lines += ["The page docs/STATUSES.md has each number and line, docs/RECIPES.md examples."]
    return "\n".join(lines) + "\n"


def bash_completion():
    names = commands()
    cases = [f"        {name}) options=\"{' '.join(options)}\" ;;" for name, options in names.items() if options]
    return f"""# Completion of iceberg for bash. Made by tools/make_help. Use: source docs/iceberg.bash
_iceberg() {{
    local word="${{COMP_WORDS[COMP_CWORD]}}" before="${{COMP_WORDS[COMP_CWORD - 1]}}" options=""
    COMPREPLY=()
    if [ "$COMP_CWORD" -eq 1 ]; then
        COMPREPLY=($(compgen -W "{' '.join(names)} --help --version" -- "$word"))
        return
    fi
    case "${{COMP_WORDS[1]}}" in
        --*) return ;;
{chr(10).join(cases)}
    esac
    case "$before" in
        --keys | --metadata) COMPREPLY=($(compgen -f -- "$word")) ;;
        --key-bytes) COMPREPLY=($(compgen -W "16 24 32" -- "$word")) ;;
        --*) ;;
        *)
            if [ "$COMP_CWORD" -eq 2 ]; then
                COMPREPLY=($(compgen -d -- "$word"))
            else
                COMPREPLY=($(compgen -W "$options" -- "$word"))
            fi
            ;;
    esac
}}
complete -o filenames -F _iceberg iceberg
"""


def about_option(said, option):
    """What the paragraphs of a command say of an option."""
    lists = [items(part) for part in said if is_list(part)]
    return next((text for found in lists for word, text in found if word.split()[0] == option), "")


def zsh_option(said, option, form):
    """An option for zsh, with the beginning of what is said of it, and what may stand behind it."""
    said = re.split("[],:;[]", about_option(said, option))[0].strip().replace("'", "'\\''")
    value = ":file:_files" if option in ("--keys", "--metadata") else ":bytes:(16 24 32)" if form == "KeyBytes" else ":value:"
    return f"'{option}[{said}]{value}'"


def zsh_completion():
    said, names = texts(), commands()
    lines = ["#compdef iceberg", "# Completion of iceberg for zsh. Made by tools/make_help. Use: put it into a folder of fpath."]
    lines += ["_iceberg() {", "    if ((CURRENT == 2)); then", f"        compadd {' '.join(names)} --help --version", "        return"]
    lines += ["    fi", "    case $words[2] in"]
    for name, options in names.items():
        more = [zsh_option(said[name], option, form) for option, form in options.items()]
        places = ["':command:'", "':table:_files -/'"] + ["':path:'"] * ("PATH" in said[name][0][0])
        lines += [f"        {name})", "            _arguments \\"]
        lines += [f"                {it} \\" for it in [*places, *more][:-1]] + [f"                {[*places, *more][-1]}", "            ;;"]
    return "\n".join([*lines, "    esac", "}", '_iceberg "$@"', ""])


def made():
    """The made files of docs/, by their names."""
    return {"iceberg.1": man_page(), "iceberg.bash": bash_completion(), "_iceberg": zsh_completion()}


def faults():
    """What differs between the words that the program takes, its help, and the files that are made of both."""
    found, said, names = [], texts(), commands()
    for name in sorted({*said} ^ {*names}):
        found.append(f"texts.rt: {name} is a command without help, or help of no command")
    for name in [it for it in names if it in said]:
        usage = " ".join(said[name][0])
        listed = [word.split()[0] for part in said[name] if is_list(part) for word, _ in items(part)]
        for option in sorted({it for it in listed if it.startswith("--")} ^ {*names[name]}):
            found.append(f"texts.rt: {name} takes {option} and its help doesn't list it, or the other way round")
        for option in [it for it in names[name] if not re.search(rf"[ \[]{it} ", usage)]:
            found.append(f"texts.rt: the usage of {name} lacks {option}")
    for name, text in ({} if found else made()).items():
        path = ROOT / "docs" / name
        if not path.exists() or path.read_text(encoding="utf-8") != text:
            found.append(f"docs/{name}: not as tools/make_help makes it")
    return found
