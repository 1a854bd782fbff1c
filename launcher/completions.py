"""The completions of deolmutt.

The first word is a command. After it come the command's options, maildirs, which are folders, and keys, which may be paths of messages; or
the number of a run of a script, or a log.
"""

PROGRAM = 'deolmutt'
MADE = f'of {PROGRAM}, made by launcher/make-pages from launcher/words.txt'


def quoted(text):
    """A word for bash and zsh."""
    return "'" + text.replace("'", "'\\''") + "'"


def described(pairs):
    """Words with their texts, a line each, as zsh lists them."""
    return [f"        {quoted(f'{word}:{text}')}" for word, text in pairs]


def fish_quoted(text):
    return "'" + text.replace('\\', '\\\\').replace("'", "\\'") + "'"


def fish_options(options, is_first):
    """A line for each option. It comes in place of a command, but for help, which each command takes too."""
    for row in options:
        short, long = (word.lstrip('-') for word in row.word.split(', '))
        when = '' if long == 'help' else f"-n '{is_first}' "
        yield f'complete -c {PROGRAM} {when}-s {short} -l {long} -d {fish_quoted(row.text)}'


def takes(row, argument):
    """Whether an argument, by its name, stands after a command."""
    return argument in row.argument.replace('...', '').split()


def option_of(row):
    """The option that a row of kind `option` is about."""
    return row.word.split()[1]


def options_of(table, command):
    """The rows of a command's options."""
    return [row for row in table.all_options if row.word.split()[0] == command.word]


def first_words(table):
    return [row.word for row in table.all_commands] + [word for word, _ in table.option_words()]


def bash_options(table, helps):
    """What completes a word that begins with a dash, by the command."""
    cases = []
    for row in table.all:
        found = [option_of(it) for it in options_of(table, row)]
        if found:
            cases.append(f"            {row.word}) choices='{' '.join([*found, *helps])}' ;;")
    return [*cases, f"            *) choices='{' '.join(helps)}' ;;"]


def bash_completions(table):
    """Words are completed by their place: folders where a maildir stands, and files where keys do and after a redirection."""
    with_values = ' | '.join(option_of(row) for row in table.all_options if row.argument)
    folders = ' | '.join([*(f'2/{row.word}' for row in table.all if takes(row, 'KEY')),
                          *(f'3/{row.word}' for row in table.all if takes(row, 'TO')),
                          *(f'*/{row.word}' for row in table.all if takes(row, 'BOX') and not takes(row, 'KEY'))])
    numbers = [f'            2/{row.word}) choices="$(echo {{{row.range}}})" ;;' for row in table.all if row.range]
    return [
        f'# Completions for bash {MADE}.',
        '',
        f'_{PROGRAM}() {{',
        "    local word=${COMP_WORDS[COMP_CWORD]} before=${COMP_WORDS[COMP_CWORD - 1]} command=${COMP_WORDS[1]-} choices=''",
        '    COMPREPLY=()',
        '    if ((COMP_CWORD == 1)); then',
        f"        choices='{' '.join(first_words(table))}'",
        '    elif [[ $before == [\\<\\>]* ]]; then',
        '        compopt -o default 2>/dev/null',
        '    elif [[ $word == -* ]]; then',
        '        case $command in',
        *bash_options(table, table.help_words()),
        '        esac',
        '    elif [[ $command == help ]]; then',
        f"        ((COMP_CWORD == 2)) && choices='{' '.join(row.word for row in table.all)}'",
        '    else',
        '        case $before in',
        f'            {with_values} | =) return 0 ;;',
        '        esac',
        '        case $COMP_CWORD/$command in',
        f'            {folders}) compopt -o dirnames 2>/dev/null ;;',
        *numbers,
        '            *) compopt -o default 2>/dev/null ;;',
        '        esac',
        '    fi',
        '    COMPREPLY=($(compgen -W "$choices" -- "$word"))',
        '}',
        '',
        f'complete -F _{PROGRAM} {PROGRAM}',
    ]


def zsh_option(row):
    explained = f'[{row.text}]'
    return quoted(f'{option_of(row)}={explained}:{row.argument}: ' if row.argument else f'{option_of(row)}{explained}')


# What completes an argument.
ZSH_PLACES = {'BOX': "'1:BOX:_directories'", 'TO': "'2:TO:_directories'", 'KEY': "'*:KEY:_files'", '[FILE]': "'1:FILE:_files'"}


def zsh_command(table, row):
    words = ['$helps', *map(zsh_option, options_of(table, row))]
    if row.range:
        first, last = map(int, row.range.split('..'))
        words.append(f"'1:{row.argument}:({' '.join(map(str, range(first, last + 1)))})'")
    words += [what for argument, what in ZSH_PLACES.items() if takes(row, argument)]
    return f"        {row.word}) _arguments {' '.join(words)} ;;"


def zsh_completions(table):
    short, long = table.help_words()
    of_help = dict(table.option_words())[long]
    return [
        f'#compdef {PROGRAM}',
        f'# Completions for zsh {MADE}.',
        '',
        f'_{PROGRAM}() {{',
        '    local -a commands options helps',
        '    local command=$words[2]',
        '    commands=(',
        *described((row.word, row.text) for row in table.all_commands),
        '    )',
        '    options=(',
        *described(table.option_words()),
        '    )',
        f"    helps=({quoted(f'({short} {long}){short}[{of_help}]')} {quoted(f'({short} {long}){long}[{of_help}]')})",
        '    if ((CURRENT == 2)); then',
        "        _describe -t commands 'command' commands",
        "        _describe -o -t options 'option' options",
        '        return',
        '    fi',
        '    shift words',
        '    ((CURRENT--))',
        '    case $command in',
        *(zsh_command(table, row) for row in table.all),
        f"        help) ((CURRENT == 2)) && compadd -V commands -- {' '.join(row.word for row in table.all)} ;;",
        '    esac',
        '}',
        '',
        f'_{PROGRAM} "$@"',
    ]


def fish_options_of_commands(table):
    for row in table.all_options:
        command, option = row.word.split()
        value = '-x ' * bool(row.argument)
        yield f"complete -c {PROGRAM} -n '{fish_after(command)}' -l {option[2:]} {value}-d {fish_quoted(row.text)}"


def fish_place(compared):
    """Whether the number of words in front of the one that is completed is as compared."""
    return f'test (count (commandline -opc)) {compared}'


def fish_after(*commands):
    """Whether the command is one of these."""
    return f"contains -- (commandline -opc)[2] {' '.join(commands)}"


def fish_paths(table):
    """Folders where a maildir stands, and files where keys do."""
    two = [row.word for row in table.all if takes(row, 'TO')]
    keys = [row.word for row in table.all if takes(row, 'KEY') and row.word not in two]
    others = [row.word for row in table.all if takes(row, 'BOX') and not takes(row, 'KEY')]
    folders = "-a '(__fish_complete_directories (commandline -ct))'"
    every = [row.word for row in table.all if takes(row, 'BOX')]
    places = (
        ('-eq 2', every, folders),
        ('-ge 3', others, folders),
        ('-eq 3', two, folders),
        ('-ge 3', keys, '-F'),
        ('-ge 4', two, '-F'),
        ('-ge 2', [row.word for row in table.all if takes(row, '[FILE]')], '-F'),
    )
    for compared, commands, what in places:
        yield f"complete -c {PROGRAM} -n '{fish_place(compared)}; and {fish_after(*commands)}' {what}"
    for row in table.all:
        if row.range:
            first, last = row.range.split('..')
            yield f"complete -c {PROGRAM} -n '{fish_place('-eq 2')}; and {fish_after(row.word)}' -k -a '(seq {first} {last})'"


def fish_completions(table):
    lines = [f'# Completions for fish {MADE}.', '', f'complete -c {PROGRAM} -f']
    for row in table.all_commands:
        lines.append(f"complete -c {PROGRAM} -n '{fish_place('-eq 1')}' -a {row.word} -d {fish_quoted(row.text)}")
    lines += [*fish_options(table.options, fish_place('-eq 1')), *fish_options_of_commands(table), *fish_paths(table)]
    commands = fish_quoted(' '.join(row.word for row in table.all))
    return [*lines, f"complete -c {PROGRAM} -n '{fish_place('-eq 2')}; and {fish_after('help')}' -k -a {commands}"]


def completions(table):
    """The lines of each file of completions, by its name."""
    return {
        f'{PROGRAM}.bash': bash_completions(table),
        f'_{PROGRAM}': zsh_completions(table),
        f'{PROGRAM}.fish': fish_completions(table),
    }
