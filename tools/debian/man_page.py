"""A tool's own help as a man page."""
import re

HEAD = '.TH %s 1 "%s" "kube_replay %s" "User Commands"\n.SH NAME\n%s \\- %s\n'


def escaped(text):
    text = text.replace('\\', '\\e').replace('-', '\\-').replace("'", '\\(aq').replace('`', '\\(ga').replace('^', '\\(ha').replace('~', '\\(ti')
    return '\\&' + text if text.startswith(('.', '\\(aq')) else text


def verbatim(lines):
    return ['.PP', '.in +4n', '.EX', *[escaped(line) for line in lines], '.EE', '.in']


def usage(name, text):
    """The lines of a usage, where each option is kept together with its value. A plugin is called by two words."""
    called = next((each for each in (name, name.replace('-', ' ')) if text.startswith(each + ' ')), text.split()[0])
    words = re.findall(r'\[[^\]]*\](?: \.\.\.\])?|\S+', ' '.join(text.removeprefix(called).split()))
    return ['.SY "%s"' % escaped(called if ' ' in called else name), *[escaped(word).replace(' ', '\\~').replace(',', ',\\:') for word in words], '.YS']


def description(text):
    """Paragraphs are filled, and blocks that are indented stay as they are."""
    made = []
    for block in re.split(r'\n\s*\n', text.strip('\n')):
        lines = block.split('\n')
        if all(line.startswith('    ') for line in lines):
            made += verbatim([line[4:] for line in lines])
        else:
            made += ['.PP', *[escaped(line.strip()) for line in lines]]
    return made


def options(text):
    """Entries with two blanks before them, and their words, which may go on for some lines."""
    made = []
    for line in text.split('\n'):
        entry = re.match(r'  (\S.*?)(?:\s{2,}(.*))?$', line)
        if entry:
            made += ['.TP', '.B ' + escaped(entry[1])]
        told = entry[2] if entry else line.strip()
        if told:
            made.append(escaped(told))
    return made


def sections_of(text):
    """The parts of a help as argparse writes it: usage, description, and those with a heading, which has options or words without one."""
    head, *parts = re.split(r'^(positional arguments|options):\n', text, maxsplit=1, flags=re.M)
    used, _, told = head.partition('\n\n')
    split = re.split(r'^(\S[^\n]*):\n', ''.join(parts[1:]), flags=re.M)
    return used.removeprefix('usage: '), told, [(None, split[0]), *zip(split[1::2], split[2::2])]


def heading(text):
    return [] if text in (None, 'positional arguments', 'options') else ['.SS ' + escaped(text[0].upper() + text[1:])]


def man_page(name, title, date, version, helps):
    """The page of a tool from its helps: its own, and those of its commands whose options are told too."""
    made = []
    for number, (section, text) in enumerate(helps):
        used, told, parts = sections_of(text)
        if number == 0:
            made += ['.SH SYNOPSIS', *usage(name, used), '.SH DESCRIPTION', *description(told)]
        made += ['.SH %s' % section]
        for above, lines in parts:
            made += heading(above) + options(lines)
    made += ['.SH SEE ALSO', '.BR kube_replay (1)']
    return HEAD % (name.upper(), date, version, name, title) + '\n'.join(made) + '\n'
