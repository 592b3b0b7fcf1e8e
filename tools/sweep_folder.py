"""The files of a sweep's runs."""
import os


def run_path(folder, number, ending):
    return os.path.join(folder, 'runs', '%05d%s' % (number, ending))


def write_whole(path, text):
    """A file that is there is whole, whenever the sweep is broken off, and also where two write the same."""
    part = '%s.%d.part' % (path, os.getpid())
    with open(part, 'w') as file:
        file.write(text)
    os.replace(part, path)


def keep_run(folder, number, document, trace):
    """Writes a run: the document where it isn't there, and then the trace."""
    path = run_path(folder, number, '.json')
    if not os.path.exists(path):
        write_whole(path, document)
    write_whole(run_path(folder, number, '.trace'), trace)
