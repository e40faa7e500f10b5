"""The command line. Exit status: 0 for yes, or done; 1 for no; 2 for what is refused, cannot be read or written, or is a usage error."""

import argparse
import contextlib
import io
import os
import re
import signal
import sys

import sakonite
from sakonite import Refused

from .contents import order_note, sort
from .files import NO, REFUSED, YES, Bad, called, create, naming, put_into, put_out, read, rewrite, same
from .jobs import job_of
from .pack import is_text, pack
from .plays import play
from .streams import all_written, note, output_lost, prepare
from .unpack import tree, unpack
from .verdicts import Progress, verdicts
from .why import Search, choices, first_faults, line_of, one_play, open_elements, outside, refusal, remedies
from .workers import MOST_WORKERS


def warn_of_order(name, job):
    message = order_note(job)
    if message:
        note(name, f'note: {message}')


# ---- the commands

def run_verdict(options):
    return verdicts(options.files, options.jobs, options.csv)


def run_why(options):
    name = called(options.file)
    job, origins = job_of(read(options.file))
    try:
        won = sakonite.verdict(job)
    except Refused as refused:
        print(*refusal(name, job, origins, refused.number), sep='\n')
        return REFUSED
    record = sakonite.record(job)
    if not open_elements(record) and won:
        print(f'{name}: yes: nothing is open, and as it stands the record is in deposit form')
        return YES
    if not open_elements(record):
        print(f'{name}: no: nothing is open, and as it stands the record is outside the deposit form:', *outside(job, record), sep='\n')
        return NO
    if won:
        print(f'{name}: yes: whatever the partners reply, the record can be brought into deposit form')
        lines, more = choices(job, options.levels)
        print('The first choices, and what each reply leads to:', *lines, sep='\n')
        print('Each reply shown is the shortest of those that lead the deposit form to one state, and stands for all of them.')
        if more:
            print(more)
        return YES
    print(f'{name}: no: whatever you do, there are replies that lead the record outside the deposit form')
    progress = Progress('tried')
    search = Search(job, options.tries, progress.at)
    for line in one_play(search):
        print(line, flush=True)
    for line in remedies(search, origins):
        progress.clear()
        print(line)
    return NO


def run_play(options):
    if options.file == '-' and options.script is None:
        raise Bad('a job from standard input needs a SCRIPT: the moves cannot come from there too')
    if options.file == '-' and options.script == '-':
        raise Bad('the job and the SCRIPT cannot both be standard input')
    job, _ = job_of(read(options.file))
    sakonite.check(job)
    if options.script is None or options.script == '-':
        script = None if sys.stdin.isatty() else sys.stdin
        echo = options.script == '-' and script is not None    # what is typed at a terminal is seen there already
        return YES if play(job, script, called('-'), echo) else NO
    with open(options.script, encoding='utf-8-sig', errors='surrogateescape') as script:
        return YES if play(job, script, options.script, True) else NO


def run_pack(options):
    name = called(options.text)
    job, origins = pack(read(options.text))
    found, more = first_faults(job, origins)
    for fault, message in found:
        note(name, f'warning: this will be refused ({fault.number}): {message}', line=line_of(origins, fault.byte))
    if more:
        note(name, f'warning: and {more:,} more')
    if options.job == '-':
        put_out(job)
    else:
        # what was written by hand must not be lost to a slip
        put_into(options.job, job, lambda old: old[:2] in (b'', job[:2]))
    return YES


def run_unpack(options):
    job = job_file(options.job)
    text = unpack(job)
    warn_of_order(called(options.job), job)
    if options.text == '-':
        put_out(text)
    else:
        create(options.text, text)
    return YES


def job_file(path):
    """The bytes of what is to be a job file."""
    data = read(path)
    if is_text(data):
        raise Bad("this is a text, not a job file; 'sakonite pack' makes a job file of it")
    return data


def run_tree(options):
    job, _ = job_of(read(options.file))
    shown = tree(job)
    warn_of_order(called(options.file), job)
    put_out(shown)
    return YES


def run_sort(options):
    old, new = options.job, options.new
    # in place also where NEW is JOB under another name
    if old != '-' and new != '-' and (new is None or same(old, new)):
        if os.path.exists(old) and not os.path.isfile(old) and not os.path.isdir(old):
            raise Bad('only a regular file can be sorted in place')
        data = job_file(old)
        result = sort(data)
        if result != data:
            rewrite(new or old, result)
    elif new in (None, '-'):
        put_out(sort(job_file(old)))
    else:
        create(new, sort(job_file(old)))   # who names two jobs to be sorted must not lose the second
    return YES


# ---- the command line

def positive(word):
    digits = word.lstrip('0')
    if not re.fullmatch('[0-9]+', digits):
        raise argparse.ArgumentTypeError(f"expected a number of 1 or more, not '{word[:40]}'")
    return int(digits[:18])    # none is counted so far


DESCRIPTION = 'Can this dating record still be brought into deposit form, whatever the partners reply?'
EPILOG = ('- stands for standard input or output. Exit status: 0 for yes, or done; 1 for no; 2 if something is refused or cannot be read '
          'or written, and for usage errors; 130 if interrupted. `sakonite COMMAND --help` says more.')
EITHER = 'a job file, or a text that pack would take; - is standard input'


def parser():
    top = argparse.ArgumentParser(prog='sakonite', description=DESCRIPTION, epilog=EPILOG)
    top.add_argument('--version', action='version', version=f'sakonite {sakonite.VERSION}')
    commands = top.add_subparsers(dest='command', metavar='COMMAND', required=True)

    def command(name, run, about, summary, more=''):
        """A command, what runs it, and the argument with the file that it is about."""
        new = commands.add_parser(name, help=summary, description=f'{summary[0].upper()}{summary[1:]}. {more}')
        new.set_defaults(run=run, about=about)
        return new

    new = command('verdict', run_verdict, None, 'tells whether the answer is yes or no, for each file',
                  'Several files get a line each, and a count at the end. The exit status is 2 if a file is refused or cannot be read, '
                  'else 1 if an answer is no.')
    new.add_argument('files', nargs='+', metavar='FILE',
                     help=f'{EITHER}; a folder stands for all files in it, and in folders within, that end in .job')
    new.add_argument('-j', dest='jobs', type=positive, default=1, metavar='N',
                     help=f'judge N files at a time, for as many processors, {MOST_WORKERS} at most')
    new.add_argument('--csv', action='store_true', help='a table for other programs: file, verdict, number, reason')
    new = command('why', run_why, 'file', 'shows what is behind an answer',
                  'For a refused file: what is wrong, and where. For a no: a play that ends outside the form, and which open elements '
                  'would turn it to yes if you filled them in yourself. For a yes: the first choices, and what each reply leads to.')
    new.add_argument('file', metavar='FILE', help=EITHER)
    new.add_argument('--levels', type=positive, default=3, metavar='N', help='for a yes, show N choices in a row (%(default)s)')
    new.add_argument('--tries', type=positive, default=5000, metavar='N', help='for a no, try at most N fillings (%(default)s)')
    new = command('play', run_play, 'file', 'plays a record with advice, move by move',
                  "Type 'help' for the commands. The exit status is 0 if the record ends in deposit form, and 1 if not.")
    new.add_argument('file', metavar='FILE', help=EITHER)
    new.add_argument('script', nargs='?', metavar='SCRIPT', help='a file with the moves, in which # starts a comment line')
    new = command('pack', run_pack, 'text', 'packs a text into a job file',
                  'What will be refused gets a warning, and is packed anyway.')
    new.add_argument('text', metavar='TEXT', help='the text; - is standard input')
    new.add_argument('job', metavar='JOB', help='the job file to write; - is standard output')
    new = command('unpack', run_unpack, 'job', 'turns a job file into text')
    new.add_argument('job', metavar='JOB', help='the job file; - is standard input')
    new.add_argument('text', nargs='?', default='-', metavar='TEXT',
                     help='the text to write, which must not exist yet; standard output if none is named')
    new = command('tree', run_tree, 'file', 'shows a record as an indented tree of names')
    new.add_argument('file', metavar='FILE', help=EITHER)
    new = command('sort', run_sort, 'job', "puts a job file's entries in the order that the loader asks for")
    new.add_argument('job', metavar='JOB', help='the job file, rewritten in place if no NEW is named; - is standard input')
    new.add_argument('new', nargs='?', metavar='NEW', help='another file to write, which must not exist yet; - is standard output')
    return top


def parsed(args):
    """What is asked for. Where argparse says all that there is to say, its exit status is the answer."""
    said = io.StringIO()       # argparse takes no notice of what cannot be written
    try:
        with contextlib.redirect_stdout(said):
            return parser().parse_args(args)
    except SystemExit as ended:
        status = ended.code

    def tell(_):
        sys.stdout.write(said.getvalue())
        return status

    return argparse.Namespace(about=None, run=tell)


def answered(args):
    """The exit status, if all that is said can be written."""
    name = 'sakonite'
    try:
        options = parsed(args)
        name = called(getattr(options, options.about)) if options.about else name
        return options.run(options)
    except Bad as bad:
        note(name, bad.message, line=bad.line, byte=bad.byte)
    except Refused as refused:
        note(name, str(refused))
    except sakonite.NoLibrary as error:
        note('sakonite', str(error))
    except MemoryError:
        note('sakonite', 'out of memory')
    except OSError as error:
        if error.filename is None:     # what is read or written elsewhere has its name
            output_lost(error)
        else:
            note(error.filename, error.strerror)
    except KeyboardInterrupt:
        return 128 + signal.SIGINT
    return REFUSED


def main(args=None):
    prepare()
    status = answered(args)
    return status if all_written() else max(status, REFUSED)
