"""The modules of the oracle that are started by a name: oracle/model NAME WORD.."""
import importlib
import sys

from oracle.c0.tokens import NoTree

MODULES = {'c0': 'oracle.c0.said', 'c0_checks': 'oracle.c0.checks', 'c0_stack': 'oracle.c0.stack', 'c0_words': 'oracle.c0.code', 'c0_code': 'oracle.c0.emit',
           'c0_compared': 'oracle.c0.compared', 'c0_ran': 'oracle.c0.ran',
           'systems': 'oracle.systems', 'boot': 'oracle.run', 'programs': 'oracle.programs', 'saved': 'oracle.saved',
           'fault': 'oracle.layer.fault', 'frames': 'oracle.layer.frames', 'paging': 'oracle.layer.paging', 'rom': 'oracle.layer.rom'}
WRITERS = ('bounds', 'checks', 'examples', 'exercises', 'lines', 'programs', 'roms', 'rows', 'saved_runs', 'saves', 'systems', 'traces', 'unix')
MODULES.update({'write_' + name: 'oracle.generate.' + name for name in WRITERS})


def usage(module):
    return 'usage: ' + module.__doc__.partition('usage: ')[2].partition('\n\n')[0]


def failed(why, status):
    print('oracle/model: %s' % why, file=sys.stderr)
    return status


def main(words):
    """Runs a module's main function with the words behind its name. Gives 64 where the words are none of it, and 70 where its work fails."""
    if not words or words[0] not in MODULES:
        return failed('NAME is one of: %s' % ' '.join(MODULES), 64)
    module = importlib.import_module(MODULES[words[0]])
    least = getattr(module, 'LEAST_WORDS', 1)
    if len(words) - 1 < least:
        return failed('%s needs %d words or more. %s' % (words[0], least, usage(module)), 64)
    sys.setrecursionlimit(100000)
    try:
        return module.main(words[1:])
    except NoTree as none:
        return failed('a source has %s' % none, 70)
    except OSError as error:
        return failed('%s%s' % (error.strerror, ": '%s'" % error.filename if error.filename else ''), 70)
    except ValueError as error:     # a number that is none, or a rule or a bound that is broken, which says so
        return failed('%s. %s' % (str(error).rstrip('.'), usage(module)), 70)
