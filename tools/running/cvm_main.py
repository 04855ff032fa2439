"""./cvm: runs the proved program with the words given, in the current folder, and explains on standard error any status but 0, and the answer of a check."""
from explain import given_texts, pages, status as explaining, words as command_words
from running import foreseen, program, proved, released
from running.guard import Bad, say


def forms():
    return ['  ./cvm ' + ' '.join(form) for form in pages.forms()]


def bad_words(lines):
    """What the program prints of words that are no command, with no build."""
    program.put(b'bad words\n')
    say(lines)
    return 1


def main(words):
    pages.require(Bad)
    if not words or words[0] in ('--help', '-h'):
        return bad_words(['cvm: compiles kernels and boots them. The commands are:', *forms(),
                          'docs/FORMATS.md says what each takes and prints, and ./cvm --version which program runs.'])
    if words == ['--version']:
        there = proved.is_current()
        built = 'is built of these sources' if there else 'will be built of these sources first'
        program.put_line('cvm: ' + released.version('the proved program of crates/cvm/out, which ' + built, there))
        return 0
    if command_words.fault(words) and not proved.is_there():
        return bad_words(explaining.explain(1, words, ['bad words']))
    found = foreseen.fault(words)
    if found:
        say('cvm: ' + found[1])
        return found[0]
    say(given_texts.said(words, './cvm'))
    status, rows = program.run_here([*proved.program(), *words], *command_words.files(words))
    say(explaining.explain(status, words, rows))
    return status if status >= 0 else 128 - status
