"""A call on the bytes: table words, file, currency, call, arguments, output.

Refusals 1 to 12 come in document 01's order; FORMAT gives only 1 and 2.
"""

import layout
import ledger as ledgers
import table as tables
from ledger import FORMAT, Answer


def call(words, file, currency, number, arguments, output):
    """The answer, and file, currency and output as the call leaves them."""
    if number == FORMAT:
        return formatted(words, file, currency, output)
    refusal, table, ledger = layout.opened(words, file, currency)
    if refusal:
        return Answer(refusal), file, currency, output
    outcome = ledgers.call(table, ledger, plain(currency), number, arguments, len(output))
    if outcome.answer.code != 0:
        return outcome.answer, file, currency, output
    if outcome.data is not None:
        # READ writes the front of the output; the rest stays.
        output = outcome.data + output[len(outcome.data):]
    return outcome.answer, layout.write(table, outcome.ledger), outcome.currency, output


def formatted(words, file, currency, output):
    """FORMAT: the file need only have the right size, the currency may be any."""
    refusal = layout.refusal_of_size(words, file)
    if refusal:
        return Answer(refusal), file, currency, output
    table = tables.read(words)
    empty = layout.write(table, ledgers.empty_ledger(table))
    return Answer(0), empty, ledgers.empty_currency(), output


def plain(currency):
    """The three parts of a currency as the ledger's calls keep them."""
    run, types, chains = currency
    return ledgers.Currency(run, tuple(types), tuple(chains))
