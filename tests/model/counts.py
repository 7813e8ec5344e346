"""An executable reading of document 02, A9: the two counts that the result of a page carries."""

from kambelohi_model import On, listing


def characters(message, record):
    """The characters that a record's span prints: those of its text, one of an [hc], none of an empty line."""
    if record.kind == 0:
        return len(message[record.start:record.start + record.length].decode("utf-8"))
    return 1 if record.kind == 1 else 0


def counts(sign_file, message):
    """For each answer from 0 on, up to and with the first that is an end or a refusal: "the characters that its measures looked up, equal
    to the page's printed characters, and the spans placed, equal to its records". "Where the old way refuses the page .. both counts are
    0"; an off answer and the end have no spans."""
    found = []
    for answer in listing(sign_file, message):
        records = answer.records if isinstance(answer, On) else []
        found.append((sum(characters(message, record) for record in records), len(records)))
    return found
