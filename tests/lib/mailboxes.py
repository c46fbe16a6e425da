"""Mailbox files and feeds."""
import re

ATOM = "{http://www.w3.org/2005/Atom}"


def unquoted(text):
    """Returns a text of a mailbox file without the marks that quote its lines."""
    return re.sub(rb"(?m)^>(>*From )", rb"\1", text)
