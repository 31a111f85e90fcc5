"""What programs print of a call of next and of the tally, for the search in tools/searching.py."""
from searching import MOST_TRIES


def outcome(search, allowance):
    """Word and tries of a call, or its refusal."""
    if allowance > MOST_TRIES:
        return "refused,15"
    word, tries = search.next(allowance)
    return f"{word},{tries}"


def tally(search):
    return f"{search.tries},{search.answers},{len(search.steps)},{search.used}"
