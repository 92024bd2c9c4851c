"""JSON that other programs read."""
import json

MOST = 2 ** 53          # the greatest number that a reader of floating-point numbers keeps whole


def safe(value):
    """A value in which each number above the greatest that is kept whole is a text of its digits."""
    if isinstance(value, dict):
        return {name: safe(part) for name, part in value.items()}
    if isinstance(value, list):
        return [safe(part) for part in value]
    is_long = isinstance(value, int) and not isinstance(value, bool) and abs(value) > MOST
    return str(value) if is_long else value


def text_of(value):
    return json.dumps(safe(value), ensure_ascii=False, indent=1) + '\n'
