"""What `rt ci` told so far, for what runs beside it."""
import re

# The line that its log gets behind what it told.
END = "rt ci is at an end"


def told_beside(file):
    """The crates of which it told in the file that they are proved, and whether it is at an end."""
    with open(file, encoding="utf-8", errors="replace") as log:
        text = log.read()
    return set(re.findall(r"^rt: (\w+) (?:proved$|is kept:)", text, re.M)), END in text.split("\n")
