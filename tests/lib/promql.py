"""Which metrics and labels an expression of Prometheus names, and whether an exposition has them. Standard library only."""
import re

# what is no metric where it stands alone
WORDS = {"by", "without", "on", "ignoring", "group_left", "group_right", "and", "or", "unless", "bool", "offset", "atan2", "inf", "nan"}
# what a scrape adds to each sample
SCRAPED = {"job", "instance"}
GROUPED = r"\b(by|without|on|ignoring|group_left|group_right)\s*\(([^)]*)\)"
SELECTOR = r"([a-zA-Z_:][a-zA-Z0-9_:]*)\s*\{([^}]*)\}"


def labels_by_name(samples):
    """The labels that samples of each name have, and those that a scrape adds."""
    found = {}
    for name, labels in samples:
        found.setdefault(name, set(SCRAPED)).update(label for label, _ in labels)
    return found


def metrics_of(expression):
    """The metrics that an expression names, and the labels that it asks of each; and the labels by which it groups or joins."""
    text = re.sub(r'"(\\.|[^"\\])*"', '""', expression)
    grouped = {it.strip() for _, words in re.findall(GROUPED, text) for it in words.split(",") if it.strip()}
    text = re.sub(GROUPED, " ", text)
    asked = [(name, set(re.findall(r"([a-zA-Z_][a-zA-Z0-9_]*)\s*(?:=~|!~|!=|=)", words))) for name, words in re.findall(SELECTOR, text)]
    text = re.sub(r"\[[^\]]*\]", " ", re.sub(SELECTOR, " ", text))
    bare = re.findall(r"(?<![\w:.$])([a-zA-Z_:][a-zA-Z0-9_:]*)\b(?!\s*\()", text)
    return asked + [(it, set()) for it in bare if it.lower() not in WORDS], grouped


def lacking(expression, known, shown=()):
    """What an expression, or a text that shows labels of its answer, names and the exposition hasn't."""
    asked, grouped = metrics_of(expression)
    there = set().union(*(known.get(name, set()) for name, _ in asked))
    problems = [f"no metric {name}" for name, _ in asked if name not in known] + ([] if asked else ["no metric at all"])
    problems += [f"{name} has no label {label}" for name, labels in asked if name in known for label in sorted(labels - known[name])]
    return problems + [f"no metric there has the label {label}" for label in sorted((grouped | set(shown)) - there)]
