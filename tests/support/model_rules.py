"""What the rules of a desk say of a file. A rule is a table: its rank, audiences and effect, the selector, and the days
`from` and `until` as dates or None; a file is a table of texts, by the names of the catalogue's columns."""

def matches(rule, audience, day, file):
    """Whether a rule speaks of a file, for an audience and a day: dates of this form are in order as texts are."""
    if audience not in rule["audiences"] or (rule["from"] or "") > day or (rule["until"] or "9999-99-99") <= day:
        return False
    [(how, value)] = rule["select"].items()
    return file["name"].startswith(value) if how == "prefix" else how == "all" or file[how] == str(value)

def verdict(bands, audience, day, file):
    """The label of the rule that decides on a file, and its effect; bands are labels with their rules by rank."""
    tried = ((label, rule) for label, rules in bands for rule in rules if matches(rule, audience, day, file))
    return next(((f"{label}.{rule['rank']}", rule["effect"]) for label, rule in tried), ("D0", "deny"))
