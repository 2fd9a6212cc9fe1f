"""What the commands know of the command language, from its table (language/language.toml)."""
from . import language_table

_TABLE = language_table.read()
_LIMITS = {row["name"]: int(row["most"]) for row in _TABLE.rows("limits")}
_LISTS = [row["name"] for row in _TABLE.rows("replies") if "each" in row]
# Questions whose reply has as many lines as it needs, and ends with `end N`.
REPORTS = tuple(command.name for command in _TABLE.commands if command.reply in _LISTS)
# The longest line that can be a command.
LONGEST_COMMAND = _LIMITS["line"]
# The communities that keep a route from being advertised (RFC 1997).
WELL_KNOWN = tuple(str(row["number"]) for row in _TABLE.rows("communities"))
# How many communities a feed can tell.
MOST_COMMUNITIES = _LIMITS["fed_communities"]
# Why a route may not be chosen.
EXCLUSIONS = tuple(_TABLE.names("exclusions"))
