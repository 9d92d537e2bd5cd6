"""The table that the import program writes: its columns, and a row as text (docs/IMPORT.md, "Rows out")."""
from model.script_line import digits_of


def wide(digits):
    """`0x` and capitals at full width."""
    return lambda value: "0x" + digits_of(value, digits)


# The columns of every row, and how a value is written in each; str is decimal for numbers.
COLUMNS = (("what", str), ("line", str), ("socket", str), ("link_id", wide(8)), ("number", wide(2)), ("refusal", str),
           ("message", str), ("elements", str), ("algorithms", wide(4)), ("public_key_type", str), ("static_oob_type", str),
           ("output_oob_size", str), ("output_oob_action", wide(4)), ("input_oob_size", str), ("input_oob_action", wide(4)))
HEADER = ",".join(name for name, _ in COLUMNS)
# The fields of Capabilities, in the order of the message.
FIELDS = tuple(name for name, _ in COLUMNS[-8:])


def row_text(row):
    """A row is a value for each column that it has; the others are empty."""
    return ",".join(written(row[name]) if name in row else "" for name, written in COLUMNS)
