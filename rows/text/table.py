"""What the maker of a table gives."""
import collections

# the texts of the files by what their names end in behind the subject's, and the wanted lines
Table = collections.namedtuple("Table", "files wanted")
