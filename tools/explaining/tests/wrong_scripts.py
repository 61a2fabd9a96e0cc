"""48 scripts with one mistake each, and what a person is to read of each."""

BASE = b"""shrinkers 1
size 2 2
group /a 5
group /a/b max
cache dentry plain 2 0 0 any on
cache inode clock 2 16 0 fs on
worker
put /a 0 dentry k1 =v1
get /a/b 1 inode k2
shrink /a 0 12 fs
worker
balance 1 0 nofs
offline /a/b
end
"""


def change(old, new):
    """The base script with one text in place of another."""
    assert BASE.count(old) >= 1, old
    return BASE.replace(old, new, 1)


# What is wrong, the script, the line and the code, and the beginning of the sentence.
ROWS = (
    ("a comment line", change(b"worker\nput", b"# a comment\nworker\nput"), "7 UnknownWord", "A script has no comments."),
    ("a comment behind a command", change(b"=v1", b"=v1 # why"), "8 Trailing", "A script has no comments, also at the end"),
    ("an empty line", change(b"worker\nput", b"\nworker\nput"), "7 UnknownWord", "The line is empty."),
    ("a line of blanks", change(b"worker\nput", b"   \nworker\nput"), "7 UnknownWord", "The line has nothing but blanks."),
    ("indentation", change(b"put", b"  put"), "8 UnknownWord", "The line begins with a space."),
    ("a tab before the word", change(b"put", b"\tput"), "8 UnknownWord", "The line begins with a tab."),
    ("a tab between words", change(b"0 dentry", b"0\tdentry"), "8 BadNumber", "A tab stands between words."),
    ("two spaces", change(b"/a 0 dentry", b"/a  0 dentry"), "8 BadNumber", "Two spaces stand between two words"),
    ("a space at the end", change(b"=v1\n", b"=v1 \n"), "8 Trailing", "The line ends with a space"),
    ("CRLF in the whole file", BASE.replace(b"\n", b"\r\n"), "1 BadHeader", "The line ends with a carriage return"),
    ("CRLF of one line", change(b"=v1\n", b"=v1\r\n"), "8 BadText", "The line ends with a carriage return"),
    ("a byte order mark", b"\xef\xbb\xbf" + BASE, "1 BadHeader", "The file begins with a byte order mark of UTF-8."),
    ("UTF-16", BASE.decode().encode("utf-16"), "1 BadHeader", "The file begins with a byte order mark of UTF-16."),
    ("YAML", b"---\nsize: 2 2\n", "1 BadHeader", "This is YAML."),
    ("JSON", b'{\n"size": [2, 2]\n}\n', "1 BadHeader", "This is JSON."),
    ("an empty file", b"", "1 NoEnd", "The input is empty."),
    ("a report in place of the script", b"report 1\nsize 1 1\n", "1 BadHeader", "This is a report."),
    ("no header", BASE.split(b"\n", 1)[1], "1 BadHeader", "The header is missing"),
    ("version 3", change(b"shrinkers 1", b"shrinkers 3"), "1 BadHeader", "There is no version `3`."),
    ("no size", change(b"size 2 2\n", b""), "2 BadHeader", "The second line is `size NODES IDS`"),
    ("a word misspelt", change(b"shrink /a", b"shrnk /a"), "10 UnknownWord",
     "There is no line that begins with `shrnk`. Is `shrink` meant?"),
    ("`grap`", change(b"balance 1 0 nofs", b"grap 1 buf"), "12 UnknownWord", "There is no line that begins with `grap`."),
    ("upper case", change(b"put", b"PUT"), "8 UnknownWord", "Words are of lower case letters: `put`."),
    ("`sweep` in version 1", change(b"end\n", b"sweep 0 fs\nend\n"), "14 UnknownWord", "`sweep` is a word of version 2"),
    ("`pool` in version 1", change(b"worker\nput", b"pool buf 2 0 0 flat\nworker\nput"), "7 UnknownWord",
     "`pool` is a word of version 2"),
    ("a group behind a cache", change(b"cache inode", b"group /c max\ncache inode"), "6 UnknownWord",
     "Groups can't be declared behind a cache line (line 5)"),
    ("a cache behind a worker", change(b"worker\nbal", b"cache x plain 2 0 0 any off\nworker\nbal"), "11 UnknownWord",
     "Caches can't be declared behind a worker line"),
    ("no worker line", change(b"worker\nput", b"put"), "7 NoWorker", "A line `worker` is missing before the command"),
    ("policy `lru`", change(b"plain", b"lru"), "5 UnknownWord",
     "POLICY is `plain`, `clock` or `halt`, and `lru` is none of them."),
    ("kind `file`", change(b"12 fs", b"12 file"), "10 UnknownWord", "KIND is `fs` or `nofs`, and `file` is none of them."),
    ("`6M`", change(b"/a 5", b"/a 6M"), "3 BadNumber", "A number has no unit"),
    ("node 2 of 2", change(b"/a 0 dentry", b"/a 2 dentry"), "8 BadNumber",
     "There is no node 2: line 2 says 2 nodes, numbered 0 to 1."),
    ("words in the wrong order", change(b"/a 0 dentry k1", b"/a dentry 0 k1"), "8 BadNumber", "Two words have changed places"),
    ("the group behind the node", change(b"put /a 0", b"put 0 /a"), "8 BadPath", "Two words have changed places"),
    ("a leading zero", change(b"/a 0 12", b"/a 0 012"), "10 BadNumber", "A number has no leading zero: `12`."),
    ("a sign", change(b"balance 1", b"balance +1"), "12 BadNumber", "A number has no sign."),
    ("no limit by another word", change(b"/a 5", b"/a unlimited"), "3 BadNumber", "No limit is written `max`."),
    ("a priority of 13", change(b"/a 0 12", b"/a 0 13"), "10 BadNumber", "PRIORITY is out of range"),
    ("a value without `=`", change(b"=v1", b"v1"), "8 BadText", "A value begins with `=`: `=v1`."),
    ("a value with a space", change(b"=v1", b"=v 1"), "8 Trailing", "A word stands behind the value"),
    ("no value", change(b" =v1", b""), "8 Missing", "The word VALUE is missing"),
    ("a path without `/`", change(b"group /a 5", b"group a 5"), "3 BadPath", "A path begins with `/`: `/a`."),
    ("an undeclared group", change(b"get /a/b", b"get /b"), "9 UnknownGroup",
     "No group `/b` is declared. The nearest is `/a/b`, of line 4."),
    ("an undeclared cache", change(b"inode k2", b"inod k2"), "9 UnknownCache",
     "No cache `inod` is declared. The nearest is `inode`, of line 6."),
    ("a child before its parent", change(b"group /a 5\ngroup /a/b max", b"group /a/b max\ngroup /a 5"), "3 NoParent",
     "The parent `/a` is declared on line 4"),
    ("a group twice", change(b"group /a/b max", b"group /a max"), "4 Exists", "`/a` is declared already, on line 3."),
    ("no `end`", change(b"end\n", b""), "14 NoEnd", "The input ends without the line `end`"),
    ("a line behind `end`", BASE + b"\n", "15 Trailing", "A line without words stands behind the `end` of line 14."),
)
