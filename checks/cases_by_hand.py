"""What tools/ are given, and what they have to print of it, as checks/tools-by-hand compares it.

All of it was worked out by hand: scripts with their refusals, files that are run in a row, answers
as tables and as CSV, CSV files with a fault each, and words that are wrong.
"""
# Scripts, and the reports that tools/refusals has to print of them: each a place and an answer, the
# line of the script, and how many characters stand before the caret.
REFUSALS = [
    (
        b"WRITE 'a\nb;\nWRITE 1'; WRITE Z;",
        [(b"-:3:17: REFUSED 3 NAME_UNKNOWN at Z", b"WRITE 1'; WRITE Z;", 16)],
    ),
    (
        b"DUMP; VAR R BASE RELATION {A CHAR} INIT (RELATION {TUPLE {A '\nREFUSED 2 SYNTAX\n'}})\n"
        b"KEY {A}; DUMP; DUMP;\nWRITE R; WRITE;\n",
        [
            (
                b"-:5:15: REFUSED 2 SYNTAX at the end of the statement; expected an expression",
                b"WRITE R; WRITE;",
                14,
            )
        ],
    ),
    (
        b"WRITE 1;\n\nWRITE 2\n\n// DUMP;\nWRITE 3;\nCOMMIT;\n",
        [
            (
                b"-:6:1: REFUSED 2 SYNTAX at WRITE; expected `;` or an operator; "
                b"try `;` before WRITE",
                b"WRITE 3;",
                0,
            ),
            (b"-:7:1: REFUSED 11 TRANSACTION; no transaction is open", b"COMMIT;", 0),
        ],
    ),
    (
        b"// ; a\n/* ;\n ; ' */\n\n  /* b */ A;\n",
        [
            (
                b"-:5:12: REFUSED 2 SYNTAX at the end of the statement; expected `:=`; try WRITE A",
                b"/* b */ A;",
                9,
            )
        ],
    ),
    (
        b"WRITE '/*; //'; /* ';' */ WRITE Z; // it's ;\nWRITE Y",
        [
            (
                b"-:1:33: REFUSED 3 NAME_UNKNOWN at Z",
                b"WRITE '/*; //'; /* ';' */ WRITE Z;",
                32,
            ),
            (
                b"-:2:8: REFUSED 2 SYNTAX at the end of the script; expected `;` or an operator",
                b"WRITE Y",
                7,
            ),
        ],
    ),
    (
        b"WRITE '\xff;'; WRITE 'it''s;'';\n",
        [
            (
                b"-:1:8: REFUSED 1 SCAN at the byte 0xFF, which is no UTF-8; "
                b"expected an expression",
                b"WRITE '\\xff;';",
                7,
            ),
            (
                b"-:1:19: REFUSED 1 SCAN at a quote that nothing closes; expected an expression",
                b"WRITE '\\xff;'; WRITE 'it''s;'';",
                21,
            ),
        ],
    ),
    (
        b"WRITE 1;\n// a\n/* b\n*/ /* no ; end\n\n;\n",
        [
            (
                b"-:4:4: REFUSED 1 SCAN at a /* that nothing closes; expected `;` or a statement",
                b"*/ /* no ; end",
                3,
            )
        ],
    ),
    (
        b"WRITE 1;\r\n\tWRITE Z;\r\n;;\r\n // end",
        [(b"-:2:8: REFUSED 3 NAME_UNKNOWN at Z", b"\\tWRITE Z;", 8)],
    ),
    (
        "WRITE '日本' + 1;\n".encode(),
        [
            (
                "-:1:7: REFUSED 5 TYPE_MISMATCH at '日本' + 1: CHAR, INTEGER".encode(),
                "WRITE '日本' + 1;".encode(),
                6,
            )
        ],
    ),
    (
        "WRITE '日本' ? 1;\n".encode(),
        [
            (
                b"-:1:12: REFUSED 1 SCAN at `?`; expected `;` or an operator",
                "WRITE '日本' ? 1;".encode(),
                13,
            )
        ],
    ),
    (b"WRITE 'REFUSED 2 SYNTAX\nREFUSED 2 SYNTAX\n';\n", []),
    (b"", []),
]

# Files that are one script, in the first of which a `;` is missing, and what is told of them.
SEVERAL = {
    "a.td": b"VAR R BASE RELATION {A INTEGER} KEY {A};\nWRITE 1",
    "b.td": b"\nWRITE R;;\nWRITE Z; // end",
    "c.td": b"WRITE Y;\n",
}
OF_SEVERAL = [
    (
        b"b.td:2:1: REFUSED 2 SYNTAX at WRITE; expected `;` or an operator; try `;` before WRITE",
        b"WRITE R;",
        0,
    ),
    (b"b.td:3:7: REFUSED 3 NAME_UNKNOWN at Z", b"WRITE Z;", 6),
    (b"c.td:1:7: REFUSED 3 NAME_UNKNOWN at Y", b"WRITE Y;", 6),
]

# The tuples that break what is told: those of every key and constraint, by each kind of statement.
WHY = [
    (
        b"VAR R BASE RELATION {A INTEGER, B INTEGER} INIT (RELATION {TUPLE {A 1, B 1},\n"
        b"TUPLE {A 1, B 2}}) KEY {A} KEY {B};\n",
        b"    KEY {A} of R: tuples agree on it\n",
    ),
    (
        b"VAR R BASE RELATION {A INTEGER} INIT (RELATION {TUPLE {A 0}}) KEY {A};\n"
        b"CONSTRAINT C IF IS_EMPTY(R) THEN TRUE\n"
        b"ELSE COUNT(R) > 1 AND NOT IS_EMPTY(R WHERE A > 1) END IF;\n",
        b"    COUNT(R) is 1\n    R has\n    +---+\n    | A |\n    +---+\n    | 0 |\n    +---+\n"
        b"    R WHERE A > 1 is empty\n",
    ),
    (
        b"VAR R BASE RELATION {A INTEGER} KEY {A};\n"
        b"CONSTRAINT C MAX(R UNION RELATION {TUPLE {A 1}}, A) < 5;\n"
        b"CONSTRAINT D COUNT(R) < 1 OR TRUE;\nINSERT R RELATION {TUPLE {A 7}};\n",
        b"    CONSTRAINT C MAX(R UNION RELATION {TUPLE {A 1}}, A) < 5\n"
        b"    MAX(R UNION RELATION {TUPLE {A 1}}, A) is 7\n",
    ),
    (
        b"VAR R BASE RELATION {A INTEGER} KEY {A};\nCONSTRAINT C IS_EMPTY(R WHERE 1 / A > 9);\n"
        b"BEGIN TRANSACTION;\nINSERT R RELATION {TUPLE {A 0}};\nROLLBACK;\n",
        b"    CONSTRAINT C IS_EMPTY(R WHERE 1 / A > 9) has no value: REFUSED 21 ZERO_DIVISOR\n",
    ),
]

# Files that are run in a row, words for tools/run, what it has to print, how what it tells has to
# begin, and its status.
RUNS = {
    "db.td": b"VAR R BASE RELATION {A INTEGER} INIT (RELATION {TUPLE {A 1}}) KEY {A};\n"
    b"WRITE 8; // end",
    "on.td": b"\xef\xbb\xbf // on db.td\r\nWRITE R;\nWRITE Z;",
    "above.td": b"// on on.td\nWRITE 9;\n",
    "round.td": b"// on folder/round.td\n",
    "folder/round.td": b"// on ../round.td\n",
    "lost.td": b"// on missing.td\nWRITE 1;\n",
    "prose.td": b"// on databases\nWRITE 1;\n",
    "late.td": b"WRITE 1;\n// on db.td\nWRITE R;\n",
    "folder/up.td": b"// on ../db.td\nWRITE COUNT(R);\n",
    "bytes.td": b"WRITE 'a\x1b[31m\tb';\n/* \x1b */ NOPE\xff\x1b;\n",
}
TABLE = b"+---+\n| A |\n+---+\n| 1 |\n+---+\n"
UNKNOWN = b"REFUSED 3 NAME_UNKNOWN"
LITERAL = b"RELATION {A INTEGER} {TUPLE {A 1}}\n"
RUN = [
    (["db.td", "late.td"], b"OK\n8\n1\n" + LITERAL, b"", 0),
    (["db.td", "folder/up.td"], b"OK\n8\n1\n", b"", 0),
    (["on.td"], LITERAL + UNKNOWN + b"\n", b"on.td:3:7: " + UNKNOWN, 1),
    (["--table", "on.td"], TABLE, b"on.td:3:7: " + UNKNOWN, 1),
    (["above.td"], b"9\n", b"on.td:3:7: " + UNKNOWN, 1),
    (["folder/up.td", "folder/up.td"], b"1\n1\n", b"", 0),
    (["round.td"], b"", b"run: folder/round.td:1: // on folder/../round.td leads back to it\n", 3),
    (["lost.td"], b"", b"run: lost.td:1: // on missing.td: No such file or directory\n", 3),
    (["prose.td"], b"1\n", b"", 0),
    (["late.td"], b"1\n" + UNKNOWN + b"\n", b"late.td:3:7: " + UNKNOWN, 1),
    (["--stop", "late.td", "db.td"], b"1\n" + UNKNOWN + b"\n", b"late.td:3:7: " + UNKNOWN, 1),
    (["--table", "bytes.td"], b"'a\\x1b[31m\\tb'\n", b"bytes.td:2:13: REFUSED 1 SCAN", 1),
]

# Shell commands in which a stream is closed or a file is none, with what is said and the status.
MANNERS = [
    ("tools/refusals <&-", "refusals: standard input is closed\n", 3),
    ("tools/table <&-", "table: standard input is closed\n", 3),
    ("tools/run <&-", "run: standard input is closed\n", 3),
    ("tools/prompt <&-", "prompt: standard input is closed\n", 3),
    ("tools/run db.td >&-", "run: standard output is closed\n", 3),
    ("tools/table db.td", "table: db.td: a script is no answer: tools/run --table shows the "
     "answers to one\n", 2),
    ("./td dump db.td | tools/table", "table: -: a script is no answer: tools/run --table shows "
     "the answers to one\n", 2),
    ("tools/table /", "table: /: Is a directory\n", 3),
    ("tools/run /", "run: /: Is a directory\n", 3),
    ("tools/run 'a\x1b\nb'", "run: a\\x1b\\nb: No such file or directory\n", 3),
    ("yes 'WRITE 1;' | head -n 50000 | tools/run | head -n 1 >/dev/null; exit ${PIPESTATUS[2]}",
     "run: the output was closed before all was written\n", 3),
    ("yes 'OK' | tools/table | head -n 1 >/dev/null; exit ${PIPESTATUS[1]}",
     "table: the output was closed before all was written\n", 3),
    ("tools/run db.td >/dev/full", "run: No space left on device\n", 3),
    ("echo 'DELETE R;' | tools/prompt one.td >/dev/null",
     "prompt: the database has changes that are not saved: they are lost\n", 0),
    ("printf 'DELETE R;\\n\\\\open one.td\\n' | tools/prompt one.td >/dev/null",
     "prompt: the database has changes that are not saved: they are lost\n", 0),
    ("printf '\\\\save two.td\\n' | tools/prompt one.td >/dev/null",
     "prompt: two.td is there, and was not opened or saved here: it is written over\n", 0),
    ("tools/prompt --recover </dev/null",
     "prompt: nothing is kept of what was typed in other prompts\n", 3),
    ("tools/prompt --recover one.td </dev/null", "prompt: --recover takes no SCRIPT\n", 2),
]

# Answers, what tools/table has to print of them, and what with --csv.
TABLES = [
    ("OK\nREFUSED 30 KEY R\n", "OK\nREFUSED 30 KEY R\n", ""),
    ("'\nRELATION {} {}\n'\nRELATION {} {}\n", "'\nRELATION {} {}\n'\nTABLE_DUM\n", "\n"),
    (
        "RELATION {A CHAR, N INTEGER} {TUPLE {A '', N -5}, TUPLE {A '日本 \"x\", y', N 10}}\n",
        "+-------------+----+\n| A           |  N |\n+-------------+----+\n"
        "|             | -5 |\n| 日本 \"x\", y | 10 |\n+-------------+----+\n",
        'A,N\n"",-5\n"日本 ""x"", y",10\n',
    ),
    ("'a\x1b\tb\nc'\nDUMP\nVAR R;\n", "'a\\x1b\\tb\nc'\nDUMP\nVAR R;\n", ""),
    (
        "RELATION {A CHAR} {TUPLE {A '👨\u200d👩\u200d👧'}, TUPLE {A 'e\u0301🏃🏽'}, "
        "TUPLE {A '❤\ufe0f'}, TUPLE {A '🏃\u200d♂\ufe0fn\u0303'}}\n",
        "+-----+\n| A   |\n+-----+\n| 👨\u200d👩\u200d👧  |\n| e\u0301🏃🏽 |\n| ❤\ufe0f  |\n"
        "| 🏃\u200d♂\ufe0fn\u0303 |\n+-----+\n",
        "A\n👨\u200d👩\u200d👧\ne\u0301🏃🏽\n❤\ufe0f\n🏃\u200d♂\ufe0fn\u0303\n",
    ),
    (
        "RELATION {A CHAR, Q QTY} {TUPLE {A 'a\n\tb', Q QTY(5, 'it''s')}}\n",
        "+-----+-----------------+\n| A   | Q               |\n+-----+-----------------+\n"
        "| a   | QTY(5, 'it''s') |\n| \\tb |                 |\n+-----+-----------------+\n",
        "A,Q\n\"a\n\tb\",\"QTY(5, 'it''s')\"\n",
    ),
    (
        "RELATION {A RELATION {B TUPLE {C CHAR}}, D RELATION {E BOOLEAN}, F RELATION {}} {TUPLE "
        "{A RELATION {B TUPLE {C CHAR}} {TUPLE {B TUPLE {C 'x\ny'}}}, D RELATION {E BOOLEAN} {}, "
        "F RELATION {} {TUPLE {}}}}\n",
        "+----------------------+-------+-----------+\n"
        "| A                    | D     | F         |\n"
        "+----------------------+-------+-----------+\n"
        "| +------------------+ | +---+ | TABLE_DEE |\n"
        "| | B                | | | E | |           |\n"
        "| +------------------+ | +---+ |           |\n"
        "| | TUPLE {C 'x\\ny'} | |       |           |\n"
        "| +------------------+ |       |           |\n"
        "+----------------------+-------+-----------+\n",
        "A,D,F\n\"RELATION {B TUPLE {C CHAR}} {TUPLE {B TUPLE {C 'x\ny'}}}\","
        "RELATION {E BOOLEAN} {},RELATION {} {TUPLE {}}\n",
    ),
]

# CSV files, words for tools/csv2td, and what it says: of the first no fault, but a statement.
FILES = [
    (
        "\ufeffA, B ,C\r\n1,007,-0\r\n\r\n-9223372036854775808,it's,9\r\n1,007,-0\r\n",
        ["--key", "A,B"],
        "VAR N BASE RELATION {A INTEGER, B CHAR, C CHAR}\n"
        "  INIT (RELATION {A INTEGER, B CHAR, C CHAR} {\n"
        "    TUPLE {A 1, B '007', C '-0'},\n"
        "    TUPLE {A -9223372036854775808, B 'it''s', C '9'}}) KEY {A, B};\n"
        "csv2td: rows left out that stand there already: 1\n",
    ),
    (
        "A;B\n9223372036854775808;1\n",
        ["--delimiter", ";", "--char", "B", "--key", "A", "--key", "B"],
        "VAR N BASE RELATION {A CHAR, B CHAR}\n  INIT (RELATION {A CHAR, B CHAR} {\n"
        "    TUPLE {A '9223372036854775808', B '1'}}) KEY {A} KEY {B};\n",
    ),
    ("A\n", ["--key", ""], "VAR N BASE RELATION {A CHAR}\n  INIT (RELATION {A CHAR} {}) KEY {};\n"),
    (
        'A,B\n1,"2\n3"\n4\n',
        ["--key", "A"],
        "csv2td: -:4: the row has length 1, and the first line 2\n",
    ),
    ("A,B\n1,2,3\n", ["--key", "A"], "csv2td: -:2: the row has length 3, and the first line 2\n"),
    ("A,B\n1,2\n1,3\n", ["--key", "A"], "csv2td: -:3: it agrees with line 2 on the key {A}\n"),
    ("A,group\n", ["--key", "A"], "csv2td: -:1: 'group' is no name; try --rename group=NAME\n"),
    (
        "A,B 1; C\n",
        ["--key", "A"],
        "csv2td: -:1: 'B 1; C' is no name; try --rename 'B 1; C=NAME'\n",
    ),
    ("A,A\n", ["--key", "A"], "csv2td: -:1: 'A' is there twice\n"),
    ("A\n", ["--key", "B"], "csv2td: 'B' is no name of -'s first line\n"),
    ("A,B\n", ["--key", "A", "--key", "B,A"], "csv2td: the key {B, A} includes another key\n"),
    ("A\n\udcff\n", ["--key", "A"],
     "csv2td: -:2: it is not UTF-8; try --encoding windows-1252\n"),
    ('A\n"1\n', ["--key", "A"], "csv2td: -:2: unexpected end of data\n"),
    ("", ["--key", "A"], "csv2td: -:1: there is no line of names\n"),
    (
        "A\n1\n",
        ["--key", "A", "--delimiter", '"'],
        "csv2td: --delimiter is one character, and none of a quote and a line's end\n",
    ),
]

# Words that are wrong, with the status. What is said is one line, with the tool's name in front.
WRONG = [
    (["tools/refusals", "--walk"], 2),
    (["tools/refusals", "missing.td"], 3),
    (["tools/refusals", "examples"], 3),
    (["tools/why", "--walk"], 2),
    (["tools/why", "missing.td"], 3),
    (["tools/table", "--walk"], 2),
    (["tools/table", "a", "b"], 2),
    (["tools/table", "missing"], 3),
    (["tools/run", "--walk"], 2),
    (["tools/run", "missing.td"], 3),
    (["tools/run", "--table", "--plain"], 2),
    (["tools/prompt", "--walk"], 2),
    (["tools/prompt", "missing.td"], 3),
    (["tools/csv2td"], 2),
    (["tools/csv2td", "N"], 2),
    (["tools/csv2td", "N", "--key", "A", "missing.csv"], 3),
    (["tools/csv2td", "N;", "--key", "A", "examples/tools/suppliers.csv"], 2),
    (["tools/csv2td", "N", "--key", "A", "--delimiter", "ab"], 2),
    (["tools/pretty", "--walk"], 2),
    (["tools/pretty", "--schema", "--data", "S"], 2),
    (["tools/pretty", "missing.td"], 3),
    (["tools/pretty", "examples"], 3),
    (["tools/lint", "--walk"], 2),
    (["tools/lint", "missing.td"], 3),
    (["tools/lint", "examples"], 3),
]
