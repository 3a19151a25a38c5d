"""The rules of regular expressions, construct by construct."""

from rules import profile, standard

TEXT_LIMITS = profile("A regular expression is UTF-8 text of at most 1,024 characters (Unicode scalar values), with "
                      "parentheses nested at most 64 deep. Otherwise it isn't parseable and matches nothing.")
PIECE_FAULTS = profile("`a**` and `a+?` aren't parseable. `()`, the empty expression and `^*` are.")
ANY_PART = profile("An expression matches a user ID if it matches any part of it. To match only the whole user ID, it "
                   "needs `^` and `$`. Case matters.")
LINE_FEED = profile("`.` and a negated range match any character, including a line feed.")
ORDINARY_CHARACTERS = profile("Outside ranges `]`, `{`, `}` and `-` are ordinary characters.")
ATOMS = profile("An atom is `(expression)`, a range, `.`, `^` (the beginning of the text), `$` (its end), `\\c` (the "
                "character c), or any character but `\\ ( ) [ . ^ $ | * + ?`.")
RANGE_ITEMS = profile("A range is `[`, then `^` if it is negated, then at least one item, then `]`. A `^` directly "
                      "after `[` always negates.")
RANGE_ORDER = profile("If the first is greater, the expression isn't parseable.")
RANGE_SAMPLES = profile("So `[]-a]` goes from `]` to `a`, `[--a]` is `-` and `a`, `[+--]` goes from `+` to `-`, "
                        "`[a-]` is `a` and `-`, and `[^]` isn't closed.")
RANGE_BACKSLASH = profile("A `-` that comes first stands for itself, and so does a backslash anywhere.")
BRANCHES = standard("8", "A regular expression is zero or more branches, separated by '|'. It matches anything that "
                    "matches one of the branches.")
PIECES = standard("8", "A branch is zero or more pieces, concatenated. It matches a match for the first, followed by "
                  "a match for the second, etc.")
PIECE = standard("8", "A piece is an atom possibly followed by '*', '+', or '?'.")
STAR = standard("8", "An atom followed by '*' matches a sequence of 0 or more matches of the atom.")
PLUS = standard("8", "An atom followed by '+' matches a sequence of 1 or more matches of the atom.")
QUESTION = standard("8", "An atom followed by '?' matches a match of the atom, or the null string.")
PARENTHESES = standard("8", "An atom is a regular expression in parentheses (matching a match for the regular "
                       "expression), a range (see below), ..")
ANY = standard("8", "'.' (matching any single Unicode character)")
BEGINNING = standard("8", "'^' (matching the null string at the beginning of the input string)")
END = standard("8", "'$' (matching the null string at the end of the input string)")
BACKSLASH = standard("8", "a '\\' followed by a single Unicode character (matching that character)")
SINGLE = standard("8", "a single Unicode character with no other significance (matching that character)")
RANGE = standard("8", "A range is a sequence of characters enclosed in '[]'. It normally matches any single character "
                 "from the sequence.")
NEGATED = standard("8", "If the sequence begins with '^', it matches any single Unicode character not from the rest "
                   "of the sequence.")
BETWEEN = standard("8", "If two characters in the sequence are separated by '-', this is shorthand for the full list "
                   "of Unicode characters between them in codepoint order (for example, '[0-9]' matches any decimal "
                   "digit).")
LITERAL_BRACKET = standard("8", "To include a literal ']' in the sequence, make it the first character (following a "
                           "possible '^').")
LITERAL_HYPHEN = standard("8", "To include a literal '-', make it the first or last character.")
