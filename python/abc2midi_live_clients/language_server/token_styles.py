"""How each kind of token is shown. Semantic tokens, the syntax file for Vim and the TextMate grammar all come from this table."""

from typing import NamedTuple

from abc2midi_live import TokenKind


class Style(NamedTuple):
    """A type of semantic tokens, a scope of TextMate, a highlight group of Vim, and a pattern for editors that ask no server. A pattern
    uses only what Vim (very magic), Oniguruma and Python read alike: sets, groups, `|`, `*`, `+`, `?`, `^` and `$`."""

    semantic: str
    scope: str = ""
    group: str = ""
    pattern: str = ""


LENGTH = r"[0-9]*[/]*[0-9]*"

# Of patterns that fit at one place the first one counts. Blanks, signs without a meaning and what nothing closes have no style.
STYLES = {
    TokenKind.DIRECTIVE: Style(
        "macro", "keyword.control.directive", "PreProc", r"^[%][%](MIDI program|propagate-accidentals)([ \t][^%]*)?"
    ),
    TokenKind.COMMENT: Style("comment", "comment.line.percentage", "Comment", r"[%].*$"),
    TokenKind.NUMBER_FIELD: Style("class", "entity.name.section.number", "Title", r"^X:[^%]*"),
    TokenKind.TITLE_FIELD: Style("string", "markup.heading.title", "Title", r"^T:[^%]*"),
    TokenKind.KEY_FIELD: Style("type", "storage.type.key", "Type", r"^K:[^%]*"),
    TokenKind.OTHER_FIELD: Style("property", "entity.name.tag.field", "Identifier", r"^[A-Za-z+]:([^|:%][^%]*)?"),
    TokenKind.INLINE_FIELD: Style("property", "entity.name.tag.inline-field", "Identifier", r"\[[A-Za-z]:[^\]]*\]"),
    TokenKind.QUOTED: Style("string", "string.quoted.double", "String", r'"[^"]*"'),
    TokenKind.DYNAMIC: Style("decorator", "support.constant.dynamic", "Special", r"!(ppp|pp|p|mp|mf|fff|ff|f)!"),
    TokenKind.DECORATION: Style("decorator", "support.function.decoration", "Special", r"![^!]*!"),
    TokenKind.GRACE: Style("parameter", "variable.parameter.grace", "SpecialComment", r"[{][^}]*[}]"),
    TokenKind.ENDING: Style("number", "constant.numeric.ending", "Number", r"\[[0-9][0-9,\-]*"),
    TokenKind.BAR_LINE: Style("keyword", "keyword.operator.bar-line", "Statement", r"(:+[|]*[:\]]*|\[?[|]+[|\]:]*)"),
    TokenKind.TUPLET: Style("number", "constant.numeric.tuplet", "Number", r"[(][0-9]+(:[0-9]*)*"),
    TokenKind.BROKEN_RHYTHM: Style("operator", "keyword.operator.broken-rhythm", "Operator", r"([<]+|[>]+)"),
    TokenKind.TIE: Style("operator", "keyword.operator.tie", "Operator", r"[\-]"),
    TokenKind.NOTE: Style("variable", "variable.other.note", "Function", rf"(\^\^?|__?|[=])?[A-Ga-g][,']*{LENGTH}"),
    TokenKind.REST: Style("enumMember", "constant.other.rest", "Constant", rf"[zx]{LENGTH}"),
    TokenKind.BAR_REST: Style("enumMember", "constant.other.bar-rest", "Constant", rf"[ZX]{LENGTH}"),
    TokenKind.SPACE: Style("comment", "comment.other.space", "Comment", r"y"),
    TokenKind.CHORD: Style("operator"),  # its brackets and its length: its notes are tokens of their own
    TokenKind.NO_EFFECT: Style("modifier"),
    TokenKind.FREE_TEXT: Style("comment"),
}
