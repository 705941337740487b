"""How editors colour a drawing: a TextMate grammar, and a syntax file of Vim."""
import json

# Of a name: the base, and what it asserts.
ASSERTION = r" \.[PCS][-0-9,]*(?:\([0-9]+,[0-9]+\))?L?"
END_OF_WORD = r"(?![A-Za-z0-9_])"


def words(some):
    """A pattern of exactly these words."""
    return f"(?:{'|'.join(some)}){END_OF_WORD}"


def patterns(language):
    """In the order in which they are tried if several begin at one place."""
    yield {"name": "comment.line.double-dash.scald", "match": "--.*$"}
    yield {
        "name": "string.quoted.double.scald",
        "match": f'"([^"]*?)({ASSERTION})?"',
        "captures": {"1": {"name": "variable.other.net.scald"}, "2": {"name": "storage.modifier.assertion.scald"}},
    }
    yield {"name": "keyword.control.scald", "match": words(language.keywords)}
    yield {"name": "constant.language.scald", "match": words(language.constants)}
    yield {"name": "support.function.kind.scald", "match": words(kind.word for kind in language.kinds)}
    yield {"name": "support.type.parameter.scald", "match": words(language.parameters)}
    yield {"name": "storage.modifier.hazard.scald", "match": rf"!\s*H{END_OF_WORD}"}
    yield {"name": "constant.numeric.scald", "match": "[0-9]+"}
    yield {"name": "entity.name.scald", "match": "[A-Za-z][A-Za-z0-9_]*"}
    yield {"name": "keyword.operator.scald", "match": r"->|[=+*/&!<>-]"}
    yield {"name": "punctuation.scald", "match": r"[;:,()\[\]{}]"}


def textmate(language):
    grammar = {
        "name": "SCALD",
        "scopeName": "source.scald",
        "fileTypes": ["scald"],
        "patterns": list(patterns(language)),
    }
    return json.dumps(grammar, indent=2) + "\n"


VIM = r"""" Vim syntax file of drawings of scald. Made from docs/LANGUAGE.md.
if exists("b:current_syntax")
  finish
endif

syntax case match
syntax match scaldOperator "->\|[=+*/&!<>-]"
syntax match scaldNumber "\<[0-9]\+"
syntax match scaldHazard "!\s*H\>"
syntax match scaldAssertion " \.[PCS][-0-9,]*\%(([0-9]\+,[0-9]\+)\)\?L\?\ze\"" contained
syntax match scaldName +"[^"]*"+ contains=scaldAssertion
syntax match scaldComment "--.*$"
syntax keyword scaldKeyword {keywords}
syntax keyword scaldConstant {constants}
syntax keyword scaldKind {kinds}
syntax keyword scaldParameter {parameters}

highlight default link scaldOperator Operator
highlight default link scaldNumber Number
highlight default link scaldHazard Special
highlight default link scaldAssertion Type
highlight default link scaldName String
highlight default link scaldComment Comment
highlight default link scaldKeyword Keyword
highlight default link scaldConstant Constant
highlight default link scaldKind Function
highlight default link scaldParameter Identifier

let b:current_syntax = "scald"
"""


def vim(language):
    parts = {
        "keywords": language.keywords,
        "constants": language.constants,
        "kinds": [kind.word for kind in language.kinds],
        "parameters": language.parameters,
    }
    text = VIM
    for name, some in parts.items():
        text = text.replace(f"{{{name}}}", " ".join(some))
    return text


VIM_DETECTION = "autocmd BufNewFile,BufRead *.scald setfiletype scald\n"
