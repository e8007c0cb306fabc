" The language of .rules files, described in docs/LANGUAGE.md.
if exists("b:current_syntax")
  finish
endif

syn match rulebookNumber /\<[0-9][0-9_]*\>/
syn match rulebookSign /<=\|>=\|<>\|[-<>=+()\[\],|:.@]/
syn match rulebookStructure /\<\%(scope\|variable\|label\|record\|unused\)\>/
syn match rulebookStructure /\<sub-scope\>/
syn match rulebookClause /\<\%(define\|rule\|exception\|to\|under\|condition\|as\)\>/
syn match rulebookOperator /\<\%(and\|or\|not\|if\|then\|else\|default\|none\)\>/
syn match rulebookConstant /\<\%(yes\|no\|empty\|conflict\)\>/
syn match rulebookType /\<number\>/
syn match rulebookType "\<yes/no\>"
syn match rulebookComment /#.*$/

hi def link rulebookNumber Number
hi def link rulebookSign Operator
hi def link rulebookStructure Structure
hi def link rulebookClause Statement
hi def link rulebookOperator Conditional
hi def link rulebookConstant Boolean
hi def link rulebookType Type
hi def link rulebookComment Comment

setlocal commentstring=#\ %s
let b:current_syntax = "rulebook"
