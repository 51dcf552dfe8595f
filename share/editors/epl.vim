" Vim syntax file for monitors in EPL. Copy it to ~/.vim/syntax/epl.vim, and write in your vimrc:
"   autocmd BufRead,BufNewFile *.mon setfiletype epl
if exists("b:current_syntax")
  finish
endif

syn keyword eplStructure action event monitor returns new
syn keyword eplType boolean context dictionary integer listener sequence string
syn keyword eplConditional if then else
syn keyword eplRepeat while for in break continue
syn keyword eplStatement return die print log at route send to spawn
syn keyword eplEvent on all as wait within unmatched completed
syn keyword eplOperator and not or xor
syn keyword eplBoolean true false
syn keyword eplLevel CRIT FATAL ERROR WARN INFO DEBUG TRACE
syn match eplNumber "\<[0-9]\+\>"
syn match eplDuration "\<[0-9]\+\.[0-9]\+\>"
syn match eplArrow "->"
syn match eplEscape contained "\\[\"\\nrt]"
syn region eplString start=+"+ skip=+\\.+ end=+"+ oneline contains=eplEscape
syn match eplComment "//.*$" contains=eplTodo
syn region eplComment start="/\*" end="\*/" contains=eplTodo
syn keyword eplTodo contained TODO FIXME

hi def link eplStructure Structure
hi def link eplType Type
hi def link eplConditional Conditional
hi def link eplRepeat Repeat
hi def link eplStatement Statement
hi def link eplEvent Keyword
hi def link eplOperator Operator
hi def link eplBoolean Boolean
hi def link eplLevel Constant
hi def link eplNumber Number
hi def link eplDuration Float
hi def link eplArrow Operator
hi def link eplEscape SpecialChar
hi def link eplString String
hi def link eplComment Comment
hi def link eplTodo Todo

let b:current_syntax = "epl"
